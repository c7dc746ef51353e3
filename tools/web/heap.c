// The heap of page/dine.wasm and bindings/dine_ffi.wasm, which the kit has not yet on wasm64. Blocks lie one behind the
// other, without gaps, up to `top`. A block that is freed is joined with free blocks before and behind it, and gives what
// a smaller block does not need back when it is taken. So if no block is taken, all memory is one piece again, and memory
// is refused only if no free piece is large enough.
//
// Free blocks are in lists by size: up to 512 bytes a list for each multiple of 16, and above that eight lists between
// one power of two and the next. This is the "two-level segregated fit" of Masmano, Ripoll, Crespo and Real (2004).
typedef unsigned char byte;
typedef unsigned long long u64;

enum { HEADER = 16, LEAST = 32, SMALL = 512, LISTS = 256, PAGE = 65536 };

// After the memory is lowered to 32 bits, no address can be larger.
static const u64 END = 0xffff0000;

extern byte __heap_base;

// A block begins with this header. What is taken of it begins behind `before`, and is a multiple of 16.
struct block {
  u64 size;    // In bytes, with the header; the last bit is set if the block is free.
  u64 before;  // The size of the block before this one, or 0 if this is the first.
  struct block *next, *last;  // Only in a free block: its neighbours in the list.
};

static struct block *lists[LISTS];
static u64 filled[LISTS / 64];  // A bit for each list that is not empty.
static u64 bottom, top, before_top;

static u64 size_of(const struct block *it) { return it->size & ~1ull; }
static int is_free(const struct block *it) { return it->size & 1; }
static struct block *behind(struct block *it) { return (struct block *)((byte *)it + size_of(it)); }
static struct block *before(struct block *it) { return (struct block *)((byte *)it - it->before); }
static struct block *block_of(byte *at) { return (struct block *)(at - HEADER); }

// The list of free blocks of this size.
static int list_of(u64 size) {
  if (size < SMALL) return (int)(size / 16);
  int bits = 63 - __builtin_clzll(size);
  return 32 + (bits - 9) * 8 + (int)((size >> (bits - 3)) & 7);
}

// The first list that has no block smaller than this.
static int list_for(u64 size) {
  if (size < SMALL) return list_of(size);
  u64 step = 1ull << (63 - __builtin_clzll(size) - 3);
  return list_of(size + step - 1);
}

static void put_into_list(struct block *it) {
  int n = list_of(size_of(it));
  it->size |= 1;
  it->last = 0;
  it->next = lists[n];
  if (it->next) it->next->last = it;
  lists[n] = it;
  filled[n / 64] |= 1ull << (n % 64);
}

static void take_from_list(struct block *it) {
  int n = list_of(size_of(it));
  it->size &= ~1ull;
  if (it->next) it->next->last = it->last;
  if (it->last) it->last->next = it->next;
  else lists[n] = it->next;
  if (!lists[n]) filled[n / 64] &= ~(1ull << (n % 64));
}

// Notes the size of a block in the one behind it.
static void note_size(struct block *it) {
  if ((u64)behind(it) == top) before_top = size_of(it);
  else behind(it)->before = size_of(it);
}

// A free block of at least this size, or 0: one of the first list in which all are large enough, else one of its own list.
static struct block *found(u64 size) {
  int n = list_for(size);
  for (int word = n / 64; word < LISTS / 64; word++) {
    u64 bits = filled[word];
    if (word == n / 64) bits &= ~0ull << (n % 64);
    if (bits) return lists[word * 64 + __builtin_ctzll(bits)];
  }
  for (struct block *it = lists[list_of(size)]; it; it = it->next)
    if (size_of(it) >= size) return it;
  return 0;
}

// Makes the memory reach up to `end`, and returns whether it does.
static int reaches(u64 end) {
  if (end > END) return 0;
  u64 there = __builtin_wasm_memory_size(0) * PAGE;
  if (end > there) __builtin_wasm_memory_grow(0, (end - there + PAGE - 1) / PAGE);
  return end <= __builtin_wasm_memory_size(0) * PAGE;
}

// Frees a block that is in no list.
static void freed(struct block *it) {
  if ((u64)behind(it) != top && is_free(behind(it))) {
    struct block *next = behind(it);
    take_from_list(next);
    it->size += size_of(next);
  }
  if (it->before && is_free(before(it))) {
    u64 size = size_of(it);
    it = before(it);
    take_from_list(it);
    it->size += size;
  }
  if ((u64)behind(it) == top) {
    top = (u64)it;
    before_top = it->before;
  } else {
    note_size(it);
    put_into_list(it);
  }
}

// Gives back what a block has above this size.
static void cut(struct block *it, u64 size) {
  u64 rest = size_of(it) - size;
  if (rest < LEAST) return;
  it->size = size;
  struct block *other = behind(it);
  other->size = rest;
  other->before = size;
  note_size(other);
  freed(other);
}

// The size of a block for so many bytes.
static u64 block_size(u64 bytes) {
  u64 size = (bytes + HEADER + 15) / 16 * 16;
  return size < LEAST ? LEAST : size;
}

static byte *taken(u64 bytes) {
  if (bytes > END) return 0;
  u64 size = block_size(bytes);
  struct block *it = found(size);
  if (it) {
    take_from_list(it);
    cut(it, size);
    return (byte *)it + HEADER;
  }
  if (!bottom) bottom = top = ((u64)&__heap_base + HEADER - 1) / HEADER * HEADER;
  if (!reaches(top + size)) return 0;
  it = (struct block *)top;
  it->size = size;
  it->before = before_top;
  before_top = size;
  top += size;
  return (byte *)it + HEADER;
}

// Makes a block larger where it is, if there is space behind it, and returns whether it did.
static int grown(struct block *it, u64 size) {
  struct block *next = behind(it);
  if ((u64)next == top) {
    if (!reaches((u64)it + size)) return 0;
    it->size = size;
    before_top = size;
    top = (u64)it + size;
    return 1;
  }
  if (!is_free(next) || size_of(it) + size_of(next) < size) return 0;
  take_from_list(next);
  it->size += size_of(next);
  note_size(it);
  cut(it, size);
  return 1;
}

struct tried {
  u64 ok;
  byte *at;
};

// What compiled Rattle calls. No type of it has an alignment of more than 16 bytes.
struct tried rattle_alloc(u64 bytes, u64 align) {
  byte *at = taken(bytes);
  return (struct tried){at != 0, at};
}

void rattle_dealloc(byte *at) { freed(block_of(at)); }

struct tried rattle_realloc(byte *old, u64 kept, u64 bytes, u64 align) {
  if (bytes > END) return (struct tried){0, 0};
  u64 size = block_size(bytes);
  if (size <= size_of(block_of(old))) {
    cut(block_of(old), size);
    return (struct tried){1, old};
  }
  if (grown(block_of(old), size)) return (struct tried){1, old};
  byte *at = taken(bytes);
  if (at) {
    __builtin_memcpy(at, old, kept);
    rattle_dealloc(old);
  }
  return (struct tried){at != 0, at};
}

// For the page: memory for arguments and answers, or 0 if there is none; and a heap in which nothing is taken.
byte *room(u64 bytes) { return taken(bytes); }

void leave(byte *at) { rattle_dealloc(at); }

void reset(void) {
  for (int n = 0; n < LISTS; n++) lists[n] = 0;
  for (int word = 0; word < LISTS / 64; word++) filled[word] = 0;
  top = bottom;
  before_top = 0;
}
