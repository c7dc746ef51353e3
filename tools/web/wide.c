// Three operations on 128 bits that LLVM calls on wasm64, where no library has them.
typedef unsigned long long u64;
typedef unsigned __int128 u128;

static u128 joined(u64 high, u64 low) {
  union {
    u64 half[2];
    u128 whole;
  } both = {{low, high}};
  return both.whole;
}

static u64 low_of(u128 a) { return (u64)a; }

static u64 high_of(u128 a) {
  union {
    u128 whole;
    u64 half[2];
  } both = {a};
  return both.half[1];
}

// The product, modulo 2^128, by the halves of 32 bits of the lower halves.
u128 __multi3(u128 a, u128 b) {
  u64 x = low_of(a), y = low_of(b), mask = 0xffffffff;
  u64 low = (x & mask) * (y & mask);
  u64 middle = (x >> 32) * (y & mask) + (low >> 32);
  u64 other = (x & mask) * (y >> 32) + (middle & mask);
  u64 high = (x >> 32) * (y >> 32) + (middle >> 32) + (other >> 32);
  return joined(high + high_of(a) * y + x * high_of(b), (other << 32) | (low & mask));
}

// Each shift is by less than 128.
u128 __lshrti3(u128 a, int by) {
  if (by == 0) return a;
  if (by >= 64) return joined(0, high_of(a) >> (by - 64));
  return joined(high_of(a) >> by, (high_of(a) << (64 - by)) | (low_of(a) >> by));
}

u128 __ashlti3(u128 a, int by) {
  if (by == 0) return a;
  if (by >= 64) return joined(low_of(a) << (by - 64), 0);
  return joined((high_of(a) << by) | (low_of(a) >> (64 - by)), low_of(a) << by);
}
