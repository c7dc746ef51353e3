/* Takes the place of malloc, calloc and realloc in a program: the allocation fails whose number is in the environment,
   counted from 1 over all threads. Then a byte is written to a pipe. The other calls go on to the C library. */
typedef unsigned long size_t;
extern void *__libc_malloc(size_t), *__libc_calloc(size_t, size_t), *__libc_realloc(void *, size_t);
extern char *getenv(const char *);
extern int atoi(const char *);
extern long write(int, const void *, size_t);
extern int *__errno_location(void);
static int calls, refused = -1, pipe_end;

static int is_refused(void) {
    if (refused < 0) {
        char *number = getenv("DINE_REFUSED_CALL"), *pipe = getenv("DINE_REFUSED_PIPE");
        pipe_end = pipe ? atoi(pipe) : 2;
        refused = number ? atoi(number) : 0;
    }
    if (__atomic_add_fetch(&calls, 1, __ATOMIC_SEQ_CST) != refused) return 0;
    write(pipe_end, "!", 1);
    *__errno_location() = 12; /* ENOMEM */
    return 1;
}
void *malloc(size_t size) { return is_refused() ? 0 : __libc_malloc(size); }
void *calloc(size_t count, size_t size) { return is_refused() ? 0 : __libc_calloc(count, size); }
void *realloc(void *block, size_t size) { return is_refused() ? 0 : __libc_realloc(block, size); }
