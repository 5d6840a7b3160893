// An allocator that is loaded before the C library's own and refuses one allocation: the one whose number, counted from 1,
// stands in REFUSE; where REFUSE_ON is set, each one behind it too. At the end the number of allocations goes to the file
// that REFUSE_COUNT names, and for how many bytes they asked in all to the one that REFUSE_BYTES names.
#include <stddef.h>
#include <stdlib.h>
#include <unistd.h>
#include <stdio.h>
#include <string.h>
#include <errno.h>
#include <sys/syscall.h>
extern void *__libc_malloc(size_t);
extern void *__libc_realloc(void *, size_t);
extern void *__libc_calloc(size_t, size_t);
extern void *__libc_memalign(size_t, size_t);
static long wanted = -1;
static int goes_on = 0;
static _Atomic long made = 0;
static _Atomic long asked = 0;
__attribute__((constructor)) static void begin(void) { const char *n = getenv("REFUSE"); wanted = n ? atol(n) : 0; made = 0; goes_on = wanted > 0 && getenv("REFUSE_ON"); }
static void tell(const char *to, long number) {
    FILE *f = to ? fopen(to, "w") : NULL;
    if (f) { fprintf(f, "%ld\n", number); fclose(f); }
}
__attribute__((destructor)) static void end(void) {
    long made_so_far = made, asked_so_far = asked;
    wanted = -1;
    tell(getenv("REFUSE_COUNT"), made_so_far);
    tell(getenv("REFUSE_BYTES"), asked_so_far);
}
// A program with threads ends by this call, and runs no destructors.
void _exit(int status) { end(); syscall(SYS_exit_group, status); __builtin_unreachable(); }
static int refused(size_t bytes) {
    if (wanted < 0) return 0;
    asked += bytes;
    long number = ++made;
    if (number != wanted && !(goes_on && number > wanted)) return 0;
    errno = ENOMEM;
    return 1;
}
void *malloc(size_t n) { return refused(n) ? NULL : __libc_malloc(n); }
void *calloc(size_t n, size_t m) { return refused(n * m) ? NULL : __libc_calloc(n, m); }
void *realloc(void *p, size_t n) { return refused(n) ? NULL : __libc_realloc(p, n); }
void *memalign(size_t a, size_t n) { return refused(n) ? NULL : __libc_memalign(a, n); }
void *aligned_alloc(size_t a, size_t n) { return refused(n) ? NULL : __libc_memalign(a, n); }
int posix_memalign(void **p, size_t a, size_t n) { if (refused(n)) return ENOMEM; *p = __libc_memalign(a, n); return *p ? 0 : ENOMEM; }
