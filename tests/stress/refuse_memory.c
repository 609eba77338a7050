/* Counts the requests for memory of a program that is started with it (LD_PRELOAD), tells their number in the file ASKED,
   and refuses the one whose number is REFUSED. The number is told at the end, also of a program that ends by _exit. */
#define _GNU_SOURCE
#include <errno.h>
#include <fcntl.h>
#include <stdio.h>
#include <stdlib.h>
#include <sys/syscall.h>
#include <unistd.h>
extern void *__libc_malloc(size_t), *__libc_calloc(size_t, size_t), *__libc_realloc(void *, size_t), *__libc_memalign(size_t, size_t);
static long refused = -2, asked = 0;
static int refuse(void) {
    if (refused == -2) { const char *at = getenv("REFUSED"); refused = at ? atol(at) : -1; }
    return __atomic_add_fetch(&asked, 1, __ATOMIC_SEQ_CST) == refused;
}
void *malloc(size_t n) { if (refuse()) { errno = ENOMEM; return 0; } return __libc_malloc(n); }
void *calloc(size_t n, size_t m) { if (refuse()) { errno = ENOMEM; return 0; } return __libc_calloc(n, m); }
void *realloc(void *p, size_t n) { if (refuse()) { errno = ENOMEM; return 0; } return __libc_realloc(p, n); }
void *aligned_alloc(size_t a, size_t n) { if (refuse()) { errno = ENOMEM; return 0; } return __libc_memalign(a, n); }
int posix_memalign(void **p, size_t a, size_t n) { if (refuse()) return ENOMEM; *p = __libc_memalign(a, n); return *p ? 0 : ENOMEM; }
__attribute__((destructor)) static void tell(void) {
    const char *path = getenv("ASKED");
    int file = path ? open(path, O_WRONLY | O_CREAT | O_TRUNC, 0666) : -1;
    if (file >= 0) { dprintf(file, "%ld\n", asked); close(file); }
}
void _exit(int status) {
    tell();
    for (;;) syscall(SYS_exit_group, status);
}
