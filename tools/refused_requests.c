/* A library to preload: it refuses one request for memory of a program, or all from one on, and counts all of them. A request is a
   call of malloc, calloc or realloc; what a program asks for in other ways (aligned_alloc, mmap) is neither counted nor refused.
   REFUSED_REQUEST is the number of the request that is refused, the first being 1; 0 refuses none. REFUSED_ONWARDS, where it is set,
   refuses all that follow it too. REQUESTS_COUNTED, where it is set, is a file of eight bytes in which the requests so far are
   counted. */
#include <errno.h>
#include <fcntl.h>
#include <stddef.h>
#include <stdint.h>
#include <stdlib.h>
#include <sys/mman.h>
#include <unistd.h>

void *__libc_malloc(size_t), *__libc_calloc(size_t, size_t), *__libc_realloc(void *, size_t);

static uint64_t own, refused, *counted = &own;
static int onwards;

__attribute__((constructor)) static void begin(void) {
    const char *number = getenv("REFUSED_REQUEST"), *path = getenv("REQUESTS_COUNTED");
    int file = path ? open(path, O_RDWR) : -1;
    if (file >= 0) {
        void *shared = mmap(NULL, 8, PROT_READ | PROT_WRITE, MAP_SHARED, file, 0);
        counted = shared == MAP_FAILED ? &own : shared;
        close(file);
    }
    *counted = 0;
    refused = number ? strtoull(number, NULL, 10) : 0;
    onwards = getenv("REFUSED_ONWARDS") != NULL;
}

static int is_refused(void) {
    uint64_t number = ++*counted;
    int is = number == refused || (onwards && refused && number > refused);
    if (is) errno = ENOMEM;
    return is;
}

void *malloc(size_t size) { return is_refused() ? NULL : __libc_malloc(size); }
void *calloc(size_t count, size_t size) { return is_refused() ? NULL : __libc_calloc(count, size); }
void *realloc(void *old, size_t size) { return is_refused() ? NULL : __libc_realloc(old, size); }
