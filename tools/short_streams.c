/* A library to preload: it makes reads and writes of a program short, and fails one of them.
   SHORT_READ and SHORT_WRITE are the most bytes that one call moves; FAILED_READ and FAILED_WRITE are the numbers of the calls that
   fail, the first being 1. What isn't set shortens or fails nothing. */
#include <errno.h>
#include <stddef.h>
#include <stdint.h>
#include <stdlib.h>
#include <sys/syscall.h>
#include <unistd.h>

struct stream { size_t most, failed, calls; };

static struct stream reads, writes;

static size_t number_of(const char *name, size_t otherwise) {
    const char *number = getenv(name);
    return number ? strtoull(number, NULL, 10) : otherwise;
}

__attribute__((constructor)) static void begin(void) {
    reads = (struct stream){number_of("SHORT_READ", SIZE_MAX), number_of("FAILED_READ", 0), 0};
    writes = (struct stream){number_of("SHORT_WRITE", SIZE_MAX), number_of("FAILED_WRITE", 0), 0};
}

static ssize_t move(struct stream *stream, long call, int file, void *bytes, size_t count) {
    if (++stream->calls == stream->failed) {
        errno = EIO;
        return -1;
    }
    return syscall(call, file, bytes, count < stream->most ? count : stream->most);
}

ssize_t read(int file, void *bytes, size_t count) { return move(&reads, SYS_read, file, bytes, count); }
ssize_t write(int file, const void *bytes, size_t count) { return move(&writes, SYS_write, file, (void *)bytes, count); }
