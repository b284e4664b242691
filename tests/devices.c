// Stands between the program that it is preloaded into and standard input and output. A read takes at most $READ_MOST bytes, a write
// gives at most $WRITE_MOST, where these are set. Read number $READ_AT, from 1, fails with the error $READ_ERROR, and write number
// $WRITE_AT with $WRITE_ERROR; with the error 0 it ends with 0 bytes. None fails where the number is 0. At the end it writes three
// numbers to the file descriptor $DEVICES_TELL: how many reads and writes there were, and how many bytes were read. tests/devices compiles
// and uses it.
#define _GNU_SOURCE
#include <errno.h>
#include <stdatomic.h>
#include <stddef.h>
#include <stdio.h>
#include <stdlib.h>
#include <sys/syscall.h>
#include <unistd.h>

struct device {
    int file;
    long most, at, error;
    atomic_long calls, bytes;
};

static struct device source = {.file = 0}, sink = {.file = 1};
static long tells = -1;

static long number(const char *name, long absent) {
    const char *text = getenv(name);
    return text ? atol(text) : absent;
}

__attribute__((constructor)) static void begin(void) {
    source.most = number("READ_MOST", 0);
    source.at = number("READ_AT", 0);
    source.error = number("READ_ERROR", 0);
    sink.most = number("WRITE_MOST", 0);
    sink.at = number("WRITE_AT", 0);
    sink.error = number("WRITE_ERROR", 0);
    tells = number("DEVICES_TELL", -1);
}

__attribute__((destructor)) static void tell(void) {
    char text[100];
    long reads = atomic_load(&source.calls), writes = atomic_load(&sink.calls), bytes = atomic_load(&source.bytes);
    int length = snprintf(text, sizeof text, "%ld %ld %ld\n", reads, writes, bytes);
    if (tells >= 0 && syscall(SYS_write, (int)tells, text, (size_t)length) != length) abort();
    tells = -1;
}

// How the program ends.
void _exit(int status) {
    tell();
    for (;;) syscall(SYS_exit_group, status);
}

// One call of a device: it fails, or it is the kernel's, of no more bytes than at most.
static ssize_t call(struct device *device, long kernel, int file, void *bytes, size_t count) {
    if (file != device->file) return syscall(kernel, file, bytes, count);
    if (atomic_fetch_add(&device->calls, 1) + 1 == device->at) {
        errno = (int)device->error;
        return device->error ? -1 : 0;
    }
    size_t most = device->most && (size_t)device->most < count ? (size_t)device->most : count;
    ssize_t moved = syscall(kernel, file, bytes, most);
    if (moved > 0) atomic_fetch_add(&device->bytes, moved);
    return moved;
}

ssize_t read(int file, void *bytes, size_t count) { return call(&source, SYS_read, file, bytes, count); }

ssize_t write(int file, const void *bytes, size_t count) { return call(&sink, SYS_write, file, (void *)bytes, count); }
