/* Stands between a program and libc, by LD_PRELOAD: lets one call fail, or each give or take one byte. FAULT is the kind, FAULT_AT which
 * call of that kind it is, from 1, and FAULT_TOLD a file that is made once it has come. Only calls that the program makes itself are
 * counted: reads, writes to standard output, allocations, and threads that are made. */
#define _GNU_SOURCE
#include <dlfcn.h>
#include <errno.h>
#include <fcntl.h>
#include <pthread.h>
#include <stdlib.h>
#include <string.h>
#include <sys/syscall.h>
#include <unistd.h>

extern void *__libc_malloc(size_t size);
extern void *__libc_realloc(void *block, size_t size);

static const char *fault, *told;
static long at, count;

__attribute__((constructor)) static void begin(void) {
    const char *place = getenv("FAULT_AT");
    fault = getenv("FAULT");
    told = getenv("FAULT_TOLD");
    at = place ? atol(place) : 0;
}

/* Whether this call is the one that is to fail. Nothing is allocated and no function of libc is called that the program could call. */
static int fails(const char *kind) {
    if (!fault || strcmp(fault, kind) != 0 || __atomic_add_fetch(&count, 1, __ATOMIC_SEQ_CST) != at) return 0;
    syscall(SYS_close, syscall(SYS_open, told, O_CREAT | O_WRONLY, 0600));
    return 1;
}

/* Whether this call gives or takes one byte. The file is made at the first that could have given or taken more. */
static int gives_a_byte(const char *kind, size_t size) {
    if (size < 2 || !fault || strcmp(fault, kind) != 0) return 0;
    if (__atomic_add_fetch(&count, 1, __ATOMIC_SEQ_CST) == 1)
        syscall(SYS_close, syscall(SYS_open, told, O_CREAT | O_WRONLY, 0600));
    return 1;
}

ssize_t read(int file, void *bytes, size_t size) {
    if (fails("read fails")) return errno = EIO, -1;
    if (fails("read is interrupted")) return errno = EINTR, -1;
    return syscall(SYS_read, file, bytes, gives_a_byte("reads give a byte", size) ? 1 : size);
}

static ssize_t put(int file, const void *bytes, size_t size) {
    if (file == STDOUT_FILENO) {
        if (fails("write fails")) return errno = EIO, -1;
        if (fails("write takes nothing")) return 0;
        if (fails("write is interrupted")) return errno = EINTR, -1;
        if (gives_a_byte("writes take a byte", size)) size = 1;
    }
    return syscall(SYS_write, file, bytes, size);
}

ssize_t write(int file, const void *bytes, size_t size) {
    return put(file, bytes, size);
}

ssize_t __write(int file, const void *bytes, size_t size) {
    return put(file, bytes, size);
}

void *malloc(size_t size) {
    return fails("allocation fails") ? (void *)(errno = ENOMEM, NULL) : __libc_malloc(size);
}

void *realloc(void *block, size_t size) {
    return fails("allocation fails") ? (void *)(errno = ENOMEM, NULL) : __libc_realloc(block, size);
}

int pthread_create(pthread_t *thread, const pthread_attr_t *attributes, void *(*function)(void *), void *data) {
    int (*make)(pthread_t *, const pthread_attr_t *, void *(*)(void *), void *);
    if (fails("thread fails")) return EAGAIN;
    *(void **)&make = dlsym(RTLD_NEXT, "pthread_create");
    return make(thread, attributes, function, data);
}
