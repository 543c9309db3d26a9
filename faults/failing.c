/* Makes calls of a program fail, as the variable FAULT selects. It is loaded before the C library.
 *
 *     memory N     the Nth allocation fails
 *     read N       the Nth read of standard input fails
 *     write N      the Nth write of standard output fails
 *     stall N      the Nth write of standard output takes 0 bytes
 *     thread N     the Nth thread can't be started
 *     bytes 0      each read of standard input returns at most one byte, each write of standard output takes one
 *
 * At that call it writes a byte to the descriptor FAULT_TOLD. */
#define _GNU_SOURCE
#include <dlfcn.h>
#include <errno.h>
#include <pthread.h>
#include <stdlib.h>
#include <string.h>
#include <sys/syscall.h>
#include <unistd.h>

extern void *__libc_malloc(size_t size);
extern void *__libc_realloc(void *block, size_t size);

static char kind;
static unsigned long wanted, calls;

__attribute__((constructor)) static void begin(void)
{
    const char *fault = getenv("FAULT");
    const char *number = fault == NULL ? NULL : strchr(fault, ' ');
    if (number != NULL) {
        wanted = strtoul(number, NULL, 10);
        kind = fault[0];
    }
}

/* Returns whether this call is the one to fail. Threads may call at once. */
static int is_met(char of)
{
    if (kind != of || __atomic_add_fetch(&calls, 1, __ATOMIC_SEQ_CST) != wanted)
        return 0;
    const char *reported = getenv("FAULT_TOLD");
    if (reported != NULL)
        syscall(SYS_write, atoi(reported), "!", 1);
    return 1;
}

int pthread_create(pthread_t *thread, const pthread_attr_t *attributes, void *(*start)(void *), void *argument)
{
    int (*create)(pthread_t *, const pthread_attr_t *, void *(*)(void *), void *) = dlsym(RTLD_NEXT, "pthread_create");
    return is_met('t') ? EAGAIN : create(thread, attributes, start, argument);
}

static ssize_t failed(int error)
{
    errno = error;
    return -1;
}

void *malloc(size_t size)
{
    if (is_met('m')) {
        errno = ENOMEM;
        return NULL;
    }
    return __libc_malloc(size);
}

void *realloc(void *block, size_t size)
{
    if (is_met('m')) {
        errno = ENOMEM;
        return NULL;
    }
    return __libc_realloc(block, size);
}

ssize_t read(int stream, void *buffer, size_t size)
{
    if (stream == STDIN_FILENO && is_met('r'))
        return failed(EIO);
    if (stream == STDIN_FILENO && kind == 'b' && size > 1)
        size = 1;
    return syscall(SYS_read, stream, buffer, size);
}

ssize_t write(int stream, const void *buffer, size_t size)
{
    if (stream == STDOUT_FILENO && is_met('w'))
        return failed(EIO);
    if (stream == STDOUT_FILENO && is_met('s'))
        return 0;
    if (stream == STDOUT_FILENO && kind == 'b' && size > 1)
        size = 1;
    return syscall(SYS_write, stream, buffer, size);
}

ssize_t __write(int stream, const void *buffer, size_t size)
{
    return write(stream, buffer, size);
}
