/* Loaded before a program (LD_PRELOAD): counts its calls of a kind, and refuses one of them.
 *
 * KIND is that kind: `growth` of memory, which it is where there is no such variable, `thread` that is made, or `connection`
 * that is made or accepted.
 * GROWTHS names a file of eight bytes, in which the count stands, also of a program that was stopped.
 * REFUSED is the number of the call that is refused, from 1; with 0 none is.
 */
#define _GNU_SOURCE
#include <dlfcn.h>
#include <errno.h>
#include <fcntl.h>
#include <pthread.h>
#include <stdint.h>
#include <stdlib.h>
#include <string.h>
#include <sys/mman.h>
#include <sys/socket.h>

extern void *__libc_malloc(size_t);
extern void *__libc_realloc(void *, size_t);

enum kind { GROWTH, THREAD, CONNECTION };

static uint64_t *calls;
static uint64_t refused;
static enum kind counted;

__attribute__((constructor)) static void start(void)
{
    const char *name = getenv("GROWTHS"), *which = getenv("REFUSED"), *kind = getenv("KIND");
    int file = name ? open(name, O_RDWR) : -1;
    void *count = file < 0 ? MAP_FAILED
                           : mmap(0, sizeof *calls, PROT_READ | PROT_WRITE, MAP_SHARED, file, 0);
    if (count == MAP_FAILED || !which)
        abort();
    if (kind && !strcmp(kind, "thread"))
        counted = THREAD;
    if (kind && !strcmp(kind, "connection"))
        counted = CONNECTION;
    refused = strtoull(which, 0, 10);
    calls = count;
}

static int is_refused(enum kind kind)
{
    return calls && kind == counted && __atomic_add_fetch(calls, 1, __ATOMIC_RELAXED) == refused;
}

void *malloc(size_t size)
{
    return is_refused(GROWTH) ? 0 : __libc_malloc(size);
}

void *realloc(void *old, size_t size)
{
    return is_refused(GROWTH) ? 0 : __libc_realloc(old, size);
}

int pthread_create(pthread_t *thread, const pthread_attr_t *attributes, void *(*work)(void *), void *argument)
{
    static int (*create)(pthread_t *, const pthread_attr_t *, void *(*)(void *), void *);
    if (is_refused(THREAD))
        return EAGAIN;
    if (!create)
        create = dlsym(RTLD_NEXT, "pthread_create");
    return create(thread, attributes, work, argument);
}

int connect(int socket, const struct sockaddr *address, socklen_t length)
{
    static int (*make)(int, const struct sockaddr *, socklen_t);
    if (is_refused(CONNECTION)) {
        errno = ECONNREFUSED;
        return -1;
    }
    if (!make)
        make = dlsym(RTLD_NEXT, "connect");
    return make(socket, address, length);
}

/* Of calls that find no connection, none is counted. */
int accept4(int socket, struct sockaddr *address, socklen_t *length, int flags)
{
    static int (*take)(int, struct sockaddr *, socklen_t *, int);
    static int (*give_up)(int);
    if (!take) {
        give_up = dlsym(RTLD_NEXT, "close");
        take = dlsym(RTLD_NEXT, "accept4");
    }
    int taken = take(socket, address, length, flags);
    if (taken >= 0 && is_refused(CONNECTION)) {
        give_up(taken);
        errno = ECONNABORTED;
        return -1;
    }
    return taken;
}
