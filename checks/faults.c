// Loaded before the program by checks/faults: refuses one call, or moves one byte a call. What it does is in the environment:
//   FAULT=alloc, read, write, out, thread   which calls are counted; out: writes to standard output alone
//   FAULT=other, open                       other: allocations of any thread but the main one; open: a file's opening, and
//                                           none of `/`, which only holds the place of a closed stream
//   FAULT_AT=K                              the Kth of them is refused, from 1
//   FAULT_ON=1                              and all after it
//   FAULT_ERROR=E                           with this error number; 0: nothing is moved, and no error is told
//   FAULT_MARK=FILE                         made when a call is refused
//   FAULT_SHORT=1                           each read and write moves one byte
// A run that ends before each thread that it started is joined is aborted.
#define _GNU_SOURCE
#include <errno.h>
#include <fcntl.h>
#include <pthread.h>
#include <dlfcn.h>
#include <stdarg.h>
#include <stdatomic.h>
#include <stdlib.h>
#include <string.h>
#include <sys/syscall.h>
#include <sys/uio.h>
#include <unistd.h>

extern void *__libc_malloc(size_t);
extern void *__libc_calloc(size_t, size_t);
extern void *__libc_realloc(void *, size_t);
extern void *__libc_memalign(size_t, size_t);

static atomic_long calls, threads;

static const char *said(const char *name) {
    extern char **environ;
    size_t n = strlen(name);
    for (char **at = environ; at && *at; at++)
        if (!strncmp(*at, name, n) && (*at)[n] == '=') return *at + n + 1;
    return NULL;
}

// Counts a call of this kind, and says whether it is refused.
static int refused(const char *kind) {
    const char *wanted = said("FAULT"), *at = said("FAULT_AT"), *mark = said("FAULT_MARK");
    if (!wanted || !at || strcmp(wanted, kind)) return 0;
    long k = atomic_fetch_add(&calls, 1) + 1, wants = atol(at);
    if (k != wants && !(said("FAULT_ON") && k > wants)) return 0;
    if (mark) syscall(SYS_close, syscall(SYS_openat, AT_FDCWD, mark, O_CREAT | O_WRONLY, 0600));
    errno = said("FAULT_ERROR") ? atoi(said("FAULT_ERROR")) : EIO;
    return 1;
}

static int no_memory(void) { return refused("alloc") || (syscall(SYS_gettid) != getpid() && refused("other")); }
static void *none(void) { errno = ENOMEM; return NULL; }

void *malloc(size_t size) { return no_memory() ? none() : __libc_malloc(size); }
void *calloc(size_t many, size_t size) { return no_memory() ? none() : __libc_calloc(many, size); }
void *realloc(void *old, size_t size) { return no_memory() ? none() : __libc_realloc(old, size); }
void *memalign(size_t align, size_t size) { return no_memory() ? none() : __libc_memalign(align, size); }
void *aligned_alloc(size_t align, size_t size) { return no_memory() ? none() : __libc_memalign(align, size); }
int posix_memalign(void **to, size_t align, size_t size) {
    void *got = no_memory() ? NULL : __libc_memalign(align, size);
    if (!got) return ENOMEM;
    *to = got;
    return 0;
}

int open(const char *path, int how, ...) {
    va_list more;
    va_start(more, how);
    mode_t mode = how & O_CREAT ? va_arg(more, mode_t) : 0;
    va_end(more);
    return strcmp(path, "/") && refused("open") ? -1 : syscall(SYS_openat, AT_FDCWD, path, how, mode);
}

static size_t most(size_t size) { return said("FAULT_SHORT") && size > 1 ? 1 : size; }

ssize_t read(int file, void *to, size_t size) {
    if (refused("read")) return errno ? -1 : 0;
    return syscall(SYS_read, file, to, most(size));
}

ssize_t write(int file, const void *from, size_t size) {
    if (refused("write") || (file == 1 && refused("out"))) return errno ? -1 : 0;
    return syscall(SYS_write, file, from, most(size));
}

ssize_t readv(int file, const struct iovec *parts, int many) {
    for (int i = 0; i < many; i++)
        if (parts[i].iov_len) return read(file, parts[i].iov_base, parts[i].iov_len);
    return 0;
}

ssize_t writev(int file, const struct iovec *parts, int many) {
    for (int i = 0; i < many; i++)
        if (parts[i].iov_len) return write(file, parts[i].iov_base, parts[i].iov_len);
    return 0;
}

// The function of this name that the one of this file stands before.
static void *real(const char *name) { return dlsym(RTLD_NEXT, name); }

int pthread_create(pthread_t *thread, const pthread_attr_t *how, void *(*start)(void *), void *with) {
    static int (*create)(pthread_t *, const pthread_attr_t *, void *(*)(void *), void *);
    if (!create) create = real("pthread_create");
    if (refused("thread")) return EAGAIN;
    int error = create(thread, how, start, with);
    if (!error) atomic_fetch_add(&threads, 1);
    return error;
}

int pthread_join(pthread_t thread, void **result) {
    int (*join)(pthread_t, void **) = real("pthread_join");
    int error = join(thread, result);
    if (!error) atomic_fetch_sub(&threads, 1);
    return error;
}

__attribute__((destructor)) static void all_joined(void) {
    if (atomic_load(&threads)) abort();
}

void _exit(int status) {
    all_joined();
    for (;;) syscall(SYS_exit_group, status);
}
