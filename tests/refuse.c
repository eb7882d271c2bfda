/* Refuses calls of the system to a program that is started with LD_PRELOAD set to this library.
 *
 * REFUSE chooses the calls. KIND:N is the Nth call of a kind, KIND:N+ that one and all later ones,
 * KIND:=MASK those of the first 64 calls whose bits are set. KIND:short cuts each read or write to
 * one byte, and KIND:again interrupts every other one by a signal. The kinds are memory, read,
 * write, zero (a write that takes nothing), open, stat, thread, cut (a file is made shorter), sync,
 * rename, permit (a file's permissions are set), unlink, path (links are resolved) and close.
 *
 * The count of running threads is never given, so that a run has the workers of its command line
 * however busy the machine is.
 *
 * At the end the number of calls of each kind is written to the file that REFUSE_COUNT names. After
 * them follow the number of requests for LARGE bytes of memory or more (large), the number of
 * threads that made BUSY requests of any size or more (busy), and the permissions that regular files
 * of write had when they were opened and written to, all together (open_to).
 *
 *     cc -shared -fPIC -O1 -o refuse.so tests/refuse.c -ldl
 */
#define _GNU_SOURCE
#include <dlfcn.h>
#include <errno.h>
#include <fcntl.h>
#include <pthread.h>
#include <stdarg.h>
#include <stdio.h>
#include <stdlib.h>
#include <string.h>
#include <sys/stat.h>
#include <sys/syscall.h>
#include <unistd.h>

enum kind { MEMORY, READ, WRITE, OPEN, STAT, THREAD, CUT, SYNC, RENAME, PERMIT, UNLINK, REALPATH, CLOSE, KINDS };
enum { LARGE = 32768, BUSY = 100 };

extern void *__libc_malloc(size_t);
extern void *__libc_realloc(void *, size_t);

static const char *const names[KINDS] = {"memory", "read", "write", "open", "stat", "thread", "cut", "sync", "rename",
                                         "permit", "unlink", "path", "close"};
static unsigned long calls[KINDS];
static unsigned long from[KINDS], mask[KINDS];
static int onward[KINDS], cut[KINDS], again[KINDS], zero;
static unsigned long large, busy, open_to;
static __thread unsigned long own __attribute__((tls_model("initial-exec")));

__attribute__((constructor)) static void read_words(void) {
    const char *words = getenv("REFUSE");
    for (int k = 0; words && k < KINDS; k++) {
        size_t length = strlen(names[k]);
        const char *word = words;
        if (k == WRITE && !strncmp(word, "zero:", 5)) { zero = 1; length = 4; }
        else if (strncmp(word, names[k], length) || word[length] != ':') continue;
        word += length + 1;
        if (!strcmp(word, "short")) cut[k] = 1;
        else if (!strcmp(word, "again")) again[k] = 1;
        else if (*word == '=') mask[k] = strtoul(word + 1, 0, 0);
        else { from[k] = strtoul(word, 0, 0); onward[k] = strchr(word, '+') != 0; }
    }
}

static int refuses(enum kind k) {
    unsigned long n = __atomic_add_fetch(&calls[k], 1, __ATOMIC_SEQ_CST);
    if (mask[k]) return n <= 64 && (mask[k] >> (n - 1) & 1);
    return from[k] && (onward[k] ? n >= from[k] : n == from[k]);
}

static int is_interrupted(enum kind k) { return again[k] && (__atomic_load_n(&calls[k], __ATOMIC_SEQ_CST) & 1); }

static int fails(int why) { errno = why; return -1; }

static int refuses_memory(size_t size) {
    if (size >= LARGE) __atomic_add_fetch(&large, 1, __ATOMIC_SEQ_CST);
    if (++own == BUSY) __atomic_add_fetch(&busy, 1, __ATOMIC_SEQ_CST);
    return refuses(MEMORY);
}

void *malloc(size_t size) { return refuses_memory(size) ? (errno = ENOMEM, (void *)0) : __libc_malloc(size); }

void *realloc(void *old, size_t size) { return refuses_memory(size) ? (errno = ENOMEM, (void *)0) : __libc_realloc(old, size); }

ssize_t read(int file, void *to, size_t size) {
    if (refuses(READ)) return fails(EIO);
    return is_interrupted(READ) ? fails(EINTR) : syscall(SYS_read, file, to, cut[READ] && size > 1 ? 1 : size);
}

static void note_permissions(int file) {
    struct stat seen;
    if (file > 2 && !syscall(SYS_fstat, file, &seen) && S_ISREG(seen.st_mode))
        __atomic_or_fetch(&open_to, seen.st_mode & 07777, __ATOMIC_SEQ_CST);
}

ssize_t write(int file, const void *from_, size_t size) {
    note_permissions(file);
    if (file != 2 && refuses(WRITE)) return zero ? 0 : fails(ENOSPC);
    return is_interrupted(WRITE) ? fails(EINTR) : syscall(SYS_write, file, from_, cut[WRITE] && size > 1 ? 1 : size);
}

int open(const char *path, int flags, ...) {
    va_list more;
    va_start(more, flags);
    int mode = va_arg(more, int);
    va_end(more);
    if (!strcmp(path, "/proc/loadavg")) return fails(ENOENT);
    if (refuses(OPEN)) return fails(EMFILE);
    int file = syscall(SYS_openat, AT_FDCWD, path, flags, mode);
    if (flags & O_CREAT) note_permissions(file);
    return file;
}

int statx(int folder, const char *path, int flags, unsigned int wanted, struct statx *to) {
    return refuses(STAT) ? fails(EACCES) : (int)syscall(SYS_statx, folder, path, flags, wanted, to);
}

int ftruncate(int file, off_t size) { return refuses(CUT) ? fails(EIO) : (int)syscall(SYS_ftruncate, file, size); }

int fsync(int file) { return refuses(SYNC) ? fails(EIO) : (int)syscall(SYS_fsync, file); }

int rename(const char *from_, const char *to) { return refuses(RENAME) ? fails(EACCES) : (int)syscall(SYS_rename, from_, to); }

int fchmod(int file, mode_t mode) { return refuses(PERMIT) ? fails(EPERM) : (int)syscall(SYS_fchmod, file, mode); }

int unlink(const char *path) { return refuses(UNLINK) ? fails(EPERM) : (int)syscall(SYS_unlink, path); }

char *realpath(const char *restrict path, char *restrict to) {
    char *(*real)(const char *, char *) = dlsym(RTLD_NEXT, "realpath");
    return refuses(REALPATH) ? (errno = ENOENT, (char *)0) : real(path, to);
}

/* The file is closed also where its call is refused, as Linux has it. */
int close(int file) {
    int done = syscall(SYS_close, file);
    return refuses(CLOSE) ? fails(EIO) : done;
}

int pthread_create(pthread_t *to, const pthread_attr_t *how, void *(*body)(void *), void *with) {
    int (*real)(pthread_t *, const pthread_attr_t *, void *(*)(void *), void *) = dlsym(RTLD_NEXT, "pthread_create");
    return refuses(THREAD) ? EAGAIN : real(to, how, body, with);
}

void _exit(int status) {
    const char *path = getenv("REFUSE_COUNT");
    int file = path ? syscall(SYS_openat, AT_FDCWD, path, O_WRONLY | O_CREAT | O_TRUNC, 0600) : -1;
    for (int k = 0; file >= 0 && k < KINDS; k++) dprintf(file, "%s %lu\n", names[k], calls[k]);
    if (file >= 0) dprintf(file, "large %lu\nbusy %lu\nopen_to %lu\n", large, busy, open_to);
    syscall(SYS_exit_group, status);
    __builtin_unreachable();
}
