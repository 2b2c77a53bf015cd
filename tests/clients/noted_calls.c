// Loaded before the C library (LD_PRELOAD), notes the calls of a program on its files, and may make one of them fail. It reads:
//   NOTED_LOG     the file that a line is added to for each call, once it has returned: `open FD PATH`, `made FD PATH`, `length FD BYTES`,
//                 `write FD OFFSET BYTES`, `sync FD` (of a file or a folder) or `data FD`, and ` failed` behind it where it did
//   NOTED_FAILS   which of its syncs fails, the first being 1: nothing is asked of the system, and the answer is EIO
//   NOTED_LASTS   where it is there, each later one fails too
//   NOTED_TORN    which of its writes fails: the first half is written, and the answer is EIO
//   NOTED_BYTES   a file that what each of its writes wrote is added to, one behind the other
//   NOTED_IMAGE   a file of which what is durable is kept in another, NOTED_SYNCED: what was written is written there too, but only once a
//                 sync has come back well
// A program that never syncs keeps what it writes in memory until it ends.
#include <dlfcn.h>
#include <errno.h>
#include <fcntl.h>
#include <pthread.h>
#include <stdarg.h>
#include <stdio.h>
#include <stdlib.h>
#include <string.h>
#include <sys/stat.h>
#include <sys/syscall.h>
#include <sys/types.h>
#include <unistd.h>

struct written {
    off_t offset;
    size_t length;
    char *bytes;
    struct written *next;
};

static pthread_mutex_t lock = PTHREAD_MUTEX_INITIALIZER;
static int log_file = -1, synced_file = -1, bytes_file = -1;
static const char *image;
static long syncs, fails, writes, torn;
static int lasts;
static struct written *first, **last = &first;

static int open_plainly(const char *path, int flags) {
    return (int)syscall(SYS_openat, AT_FDCWD, path, flags | O_CLOEXEC, 0666);
}

__attribute__((constructor)) static void begin(void) {
    const char *log = getenv("NOTED_LOG"), *synced = getenv("NOTED_SYNCED"), *number = getenv("NOTED_FAILS"), *torn_number = getenv("NOTED_TORN");
    const char *written = getenv("NOTED_BYTES");
    image = getenv("NOTED_IMAGE");
    log_file = log ? open_plainly(log, O_WRONLY | O_CREAT | O_APPEND) : -1;
    synced_file = synced ? open_plainly(synced, O_WRONLY) : -1;
    bytes_file = written ? open_plainly(written, O_WRONLY | O_CREAT | O_APPEND) : -1;
    fails = number ? atol(number) : 0;
    lasts = getenv("NOTED_LASTS") != NULL;
    torn = torn_number ? atol(torn_number) : 0;
    if (log_file < 0 || (synced && synced_file < 0) || (written && bytes_file < 0)) {
        abort();
    }
}

static void note(int failed, const char *format, ...) {
    char line[4200];
    int before = errno;
    va_list values;
    va_start(values, format);
    int length = vsnprintf(line, sizeof line - 16, format, values);
    va_end(values);
    length += sprintf(line + length, failed ? " failed\n" : "\n");
    syscall(SYS_write, log_file, line, (size_t)length);
    errno = before;
}

static int opened(const char *name, const char *path, int flags, mode_t mode) {
    int (*real)(const char *, int, ...) = (int (*)(const char *, int, ...))dlsym(RTLD_NEXT, name);
    int file = real(path, flags, mode);
    note(file < 0, "%s %d %s", flags & O_CREAT ? "made" : "open", file, path);
    return file;
}

#define OPEN(name)                                      \
    int name(const char *path, int flags, ...) {        \
        va_list values;                                 \
        va_start(values, flags);                        \
        mode_t mode = (mode_t)va_arg(values, int);      \
        va_end(values);                                 \
        return opened(#name, path, flags, mode);        \
    }

OPEN(open)
OPEN(open64)

#define LENGTH(name)                                                              \
    int name(int file, off_t length) {                                            \
        int (*real)(int, off_t) = (int (*)(int, off_t))dlsym(RTLD_NEXT, #name);   \
        int result = real(file, length);                                          \
        note(result != 0, "length %d %lld", file, (long long)length);             \
        return result;                                                            \
    }

LENGTH(ftruncate)
LENGTH(ftruncate64)

static int is_image(int file) {
    struct stat one, other;
    return image && synced_file >= 0 && fstat(file, &one) == 0 && stat(image, &other) == 0
        && one.st_dev == other.st_dev && one.st_ino == other.st_ino;
}

static void keep(const void *bytes, size_t length, off_t offset) {
    struct written *made = malloc(sizeof *made);
    char *copy = malloc(length);
    if (made == NULL || copy == NULL) {
        abort();
    }
    memcpy(copy, bytes, length);
    *made = (struct written){.offset = offset, .length = length, .bytes = copy};
    *last = made;
    last = &made->next;
}

static void write_what_is_kept(void) {
    while (first != NULL) {
        struct written *next = first->next;
        if (syscall(SYS_pwrite64, synced_file, first->bytes, first->length, first->offset) != (long)first->length) {
            abort();
        }
        free(first->bytes);
        free(first);
        first = next;
    }
    last = &first;
}

#define WRITE(name)                                                                                                             \
    ssize_t name(int file, const void *bytes, size_t length, off_t offset) {                                                    \
        ssize_t (*real)(int, const void *, size_t, off_t) = (ssize_t (*)(int, const void *, size_t, off_t))dlsym(RTLD_NEXT, #name); \
        pthread_mutex_lock(&lock);                                                                                              \
        int is_torn = ++writes == torn;                                                                                         \
        ssize_t result = real(file, bytes, is_torn ? length / 2 : length, offset);                                              \
        note(result != (ssize_t)length, "write %d %lld %zu", file, (long long)offset, length);                                  \
        if (result > 0 && is_image(file)) {                                                                                     \
            keep(bytes, (size_t)result, offset);                                                                                \
        }                                                                                                                       \
        if (result > 0 && bytes_file >= 0 && syscall(SYS_write, bytes_file, bytes, (size_t)result) != result) {                 \
            abort();                                                                                                            \
        }                                                                                                                       \
        if (is_torn) {                                                                                                          \
            errno = EIO;                                                                                                        \
            result = -1;                                                                                                        \
        }                                                                                                                       \
        pthread_mutex_unlock(&lock);                                                                                            \
        return result;                                                                                                          \
    }

WRITE(pwrite)
WRITE(pwrite64)

static int synced(const char *name, const char *word, int file) {
    int (*real)(int) = (int (*)(int))dlsym(RTLD_NEXT, name);
    pthread_mutex_lock(&lock);
    syncs++;
    int result = -1;
    if (syncs == fails || (lasts && fails && syncs > fails)) {
        errno = EIO;
    } else {
        result = real(file);
    }
    note(result != 0, "%s %d", word, file);
    if (result == 0 && is_image(file)) {
        write_what_is_kept();
    }
    pthread_mutex_unlock(&lock);
    return result;
}

int fsync(int file) {
    return synced("fsync", "sync", file);
}

int fdatasync(int file) {
    return synced("fdatasync", "data", file);
}
