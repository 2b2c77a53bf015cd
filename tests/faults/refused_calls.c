// Loaded before the C library (LD_PRELOAD), counts calls of a program and refuses those that it is told to. FAULTS names a file of one rule for each kind of
// call, in the order of KINDS (faults.py has it too), which the program shares with whoever tests it: both may read and write it while the program runs.
#include <dlfcn.h>
#include <errno.h>
#include <fcntl.h>
#include <pthread.h>
#include <stdatomic.h>
#include <stdint.h>
#include <stdlib.h>
#include <sys/mman.h>
#include <sys/socket.h>
#include <sys/types.h>
#include <unistd.h>

// Memory is malloc, calloc and realloc together; that of the acceptor is what a thread asks for that has taken a connection, and the third kind of read is one
// of a connection that was taken.
enum kind { MEMORY, ACCEPTOR_MEMORY, PWRITE, PREAD, FDATASYNC, FSYNC, READ, WRITE, SEND, RECV, TAKEN_RECV, ACCEPT, CONNECT, THREAD, KINDS };

#define DESCRIPTORS 4096

// Where the number of a call, counted from 1, is from `first` to `last`, and so is each `every`-th from `first` on, it is refused with the error `how`; one of
// bytes is made for half of them where that is 0.
struct rule {
    _Atomic uint64_t calls, refused, first, last, every, how, spare[2];
};

enum answer { MADE, SHORT, REFUSED };

static struct rule nothing[KINDS];
static struct rule *rules = nothing;
static atomic_char is_taken[DESCRIPTORS];
static _Thread_local int has_accepted __attribute__((tls_model("initial-exec")));

static int (*real_accept4)(int, struct sockaddr *, socklen_t *, int);
static int (*real_connect)(int, const struct sockaddr *, socklen_t);
static int (*real_fdatasync)(int), (*real_fsync)(int);
static int (*real_pthread_create)(pthread_t *, const pthread_attr_t *, void *(*)(void *), void *);
static ssize_t (*real_pread)(int, void *, size_t, off_t), (*real_pwrite)(int, const void *, size_t, off_t);
static ssize_t (*real_read)(int, void *, size_t), (*real_write)(int, const void *, size_t);
static ssize_t (*real_recv)(int, void *, size_t, int), (*real_send)(int, const void *, size_t, int);

#define FIND(name) (*(void **)&real_##name = dlsym(RTLD_NEXT, #name))

static void find_calls(void) {
    FIND(accept4), FIND(connect), FIND(fdatasync), FIND(fsync), FIND(pthread_create), FIND(pread), FIND(pwrite);
    FIND(read), FIND(write), FIND(recv), FIND(send);
}

__attribute__((constructor)) static void begin(void) {
    const char *name = getenv("FAULTS");
    find_calls();
    int file = name ? open(name, O_RDWR | O_CLOEXEC) : -1;
    void *shared = file < 0 ? MAP_FAILED : mmap(NULL, KINDS * sizeof(struct rule), PROT_READ | PROT_WRITE, MAP_SHARED, file, 0);
    if (shared == MAP_FAILED) {
        abort();
    }
    close(file);
    rules = shared;
}

// Counts a call, and says what becomes of it. A refused one has its error set.
static enum answer next_of(enum kind kind) {
    struct rule *rule = &rules[kind];
    uint64_t number = ++rule->calls, first = rule->first, every = rule->every;
    if (first == 0 || number < first || rule->last < number || (every && (number - first) % every)) {
        return MADE;
    }
    ++rule->refused;
    if (rule->how == 0) {
        return SHORT;
    }
    errno = (int)rule->how;
    return REFUSED;
}

static int is_refused(enum kind kind) {
    return next_of(kind) == REFUSED;
}

static size_t half(enum answer answer, size_t length) {
    return answer == SHORT && length > 1 ? length / 2 : length;
}

#define BYTES(kind, call, length)                     \
    enum answer answer = next_of(kind);               \
    return answer == REFUSED ? -1 : (length = half(answer, length), call)

ssize_t pwrite(int file, const void *bytes, size_t length, off_t at) {
    BYTES(PWRITE, real_pwrite(file, bytes, length, at), length);
}

ssize_t pread(int file, void *bytes, size_t length, off_t at) {
    BYTES(PREAD, real_pread(file, bytes, length, at), length);
}

ssize_t read(int file, void *bytes, size_t length) {
    BYTES(READ, real_read(file, bytes, length), length);
}

ssize_t write(int file, const void *bytes, size_t length) {
    BYTES(WRITE, real_write(file, bytes, length), length);
}

ssize_t __write(int file, const void *bytes, size_t length) {
    return write(file, bytes, length);
}

ssize_t recv(int file, void *bytes, size_t length, int flags) {
    if (0 <= file && file < DESCRIPTORS && is_taken[file] && is_refused(TAKEN_RECV)) {
        return -1;
    }
    BYTES(RECV, real_recv(file, bytes, length, flags), length);
}

ssize_t send(int file, const void *bytes, size_t length, int flags) {
    BYTES(SEND, real_send(file, bytes, length, flags), length);
}

int fdatasync(int file) {
    return is_refused(FDATASYNC) ? -1 : real_fdatasync(file);
}

int fsync(int file) {
    return is_refused(FSYNC) ? -1 : real_fsync(file);
}

int connect(int file, const struct sockaddr *address, socklen_t length) {
    if (0 <= file && file < DESCRIPTORS) {
        is_taken[file] = 0;
    }
    return is_refused(CONNECT) ? -1 : real_connect(file, address, length);
}

int accept4(int listener, struct sockaddr *address, socklen_t *length, int flags) {
    int found = is_refused(ACCEPT) ? -1 : real_accept4(listener, address, length, flags);
    if (0 <= found && found < DESCRIPTORS) {
        is_taken[found] = 1;
        has_accepted = 1;
    }
    return found;
}

int pthread_create(pthread_t *thread, const pthread_attr_t *attributes, void *(*run)(void *), void *given) {
    return is_refused(THREAD) ? errno : real_pthread_create(thread, attributes, run, given);
}

extern void *__libc_malloc(size_t);
extern void *__libc_calloc(size_t, size_t);
extern void *__libc_realloc(void *, size_t);

static int lacks_memory(void) {
    int is_lacking = is_refused(MEMORY);
    return (has_accepted && is_refused(ACCEPTOR_MEMORY)) || is_lacking;
}

void *malloc(size_t size) {
    return lacks_memory() ? NULL : __libc_malloc(size);
}

void *calloc(size_t count, size_t size) {
    return lacks_memory() ? NULL : __libc_calloc(count, size);
}

void *realloc(void *old, size_t size) {
    return lacks_memory() ? NULL : __libc_realloc(old, size);
}
