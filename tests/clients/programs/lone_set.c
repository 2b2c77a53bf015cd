// lone_set FOLDER BYTES SECONDS CLIENT PRIMARY STANDBY: does for a while what a lone SET costs at least, turn by turn, and prints the median and the
// 99th percentile of the microseconds of a turn of the client. Three processes, a client that is connected to a primary, and the primary to a standby,
// do in each turn what their list says, word by word: `w128@512` writes 128 bytes of a file of BYTES bytes in FOLDER from byte 512 on, `d` syncs the
// file's data, `s42` sends 42 bytes on the link, or from the client, `r17` waits for 17 of it, `a5` answers the client with 5 bytes, and `q45` waits
// for 45 of it. A turn of the client begins where its turn before has ended: it waits for each reply.
#include <arpa/inet.h>
#include <errno.h>
#include <fcntl.h>
#include <netinet/in.h>
#include <netinet/tcp.h>
#include <signal.h>
#include <stdint.h>
#include <stdio.h>
#include <stdlib.h>
#include <string.h>
#include <sys/prctl.h>
#include <sys/socket.h>
#include <time.h>
#include <unistd.h>

#define MOST_BYTES 65536
#define MOST_TURNS 4000000

static char bytes[MOST_BYTES];

static void fail(const char *what) {
    fprintf(stderr, "lone_set: %s: %s\n", what, strerror(errno));
    exit(1);
}

static uint64_t now(void) {
    struct timespec time;
    clock_gettime(CLOCK_MONOTONIC, &time);
    return (uint64_t)time.tv_sec * 1000000 + (uint64_t)time.tv_nsec / 1000;
}

static int file_in(const char *folder, const char *name, long length) {
    char path[4096];
    snprintf(path, sizeof path, "%s/%s", folder, name);
    int file = open(path, O_RDWR | O_CREAT | O_EXCL | O_CLOEXEC, 0600);
    if (file < 0 || ftruncate(file, length) != 0 || fsync(file) != 0) {
        fail(path);
    }
    unlink(path);
    return file;
}

// One word of a list.
static void do_one(const char *word, int file, int peer, int client) {
    char *rest;
    long length = strtol(word + 1, &rest, 10), offset = *rest == '@' ? atol(rest + 1) : 0;
    if (length < 0 || length > MOST_BYTES) {
        errno = EINVAL;
        fail(word);
    }
    switch (*word) {
        case 'w':
            bytes[0]++;
            if (pwrite(file, bytes, (size_t)length, offset) != length) {
                fail("a write");
            }
            break;
        case 'd':
            if (fdatasync(file) != 0) {
                fail("a sync");
            }
            break;
        case 's':
        case 'a':
            if (send(*word == 's' ? peer : client, bytes, (size_t)length, MSG_NOSIGNAL) != length) {
                fail("a send");
            }
            break;
        case 'r':
        case 'q':
            if (recv(*word == 'r' ? peer : client, bytes, (size_t)length, MSG_WAITALL) != length) {
                // (the other has ended)
                exit(0);
            }
            break;
        default:
            errno = EINVAL;
            fail(word);
    }
}

static void do_turn(const char *list, int file, int peer, int client) {
    char copy[4096], *place, *word;
    snprintf(copy, sizeof copy, "%s", list);
    for (word = strtok_r(copy, " ", &place); word != NULL; word = strtok_r(NULL, " ", &place)) {
        do_one(word, file, peer, client);
    }
}

static int without_delay(int peer) {
    int one = 1;
    setsockopt(peer, IPPROTO_TCP, TCP_NODELAY, &one, sizeof one);
    return peer;
}

static int compare(const void *one, const void *other) {
    uint64_t first = *(const uint64_t *)one, second = *(const uint64_t *)other;
    return first < second ? -1 : first > second;
}

// A door at an address of its own.
static int new_door(struct sockaddr_in *address) {
    socklen_t size = sizeof *address;
    int door = socket(AF_INET, SOCK_STREAM, 0);
    *address = (struct sockaddr_in){.sin_family = AF_INET, .sin_addr = {htonl(INADDR_LOOPBACK)}};
    if (door < 0 || bind(door, (struct sockaddr *)address, size) != 0 || listen(door, 1) != 0 || getsockname(door, (struct sockaddr *)address, &size) != 0) {
        fail("an address");
    }
    return door;
}

static int connected(const struct sockaddr_in *address) {
    int peer = without_delay(socket(AF_INET, SOCK_STREAM, 0));
    if (connect(peer, (const struct sockaddr *)address, sizeof *address) != 0) {
        fail("connect");
    }
    return peer;
}

// Whether this is a new process, which ends with the one that made it.
static int is_child(pid_t parent) {
    pid_t made = fork();
    if (made < 0) {
        fail("a process");
    }
    if (made == 0) {
        prctl(PR_SET_PDEATHSIG, SIGKILL);
        if (getppid() != parent) {
            exit(1);
        }
    }
    return made == 0;
}

int main(int count, char **words) {
    if (count != 7) {
        fprintf(stderr, "usage: lone_set FOLDER BYTES SECONDS CLIENT PRIMARY STANDBY\n");
        return 2;
    }
    const char *folder = words[1];
    long length = atol(words[2]);
    uint64_t *took = malloc(MOST_TURNS * sizeof *took);
    struct sockaddr_in at_standby, at_primary;
    int standby = new_door(&at_standby), primary = new_door(&at_primary);
    pid_t parent = getpid();
    if (took == NULL) {
        fail("memory");
    }
    if (is_child(parent)) {
        int file = file_in(folder, "lone-standby", length), peer = without_delay(accept(standby, NULL, NULL));
        while (1) {
            do_turn(words[6], file, peer, -1);
        }
    }
    if (is_child(parent)) {
        int file = file_in(folder, "lone-primary", length), peer = connected(&at_standby), client = without_delay(accept(primary, NULL, NULL));
        while (1) {
            do_turn(words[5], file, peer, client);
        }
    }
    int peer = connected(&at_primary);
    do_turn(words[4], -1, peer, -1);
    size_t turns = 0;
    for (uint64_t begun = now(), until = begun + (uint64_t)(atof(words[3]) * 1e6); turns == 0 || (begun < until && turns < MOST_TURNS);) {
        do_turn(words[4], -1, peer, -1);
        uint64_t ended = now();
        took[turns++] = ended - begun;
        begun = ended;
    }
    qsort(took, turns, sizeof *took, compare);
    printf("%llu %llu\n", (unsigned long long)took[turns / 2], (unsigned long long)took[turns * 99 / 100]);
    return 0;
}
