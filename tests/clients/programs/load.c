// load PORT CLIENTS PIPELINE SECONDS COMMAND KEYS WAIT VALUE_BYTES: keeps CLIENTS connections busy with requests for a while, PIPELINE of them at a
// time on each, and prints how many were answered, the seconds that it took, and the median and the 99th percentile of the microseconds from the
// sending of a batch to its last reply. COMMAND is set, get, mget (of ten keys), incr, hset or mset (of ten keys), over KEYS keys or fields drawn at
// random, or with KEYS 0 over keys of which none comes twice, in an order that is none. A value that is written has VALUE_BYTES bytes, 1 to 1,048,576,
// and one that is read must have as many. With WAIT 1 each batch ends in WAIT 1 0, which is answered once a replica has acknowledged it, and with
// WAIT 2 in WAITAOF 1 1 0, which is answered once the log there and that of a replica have it on disk; neither is counted.
// Any error among the replies, and any value of another length, ends it with status 1.
#include <arpa/inet.h>
#include <errno.h>
#include <netinet/in.h>
#include <netinet/tcp.h>
#include <stdarg.h>
#include <stdbool.h>
#include <stdint.h>
#include <stdio.h>
#include <stdlib.h>
#include <string.h>
#include <sys/epoll.h>
#include <sys/socket.h>
#include <time.h>
#include <unistd.h>

#define MOST_CLIENTS 1024
#define MOST_PIPELINE 64
#define MOST_SAMPLES 4000000
// What a batch and its replies take at most, besides the values in them.
#define BUFFER_BYTES 65536
#define MOST_VALUE_BYTES 1048576
// Keys of an MGET, and of an MSET.
#define MANY_KEYS 10
// Numbers of keys, and what scatters them: it has no divisor with the first.
#define KEY_NUMBERS 1000000000000
#define SCATTERING 387420489

struct client {
    int socket;
    char *out, *in;
    size_t out_length, out_sent, in_length;
    int expected;
    bool is_full;
    uint64_t begun;
};

static int poll, pipeline, waits;
static uint64_t keys, made;
static size_t value_bytes, buffer_bytes;
static const char *command;
static uint32_t *samples;
static size_t sample_count;

static void fail(const char *what) {
    fprintf(stderr, "load: %s: %s\n", what, strerror(errno));
    exit(1);
}

static uint64_t now(void) {
    struct timespec time;
    clock_gettime(CLOCK_MONOTONIC, &time);
    return (uint64_t)time.tv_sec * 1000000 + (uint64_t)time.tv_nsec / 1000;
}

static void put(struct client *client, const char *format, ...) {
    va_list values;
    va_start(values, format);
    size_t room = buffer_bytes - client->out_length;
    int length = vsnprintf(client->out + client->out_length, room, format, values);
    va_end(values);
    if (length < 0 || (size_t)length >= room) {
        fail("a batch too long");
    }
    client->out_length += (size_t)length;
}

static unsigned long long draw(void) {
    if (keys == 0) {
        return (unsigned long long)((unsigned __int128)made++ % KEY_NUMBERS * SCATTERING % KEY_NUMBERS);
    }
    return keys > 1 ? (unsigned long long)rand() % keys : 0;
}

static void put_key(struct client *client) {
    put(client, "$16\r\nkey:%012llu\r\n", draw());
}

static void put_value(struct client *client) {
    put(client, "$%zu\r\n", value_bytes);
    if (value_bytes >= buffer_bytes - client->out_length) {
        fail("a batch too long");
    }
    memset(client->out + client->out_length, 'x', value_bytes);
    client->out_length += value_bytes;
    put(client, "\r\n");
}

static void put_request(struct client *client) {
    if (!strcmp(command, "set")) {
        put(client, "*3\r\n$3\r\nSET\r\n");
        put_key(client);
        put_value(client);
    } else if (!strcmp(command, "get")) {
        put(client, "*2\r\n$3\r\nGET\r\n");
        put_key(client);
    } else if (!strcmp(command, "mget")) {
        put(client, "*%d\r\n$4\r\nMGET\r\n", 1 + MANY_KEYS);
        for (int at = 0; at < MANY_KEYS; at++) {
            put_key(client);
        }
    } else if (!strcmp(command, "incr")) {
        put(client, "*2\r\n$4\r\nINCR\r\n$20\r\ncounter:%012llu\r\n", draw());
    } else if (!strcmp(command, "hset")) {
        put(client, "*4\r\n$4\r\nHSET\r\n$6\r\nmyhash\r\n$20\r\nelement:%012llu\r\n", draw());
        put_value(client);
    } else {
        put(client, "*%d\r\n$4\r\nMSET\r\n", 1 + 2 * MANY_KEYS);
        for (int at = 0; at < MANY_KEYS; at++) {
            put_key(client);
            put_value(client);
        }
    }
}

static void put_batch(struct client *client) {
    client->out_length = 0;
    for (int at = 0; at < pipeline; at++) {
        put_request(client);
    }
    if (waits == 1) {
        put(client, "*3\r\n$4\r\nWAIT\r\n$1\r\n1\r\n$1\r\n0\r\n");
    } else if (waits == 2) {
        put(client, "*4\r\n$7\r\nWAITAOF\r\n$1\r\n1\r\n$1\r\n1\r\n$1\r\n0\r\n");
    }
}

static void begin_batch(struct client *client) {
    // (over one key all batches are the same)
    if (client->out_length == 0 || keys != 1) {
        put_batch(client);
    }
    client->out_sent = 0;
    // (an array has one line more than elements: so has the reply to MGET, and that to WAITAOF, of two numbers)
    client->expected = pipeline * (strcmp(command, "mget") ? 1 : 1 + MANY_KEYS) + (waits == 2 ? 3 : waits);
    client->begun = now();
}

// Takes the whole replies from the front of what came.
static void take_replies(struct client *client) {
    size_t at = 0;
    while (client->expected > 0) {
        char *end = memmem(client->in + at, client->in_length - at, "\r\n", 2);
        if (end == NULL) {
            break;
        }
        size_t next = (size_t)(end - client->in) + 2;
        if (client->in[at] == '-') {
            fprintf(stderr, "load: answered %.*s\n", (int)(next - at - 2), client->in + at);
            exit(1);
        }
        // (of keys of which none comes twice, none is there)
        if (client->in[at] == '$' && (keys != 0 || client->in[at + 1] != '-')) {
            long length = atol(client->in + at + 1);
            if (length != (long)value_bytes) {
                fprintf(stderr, "load: answered a value of %ld bytes\n", length);
                exit(1);
            }
            next += value_bytes + 2;
            if (next > client->in_length) {
                break;
            }
        }
        at = next;
        client->expected--;
    }
    if (at > 0) {
        client->in_length -= at;
        memmove(client->in, client->in + at, client->in_length);
    }
}

// Sends what the socket takes, and is told when it takes more.
static void send_more(struct client *client) {
    while (client->out_sent < client->out_length) {
        ssize_t sent = send(client->socket, client->out + client->out_sent, client->out_length - client->out_sent, MSG_NOSIGNAL | MSG_DONTWAIT);
        if (sent < 0 && errno == EAGAIN) {
            break;
        }
        if (sent < 0) {
            fail("send");
        }
        client->out_sent += (size_t)sent;
    }
    bool is_full = client->out_sent < client->out_length;
    if (is_full != client->is_full) {
        struct epoll_event event = {.events = is_full ? EPOLLIN | EPOLLOUT : EPOLLIN, .data.ptr = client};
        epoll_ctl(poll, EPOLL_CTL_MOD, client->socket, &event);
        client->is_full = is_full;
    }
}

static int compare(const void *one, const void *other) {
    uint32_t first = *(const uint32_t *)one, second = *(const uint32_t *)other;
    return first < second ? -1 : first > second;
}

int main(int count, char **words) {
    if (count != 9) {
        fprintf(stderr, "usage: load PORT CLIENTS PIPELINE SECONDS COMMAND KEYS WAIT VALUE_BYTES\n");
        return 2;
    }
    int clients = atoi(words[2]), live = 0;
    pipeline = atoi(words[3]), command = words[5], keys = (uint64_t)atol(words[6]), waits = atoi(words[7]);
    long length = atol(words[8]);
    if (clients < 1 || clients > MOST_CLIENTS || pipeline < 1 || pipeline > MOST_PIPELINE) {
        fprintf(stderr, "load: at most %d clients and %d requests at a time\n", MOST_CLIENTS, MOST_PIPELINE);
        return 2;
    }
    if (waits < 0 || waits > 2) {
        fprintf(stderr, "load: WAIT is 0, 1 or 2\n");
        return 2;
    }
    if (length < 1 || length > MOST_VALUE_BYTES) {
        fprintf(stderr, "load: a value has 1 to %d bytes\n", MOST_VALUE_BYTES);
        return 2;
    }
    value_bytes = (size_t)length;
    buffer_bytes = BUFFER_BYTES + (size_t)pipeline * (command[0] == 'm' ? MANY_KEYS : 1) * value_bytes;
    // (from the time on, no run makes a key of an earlier one, where it makes less than a million a second)
    struct timespec today;
    clock_gettime(CLOCK_REALTIME, &today);
    made = (uint64_t)today.tv_sec * 1000000 + (uint64_t)today.tv_nsec / 1000;
    srand((unsigned)made);
    struct client *all = calloc((size_t)clients, sizeof *all);
    samples = malloc(MOST_SAMPLES * sizeof *samples);
    poll = epoll_create1(0);
    if (all == NULL || samples == NULL || poll < 0) {
        fail("memory");
    }
    struct sockaddr_in address = {.sin_family = AF_INET, .sin_port = htons((uint16_t)atoi(words[1])), .sin_addr = {htonl(INADDR_LOOPBACK)}};
    for (int at = 0; at < clients; at++) {
        int one = 1;
        all[at].out = malloc(buffer_bytes), all[at].in = malloc(buffer_bytes);
        if (all[at].out == NULL || all[at].in == NULL) {
            fail("memory");
        }
        all[at].socket = socket(AF_INET, SOCK_STREAM, 0);
        if (connect(all[at].socket, (struct sockaddr *)&address, sizeof address) < 0) {
            fail("connect");
        }
        setsockopt(all[at].socket, IPPROTO_TCP, TCP_NODELAY, &one, sizeof one);
        struct epoll_event event = {.events = EPOLLIN, .data.ptr = &all[at]};
        epoll_ctl(poll, EPOLL_CTL_ADD, all[at].socket, &event);
    }
    uint64_t begun = now(), until = begun + (uint64_t)(atof(words[4]) * 1e6), answered = 0, last = begun;
    for (int at = 0; at < clients; at++, live++) {
        begin_batch(&all[at]);
        send_more(&all[at]);
    }
    while (live > 0) {
        struct epoll_event events[64];
        int ready = epoll_wait(poll, events, 64, 60000);
        if (ready <= 0) {
            errno = ready == 0 ? ETIMEDOUT : errno;
            fail("no reply");
        }
        for (int at = 0; at < ready; at++) {
            struct client *client = events[at].data.ptr;
            if (events[at].events & EPOLLOUT) {
                send_more(client);
            }
            if (!(events[at].events & ~(uint32_t)EPOLLOUT)) {
                continue;
            }
            ssize_t came = recv(client->socket, client->in + client->in_length, buffer_bytes - client->in_length, 0);
            if (came <= 0) {
                fail("the connection ended");
            }
            client->in_length += (size_t)came;
            take_replies(client);
            if (client->expected > 0) {
                continue;
            }
            last = now();
            answered += (uint64_t)pipeline;
            if (sample_count < MOST_SAMPLES) {
                samples[sample_count++] = (uint32_t)(last - client->begun);
            }
            if (last < until) {
                begin_batch(client);
                send_more(client);
            } else {
                // (that the server closes it now is nothing to this run)
                epoll_ctl(poll, EPOLL_CTL_DEL, client->socket, NULL);
                live--;
            }
        }
    }
    qsort(samples, sample_count, sizeof *samples, compare);
    printf("%llu %.6f %u %u\n", (unsigned long long)answered, (double)(last - begun) / 1e6, samples[sample_count / 2], samples[sample_count * 99 / 100]);
    return 0;
}
