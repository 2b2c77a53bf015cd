// hiredis, as a client: client PORT. It ends with status 0 and prints how many things it checked, or tells what was wrong.
#include <hiredis/hiredis.h>
#include <stdarg.h>
#include <stdio.h>
#include <stdlib.h>
#include <string.h>

#define LONGEST 1048576
#define PIPELINE 1000

static int checked = 0;

static void check(int holds, const char *what) {
    if (!holds) {
        fprintf(stderr, "%s is not as it should be\n", what);
        exit(1);
    }
    checked++;
}

static redisContext *connected(int port) {
    struct timeval patience = {60, 0};
    redisContext *context = redisConnectWithTimeout("127.0.0.1", port, patience);
    check(context != NULL && context->err == 0, "a connection");
    redisSetTimeout(context, patience);
    return context;
}

static redisReply *asked(redisContext *context, const char *format, ...) {
    va_list words;
    va_start(words, format);
    redisReply *reply = redisvCommand(context, format, words);
    va_end(words);
    check(reply != NULL, format);
    return reply;
}

static int is_text(const redisReply *reply, int type, const char *text) {
    return reply->type == type && reply->len == strlen(text) && memcmp(reply->str, text, reply->len) == 0;
}

// Asks, and compares the reply with a text or a number.
#define TEXT(context, kind, text, ...) do { \
    redisReply *reply = asked(context, __VA_ARGS__); \
    check(is_text(reply, kind, text), #__VA_ARGS__); \
    freeReplyObject(reply); \
} while (0)
#define NUMBER(context, number, ...) do { \
    redisReply *reply = asked(context, __VA_ARGS__); \
    check(reply->type == REDIS_REPLY_INTEGER && reply->integer == (number), #__VA_ARGS__); \
    freeReplyObject(reply); \
} while (0)
#define NOTHING(context, ...) do { \
    redisReply *reply = asked(context, __VA_ARGS__); \
    check(reply->type == REDIS_REPLY_NIL, #__VA_ARGS__); \
    freeReplyObject(reply); \
} while (0)

static void strings_and_hashes(redisContext *context) {
    TEXT(context, REDIS_REPLY_STATUS, "OK", "FLUSHDB");
    TEXT(context, REDIS_REPLY_STATUS, "OK", "SET a %s", "1");
    TEXT(context, REDIS_REPLY_STRING, "1", "GET a");
    NOTHING(context, "GET none");
    NOTHING(context, "SET a 2 NX");
    NUMBER(context, 2, "INCR a");
    NUMBER(context, -8, "DECRBY a 10");
    NUMBER(context, 2, "HSET h f 1 g 2");
    TEXT(context, REDIS_REPLY_STRING, "2", "HGET h g");
    redisReply *reply = asked(context, "HGETALL h");
    const char *wanted[] = {"f", "1", "g", "2"};
    check(reply->type == REDIS_REPLY_ARRAY && reply->elements == 4, "HGETALL h");
    for (size_t at = 0; at < 4; at++) {
        check(is_text(reply->element[at], REDIS_REPLY_STRING, wanted[at]), "an element of HGETALL h");
    }
    freeReplyObject(reply);
}

static void bytes_of_any_kind(redisContext *context) {
    static char longest[LONGEST];
    for (int at = 0; at < LONGEST; at++) {
        longest[at] = (char)at;
    }
    const char key[] = {0, '\r', '\n', (char)0xff};
    TEXT(context, REDIS_REPLY_STATUS, "OK", "SET %b %b", key, sizeof key, longest, (size_t)LONGEST);
    redisReply *reply = asked(context, "GET %b", key, sizeof key);
    check(reply->type == REDIS_REPLY_STRING && reply->len == LONGEST && memcmp(reply->str, longest, LONGEST) == 0, "1,048,576 bytes");
    freeReplyObject(reply);
    NUMBER(context, 1, "DEL %b", key, sizeof key);
}

static void errors(redisContext *context) {
    TEXT(context, REDIS_REPLY_STATUS, "OK", "SET t text");
    TEXT(context, REDIS_REPLY_ERROR, "ERR value is not an integer or out of range", "INCR t");
    TEXT(context, REDIS_REPLY_ERROR, "WRONGTYPE Operation against a key holding the wrong kind of value", "HGET t f");
    TEXT(context, REDIS_REPLY_ERROR, "ERR unknown command", "NOSUCH t");
    TEXT(context, REDIS_REPLY_STRING, "text", "GET t");
}

static void pipelines(redisContext *context) {
    for (int at = 0; at < PIPELINE; at++) {
        check(redisAppendCommand(context, "INCRBY sum %d", at) == REDIS_OK, "a request of a pipeline");
    }
    long long sum = 0;
    for (int at = 0; at < PIPELINE; at++) {
        redisReply *reply = NULL;
        sum += at;
        check(redisGetReply(context, (void **)&reply) == REDIS_OK && reply->type == REDIS_REPLY_INTEGER && reply->integer == sum, "a reply of a pipeline");
        freeReplyObject(reply);
    }
}

static void transactions(redisContext *context, redisContext *other) {
    TEXT(context, REDIS_REPLY_STATUS, "OK", "MULTI");
    TEXT(context, REDIS_REPLY_STATUS, "QUEUED", "SET a 1");
    TEXT(context, REDIS_REPLY_STATUS, "QUEUED", "INCR a");
    redisReply *reply = asked(context, "EXEC");
    check(reply->type == REDIS_REPLY_ARRAY && reply->elements == 2 && reply->element[1]->integer == 2, "EXEC");
    freeReplyObject(reply);
    TEXT(context, REDIS_REPLY_STATUS, "OK", "WATCH a");
    TEXT(other, REDIS_REPLY_STATUS, "OK", "SET a other");
    TEXT(context, REDIS_REPLY_STATUS, "OK", "MULTI");
    TEXT(context, REDIS_REPLY_STATUS, "QUEUED", "SET a lost");
    NOTHING(context, "EXEC");
    TEXT(context, REDIS_REPLY_STRING, "other", "GET a");
}

int main(int count, char **words) {
    if (count != 2) {
        fprintf(stderr, "usage: client PORT\n");
        return 2;
    }
    redisContext *one = connected(atoi(words[1])), *other = connected(atoi(words[1]));
    strings_and_hashes(one);
    bytes_of_any_kind(one);
    errors(one);
    pipelines(one);
    transactions(one, other);
    redisFree(one);
    redisFree(other);
    printf("hiredis %d.%d.%d: %d checked\n", HIREDIS_MAJOR, HIREDIS_MINOR, HIREDIS_PATCH, checked);
    return 0;
}
