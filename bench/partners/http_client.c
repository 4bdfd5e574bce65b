/* Sends requests over one or several connections at once, each when the reply to the one before it has come, and prints the
 * seconds from the first request to the last reply.
 *
 * usage: http_client PORT OUT REQUESTS..
 *
 * There is a connection for each file of requests. Each request is a head and, if it has a Content-Length, its body. A
 * reply whose status is 400 or more ends the run with status 1. The file OUT gets the replies of each connection, in order.
 * For replies in a row with the same body it has a line with the number of the connection, the status, how many they are
 * and the length of the body, and then the body and the end of a line. */
#define _GNU_SOURCE
#include <arpa/inet.h>
#include <netinet/in.h>
#include <netinet/tcp.h>
#include <pthread.h>
#include <stdio.h>
#include <stdlib.h>
#include <string.h>
#include <sys/socket.h>
#include <time.h>
#include <unistd.h>

struct bytes {
    char *at;
    size_t length, room;
};

/* Replies in a row with the same body. */
struct run {
    struct run *next;
    struct bytes body;
    long status, count;
};

struct connection {
    pthread_t thread;
    int line;
    struct bytes requests, held;
    struct run *first, *last;
};

static pthread_barrier_t ready;

static void fail(const char *what) {
    perror(what);
    exit(1);
}

static void make_room(struct bytes *bytes, size_t room) {
    if (bytes->room >= room) return;
    bytes->room = room > 2 * bytes->room ? room : 2 * bytes->room;
    bytes->at = realloc(bytes->at, bytes->room);
    if (!bytes->at) fail("memory");
}

static struct bytes whole_file(const char *path) {
    FILE *file = fopen(path, "rb");
    if (!file || fseek(file, 0, SEEK_END)) fail(path);
    struct bytes bytes = {NULL, (size_t)ftell(file), 0};
    rewind(file);
    make_room(&bytes, bytes.length + 1);
    if (fread(bytes.at, 1, bytes.length, file) != bytes.length) fail(path);
    bytes.at[bytes.length] = 0;
    fclose(file);
    return bytes;
}

/* The length of the head at the start of some bytes, or 0 if it isn't whole. */
static size_t head_length(const char *bytes, size_t length) {
    const char *end = memmem(bytes, length, "\r\n\r\n", 4);
    return end ? (size_t)(end - bytes) + 4 : 0;
}

/* The length that a head gives for its body. */
static size_t body_length(const char *head, size_t length) {
    for (size_t at = 0; at + 16 < length; at++)
        if (head[at] == '\n' && !strncasecmp(head + at + 1, "content-length:", 15))
            return strtoull(head + at + 16, NULL, 10);
    return 0;
}

static void send_all(int line, const char *bytes, size_t length) {
    while (length) {
        ssize_t sent = send(line, bytes, length, MSG_NOSIGNAL);
        if (sent <= 0) fail("send");
        bytes += sent;
        length -= (size_t)sent;
    }
}

/* Notes a reply, which begins a run if its body isn't that of the reply before. */
static void note(struct connection *to, size_t head, size_t size) {
    struct run *last = to->last;
    const char *body = to->held.at + head;
    long status = strtol(to->held.at + 9, NULL, 10);
    if (last && last->status == status && last->body.length == size && !memcmp(last->body.at, body, size)) {
        last->count++;
        return;
    }
    struct run *run = calloc(1, sizeof *run);
    if (!run) fail("memory");
    make_room(&run->body, size + 1);
    memcpy(run->body.at, body, size);
    run->body.length = size;
    run->status = status;
    run->count = 1;
    *(last ? &last->next : &to->first) = run;
    to->last = run;
}

/* Reads one reply to its end. */
static void receive(struct connection *to) {
    size_t have = 0, head = 0, need = 0;
    make_room(&to->held, 1 << 16);
    while (!head || have < need) {
        ssize_t read = recv(to->line, to->held.at + have, to->held.room - have, 0);
        if (read <= 0) fail("the connection ended inside a reply");
        have += (size_t)read;
        if (!head && (head = head_length(to->held.at, have))) {
            need = head + body_length(to->held.at, head);
            make_room(&to->held, need + 1);
        }
        if (!head && have == to->held.room) fail("the head of a reply is too long");
    }
    if (have > need || have < 12 || to->held.at[9] >= '4') {
        fprintf(stderr, "a reply is wrong: %.*s\n", (int)(have < 400 ? have : 400), to->held.at);
        exit(1);
    }
    note(to, head, need - head);
}

static void *ask_all(void *given) {
    struct connection *to = given;
    struct bytes requests = to->requests;
    pthread_barrier_wait(&ready);
    for (size_t at = 0; at < requests.length;) {
        size_t head = head_length(requests.at + at, requests.length - at);
        size_t length = head + body_length(requests.at + at, head);
        if (!head || length > requests.length - at) fail("a request isn't whole");
        send_all(to->line, requests.at + at, length);
        receive(to);
        at += length;
    }
    return NULL;
}

static int connect_to(const char *port) {
    int line = socket(AF_INET, SOCK_STREAM, 0), yes = 1;
    struct sockaddr_in to = {.sin_family = AF_INET, .sin_port = htons((unsigned short)atoi(port))};
    to.sin_addr.s_addr = htonl(INADDR_LOOPBACK);
    setsockopt(line, IPPROTO_TCP, TCP_NODELAY, &yes, sizeof yes);
    if (connect(line, (struct sockaddr *)&to, sizeof to)) fail("connect");
    return line;
}

static void write_replies(const char *path, struct connection *all, int count) {
    FILE *out = fopen(path, "wb");
    if (!out) fail(path);
    for (int at = 0; at < count; at++)
        for (struct run *run = all[at].first; run; run = run->next) {
            fprintf(out, "%d %ld %ld %zu\n", at, run->status, run->count, run->body.length);
            fwrite(run->body.at, 1, run->body.length, out);
            fputc('\n', out);
        }
    if (fclose(out)) fail(path);
}

int main(int words, char **word) {
    if (words < 4) return 1;
    int count = words - 3;
    struct connection *all = calloc((size_t)count, sizeof *all);
    if (!all) fail("memory");
    pthread_barrier_init(&ready, NULL, (unsigned)count + 1);
    for (int at = 0; at < count; at++) {
        all[at].requests = whole_file(word[3 + at]);
        all[at].line = connect_to(word[1]);
        if (pthread_create(&all[at].thread, NULL, ask_all, &all[at])) fail("thread");
    }
    pthread_barrier_wait(&ready);
    struct timespec start, end;
    clock_gettime(CLOCK_MONOTONIC, &start);
    for (int at = 0; at < count; at++) pthread_join(all[at].thread, NULL);
    clock_gettime(CLOCK_MONOTONIC, &end);
    printf("%.9f\n", (double)(end.tv_sec - start.tv_sec) + (double)(end.tv_nsec - start.tv_nsec) / 1e9);
    write_replies(word[2], all, count);
    return 0;
}
