/* Answers each request of each connection with the same reply, and prints the port that it listens on.
 *
 * usage: http_server BODY    BODY is the text that each reply has
 *
 * A request is a head and, if it has a Content-Length, its body; nothing else of it is looked at. Each connection has a
 * thread of its own. */
#define _GNU_SOURCE
#include <arpa/inet.h>
#include <netinet/in.h>
#include <netinet/tcp.h>
#include <pthread.h>
#include <stdio.h>
#include <stdlib.h>
#include <string.h>
#include <sys/socket.h>
#include <unistd.h>

#define ROOM (8 << 20)

static char reply[4096];
static size_t size;

static size_t body_length(const char *head, size_t length) {
    for (size_t at = 0; at + 16 < length; at++)
        if (head[at] == '\n' && !strncasecmp(head + at + 1, "content-length:", 15))
            return strtoull(head + at + 16, NULL, 10);
    return 0;
}

static void *serve(void *given) {
    int line = (int)(long)given, yes = 1;
    char *held = malloc(ROOM);
    size_t have = 0, need = 0;
    setsockopt(line, IPPROTO_TCP, TCP_NODELAY, &yes, sizeof yes);
    while (held) {
        ssize_t read = recv(line, held + have, ROOM - have, 0);
        if (read <= 0) break;
        have += (size_t)read;
        const char *end = need ? NULL : memmem(held, have, "\r\n\r\n", 4);
        if (end) need = (size_t)(end - held) + 4 + body_length(held, (size_t)(end - held) + 4);
        if (!need || have < need) continue;
        if (send(line, reply, size, MSG_NOSIGNAL) != (ssize_t)size) break;
        have = need = 0;
    }
    free(held);
    close(line);
    return NULL;
}

int main(int words, char **word) {
    int listener = socket(AF_INET, SOCK_STREAM, 0);
    struct sockaddr_in at = {.sin_family = AF_INET};
    socklen_t length = sizeof at;
    at.sin_addr.s_addr = htonl(INADDR_LOOPBACK);
    if (words != 2 || strlen(word[1]) > 3000) return 1;
    if (bind(listener, (struct sockaddr *)&at, sizeof at) || listen(listener, 64)) return 1;
    getsockname(listener, (struct sockaddr *)&at, &length);
    printf("%d\n", ntohs(at.sin_port));
    fflush(stdout);
    size = (size_t)sprintf(reply, "HTTP/1.1 200 OK\r\ncontent-type: application/json\r\ncontent-length: %zu\r\n\r\n%s",
                           strlen(word[1]), word[1]);
    for (;;) {
        int line = accept(listener, NULL, NULL);
        pthread_t thread;
        if (line < 0 || pthread_create(&thread, NULL, serve, (void *)(long)line)) return 1;
        pthread_detach(thread);
    }
}
