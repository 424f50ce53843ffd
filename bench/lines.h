/* How a server of this folder serves gates: it listens on a free port of 127.0.0.1, says it on standard error by
   'listening 127.0.0.1:PORT', and serves so many connections one after the other on each of its lines, a thread for each.

   An enquiry costs one recv and one send, and a touch calls commit() in between. Nothing is judged: an answer has the right
   size, kind, gate and number, and zeros else. */
#ifndef LINES_H
#define LINES_H

#include <arpa/inet.h>
#include <netinet/tcp.h>
#include <pthread.h>
#include <sys/socket.h>
#include <unistd.h>

#include "wire.h"

enum { MOST_LINES = 64 };

struct Line {
    pthread_t thread;
    int place;
};

static int listener, connections;

/* Stores a touch, and returns when it is stable. The server that includes this has it. */
static void commit(int line, const unsigned char *touch, size_t size);

/* Answers a request, after its touch is stored. Gives the answer's size. */
static size_t answer(int line, const unsigned char *request, unsigned char *into)
{
    const unsigned char *body = request + 2;

    memset(into, 0, REPLY_SIZE);
    if (body[0] == ENQUIRY) {
        put(put(into, 2, HOLDING_SIZE - 2), 1, HOLDING);
        return HOLDING_SIZE;
    }
    commit(line, body, frame_size(request) - 2);
    put(put(into, 2, REPLY_SIZE - 2), 1, REPLY);
    memcpy(into + 3, body + 1, 6);
    return REPLY_SIZE;
}

/* Serves a connection. Its peer sends a request, and waits for the answer before it sends another one. */
static void serve(int line, int connection)
{
    unsigned char request[LONGEST_REQUEST], into[REPLY_SIZE];
    size_t held = 0;

    for (;;) {
        ssize_t got = recv(connection, request + held, sizeof request - held, 0);
        if (got <= 0)
            return;
        held += (size_t)got;
        if (held < 2 || held < frame_size(request))
            continue;
        size_t size = answer(line, request, into);
        if (send(connection, into, size, MSG_NOSIGNAL) != (ssize_t)size)
            return;
        held = 0;
    }
}

static void *serve_line(void *of)
{
    const struct Line *line = of;
    int at_once = 1;

    for (int left = connections; left > 0; left--) {
        int connection = accept4(listener, NULL, NULL, SOCK_CLOEXEC);
        want(connection >= 0, "accept4");
        want(setsockopt(connection, IPPROTO_TCP, TCP_NODELAY, &at_once, sizeof at_once) == 0, "setsockopt");
        serve(line->place, connection);
        close(connection);
    }
    return NULL;
}

/* Listens, and serves so many lines to their ends. */
static void serve_lines(int count)
{
    struct sockaddr_in address = {.sin_family = AF_INET, .sin_addr.s_addr = htonl(INADDR_LOOPBACK)};
    static struct Line lines[MOST_LINES];
    socklen_t size = sizeof address;

    listener = socket(AF_INET, SOCK_STREAM | SOCK_CLOEXEC, 0);
    want(listener >= 0, "socket");
    want(bind(listener, (struct sockaddr *)&address, size) == 0, "bind");
    want(listen(listener, 128) == 0, "listen");
    want(getsockname(listener, (struct sockaddr *)&address, &size) == 0, "getsockname");
    fprintf(stderr, "listening 127.0.0.1:%d\n", ntohs(address.sin_port));

    for (int place = 0; place < count; place++) {
        lines[place].place = place;
        want(pthread_create(&lines[place].thread, NULL, serve_line, &lines[place]) == 0, "pthread_create");
    }
    for (int place = 0; place < count; place++)
        pthread_join(lines[place].thread, NULL);
}

/* The number of lines of a command line. */
static int lines_of(const char *text)
{
    int count = atoi(text);

    if (count < 1 || count > MOST_LINES) {
        fprintf(stderr, "LINES has to be from 1 to %d\n", MOST_LINES);
        exit(2);
    }
    return count;
}

#endif
