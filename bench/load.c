/* Gates that ask as fast as they are answered.

       load PORT touch|enquiry CONNECTIONS REQUESTS SECONDS FIRST

   Each connection to 127.0.0.1:PORT is a gate, the first one of number FIRST, and asks for the card of its own number:
   it sends a request in one send, waits for the whole answer, looks at its kind (and a reply's gate and number), and
   goes on with the next one. It ends after its share of REQUESTS, or after SECONDS. Each connection asks once before
   the clock starts, so all of them are served by then.

   It prints one line: the requests answered, the seconds, the answers a second, and of an answer's time the median
   and the 99th percentile, in microseconds. */
#define _GNU_SOURCE
#include <arpa/inet.h>
#include <netinet/tcp.h>
#include <pthread.h>
#include <sys/socket.h>
#include <time.h>
#include <unistd.h>

#include "wire.h"

enum { FIRST_MOMENT = 1736121600, HALF_HOUR = 1800, CYCLE = 7, PATIENCE = 60 };

/* A gate's connection, and how long each of its answers took, in nanoseconds. */
struct Gate {
    pthread_t thread;
    int connection;
    uint32_t gate;
    uint32_t number;
    uint32_t *times;
    size_t count;
};

static int asks_touches;
static size_t most;
static uint64_t deadline;
static pthread_barrier_t ready, begun;

static uint64_t now(void)
{
    struct timespec time;

    clock_gettime(CLOCK_MONOTONIC, &time);
    return (uint64_t)time.tv_sec * 1000000000u + (uint64_t)time.tv_nsec;
}

/* A gate's touch by its number, from 1 on: the issue of the card, and then over and over a top-up and three journeys
   from station 2 to station 1, half an hour from one touch to the next. A top-up that would take the balance above
   its limit is refused, which is recorded and answered as any other touch is. */
static size_t make_touch(unsigned char *frame, uint32_t gate, uint32_t number)
{
    uint32_t moment = FIRST_MOMENT + HALF_HOUR * number;
    uint32_t step = (number + CYCLE - 2) % CYCLE;
    unsigned kind = number == 1 ? ISSUE : step == 0 ? TOP_UP : step % 2 == 1 ? ENTER : LEAVE;
    unsigned char *at = put(put(put(put(frame + 2, 1, kind), 2, gate), 4, number), 4, gate);

    if (kind == TOP_UP)
        at = put(at, 4, 1000);
    else if (kind != ISSUE)
        at = put(at, 2, kind == ENTER ? 2 : 1);
    at = put(at, 4, moment);
    put(frame, 2, (uint64_t)(at - frame - 2));
    return (size_t)(at - frame);
}

static size_t make_enquiry(unsigned char *frame, uint32_t card)
{
    return (size_t)(put(put(put(frame, 2, 5), 1, ENQUIRY), 4, card) - frame);
}

/* Sends one request, and takes its answer. */
static void ask(struct Gate *gate)
{
    unsigned char request[LONGEST_REQUEST], answer[REPLY_SIZE];
    size_t wanted = asks_touches ? REPLY_SIZE : HOLDING_SIZE;
    size_t size, held = 0;

    gate->number++;
    size = asks_touches ? make_touch(request, gate->gate, gate->number) : make_enquiry(request, gate->gate);
    want(send(gate->connection, request, size, MSG_NOSIGNAL) == (ssize_t)size, "send");
    while (held < wanted) {
        ssize_t got = recv(gate->connection, answer + held, wanted - held, 0);
        if (got == 0)
            errno = ECONNRESET;
        want(got > 0, "recv");
        held += (size_t)got;
        /* A fault is shorter than what is waited for. */
        if (held >= 3 && (frame_size(answer) != wanted || answer[2] != (asks_touches ? REPLY : HOLDING)))
            break;
    }
    if (held < wanted || (asks_touches && memcmp(answer + 3, request + 3, 6) != 0)) {
        fprintf(stderr, "gate %u, request %u: the answer is another one, of kind %02x\n", gate->gate, gate->number,
                answer[2]);
        exit(1);
    }
}

static void *run_gate(void *of)
{
    struct Gate *gate = of;

    ask(gate);
    pthread_barrier_wait(&ready);
    pthread_barrier_wait(&begun);
    for (uint64_t before = now(); gate->count < most && before < deadline;) {
        ask(gate);
        uint64_t after = now();
        gate->times[gate->count++] = after - before < UINT32_MAX ? (uint32_t)(after - before) : UINT32_MAX;
        before = after;
    }
    return NULL;
}

static int connect_to(int port)
{
    struct sockaddr_in address = {.sin_family = AF_INET, .sin_addr.s_addr = htonl(INADDR_LOOPBACK)};
    struct timeval patience = {.tv_sec = PATIENCE};
    int at_once = 1;
    int connection = socket(AF_INET, SOCK_STREAM, 0);

    address.sin_port = htons((uint16_t)port);
    want(connection >= 0, "socket");
    want(connect(connection, (struct sockaddr *)&address, sizeof address) == 0, "connect");
    want(setsockopt(connection, IPPROTO_TCP, TCP_NODELAY, &at_once, sizeof at_once) == 0, "setsockopt");
    want(setsockopt(connection, SOL_SOCKET, SO_RCVTIMEO, &patience, sizeof patience) == 0, "setsockopt");
    return connection;
}

static int by_size(const void *one, const void *other)
{
    uint32_t left = *(const uint32_t *)one, right = *(const uint32_t *)other;

    return (left > right) - (left < right);
}

/* Prints the figures of the answers of all gates. */
static void report(const struct Gate *gates, size_t connections, double seconds)
{
    size_t total = 0, place = 0;

    for (size_t i = 0; i < connections; i++)
        total += gates[i].count;
    uint32_t *times = calloc(total + 1, sizeof *times);
    want(times != NULL, "calloc");
    for (size_t i = 0; i < connections; i++) {
        memcpy(times + place, gates[i].times, gates[i].count * sizeof *times);
        place += gates[i].count;
    }
    qsort(times, total, sizeof *times, by_size);
    printf("%zu %.3f %.1f %.1f %.1f\n", total, seconds, (double)total / seconds, times[total / 2] / 1e3,
           times[total * 99 / 100] / 1e3);
}

int main(int argc, char **argv)
{
    if (argc != 7 || (strcmp(argv[2], "touch") != 0 && strcmp(argv[2], "enquiry") != 0)) {
        fprintf(stderr, "usage: load PORT touch|enquiry CONNECTIONS REQUESTS SECONDS FIRST\n");
        return 2;
    }
    asks_touches = strcmp(argv[2], "touch") == 0;
    size_t connections = (size_t)atol(argv[3]);
    most = (size_t)atol(argv[4]) / connections;
    struct Gate *gates = calloc(connections, sizeof *gates);
    want(gates != NULL, "calloc");
    want(pthread_barrier_init(&ready, NULL, (unsigned)connections + 1) == 0, "pthread_barrier_init");
    want(pthread_barrier_init(&begun, NULL, (unsigned)connections + 1) == 0, "pthread_barrier_init");
    for (size_t i = 0; i < connections; i++) {
        gates[i].gate = (uint32_t)(atol(argv[6]) + (long)i);
        gates[i].connection = connect_to(atoi(argv[1]));
        gates[i].times = malloc((most + 1) * sizeof *gates[i].times);
        want(gates[i].times != NULL, "malloc");
        want(pthread_create(&gates[i].thread, NULL, run_gate, &gates[i]) == 0, "pthread_create");
    }
    pthread_barrier_wait(&ready);
    uint64_t start = now();
    deadline = start + (uint64_t)(atof(argv[5]) * 1e9);
    pthread_barrier_wait(&begun);
    for (size_t i = 0; i < connections; i++)
        pthread_join(gates[i].thread, NULL);
    report(gates, connections, (double)(now() - start) / 1e9);
    return 0;
}
