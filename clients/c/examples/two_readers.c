/* SPDX-License-Identifier: Apache-2.0 */
/* A gate with a reader on either side: two_readers FILE GATE STATION READER_IN READER_OUT HOST:PORT.., and once before,
   two_readers --create FILE GATE CAPACITY. A reader is a pipe of card numbers; "open in 17" stands for the barrier. */
#define _POSIX_C_SOURCE 200809L
#include <poll.h>
#include <stdio.h>
#include <stdlib.h>
#include <time.h>

#include "bovtrila_gate.h"

enum { IN, OUT, READERS, REST = 1000, STILL_THERE = 30 };

/* Goes by the answer to a card's touch at this moment. Where it is late, its passenger has left. A touch of before this
   start opens nothing: the barrier may have opened for it then. */
static void show(bovtrila_gate *gate, int side, unsigned long card, uint32_t moment, bovtrila_answer answer)
{
    if (answer.result == BOVTRILA_ACCEPTED && (uint32_t)time(NULL) - moment <= STILL_THERE)
        printf("open %s %lu\n", side == IN ? "in" : "out", card);
    else
        printf("closed %lu: %s\n", card, answer.result == BOVTRILA_REFUSED ? bovtrila_verdict_text(answer.verdict)
                                                                           : bovtrila_result_text(answer.result));
    fflush(stdout);
    if (!bovtrila_waiting(gate, NULL))
        bovtrila_done(gate);
    if (answer.result == BOVTRILA_DEVICE)
        exit(1); /* whatever started this program starts it again, and the file tells what is in it */
}

/* Sends the touch that waits again, and goes by its reply. */
static void settle(bovtrila_gate *gate)
{
    bovtrila_answer answer = bovtrila_resend(gate);
    bovtrila_touch touch = bovtrila_settled(gate).touch;

    if (answer.result == BOVTRILA_ACCEPTED || answer.result == BOVTRILA_ACCEPTED_EARLIER
        || answer.result == BOVTRILA_REFUSED)
        show(gate, touch.kind == BOVTRILA_TOUCH_IN ? IN : OUT, touch.card, touch.moment, answer);
}

/* Whether a touch is of this card at this side, and of just now. */
static int is_of(bovtrila_touch touch, int side, uint32_t card, uint32_t moment)
{
    return touch.card == card && touch.kind == (side == IN ? BOVTRILA_TOUCH_IN : BOVTRILA_TOUCH_OUT)
        && moment - touch.moment <= STILL_THERE;
}

/* A card is held to a reader. Who found the barrier closed for want of an answer holds it there again: that is no
   second touch, so the reply to the first one counts. After a start in between the staff let that passenger through. */
static void serve(bovtrila_gate *gate, int side, uint32_t card, uint16_t station)
{
    uint32_t moment = (uint32_t)time(NULL);
    bovtrila_touch earlier = {0};

    bovtrila_waiting(gate, &earlier);
    bovtrila_settlement last = bovtrila_settled(gate);
    if (is_of(earlier, side, card, moment))
        show(gate, side, card, moment, bovtrila_resend(gate));
    else if (last.answer.result == BOVTRILA_ACCEPTED_EARLIER && is_of(last.touch, side, card, moment))
        show(gate, side, card, moment, last.answer);
    else {
        settle(gate);
        show(gate, side, card, moment, side == IN ? bovtrila_touch_in(gate, card, station, moment)
                                                  : bovtrila_touch_out(gate, card, station, moment));
    }
}

int main(int argc, char **argv)
{
    bovtrila_gate *gate;
    FILE *readers[READERS];
    char line[32];

    if (argc == 5)
        return bovtrila_create(argv[2], (uint16_t)atoi(argv[3]), (uint32_t)atol(argv[4])).cause != BOVTRILA_FILE_OK;
    if (argc < 7 || (readers[IN] = fopen(argv[4], "r")) == NULL || (readers[OUT] = fopen(argv[5], "r")) == NULL)
        return 2;
    setvbuf(readers[IN], NULL, _IONBF, 0);
    setvbuf(readers[OUT], NULL, _IONBF, 0);
    bovtrila_options options = {.size = sizeof options, .file = argv[1], .gate = (uint16_t)atoi(argv[2]),
                                .address_count = (size_t)argc - 6, .addresses = (const char *const *)argv + 6};
    bovtrila_file file = bovtrila_open(&options, &gate);
    fprintf(stderr, "%s: %s\n", argv[1], bovtrila_file_text(file.cause));
    struct pollfd ready[READERS] = {{fileno(readers[IN]), POLLIN, 0}, {fileno(readers[OUT]), POLLIN, 0}};
    while (gate != NULL && (ready[IN].fd >= 0 || ready[OUT].fd >= 0)) {
        if (poll(ready, READERS, REST) == 0) /* no card came */
            settle(gate);
        for (int i = 0; i < READERS; i++)
            if (ready[i].revents != 0 && fgets(line, sizeof line, readers[i]) != NULL)
                serve(gate, i, (uint32_t)strtoul(line, NULL, 10), (uint16_t)atoi(argv[3]));
            else if (ready[i].revents != 0)
                ready[i].fd = -1;
    }
    bovtrila_close(gate);
    return file.cause != BOVTRILA_FILE_OK;
}
