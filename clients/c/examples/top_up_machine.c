/* SPDX-License-Identifier: Apache-2.0 */
/* A top-up machine: shows what a card holds, and pays in what was put into its slot.

       top_up_machine --create FILE GATE CAPACITY          once, where the machine is installed
       top_up_machine FILE GATE HOST:PORT..
       top_up_machine --give-up FILE GATE HOST:PORT..      for the staff: where the server can't accept the top-up that waits

   A line "17 2000" on standard input is a card and the pence that lie in the machine's tray: card 17, 20 pounds. */
#include <stdio.h>
#include <stdlib.h>
#include <string.h>
#include <time.h>

#include "bovtrila_gate.h"

static void show_balance(bovtrila_gate *gate, uint32_t card)
{
    bovtrila_holding holding = bovtrila_enquire(gate, card);

    if (holding.result == BOVTRILA_SHOWN && holding.state == 0)
        printf("card %lu was never issued\n", (unsigned long)card);
    else if (holding.result == BOVTRILA_SHOWN)
        printf("card %lu holds %lld\n", (unsigned long)card, (long long)holding.balance);
}

/* What becomes of the money by the answer to a top-up. */
static void end(bovtrila_gate *gate, bovtrila_answer answer)
{
    if (answer.result == BOVTRILA_ACCEPTED)
        printf("kept: the card holds %lld\n", (long long)answer.balance);
    else if (answer.result == BOVTRILA_REFUSED)
        printf("given back: %s\n", bovtrila_verdict_text(answer.verdict));
    else if (answer.number != 0) /* the top-up is in the file, or may be */
        printf("kept: it will be on the card later (%s)\n", bovtrila_result_text(answer.result));
    else
        printf("given back: %s\n", bovtrila_result_text(answer.result));
    fflush(stdout);
    if (answer.result == BOVTRILA_ACCEPTED || answer.result == BOVTRILA_REFUSED)
        bovtrila_done(gate); /* so that no later start takes what was given back for a debt */
}

/* A top-up that was promised for later is settled before the next: a refusal is told to the staff, who owe it. Where the
   power went between the money's return and the mark, a top-up may be told that is owed no more. */
static int settle(bovtrila_gate *gate)
{
    bovtrila_answer answer = bovtrila_resend(gate);

    if (answer.result == BOVTRILA_REFUSED) {
        bovtrila_touch touch = bovtrila_settled(gate).touch;
        printf("owed: card %lu, %lu pence\n", (unsigned long)touch.card, (unsigned long)touch.pence);
        fflush(stdout);
    }
    int is_settled = !bovtrila_waiting(gate, NULL);
    if (is_settled)
        bovtrila_done(gate);
    return is_settled;
}

/* Asks once more, and gives the top-up up where the server still can't accept it. An earlier send of it may have been
   recorded: the money isn't given back before the staff have looked. */
static int give_up(bovtrila_gate *gate)
{
    bovtrila_touch touch = {0};

    if (settle(gate)) {
        printf("nothing waits\n");
        return 0;
    }
    bovtrila_waiting(gate, &touch);
    bovtrila_answer answer = bovtrila_give_up(gate);
    if (answer.result == BOVTRILA_GIVEN_UP)
        printf("given up: number %lu, card %lu, %lu pence: give the money back if the history doesn't have it\n",
               (unsigned long)touch.number, (unsigned long)touch.card, (unsigned long)touch.pence);
    else
        printf("%s: number %lu\n", bovtrila_result_text(answer.result), (unsigned long)touch.number);
    return answer.result != BOVTRILA_GIVEN_UP;
}

static bovtrila_gate *open_gate(const char *file, const char *number, char **addresses, int count)
{
    bovtrila_options options = {0};
    bovtrila_gate *gate;

    options.size = sizeof options;
    options.file = file;
    options.gate = (uint16_t)atoi(number);
    options.addresses = (const char *const *)addresses;
    options.address_count = (size_t)count;
    bovtrila_file said = bovtrila_open(&options, &gate);
    if (said.cause != BOVTRILA_FILE_OK)
        fprintf(stderr, "%s: %s\n", file, bovtrila_file_text(said.cause));
    return gate;
}

int main(int argc, char **argv)
{
    unsigned long card, pence;

    if (argc == 5 && strcmp(argv[1], "--create") == 0)
        return bovtrila_create(argv[2], (uint16_t)atoi(argv[3]), (uint32_t)atol(argv[4])).cause != BOVTRILA_FILE_OK;
    int gives_up = argc > 1 && strcmp(argv[1], "--give-up") == 0, status = 0;
    if (argc < 4 + gives_up)
        return 2;
    argv += gives_up;
    bovtrila_gate *gate = open_gate(argv[1], argv[2], argv + 3, argc - gives_up - 3);
    if (gate == NULL)
        return 1;
    if (gives_up)
        status = give_up(gate);
    while (!gives_up && scanf("%lu %lu", &card, &pence) == 2) {
        if (!settle(gate)) {
            printf("given back: out of order\n");
            fflush(stdout);
            continue;
        }
        show_balance(gate, (uint32_t)card);
        end(gate, bovtrila_top_up(gate, (uint32_t)card, (uint32_t)pence, (uint32_t)time(NULL)));
    }
    bovtrila_close(gate);
    return status;
}
