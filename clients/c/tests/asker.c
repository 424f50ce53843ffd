/* SPDX-License-Identifier: Apache-2.0 */
/* A gate that is told on standard input what to ask, for scripts/tests/test_gate_library.py. It knows the library
   by its header alone.

       asker create FILE GATE CAPACITY
       asker open FILE GATE ADDRESS,.. LIMIT PATIENCE BACKOFF_FIRST BACKOFF_MOST
       asker version                   the version of the library
       asker words                     the words for each code, of a verdict, a fault, a result and a file's cause
       asker null                      what every call answers to NULL

   A line asks one thing: "in CARD STATION MOMENT", "out CARD STATION MOMENT", "top-up CARD PENCE MOMENT",
   "issue CARD MOMENT", "revise DIGEST DAY MOMENT", "enquire CARD", "resend", "give-up", "waiting", "settled", "room",
   "error", "done", "cancel", "clear".
   With lines of its own: "keep-in CARD STATION MOMENT" and so on for the other touches, "frame", and "hear DIGITS";
   "enquiry CARD" and "hear-enquiry DIGITS".
   Each is answered by a line of numbers: of a touch "RESULT NUMBER VERDICT FAULT CHANGE BALANCE", of an enquiry "RESULT
   STATE FAULT BALANCE FRONT". What create and open came to is a line "CAUSE PLACE ERROR".
   The signal USR1 cancels by its handler. After a line "watch" the signal USR2 cancels by a thread. */
#define _POSIX_C_SOURCE 200809L
#include <pthread.h>
#include <signal.h>
#include <stdio.h>
#include <stdlib.h>
#include <string.h>

#include "bovtrila_gate.h"

/* The gate, for what cancels, and the thread that does, where there is one. */
static bovtrila_gate *open_gate;
static pthread_t watcher;
static int is_watched;

static void cancel(int signal_number)
{
    (void)signal_number;
    bovtrila_cancel(open_gate);
}

/* Has USR1 cancel what the gate waits for. A line that is read meanwhile is read on. */
static int may_be_cancelled(bovtrila_gate *gate)
{
    struct sigaction action;

    open_gate = gate;
    memset(&action, 0, sizeof action);
    action.sa_handler = cancel;
    action.sa_flags = SA_RESTART;
    return sigaction(SIGUSR1, &action, NULL) == 0;
}

/* Cancels at each USR2. */
static void *cancel_all(void *signals)
{
    int came;

    while (sigwait(signals, &came) == 0)
        bovtrila_cancel(open_gate);
    return NULL;
}

/* Cancels from now on by a thread: 1, or 0 where there is none. */
static int watch(void)
{
    static sigset_t signals;

    sigemptyset(&signals);
    sigaddset(&signals, SIGUSR2);
    is_watched = pthread_sigmask(SIG_BLOCK, &signals, NULL) == 0
        && pthread_create(&watcher, NULL, cancel_all, &signals) == 0;
    return is_watched;
}

/* Has nothing cancel any more, as it has to be before a gate is closed. */
static void end_cancels(void)
{
    signal(SIGUSR1, SIG_IGN);
    if (is_watched && pthread_cancel(watcher) == 0)
        pthread_join(watcher, NULL);
}

static int tell_file(bovtrila_file file)
{
    printf("%d %lu %d\n", (int)file.cause, (unsigned long)file.place, file.error);
    fflush(stdout);
    return file.cause != BOVTRILA_FILE_OK;
}

static void tell(bovtrila_answer answer)
{
    printf("%d %lu %u %u %ld %lld\n", (int)answer.result, (unsigned long)answer.number, answer.verdict, answer.fault,
           (long)answer.change, (long long)answer.balance);
}

static void tell_holding(bovtrila_holding holding)
{
    printf("%d %u %u %lld %lu\n", (int)holding.result, holding.state, holding.fault, (long long)holding.balance,
           (unsigned long)holding.front);
}

static void tell_touch(const bovtrila_touch *touch)
{
    printf("%d %lu %lu %lu %lu %u %ld ", (int)touch->kind, (unsigned long)touch->number, (unsigned long)touch->card,
           (unsigned long)touch->moment, (unsigned long)touch->pence, touch->station, (long)touch->day);
    for (size_t i = 0; i < sizeof touch->digest; i++)
        printf("%02x", touch->digest[i]);
    printf("\n");
}

static uint32_t number(const char *word)
{
    return (uint32_t)strtoul(word, NULL, 10);
}

/* The bytes of these digits: how many there are. */
static size_t bytes_of(const char *digits, uint8_t *into, size_t most)
{
    unsigned byte;
    size_t count = 0;

    while (count < most && sscanf(digits + 2 * count, "%2x", &byte) == 1)
        into[count++] = (uint8_t)byte;
    return count;
}

static bovtrila_answer revise(bovtrila_gate *gate, const char *digits, const char *day, const char *moment)
{
    uint8_t digest[32] = {0};

    bytes_of(digits, digest, sizeof digest);
    return bovtrila_revise(gate, digest, (int32_t)strtol(day, NULL, 10), number(moment));
}

/* Keeps the touch that a line names, with a number that isn't looked at. */
static bovtrila_answer keep(bovtrila_gate *gate, const char *act, char **words)
{
    bovtrila_touch touch = {0};
    size_t at = 2;

    touch.number = 99;
    touch.card = number(words[1]);
    if (strcmp(act, "in") == 0 || strcmp(act, "out") == 0) {
        touch.kind = strcmp(act, "in") == 0 ? BOVTRILA_TOUCH_IN : BOVTRILA_TOUCH_OUT;
        touch.station = (uint16_t)number(words[at++]);
    } else if (strcmp(act, "top-up") == 0) {
        touch.kind = BOVTRILA_TOP_UP;
        touch.pence = number(words[at++]);
    } else if (strcmp(act, "issue") == 0) {
        touch.kind = BOVTRILA_ISSUE;
    } else if (strcmp(act, "revise") == 0) {
        touch.kind = BOVTRILA_REVISION;
        touch.card = 0;
        bytes_of(words[1], touch.digest, sizeof touch.digest);
        touch.day = (int32_t)strtol(words[at++], NULL, 10);
    }
    touch.moment = number(words[at]);
    return bovtrila_ask(gate, &touch);
}

/* A line of a frame: how many bytes it has, and its digits. */
static void tell_frame(const uint8_t *frame, size_t size)
{
    printf("%lu ", (unsigned long)size);
    for (size_t i = 0; i < size; i++)
        printf("%02x", frame[i]);
    printf("\n");
}

/* The frame that waits, or that of an enquiry about a card. */
static void ask_frame(const bovtrila_gate *gate, char **words)
{
    uint8_t frame[BOVTRILA_FRAME_SIZE] = {0};

    if (strcmp(words[0], "enquiry") == 0)
        tell_frame(frame, bovtrila_enquiry(number(words[1]), frame));
    else
        tell_frame(frame, bovtrila_frame(gate, frame));
}

/* What the bytes of some digits are heard as. */
static void hear(bovtrila_gate *gate, char **words)
{
    /* So many bytes to their end, for the sanitizers. */
    size_t size = strlen(words[1]) / 2;
    uint8_t *bytes = malloc(size + (size == 0));

    if (bytes == NULL)
        return;
    bytes_of(words[1], bytes, size);
    if (strcmp(words[0], "hear-enquiry") == 0)
        tell_holding(bovtrila_hear_enquiry(bytes, size));
    else
        tell(bovtrila_hear(gate, bytes, size));
    free(bytes);
}

/* Every call with NULL: the results in a line. */
static void ask_nothing(void)
{
    bovtrila_options options = {0};
    bovtrila_gate *gate = NULL;

    bovtrila_close(NULL);
    printf("%d %d %d ", bovtrila_touch_in(NULL, 1, 1, 1).result, bovtrila_touch_out(NULL, 1, 1, 1).result,
           bovtrila_top_up(NULL, 1, 1, 1).result);
    printf("%d %d %d ", bovtrila_issue(NULL, 1, 1).result, bovtrila_revise(NULL, NULL, 1, 1).result,
           bovtrila_resend(NULL).result);
    printf("%d %d %d ", bovtrila_enquire(NULL, 1).result, bovtrila_create(NULL, 1, 1).cause,
           bovtrila_open(&options, &gate).cause);
    printf("%d %d %d %lu %d ", bovtrila_open(&options, NULL).cause, bovtrila_waiting(NULL, NULL),
           bovtrila_settled(NULL).answer.result, (unsigned long)bovtrila_room(NULL), bovtrila_last_error(NULL));
    printf("%d %lu %d ", bovtrila_ask(NULL, NULL).result, (unsigned long)bovtrila_frame(NULL, NULL),
           bovtrila_hear(NULL, NULL, 0).result);
    printf("%d %lu %d ", bovtrila_done(NULL), (unsigned long)bovtrila_enquiry(1, NULL),
           bovtrila_hear_enquiry(NULL, 1).result);
    printf("%d %d %d\n", bovtrila_cancel(NULL), bovtrila_clear_cancel(NULL), bovtrila_give_up(NULL).result);
}

/* The words for each code: a line each. */
static void tell_words(void)
{
    for (unsigned code = 0; code < 256; code++)
        printf("%u %s|%s|%s|%s\n", code, bovtrila_verdict_text((uint8_t)code), bovtrila_fault_text((uint8_t)code),
               bovtrila_result_text((enum bovtrila_result)code), bovtrila_file_text((enum bovtrila_file_cause)code));
}

/* What a call that answers by one number comes to, or -1 where the word is none of these. */
static long plain_number(bovtrila_gate *gate, const char *word)
{
    if (strcmp(word, "done") == 0)
        return bovtrila_done(gate);
    if (strcmp(word, "cancel") == 0)
        return bovtrila_cancel(gate);
    if (strcmp(word, "clear") == 0)
        return bovtrila_clear_cancel(gate);
    if (strcmp(word, "watch") == 0)
        return watch();
    if (strcmp(word, "room") == 0)
        return (long)bovtrila_room(gate);
    return strcmp(word, "error") == 0 ? bovtrila_last_error(gate) : -1;
}

/* Asks what a line says, and tells what it came to. */
static void ask(bovtrila_gate *gate, char **words)
{
    bovtrila_touch touch;
    long plain;

    if (strcmp(words[0], "in") == 0)
        tell(bovtrila_touch_in(gate, number(words[1]), (uint16_t)number(words[2]), number(words[3])));
    else if (strcmp(words[0], "out") == 0)
        tell(bovtrila_touch_out(gate, number(words[1]), (uint16_t)number(words[2]), number(words[3])));
    else if (strcmp(words[0], "top-up") == 0)
        tell(bovtrila_top_up(gate, number(words[1]), number(words[2]), number(words[3])));
    else if (strcmp(words[0], "issue") == 0)
        tell(bovtrila_issue(gate, number(words[1]), number(words[2])));
    else if (strcmp(words[0], "revise") == 0)
        tell(revise(gate, words[1], words[2], words[3]));
    else if (strcmp(words[0], "enquire") == 0)
        tell_holding(bovtrila_enquire(gate, number(words[1])));
    else if (strcmp(words[0], "resend") == 0 || strcmp(words[0], "give-up") == 0)
        tell(strcmp(words[0], "resend") == 0 ? bovtrila_resend(gate) : bovtrila_give_up(gate));
    else if (strncmp(words[0], "keep-", 5) == 0)
        tell(keep(gate, words[0] + 5, words));
    else if (strcmp(words[0], "frame") == 0 || strcmp(words[0], "enquiry") == 0)
        ask_frame(gate, words);
    else if (strncmp(words[0], "hear", 4) == 0)
        hear(gate, words);
    else if ((plain = plain_number(gate, words[0])) >= 0)
        printf("%ld\n", plain);
    else if (strcmp(words[0], "waiting") == 0 && bovtrila_waiting(gate, &touch))
        tell_touch(&touch);
    else if (strcmp(words[0], "settled") == 0) {
        bovtrila_settlement settled = bovtrila_settled(gate);
        tell_touch(&settled.touch);
        tell(settled.answer);
    } else
        printf("none\n");
    fflush(stdout);
}

int main(int argc, char **argv)
{
    static char empty[] = "", in[4096], out[4096];
    bovtrila_options options = {0};
    bovtrila_gate *gate;
    const char *addresses[BOVTRILA_ADDRESSES];
    char line[256];

    /* Buffers of its own: what memory is taken is the library's then. */
    setvbuf(stdin, in, _IOFBF, sizeof in);
    setvbuf(stdout, out, _IOFBF, sizeof out);
    if (argc == 5 && strcmp(argv[1], "create") == 0)
        return tell_file(bovtrila_create(argv[2], (uint16_t)number(argv[3]), number(argv[4])));
    if (argc == 2 && strcmp(argv[1], "version") == 0)
        printf("%s\n", bovtrila_version());
    if (argc == 2 && strcmp(argv[1], "words") == 0)
        tell_words();
    if (argc == 2 && strcmp(argv[1], "null") == 0)
        ask_nothing();
    if (argc != 9)
        return argc != 2;
    options.size = sizeof options;
    options.file = argv[2];
    options.gate = (uint16_t)number(argv[3]);
    for (char *each = strtok(argv[4], ","); each != NULL && options.address_count < BOVTRILA_ADDRESSES;
         each = strtok(NULL, ","))
        addresses[options.address_count++] = each;
    options.addresses = addresses;
    options.limit = number(argv[5]);
    options.patience = number(argv[6]);
    options.backoff_first = number(argv[7]);
    options.backoff_most = number(argv[8]);
    if (tell_file(bovtrila_open(&options, &gate)) || !may_be_cancelled(gate))
        return 1;
    while (fgets(line, sizeof line, stdin) != NULL) {
        char *words[4] = {empty, empty, empty, empty};
        size_t count = 0;
        for (char *each = strtok(line, " \n"); each != NULL && count < 4; each = strtok(NULL, " \n"))
            words[count++] = each;
        ask(gate, words);
    }
    end_cancels();
    bovtrila_close(gate);
    return 0;
}
