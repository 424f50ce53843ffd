/* SPDX-License-Identifier: Apache-2.0 */
/* What the library makes of frames, for scripts/tests/test_gate_library.py: its own functions, since a gate numbers
   its touches itself.

   "frame GATE KIND NUMBER CARD STATION PENCE MOMENT DAY DIGEST" prints the touch's frame, and what is read from it
   again.
   "judge REQUEST BYTES" prints a letter for each beginning of the bytes, from none to all: m for a beginning of an
   answer to the request, w for a whole answer, s for neither. "size" prints how many bytes a gate takes. */
#include "../bovtrila_gate.c"

#include <stdio.h>

static size_t bytes_of(const char *digits, uint8_t *into, size_t most)
{
    unsigned byte;
    size_t count = 0;

    while (count < most && sscanf(digits + 2 * count, "%2x", &byte) == 1)
        into[count++] = (uint8_t)byte;
    return count;
}

static void print_bytes(const uint8_t *bytes, size_t size)
{
    while (size-- > 0)
        printf("%02x", *bytes++);
}

static uint32_t number(const char *word)
{
    return (uint32_t)strtoul(word, NULL, 10);
}

static void frame(char *const *words)
{
    uint8_t made[LONGEST_REQUEST] = {0};
    bovtrila_touch touch = touch_of((enum bovtrila_kind)number(words[2]), number(words[4]), number(words[7]));

    touch.number = number(words[3]);
    touch.station = (uint16_t)number(words[5]);
    touch.pence = number(words[6]);
    touch.day = (int32_t)strtol(words[8], NULL, 10);
    bytes_of(words[9], touch.digest, sizeof touch.digest);
    write_touch(made, (uint16_t)number(words[1]), &touch);
    print_bytes(made, frame_size(made));
    touch = read_touch(made);
    printf(" %d %lu %lu %u %lu %lu %ld ", (int)touch.kind, (unsigned long)touch.number, (unsigned long)touch.card,
           touch.station, (unsigned long)touch.pence, (unsigned long)touch.moment, (long)touch.day);
    print_bytes(touch.digest, sizeof touch.digest);
    printf("\n");
}

static void judge_all(char *const *words)
{
    uint8_t request[LONGEST_REQUEST] = {0}, bytes[64] = {0};
    size_t size;

    bytes_of(words[1], request, sizeof request);
    size = bytes_of(words[2], bytes, sizeof bytes);
    for (size_t held = 0; held <= size; held++)
        putchar("mws"[judge(request, bytes, held)]);
    putchar('\n');
}

int main(void)
{
    static char empty[] = "";
    char line[512];

    while (fgets(line, sizeof line, stdin) != NULL) {
        char *words[10] = {empty, empty, empty, empty, empty, empty, empty, empty, empty, empty};
        size_t count = 0;
        for (char *each = strtok(line, " \n"); each != NULL && count < 10; each = strtok(NULL, " \n"))
            words[count++] = each;
        if (strcmp(words[0], "frame") == 0)
            frame(words);
        else if (strcmp(words[0], "judge") == 0)
            judge_all(words);
        else
            printf("%lu\n", (unsigned long)sizeof(struct bovtrila_gate));
    }
    return 0;
}
