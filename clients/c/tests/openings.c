/* SPDX-License-Identifier: Apache-2.0 */
/* Opens a gate's file with each of its bytes changed to each other value, for scripts/tests/test_gate_library.py.

       openings FILE GATE COPY

   COPY is written anew for each. A line for each change, in order: "CAUSE PLACE COUNT", of which COUNT is the number of
   the touch that waits, 0 where none does. The first line is of the file as it is. */
#define _XOPEN_SOURCE 700
#include <fcntl.h>
#include <stdio.h>
#include <stdlib.h>
#include <sys/types.h>
#include <time.h>
#include <unistd.h>

#include "../bovtrila_gate.h"

/* Opens the file, which only this program opens. A program that lists the open files of all processes, as lsof does, holds
   each for a moment; if it is closed in that moment, its lock is given back a moment later. So an opening that finds it in
   use is tried again for up to 10 seconds. */
static bovtrila_file open_it(const bovtrila_options *options, bovtrila_gate **gate)
{
    static const struct timespec pause = {0, 10000000};
    bovtrila_file said = bovtrila_open(options, gate);

    for (int tries = 0; said.cause == BOVTRILA_FILE_IN_USE && tries < 1000; tries++) {
        bovtrila_close(*gate);
        nanosleep(&pause, NULL);
        said = bovtrila_open(options, gate);
    }
    return said;
}

static void try_it(const bovtrila_options *options)
{
    bovtrila_gate *gate;
    bovtrila_touch touch = {0};
    bovtrila_file said = open_it(options, &gate);

    if (said.cause == BOVTRILA_FILE_OK)
        bovtrila_waiting(gate, &touch);
    printf("%d %lu %lu\n", (int)said.cause, (unsigned long)said.place, (unsigned long)touch.number);
    bovtrila_close(gate);
}

int main(int argc, char **argv)
{
    static const char *const addresses[] = {"127.0.0.1:1"};
    static unsigned char bytes[1 << 16];
    bovtrila_options options = {0};

    if (argc != 4)
        return 2;
    FILE *from = fopen(argv[1], "rb");
    int copy = open(argv[3], O_RDWR | O_CREAT | O_TRUNC, 0600);
    if (from == NULL || copy < 0)
        return 1;
    size_t size = fread(bytes, 1, sizeof bytes, from);
    fclose(from);
    if (write(copy, bytes, size) != (ssize_t)size)
        return 1;
    options.size = sizeof options;
    options.file = argv[3];
    options.gate = (uint16_t)atoi(argv[2]);
    options.addresses = addresses;
    options.address_count = 1;
    try_it(&options);
    for (size_t at = 0; at < size; at++) {
        for (unsigned more = 1; more < 256; more++) {
            unsigned char other = (unsigned char)(bytes[at] + more);
            if (pwrite(copy, &other, 1, (off_t)at) != 1)
                return 1;
            try_it(&options);
        }
        if (pwrite(copy, bytes + at, 1, (off_t)at) != 1)
            return 1;
    }
    close(copy);
    return 0;
}
