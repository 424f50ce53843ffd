/* SPDX-License-Identifier: Apache-2.0 */
/* For clang's -fsanitize=fuzzer: any bytes as a gate's file, and any bytes as the answer to a request. */
#include "../bovtrila_gate.c"

#include <stdio.h>

/* The bytes as a file: it is opened or refused, and stays as it is. */
static void as_file(const uint8_t *bytes, size_t size)
{
    static const char *const addresses[] = {"127.0.0.1:1"};
    static char path[64];
    bovtrila_options options = {0};
    bovtrila_gate *gate;
    bovtrila_touch touch;
    uint8_t left[4096];

    if (path[0] == '\0')
        snprintf(path, sizeof path, "/dev/shm/bovtrila-fuzz-%ld", (long)getpid());
    int file = open(path, O_RDWR | O_CREAT | O_TRUNC, 0600);
    if (file < 0 || size > sizeof left || pwrite(file, bytes, size, 0) != (ssize_t)size)
        abort();
    options.size = sizeof options;
    options.file = path;
    options.gate = 7;
    options.addresses = addresses;
    options.address_count = 1;
    bovtrila_file said = bovtrila_open(&options, &gate);
    if ((said.cause == BOVTRILA_FILE_OK) != (gate != NULL) || said.cause == BOVTRILA_FILE_DEVICE)
        abort();
    /* Where it is opened, the touch that waits is the last one in the file, and its bytes are those of the slot. If none
       waits, there is no touch, or the last two slots have the same one. */
    if (gate != NULL && gate->asked > 0) {
        size_t body = frame_size(gate->last) - LENGTH_SIZE;
        const uint8_t *slot = bytes + slot_at(gate->asked - 1);
        if (memcmp(gate->last + LENGTH_SIZE, slot + 1, body) != 0)
            abort();
        if (bovtrila_waiting(gate, &touch) ? touch.number != gate->asked
                                           : gate->asked < 2 || memcmp(slot + 1, slot + 1 - SLOT_SIZE, body) != 0)
            abort();
    }
    bovtrila_close(gate);
    if (pread(file, left, sizeof left, 0) != (ssize_t)size || memcmp(left, bytes, size) != 0)
        abort();
    close(file);
    unlink(path);
}

/* The bytes as they come for a request: once they are no beginning of an answer, they stay none. */
static void as_answer(const uint8_t *bytes, size_t size)
{
    static const uint8_t requests[][LONGEST_REQUEST] = {
        {0x00, 0x05, 0x05, 0, 0, 0, 1}, {0x00, 0x0f, 0x04, 0, 7, 0, 0, 0, 1, 0, 0, 0, 1, 0x67, 0x7b, 0x8b, 0x28}};

    for (size_t i = 0; i < 2; i++) {
        enum beginning before = MORE;
        for (size_t held = 0; held <= size && held <= 2 * LONGEST_ANSWER; held++) {
            enum beginning beginning = judge(requests[i], bytes, held);
            if ((before == STRAY && beginning != STRAY) || (before == WHOLE && beginning != WHOLE))
                abort();
            before = beginning;
        }
    }
}

int LLVMFuzzerTestOneInput(const uint8_t *bytes, size_t size);

int LLVMFuzzerTestOneInput(const uint8_t *bytes, size_t size)
{
    if (size > 4096)
        return 0;
    as_file(bytes, size);
    as_answer(bytes, size);
    return 0;
}
