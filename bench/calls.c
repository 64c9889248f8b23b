/* Calls squeeze_rebuild or squeeze_write ROUNDS times on a small record, for a
   count of instructions: calls RECORD CALL ROUNDS. */
#include "squeeze.h"
#include <stdlib.h>
#include <string.h>

static uint8_t record[4096];
static size_t length, samples;

static void channel(uint8_t width, uint8_t height) {
    const uint8_t field[9] = {1, 6, 0, width, 0, height, 0, 0, 0};
    memcpy(record + length, field, sizeof field);
    length += sizeof field;
    samples += (size_t)width * height;
}

static void step(uint8_t flags, uint8_t first, uint8_t number) {
    const uint8_t field[8] = {2, 5, 0, flags, first, 0, number, 0};
    memcpy(record + length, field, sizeof field);
    length += sizeof field;
}

int main(int count, char **words) {
    if (count != 4) return 2;
    if (!strcmp(words[1], "default")) {
        channel(64, 64);
    } else {
        for (int k = 0; k < 64; k++) channel(2, 2);
        for (int k = 0; k < 64; k++) step(k % 2, (uint8_t)k, 1);
    }
    int32_t *read = calloc(samples, 4), *filled = calloc(samples, 4), *work = calloc(samples, 4);
    uint32_t answer = 0;
    for (int round = atoi(words[3]); round > 0; round--)
        answer |= !strcmp(words[2], "write")
            ? squeeze_write(record, length, read, samples, filled, samples, work, samples)
            : squeeze_rebuild(record, length, read, samples, filled, samples, work, samples);
    return answer != 0;
}
