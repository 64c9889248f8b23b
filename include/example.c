/* A record, a picture, its pyramid and back, with the functions of squeeze.h.

   cc -std=c99 -Wall -Wextra -pedantic -I include include/example.c \
      target/staticlib/libsqueeze.a -o target/example */

#include <stdio.h>
#include <string.h>

#include "squeeze.h"

#define WIDTH 20
#define HEIGHT 9
#define SAMPLES (WIDTH * HEIGHT)

/* Prints which picture channel the last channel of the pyramid refines; gives the
   answer. */
static uint32_t print_last(const uint8_t *record, size_t bytes)
{
    static uint32_t counts[4], steps[192], channels[1024], origins[256];
    uint32_t answer, last;

    answer = squeeze_layout(record, bytes, counts, 4, steps, 192, channels, 1024,
                            origins, 256);
    if (answer == 0) {
        last = counts[2] - 1;
        printf("channel %u refines picture channel %u\n", (unsigned)last,
               (unsigned)origins[last]);
    }
    return answer;
}

int main(void)
{
    /* One channel, 20 by 9, shifts 0, and no steps: version 1's default plan. */
    static const uint32_t channels[] = {WIDTH, HEIGHT, 0, 0};
    static uint8_t record[3844], text[8192];
    static int32_t picture[SAMPLES], pyramid[SAMPLES], back[SAMPLES], work[SAMPLES];
    uint32_t answer, bytes, length;
    int i;

    for (i = 0; i < SAMPLES; i++)
        picture[i] = i % WIDTH * 3 + i / WIDTH * 5 + i % 7;

    answer = squeeze_record(1, channels, 4, NULL, 0, record, sizeof record, &bytes, 1);
    if (answer == 0)
        answer = squeeze_listing(record, bytes, text, sizeof text, &length, 1);
    if (answer == 0) {
        fwrite(text, 1, length, stdout);
        answer = print_last(record, bytes);
    }
    if (answer == 0)
        answer = squeeze_write(record, bytes, picture, SAMPLES, pyramid, SAMPLES,
                               work, SAMPLES);
    if (answer == 0)
        answer = squeeze_rebuild(record, bytes, pyramid, SAMPLES, back, SAMPLES,
                                 work, SAMPLES);
    if (answer != 0) {
        printf("refused %u\n", (unsigned)answer);
        return 1;
    }
    if (memcmp(picture, back, sizeof picture) != 0) {
        printf("the picture came back changed\n");
        return 1;
    }
    printf("the picture came back, all %d samples equal\n", SAMPLES);
    return 0;
}
