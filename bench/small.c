/* What a rebuild of 64 by 64 costs beyond its samples: the least time of the call
   less that of the six tile calls of its default plan and of clearing a work slice. */
#include "squeeze.h"
#include <stdio.h>
#include <stdlib.h>
#include <string.h>
#include <time.h>

enum { SIDE = 64, SAMPLES = SIDE * SIDE };

static const uint8_t record[9] = {1, 6, 0, SIDE, 0, SIDE, 0, 0, 0};
static int32_t picture[SAMPLES], pyramid[SAMPLES], out[SAMPLES], work[SAMPLES];

static void check(uint32_t answer) {
    if (answer != 0) abort();
}

/* A tile of the pyramid's first samples: only the time of it matters. */
static void tile(uint32_t horizontal, size_t width, size_t height) {
    const size_t aw = horizontal ? (width + 1) / 2 : width, ah = horizontal ? height : (height + 1) / 2;
    const size_t rw = horizontal ? width / 2 : width, rh = horizontal ? height : height / 2;
    check(squeeze_tile(horizontal, aw, ah, rw, rh, width, height, pyramid, aw * ah,
        pyramid + SAMPLES / 2, rw * rh, NULL, 0, NULL, 0, out, width * height));
}

static void samples_alone(void) {
    for (size_t side = 16; side <= SIDE; side *= 2) {
        tile(1, side, side / 2);
        tile(0, side, side);
    }
    memset(work, 0, sizeof work);
}

static void rebuild(void) {
    check(squeeze_rebuild(record, sizeof record, pyramid, SAMPLES, out, SAMPLES, work, SAMPLES));
}

static double now(void) {
    struct timespec time;
    clock_gettime(CLOCK_MONOTONIC, &time);
    return time.tv_sec * 1e9 + time.tv_nsec;
}

static double least(void (*call)(void)) {
    double best = 1e18;
    for (int round = 0; round < 400; round++) {
        const double start = now();
        for (int k = 0; k < 500; k++) call();
        const double took = (now() - start) / 500;
        if (took < best) best = took;
    }
    return best;
}

int main(void) {
    for (int k = 0; k < SAMPLES; k++) picture[k] = k * k / 999 % 256;
    check(squeeze_write(record, sizeof record, picture, SAMPLES, pyramid, SAMPLES, work, SAMPLES));
    const double alone = least(samples_alone), call = least(rebuild);
    printf("rebuild: %.0f ns beyond the samples, of %.0f ns a call\n", call - alone, call);
    return 0;
}
