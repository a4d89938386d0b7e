/* 48,000 samples through the proved Svf from C, timed: one of the sides of `tools/bench --svf`, which starts this program and talks to it
 * as it talks to crates/cost_of_frame, where the bytes are described. */
#define _POSIX_C_SOURCE 200809L
#include "../../bindings/c/motif_filters.h"

#include <stdio.h>
#include <string.h>
#include <time.h>

enum { SAMPLES = 48000 };

static float input[SAMPLES], output[SAMPLES];

static uint32_t nanoseconds(struct timespec from, struct timespec to) {
    return (uint32_t)((to.tv_sec - from.tv_sec) * 1000000000 + to.tv_nsec - from.tv_nsec);
}

int main(void) {
    uint32_t length, mode;
    uint8_t sheet[15];
    float f, resonance, fields[8] = {0};
    if (fread(&length, 4, 1, stdin) != 1 || fread(&mode, 4, 1, stdin) != 1 || fread(sheet, 1, 15, stdin) != 15 || fread(input, 4, SAMPLES, stdin) != SAMPLES || length == 0) return 1;
    memcpy(&f, sheet + 3, 4);
    memcpy(&resonance, sheet + 7, 4);
    for (int turn; (turn = getchar()) != EOF;) {
        struct timespec before, after;
        if (turn == 1) memset(output, 0, sizeof output);
        svf_new(fields);
        if (svf_set_f_q(fields, f, resonance, MOTIF_EXACT) != MOTIF_OK) return 1;
        clock_gettime(CLOCK_MONOTONIC, &before);
        for (size_t at = 0; at < SAMPLES; at += length) {
            size_t n = SAMPLES - at < length ? SAMPLES - at : length;
            svf_process_buffer(fields, input + at, n, output + at, n, mode);
        }
        clock_gettime(CLOCK_MONOTONIC, &after);
        uint32_t time = nanoseconds(before, after);
        fwrite(&time, 4, 1, stdout);
        fwrite(fields, 4, 8, stdout);
        fwrite(output, 4, SAMPLES, stdout);
        if (fflush(stdout) != 0) return 1;
    }
    return 0;
}
