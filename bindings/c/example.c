/* Worked examples of document 01 from C, the refusals, samples in planes, and sheets read. Ends with 1 at the first that is not as it must be. */
#include "motif_filters.h"
#include "motif_sheets.h"

#include <limits.h>
#include <stdio.h>
#include <stdlib.h>
#include <string.h>

static int checks;

static void check(const char *what, int holds) {
    if (!holds) {
        printf("%s: not so\n", what);
        exit(1);
    }
    checks++;
}

/* Every call that takes a mode or an approximation, with one number for each, as an int. */
static void refuses(int mode, int approximation) {
    const float in[2] = {1, 9}, three[3] = {0.5f, 0.25f, 2}, four[4] = {0.5f, 1, 2, 3}, five[5] = {1, 1, 0.25f, 3, 4};
    const float eight[8] = {0.5f, 0.5f, 1, 2, 3, 4, 5, 6};
    float one_pole[3], svf[5], naive[4], modified[5], crossover[8], out[2] = {7, 7}, other[2] = {8, 8};
    memcpy(one_pole, three, sizeof three);
    memcpy(svf, five, sizeof five);
    memcpy(naive, four, sizeof four);
    memcpy(modified, five, sizeof five);
    memcpy(crossover, eight, sizeof eight);

    check("one_pole_tan", one_pole_tan(0.1f, approximation, out) == MOTIF_UNKNOWN);
    check("one_pole_set_f", one_pole_set_f(one_pole, 0.1f, approximation) == MOTIF_UNKNOWN);
    check("one_pole_process", one_pole_process(one_pole, 1, mode, out) == MOTIF_UNKNOWN);
    check("svf_set_f_q", svf_set_f_q(svf, 0.1f, 1, approximation) == MOTIF_UNKNOWN);
    check("svf_process", svf_process(svf, 1, mode, out) == MOTIF_UNKNOWN);
    check("svf_process_dual, first", svf_process_dual(svf, 1, out, other, mode, MOTIF_LOW_PASS) == MOTIF_UNKNOWN);
    check("svf_process_dual, second", svf_process_dual(svf, 1, out, other, MOTIF_LOW_PASS, mode) == MOTIF_UNKNOWN);
    check("svf_process_buffer", svf_process_buffer(svf, in, 2, out, 2, mode) == MOTIF_UNKNOWN);
    check("svf_process_add_buffer", svf_process_add_buffer(svf, in, 2, out, 2, 1, mode) == MOTIF_UNKNOWN);
    check("svf_process_stride_buffer", svf_process_stride_buffer(svf, in, 2, out, 2, 1, mode) == MOTIF_UNKNOWN);
    check("svf_process_add_dual_buffer", svf_process_add_dual_buffer(svf, in, 2, out, 2, other, 2, 1, 1, mode) == MOTIF_UNKNOWN);
    check("naive_svf_set_f_q", naive_svf_set_f_q(naive, 0.1f, 1, approximation) == MOTIF_UNKNOWN);
    check("naive_svf_process", naive_svf_process(naive, 1, mode, out) == MOTIF_UNKNOWN);
    check("naive_svf_process_buffer", naive_svf_process_buffer(naive, in, 2, out, 2, mode) == MOTIF_UNKNOWN);
    check("naive_svf_process_decimate", naive_svf_process_decimate(naive, in, 2, out, 2, 1, mode) == MOTIF_UNKNOWN);
    check("modified_svf_process", modified_svf_process(modified, in, 2, out, 2, mode) == MOTIF_UNKNOWN);
    check("crossover_svf_process", crossover_svf_process(crossover, in, 2, out, 2, mode) == MOTIF_UNKNOWN);

    check("all outputs as they were", out[0] == 7 && out[1] == 7 && other[0] == 8 && other[1] == 8);
    check("OnePole as it was", memcmp(one_pole, three, sizeof three) == 0);
    check("Svf as it was", memcmp(svf, five, sizeof five) == 0);
    check("NaiveSvf as it was", memcmp(naive, four, sizeof four) == 0);
    check("ModifiedSvf as it was", memcmp(modified, five, sizeof five) == 0);
    check("CrossoverSvf as it was", memcmp(crossover, eight, sizeof eight) == 0);
}

/* A buffer of length 0 may be NULL: the filter stays as it was. */
static void takes_no_buffer(void) {
    const float eight[8] = {0.5f, 0.5f, 0.25f, 3, 4, 5, 6, 7};
    float state[8];
    memcpy(state, eight, sizeof eight);
    dc_blocker_process(state, NULL, 0);
    check("svf_process_buffer, NULL", svf_process_buffer(state, NULL, 0, NULL, 0, MOTIF_LOW_PASS) == MOTIF_OK);
    check("svf_process_add_buffer, NULL", svf_process_add_buffer(state, NULL, 0, NULL, 0, 1, MOTIF_LOW_PASS) == MOTIF_OK);
    check("svf_process_stride_buffer, NULL", svf_process_stride_buffer(state, NULL, 0, NULL, 0, 1, MOTIF_LOW_PASS) == MOTIF_OK);
    svf_process_multimode_buffer(state, NULL, 0, NULL, 0, 0.5f);
    check("svf_process_add_dual_buffer, NULL", svf_process_add_dual_buffer(state, NULL, 0, NULL, 0, NULL, 0, 1, 1, MOTIF_LOW_PASS) == MOTIF_OK);
    check("naive_svf_process_buffer, NULL", naive_svf_process_buffer(state, NULL, 0, NULL, 0, MOTIF_LOW_PASS) == MOTIF_OK);
    naive_svf_split(state, NULL, 0, NULL, 0, NULL, 0);
    check("naive_svf_process_decimate, NULL", naive_svf_process_decimate(state, NULL, 0, NULL, 0, 1, MOTIF_LOW_PASS) == MOTIF_OK);
    check("modified_svf_process, NULL", modified_svf_process(state, NULL, 0, NULL, 0, MOTIF_LOW_PASS) == MOTIF_OK);
    check("crossover_svf_process, NULL", crossover_svf_process(state, NULL, 0, NULL, 0, MOTIF_LOW_PASS) == MOTIF_OK);
    check("all fields as they were", memcmp(state, eight, sizeof eight) == 0);
}

/* Three samples, a signalling NaN among them, as a trace is stored and read again. */
static void arranges_planes(void) {
    const uint8_t samples[12] = {0xdb, 0x0f, 0x49, 0x40, 0x45, 0x23, 0x81, 0x7f, 0x01, 0x00, 0x00, 0x80};
    const uint8_t planes[12] = {0xdb, 0x45, 0x01, 0x0f, 0x23, 0x00, 0x49, 0x81, 0x00, 0x40, 0x7f, 0x80};
    const uint8_t before[14] = {7, 7, 7, 7, 7, 7, 7, 7, 7, 7, 7, 7, 7, 7};
    uint8_t out[14];
    memcpy(out, before, 14);
    check("planes", samples_to_planes(samples, 12, out, 14) == MOTIF_OK && memcmp(out, planes, 12) == 0);
    check("places after the planes", out[12] == 7 && out[13] == 7);
    memcpy(out, before, 14);
    check("samples", planes_to_samples(planes, 12, out, 14) == MOTIF_OK && memcmp(out, samples, 12) == 0);
    check("places after the samples", out[12] == 7 && out[13] == 7);

    /* refused: the output stays */
    memcpy(out, before, 14);
    check("a byte too few", samples_to_planes(samples, 11, out, 14) == MOTIF_PARTIAL && planes_to_samples(planes, 11, out, 14) == MOTIF_PARTIAL);
    check("partial before short", samples_to_planes(samples, 11, out, 10) == MOTIF_PARTIAL && planes_to_samples(planes, 11, NULL, 0) == MOTIF_PARTIAL);
    check("a place too few", samples_to_planes(samples, 12, out, 11) == MOTIF_SHORT && planes_to_samples(planes, 12, out, 11) == MOTIF_SHORT);
    check("no samples", samples_to_planes(NULL, 0, NULL, 0) == MOTIF_OK && planes_to_samples(NULL, 0, out, 14) == MOTIF_OK);
    check("the output as it was", memcmp(out, before, 14) == 0);

    /* where each byte goes, and back */
    uint8_t trace[400], arranged[400], back[400];
    for (size_t k = 0; k < sizeof trace; k++) trace[k] = (uint8_t)(k * k + k / 5);
    for (size_t n = 0; n <= 100; n++) {
        int holds = samples_to_planes(trace, 4 * n, arranged, sizeof arranged) == MOTIF_OK && planes_to_samples(arranged, 4 * n, back, 4 * n) == MOTIF_OK;
        for (size_t i = 0; i < n; i++)
            for (size_t p = 0; p < 4; p++) holds &= arranged[p * n + i] == trace[4 * i + p];
        check("a trace in planes and back", holds && memcmp(back, trace, 4 * n) == 0);
    }
}

/* Two entries, a DC blocker and a one-pole with f = 0.25 by the approximation 4, which edition 2 alone has. */
static void reads_a_sheet(void) {
    uint8_t sheet[28] = {2, 2, 1, 66, 0, 0, 0, 0x3f, 0, 0, 0, 0, 0, 0, 0, 0, 0, 0, 0x80, 0x3e};
    size_t place = 7;
    float f;
    check("a sheet", sheet_check(sheet, 28) == SHEET_OK);

    /* refused: the place stays */
    check("no entry 2", sheet_lookup(sheet, 28, 2, &place) == SHEET_ENTRY && place == 7);
    check("no entry of the largest number", sheet_lookup(sheet, 28, SIZE_MAX, &place) == SHEET_ENTRY && place == 7);
    check("a byte too few", sheet_check(sheet, 27) == SHEET_SIZE && sheet_lookup(sheet, 27, 1, &place) == SHEET_SIZE && place == 7);
    check("no bytes", sheet_check(NULL, 0) == SHEET_SIZE && sheet_lookup(NULL, 0, 0, &place) == SHEET_SIZE && place == 7);

    check("its entry 0", sheet_lookup(sheet, 28, 0, &place) == SHEET_OK && place == 4);
    check("its entry 1", sheet_lookup(sheet, 28, 1, &place) == SHEET_OK && place == 16);
    memcpy(&f, sheet + place, sizeof f);
    check("its frequency", f == 0.25f);

    sheet[1] = 0;
    check("no approximation 4 in edition 1", sheet_check(sheet, 28) == SHEET_KIND);
    sheet[3] = 50;
    check("its approximation 3", sheet_check(sheet, 28) == SHEET_OK);
    sheet[8] = 1;
    check("a word that is not used", sheet_check(sheet, 28) == SHEET_WORD);
    sheet[8] = 0;
    memcpy(sheet + 4, "\1\0\300\177", 4);
    check("another NaN", sheet_check(sheet, 28) == SHEET_WORD);
    sheet[4] = 0;
    check("the one NaN", sheet_check(sheet, 28) == SHEET_OK);
    memcpy(sheet + 16, &(float){-0.5f}, 4);
    check("no frequency is refused but in Exact", sheet_check(sheet, 28) == SHEET_OK);
    sheet[3] = 2;
    check("a frequency below", sheet_check(sheet, 28) == SHEET_FREQUENCY);
    check("its lookup", sheet_lookup(sheet, 28, 0, &place) == SHEET_FREQUENCY && place == 16);

    /* the kind bytes of both editions, by the table of document 01 and what 02 adds to it */
    for (int second = 0; second <= 2; second += 2)
        for (int kind = 0; kind < 256; kind++) {
            const uint8_t one[15] = {1, (uint8_t)second, (uint8_t)kind};
            int low = kind & 15, high = kind >> 4, last = low == 2 || low == 3 || low == 5 ? (second == 2 ? 4 : 3) : 0;
            check("a kind byte", sheet_check(one, 15) == (low >= 1 && low <= 7 && high <= last ? SHEET_OK : SHEET_KIND));
        }
}

int main(void) {
    /* S1: a DC blocker with the pole 0.5, in place */
    float dc[3], samples[3] = {1, 1, 0};
    dc_blocker_new(dc);
    dc_blocker_init(dc, 0.5f);
    dc_blocker_process(dc, samples, 3);
    check("S1", samples[0] == 1 && samples[1] == 0.5f && samples[2] == -0.75f);

    /* S3 and S4: a state-variable filter, every sample and every second one */
    const float impulse[3] = {1, 9, 0};
    float svf[5], out[3] = {7, 7, 7};
    svf_new(svf);
    svf_set_g_r_h(svf, 1, 1, 0.25f);
    check("S3, first", svf_process(svf, 1, MOTIF_LOW_PASS, &out[0]) == MOTIF_OK && out[0] == 0.25f);
    check("S3, second", svf_process(svf, 0, MOTIF_LOW_PASS, &out[1]) == MOTIF_OK && out[1] == 0.625f);
    check("S3, states", svf[3] == -0.25f && svf[4] == 0.75f);
    svf_reset(svf);
    out[0] = out[1] = out[2] = 7;
    check("S4", svf_process_stride_buffer(svf, impulse, 3, out, 3, 2, MOTIF_LOW_PASS) == MOTIF_OK);
    check("S4, places", out[0] == 0.25f && out[1] == 7 && out[2] == 0.625f);

    /* refused calls change nothing */
    check("stride 0", svf_process_stride_buffer(svf, impulse, 3, out, 3, 0, MOTIF_LOW_PASS) == MOTIF_STEP);
    const float lowest = -0.497f, below = -0.49700004f; /* the number next below */
    check("f below -0.497", svf_set_f_q(svf, below, 1, MOTIF_EXACT) == MOTIF_FREQUENCY);
    check("all as it was", out[0] == 0.25f && out[1] == 7 && out[2] == 0.625f && svf_g(svf) == 1 && svf_h(svf) == 0.25f);
    const int unknown[] = {5, 255, 256, 260, 65536, INT_MAX, -1, -256, INT_MIN};
    for (size_t k = 0; k < sizeof unknown / sizeof unknown[0]; k++) refuses(unknown[k], unknown[k]);
    refuses(4, 5);
    takes_no_buffer();
    arranges_planes();
    reads_a_sheet();

    /* Exact below 0: the negative of the value at -f, down to -0.497 */
    float up, down, naive_up[4], naive_down[4];
    check("the tangent, mirrored", one_pole_tan(lowest, MOTIF_EXACT, &down) == MOTIF_OK && one_pole_tan(-lowest, MOTIF_EXACT, &up) == MOTIF_OK && down == -up);
    check("no tangent below", one_pole_tan(below, MOTIF_EXACT, &down) == MOTIF_FREQUENCY && down == -up);
    float one_pole[3];
    one_pole_new(one_pole);
    check("set_f, mirrored", one_pole_set_f(one_pole, lowest, MOTIF_EXACT) == MOTIF_OK && one_pole[0] == -up);
    check("set_f below", one_pole_set_f(one_pole, below, MOTIF_EXACT) == MOTIF_FREQUENCY && one_pole[0] == -up);
    check("set_f_q, mirrored", svf_set_f_q(svf, lowest, 1, MOTIF_EXACT) == MOTIF_OK && svf_g(svf) == -up);
    svf_set_g_r_h(svf, 1, 1, 0.25f);
    naive_svf_new(naive_up);
    naive_svf_new(naive_down);
    check("the sine, mirrored", naive_svf_set_f_q(naive_down, lowest, 1, MOTIF_EXACT) == MOTIF_OK && naive_svf_set_f_q(naive_up, -lowest, 1, MOTIF_EXACT) == MOTIF_OK && naive_down[0] == -naive_up[0]);
    check("the naive set_f_q below", naive_svf_set_f_q(naive_down, below, 2, MOTIF_EXACT) == MOTIF_FREQUENCY && naive_down[0] == -naive_up[0] && naive_down[1] == 1);

    /* the whole series, for sheets of edition 2: not clipped, and no reciprocal */
    float series, exact;
    check("the series", one_pole_tan(0.5f, MOTIF_SERIES, &series) == MOTIF_OK && series == 10.617917f);
    check("not clipped", one_pole_tan(1.0f, MOTIF_SERIES, &series) == MOTIF_OK && series == 29434.865f);
    check("no refusal below", one_pole_tan(below, MOTIF_SERIES, &series) == MOTIF_OK && series < 0);
    check("up to 0.25 as Exact", one_pole_tan(0.2f, MOTIF_SERIES, &series) == MOTIF_OK && one_pole_tan(0.2f, MOTIF_EXACT, &exact) == MOTIF_OK && series == exact);
    check("set_f by the series", one_pole_set_f(one_pole, 0.2f, MOTIF_SERIES) == MOTIF_OK && one_pole[0] == series);
    check("set_f_q by the series", svf_set_f_q(svf, 0.2f, 1, MOTIF_SERIES) == MOTIF_OK && svf_g(svf) == series);
    svf_set_g_r_h(svf, 1, 1, 0.25f);
    check("the naive set_f_q as Dirty", naive_svf_set_f_q(naive_up, 0.5f, 1, MOTIF_SERIES) == MOTIF_OK && naive_svf_set_f_q(naive_down, 0.5f, 1, MOTIF_DIRTY) == MOTIF_OK && naive_up[0] == naive_down[0]);

    /* S5: the high-pass of multimode is inverted */
    float one[1];
    svf_reset(svf);
    svf_process_multimode_buffer(svf, impulse, 1, one, 1, 0.5f);
    check("S5, inverted", one[0] == -0.25f);

    /* S9: a crossover */
    float crossover[8];
    crossover_svf_new(crossover);
    crossover_svf_set_f_fq(crossover, 0.5f, 0.5f);
    check("S9", crossover_svf_process(crossover, impulse, 1, one, 1, MOTIF_HIGH_PASS) == MOTIF_OK && one[0] == 0.25f);

    printf("the filters, samples in planes and the sheet reader from C: %d checks hold\n", checks);
    return 0;
}
