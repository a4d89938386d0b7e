/*
 * The six filters of filter.rs and samples in planes, proved in Rattle, for C on x86-64 with the System V ABI, as on Linux. Link
 * target/staticlib/libfilter_exports.a, which `tools/archive` proves and writes. The processor must have SSE 4.2 (x86-64-v2).
 *
 * A filter is an array of floats, its fields, in the order that its group below names. `_new` writes a fresh one. Every call reads and
 * writes the arrays that it is lent and keeps nothing else.
 *
 * A call that can be refused answers MOTIF_OK or the refusal's number. A refused call changes nothing: neither the filter nor an output.
 * A buffer form works over the shortest of its lengths, but samples in planes, where the whole input counts; later places keep their
 * contents.
 *
 * What the proofs take for granted, and no call checks:
 * - A pointer leads to memory that is there: none is NULL, not even where the call is refused. The one exception is a buffer whose own
 *   length is 0. By the proofs nothing outside its length is read or written, so its pointer is never used and may be NULL.
 * - Every pointer but those of samples in planes is aligned for a float. `state` has as many places as its declaration says, a buffer as
 *   many as its length.
 * - `state` is lent as a buffer is: no two of the arrays and outputs that one call is lent overlap. So no form but dc_blocker_process works
 *   in place, and svf_set does not take one array twice.
 * - Every place but those of samples in planes, whose bytes hold anything and stand at any address, holds a float. An output and the array
 *   of a `_new` are only written, so they may be uninitialized.
 * - The floating-point flags are as a program starts: rounding to nearest, subnormal numbers kept. With others, as flush-to-zero, the
 *   numbers are not the proved ones.
 *
 * A mode or an approximation is a uint32_t. A mode above 3 and an approximation above 4 are refused with MOTIF_UNKNOWN. So are 256 and -1
 * as an int, which arrive whole. What is wider than 32 bits C cuts before the call.
 */
#ifndef MOTIF_FILTERS_H
#define MOTIF_FILTERS_H

#include <stddef.h>
#include <stdint.h>

#if !defined(__x86_64__) || defined(__ILP32__) || defined(_WIN32)
#error "the archive is for x86-64 with the System V ABI"
#endif

#ifdef __cplusplus
extern "C" {
#endif

/* What a call that can be refused answers. */
enum {
    MOTIF_OK = 0,
    MOTIF_STEP = 10,      /* a stride or a decimation of 0 */
    MOTIF_FREQUENCY = 11, /* MOTIF_EXACT with a frequency below -0.497; that number itself and a NaN are not below */
    MOTIF_SHORT = 12,     /* an output of fewer bytes than the input */
    MOTIF_PARTIAL = 19,   /* an input that ends within a sample */
    MOTIF_UNKNOWN = 100   /* a number that names no mode, or no approximation */
};

/* A mode: which output of a filter is answered. */
enum {
    MOTIF_LOW_PASS = 0,
    MOTIF_BAND_PASS = 1,
    MOTIF_BAND_PASS_NORMALIZED = 2,
    MOTIF_HIGH_PASS = 3
};

/* An approximation: how a frequency, as a part of the sampling rate, becomes a coefficient. MOTIF_EXACT clips it at 0.497, and takes a NaN
 * for that; below 0, down to -0.497, its value is the negative of that at -f, and the filter grows from sample to
 * sample unless its resonance is below 0 too. MOTIF_SERIES, which sheets of edition 2 have and filter.rs has not, is the tangent's whole
 * series at every frequency: from -0.25 to 0.25 what MOTIF_EXACT has, and the same polynomial beyond. naive_svf_set_f_q clips the frequency
 * at 0.158 in all but MOTIF_EXACT. docs/PRECISION.md says how true the tangent is in each. */
enum {
    MOTIF_EXACT = 0,
    MOTIF_ACCURATE = 1,
    MOTIF_FAST = 2,
    MOTIF_DIRTY = 3,
    MOTIF_SERIES = 4
};

/* ---- DcBlocker: pole, x, y */

/* All fields 0. */
void dc_blocker_new(float state[3]);

/* Sets the pole and clears x and y. */
void dc_blocker_init(float state[3], float pole);

/* Filters a buffer in place: the one form that does. */
void dc_blocker_process(float state[3], float *in_out, size_t in_out_length);

/* ---- OnePole: g, gi, state */

/* All fields 0. */
void one_pole_new(float state[3]);

/* Frequency 0.01 by MOTIF_DIRTY, and the state cleared. */
void one_pole_init(float state[3]);

/* Clears the state. */
void one_pole_reset(float state[3]);

/* tan (pi f) into *value. Refused: MOTIF_UNKNOWN, MOTIF_FREQUENCY. */
uint8_t one_pole_tan(float f, uint32_t approximation, float *value);

/* Sets the frequency; the state stays. Refused: MOTIF_UNKNOWN, MOTIF_FREQUENCY. */
uint8_t one_pole_set_f(float state[3], float f, uint32_t approximation);

/* One sample into *out. Both band-pass modes put out 0 while the state moves on. Refused: MOTIF_UNKNOWN. */
uint8_t one_pole_process(float state[3], float in, uint32_t mode, float *out);

/* ---- Svf: g, r, h, state_1, state_2 */

/* All fields 0. */
void svf_new(float state[5]);

/* Frequency 0.01 and resonance 100 by MOTIF_DIRTY, and the state cleared. */
void svf_init(float state[5]);

/* Clears the state. */
void svf_reset(float state[5]);

/* The settings of another filter; the state stays. */
void svf_set(float state[5], const float other[5]);

/* Sets all three coefficients. */
void svf_set_g_r_h(float state[5], float g, float r, float h);

/* Sets g and r, and h from them. */
void svf_set_g_r(float state[5], float g, float r);

/* Sets g and the resonance, and the rest from them. */
void svf_set_g_q(float state[5], float g, float resonance);

/* Sets the frequency and the resonance. Refused: MOTIF_UNKNOWN, MOTIF_FREQUENCY. */
uint8_t svf_set_f_q(float state[5], float f, float resonance, uint32_t approximation);

/* The field g. */
float svf_g(const float state[5]);

/* The field r. */
float svf_r(const float state[5]);

/* The field h. */
float svf_h(const float state[5]);

/* One sample into *out. Refused: MOTIF_UNKNOWN. */
uint8_t svf_process(float state[5], float in, uint32_t mode, float *out);

/* One sample, in two modes. Refused: MOTIF_UNKNOWN. */
uint8_t svf_process_dual(float state[5], float in, float *out_1, float *out_2, uint32_t mode_1, uint32_t mode_2);

/* A buffer of samples. Refused: MOTIF_UNKNOWN. */
uint8_t svf_process_buffer(float state[5], const float *in, size_t in_length, float *out, size_t out_length, uint32_t mode);

/* A buffer of samples, each times a gain. The output is overwritten, and nothing is added, as the source does. Refused: MOTIF_UNKNOWN. */
uint8_t svf_process_add_buffer(float state[5], const float *in, size_t in_length, float *out, size_t out_length, float gain, uint32_t mode);

/* Filters and writes the places 0, stride, 2 stride .. only. Refused: MOTIF_UNKNOWN, MOTIF_STEP. */
uint8_t svf_process_stride_buffer(float state[5], const float *in, size_t in_length, float *out, size_t out_length, size_t stride, uint32_t mode);

/* A buffer of samples in a mode between others: low-pass at 0, the high-pass inverted (times -1) at 0.5, band-pass at 1. */
void svf_process_multimode_buffer(float state[5], const float *in, size_t in_length, float *out, size_t out_length, float mode);

/* A buffer of samples into two outputs, each with a gain. Both are overwritten. Refused: MOTIF_UNKNOWN. */
uint8_t svf_process_add_dual_buffer(float state[5], const float *in, size_t in_length, float *out_1, size_t out_1_length, float *out_2, size_t out_2_length, float gain_1, float gain_2, uint32_t mode);

/* ---- NaiveSvf: f, damp, lp, bp */

/* All fields 0. */
void naive_svf_new(float state[4]);

/* Frequency 0.01 and resonance 100 by MOTIF_DIRTY, and the state cleared. */
void naive_svf_init(float state[4]);

/* Clears lp and bp. */
void naive_svf_reset(float state[4]);

/* Sets the frequency and the resonance. Refused: MOTIF_UNKNOWN, MOTIF_FREQUENCY. */
uint8_t naive_svf_set_f_q(float state[4], float f, float resonance, uint32_t approximation);

/* The field lp. */
float naive_svf_lp(const float state[4]);

/* The field bp. */
float naive_svf_bp(const float state[4]);

/* One sample into *out. The normalized band is that from before the update, times damp. Refused: MOTIF_UNKNOWN. */
uint8_t naive_svf_process(float state[4], float in, uint32_t mode, float *out);

/* A buffer of samples. Refused: MOTIF_UNKNOWN. */
uint8_t naive_svf_process_buffer(float state[4], const float *in, size_t in_length, float *out, size_t out_length, uint32_t mode);

/* A buffer of samples: its low-pass and its high-pass output. */
void naive_svf_split(float state[4], const float *in, size_t in_length, float *low, size_t low_length, float *high, size_t high_length);

/* Filters every sample and writes the places 0, decimate, 2 decimate .. only. Refused: MOTIF_UNKNOWN, MOTIF_STEP. */
uint8_t naive_svf_process_decimate(float state[4], const float *in, size_t in_length, float *out, size_t out_length, size_t decimate, uint32_t mode);

/* ---- ModifiedSvf: f, fq, x, lp, bp */

/* All fields 0. */
void modified_svf_new(float state[5]);

/* As modified_svf_reset. */
void modified_svf_init(float state[5]);

/* Clears lp and bp, but not x. */
void modified_svf_reset(float state[5]);

/* Sets f and fq and clears x. They are coefficients: for a frequency p, 2 sin (pi p), and that over the resonance. */
void modified_svf_set_f_fq(float state[5], float f, float fq);

/* A buffer of samples. Refused: MOTIF_UNKNOWN. */
uint8_t modified_svf_process(float state[5], const float *in, size_t in_length, float *out, size_t out_length, uint32_t mode);

/* ---- CrossoverSvf: f, fq, x of both passes, lp of both, bp of both */

/* All fields 0. */
void crossover_svf_new(float state[8]);

/* As crossover_svf_reset. */
void crossover_svf_init(float state[8]);

/* Clears x, lp and bp. */
void crossover_svf_reset(float state[8]);

/* Sets f and fq, coefficients as those of modified_svf_set_f_fq; x stays. */
void crossover_svf_set_f_fq(float state[8], float f, float fq);

/* A buffer of samples. Refused: MOTIF_UNKNOWN. */
uint8_t crossover_svf_process(float state[8], const float *in, size_t in_length, float *out, size_t out_length, uint32_t mode);

/* ---- Samples in planes, to store a trace
 *
 * Samples are words of four bytes, low byte first, as a float stands in memory. In planes the lowest bytes of all samples come first, then
 * all second, all third and all highest, each plane in the samples' order. The bytes are moved and not read as numbers, so each call undoes
 * the other on any bytes, NaNs included.
 *
 * Both lengths count bytes. The two buffers do not overlap: neither call works in place.
 *
 * The whole input is arranged or nothing: an accepted call has written as many bytes as the input has. Later places keep their contents.
 * Refused: MOTIF_PARTIAL, then MOTIF_SHORT. An input of no bytes is accepted. */

/* Samples into their planes. */
uint8_t samples_to_planes(const uint8_t *samples, size_t input_length, uint8_t *output, size_t output_length);

/* Planes into the samples that they are of. */
uint8_t planes_to_samples(const uint8_t *planes, size_t input_length, uint8_t *output, size_t output_length);

#ifdef __cplusplus
}
#endif

#endif
