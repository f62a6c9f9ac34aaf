/* The C interface of the proved refinement of HF bursts: link with librecord.a.
 *
 * Every function takes a record of bytes:
 *
 *   fields, 6 bytes, most significant bit first:
 *       layout 4 bits, constellation 2, nsym 10, sparse 1, spread 1,
 *       gain code 2, k 6, prior count 20, two zero bits;
 *   then f32 bits, most significant byte first:
 *       boost, pilot gain, p_h, carrier variances, cell variances,
 *       grid (re, im; symbol after symbol), priors.
 *
 * Pointers must not be NULL, must be good for the length beside them, and what
 * is written must not overlap anything else that is passed. Nothing is kept
 * between calls and nothing is allocated: calls from several threads at once
 * are fine, each on its own stack (README.md says how much it takes).
 *
 * The functions compute in the floating-point environment of the thread that
 * calls them, and do not test it. It must be IEEE 754's default: rounding to
 * nearest, and subnormal numbers neither flushed to zero nor read as zero. A
 * program linked with -ffast-math starts with both flushings on. In another
 * environment the answers differ, in sign too, and 0 is returned all the same.
 *
 * The library calls memcpy and memset, and nothing else that it does not hold.
 */
#ifndef NIYUMBEK_H
#define NIYUMBEK_H

#include <stddef.h>
#include <stdint.h>

#ifdef __cplusplus
extern "C" {
#endif

/* Bytes of the longest record, and bytes that hold the answer and the
 * estimates of any record. */
#define NIYUMBEK_MAX_RECORD 8192
#define NIYUMBEK_MAX_ANSWER 16354
#define NIYUMBEK_MAX_CHANNEL 8172

/* Bytes of the answer to a record of so many bits. */
#define NIYUMBEK_ANSWER_LENGTH(bits) (10 + 4 * (bits))

/* What a call returns. The numbers between belong to calls on other things
 * than records. */
enum niyumbek_refusal {
    /* Judged. */
    NIYUMBEK_ACCEPTED = 0,
    /* The layout is above 8. */
    NIYUMBEK_LAYOUT = 1,
    /* The burst has no data symbols. */
    NIYUMBEK_SYMBOLS = 3,
    /* The output is shorter than the answer, or `channel` than the estimates. */
    NIYUMBEK_ROOM = 6,
    /* A number is not finite (of the priors, those of the burst's bits), a
     * variance is below 0, p_h is not above 0, or boost or pilot gain is
     * outside 0.125 to 8. */
    NIYUMBEK_NUMBERS = 7,
    /* The record is under 6 bytes, over 8,192, padded with a 1, or not of the
     * length its fields give. */
    NIYUMBEK_RECORD = 12
};

/* Bits of a record whose shape is accepted, else 0. Its numbers may still be
 * refused. */
size_t record_bits(const uint8_t *record, size_t record_len);

/* Judges a record. Returns 0 or the refusal. On 0 the first 10 + 4 * bits
 * bytes of `out` are:
 *
 *   2      the model's indices, Doppler then delay; 3 3 for the fallback
 *   4      the scale, f32 bits
 *   4      how many likelihoods are not a number
 *   4 each the likelihoods in bit order, f32 bits; above 0 for a 0
 *
 * most significant byte first, with 7FC00000 for whatever is not a number. The
 * bytes after them keep their contents, and on a refusal all of them do. */
uint32_t refine_record(const uint8_t *record, size_t record_len,
                       uint8_t *out, size_t out_len);

/* The same. On 0 the first 12 bytes a data cell of `channel` are the cell's
 * channel estimate re, im and its error variance (f32 bits, most significant
 * byte first), in cell order; the rest is left as `out` is. */
uint32_t refine_record_channel(const uint8_t *record, size_t record_len,
                               uint8_t *out, size_t out_len,
                               uint8_t *channel, size_t channel_len);

#ifdef __cplusplus
}
#endif

#endif
