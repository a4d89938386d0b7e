/*
 * The reader of motif sheets, proved in Rattle, for C on x86-64 with the System V ABI, as on Linux. Link
 * target/staticlib/libsheet_exports.a, which `tools/archive sheet_exports` proves and writes. It reads both editions and is the reader
 * alone: no filter, no library and no frame is linked with it. The processor must have SSE 4.2 (x86-64-v2).
 *
 * A call answers SHEET_OK or the number of what is wrong first. A refused call changes nothing.
 *
 * What the proofs take for granted, and no call checks:
 * - `sheet` leads to as many bytes as its length says; where that is 0 it may be NULL.
 * - `place` leads to a size_t, aligned for it, that is no part of the sheet. It is never NULL, not even where the call is refused. It is
 *   only written, so it may be uninitialized.
 */
#ifndef MOTIF_SHEETS_H
#define MOTIF_SHEETS_H

#include <stddef.h>
#include <stdint.h>

#if !defined(__x86_64__) || defined(__ILP32__) || defined(_WIN32)
#error "the archive is for x86-64 with the System V ABI"
#endif

#ifdef __cplusplus
extern "C" {
#endif

enum {
    SHEET_OK = 0,
    SHEET_SIZE = 2,      /* the second byte is neither 0 nor 2, n not 1 to 64, or the length not 2 + 13 n */
    SHEET_KIND = 3,      /* an entry's kind is not 1 to 7, or does not take this approximation in this edition */
    SHEET_WORD = 4,      /* an entry's word is unused and not all zero bits, or a NaN other than 7FC00000 */
    SHEET_ENTRY = 5,     /* no entry has this number */
    SHEET_FREQUENCY = 11 /* an entry of kind 2, 3 or 5 has a frequency below -0.497 in Exact */
};

/* Whether the bytes are a sheet. */
uint8_t sheet_check(const uint8_t *sheet, size_t sheet_length);

/* Where the setting of entry e stands: three binary32 words, low byte first, which begin at sheet + *place. Its kind byte is sheet[2 + e].
 * What sheet_check refuses is refused with its number. */
uint8_t sheet_lookup(const uint8_t *sheet, size_t sheet_length, size_t e, size_t *place);

#ifdef __cplusplus
}
#endif

#endif
