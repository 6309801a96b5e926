/*
 * RIPEMD-128, 160, 256 and 320 for C and C++: the calls of libripemd_c.a,
 * which `tests/library` has proved and writes to target/staticlib. It is
 * x86-64 code. To link it:
 *
 *     cc -Iinclude program.c target/staticlib/libripemd_c.a
 *
 * A state holds all that is known of a message so far. It is 128 bytes of
 * the caller's memory: copy it, move it or drop it as you like. A call keeps
 * no pointer and no memory of its own, so states may be used from several
 * threads, each state by one thread at a time.
 *
 *     ripemd_state state;
 *     uint8_t digest[RIPEMD_160_DIGEST_LENGTH];
 *     ripemd_fresh160(&state);
 *     ripemd_feed(&state, piece, length);       (once for each piece)
 *     ripemd_finish(&state, digest, sizeof digest);
 *
 * Bytes are lent as a pointer and a length. They must not overlap the state
 * or each other. Where the length is 0 the pointer is not followed: it may
 * point anywhere, and NULL does no harm.
 *
 * An answer beside the number comes through a pointer that is always
 * written, with 0 where the number carries none. It is no lent buffer: it
 * must point to a number of the caller's, apart from the state and all that
 * is lent.
 */
#ifndef RIPEMD_H
#define RIPEMD_H

#include <stddef.h>
#include <stdint.h>

#ifdef __cplusplus
extern "C" {
#endif

/* Lengths in bytes. */
#define RIPEMD_128_DIGEST_LENGTH 16
#define RIPEMD_160_DIGEST_LENGTH 20
#define RIPEMD_256_DIGEST_LENGTH 32
#define RIPEMD_320_DIGEST_LENGTH 40
#define RIPEMD_128_RECORD_LENGTH 24
#define RIPEMD_160_RECORD_LENGTH 28
#define RIPEMD_256_RECORD_LENGTH 40
#define RIPEMD_320_RECORD_LENGTH 48
#define RIPEMD_SHEET_MAX_LENGTH 254
#define RIPEMD_STATE_LENGTH 128

/*
 * The number that a call gives back. Anything but RIPEMD_DONE is a refusal,
 * or a fault that ripemd_fault was asked for. Where several would hold, the
 * call's comment lists them in order and only the first that holds is given.
 */
enum ripemd_number {
    RIPEMD_DONE = 0,
    RIPEMD_TOO_LONG = 1,      /* the message would have 2^61 bytes or more */
    RIPEMD_MID_BLOCK = 2,     /* bytes taken are not a multiple of 64 */
    RIPEMD_OUTPUT_LENGTH = 3, /* the output is not exactly of the length asked for */
    RIPEMD_RECORD_LENGTH = 4, /* the record is not exactly of the width's length */
    RIPEMD_RECORD_COUNT = 5,  /* the record's or sheet's block count is 2^55 or more */
    RIPEMD_RECORD_WORDS = 7,  /* the record's or sheet's block count is 0, and its words are not the initial ones */
    RIPEMD_SHEET_SHAPE = 8,   /* the text is not of a sheet's shape */
    RIPEMD_FILL = 60,         /* the state's fill is 64 or more */
    RIPEMD_COUNT = 61,        /* the state's block count is 2^55 or more */
    RIPEMD_TAIL = 62,         /* a byte of the state's tail, from the fill on, is not zero */
    RIPEMD_SPARE_WORD = 63,   /* a word that the state's width doesn't use is not zero */
    RIPEMD_START = 64         /* the state's block count is 0, and its words are not the initial ones */
};

/*
 * The image of a state; numbers low byte first.
 *
 *     byte 0         width, read modulo 4: 0 is 160, 1 is 320, 2 is 128, 3 is 256
 *     bytes 1-7      written as zero, not read
 *     bytes 8-15     count of whole blocks taken
 *     bytes 16-23    fill: bytes of the block that is not yet whole
 *     bytes 24-63    ten words of four bytes: width 128 uses words 0 to 3,
 *                    160 words 0 to 4, 256 words 0 to 7, and 320 all ten
 *     bytes 64-127   tail: the block that is not yet whole
 *
 * It is well formed when it has none of the faults RIPEMD_FILL to
 * RIPEMD_START. The initial words are those of a fresh state, so memory of
 * zeros is no state. Every call below leaves a well formed state so; only
 * damage from outside makes another.
 */
typedef struct ripemd_state {
    uint8_t image[RIPEMD_STATE_LENGTH];
} ripemd_state;

/*
 * Sets the state to that of an empty message at the width named. What the
 * memory held before does not matter. Never refused.
 */
void ripemd_fresh128(ripemd_state *state);
void ripemd_fresh160(ripemd_state *state);
void ripemd_fresh256(ripemd_state *state);
void ripemd_fresh320(ripemd_state *state);

/*
 * Sets the state to that of an empty message at the state's own width,
 * whatever else it holds. Never refused.
 */
void ripemd_reset(ripemd_state *state);

/*
 * Tells what is wrong with the state: RIPEMD_FILL then RIPEMD_COUNT then
 * RIPEMD_TAIL then RIPEMD_SPARE_WORD then RIPEMD_START; RIPEMD_DONE where it
 * is well formed. The state is only read. Never refused.
 * The index: with RIPEMD_TAIL that of the first wrong byte in the tail, 0 to
 * 63; with RIPEMD_SPARE_WORD that of the first wrong word among the ten, 0 to
 * 9; 0 with every other number.
 * A call below that is refused for a fault leaves the state byte for byte as
 * it was, and for that state ripemd_fault gives the same number, and so the
 * index.
 */
uint32_t ripemd_fault(const ripemd_state *state, uint64_t *index);

/*
 * Takes the next n bytes of the message; pieces may be cut anywhere.
 * Done: all n bytes are taken.
 * Refused, a fault as ripemd_fault gives it, then RIPEMD_TOO_LONG: none is
 * taken, and the state is byte for byte as it was.
 */
uint32_t ripemd_feed(ripemd_state *state, const uint8_t *piece, size_t n);

/*
 * Writes the digest of all bytes taken so far. The state is only read, and
 * feeding may go on.
 * Done: all n bytes of the output are the digest; n is 16, 20, 32 or 40 by
 * width.
 * Refused, a fault as ripemd_fault gives it, then RIPEMD_OUTPUT_LENGTH: no
 * byte is written.
 */
uint32_t ripemd_finish(const ripemd_state *state, uint8_t *output, size_t n);

/*
 * Writes the state's record, from which import goes on after a restart: the
 * words that the width uses, then the block count as eight bytes, low byte
 * first. It is the record of the Rust crate ripemd 0.2.0 (Ripemd128Core,
 * Ripemd160Core, Ripemd256Core, Ripemd320Core). The state is only read.
 * Done: all n bytes of the output are the record; n is 24, 28, 40 or 48 by
 * width.
 * Refused, a fault as ripemd_fault gives it, then RIPEMD_OUTPUT_LENGTH then
 * RIPEMD_MID_BLOCK: no byte is written.
 */
uint32_t ripemd_export(const ripemd_state *state, uint8_t *output, size_t n);

/*
 * Sets the state to the one that a record of the width named was exported
 * from. What the memory held before does not matter.
 * Done: feeding and finishing go on from the record's words and count. With
 * a count other than 0 any words are taken: a record damaged there cannot be
 * told from a good one.
 * Refused, RIPEMD_RECORD_LENGTH then RIPEMD_RECORD_COUNT then
 * RIPEMD_RECORD_WORDS: the state is that of an empty message at the width
 * named.
 */
uint32_t ripemd_import128(ripemd_state *state, const uint8_t *record, size_t n);
uint32_t ripemd_import160(ripemd_state *state, const uint8_t *record, size_t n);
uint32_t ripemd_import256(ripemd_state *state, const uint8_t *record, size_t n);
uint32_t ripemd_import320(ripemd_state *state, const uint8_t *record, size_t n);

/*
 * A sheet is a state as text, for paper; unlike a record it can be had after
 * any byte. It has four lines, each of which ends with one line feed (0x0a),
 * and nothing behind them. That of a fresh 160 is
 *
 *     width=160
 *     blocks=0
 *     words=0123456789abcdeffedcba9876543210f0e1d2c3
 *     tail=
 *
 *     width     128, 160, 256 or 320
 *     blocks    count of whole blocks taken: 1 to 17 decimal digits, the
 *               first of several not 0
 *     words     the words that the width uses, each low byte first: 16, 20,
 *               32 or 40 bytes by width
 *     tail      the bytes of the block that is not yet whole, 0 to 63
 *
 * Bytes are two hex digits each, in lower case.
 */

/*
 * Gives the length of the state's sheet in bytes: at most
 * RIPEMD_SHEET_MAX_LENGTH, and 0 where the state is not well formed. The
 * state is only read. Never refused.
 */
uint64_t ripemd_sheet_length(const ripemd_state *state);

/*
 * Writes the state's sheet, with no zero byte behind it. The state is only
 * read, and feeding may go on.
 * Done: all n bytes of the output are the sheet; n is what
 * ripemd_sheet_length gives.
 * Refused, a fault as ripemd_fault gives it, then RIPEMD_OUTPUT_LENGTH: no
 * byte is written.
 */
uint32_t ripemd_write_sheet(const ripemd_state *state, uint8_t *output, size_t n);

/*
 * Sets the state to the one that a sheet was written from, at the width that
 * the sheet names. What the memory held before does not matter.
 * Done: feeding and finishing go on from the sheet's words, count and tail.
 * With a count other than 0 any words are taken, and any tail with every
 * count: a sheet damaged there cannot be told from a good one.
 * Refused, RIPEMD_SHEET_SHAPE then RIPEMD_RECORD_COUNT then
 * RIPEMD_RECORD_WORDS: the state is that of an empty message at width 160,
 * whatever width the sheet names.
 * The place: with RIPEMD_SHEET_SHAPE the length of the longest beginning of
 * the text that some sheet shares, so the index of the first wrong byte, or n
 * where the text is cut short; 0 with every other number.
 */
uint32_t ripemd_read_sheet(ripemd_state *state, const uint8_t *sheet, size_t n, uint64_t *place);

/*
 * Writes the digest of a whole message of m bytes, with no state.
 * Done: all n bytes of the output are the digest; n is 16, 20, 32 or 40 by
 * width.
 * Refused, RIPEMD_OUTPUT_LENGTH then RIPEMD_TOO_LONG: no byte is written.
 */
uint32_t ripemd_one_shot128(const uint8_t *message, size_t m, uint8_t *output, size_t n);
uint32_t ripemd_one_shot160(const uint8_t *message, size_t m, uint8_t *output, size_t n);
uint32_t ripemd_one_shot256(const uint8_t *message, size_t m, uint8_t *output, size_t n);
uint32_t ripemd_one_shot320(const uint8_t *message, size_t m, uint8_t *output, size_t n);

#ifdef __cplusplus
}
#endif

#endif
