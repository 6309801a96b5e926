/* Uses every line of include/ripemd.h from C and from C++, so that it stays true to the library. */
#include "ripemd.h"
#include <stdio.h>
#include <string.h>

static int done = 0, failed = 0;
static const char *at = "";

static void check(const char *what, int holds) {
    done++;
    if (!holds) {
        failed++;
        printf("header: %s%s differs\n", at, what);
    }
}

/* What a width has of its own. */
struct width {
    const char *name;
    uint8_t number;
    size_t digest, record;
    void (*fresh)(ripemd_state *state);
    uint32_t (*import)(ripemd_state *state, const uint8_t *record, size_t n);
    uint32_t (*one_shot)(const uint8_t *message, size_t m, uint8_t *output, size_t n);
    uint8_t abc[4]; /* how the digest of "abc" begins */
};

static const struct width widths[] = {
    {"width 128, ", 2, RIPEMD_128_DIGEST_LENGTH, RIPEMD_128_RECORD_LENGTH, ripemd_fresh128, ripemd_import128, ripemd_one_shot128, {0xc1, 0x4a, 0x12, 0x19}},
    {"width 160, ", 0, RIPEMD_160_DIGEST_LENGTH, RIPEMD_160_RECORD_LENGTH, ripemd_fresh160, ripemd_import160, ripemd_one_shot160, {0x8e, 0xb2, 0x08, 0xf7}},
    {"width 256, ", 3, RIPEMD_256_DIGEST_LENGTH, RIPEMD_256_RECORD_LENGTH, ripemd_fresh256, ripemd_import256, ripemd_one_shot256, {0xaf, 0xbd, 0x6e, 0x22}},
    {"width 320, ", 1, RIPEMD_320_DIGEST_LENGTH, RIPEMD_320_RECORD_LENGTH, ripemd_fresh320, ripemd_import320, ripemd_one_shot320, {0xde, 0x4c, 0x01, 0xb3}},
};

static void sheet(const ripemd_state *state) {
    ripemd_state read;
    uint8_t text[RIPEMD_SHEET_MAX_LENGTH] = {0};
    uint64_t place = 1, length = ripemd_sheet_length(state);
    check("sheet_length", length != 0 && length <= sizeof text);
    check("write_sheet", ripemd_write_sheet(state, text, length) == RIPEMD_DONE);
    check("read_sheet", ripemd_read_sheet(&read, text, length, &place) == RIPEMD_DONE);
    check("place", place == 0);
    check("state of the sheet", memcmp(state, &read, sizeof read) == 0);
    check("output of a sheet", ripemd_write_sheet(state, text, length - 1) == RIPEMD_OUTPUT_LENGTH);
}

static void hash(const struct width *w) {
    ripemd_state state;
    uint64_t index = 1;
    uint8_t digest[RIPEMD_320_DIGEST_LENGTH] = {0}, whole[RIPEMD_320_DIGEST_LENGTH] = {0}, record[RIPEMD_320_RECORD_LENGTH];
    at = w->name;
    w->fresh(&state);
    check("number", state.image[0] == w->number);
    check("export", ripemd_export(&state, record, w->record) == RIPEMD_DONE);
    check("import", w->import(&state, record, w->record) == RIPEMD_DONE);
    check("feed", ripemd_feed(&state, (const uint8_t *)"abc", 3) == RIPEMD_DONE);
    check("feed of nothing", ripemd_feed(&state, NULL, 0) == RIPEMD_DONE);
    check("finish", ripemd_finish(&state, digest, w->digest) == RIPEMD_DONE);
    check("digest", memcmp(digest, w->abc, sizeof w->abc) == 0);
    check("one_shot", w->one_shot((const uint8_t *)"abc", 3, whole, w->digest) == RIPEMD_DONE);
    check("digest at once", memcmp(digest, whole, sizeof digest) == 0);
    check("fault", ripemd_fault(&state, &index) == RIPEMD_DONE);
    check("index of no fault", index == 0);
    sheet(&state);
}

static void refusals(void) {
    ripemd_state state;
    uint8_t record[RIPEMD_160_RECORD_LENGTH], block[64] = {0};
    memset(record, 0, sizeof record);
    check("wiped record", ripemd_import160(&state, record, sizeof record) == RIPEMD_RECORD_WORDS);
    memset(record, 0xff, sizeof record);
    check("count", ripemd_import160(&state, record, sizeof record) == RIPEMD_RECORD_COUNT);
    check("record length", ripemd_import320(&state, record, sizeof record) == RIPEMD_RECORD_LENGTH);
    record[26] = 0x7f;
    record[27] = 0;
    check("last count", ripemd_import160(&state, record, sizeof record) == RIPEMD_DONE);
    check("too long", ripemd_feed(&state, block, sizeof block) == RIPEMD_TOO_LONG);
    check("last bytes", ripemd_feed(&state, block, 63) == RIPEMD_DONE);
    check("mid-block", ripemd_export(&state, record, sizeof record) == RIPEMD_MID_BLOCK);
    check("output length", ripemd_finish(&state, NULL, 0) == RIPEMD_OUTPUT_LENGTH);
    state.image[16] = 64;
    check("feed of a fault", ripemd_feed(&state, block, sizeof block) == RIPEMD_FILL);
    check("digest of a fault", ripemd_finish(&state, NULL, 0) == RIPEMD_FILL);
    check("record of a fault", ripemd_export(&state, NULL, 0) == RIPEMD_FILL);
    check("length of no sheet", ripemd_sheet_length(&state) == 0);
    check("sheet of a fault", ripemd_write_sheet(&state, NULL, 0) == RIPEMD_FILL);
    ripemd_reset(&state);
    check("reset", ripemd_feed(&state, block, 1) == RIPEMD_DONE);
}

/* Whether a fresh 160, one byte of its image overwritten, has this fault, and feed gives its number. */
static int has(size_t byte, uint8_t value, uint32_t number, uint64_t index) {
    ripemd_state state;
    uint64_t given = 1;
    ripemd_fresh160(&state);
    state.image[byte] = value;
    return ripemd_fault(&state, &given) == number && given == index && ripemd_feed(&state, NULL, 0) == number;
}

static void faults(void) {
    check("no fault", has(7, 1, RIPEMD_DONE, 0));
    check("fault of the fill", has(16, 64, RIPEMD_FILL, 0));
    check("fault of the count", has(14, 0x80, RIPEMD_COUNT, 0));
    check("fault of the tail", has(64 + 40, 1, RIPEMD_TAIL, 40));
    check("fault of a spare word", has(24 + 4 * 9, 1, RIPEMD_SPARE_WORD, 9));
    check("fault of the start", has(24, 0, RIPEMD_START, 0));
}

/* Whether the sheet of a fresh 160, its beginning overwritten, gives this number and place, and the state of a fresh 160. */
static int gives(const char *beginning, uint32_t number, uint64_t place) {
    char text[] = "width=160\nblocks=0\nwords=0123456789abcdeffedcba9876543210f0e1d2c3\ntail=\n";
    ripemd_state state, fresh;
    uint64_t given = 1;
    memcpy(text, beginning, strlen(beginning));
    ripemd_fresh160(&fresh);
    return ripemd_read_sheet(&state, (const uint8_t *)text, sizeof text - 1, &given) == number && given == place &&
           memcmp(&state, &fresh, sizeof state) == 0;
}

static void sheets(void) {
    static const char high[] = "width=128\nblocks=99999999999999999\nwords=00000000000000000000000000000000\ntail=\n";
    ripemd_state state;
    uint8_t record[RIPEMD_320_RECORD_LENGTH], block[64] = {0};
    uint64_t place = 1;
    check("sheet of a fresh 160", gives("", RIPEMD_DONE, 0));
    check("sheet's shape", gives("width=160\r", RIPEMD_SHEET_SHAPE, 9));
    check("sheet's words", gives("width=160\nblocks=0\nwords=1", RIPEMD_RECORD_WORDS, 0));
    check("sheet's count", ripemd_read_sheet(&state, (const uint8_t *)high, sizeof high - 1, &place) == RIPEMD_RECORD_COUNT);
    check("place of a count", place == 0);
    check("width after a refused sheet", state.image[0] == 0);
    place = 1;
    check("no sheet", ripemd_read_sheet(&state, NULL, 0, &place) == RIPEMD_SHEET_SHAPE);
    check("place in no sheet", place == 0);
    memset(record, 0xff, sizeof record);
    record[46] = 0x7f;
    record[47] = 0;
    check("last count of 320", ripemd_import320(&state, record, sizeof record) == RIPEMD_DONE);
    check("last bytes of 320", ripemd_feed(&state, block, 63) == RIPEMD_DONE);
    check("longest sheet", ripemd_sheet_length(&state) == RIPEMD_SHEET_MAX_LENGTH);
    sheet(&state);
}

int main(void) {
    check("length of a state", sizeof(ripemd_state) == 128);
    for (size_t i = 0; i < sizeof widths / sizeof widths[0]; i++) hash(&widths[i]);
    at = "";
    refusals();
    faults();
    sheets();
#ifdef __cplusplus
    printf("header from C++: %d of %d equal\n", done - failed, done);
#else
    printf("header from C: %d of %d equal\n", done - failed, done);
#endif
    return failed != 0;
}
