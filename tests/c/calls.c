/*
 * Calls every function of vp8model.h, accepted and refused, and holds the answers against values worked out by
 * hand from document 01, those of the SAD up to a ceiling from request 4, those of versions and bilinear rows
 * from request 10, those of whole pictures from requests 1 and 14 and against the single calls, those of caps from
 * request 7, those of half samples from request 6 and of acceptance on three planes from request 9, both against a
 * builder that goes sample by sample. Every slice and array is lent from between guard entries. On a refusal, and for
 * const arguments always, the lent entries are as they were.
 *
 * Prints one line, `calls: N checks, M failed`, after a line for each check that fails. C11 and C++.
 */
#include "vp8model.h"

#include <stdio.h>
#include <string.h>

static unsigned checks;
static unsigned failed;

static void check(int holds, const char *what, int line)
{
    checks++;
    if (!holds) {
        failed++;
        printf("line %d: %s\n", line, what);
    }
}

#define CHECK(holds) check((holds) ? 1 : 0, #holds, __LINE__)

/* Lent entries: guards on both sides, and a copy of what was lent. */

#define GUARD 16
#define MOST 40000
#define BYTE_MARK 0xA5
#define WORD_MARK 0xA5A5A5A5u

typedef struct bytes {
    uint8_t room[GUARD + MOST + GUARD];
    uint8_t kept[MOST];
    size_t length;
} bytes;

typedef struct words {
    uint32_t room[GUARD + MOST + GUARD];
    uint32_t kept[MOST];
    size_t length;
} words;

static uint8_t *at_bytes(bytes *b)
{
    return b->room + GUARD;
}

static uint32_t *at_words(words *w)
{
    return w->room + GUARD;
}

static void lend_bytes(bytes *b, size_t length, uint8_t value)
{
    memset(b->room, BYTE_MARK, sizeof b->room);
    memset(at_bytes(b), value, length);
    memset(b->kept, value, length);
    b->length = length;
}

static void lend_words(words *w, size_t length, uint32_t value)
{
    for (size_t i = 0; i < GUARD + MOST + GUARD; i++)
        w->room[i] = WORD_MARK;
    for (size_t i = 0; i < length; i++) {
        w->room[GUARD + i] = value;
        w->kept[i] = value;
    }
    w->length = length;
}

/* What is lent now is what has to be there after the call. */
static void keep_bytes(bytes *b)
{
    memcpy(b->kept, at_bytes(b), b->length);
}

static void keep_words(words *w)
{
    memcpy(w->kept, at_words(w), w->length * sizeof w->kept[0]);
}

/* All are the mark: the first is, and each is as the next. */
static int marked_bytes(const uint8_t *b, size_t count)
{
    return b[0] == BYTE_MARK && memcmp(b, b + 1, count - 1) == 0;
}

static int marked_words(const uint32_t *w, size_t count)
{
    return w[0] == WORD_MARK && memcmp(w, w + 1, (count - 1) * sizeof w[0]) == 0;
}

static int guarded_bytes(const bytes *b)
{
    return marked_bytes(b->room, GUARD) && marked_bytes(b->room + GUARD + b->length, MOST - b->length + GUARD);
}

static int guarded_words(const words *w)
{
    return marked_words(w->room, GUARD) && marked_words(w->room + GUARD + w->length, MOST - w->length + GUARD);
}

static int same_bytes(const bytes *b)
{
    return guarded_bytes(b) && memcmp(b->room + GUARD, b->kept, b->length) == 0;
}

static int same_words(const words *w)
{
    return guarded_words(w) && memcmp(w->room + GUARD, w->kept, w->length * sizeof w->kept[0]) == 0;
}

/* The entries from `from` to `to` are `value`. */
static int all_bytes(const bytes *b, size_t from, size_t to, uint8_t value)
{
    for (size_t i = from; i < to; i++)
        if (b->room[GUARD + i] != value)
            return 0;
    return 1;
}

static int all_words(const words *w, size_t from, size_t to, uint32_t value)
{
    for (size_t i = from; i < to; i++)
        if (w->room[GUARD + i] != value)
            return 0;
    return 1;
}

static bytes plane, source, block, picture, output;
static words numbers, sums, weights, curve;

/* Frame records, one guard record on each side. */
#define FRAMES_MOST 1025

static vp8model_frame records[1 + FRAMES_MOST + 1];
static vp8model_frame records_kept[1 + FRAMES_MOST + 1];

/* The builders, alike: which one is called, and with how many numbers. Those of RECORDS, but the first, get records as
 * their numbers. */

enum builder {
    CHECKS_ONLY,
    FROM_NUMBERS,
    FROM_RECORDS,
    HALF_SAMPLE,
    HALF_OF_RECORDS,
    THREE_PLANES,
    THREE_OF_RECORDS,
    THREE_HALF,
    THREE_HALF_OF_RECORDS
};

#define LAST_BUILDER THREE_HALF_OF_RECORDS

/* The builders over numbers have the same parameters. */
typedef vp8model_build over_numbers(const uint8_t *, size_t, const uint32_t *, size_t, size_t, uint8_t, uint8_t *,
                                    size_t, uint32_t *, size_t, uint32_t *, size_t);

static const vp8model_frame guard_record = {WORD_MARK, WORD_MARK, WORD_MARK, WORD_MARK,
                                            WORD_MARK, WORD_MARK, WORD_MARK, WORD_MARK};

/* The records of the numbers that are lent. */
static size_t lend_records(void)
{
    size_t count = numbers.length / VP8MODEL_NUMBERS_PER_FRAME;
    for (size_t g = 0; g < 1 + FRAMES_MOST + 1; g++)
        records[g] = guard_record;
    for (size_t g = 0; g < count; g++) {
        const uint32_t *n = at_words(&numbers) + g * VP8MODEL_NUMBERS_PER_FRAME;
        vp8model_frame f = {n[0], n[1], n[2], n[3], n[4], n[5], n[6], n[7]};
        records[1 + g] = f;
    }
    memcpy(records_kept, records, sizeof records);
    return count;
}

static vp8model_build build_by(over_numbers *call, const uint32_t *of, size_t length, size_t centre,
                               uint8_t strength)
{
    return call(at_bytes(&picture), picture.length, of, length, centre, strength, at_bytes(&output),
                output.length, at_words(&sums), sums.length, at_words(&weights), weights.length);
}

static int gets_records(enum builder which)
{
    return which == FROM_RECORDS || which == HALF_OF_RECORDS || which == THREE_OF_RECORDS
           || which == THREE_HALF_OF_RECORDS;
}

static vp8model_build build(enum builder which, size_t centre, uint8_t strength)
{
    static over_numbers *const calls[] = {NULL,
                                          vp8model_build_from_numbers,
                                          NULL,
                                          vp8model_build_half_sample,
                                          vp8model_build_half_sample,
                                          vp8model_build_three_planes,
                                          vp8model_build_three_planes,
                                          vp8model_build_three_planes_half_sample,
                                          vp8model_build_three_planes_half_sample};
    if (which == CHECKS_ONLY)
        return vp8model_check_build(at_bytes(&picture), picture.length, at_words(&numbers), numbers.length, centre,
                                    output.length, sums.length, weights.length);
    if (!gets_records(which))
        return build_by(calls[which], at_words(&numbers), numbers.length, centre, strength);
    size_t count = lend_records();
    if (which != FROM_RECORDS)
        return build_by(calls[which], (const uint32_t *)(records + 1), VP8MODEL_NUMBERS_PER_FRAME * count, centre,
                        strength);
    return vp8model_build_arnr_altref(at_bytes(&picture), picture.length, records + 1, count, centre,
                                      strength, at_bytes(&output), output.length, at_words(&sums),
                                      sums.length, at_words(&weights), weights.length);
}

/* What is only read is as it was. */
static int inputs_kept(enum builder which)
{
    return same_bytes(&picture) && same_words(&numbers)
           && (!gets_records(which) || memcmp(records, records_kept, sizeof records) == 0);
}

/* And so are all three lent slices. */
static int all_kept(enum builder which)
{
    return inputs_kept(which) && same_bytes(&output) && same_words(&sums) && same_words(&weights);
}

static int is_build(vp8model_build b, uint32_t refusal, uint32_t width, uint32_t height,
                    uint32_t accepted, uint32_t other_width, uint32_t other_height, uint32_t frame)
{
    return b.refusal == refusal && b.width == width && b.height == height && b.accepted == accepted
           && b.other_width == other_width && b.other_height == other_height && b.frame == frame;
}

#define REFUSES(which, centre, refusal, width, height, other_width, other_height, frame)          \
    do {                                                                                          \
        CHECK(is_build(build(which, centre, 1), refusal, width, height, 0, other_width,           \
                       other_height, frame));                                                     \
        CHECK(all_kept(which));                                                                   \
    } while (0)

static int is_frame_of_zeros(vp8model_frame f)
{
    return f.width == 0 && f.height == 0 && f.y == 0 && f.u == 0 && f.v == 0 && f.luma_stride == 0
           && f.chroma_stride == 0 && f.cap == 0;
}

/* No frames, no bytes, nothing lent: every centre index is out of range. */
static void empty_window(void)
{
    lend_bytes(&picture, 0, 0);
    lend_words(&numbers, 0, 0);
    lend_bytes(&output, 0, 0);
    lend_words(&sums, 0, 0);
    lend_words(&weights, 0, 0);
    for (int which = CHECKS_ONLY; which <= LAST_BUILDER; which++) {
        REFUSES((enum builder)which, 0, 1, 0, 0, 0, 0, 0);
        REFUSES((enum builder)which, SIZE_MAX, 1, 0, 0, 0, 0, 0);
    }
    CHECK(vp8model_frame_count(at_words(&numbers), 0) == 0);
    CHECK(is_frame_of_zeros(vp8model_frame_at(at_words(&numbers), 0, 0)));
}

static void samples_and_vectors(void)
{
    CHECK(vp8model_clamp255(INT32_MIN) == 0);
    CHECK(vp8model_clamp255(-1) == 0);
    CHECK(vp8model_clamp255(0) == 0);
    CHECK(vp8model_clamp255(100) == 100);
    CHECK(vp8model_clamp255(255) == 255);
    CHECK(vp8model_clamp255(256) == 255);
    CHECK(vp8model_clamp255(INT32_MAX) == 255);
    CHECK(vp8model_abs_diff(3, 10) == 7);
    CHECK(vp8model_abs_diff(10, 3) == 7);
    CHECK(vp8model_abs_diff(255, 0) == 255);
    vp8model_vector v = vp8model_stored_luma_mv(-1, 1023);
    CHECK(v.refusal == 0 && v.row == -2 && v.col == 2046);
    v = vp8model_stored_luma_mv(32767, -32768);
    CHECK(v.refusal == 0 && v.row == -2 && v.col == 0);
    CHECK(vp8model_whole_offset(-2) == -1);
    CHECK(vp8model_whole_offset(2046) == 255);
    CHECK(vp8model_whole_offset(-32768) == -4096);
    CHECK(vp8model_fraction(-2) == 6);
    CHECK(vp8model_fraction(2046) == 6);
    CHECK(vp8model_fraction(16) == 0);
    CHECK(vp8model_filter_set_for_version(0) == 0);
    CHECK(vp8model_filter_set_for_version(1) == 1);
    CHECK(vp8model_filter_set_for_version(2) == 1);
    CHECK(vp8model_filter_set_for_version(3) == 1);
    CHECK(vp8model_filter_set_for_version(255) == 1);
}

/* One sample by a selector from six lent samples. */
static vp8model_sample interp(uint32_t selector, uint8_t a, uint8_t b, uint8_t c, uint8_t d, uint8_t e,
                              uint8_t f)
{
    const uint8_t six[6] = {a, b, c, d, e, f};
    lend_bytes(&source, 6, 0);
    memcpy(at_bytes(&source), six, 6);
    keep_bytes(&source);
    vp8model_sample s = vp8model_interp(selector, at_bytes(&source));
    CHECK(same_bytes(&source));
    return s;
}

static void filtered_samples(void)
{
    vp8model_sample s = interp(4, 0, 0, 255, 255, 0, 0);
    CHECK(s.refusal == 0 && s.sample == 255);
    s = interp(4, 0, 255, 0, 0, 255, 0);
    CHECK(s.refusal == 0 && s.sample == 0);
    s = interp(2, 10, 20, 30, 40, 50, 60);
    CHECK(s.refusal == 0 && s.sample == 32);
    s = interp(7, 10, 20, 30, 40, 50, 60);
    CHECK(s.refusal == 0 && s.sample == 39);
    s = interp(8, 10, 20, 30, 40, 50, 60);
    CHECK(s.refusal == 13 && s.sample == 0);
    s = interp(UINT32_MAX, 10, 20, 30, 40, 50, 60);
    CHECK(s.refusal == 13 && s.sample == 0);
}

/* The two filters of a macroblock, alike. */
enum rows { SIXTAP, BILINEAR };

static vp8model_status filter_mb(enum rows by, uint32_t mx, uint32_t my)
{
    lend_bytes(&block, 256, 9);
    vp8model_status s = by == SIXTAP
                            ? vp8model_sixtap_mb_luma(at_bytes(&source), mx, my, at_bytes(&block))
                            : vp8model_bilinear_mb_luma(at_bytes(&source), mx, my, at_bytes(&block));
    CHECK(same_bytes(&source));
    CHECK(guarded_bytes(&block));
    return s;
}

static void filtered_macroblocks(enum rows by)
{
    lend_bytes(&source, 441, 77);
    CHECK(filter_mb(by, 2, 6).refusal == 0);
    CHECK(all_bytes(&block, 0, 256, 77));
    for (size_t i = 0; i < 441; i++)
        at_bytes(&source)[i] = (uint8_t)(i % 21 + 3 * (i / 21));
    keep_bytes(&source);
    CHECK(filter_mb(by, 0, 0).refusal == 0);
    for (size_t i = 0; i < 256; i++)
        CHECK(at_bytes(&block)[i] == i % 16 + 2 + 3 * (i / 16 + 2));
    /* across by a half: plus 1/2, rounded up; down by a half: plus 3/2, rounded up */
    CHECK(filter_mb(by, 4, 0).refusal == 0);
    CHECK(at_bytes(&block)[0] == 2 + 6 + 1);
    CHECK(filter_mb(by, 0, 4).refusal == 0);
    CHECK(at_bytes(&block)[0] == 2 + 6 + 2);
    CHECK(filter_mb(by, 8, 0).refusal == 13);
    CHECK(same_bytes(&block));
    CHECK(filter_mb(by, 0, 8).refusal == 13);
    CHECK(same_bytes(&block));
    CHECK(filter_mb(by, 8, 8).refusal == 13);
    CHECK(same_bytes(&block));
    CHECK(filter_mb(by, UINT32_MAX, UINT32_MAX).refusal == 13);
    CHECK(same_bytes(&block));
}

/* The bilinear macroblock's first sample is `sample`, where a b over c d stand in the halo from column 2 and
 * row 2 on: whatever the others are. */
static int is_of_four(uint32_t mx, uint32_t my, uint8_t a, uint8_t b, uint8_t c, uint8_t d, uint8_t sample)
{
    for (int others = 0; others <= 255; others += 255) {
        lend_bytes(&source, 441, (uint8_t)others);
        uint8_t *first = at_bytes(&source) + 2 * 21 + 2;
        first[0] = a;
        first[1] = b;
        first[21] = c;
        first[22] = d;
        keep_bytes(&source);
        if (filter_mb(BILINEAR, mx, my).refusal != 0 || at_bytes(&block)[0] != sample)
            return 0;
    }
    return 1;
}

static void bilinear_macroblocks(void)
{
    /* row 1: (112 * 255 + 64) / 128, 28624 / 128; row 2: (96 * 100 + 32 * 104 + 64) / 128, 12992 / 128;
     * row 4: (64 * 255 + 64) / 128, 16384 / 128; row 7: (16 * 10 + 112 * 20 + 64) / 128, 2464 / 128 */
    CHECK(is_of_four(1, 0, 255, 0, 9, 9, 223));
    CHECK(is_of_four(0, 1, 255, 9, 0, 9, 223));
    CHECK(is_of_four(2, 0, 100, 104, 9, 9, 101));
    CHECK(is_of_four(0, 2, 100, 9, 104, 9, 101));
    CHECK(is_of_four(4, 0, 0, 255, 9, 9, 128));
    CHECK(is_of_four(0, 4, 0, 9, 255, 9, 128));
    CHECK(is_of_four(7, 0, 10, 20, 9, 9, 19));
    CHECK(is_of_four(0, 7, 10, 9, 20, 9, 19));
    /* across 0 and (96 * 1 + 32 * 3 + 64) / 128 = 2, down (96 * 2 + 64) / 128 = 2; down first, 1 and 2 and then
     * (96 * 1 + 32 * 2 + 64) / 128 = 1; rounded once, (96 * 96 * 1 + 32 * 96 * 3 + 8192) / 16384 = 1 */
    CHECK(is_of_four(2, 6, 0, 0, 1, 3, 2));
    /* across (32 * 1 + 96 * 3 + 64) / 128 = 3, down (32 * 3 + 64) / 128 = 1 */
    CHECK(is_of_four(6, 2, 0, 0, 1, 3, 1));
    /* nothing is read but the columns and rows 2 to 18 */
    lend_bytes(&source, 441, 255);
    for (size_t y = 2; y <= 18; y++)
        memset(at_bytes(&source) + y * 21 + 2, 77, 17);
    keep_bytes(&source);
    CHECK(filter_mb(BILINEAR, 7, 7).refusal == 0);
    CHECK(all_bytes(&block, 0, 256, 77));
    /* a rise of 8 across and of 4 down: row k adds k across and k / 2, rounded up, down */
    for (size_t i = 0; i < 441; i++)
        at_bytes(&source)[i] = (uint8_t)(8 * (i % 21) + 4 * (i / 21));
    keep_bytes(&source);
    for (uint32_t k = 0; k < 64; k++) {
        CHECK(filter_mb(BILINEAR, k % 8, k / 8).refusal == 0);
        int rises = 1;
        for (uint32_t i = 0; i < 256; i++)
            rises = rises
                    && at_bytes(&block)[i] == 8 * (i % 16 + 2) + k % 8 + 4 * (i / 16 + 2) + (k / 8 + 1) / 2;
        CHECK(rises);
    }
}

static void plane_refusals(void)
{
    CHECK(vp8model_bad_size(0, 1) == 1);
    CHECK(vp8model_bad_size(1, 0) == 1);
    CHECK(vp8model_bad_size(16383, 16383) == 0);
    CHECK(vp8model_bad_size(16384, 1) == 1);
    CHECK(vp8model_bad_size(1, 16384) == 1);
    CHECK(vp8model_short_plane(255, 16, 16, 16) == 1);
    CHECK(vp8model_short_plane(256, 16, 16, 16) == 0);
    CHECK(vp8model_short_plane(16, SIZE_MAX, 16, 1) == 0);
    CHECK(vp8model_short_plane(16, SIZE_MAX, 16, 2) == 1);
    CHECK(vp8model_short_plane(16, 0, 16, 16383) == 0);
    /* height 0 counts as one row */
    CHECK(vp8model_short_plane(16, SIZE_MAX, 16, 0) == 0);
    CHECK(vp8model_short_plane(15, SIZE_MAX, 16, 0) == 1);
}

/* A plane of 48 by 48 whose sample at column x and row y is x + 3 y. */
#define SIDE 48

static uint8_t ramp(int x, int y)
{
    int column = x < 0 ? 0 : x < SIDE ? x : SIDE - 1;
    int row = y < 0 ? 0 : y < SIDE ? y : SIDE - 1;
    return (uint8_t)(column + 3 * row);
}

static void lend_ramp(void)
{
    lend_bytes(&plane, SIDE * SIDE, 0);
    for (int y = 0; y < SIDE; y++)
        for (int x = 0; x < SIDE; x++)
            at_bytes(&plane)[y * SIDE + x] = ramp(x, y);
    keep_bytes(&plane);
}

/* A fetch of n by n samples, 16 or 21, into the block. */
static uint32_t fetch(int n, size_t length, size_t width, size_t height, size_t x, size_t y, int16_t row,
                      int16_t col)
{
    lend_bytes(&block, (size_t)(n * n), 9);
    vp8model_status s;
    if (n == 16)
        s = vp8model_fetch_luma_mb_whole_pixel(at_bytes(&plane), length, SIDE, width, height, x, y, row,
                                               col, at_bytes(&block));
    else
        s = vp8model_fetch_luma_mb_halo(at_bytes(&plane), length, SIDE, width, height, x, y, row, col,
                                        at_bytes(&block));
    CHECK(same_bytes(&plane));
    CHECK(guarded_bytes(&block));
    return s.refusal;
}

/* The block is the plane's n by n samples from column x and row y on. */
static int fetched(int n, int x, int y)
{
    for (int i = 0; i < n * n; i++)
        if (at_bytes(&block)[i] != ramp(x + i % n, y + i / n))
            return 0;
    return 1;
}

static void fetches(void)
{
    lend_ramp();
    for (int n = 16; n <= 21; n += 5) {
        /* the halo starts two samples left and above */
        int halo = n == 21 ? 2 : 0;
        size_t all = SIDE * SIDE;
        CHECK(fetch(n, all, SIDE, SIDE, 16, 16, 0, 0) == 0);
        CHECK(fetched(n, 16 - halo, 16 - halo));
        /* -1 eighth is one row up, 9 eighths are one column right */
        CHECK(fetch(n, all, SIDE, SIDE, 16, 16, -1, 9) == 0);
        CHECK(fetched(n, 17 - halo, 15 - halo));
        CHECK(fetch(n, all, SIDE, SIDE, 0, 0, -32768, 32767) == 0);
        CHECK(fetched(n, 4095 - halo, -4096 - halo));
        CHECK(fetch(n, all, SIDE, SIDE, 16368, 16368, 0, 0) == 0);
        CHECK(fetched(n, 16368 - halo, 16368 - halo));
        CHECK(fetch(n, 0, 0, 0, 16369, 16369, 0, 0) == 8);
        CHECK(same_bytes(&block));
        CHECK(fetch(n, all, 16384, SIDE, 16, 16, 0, 0) == 8);
        CHECK(same_bytes(&block));
        CHECK(fetch(n, all - 1, SIDE, SIDE, 16369, 0, 0, 0) == 9);
        CHECK(same_bytes(&block));
        CHECK(fetch(n, all, SIDE, SIDE, 16369, 0, 0, 0) == 10);
        CHECK(same_bytes(&block));
        CHECK(fetch(n, all, SIDE, SIDE, 0, 16369, 0, 0) == 10);
        CHECK(same_bytes(&block));
    }
}

static void block_sads(void)
{
    lend_bytes(&source, 256, 5);
    lend_bytes(&block, 256, 9);
    CHECK(vp8model_block_sad_16x16(at_bytes(&source), at_bytes(&block)) == 1024);
    CHECK(vp8model_block_sad_16x16(at_bytes(&block), at_bytes(&source)) == 1024);
    CHECK(vp8model_block_sad_16x16(at_bytes(&source), at_bytes(&source)) == 0);
    CHECK(same_bytes(&source) && same_bytes(&block));
    lend_bytes(&source, 256, 255);
    lend_bytes(&block, 256, 0);
    CHECK(vp8model_block_sad_16x16(at_bytes(&source), at_bytes(&block)) == 65280);
    CHECK(same_bytes(&source) && same_bytes(&block));
}

/* The SAD of the source and the block up to a ceiling. */
static int is_ceiled(uint32_t ceiling, uint32_t sad, uint32_t rows)
{
    vp8model_ceiled c = vp8model_block_sad_16x16_up_to(at_bytes(&source), at_bytes(&block), ceiling);
    return c.refusal == 0 && c.sad == sad && c.rows == rows && same_bytes(&source) && same_bytes(&block);
}

static void ceiled_sads(void)
{
    CHECK(VP8MODEL_NO_CEILING == 256 * 255 + 1);
    /* equal blocks: a sum of 0 is below every ceiling but 0 */
    lend_bytes(&source, 256, 9);
    lend_bytes(&block, 256, 9);
    CHECK(is_ceiled(0, 0, 1));
    CHECK(is_ceiled(1, 0, 16));
    CHECK(is_ceiled(VP8MODEL_NO_CEILING, 0, 16));
    CHECK(is_ceiled(UINT32_MAX, 0, 16));
    /* black against white, both ways: 4080 in every row */
    for (int way = 0; way < 2; way++) {
        lend_bytes(&source, 256, way == 0 ? 0 : 255);
        lend_bytes(&block, 256, way == 0 ? 255 : 0);
        CHECK(is_ceiled(0, 0, 1));
        CHECK(is_ceiled(1, 1, 1));
        CHECK(is_ceiled(4080, 4080, 1));
        CHECK(is_ceiled(4081, 4081, 2));
        CHECK(is_ceiled(61200, 61200, 15));
        CHECK(is_ceiled(61201, 61201, 16));
        CHECK(is_ceiled(65280, 65280, 16));
        CHECK(is_ceiled(VP8MODEL_NO_CEILING, 65280, 16));
        CHECK(is_ceiled(UINT32_MAX, 65280, 16));
    }
    /* only row 5 differs, by 1 in every sample */
    lend_bytes(&source, 256, 9);
    lend_bytes(&block, 256, 9);
    memset(at_bytes(&block) + 5 * 16, 10, 16);
    keep_bytes(&block);
    CHECK(is_ceiled(0, 0, 1));
    CHECK(is_ceiled(1, 1, 6));
    CHECK(is_ceiled(16, 16, 6));
    CHECK(is_ceiled(17, 16, 16));
    /* only the last sample differs */
    lend_bytes(&block, 256, 9);
    at_bytes(&block)[255] = 8;
    keep_bytes(&block);
    CHECK(is_ceiled(1, 1, 16));
    CHECK(is_ceiled(2, 1, 16));
    /* row y differs by y + 1, up and down by turns: after n rows the sum is 8 n (n + 1) */
    lend_bytes(&source, 256, 100);
    for (int i = 0; i < 256; i++)
        at_bytes(&block)[i] = (uint8_t)(100 + (i % 2 == 0 ? i / 16 + 1 : -(i / 16 + 1)));
    keep_bytes(&block);
    for (uint32_t n = 1; n <= 16; n++) {
        CHECK(is_ceiled(8 * n * (n + 1), 8 * n * (n + 1), n));
        CHECK(is_ceiled(8 * n * (n - 1) + 1, 8 * n * (n - 1) + 1, n));
    }
    CHECK(is_ceiled(2177, 2176, 16));
}

/* A searched macroblock, of column and row 1 unless a case says otherwise. */
typedef struct place {
    size_t length;
    size_t width;
    size_t height;
    size_t mb_col;
    size_t mb_row;
} place;

static const place here = {SIDE * SIDE, SIDE, SIDE, 1, 1};
static const place no_size = {0, 0, 0, 1024, 1024};
static const place one_short = {SIDE * SIDE - 1, SIDE, SIDE, 1024, 1};
static const place far_column = {SIDE * SIDE, SIDE, SIDE, 1024, 1};
static const place far_row = {SIDE * SIDE, SIDE, SIDE, 1, 1024};
static const place two_by_two = {SIDE + 2, 2, 2, 0, 0};
static const place three_by_one = {3, 3, 1, 0, 0};

/* The source: the macroblock's samples moved dx columns right and dy rows down. */
static void lend_source(int dx, int dy)
{
    lend_bytes(&source, 256, 0);
    for (int i = 0; i < 256; i++)
        at_bytes(&source)[i] = ramp(16 + i % 16 + dx, 16 + i / 16 + dy);
    keep_bytes(&source);
}

static int is_sad(vp8model_sad s, uint32_t refusal, uint32_t sad)
{
    return s.refusal == refusal && s.sad == sad && same_bytes(&plane) && same_bytes(&source);
}

static vp8model_sad whole_sad(place p, int16_t row, int16_t col)
{
    return vp8model_mb_luma_sad_at_whole_mv(at_bytes(&plane), p.length, SIDE, p.width, p.height, p.mb_col,
                                            p.mb_row, at_bytes(&source), row, col);
}

static vp8model_sad any_sad(place p, int16_t row, int16_t col, uint8_t version)
{
    return vp8model_mb_luma_sad_at_mv(at_bytes(&plane), p.length, SIDE, p.width, p.height, p.mb_col,
                                      p.mb_row, at_bytes(&source), row, col, version);
}

static void whole_sads(void)
{
    lend_ramp();
    lend_source(1, -1);
    CHECK(is_sad(whole_sad(here, -4, 4), 0, 0));
    CHECK(is_sad(whole_sad(here, 0, 0), 0, 512));
    CHECK(is_sad(whole_sad(here, 4, -4), 0, 1024));
    CHECK(is_sad(whole_sad(no_size, 1024, 0), 8, 0));
    CHECK(is_sad(whole_sad(one_short, 1024, 0), 9, 0));
    CHECK(is_sad(whole_sad(far_column, 1024, 0), 10, 0));
    CHECK(is_sad(whole_sad(far_row, 1024, 0), 10, 0));
    CHECK(is_sad(whole_sad(here, 1024, 0), 11, 0));
    CHECK(is_sad(whole_sad(here, 1, -1024), 11, 0));
    CHECK(is_sad(whole_sad(here, 2, 0), 12, 0));
    CHECK(is_sad(whole_sad(here, 0, -1), 12, 0));
}

/* On the ramp every version gives the same. */
static void sads(uint8_t version)
{
    lend_ramp();
    lend_source(1, -1);
    CHECK(is_sad(any_sad(here, -4, 4, version), 0, 0));
    CHECK(is_sad(any_sad(here, 0, 0, version), 0, 512));
    CHECK(is_sad(any_sad(no_size, 1024, 0, version), 8, 0));
    CHECK(is_sad(any_sad(one_short, 1024, 0, version), 9, 0));
    CHECK(is_sad(any_sad(far_column, 1024, 0, version), 10, 0));
    CHECK(is_sad(any_sad(far_row, 1024, 0, version), 10, 0));
    CHECK(is_sad(any_sad(here, -1024, 0, version), 11, 0));
    CHECK(is_sad(any_sad(here, 0, 1024, version), 11, 0));
    /* a quarter down: plus 90/128, bilinear 96/128, rounded to 1, at each of 256 samples */
    lend_source(0, 0);
    CHECK(is_sad(any_sad(here, 1, 0, version), 0, 256));
}

static vp8model_diamond diamond(place p, int16_t row, int16_t col, uint32_t most)
{
    vp8model_diamond d = vp8model_small_diamond_search_luma(
        at_bytes(&plane), p.length, SIDE, p.width, p.height, p.mb_col, p.mb_row, at_bytes(&source), row,
        col, most);
    CHECK(same_bytes(&plane) && same_bytes(&source));
    return d;
}

static int is_diamond(vp8model_diamond d, uint32_t refusal, int16_t row, int16_t col, uint32_t sad,
                      uint32_t count, uint32_t rounds)
{
    return d.refusal == refusal && d.row == row && d.col == col && d.sad == sad && d.sads == count
           && d.rounds == rounds;
}

static void diamonds(void)
{
    lend_ramp();
    lend_source(1, -1);
    /* up to (-4, 0), right to (-4, 4), and a round without a move */
    CHECK(is_diamond(diamond(here, 0, 0, UINT32_MAX), 0, -4, 4, 0, 9, 2));
    CHECK(is_diamond(diamond(here, 0, 0, 1), 0, -4, 4, 0, 5, 1));
    CHECK(is_diamond(diamond(here, 0, 0, 0), 0, 0, 0, 512, 1, 0));
    /* clamped first, then cut toward zero; 255 rows down every row is the last one */
    CHECK(is_diamond(diamond(here, 1023, -5, 0), 0, 1020, -4, 18304, 1, 0));
    CHECK(is_diamond(diamond(here, 32767, -5, 0), 0, 1020, -4, 18304, 1, 0));
    CHECK(diamond(here, 0, -1023, 0).col == -1020);
    CHECK(is_diamond(diamond(no_size, 0, 0, 9), 8, 0, 0, 0, 0, 0));
    CHECK(is_diamond(diamond(one_short, 4, 4, 9), 9, 0, 0, 0, 0, 0));
    CHECK(is_diamond(diamond(far_column, 4, 4, 9), 10, 0, 0, 0, 0, 0));
    CHECK(is_diamond(diamond(far_row, 4, 4, 9), 10, 0, 0, 0, 0, 0));
}

static int is_search(vp8model_search s, uint32_t refusal, int16_t row, int16_t col, uint32_t sad)
{
    return s.refusal == refusal && s.row == row && s.col == col && s.sad == sad && same_bytes(&plane)
           && same_bytes(&source);
}

static vp8model_search half(place p, int16_t row, int16_t col, uint8_t version)
{
    return vp8model_half_pixel_refine_luma(at_bytes(&plane), p.length, SIDE, p.width, p.height, p.mb_col,
                                           p.mb_row, at_bytes(&source), row, col, version);
}

static vp8model_search quarter(place p, int16_t row, int16_t col, uint8_t version)
{
    return vp8model_quarter_pixel_refine_luma(at_bytes(&plane), p.length, SIDE, p.width, p.height,
                                              p.mb_col, p.mb_row, at_bytes(&source), row, col, version);
}

/* On the ramp every version gives the same. */
static void refinements(uint8_t version)
{
    lend_ramp();
    lend_source(1, -1);
    CHECK(is_search(half(here, -4, 4, version), 0, -4, 4, 0));
    /* (-2, -2) and (-2, 0) both have 256: the earlier is kept */
    CHECK(is_search(half(here, 0, 0, version), 0, -2, -2, 256));
    CHECK(is_search(half(no_size, 1024, 2, version), 8, 0, 0, 0));
    CHECK(is_search(half(one_short, 1024, 2, version), 9, 0, 0, 0));
    CHECK(is_search(half(far_column, 1024, 2, version), 10, 0, 0, 0));
    CHECK(is_search(half(far_row, 1024, 2, version), 10, 0, 0, 0));
    CHECK(is_search(half(here, 1024, 2, version), 11, 0, 0, 0));
    CHECK(is_search(half(here, 4, 2, version), 12, 0, 0, 0));
    CHECK(is_search(quarter(here, -2, -2, version), 0, -3, -2, 0));
    CHECK(is_search(quarter(here, -4, 4, version), 0, -4, 4, 0));
    CHECK(is_search(quarter(no_size, -1024, 1, version), 8, 0, 0, 0));
    CHECK(is_search(quarter(one_short, -1024, 1, version), 9, 0, 0, 0));
    CHECK(is_search(quarter(far_column, -1024, 1, version), 10, 0, 0, 0));
    CHECK(is_search(quarter(far_row, -1024, 1, version), 10, 0, 0, 0));
    CHECK(is_search(quarter(here, -1024, 1, version), 11, 0, 0, 0));
    CHECK(is_search(quarter(here, 2, 1, version), 12, 0, 0, 0));
}

/* The first columns of every row of the source, 0 after them. */
static void lend_columns(uint8_t first, uint8_t second)
{
    lend_bytes(&source, 256, 0);
    for (size_t y = 0; y < 16; y++) {
        at_bytes(&source)[16 * y] = first;
        at_bytes(&source)[16 * y + 1] = second;
    }
    keep_bytes(&source);
}

/* Small pictures on which six-tap and bilinear rows give different answers. */
static void versions(void)
{
    /* The picture 0 0 over 1 3, a source of 0, and the vector (3, 1): selectors 2 across and 6 down.
     * Bilinear: across, row 0 is 0 0 .. and every other row 2 3 3 ..; down, row 0 becomes 2 2 .., as
     * (96 * 2 + 64) / 128 and (96 * 3 + 64) / 128 are, and the others stay.
     * Six-tap: across, row 0 is 0 0 .. and every other row (99 * 1 + 29 * 3 + 64) / 128 = 1 and then 3 3 ..;
     * down, row 0 becomes (99 * 1 + 64) / 128 = 1 and then (99 * 3 + 64) / 128 = 2 2 .., and the others stay. */
    lend_bytes(&plane, SIDE + 2, 200);
    memset(at_bytes(&plane), 0, 2);
    at_bytes(&plane)[SIDE] = 1;
    at_bytes(&plane)[SIDE + 1] = 3;
    keep_bytes(&plane);
    lend_columns(0, 0);
    CHECK(is_sad(any_sad(two_by_two, 3, 1, 0), 0, 1 + 15 * 2 + 15 * (1 + 15 * 3)));
    CHECK(is_sad(any_sad(two_by_two, 3, 1, 1), 0, 16 * 2 + 15 * (2 + 15 * 3)));
    CHECK(is_sad(any_sad(two_by_two, 3, 1, 2), 0, 16 * 2 + 15 * (2 + 15 * 3)));
    /* The picture 0 100 0, whose rows are all alike. Half a column to the right a row is 50 50 0 .., six-tap
     * 60 60 0 2 0 ..; to the left 0 50 50 0 .., six-tap 0 60 60 0 2 0 ... From the source 1 0 0 .. they differ
     * by 49 + 50 and 1 + 50 + 50, six-tap by 59 + 60 + 2 and 1 + 60 + 60 + 2, and the centre by 1 + 100. */
    lend_bytes(&plane, 3, 0);
    at_bytes(&plane)[1] = 100;
    keep_bytes(&plane);
    lend_columns(1, 0);
    CHECK(is_search(half(three_by_one, 0, 0, 0), 0, 0, 0, 16 * 101));
    CHECK(is_search(half(three_by_one, 0, 0, 1), 0, -2, 2, 16 * 99));
    CHECK(is_search(half(three_by_one, 0, 0, 2), 0, -2, 2, 16 * 99));
    /* A quarter to the right a row is 25 75 0 .., six-tap 28 84 0 2 0 ..; three quarters to the right 75 25 0 ..,
     * six-tap 84 28 0 1 0 ... From the source 45 71 0 .. they differ by 20 + 4 and 30 + 46, and the half by
     * 5 + 21; six-tap by 17 + 13 + 2 and 39 + 43 + 1, and the half by 15 + 11 + 2. */
    lend_columns(45, 71);
    CHECK(is_search(quarter(three_by_one, 0, 2, 0), 0, 0, 2, 16 * 28));
    CHECK(is_search(quarter(three_by_one, 0, 2, 1), 0, -1, 1, 16 * 24));
    CHECK(is_search(quarter(three_by_one, 0, 2, 2), 0, -1, 1, 16 * 24));
}

/* A version above 2 goes before every other refusal. */
static void refused_versions(void)
{
    lend_ramp();
    lend_source(1, -1);
    for (int v = 3; v <= 255; v++) {
        uint8_t version = (uint8_t)v;
        CHECK(is_sad(any_sad(here, -4, 4, version), 23, 0));
        CHECK(is_search(half(here, -4, 4, version), 23, 0, 0, 0));
        CHECK(is_search(quarter(here, -2, -2, version), 23, 0, 0, 0));
    }
    for (int v = 3; v <= 255; v += 252) {
        uint8_t version = (uint8_t)v;
        CHECK(is_sad(any_sad(no_size, 1024, 0, version), 23, 0));
        CHECK(is_sad(any_sad(one_short, 1024, 0, version), 23, 0));
        CHECK(is_sad(any_sad(far_column, 1024, 0, version), 23, 0));
        CHECK(is_sad(any_sad(far_row, 0, 0, version), 23, 0));
        CHECK(is_sad(any_sad(here, 0, -1024, version), 23, 0));
        CHECK(is_search(half(no_size, 1024, 2, version), 23, 0, 0, 0));
        CHECK(is_search(half(one_short, 1024, 2, version), 23, 0, 0, 0));
        CHECK(is_search(half(far_column, 0, 0, version), 23, 0, 0, 0));
        CHECK(is_search(half(here, 1024, 2, version), 23, 0, 0, 0));
        CHECK(is_search(half(here, 4, 2, version), 23, 0, 0, 0));
        CHECK(is_search(quarter(no_size, -1024, 1, version), 23, 0, 0, 0));
        CHECK(is_search(quarter(one_short, -1024, 1, version), 23, 0, 0, 0));
        CHECK(is_search(quarter(far_row, 0, 0, version), 23, 0, 0, 0));
        CHECK(is_search(quarter(here, -1024, 1, version), 23, 0, 0, 0));
        CHECK(is_search(quarter(here, 2, 1, version), 23, 0, 0, 0));
    }
}

/* Whole pictures. The three lists stand between guards, and all of their room holds marks that no answer is. */

#define LIST_MOST 1100
#define ROW_MARK (-1234)
#define COL_MARK 1235

static int16_t mv_rows[GUARD + LIST_MOST + GUARD], mv_cols[GUARD + LIST_MOST + GUARD];
static uint32_t mv_sads[GUARD + LIST_MOST + GUARD];

static void lend_lists(void)
{
    for (size_t i = 0; i < GUARD + LIST_MOST + GUARD; i++) {
        mv_rows[i] = ROW_MARK;
        mv_cols[i] = COL_MARK;
        mv_sads[i] = WORD_MARK;
    }
}

/* Nothing but the first `count` lent entries of each list can have changed. */
static int marked_from(size_t count)
{
    for (size_t i = 0; i < GUARD + LIST_MOST + GUARD; i++)
        if ((i < GUARD || GUARD + count <= i)
            && (mv_rows[i] != ROW_MARK || mv_cols[i] != COL_MARK || mv_sads[i] != WORD_MARK))
            return 0;
    return 1;
}

static int is_entry(size_t i, int row, int col, uint32_t sad)
{
    return mv_rows[GUARD + i] == row && mv_cols[GUARD + i] == col && mv_sads[GUARD + i] == sad;
}

/* The size of both planes, their strides, the limit and the version. */
typedef struct whole {
    size_t width;
    size_t height;
    size_t stride;
    size_t source_stride;
    uint32_t limit;
    uint8_t version;
} whole;

static size_t macroblocks_of(whole w)
{
    return (w.width + 15) / 16 * ((w.height + 15) / 16);
}

/* The search of the two planes, with lists of so many entries. */
static vp8model_picture search_picture(whole w, size_t rows, size_t cols, size_t sads)
{
    lend_lists();
    vp8model_picture p = vp8model_search_picture_luma(
        at_bytes(&plane), plane.length, w.stride, w.width, w.height, at_bytes(&source), source.length,
        w.source_stride, w.limit, w.version, mv_rows + GUARD, rows, mv_cols + GUARD, cols, mv_sads + GUARD,
        sads);
    CHECK(same_bytes(&plane) && same_bytes(&source));
    return p;
}

/* It is accepted, with lists that are longer than the picture by 0, 1 and 2 entries, and writes no others. */
static int is_searched(whole w)
{
    size_t count = macroblocks_of(w);
    vp8model_picture p = search_picture(w, count, count + 1, count + 2);
    return p.refusal == 0 && p.macroblocks == count && marked_from(count);
}

/* It is refused and writes nothing. */
static int is_refused(whole w, size_t rows, size_t cols, size_t sads, uint32_t refusal)
{
    vp8model_picture p = search_picture(w, rows, cols, sads);
    return p.refusal == refusal && p.macroblocks == 0 && marked_from(0);
}

/* One sample in each: every vector reads the same one. */
static void smallest_picture(void)
{
    lend_bytes(&plane, 1, 10);
    lend_bytes(&source, 1, 13);
    for (uint8_t version = 0; version <= 2; version++)
        for (uint32_t limit = 0; limit <= 2; limit++) {
            whole one = {1, 1, 1, 1, limit, version};
            CHECK(is_searched(one) && is_entry(0, 0, 0, 256 * 3));
        }
}

/* A plane of 17 by 16 whose rows are 15 zeros, then `before` and `last`; or turned, 16 by 17. */
static void lend_two(bytes *b, uint8_t before, uint8_t last, int turned)
{
    lend_bytes(b, 272, 0);
    for (size_t i = 0; i < 272; i++) {
        size_t along = turned ? i / 16 : i % 17;
        at_bytes(b)[i] = along == 16 ? last : along == 15 ? before : 0;
    }
    keep_bytes(b);
}

/* The component of a vector along which the planes do not change. There all vectors cost the same, so that a
 * refinement that moves takes the least one: 2 less, then 1 less. */
static int beside(int component)
{
    return component % 2 != 0 ? -3 : 0;
}

/* Two macroblocks. The second is cut: one column of it, or turned one row, is the picture's, and the others
 * repeat that. */
static void cut_picture(int turned, uint32_t limit, uint8_t version, int first, uint32_t first_sad, int second,
                        uint32_t second_sad)
{
    whole lying = {17, 16, 17, 17, limit, version}, upright = {16, 17, 16, 16, limit, version};
    lend_two(&plane, 0, 100, turned);
    lend_two(&source, 100, 30, turned);
    CHECK(is_searched(turned ? upright : lying));
    CHECK(is_entry(0, turned ? first : beside(first), turned ? beside(first) : first, first_sad));
    CHECK(is_entry(1, turned ? second : beside(second), turned ? beside(second) : second, second_sad));
}

static void cut_pictures(void)
{
    for (int turned = 0; turned <= 1; turned++) {
        for (uint8_t version = 1; version <= 2; version++) {
            /* One column to the right the first has its 100 where the source has it. The second costs 70 in each
             * column and 30 in one that reads a 0: 1120, 1080 and 1040 a row; half a column further a sample of
             * 50 costs 20 in between, 990; a quarter further it is 25 and costs 5, 975. */
            cut_picture(turned, 2, version, 4, 0, -11, 16 * (2 * 30 + 5 + 13 * 70));
            cut_picture(turned, 1, version, 4, 0, -7, 16 * (1 * 30 + 5 + 14 * 70));
            /* The last round moves nothing: 16 columns read 0, one column more costs the same. */
            cut_picture(turned, 17, version, 4, 0, -63, 16 * (15 * 30 + 5));
            cut_picture(turned, UINT32_MAX, version, 4, 0, -63, 16 * (15 * 30 + 5));
            /* No rounds: half a column to the right the sample is 50, three quarters 75. */
            cut_picture(turned, 0, version, 3, 16 * 25, -3, 16 * (5 + 15 * 70));
        }
        /* Six-tap, about the edge of 0 and 100 at 11 quarters: 1 0 23 107 98 100 .. */
        cut_picture(turned, 2, 0, 4, 0, -11, 16 * (29 + 30 + 7 + 77 + 68 + 11 * 70));
    }
}

/* The bytes that a plane needs. */
static size_t needed(size_t stride, size_t width, size_t height)
{
    return (height - 1) * stride + width;
}

/* Waves of 40 bytes with some noise, from the byte `from` of them on. */
static void lend_waves(bytes *b, size_t length, size_t from)
{
    lend_bytes(b, length, 0);
    for (size_t i = 0; i < length; i++) {
        size_t at = from + i, wave = at % 40 < 20 ? at % 40 : 39 - at % 40;
        at_bytes(b)[i] = (uint8_t)(9 * wave + at * at / 7 % 23);
    }
    keep_bytes(b);
}

/* Both planes as long as they must be, less so many bytes. */
static void lend_planes(whole w, size_t plane_less, size_t source_less)
{
    lend_waves(&plane, needed(w.stride, w.width, w.height) - plane_less, 0);
    lend_waves(&source, needed(w.source_stride, w.width, w.height) - source_less, 3);
}

/* The source block of a macroblock, cut by hand. */
static void cut_block(whole w, size_t column, size_t row)
{
    lend_bytes(&block, 256, 0);
    for (size_t i = 0; i < 256; i++) {
        size_t x = 16 * column + i % 16, y = 16 * row + i / 16;
        size_t last_x = w.width - 1, last_y = w.height - 1;
        at_bytes(&block)[i] =
            at_bytes(&source)[(y < last_y ? y : last_y) * w.source_stride + (x < last_x ? x : last_x)];
    }
}

/* The diamond of macroblock i by its single call; its source block is cut for it. */
static vp8model_diamond diamond_of(whole w, size_t i)
{
    size_t columns = (w.width + 15) / 16, column = i % columns, row = i / columns;
    cut_block(w, column, row);
    return vp8model_small_diamond_search_luma(at_bytes(&plane), plane.length, w.stride, w.width, w.height, column,
                                              row, at_bytes(&block), 0, 0, w.limit);
}

/* Entry i is what the single calls of both refinements give for that block, one after the other. */
static int is_refined(whole w, size_t i, vp8model_diamond d)
{
    size_t columns = (w.width + 15) / 16, column = i % columns, row = i / columns;
    vp8model_search h =
        vp8model_half_pixel_refine_luma(at_bytes(&plane), plane.length, w.stride, w.width, w.height, column,
                                        row, at_bytes(&block), d.row, d.col, w.version);
    vp8model_search q =
        vp8model_quarter_pixel_refine_luma(at_bytes(&plane), plane.length, w.stride, w.width, w.height, column,
                                           row, at_bytes(&block), h.row, h.col, w.version);
    return d.refusal == 0 && h.refusal == 0 && q.refusal == 0 && is_entry(i, q.row, q.col, q.sad);
}

/* Entry i is what the three single calls give. */
static int is_by_single_calls(whole w, size_t i)
{
    return is_refined(w, i, diamond_of(w, i));
}

/* The strides 0, below, at and above a width; both sides have each. */
static whole with_strides(size_t width, size_t height, size_t which, uint32_t limit, uint8_t version)
{
    const size_t strides[4] = {0, width / 2, width, width + 5};
    whole w = {width, height, strides[which % 4], strides[which / 4], limit, version};
    return w;
}

static void pictures_by_single_calls(void)
{
    static const size_t sides[7] = {1, 15, 16, 17, 31, 32, 33};
    static const uint32_t limits[4] = {0, 1, 64, UINT32_MAX};
    size_t all = 0, moved = 0;
    for (size_t size = 0; size < 49; size++)
        for (size_t which = 0; which < 16; which++)
            for (uint8_t version = 0; version <= 2; version++) {
                uint32_t limit = limits[(size + which + version) % 4];
                whole w = with_strides(sides[size % 7], sides[size / 7], which, limit, version);
                lend_planes(w, 0, 0);
                CHECK(is_searched(w));
                for (size_t i = 0; i < macroblocks_of(w); i++) {
                    CHECK(is_by_single_calls(w, i));
                    all++;
                    moved += is_entry(i, 0, 0, mv_sads[GUARD + i]) ? 0 : 1;
                }
            }
    /* most of them move, so that vectors that were left out would show */
    CHECK(all < 2 * moved);
}

/* The same bytes, by one stride, as reference and as source: nothing moves. */
static void pictures_in_themselves(void)
{
    for (size_t which = 0; which < 4; which++)
        for (uint8_t version = 0; version <= 2; version++) {
            whole w = with_strides(33, 31, 5 * which, UINT32_MAX, version);
            lend_waves(&plane, needed(w.stride, w.width, w.height), 0);
            lend_lists();
            vp8model_picture p = vp8model_search_picture_luma(
                at_bytes(&plane), plane.length, w.stride, w.width, w.height, at_bytes(&plane), plane.length,
                w.source_stride, w.limit, w.version, mv_rows + GUARD, 7, mv_cols + GUARD, 7, mv_sads + GUARD, 7);
            CHECK(p.refusal == 0 && p.macroblocks == 6 && marked_from(6) && same_bytes(&plane));
            for (size_t i = 0; i < 6; i++)
                CHECK(is_entry(i, 0, 0, 0));
        }
}

/* Each at its edge: 17 by 33 is 6 macroblocks, and the two planes have strides of their own. */
static void refused_pictures(void)
{
    const whole legal = {17, 33, 17, 20, 9, 2};
    whole w = legal;
    lend_planes(legal, 0, 0);
    CHECK(is_searched(legal));
    for (int version = 3; version <= 255; version++) {
        w.version = (uint8_t)version;
        CHECK(is_refused(w, 6, 6, 6, 23));
    }
    for (int k = 0; k < 6; k++) {
        static const size_t sizes[6][2] = {{0, 33}, {17, 0}, {16384, 33}, {17, 16384}, {SIZE_MAX, 33}, {0, 0}};
        w = legal;
        w.width = sizes[k][0];
        w.height = sizes[k][1];
        CHECK(is_refused(w, 6, 6, 6, 8));
    }
    CHECK(is_refused(legal, 5, 6, 6, 15));
    CHECK(is_refused(legal, 6, 5, 6, 15));
    CHECK(is_refused(legal, 6, 6, 5, 15));
    CHECK(is_refused(legal, 0, 0, 0, 15));
    lend_planes(legal, 1, 0);
    CHECK(is_refused(legal, 6, 6, 6, 9));
    lend_planes(legal, 0, 1);
    CHECK(is_refused(legal, 6, 6, 6, 14));
    /* as long as the reference's stride would ask, and 96 short of its own */
    lend_planes(legal, 0, 96);
    CHECK(is_refused(legal, 6, 6, 6, 14));
    lend_bytes(&source, 0, 0);
    CHECK(is_refused(legal, 6, 6, 6, 14));
    lend_bytes(&plane, 0, 0);
    CHECK(is_refused(legal, 6, 6, 6, 9));
}

/* Any of 23, 8, 9, 14 and 15 at once, a bit of `wrong` for each: the first is given. */
static void refused_in_order(void)
{
    static const uint32_t order[5] = {23, 8, 9, 14, 15};
    static const size_t sizes[3][2] = {{0, 33}, {17, 0}, {16384, 33}};
    for (unsigned wrong = 1; wrong < 32; wrong++)
        for (unsigned k = 0; k < 3; k++) {
            whole w = {17, 33, 17, 20, 9, 2};
            size_t lengths[3] = {6, 6, 6}, first = 0;
            lend_planes(w, wrong >> 2 & 1, wrong >> 3 & 1);
            if ((wrong & 1) != 0)
                w.version = 3;
            if ((wrong & 2) != 0) {
                w.width = sizes[k][0];
                w.height = sizes[k][1];
            }
            if ((wrong & 16) != 0)
                lengths[k] = 5;
            while ((wrong >> first & 1) == 0)
                first++;
            CHECK(is_refused(w, lengths[0], lengths[1], lengths[2], order[first]));
        }
}

/* Strides that leave 64 bits after one row or two: one row never reads them, and more are refused. */
static void far_strides(void)
{
    static const size_t strides[2] = {SIZE_MAX, SIZE_MAX / 2 + 1};
    for (int k = 0; k < 2; k++) {
        whole far = {17, 1, strides[k], 17, 9, 0}, far_source = {17, 1, 17, strides[k], 9, 0};
        lend_waves(&plane, 17, 0);
        lend_waves(&source, 17, 3);
        CHECK(is_searched(far) && is_by_single_calls(far, 0) && is_by_single_calls(far, 1));
        CHECK(is_searched(far_source) && is_by_single_calls(far_source, 0) && is_by_single_calls(far_source, 1));
        for (size_t height = 2; height <= 3; height++) {
            far.height = height;
            far_source.height = height;
            lend_waves(&plane, 51, 0);
            lend_waves(&source, 51, 3);
            CHECK(is_refused(far, 2, 2, 2, 9));
            CHECK(is_refused(far_source, 2, 2, 2, 14));
        }
    }
}

/* The longest sides, in one row and in one column of macroblocks. */
static void longest_pictures(void)
{
    whole wide = {16383, 1, 0, 0, 1, 0}, high = {1, 16383, 0, 0, 1, 1};
    lend_planes(wide, 0, 0);
    CHECK(is_searched(wide));
    CHECK(is_by_single_calls(wide, 0) && is_by_single_calls(wide, 511) && is_by_single_calls(wide, 1023));
    CHECK(is_refused(wide, 1024, 1024, 1023, 15));
    lend_planes(high, 0, 0);
    CHECK(is_searched(high));
    CHECK(is_by_single_calls(high, 0) && is_by_single_calls(high, 1023));
    CHECK(is_refused(high, 1023, 1024, 1024, 15));
}

/* Whole pictures within an allowance; the limit of a `whole` is then the test's own. */

static vp8model_allowed search_within(whole w, uint32_t allowance, size_t rows, size_t cols, size_t sads)
{
    lend_lists();
    vp8model_allowed a = vp8model_search_picture_luma_within(
        at_bytes(&plane), plane.length, w.stride, w.width, w.height, at_bytes(&source), source.length,
        w.source_stride, allowance, w.version, mv_rows + GUARD, rows, mv_cols + GUARD, cols, mv_sads + GUARD,
        sads);
    CHECK(same_bytes(&plane) && same_bytes(&source));
    return a;
}

/* It is accepted with so many comparisons, and writes no entries past the macroblocks. */
static int is_within(whole w, uint32_t allowance, uint32_t comparisons)
{
    size_t count = macroblocks_of(w);
    vp8model_allowed a = search_within(w, allowance, count, count + 1, count + 2);
    return a.refusal == 0 && a.macroblocks == count && a.comparisons == comparisons && marked_from(count);
}

/* It is refused, gives no numbers and writes nothing. */
static int is_not_within(whole w, uint32_t allowance, size_t rows, size_t cols, size_t sads, uint32_t refusal)
{
    vp8model_allowed a = search_within(w, allowance, rows, cols, sads);
    return a.refusal == refusal && a.macroblocks == 0 && a.comparisons == 0 && marked_from(0);
}

/* What a macroblock makes: the SADs of its diamond, and nine in each refinement. */
static uint32_t made_after(vp8model_diamond d)
{
    return d.sads + 9 + 9;
}

/* The answers are those of the whole-picture search with this limit, for which the single diamonds make so many. */
static int is_as_limit(whole w, uint32_t allowance, uint32_t limit)
{
    static int16_t rows[GUARD + LIST_MOST + GUARD], cols[GUARD + LIST_MOST + GUARD];
    static uint32_t sads[GUARD + LIST_MOST + GUARD];
    uint32_t made = 0;
    w.limit = limit;
    for (size_t i = 0; i < macroblocks_of(w); i++)
        made += made_after(diamond_of(w, i));
    if (!is_searched(w))
        return 0;
    memcpy(rows, mv_rows, sizeof rows);
    memcpy(cols, mv_cols, sizeof cols);
    memcpy(sads, mv_sads, sizeof sads);
    return is_within(w, allowance, made) && memcmp(rows, mv_rows, sizeof rows) == 0
           && memcmp(cols, mv_cols, sizeof cols) == 0 && memcmp(sads, mv_sads, sizeof sads) == 0;
}

/* 19 for each macroblock are limit 0, one less is refused; 261143 for each are limit 65281 and all above. */
static void fewest_and_most_comparisons(void)
{
    static const size_t sides[5][2] = {{1, 1}, {16, 16}, {17, 33}, {33, 17}, {48, 48}};
    for (size_t k = 0; k < 5; k++)
        for (size_t which = 0; which < 16; which += 5)
            for (uint8_t version = 0; version <= 2; version++) {
                whole w = with_strides(sides[k][0], sides[k][1], which, 0, version);
                uint32_t count = (uint32_t)macroblocks_of(w);
                lend_planes(w, 0, 0);
                CHECK(is_not_within(w, 0, count, count, count, 30));
                CHECK(is_not_within(w, 19 * count - 1, count, count, count, 30));
                CHECK(is_within(w, 19 * count, 19 * count) && is_as_limit(w, 19 * count, 0));
                CHECK(is_as_limit(w, 19 * count + 3, 0));
                CHECK(is_as_limit(w, 261143 * count, 65281));
                CHECK(is_as_limit(w, UINT32_MAX, 65281));
                CHECK(is_as_limit(w, UINT32_MAX, 65282));
                CHECK(is_as_limit(w, UINT32_MAX, UINT32_MAX));
            }
}

/* One macroblock is granted all: limit (T - 19) / 4. */
static void one_macroblock_within(void)
{
    static const size_t sides[3][2] = {{16, 16}, {15, 9}, {1, 16}};
    for (size_t k = 0; k < 3; k++)
        for (uint8_t version = 0; version <= 2; version++) {
            whole w = with_strides(sides[k][0], sides[k][1], 10, 0, version);
            lend_planes(w, 0, 0);
            for (uint32_t allowance = 19; allowance <= 103; allowance++)
                CHECK(is_as_limit(w, allowance, (allowance - 19) / 4));
            for (uint32_t less = 0; less < 8; less++)
                CHECK(is_as_limit(w, UINT32_MAX - less, (UINT32_MAX - less - 19) / 4));
        }
}

/* Every entry is what the single calls give with the rounds of its grant, by an account that is kept here. Gives the
 * number of entries that equal shares would not have given. */
static size_t check_account(whole w, uint32_t allowance)
{
    uint32_t count = (uint32_t)macroblocks_of(w), remains = allowance;
    size_t apart = 0;
    vp8model_allowed a = search_within(w, allowance, count, count + 1, count + 2);
    CHECK(a.refusal == 0 && a.macroblocks == count && marked_from(count));
    CHECK(19 * count <= a.comparisons && a.comparisons <= allowance);
    for (uint32_t i = 0; i < count; i++) {
        w.limit = (allowance / count - 19) / 4;
        apart += is_by_single_calls(w, i) ? 0 : 1;
        w.limit = (remains / (count - i) - 19) / 4;
        vp8model_diamond d = diamond_of(w, i);
        CHECK(is_refined(w, i, d));
        remains -= made_after(d);
    }
    CHECK(a.comparisons == allowance - remains);
    return apart;
}

/* Three of twelve allowances for each picture. */
static void allowances_by_account(void)
{
    static const size_t sides[7] = {1, 15, 16, 17, 31, 32, 33};
    size_t all = 0, apart = 0;
    for (size_t size = 0; size < 49; size++)
        for (size_t which = 0; which < 16; which++)
            for (uint8_t version = 0; version <= 2; version++) {
                whole w = with_strides(sides[size % 7], sides[size / 7], which, 0, version);
                uint32_t m = (uint32_t)macroblocks_of(w);
                const uint32_t allowances[12] = {19 * m, 19 * m + 3, 19 * m + 4, 20 * m + 1, 23 * m - 1,
                                                 23 * m, 23 * m + 1, 26 * m + 2, 30 * m - 1, 40 * m,
                                                 100 * m, UINT32_MAX};
                lend_planes(w, 0, 0);
                for (size_t k = 0; k < 3; k++) {
                    all += m;
                    apart += check_account(w, allowances[(size + which + version + 4 * k) % 12]);
                }
            }
    /* some of them get more than an equal share, so that what is left over would show if it were lost */
    CHECK(all < 10 * apart);
}

/* Nine macroblocks, and every allowance from one that gives no rounds to one that gives each eight. */
static void allowances_one_by_one(void)
{
    for (uint8_t version = 0; version <= 2; version++) {
        whole w = with_strides(41, 39, 10, 0, version);
        lend_planes(w, 0, 0);
        for (uint32_t allowance = 9 * 19; allowance <= 9 * (19 + 4 * 8); allowance++)
            check_account(w, allowance);
    }
}

/* The same bytes, by one stride: nothing moves, and a diamond that has a round makes it and stops. */
static void allowances_without_motion(void)
{
    for (uint8_t version = 0; version <= 2; version++) {
        whole w = with_strides(33, 31, 10, 0, version);
        lend_waves(&plane, needed(w.stride, w.width, w.height), 0);
        lend_waves(&source, needed(w.source_stride, w.width, w.height), 0);
        CHECK(is_within(w, UINT32_MAX, 6 * 23) && is_within(w, 6 * 23, 6 * 23));
        /* 137 / 6 = 22 is no round for the first; 118 / 5 = 23 is one for each of the others */
        CHECK(is_within(w, 6 * 23 - 1, 19 + 5 * 23));
        for (size_t i = 0; i < 6; i++)
            CHECK(is_entry(i, 0, 0, 0));
    }
}

/* 48 by 16, all rows alike: 4 x in the plane, and in the source, but that is 40 below it from column 16 on. So the
 * first macroblock stays where it is, and the others cost 40 - 4 c in each sample c columns further left: a round goes
 * one column, and the refinements three quarters more. Turned, the last one stays and the others go to the right. */
static void lend_slope(int turned)
{
    lend_bytes(&plane, 48 * 16, 0);
    lend_bytes(&source, 48 * 16, 0);
    for (size_t i = 0; i < 48 * 16; i++) {
        size_t along = turned ? 47 - i % 48 : i % 48;
        at_bytes(&plane)[i] = (uint8_t)(4 * along);
        at_bytes(&source)[i] = (uint8_t)(4 * along - (along < 16 ? 0 : 40));
    }
    keep_bytes(&plane);
    keep_bytes(&source);
}

/* After so many rounds. */
static int is_walked(size_t i, int rounds, int turned)
{
    int quarters = 4 * rounds + 3;
    return is_entry(i, -3, turned ? quarters : -quarters, (uint32_t)(256 * (40 - quarters)));
}

static void allowances_on_a_slope(void)
{
    for (uint8_t version = 0; version <= 2; version++) {
        const whole w = {48, 16, 48, 48, 0, version};
        lend_slope(0);
        /* granted 33, which gives 3 rounds, of which 1 is made; 77 / 2 = 38: 4 rounds; 77 - 35 = 42: 5 rounds */
        CHECK(is_within(w, 100, 23 + 35 + 39));
        CHECK(is_entry(0, 0, 0, 0) && is_walked(1, 4, 0) && is_walked(2, 5, 0));
        /* 32, 74 / 2 = 37 and 39: nothing remains */
        CHECK(is_within(w, 97, 97) && is_walked(1, 4, 0) && is_walked(2, 5, 0));
        /* 32, 73 / 2 = 36 and 38 */
        CHECK(is_within(w, 96, 23 + 35 + 35) && is_walked(1, 4, 0) && is_walked(2, 4, 0));
        /* ten rounds to the source's place, and one more */
        CHECK(is_within(w, UINT32_MAX, 23 + 63 + 63) && is_entry(1, 0, -40, 0) && is_entry(2, 0, -40, 0));
        lend_slope(1);
        /* 33 and 34 give 3 rounds each; the last makes 23 of 38, and what it leaves is nobody's */
        CHECK(is_within(w, 100, 31 + 31 + 23));
        CHECK(is_walked(0, 3, 1) && is_walked(1, 3, 1) && is_entry(2, 0, 0, 0));
    }
}

/* 272 by 1: x up to 255 in the plane, and 255 in the source. Macroblock i goes 255 - 16 i columns to the right, and
 * one round more. The first then stands at 1020, where the right neighbour is skipped and not counted. Turned, the
 * last goes as far to the left. */
static void allowances_to_the_last_vector(int turned, uint8_t version)
{
    const whole w = {272, 1, 272, 272, 0, version};
    uint32_t made = 23;
    for (uint32_t i = 0; i < 16; i++)
        made += 1 + 4 * (255 - 16 * i) + (i == 0 ? 3 : 4) + 18;
    lend_bytes(&source, 272, 255);
    lend_bytes(&plane, 272, 255);
    for (size_t x = 0; x < 255; x++)
        at_bytes(&plane)[turned ? 271 - x : x] = (uint8_t)x;
    keep_bytes(&plane);
    CHECK(is_within(w, UINT32_MAX, made));
    CHECK(is_entry(turned ? 16 : 0, 0, turned ? -1020 : 1020, 0));
    CHECK(is_entry(turned ? 1 : 15, 0, turned ? -60 : 60, 0));
    CHECK(is_entry(turned ? 0 : 16, 0, 0, 0));
    for (uint32_t share = 1041; share <= 1043; share++)
        check_account(w, 17 * share);
    /* the far ones last: they get what the near ones leave; the far ones first: they leave nothing to gain by */
    CHECK((check_account(w, 17 * 400) > 0) == (turned != 0));
}

/* Each other refusal, at its edge, whatever the allowance: 17 by 33 is 6 macroblocks. */
static void refused_with_allowance(uint32_t allowance)
{
    static const size_t sizes[6][2] = {{0, 33}, {17, 0}, {16384, 33}, {17, 16384}, {SIZE_MAX, 33}, {0, 0}};
    const whole legal = {17, 33, 17, 20, 0, 2};
    whole w = legal;
    lend_planes(legal, 0, 0);
    for (int version = 3; version <= 255; version += 4) {
        w.version = (uint8_t)version;
        CHECK(is_not_within(w, allowance, 6, 6, 6, 23));
    }
    for (int k = 0; k < 6; k++) {
        w = legal;
        w.width = sizes[k][0];
        w.height = sizes[k][1];
        CHECK(is_not_within(w, allowance, 6, 6, 6, 8));
    }
    CHECK(is_not_within(legal, allowance, 5, 6, 6, 15));
    CHECK(is_not_within(legal, allowance, 6, 5, 6, 15));
    CHECK(is_not_within(legal, allowance, 6, 6, 5, 15));
    lend_planes(legal, 1, 0);
    CHECK(is_not_within(legal, allowance, 6, 6, 6, 9));
    lend_planes(legal, 0, 1);
    CHECK(is_not_within(legal, allowance, 6, 6, 6, 14));
    w = legal;
    w.stride = SIZE_MAX;
    lend_planes(legal, 0, 0);
    CHECK(is_not_within(w, allowance, 6, 6, 6, 9));
    w = legal;
    w.source_stride = SIZE_MAX;
    CHECK(is_not_within(w, allowance, 6, 6, 6, 14));
}

static void refused_allowances(void)
{
    static const uint32_t low[4] = {0, 1, 19, 113};
    const whole legal = {17, 33, 17, 20, 0, 2};
    for (int k = 0; k < 4; k++) {
        lend_planes(legal, 0, 0);
        CHECK(is_not_within(legal, low[k], 6, 6, 6, 30));
        refused_with_allowance(low[k]);
    }
    refused_with_allowance(114);
    refused_with_allowance(UINT32_MAX);
    lend_planes(legal, 0, 0);
    CHECK(is_within(legal, 114, 114));
}

/* Any of 23, 8, 9, 14, 15 and 30 at once, a bit of `wrong` for each: the first is given. */
static void allowances_refused_in_order(void)
{
    static const uint32_t order[6] = {23, 8, 9, 14, 15, 30};
    static const size_t sizes[3][2] = {{0, 33}, {17, 0}, {16384, 33}};
    for (unsigned wrong = 1; wrong < 64; wrong++)
        for (unsigned k = 0; k < 3; k++) {
            whole w = {17, 33, 17, 20, 0, 2};
            size_t lengths[3] = {6, 6, 6}, first = 0;
            lend_planes(w, wrong >> 2 & 1, wrong >> 3 & 1);
            if ((wrong & 1) != 0)
                w.version = 3;
            if ((wrong & 2) != 0) {
                w.width = sizes[k][0];
                w.height = sizes[k][1];
            }
            if ((wrong & 16) != 0)
                lengths[k] = 5;
            while ((wrong >> first & 1) == 0)
                first++;
            uint32_t allowance = (wrong & 32) != 0 ? 113 - 50 * k : 114;
            CHECK(is_not_within(w, allowance, lengths[0], lengths[1], lengths[2], order[first]));
        }
}

/* The longest sides: 1024 macroblocks. */
static void longest_pictures_within(void)
{
    whole wide = {16383, 1, 0, 0, 0, 0}, high = {1, 16383, 0, 0, 0, 1};
    lend_planes(wide, 0, 0);
    CHECK(is_not_within(wide, 19 * 1024 - 1, 1024, 1024, 1024, 30));
    CHECK(is_not_within(wide, 19 * 1024 - 1, 1024, 1024, 1023, 15));
    CHECK(is_within(wide, 19 * 1024, 19 * 1024));
    CHECK(check_account(wide, 30 * 1024) > 0);
    lend_planes(high, 0, 0);
    CHECK(is_not_within(high, 19 * 1024 - 1, 1024, 1024, 1024, 30));
    CHECK(is_within(high, 19 * 1024, 19 * 1024));
}

static int curve_has(uint8_t strength, size_t e, uint32_t w)
{
    lend_words(&curve, 256, 99);
    vp8model_curve(strength, at_words(&curve));
    return guarded_words(&curve) && at_words(&curve)[e] == w
           && vp8model_weight(strength, (uint8_t)e) == w;
}

static void weight_curves(void)
{
    CHECK(curve_has(1, 0, 16) && curve_has(1, 4, 8) && curve_has(1, 15, 1) && curve_has(1, 16, 0));
    CHECK(curve_has(6, 4, 15) && curve_has(6, 87, 1) && curve_has(6, 88, 0) && curve_has(6, 255, 0));
    CHECK(curve_has(255, 4, 15) && curve_has(7, 87, 1));
    CHECK(curve_has(0, 0, 0) && all_words(&curve, 0, 256, 0));
    CHECK(vp8model_scale_of(0) == 8);
    CHECK(vp8model_scale_of(1) == 16);
    CHECK(vp8model_scale_of(6) == 512);
    CHECK(vp8model_scale_of(255) == 512);
    CHECK(vp8model_distance_bound(1, 1) == 1);
    CHECK(vp8model_distance_bound(1, 6) == 8);
    CHECK(vp8model_distance_bound(0, 6) == 0);
    CHECK(vp8model_distance_bound(UINT32_MAX, 0) == 0);
    CHECK(vp8model_distance_bound(UINT32_MAX, 6) == 87);
    CHECK(vp8model_arnr_config_new(5) == 5);
    CHECK(vp8model_arnr_config_new(9) == VP8MODEL_MAX_STRENGTH);
    CHECK(vp8model_arnr_config_default() == 3);
    CHECK(vp8model_arnr_config_with_strength(3, 200) == 200);
}

static void frames_as_numbers(void)
{
    const size_t per = VP8MODEL_NUMBERS_PER_FRAME;
    lend_words(&numbers, 2 * per + 7, 0);
    for (uint32_t i = 0; i < numbers.length; i++)
        at_words(&numbers)[i] = 100 + i;
    keep_words(&numbers);
    CHECK(per == 8 && sizeof(vp8model_frame) == per * sizeof(uint32_t));
    for (size_t length = 0; length <= 23; length++)
        CHECK(vp8model_frame_count(at_words(&numbers), length) == (length < 8 ? 0 : length < 16 ? 1 : 2));
    vp8model_frame f = vp8model_frame_at(at_words(&numbers), 23, 1);
    CHECK(f.width == 108 && f.height == 109 && f.y == 110 && f.u == 111 && f.v == 112);
    CHECK(f.luma_stride == 113 && f.chroma_stride == 114 && f.cap == 115);
    /* numbers left over are not read: from the frame count on, the frame of zeros */
    CHECK(is_frame_of_zeros(vp8model_frame_at(at_words(&numbers), 23, 2)));
    CHECK(is_frame_of_zeros(vp8model_frame_at(at_words(&numbers), 15, 1)));
    CHECK(is_frame_of_zeros(vp8model_frame_at(at_words(&numbers), 7, 0)));
    CHECK(is_frame_of_zeros(vp8model_frame_at(at_words(&numbers), 23, SIZE_MAX)));
    CHECK(same_words(&numbers));
    /* a cap is handed out as it is */
    at_words(&numbers)[7] = UINT32_MAX;
    at_words(&numbers)[15] = 17;
    keep_words(&numbers);
    CHECK(vp8model_frame_at(at_words(&numbers), 23, 0).cap == UINT32_MAX);
    CHECK(vp8model_frame_at(at_words(&numbers), 23, 1).cap == 17);
    CHECK(same_words(&numbers));
}

/* P of 16 by 16, and what is lent past it. */
#define P 384
#define PAST 5

/* The cap is 16. */
static void put_frame(size_t g, uint32_t width, uint32_t height, uint32_t y)
{
    const uint32_t eight[8] = {width, height, y, y + 256, y + 320, 16, 8, 16};
    memcpy(at_words(&numbers) + g * VP8MODEL_NUMBERS_PER_FRAME, eight, sizeof eight);
    keep_words(&numbers);
}

static void put_cap(size_t g, uint32_t cap)
{
    at_words(&numbers)[g * VP8MODEL_NUMBERS_PER_FRAME + 7] = cap;
    keep_words(&numbers);
}

/* `count` frames of 16 by 16: the first all 100, the others all `other`, in the same bytes. */
static void lend_window(size_t count, uint8_t other)
{
    lend_bytes(&picture, 2 * P, 100);
    memset(at_bytes(&picture) + P, other, P);
    keep_bytes(&picture);
    lend_words(&numbers, count * VP8MODEL_NUMBERS_PER_FRAME, 0);
    for (size_t g = 0; g < count; g++)
        put_frame(g, 16, 16, g == 0 ? 0 : P);
    lend_bytes(&output, P + PAST, 7);
    lend_words(&sums, P + PAST, 7);
    lend_words(&weights, P + PAST, 7);
}

/* So many numbers more behind those of the frames, each 4294967295. */
static void lend_more_numbers(size_t more)
{
    for (size_t i = 0; i < more; i++)
        at_words(&numbers)[numbers.length + i] = UINT32_MAX;
    numbers.length += more;
    keep_words(&numbers);
}

static void refused_builds(enum builder which)
{
    lend_window(2, 104);
    REFUSES(which, 2, 1, 0, 0, 0, 0, 0);
    lend_window(1025, 104);
    REFUSES(which, 0, 2, 0, 0, 0, 0, 0);
    REFUSES(which, 1025, 1, 0, 0, 0, 0, 0);
    lend_window(2, 104);
    put_frame(0, 0, 16, 0);
    REFUSES(which, 0, 3, 0, 16, 0, 0, 0);
    REFUSES(which, 1, 4, 16, 16, 0, 16, 0);
    put_frame(0, 16, 16384, 0);
    REFUSES(which, 0, 3, 16, 16384, 0, 0, 0);
    lend_window(3, 104);
    put_frame(1, 8, 15, P);
    put_frame(2, 9, 16, P);
    REFUSES(which, 0, 4, 16, 16, 8, 15, 0);
    REFUSES(which, 2, 4, 9, 16, 16, 16, 0);
    lend_window(3, 104);
    put_frame(2, 16, 16, P + 1);
    REFUSES(which, 0, 5, 0, 0, 0, 0, 2);
    put_frame(1, 16, 16, UINT32_MAX - 320);
    REFUSES(which, 0, 5, 0, 0, 0, 0, 1);
    lend_window(2, 104);
    lend_bytes(&output, P - 1, 7);
    REFUSES(which, 0, 6, 0, 0, 0, 0, 0);
    lend_bytes(&output, P, 7);
    lend_words(&sums, P - 1, 7);
    REFUSES(which, 0, 7, 0, 0, 0, 0, 0);
    lend_words(&sums, P, 7);
    lend_words(&weights, P - 1, 7);
    REFUSES(which, 0, 7, 0, 0, 0, 0, 0);
}

/* The first P entries of the three slices, and that those past them are as they were. */
static int is_filled(uint8_t sample, uint32_t sum, uint32_t total)
{
    return all_bytes(&output, 0, P, sample) && all_words(&sums, 0, P, sum)
           && all_words(&weights, 0, P, total) && all_bytes(&output, P, P + PAST, 7)
           && all_words(&sums, P, P + PAST, 7) && all_words(&weights, P, P + PAST, 7)
           && guarded_bytes(&output) && guarded_words(&sums) && guarded_words(&weights);
}

static void accepted_builds(enum builder which)
{
    lend_window(2, 104);
    CHECK(is_build(build(which, 0, 1), 0, 16, 16, 1, 0, 0, 0));
    CHECK(is_filled(101, 2432, 24) && inputs_kept(which));
    /* a difference of 12 weighs 1; at 13 the SAD is 3328 and the block is excluded */
    lend_window(2, 112);
    CHECK(is_build(build(which, 0, 1), 0, 16, 16, 1, 0, 0, 0));
    CHECK(is_filled(101, 1712, 17) && inputs_kept(which));
    lend_window(2, 113);
    CHECK(is_build(build(which, 0, 1), 0, 16, 16, 0, 0, 0, 0));
    CHECK(is_filled(100, 1600, 16) && inputs_kept(which));
    /* a repeat is counted: three other frames */
    lend_window(4, 104);
    CHECK(is_build(build(which, 0, 1), 0, 16, 16, 3, 0, 0, 0));
    CHECK(is_filled(102, 4096, 40) && inputs_kept(which));
    /* the centre is only cropped: strength 0, or one frame */
    lend_window(2, 104);
    CHECK(is_build(build(which, 1, 0), 0, 16, 16, 0, 0, 0, 0));
    CHECK(is_filled(104, 7, 7) && inputs_kept(which));
    lend_window(1, 104);
    CHECK(is_build(build(which, 0, 255), 0, 16, 16, 0, 0, 0, 0));
    CHECK(is_filled(100, 7, 7) && inputs_kept(which));
}

/* 29: a cap of 17 or more, at any frame, the centre among them; `frame` is the lowest. */
static void refused_caps(enum builder which)
{
    static const uint32_t caps[] = {VP8MODEL_MAX_CAP + 1, 32, 256, 65536 + 16, 1u << 31, UINT32_MAX};
    for (uint32_t g = 0; g < 3; g++)
        for (size_t i = 0; i < sizeof caps / sizeof caps[0]; i++)
            for (size_t centre = 0; centre < 3; centre++) {
                lend_window(3, 104);
                put_cap(g, caps[i]);
                REFUSES(which, centre, 29, 0, 0, 0, 0, g);
            }
    lend_window(4, 104);
    put_cap(3, 17);
    put_cap(1, UINT32_MAX);
    put_cap(2, 18);
    REFUSES(which, 0, 29, 0, 0, 0, 0, 1);
    REFUSES(which, 3, 29, 0, 0, 0, 0, 1);
    put_cap(0, 17);
    REFUSES(which, 3, 29, 0, 0, 0, 0, 0);
    lend_window(1024, 104);
    put_cap(1023, 17);
    REFUSES(which, 0, 29, 0, 0, 0, 0, 1023);
    REFUSES(which, 1023, 29, 0, 0, 0, 0, 1023);
    /* also where the centre would only be cropped: one frame, or strength 0 */
    lend_window(1, 104);
    put_cap(0, 17);
    REFUSES(which, 0, 29, 0, 0, 0, 0, 0);
    lend_window(2, 104);
    put_cap(1, 17);
    CHECK(is_build(build(which, 0, 0), 29, 0, 0, 0, 0, 0, 1));
    CHECK(all_kept(which));
}

/* 29 after 1 to 4, whichever frame 4 speaks of, and before 5 to 7. */
static void caps_in_order(enum builder which)
{
    lend_window(3, 104);
    put_cap(1, 17);
    REFUSES(which, 3, 1, 0, 0, 0, 0, 0);
    lend_window(1025, 104);
    put_cap(0, 17);
    REFUSES(which, 0, 2, 0, 0, 0, 0, 0);
    for (size_t g = 0; g < 3; g++) {
        lend_window(3, 104);
        put_frame(0, 16384, 16, 0);
        put_cap(g, 17);
        REFUSES(which, 0, 3, 16384, 16, 0, 0, 0);
        lend_window(3, 104);
        put_frame(2, 8, 15, P);
        put_cap(g, 17);
        REFUSES(which, 0, 4, 16, 16, 8, 15, 0);
    }
    for (uint32_t g = 0; g < 3; g++) {
        lend_window(3, 104);
        put_frame(1, 16, 16, P + 1);
        put_cap(g, 17);
        REFUSES(which, 0, 29, 0, 0, 0, 0, g);
        lend_bytes(&output, P - 1, 7);
        REFUSES(which, 0, 29, 0, 0, 0, 0, g);
        lend_words(&sums, P - 1, 7);
        lend_words(&weights, P - 1, 7);
        REFUSES(which, 0, 29, 0, 0, 0, 0, g);
    }
    put_cap(2, 16);
    REFUSES(which, 0, 5, 0, 0, 0, 0, 1);
}

/* The centre is 100, the other frame `other` with that cap: its block is accepted, and all three slices hold these. */
static void check_capped(enum builder which, uint8_t other, uint8_t strength, uint32_t cap, uint8_t sample,
                         uint32_t sum, uint32_t total)
{
    lend_window(2, other);
    put_cap(1, cap);
    CHECK(is_build(build(which, 0, strength), 0, 16, 16, 1, 0, 0, 0));
    CHECK(is_filled(sample, sum, total) && inputs_kept(which));
}

/* The share is the lesser of the cap and the weight: w(4) is 8 at strength 1 and 15 at 6, w(0) is 16. */
static void capped_builds(enum builder which)
{
    check_capped(which, 104, 1, VP8MODEL_MAX_CAP, 101, 2432, 24);
    check_capped(which, 104, 1, 9, 101, 2432, 24);
    check_capped(which, 104, 1, 8, 101, 2432, 24);
    check_capped(which, 104, 1, 7, 101, 2328, 23);
    check_capped(which, 104, 1, 3, 101, 1912, 19);
    check_capped(which, 104, 1, 1, 100, 1704, 17);
    check_capped(which, 104, 1, 0, 100, 1600, 16);
    check_capped(which, 104, 6, 16, 102, 3160, 31);
    check_capped(which, 104, 6, 15, 102, 3160, 31);
    check_capped(which, 104, 6, 14, 102, 3056, 30);
    check_capped(which, 104, 255, 14, 102, 3056, 30);
    check_capped(which, 100, 3, 16, 100, 3200, 32);
    check_capped(which, 100, 3, 15, 100, 3100, 31);
    check_capped(which, 100, 3, 0, 100, 1600, 16);
    /* an excluded block has no share, whatever the cap, and is not counted */
    for (uint32_t cap = 0; cap <= 16; cap += 8) {
        lend_window(2, 113);
        put_cap(1, cap);
        CHECK(is_build(build(which, 0, 1), 0, 16, 16, 0, 0, 0, 0));
        CHECK(is_filled(100, 1600, 16) && inputs_kept(which));
    }
    /* the centre is only cropped, whatever the caps */
    lend_window(2, 104);
    put_cap(0, 0);
    put_cap(1, 0);
    CHECK(is_build(build(which, 1, 0), 0, 16, 16, 0, 0, 0, 0));
    CHECK(is_filled(104, 7, 7) && inputs_kept(which));
    lend_window(1, 104);
    put_cap(0, 0);
    CHECK(is_build(build(which, 0, 1), 0, 16, 16, 0, 0, 0, 0));
    CHECK(is_filled(100, 7, 7) && inputs_kept(which));
}

/* Three frames, all 100, all 104 and all 108, with these caps: both others' blocks are accepted. */
static void check_three(enum builder which, size_t centre, uint32_t first, uint32_t second, uint32_t third,
                        uint8_t sample, uint32_t sum, uint32_t total)
{
    lend_window(3, 104);
    lend_bytes(&picture, 3 * P, 100);
    memset(at_bytes(&picture) + P, 104, P);
    memset(at_bytes(&picture) + 2 * P, 108, P);
    keep_bytes(&picture);
    put_frame(2, 16, 16, 2 * P);
    put_cap(0, first);
    put_cap(1, second);
    put_cap(2, third);
    CHECK(is_build(build(which, centre, 1), 0, 16, 16, 2, 0, 0, 0));
    CHECK(is_filled(sample, sum, total) && inputs_kept(which));
}

/* Each frame by its own cap, and the centre by none: at strength 1 w(4) is 8 and w(8) is 3. */
static void caps_of_several(enum builder which)
{
    static const uint32_t centre_caps[] = {0, 1, 7, 8, 16};
    for (size_t i = 0; i < sizeof centre_caps / sizeof centre_caps[0]; i++) {
        uint32_t unused = centre_caps[i];
        /* 1600 + 5 * 104 + 2 * 108; 1600 + 2 * 104 + 3 * 108; 1600 + 3 * 108; 1600 + 8 * 104 + 3 * 108 */
        check_three(which, 0, unused, 5, 2, 102, 2336, 23);
        check_three(which, 0, unused, 2, 5, 102, 2132, 21);
        check_three(which, 0, unused, 0, 4, 101, 1924, 19);
        check_three(which, 0, unused, 16, 16, 102, 2756, 27);
        /* 16 * 104 + 6 * 100 + 1 * 108; 16 * 104 */
        check_three(which, 1, 6, unused, 1, 103, 2372, 23);
        check_three(which, 1, 0, unused, 0, 104, 1664, 16);
        /* 16 * 108 + 1 * 100 + 7 * 104 */
        check_three(which, 2, 1, 7, unused, 107, 2556, 24);
    }
    /* records that differ in the cap alone are two frames, also where one is the centre: shares of 7 and 3, of 5 */
    lend_window(3, 104);
    put_cap(1, 7);
    put_cap(2, 3);
    CHECK(is_build(build(which, 0, 1), 0, 16, 16, 2, 0, 0, 0));
    CHECK(is_filled(102, 2640, 26) && inputs_kept(which));
    lend_window(2, 104);
    put_frame(1, 16, 16, 0);
    put_cap(1, 5);
    CHECK(is_build(build(which, 0, 1), 0, 16, 16, 1, 0, 0, 0));
    CHECK(is_filled(100, 2100, 21) && inputs_kept(which));
}

/* One to seven numbers behind the last frame are not read: a frame that began with them would be refused. */
static void leftover_numbers(enum builder which)
{
    for (size_t more = 1; more < VP8MODEL_NUMBERS_PER_FRAME; more++) {
        lend_window(2, 104);
        put_cap(1, 7);
        lend_more_numbers(more);
        CHECK(is_build(build(CHECKS_ONLY, 0, 1), 0, 16, 16, 0, 0, 0, 0));
        CHECK(all_kept(CHECKS_ONLY));
        REFUSES(which, 2, 1, 0, 0, 0, 0, 0);
        CHECK(is_build(build(which, 0, 1), 0, 16, 16, 1, 0, 0, 0));
        CHECK(is_filled(101, 2328, 23) && inputs_kept(which));
        lend_window(0, 104);
        lend_more_numbers(more);
        REFUSES(CHECKS_ONLY, 0, 1, 0, 0, 0, 0, 0);
        REFUSES(which, 0, 1, 0, 0, 0, 0, 0);
        /* 1025 * 8 - 1 numbers are 1024 frames */
        lend_window(1024, 104);
        lend_more_numbers(more);
        CHECK(is_build(build(CHECKS_ONLY, 1023, 1), 0, 16, 16, 0, 0, 0, 0));
        REFUSES(which, 1024, 1, 0, 0, 0, 0, 0);
        lend_window(1025, 104);
        lend_more_numbers(more);
        REFUSES(CHECKS_ONLY, 0, 2, 0, 0, 0, 0, 0);
        REFUSES(which, 0, 2, 0, 0, 0, 0, 0);
    }
}

static void caps(void)
{
    for (int which = CHECKS_ONLY; which <= LAST_BUILDER; which++) {
        refused_caps((enum builder)which);
        caps_in_order((enum builder)which);
    }
    for (int which = FROM_NUMBERS; which <= LAST_BUILDER; which++) {
        capped_builds((enum builder)which);
        caps_of_several((enum builder)which);
    }
}

/* The checks alone: legal sizes, and the limits 16383 and 1024. */
static void legal_checks(void)
{
    lend_window(2, 104);
    CHECK(is_build(build(CHECKS_ONLY, 1, 0), 0, 16, 16, 0, 0, 0, 0));
    CHECK(all_kept(CHECKS_ONLY));
    lend_window(1024, 104);
    CHECK(is_build(build(CHECKS_ONLY, 1023, 0), 0, 16, 16, 0, 0, 0, 0));
    CHECK(all_kept(CHECKS_ONLY));
    lend_window(1, 104);
    lend_bytes(&picture, 32767, 1);
    lend_bytes(&output, 32767, 7);
    lend_words(&sums, 32767, 7);
    lend_words(&weights, 32767, 7);
    const uint32_t wide[8] = {16383, 1, 0, 16383, 24575, 16383, 8192, 16};
    memcpy(at_words(&numbers), wide, sizeof wide);
    keep_words(&numbers);
    CHECK(is_build(build(CHECKS_ONLY, 0, 0), 0, 16383, 1, 0, 0, 0, 0));
    CHECK(all_kept(CHECKS_ONLY));
}

/* Any of 1, 2, 3, 4, 29, 5, 6 and 7 at once, a bit of `wrong` for each: the first is given, with its values. */
static void builds_refused_in_order(enum builder which)
{
    static const uint32_t order[8] = {1, 2, 3, 4, 29, 5, 6, 7};
    for (unsigned wrong = 1; wrong < 256; wrong++) {
        size_t count = (wrong & 2) != 0 ? 1025 : 3;
        uint32_t values[8][5] = {{0}, {0}, {0, 16}, {16, 16, 9, 16}, {0, 0, 0, 0, 1}, {0, 0, 0, 0, 1}, {0}, {0}};
        size_t first = 0;
        lend_window(count, 104);
        if ((wrong & 4) != 0)
            put_frame(0, 0, 16, 0);
        if ((wrong & 8) != 0)
            put_frame(2, 9, 16, P);
        if ((wrong & 32) != 0)
            put_frame(1, 16, 16, P + 1);
        if ((wrong & 16) != 0)
            put_cap(1, 17);
        if ((wrong & 64) != 0)
            lend_bytes(&output, P - 1, 7);
        if ((wrong & 128) != 0)
            lend_words(wrong % 3 == 0 ? &sums : &weights, P - 1, 7);
        while ((wrong >> first & 1) == 0)
            first++;
        const uint32_t *v = values[first];
        REFUSES(which, (wrong & 1) != 0 ? count : 0, order[first], v[0], v[1], v[2], v[3], v[4]);
    }
}

/* Half samples, and acceptance on three planes. A builder by the definitions, sample by sample: the judge of both rules
 * for U and V, with Y alone asked of a block and with all three planes. */

/* A plane of a frame: its first byte, its stride and its sides. */
typedef struct samples {
    const uint8_t *first;
    int stride, columns, rows;
} samples;

static samples plane_of(size_t g, int k)
{
    const uint32_t *n = at_words(&numbers) + g * VP8MODEL_NUMBERS_PER_FRAME;
    int width = (int)n[0], height = (int)n[1];
    samples p = {at_bytes(&picture) + n[2 + k], (int)n[k == 0 ? 5 : 6], k == 0 ? width : (width + 1) / 2,
                 k == 0 ? height : (height + 1) / 2};
    return p;
}

/* Outside the plane, the nearest edge sample. */
static int sample_at(samples p, int x, int y)
{
    int column = x < 0 ? 0 : x < p.columns ? x : p.columns - 1;
    int row = y < 0 ? 0 : y < p.rows ? y : p.rows - 1;
    return p.first[row * p.stride + column];
}

/* A displacement of a block, and its SAD. */
typedef struct displacement {
    int dx, dy;
    uint32_t sad;
} displacement;

/* The SAD of the block that begins at (x0, y0). */
static displacement measured(samples centre, samples other, int x0, int y0, int dx, int dy)
{
    displacement d = {dx, dy, 0};
    for (int y = y0; y < y0 + 16 && y < centre.rows; y++)
        for (int x = x0; x < x0 + 16 && x < centre.columns; x++) {
            int difference = sample_at(centre, x, y) - sample_at(other, x + dx, y + dy);
            d.sad += (uint32_t)(difference < 0 ? -difference : difference);
        }
    return d;
}

static displacement block_search(samples centre, samples other, int x0, int y0)
{
    displacement best = measured(centre, other, x0, y0, 0, 0);
    for (int step = 8; step > 0; step /= 2) {
        displacement from = best;
        for (int place = 0; place < 9; place++) {
            if (place == 4)
                continue;
            displacement d = measured(centre, other, x0, y0, from.dx + (place % 3 - 1) * step,
                                      from.dy + (place / 3 - 1) * step);
            if (d.sad < best.sad)
                best = d;
        }
    }
    return best;
}

/* One pass: row 4 for an odd component, row 0 for an even one. */
static int passed(int component, const int six[6])
{
    static const int taps[2][6] = {{0, 0, 128, 0, 0, 0}, {3, -16, 77, 77, -16, 3}};
    int sum = 64;
    for (int k = 0; k < 6; k++)
        sum += taps[component % 2 != 0][k] * six[k];
    return sum < 0 ? 0 : sum / 128 < 255 ? sum / 128 : 255;
}

/* Components are -15 to 15. */
static int half_down(int component)
{
    return (component + 16) / 2 - 8;
}

static int half_sample(samples p, int x, int y, displacement d)
{
    int six[6], down[6];
    x += half_down(d.dx);
    y += half_down(d.dy);
    if (d.dx % 2 == 0 && d.dy % 2 == 0)
        return sample_at(p, x, y);
    for (int r = 0; r < 6; r++) {
        for (int c = 0; c < 6; c++)
            six[c] = sample_at(p, x - 2 + c, y - 2 + r);
        down[r] = passed(d.dx, six);
    }
    return passed(d.dy, down);
}

/* The rules for the displaced sample in U and V. */
enum chroma { WHOLE, HALF };

static int displaced_sample(enum chroma rule, int k, samples p, int x, int y, displacement d)
{
    if (k == 0)
        return sample_at(p, x + d.dx, y + d.dy);
    return rule == HALF ? half_sample(p, x, y, d) : sample_at(p, x + d.dx / 2, y + d.dy / 2);
}

/* The window that is lent, and what a search finds in it. */
#define BLOCKS_MOST 9
#define COUNT_MOST 4

typedef struct window {
    int width, height;
    size_t count, centre;
    uint8_t strength;
    displacement found[COUNT_MOST][BLOCKS_MOST];
    /* by either rule for U and V, the planes that pass: bit k for plane k */
    unsigned passing[2][COUNT_MOST][BLOCKS_MOST];
} window;

static window window_of(int width, int height, size_t count, size_t centre, uint8_t strength)
{
    window w;
    memset(&w, 0, sizeof w);
    w.width = width;
    w.height = height;
    w.count = count;
    w.centre = centre;
    w.strength = strength;
    return w;
}

static int block_columns(const window *w)
{
    return (w->width + 15) / 16;
}

static int blocks_of(const window *w)
{
    return block_columns(w) * ((w->height + 15) / 16);
}

static int is_cropped(const window *w)
{
    return w->count == 1 || w->strength == 0;
}

/* What a block covers in a plane. */
typedef struct part {
    int x0, y0, columns, rows;
} part;

static part part_of(const window *w, int b, int k)
{
    int x0 = 16 * (b % block_columns(w)), y0 = 16 * (b / block_columns(w));
    int columns = w->width - x0 < 16 ? w->width - x0 : 16, rows = w->height - y0 < 16 ? w->height - y0 : 16;
    const part luma = {x0, y0, columns, rows}, chroma = {x0 / 2, y0 / 2, (columns + 1) / 2, (rows + 1) / 2};
    return k == 0 ? luma : chroma;
}

/* The SAD of a plane is below 13 times the samples that the block has there. */
static int passes(enum chroma by, const window *w, size_t g, int b, int k)
{
    const part p = part_of(w, b, k);
    int sad = 0;
    for (int i = 0; i < p.columns * p.rows; i++) {
        int x = p.x0 + i % p.columns, y = p.y0 + i / p.columns;
        int difference = sample_at(plane_of(w->centre, k), x, y)
                         - displaced_sample(by, k, plane_of(g, k), x, y, w->found[g][b]);
        sad += difference < 0 ? -difference : difference;
    }
    return sad < 13 * p.columns * p.rows;
}

static void search_block(window *w, size_t g, int b)
{
    const part p = part_of(w, b, 0);
    w->found[g][b] = block_search(plane_of(w->centre, 0), plane_of(g, 0), p.x0, p.y0);
    for (int by = WHOLE; by <= HALF; by++) {
        w->passing[by][g][b] = 0;
        for (int k = 0; k < 3; k++)
            w->passing[by][g][b] |= (unsigned)passes((enum chroma)by, w, g, b, k) << k;
    }
}

static void search_window(window *w)
{
    for (size_t g = 0; g < w->count; g++)
        for (int b = 0; b < blocks_of(w) && g != w->centre; b++)
            search_block(w, g, b);
}

/* What a builder goes by: the displaced sample in U and V, and the planes that are asked of a block, the first alone or
 * the first three. */
typedef struct rule {
    enum chroma chroma;
    unsigned planes;
} rule;

/* The centre's block is none, nor is one that a plane excludes. */
static int is_accepted(rule r, const window *w, size_t g, int b)
{
    unsigned asked = (1u << r.planes) - 1;
    return g != w->centre && (w->passing[r.chroma][g][b] & asked) == asked;
}

static uint32_t count_accepted(rule r, const window *w)
{
    uint32_t count = 0;
    for (size_t g = 0; g < w->count && !is_cropped(w); g++)
        for (int b = 0; b < blocks_of(w); b++)
            count += (uint32_t)is_accepted(r, w, g, b);
    return count;
}

/* What the slices hold, and the accepted blocks. */
#define PACKED_MOST (48 * 48 * 3 / 2)

typedef struct held {
    uint8_t output[PACKED_MOST + PAST];
    uint32_t sums[PACKED_MOST + PAST], weights[PACKED_MOST + PAST];
    uint32_t accepted;
} held;

/* Where a plane begins in them; where plane 3 would, is P. */
static size_t packed_start(const window *w, int k)
{
    int luma = w->width * w->height, chroma = (w->width + 1) / 2 * ((w->height + 1) / 2);
    return (size_t)(k == 0 ? 0 : luma + (k - 1) * chroma);
}

/* The lesser of the cap and the weight of the difference. */
static uint32_t share_of(const window *w, size_t g, int moved, int centre)
{
    uint32_t cap = at_words(&numbers)[g * VP8MODEL_NUMBERS_PER_FRAME + 7];
    uint32_t scale = 8u << (w->strength < 6 ? w->strength : 6);
    uint32_t square = (uint32_t)((moved - centre) * (moved - centre));
    uint32_t weight = 16 * scale / (scale + square);
    return weight < cap ? weight : cap;
}

static void expect_sample(rule r, const window *w, int k, int x, int y, held *h)
{
    int unit = k == 0 ? 16 : 8, b = y / unit * block_columns(w) + x / unit;
    samples centre = plane_of(w->centre, k);
    int m = sample_at(centre, x, y);
    size_t i = packed_start(w, k) + (size_t)(y * centre.columns + x);
    uint32_t sum = 16 * (uint32_t)m, total = 16;
    for (size_t g = 0; g < w->count; g++)
        if (is_accepted(r, w, g, b)) {
            int moved = displaced_sample(r.chroma, k, plane_of(g, k), x, y, w->found[g][b]);
            uint32_t share = share_of(w, g, moved, m);
            sum += share * (uint32_t)moved;
            total += share;
        }
    h->output[i] = (uint8_t)(is_cropped(w) ? (uint32_t)m : (sum + total / 2) / total);
    h->sums[i] = is_cropped(w) ? 7 : sum;
    h->weights[i] = is_cropped(w) ? 7 : total;
}

static void expect_window(rule r, const window *w, held *h)
{
    h->accepted = count_accepted(r, w);
    for (int k = 0; k < 3; k++) {
        samples p = plane_of(w->centre, k);
        for (int i = 0; i < p.columns * p.rows; i++)
            expect_sample(r, w, k, i % p.columns, i / p.columns, h);
    }
    for (size_t i = packed_start(w, 3); i < packed_start(w, 3) + PAST; i++) {
        h->output[i] = 7;
        h->sums[i] = 7;
        h->weights[i] = 7;
    }
}

/* What a builder gives of the window. */
static void build_window(enum builder which, const window *w, held *h)
{
    size_t length = packed_start(w, 3) + PAST;
    lend_bytes(&output, length, 7);
    lend_words(&sums, length, 7);
    lend_words(&weights, length, 7);
    vp8model_build b = build(which, w->centre, w->strength);
    CHECK(is_build(b, 0, (uint32_t)w->width, (uint32_t)w->height, b.accepted, 0, 0, 0));
    CHECK(inputs_kept(which) && guarded_bytes(&output) && guarded_words(&sums) && guarded_words(&weights));
    memcpy(h->output, at_bytes(&output), length);
    memcpy(h->sums, at_words(&sums), length * sizeof h->sums[0]);
    memcpy(h->weights, at_words(&weights), length * sizeof h->weights[0]);
    h->accepted = b.accepted;
}

/* The entries from `from` to `to` of all three slices are the same. */
static int same_held(const held *a, const held *b, size_t from, size_t to)
{
    return memcmp(a->output + from, b->output + from, to - from) == 0
           && memcmp(a->sums + from, b->sums + from, (to - from) * sizeof a->sums[0]) == 0
           && memcmp(a->weights + from, b->weights + from, (to - from) * sizeof a->weights[0]) == 0;
}

/* What was met: blocks accepted on luma by their displacement; windows in which U and V of the two rules have to be the
 * same, since every component is even or the centre is only cropped; those in which U, and V, are not. */
static unsigned met[31][31], met_even, met_cropped, met_other_u, met_other_v;

/* By either rule: blocks by the planes that pass; windows in which three planes accept what luma accepts, and those in
 * which they accept nothing of it; blocks that pass on three planes by this rule alone. */
static unsigned met_passing[2][8], met_none_less[2], met_none_left[2], met_by_one[2];

static int all_even(const window *w)
{
    for (size_t g = 0; g < w->count; g++)
        for (int b = 0; b < blocks_of(w); b++)
            if (w->found[g][b].dx % 2 != 0 || w->found[g][b].dy % 2 != 0)
                return 0;
    return 1;
}

static void meet(const window *w, const held *by_whole, const held *by_half)
{
    static const rule luma = {WHOLE, 1};
    const size_t u = packed_start(w, 1), v = packed_start(w, 2), end = packed_start(w, 3);
    for (size_t g = 0; g < w->count && !is_cropped(w); g++)
        for (int b = 0; b < blocks_of(w); b++)
            if (is_accepted(luma, w, g, b))
                met[15 + w->found[g][b].dy][15 + w->found[g][b].dx]++;
    met_cropped += is_cropped(w) ? 1 : 0;
    met_even += !is_cropped(w) && all_even(w) ? 1 : 0;
    met_other_u += same_held(by_whole, by_half, u, v) ? 0 : 1;
    met_other_v += same_held(by_whole, by_half, v, end) ? 0 : 1;
}

static void meet_planes(const window *w, enum chroma by)
{
    const rule luma = {by, 1}, three = {by, 3};
    uint32_t of_luma = count_accepted(luma, w), of_three = count_accepted(three, w);
    for (size_t g = 0; g < w->count && !is_cropped(w); g++)
        for (int b = 0; b < blocks_of(w) && g != w->centre; b++) {
            met_passing[by][w->passing[by][g][b]]++;
            met_by_one[by] += w->passing[by][g][b] == 7 && w->passing[1 - by][g][b] != 7 ? 1 : 0;
        }
    met_none_less[by] += of_luma > 0 && of_three == of_luma ? 1 : 0;
    met_none_left[by] += of_luma > 0 && of_three == 0 ? 1 : 0;
}

/* The centre weighs alone: each total is 16, each sum 16 times its sample, and the picture is the centre. */
static int is_without_shares(const window *w, const held *h)
{
    for (int k = 0; k < 3; k++) {
        samples p = plane_of(w->centre, k);
        for (int i = 0; i < p.columns * p.rows; i++) {
            size_t at = packed_start(w, k) + (size_t)i;
            uint32_t m = (uint32_t)sample_at(p, i % p.columns, i / p.columns);
            if (h->output[at] != m || h->sums[at] != 16 * m || h->weights[at] != 16)
                return 0;
        }
    }
    return 1;
}

/* The call that asks three planes beside the one that asks luma alone, with one rule for U and V. */
static void check_beside(const window *w, enum chroma by, const held *of_luma, const held *of_three)
{
    CHECK(of_three->accepted <= of_luma->accepted);
    if (of_three->accepted == of_luma->accepted)
        CHECK(same_held(of_luma, of_three, 0, packed_start(w, 3) + PAST));
    if (of_three->accepted == 0 && !is_cropped(w))
        CHECK(is_without_shares(w, of_three));
    meet_planes(w, by);
}

/* Each call as the judge has it, and all beside one another. */
static void check_window(window *w)
{
    static const enum builder luma[2] = {FROM_NUMBERS, HALF_SAMPLE}, three[2] = {THREE_PLANES, THREE_HALF};
    static held expected, of_luma[2], of_three[2], of_records;
    size_t all = packed_start(w, 3) + PAST;
    search_window(w);
    for (int by = WHOLE; by <= HALF; by++) {
        const rule one = {(enum chroma)by, 1}, each = {(enum chroma)by, 3};
        build_window(luma[by], w, &of_luma[by]);
        expect_window(one, w, &expected);
        CHECK(same_held(&expected, &of_luma[by], 0, all) && expected.accepted == of_luma[by].accepted);
        build_window(three[by], w, &of_three[by]);
        expect_window(each, w, &expected);
        CHECK(same_held(&expected, &of_three[by], 0, all) && expected.accepted == of_three[by].accepted);
        check_beside(w, (enum chroma)by, &of_luma[by], &of_three[by]);
    }
    build_window(HALF_OF_RECORDS, w, &of_records);
    CHECK(same_held(&of_luma[HALF], &of_records, 0, all) && of_luma[HALF].accepted == of_records.accepted);
    build_window(THREE_HALF_OF_RECORDS, w, &of_records);
    CHECK(same_held(&of_three[HALF], &of_records, 0, all) && of_three[HALF].accepted == of_records.accepted);
    CHECK(same_held(&of_luma[WHOLE], &of_luma[HALF], 0, packed_start(w, 1))
          && of_luma[WHOLE].accepted == of_luma[HALF].accepted);
    if (is_cropped(w) || all_even(w)) {
        CHECK(same_held(&of_luma[WHOLE], &of_luma[HALF], 0, all));
        CHECK(same_held(&of_three[WHOLE], &of_three[HALF], 0, all));
    }
    meet(w, &of_luma[WHOLE], &of_luma[HALF]);
}

/* Numbers below `below`, the same ones in every run. */
static uint32_t drawn(uint32_t below)
{
    static uint32_t state = 6;
    state = state * 1664525 + 1013904223;
    return (state >> 8) % below;
}

/* 0 to 255, or 0 and 255 alone. */
static uint8_t drawn_sample(int extremes)
{
    return (uint8_t)(extremes ? 255 * drawn(2) : drawn(256));
}

/* Frames of these strides, one behind the other, with every cap 16. */
static void lend_frames(const window *w, uint32_t luma_stride, uint32_t chroma_stride)
{
    uint32_t width = (uint32_t)w->width, height = (uint32_t)w->height;
    uint32_t luma = (uint32_t)needed(luma_stride, width, height);
    uint32_t chroma = (uint32_t)needed(chroma_stride, (width + 1) / 2, (height + 1) / 2);
    lend_bytes(&picture, w->count * (luma + 2 * chroma), 0);
    lend_words(&numbers, w->count * VP8MODEL_NUMBERS_PER_FRAME, 0);
    for (uint32_t g = 0; g < w->count; g++) {
        uint32_t y = g * (luma + 2 * chroma);
        const uint32_t eight[8] = {width, height, y, y + luma, y + luma + chroma, luma_stride, chroma_stride, 16};
        memcpy(at_words(&numbers) + g * VP8MODEL_NUMBERS_PER_FRAME, eight, sizeof eight);
    }
    keep_words(&numbers);
}

static void put_sample(size_t g, int k, int x, int y, uint8_t sample)
{
    const uint32_t *n = at_words(&numbers) + g * VP8MODEL_NUMBERS_PER_FRAME;
    at_bytes(&picture)[n[2 + k] + (uint32_t)y * n[k == 0 ? 5 : 6] + (uint32_t)x] = sample;
}

/* 0 at x = 24 and 64 sixteen samples from there on either side, and so on. */
static int wave(int x)
{
    int along = (x + 40) % 32 - 16;
    return 64 - 4 * (along < 0 ? -along : along);
}

/* Frame 0 is the centre, and frame 1 its Y moved by (dx, dy): the middle block of nine finds it there, where the
 * samples that it reads are not at the edge. The cost of a displacement rises with the larger of its two distances. */
static window lend_moved(int dx, int dy, uint8_t strength)
{
    window w = window_of(48, 48, 2, 0, strength);
    lend_frames(&w, 48, 24);
    for (int y = 0; y < 48; y++)
        for (int x = 0; x < 48; x++) {
            put_sample(0, 0, x, y, (uint8_t)(60 + wave(x) + wave(y)));
            put_sample(1, 0, x, y, (uint8_t)(60 + wave(x - dx) + wave(y - dy)));
        }
    keep_bytes(&picture);
    return w;
}

/* The displaced sample of the only other frame, where it has a share: what is left of the sum, by what is left of the
 * total. */
static int is_displaced(const window *w, const held *h, int k, int x, int y, uint32_t sample)
{
    samples centre = plane_of(w->centre, k);
    size_t i = packed_start(w, k) + (size_t)(y * centre.columns + x);
    uint32_t share = h->weights[i] - 16;
    return share > 0 && h->sums[i] == 16 * (uint32_t)sample_at(centre, x, y) + share * sample;
}

/* U of the other frame is 255 at (11, 11) and (12, 11), V at (9, 13) and (10, 13), and 0 everywhere else; the centre's
 * U and V are `centre`. At (11, 11) of U and (9, 13) of V the displaced sample is `sample`. */
static void check_pair(int dx, int dy, uint8_t centre, uint32_t sample)
{
    static held h;
    window w = lend_moved(dx, dy, 6);
    for (int k = 1; k <= 2; k++) {
        for (int i = 0; i < 24 * 24; i++)
            put_sample(0, k, i % 24, i / 24, centre);
        for (int i = 0; i < 2; i++)
            put_sample(1, k, k == 1 ? 11 + i : 9 + i, k == 1 ? 11 : 13, 255);
    }
    keep_bytes(&picture);
    build_window(HALF_SAMPLE, &w, &h);
    CHECK(is_displaced(&w, &h, 1, 11, 11, sample));
    CHECK(is_displaced(&w, &h, 2, 9, 13, sample));
}

/* U rises by 4 from column to column, V from row to row: half a sample is 2, so that any component d moves by 2 d; by
 * the old rule half of d toward zero moves by 4 times that. */
static void check_component(int d)
{
    static held h;
    for (int turned = 0; turned < 2; turned++) {
        window w = lend_moved(turned ? 0 : d, turned ? d : 0, 6);
        for (int i = 0; i < 24 * 24; i++)
            for (size_t g = 0; g < 2; g++) {
                put_sample(g, 1, i % 24, i / 24, (uint8_t)(60 + 4 * (i % 24)));
                put_sample(g, 2, i % 24, i / 24, (uint8_t)(60 + 4 * (i / 24)));
            }
        keep_bytes(&picture);
        int k = turned ? 2 : 1, x = turned ? 9 : 12, y = turned ? 12 : 9;
        build_window(HALF_SAMPLE, &w, &h);
        CHECK(is_displaced(&w, &h, k, x, y, (uint32_t)(60 + 48 + 2 * d)));
        CHECK(is_displaced(&w, &h, 3 - k, x, y, 60 + 36));
        build_window(FROM_NUMBERS, &w, &h);
        CHECK(is_displaced(&w, &h, k, x, y, (uint32_t)(60 + 48 + d / 2 * 4)));
    }
}

static void half_samples_by_hand(void)
{
    /* across 0 0 255 255 0 0: 39270 + 64 is 307 times 128 and more, 255; down 0 0 255 0 0 0: 19635 + 64, 153 */
    check_pair(1, 0, 200, 255);
    check_pair(0, 1, 150, 153);
    check_pair(1, 1, 150, 153);
    /* a column further left, 0 0 0 255 255 0: 61 * 255 = 15555, 122; then 77 * 122 = 9394, 73 */
    check_pair(-1, 0, 150, 122);
    check_pair(-1, 1, 50, 73);
    check_pair(-1, -1, 50, 73);
    check_pair(0, -1, 150, 153);
    /* 3 for the first of two, -16 for the second: below 0; one column on, 3 * 255 = 765, 6 */
    check_pair(5, 0, 10, 0);
    check_pair(7, 0, 10, 6);
    check_pair(-3, 0, 10, 0);
    check_pair(-5, 0, 10, 6);
    check_pair(2, 0, 200, 255);
    check_pair(-2, 0, 10, 0);
    for (int d = -15; d <= 15; d++)
        check_component(d);
}

/* Every displacement of the middle block; U and V of both frames are noise: of all samples, or so mild that one of the
 * two passes, and the other does by turns. */
static void moved_window(int dx, int dy, int mild)
{
    window w = lend_moved(dx, dy, 6);
    for (size_t g = 0; g < 2; g++)
        for (int i = 0; i < 2 * 24 * 24; i++) {
            uint32_t reach = (dx + dy + 30 + i) % 2 == 0 ? 24 : 24 + 8 * (uint32_t)((dx + 15) % 4);
            put_sample(g, 1 + i % 2, i / 2 % 24, i / 48,
                       mild ? (uint8_t)(90 + drawn(reach)) : drawn_sample(g == 1 && dx % 3 == 0));
        }
    keep_bytes(&picture);
    check_window(&w);
    CHECK(w.found[1][4].dx == dx && w.found[1][4].dy == dy && w.found[1][4].sad == 0);
}

static void moved_windows(void)
{
    for (int dy = -15; dy <= 15; dy++)
        for (int dx = -15; dx <= 15; dx++) {
            moved_window(dx, dy, 0);
            moved_window(dx, dy, 1);
        }
}

/* The bytes of a plane, those between its rows too, are 90 and up to so many more. */
static void put_noise(size_t g, int k, uint32_t reach)
{
    samples p = plane_of(g, k);
    uint32_t first = at_words(&numbers)[g * VP8MODEL_NUMBERS_PER_FRAME + 2 + (size_t)k];
    for (size_t i = 0; i < needed((size_t)p.stride, (size_t)p.columns, (size_t)p.rows); i++)
        at_bytes(&picture)[first + i] = (uint8_t)(90 + drawn(reach));
}

/* One to four frames of noise, so small in Y that most blocks pass there, wherever they are found. In U and V it is of
 * all samples; or mild, with a reach at which a plane passes always, by turns or never: two samples differ by a third
 * of it on average. */
static void check_noise(int width, int height, unsigned n, int mild)
{
    static const uint8_t strengths[8] = {6, 1, 3, 255, 0, 5, 2, 4};
    static const uint32_t reaches[8] = {39, 12, 36, 42, 30, 39, 60, 40};
    const uint32_t columns = (uint32_t)width, half_columns = (columns + 1) / 2;
    const uint32_t luma_strides[4] = {columns, columns + 3, columns - 1, 0};
    const uint32_t chroma_strides[5] = {half_columns, half_columns + 2, half_columns - 1, 1, 0};
    size_t count = 1 + (n + 2) % 4;
    window w = window_of(width, height, count, n % count, strengths[n % 8]);
    lend_frames(&w, luma_strides[n % 7 < 4 ? 0 : n % 7 - 3], chroma_strides[n % 9 < 5 ? 0 : n % 9 - 4]);
    for (size_t i = 0; i < picture.length; i++)
        at_bytes(&picture)[i] = drawn_sample(n % 3 == 0);
    for (size_t g = 0; g < count; g++) {
        put_noise(g, 0, n % 5 == 4 ? 60 : 24);
        if (mild) {
            put_noise(g, 1, reaches[n / 4 % 8]);
            put_noise(g, 2, reaches[n / 32 % 8]);
        }
        if (n % 2 == 0)
            put_cap(g, drawn(VP8MODEL_MAX_CAP + 1));
    }
    keep_bytes(&picture);
    check_window(&w);
}

static void windows_of_noise(int mild)
{
    static const int sides[12] = {1, 2, 3, 4, 15, 16, 17, 18, 31, 32, 33, 34};
    unsigned n = 0;
    for (int i = 0; i < 144; i++)
        for (int times = 0; times < 4; times++)
            check_noise(sides[i % 12], sides[i / 12], n++, mild);
}

/* Acceptance on three planes. */

/* A sample by its place in the plane, row by row. */
static void put_nth(size_t g, int k, int i, int sample)
{
    int columns = plane_of(g, k).columns;
    put_sample(g, k, i % columns, i / columns, (uint8_t)sample);
}

/* Two frames of one block, both 100 in every sample, but that in plane k, which is U or V, the differences add up to
 * `sad`: spread over all samples, or 100 in each of the first ones. Nothing moves, so that both rules copy them. Where
 * the block is accepted, Y weighs 32. */
static void check_sum(int width, int height, int k, int sad, int spread, uint32_t accepted)
{
    static const enum builder which[4] = {THREE_PLANES, THREE_OF_RECORDS, THREE_HALF, THREE_HALF_OF_RECORDS};
    static held h;
    window w = window_of(width, height, 2, 0, 1);
    int area = (width + 1) / 2 * ((height + 1) / 2);
    lend_frames(&w, (uint32_t)width, (uint32_t)(width + 1) / 2);
    memset(at_bytes(&picture), 100, picture.length);
    for (int i = 0, left = sad; i < area; i++) {
        int most = spread ? (left + area - i - 1) / (area - i) : 100, difference = left < most ? left : most;
        put_nth(1, k, i, i % 2 == 0 ? 100 + difference : 100 - difference);
        left -= difference;
    }
    keep_bytes(&picture);
    for (int i = 0; i < 4; i++) {
        build_window(which[i], &w, &h);
        CHECK(h.accepted == accepted);
        CHECK(h.weights[0] == (accepted != 0 ? 32 : 16) && h.sums[0] == 100 * h.weights[0] && h.output[0] == 100);
        CHECK(accepted != 0 || is_without_shares(&w, &h));
    }
    build_window(FROM_NUMBERS, &w, &h);
    CHECK(h.accepted == 1);
}

/* The greatest sum that passes in U and in V: 13 times their samples, less 1. */
static void sums_by_hand(void)
{
    static const int most[13][3] = {{1, 1, 12},    {2, 1, 12},    {2, 2, 12},   {3, 1, 25},   {3, 3, 51},
                                    {4, 4, 51},    {8, 8, 207},   {1, 16, 103}, {2, 15, 103}, {16, 1, 103},
                                    {15, 15, 831}, {16, 16, 831}, {16, 13, 727}};
    for (int i = 0; i < 13; i++)
        for (int k = 1; k <= 2; k++)
            for (int spread = 0; spread < 2; spread++) {
                check_sum(most[i][0], most[i][1], k, 0, spread, 1);
                check_sum(most[i][0], most[i][1], k, most[i][2], spread, 1);
                check_sum(most[i][0], most[i][1], k, most[i][2] + 1, spread, 0);
                check_sum(most[i][0], most[i][1], k, most[i][2] + 2, spread, 0);
                check_sum(most[i][0], most[i][1], k, 2 * most[i][2] + 2, spread, 0);
            }
}

/* The block of the centre is 100 in every plane k, but that one sample is by[k] less, one is more and one as much less.
 * Against 113 throughout, the SAD is 13 times the samples and by[k]. */
static void put_limits(const window *w, int b, const int by[3])
{
    for (int k = 0; k < 3; k++) {
        const part p = part_of(w, b, k);
        int area = p.columns * p.rows, first = (int)drawn((uint32_t)area), aside = 1 + (int)drawn(12);
        for (int i = 0; i < area; i++) {
            int place = (i + first) % area, above = i == 0 ? -by[k] : 0;
            if (area > 2 && (i == 1 || i == 2))
                above = i == 1 ? aside : -aside;
            put_sample(w->centre, k, p.x0 + place % p.columns, p.y0 + place / p.columns, (uint8_t)(100 + above));
        }
    }
}

/* Each plane of each block at its limit, 1 below or 1 above it: the three digits of `n` for the first block, and others
 * for the next. The other frame is 113 throughout, so that nothing moves; or Y is noise that passes wherever it is
 * found. Each cap of the other frame has its turn. */
static void check_limits(int width, int height, unsigned n, int moved)
{
    static const rule copied = {WHOLE, 3}, filtered = {HALF, 3};
    window w = window_of(width, height, 2, n % 2, 6);
    const size_t other = 1 - w.centre;
    uint32_t accepted = 0;
    lend_frames(&w, (uint32_t)width + n % 3, (uint32_t)(width + 1) / 2 + n / 3 % 3);
    memset(at_bytes(&picture), 200, picture.length);
    for (int b = 0; b < blocks_of(&w); b++) {
        unsigned digits = n + 10 * (unsigned)b;
        const int by[3] = {(int)(digits / 9 % 3) - 1, (int)(digits / 3 % 3) - 1, (int)(digits % 3) - 1};
        put_limits(&w, b, by);
        accepted += (moved || by[0] < 0) && by[1] < 0 && by[2] < 0 ? 1 : 0;
    }
    for (int k = 0; k < 3; k++)
        for (int i = 0; i < plane_of(other, k).columns * plane_of(other, k).rows; i++)
            put_nth(other, k, i, 113);
    for (size_t g = 0; g < 2 && moved; g++)
        for (int i = 0; i < width * height; i++)
            put_nth(g, 0, i, 90 + (int)drawn(12));
    put_cap(other, (n + (uint32_t)(width + height)) % 17);
    keep_bytes(&picture);
    check_window(&w);
    CHECK(count_accepted(copied, &w) == accepted && count_accepted(filtered, &w) == accepted);
}

/* Whole blocks, and blocks cut to 1, 2, 3, 8 and 15 columns or rows, alone or behind a whole one. */
static void limits(void)
{
    static const int sides[12] = {1, 2, 3, 8, 15, 16, 17, 18, 19, 24, 31, 32};
    for (int i = 0; i < 144; i++)
        for (unsigned n = 0; n < 27; n++)
            check_limits(sides[i % 12], sides[i / 12], n, 0);
    for (int i = 0; i < 144; i++)
        for (unsigned n = 0; n < 9; n++)
            check_limits(sides[i % 12], sides[i / 12], n, 1);
}

/* Columns, or turned rows, of 60 and 140 by turns: half a sample aside they are 64 * 60 + 64 * 140, and so 100. */
static int stripe(int x, int y, int turned)
{
    return (turned ? y : x) % 2 == 0 ? 60 : 140;
}

/* The middle block of nine is accepted with displaced samples that are the centre's, or has no share. */
static void check_middle(const window *w, enum builder which, int accepted)
{
    static held h;
    build_window(which, w, &h);
    for (int k = 0; k < 3; k++) {
        const part p = part_of(w, 4, k);
        uint32_t total = accepted ? 32 : 16;
        int same = 1;
        for (int i = 0; i < p.columns * p.rows; i++) {
            int x = p.x0 + i % p.columns, y = p.y0 + i / p.columns;
            size_t at = packed_start(w, k) + (size_t)(y * plane_of(0, k).columns + x);
            uint32_t m = (uint32_t)sample_at(plane_of(0, k), x, y);
            same = same && h.output[at] == m && h.weights[at] == total && h.sums[at] == total * m;
        }
        CHECK(same);
    }
}

/* U and V of the other frame are stripes; the centre's are the same ones, or 100. The middle block is found d samples
 * across them. Filtered, an odd d makes them 100. Copied, they are 40 away from 100; from the same ones 80, or 0 where
 * d is halved to an even number. */
static void check_stripes(int d, int along, int turned, int both)
{
    int copied = both && d / 2 % 2 == 0, filtered = d % 2 != 0 ? !both : copied;
    window w = lend_moved(turned ? along : d, turned ? d : along, 6);
    for (int k = 1; k <= 2; k++)
        for (int i = 0; i < 24 * 24; i++) {
            put_nth(0, k, i, both ? stripe(i % 24, i / 24, turned) : 100);
            put_nth(1, k, i, stripe(i % 24, i / 24, turned));
        }
    keep_bytes(&picture);
    check_middle(&w, THREE_PLANES, copied);
    check_middle(&w, THREE_HALF, filtered);
    check_window(&w);
}

/* Up to 12, so that no pass reads past the plane's edge. */
static void stripes(void)
{
    static const int aside[3] = {-1, 0, 2};
    for (int d = -12; d <= 12; d++)
        for (int i = 0; i < 12; i++)
            check_stripes(d, aside[i / 4], i % 2, i / 2 % 2);
}

/* Three other frames, each of which one plane excludes, or none does: a digit of `kind` for each, 3 for none. Where no
 * frame is left, sums of 16 times the centre are written: nothing is only cropped. */
static void excluded_frames(uint8_t strength)
{
    static held h;
    for (unsigned kind = 0; kind < 64; kind++) {
        window w = window_of(24, 20, 4, kind % 4, strength);
        uint32_t accepted = 0;
        unsigned digits = kind;
        lend_frames(&w, 27, 13);
        for (size_t g = 0; g < 4; g++) {
            int by = 3;
            if (g != w.centre) {
                by = (int)(digits % 4);
                digits /= 4;
                accepted += by == 3 ? 4 : 0;
            }
            for (int k = 0; k < 3; k++)
                for (int i = 0; i < plane_of(g, k).columns * plane_of(g, k).rows; i++)
                    put_nth(g, k, i, 100 + i % 7 + (k == by ? 40 : 0));
            put_cap(g, (kind + (uint32_t)g) % 17);
        }
        keep_bytes(&picture);
        for (int which = THREE_PLANES; which <= THREE_HALF_OF_RECORDS; which++) {
            build_window((enum builder)which, &w, &h);
            CHECK(h.accepted == accepted);
            CHECK(accepted != 0 || is_without_shares(&w, &h));
        }
        check_window(&w);
    }
}

/* That the windows above were of every kind: each component in each direction, odd and even ones beside one another. */
static void kinds_of_windows(void)
{
    unsigned parities[2][2] = {{0, 0}, {0, 0}};
    for (int d = 0; d < 31; d++) {
        unsigned across = 0, down = 0;
        for (int other = 0; other < 31; other++) {
            across += met[other][d];
            down += met[d][other];
            parities[d % 2][other % 2] += met[d][other];
        }
        CHECK(across > 20 && down > 20);
    }
    for (int i = 0; i < 4; i++)
        CHECK(parities[i / 2][i % 2] > 200);
    CHECK(met_even > 20 && met_cropped > 20 && met_other_u > 500 && met_other_v > 500);
    for (int by = WHOLE; by <= HALF; by++) {
        for (int planes = 0; planes < 8; planes++)
            CHECK(met_passing[by][planes] > 50);
        CHECK(met_none_less[by] > 100 && met_none_left[by] > 100 && met_by_one[by] > 20);
    }
}

int main(void)
{
    empty_window();
    samples_and_vectors();
    filtered_samples();
    filtered_macroblocks(SIXTAP);
    filtered_macroblocks(BILINEAR);
    bilinear_macroblocks();
    plane_refusals();
    fetches();
    block_sads();
    ceiled_sads();
    whole_sads();
    diamonds();
    for (uint8_t version = 0; version <= 2; version++) {
        sads(version);
        refinements(version);
    }
    versions();
    refused_versions();
    smallest_picture();
    cut_pictures();
    pictures_by_single_calls();
    pictures_in_themselves();
    refused_pictures();
    refused_in_order();
    far_strides();
    longest_pictures();
    fewest_and_most_comparisons();
    one_macroblock_within();
    allowances_by_account();
    allowances_one_by_one();
    allowances_without_motion();
    allowances_on_a_slope();
    for (uint8_t version = 0; version <= 2; version++) {
        allowances_to_the_last_vector(0, version);
        allowances_to_the_last_vector(1, version);
    }
    refused_allowances();
    allowances_refused_in_order();
    longest_pictures_within();
    weight_curves();
    frames_as_numbers();
    for (int which = CHECKS_ONLY; which <= LAST_BUILDER; which++)
        refused_builds((enum builder)which);
    for (int which = FROM_NUMBERS; which <= LAST_BUILDER; which++)
        accepted_builds((enum builder)which);
    legal_checks();
    leftover_numbers(FROM_NUMBERS);
    leftover_numbers(HALF_SAMPLE);
    leftover_numbers(THREE_PLANES);
    leftover_numbers(THREE_HALF);
    caps();
    for (int which = CHECKS_ONLY; which <= LAST_BUILDER; which++)
        builds_refused_in_order((enum builder)which);
    half_samples_by_hand();
    moved_windows();
    windows_of_noise(0);
    windows_of_noise(1);
    sums_by_hand();
    limits();
    stripes();
    excluded_frames(1);
    excluded_frames(6);
    kinds_of_windows();
    printf("calls: %u checks, %u failed\n", checks, failed);
    return failed == 0 ? 0 : 1;
}
