/*
 * Computes the worked cases of docs/MODEL.md, section 8, with the library, from the formulas that the page states, and
 * prints each as it stands there: a block that opens with ```worked NAME. `tests/worked/run` compares the two.
 *
 * Four kinds of numbers are not the library's answers: the cost of a displacement, for which it is asked for the SAD of
 * two blocks; the products of a filter, from which its sample has to follow; the vectors of a round's tries, of a
 * refinement's square and of the pairs of `orders`, of which it gives the SADs; and the grants of an allowance, from
 * which its lists and its comparisons have to follow. Searches and SADs are those of version 0, but in `bilinear`,
 * `picture` and `allowance`; every cap is 16, but in `caps` and `three-planes`. The program ends with status 1 where
 * something that has to agree does not.
 */
#include "vp8model.h"

#include <inttypes.h>
#include <stdio.h>
#include <stdlib.h>
#include <string.h>

static void open_case(const char *name)
{
    printf("```worked %s\n", name);
}

static void close_case(void)
{
    printf("```\n");
}

static void require(int holds, const char *what)
{
    if (!holds) {
        fprintf(stderr, "worked: %s\n", what);
        exit(1);
    }
}

/* ---- strengths */

/* The greatest difference whose weight is not 0, or -1 where there is none. */
static int reach(uint8_t strength)
{
    uint32_t curve[256];
    vp8model_curve(strength, curve);
    int e = 255;
    while (0 <= e && curve[e] == 0)
        e--;
    return e;
}

static void strengths(void)
{
    static const uint8_t asked[] = {0, 1, 2, 3, 4, 5, 6, 7, 255};
    open_case("strengths");
    for (size_t i = 0; i < sizeof asked; i++) {
        uint8_t s = asked[i];
        printf("strength %u: scale %" PRIu32 ", ", (unsigned)s, vp8model_scale_of(s));
        if (reach(s) < 0)
            printf("no weights");
        else
            printf("weights to %d", reach(s));
        printf(", w(0) %" PRIu32 ", w(4) %" PRIu32, vp8model_weight(s, 0), vp8model_weight(s, 4));
        printf(", bound of 1 other %" PRIu32 ", of 16 %" PRIu32 "\n", vp8model_distance_bound(1, s),
               vp8model_distance_bound(16, s));
    }
    close_case();
}

/* ---- windows: what is lent, each entry first 7, and how it is printed */

#define MOST 512
#define MARK 7

static uint8_t output[MOST];
static uint32_t sums[MOST], weights[MOST];

static void lend_slices(void)
{
    for (size_t i = 0; i < MOST; i++) {
        output[i] = MARK;
        sums[i] = MARK;
        weights[i] = MARK;
    }
}

static vp8model_build build(const uint8_t *bytes, size_t bytes_len, const vp8model_frame *frames, size_t count,
                            size_t centre, uint8_t strength, size_t output_len, size_t sums_len)
{
    lend_slices();
    return vp8model_build_arnr_altref(bytes, bytes_len, frames, count, centre, strength, output, output_len, sums,
                                      sums_len, weights, MOST);
}

/* With half samples in U and V; the records are passed as their numbers. */
static vp8model_build build_half(const uint8_t *bytes, size_t bytes_len, const vp8model_frame *frames, size_t count,
                                 size_t centre, uint8_t strength)
{
    lend_slices();
    return vp8model_build_half_sample(bytes, bytes_len, (const uint32_t *)frames, VP8MODEL_NUMBERS_PER_FRAME * count,
                                      centre, strength, output, MOST, sums, MOST, weights, MOST);
}

/* On three planes, with half samples or without; the records are passed as their numbers. */
static vp8model_build build_three(int half, const uint8_t *bytes, size_t bytes_len, const vp8model_frame *frames,
                                  size_t count, size_t centre, uint8_t strength)
{
    const uint32_t *numbers = (const uint32_t *)frames;
    lend_slices();
    if (half)
        return vp8model_build_three_planes_half_sample(bytes, bytes_len, numbers, VP8MODEL_NUMBERS_PER_FRAME * count,
                                                       centre, strength, output, MOST, sums, MOST, weights, MOST);
    return vp8model_build_three_planes(bytes, bytes_len, numbers, VP8MODEL_NUMBERS_PER_FRAME * count, centre, strength,
                                       output, MOST, sums, MOST, weights, MOST);
}

static void print_words(const char *what, const uint32_t *v, size_t n)
{
    printf("%s", what);
    for (size_t i = 0; i < n; i++)
        printf(" %" PRIu32, v[i]);
}

static void print_bytes(const char *what, const uint8_t *v, size_t n)
{
    printf("%s", what);
    for (size_t i = 0; i < n; i++)
        printf(" %u", (unsigned)v[i]);
}

/* ---- small windows: pictures of 1 by 1 and of 2 by 1, packed as Y, U, V */

static const uint8_t small_bytes[] = {
    100, 60, 200,      /* 0: the centre */
    104, 60, 240,      /* 3: A */
    112, 60, 200,      /* 6: B */
    113, 60, 200,      /* 9: C */
    101, 100, 60, 200, /* 12: the centre of 2 by 1 */
    113, 113, 60, 200, /* 16: D */
};

/* The record of a picture of `width` by 1 that begins at `y`. */
static vp8model_frame small_frame(uint32_t width, uint32_t y, uint32_t cap)
{
    vp8model_frame f = {width, 1, y, y + width, y + width + 1, width, 1, cap};
    return f;
}

/* The first P + 1 entries of the three slices, where P is `width` + 2. */
static void print_small(uint32_t width)
{
    print_bytes("; output", output, width + 3);
    print_words("; sums", sums, width + 3);
    print_words("; totals", weights, width + 3);
    printf("\n");
}

/* A window of `width` by 1 whose frames begin at `starts`, the first of them the centre, with every cap 16. */
static void small_build(const char *what, uint32_t width, const uint32_t *starts, size_t count, uint8_t strength,
                        size_t output_len, size_t sums_len)
{
    vp8model_frame frames[3];
    for (size_t g = 0; g < count; g++)
        frames[g] = small_frame(width, starts[g], 16);
    vp8model_build b = build(small_bytes, sizeof small_bytes, frames, count, 0, strength, output_len, sums_len);
    if (b.refusal != 0)
        printf("%s: refusal %" PRIu32, what, b.refusal);
    else
        printf("%s: accepted %" PRIu32, what, b.accepted);
    print_small(width);
}

static void small_windows(void)
{
    static const uint32_t a[] = {0, 3}, b[] = {0, 6}, c[] = {0, 9}, d[] = {12, 16};
    static const uint32_t twice[] = {0, 3, 3}, itself[] = {0, 0};
    open_case("small-windows");
    small_build("A, strength 1", 1, a, 2, 1, MOST, MOST);
    small_build("A twice, strength 1", 1, twice, 3, 1, MOST, MOST);
    small_build("A, strength 6", 1, a, 2, 6, MOST, MOST);
    small_build("A, strength 255", 1, a, 2, 255, MOST, MOST);
    small_build("B, strength 1", 1, b, 2, 1, MOST, MOST);
    small_build("C, strength 1", 1, c, 2, 1, MOST, MOST);
    small_build("D, strength 1", 2, d, 2, 1, MOST, MOST);
    small_build("the centre again, strength 1", 1, itself, 2, 1, MOST, MOST);
    small_build("A, strength 0", 1, a, 2, 0, MOST, MOST);
    small_build("no other, strength 1", 1, a, 1, 1, MOST, MOST);
    small_build("no other, output of 2", 1, a, 1, 1, 2, MOST);
    small_build("no other, sums of 2", 1, a, 1, 1, MOST, 2);
    small_build("no frames", 1, a, 0, 1, MOST, MOST);
    close_case();
}

/* ---- caps: the centre and A of the small windows, pictures of 1 by 1 */

/* Frame 0 is the centre. 29 and 5 name a frame. */
static void print_capped(const char *what, const vp8model_frame *frames, size_t count, uint8_t strength)
{
    vp8model_build b = build(small_bytes, sizeof small_bytes, frames, count, 0, strength, MOST, MOST);
    if (b.refusal == 29 || b.refusal == 5)
        printf("%s: refusal %" PRIu32 ", frame %" PRIu32, what, b.refusal, b.frame);
    else if (b.refusal != 0)
        printf("%s: refusal %" PRIu32, what, b.refusal);
    else
        printf("%s: accepted %" PRIu32, what, b.accepted);
    print_small(1);
}

/* The centre with the first cap, and A once or twice with the others. */
static void capped_build(const char *what, uint32_t centre_cap, uint32_t first, uint32_t second, size_t count,
                         uint8_t strength)
{
    const vp8model_frame frames[3] = {small_frame(1, 0, centre_cap), small_frame(1, 3, first),
                                      small_frame(1, 3, second)};
    print_capped(what, frames, count, strength);
}

/* 29 where 4 applies to a later frame, and where 5 applies to an earlier one. */
static void caps_beside_4_and_5(void)
{
    vp8model_frame frames[3] = {small_frame(1, 0, 17), small_frame(2, 3, 16), small_frame(1, 3, 17)};
    print_capped("A of 2 by 1, the centre's 17, strength 1", frames, 2, 1);
    frames[0].cap = 16;
    frames[1] = small_frame(1, 3, 16);
    frames[1].v = sizeof small_bytes;
    print_capped("V behind the bytes, then A with cap 17, strength 1", frames, 3, 1);
    frames[2].cap = 16;
    print_capped("V behind the bytes, then A with cap 16, strength 1", frames, 3, 1);
}

static void caps(void)
{
    open_case("caps");
    capped_build("cap 16, strength 1", 16, 16, 0, 2, 1);
    capped_build("cap 8, strength 1", 16, 8, 0, 2, 1);
    capped_build("cap 7, strength 1", 16, 7, 0, 2, 1);
    capped_build("cap 3, strength 1", 16, 3, 0, 2, 1);
    capped_build("cap 0, strength 1", 16, 0, 0, 2, 1);
    capped_build("cap 2, strength 6", 16, 2, 0, 2, 6);
    capped_build("cap 7, the centre's 0, strength 1", 0, 7, 0, 2, 1);
    capped_build("caps 7 and 3, strength 1", 16, 7, 3, 3, 1);
    capped_build("caps 0 and 16, strength 1", 16, 0, 16, 3, 1);
    capped_build("cap 17, strength 1", 16, 17, 0, 2, 1);
    capped_build("cap 16, the centre's 17, strength 1", 17, 16, 0, 2, 1);
    capped_build("caps 4294967295 and 17, strength 1", 16, UINT32_MAX, 17, 3, 1);
    capped_build("cap 17, strength 0", 16, 17, 0, 2, 0);
    capped_build("no other, the centre's 17, strength 1", 17, 0, 0, 1, 1);
    caps_beside_4_and_5();
    close_case();
}

/* ---- a moved edge: two frames of 17 by 3, the other one first, packed */

#define WIDTH 17
#define HEIGHT 3
#define CHROMA_WIDTH 9
#define CHROMA_HEIGHT 2
#define SAMPLES 87

static uint8_t centre_y(int x)
{
    return x < 6 ? 50 : 90;
}

static uint8_t other_y(int x)
{
    return x < 3 ? 52 : x < 16 ? 92 : 200;
}

static uint8_t edge_bytes[2 * SAMPLES];

static void lend_edge(void)
{
    uint8_t *other = edge_bytes, *centre = edge_bytes + SAMPLES;
    for (int i = 0; i < WIDTH * HEIGHT; i++) {
        other[i] = other_y(i % WIDTH);
        centre[i] = centre_y(i % WIDTH);
    }
    for (int i = 0; i < CHROMA_WIDTH * CHROMA_HEIGHT; i++) {
        int x = i % CHROMA_WIDTH, y = i / CHROMA_WIDTH;
        other[51 + i] = (uint8_t)(100 + x + 10 * y);
        other[69 + i] = (uint8_t)(120 - 2 * x - 5 * y);
        centre[51 + i] = 100;
        centre[69 + i] = 120;
    }
}

/* The cost of the displacement (dx, any dy) for the columns first .. last: the library's SAD of two blocks that hold
 * the three rows of these columns, and zeros elsewhere. */
static uint32_t edge_cost(int first, int last, int dx)
{
    uint8_t a[256] = {0}, b[256] = {0};
    for (int y = 0; y < HEIGHT; y++) {
        for (int x = first; x <= last; x++) {
            int moved = x + dx < 0 ? 0 : x + dx < WIDTH ? x + dx : WIDTH - 1;
            a[y * 16 + x - first] = centre_y(x);
            b[y * 16 + x - first] = other_y(moved);
        }
    }
    return vp8model_block_sad_16x16(a, b);
}

static void edge_costs(void)
{
    open_case("edge-costs");
    printf("first block:");
    for (int dx = -8; dx <= 8; dx++)
        printf(" %d:%" PRIu32, dx, edge_cost(0, 15, dx));
    printf("\nsecond block:");
    for (int dx = -15; dx <= 1; dx++)
        printf(" %d:%" PRIu32, dx, edge_cost(16, 16, dx));
    printf("\n");
    close_case();
}

/* The rows of the three planes, a line each: of the output, or of a working slice. */
static void print_edge(const uint8_t *samples, const uint32_t *held)
{
    static const size_t starts[] = {0, 17, 34, 51, 60, 69, 78, 87};
    for (size_t i = 0; i < 7; i++) {
        const char *plane = i < 3 ? "Y:" : i < 5 ? "U:" : "V:";
        if (samples != NULL)
            print_bytes(plane, samples + starts[i], starts[i + 1] - starts[i]);
        else
            print_words(plane, held + starts[i], starts[i + 1] - starts[i]);
        printf("\n");
    }
}

static void edge(void)
{
    static const vp8model_frame frames[2] = {{WIDTH, HEIGHT, 0, 51, 69, WIDTH, CHROMA_WIDTH, 16},
                                             {WIDTH, HEIGHT, 87, 138, 156, WIDTH, CHROMA_WIDTH, 16}};
    lend_edge();
    edge_costs();
    open_case("edge");
    vp8model_build b = build(edge_bytes, sizeof edge_bytes, frames, 2, 1, 1, MOST, MOST);
    require(b.refusal == 0, "the window of 17 by 3 was refused");
    printf("width %" PRIu32 ", height %" PRIu32 ", accepted %" PRIu32 "\n", b.width, b.height, b.accepted);
    printf("output\n");
    print_edge(output, NULL);
    printf("sums\n");
    print_edge(NULL, sums);
    printf("total weights\n");
    print_edge(NULL, weights);
    printf("entry 87 of each: %u %" PRIu32 " %" PRIu32 "\n", (unsigned)output[SAMPLES], sums[SAMPLES],
           weights[SAMPLES]);
    close_case();
}

/* ---- a corner: two frames of 17 by 17, and what the block of one sample at (16, 16) becomes */

#define SIDE 17
#define CHROMA_SIDE 9
#define CORNER_SAMPLES (SIDE * SIDE + 2 * CHROMA_SIDE * CHROMA_SIDE)

static uint8_t corner_bytes[2 * CORNER_SAMPLES];

/* The other frame's Y is 112 but at the marks: column, row, sample. */
static void lend_corner(const uint8_t (*marks)[3], size_t count)
{
    uint8_t *centre = corner_bytes, *other = corner_bytes + CORNER_SAMPLES;
    memset(centre, 100, CORNER_SAMPLES);
    memset(other, 112, SIDE * SIDE);
    for (size_t k = 0; k < count; k++)
        other[marks[k][1] * SIDE + marks[k][0]] = marks[k][2];
    for (int i = 0; i < CHROMA_SIDE * CHROMA_SIDE; i++) {
        other[289 + i] = (uint8_t)(100 + i % CHROMA_SIDE);
        other[370 + i] = (uint8_t)(100 + i / CHROMA_SIDE);
    }
}

static vp8model_build build_corner(void)
{
    static const vp8model_frame frames[2] = {{SIDE, SIDE, 0, 289, 370, SIDE, CHROMA_SIDE, 16},
                                             {SIDE, SIDE, 451, 740, 821, SIDE, CHROMA_SIDE, 16}};
    vp8model_build b = build(corner_bytes, sizeof corner_bytes, frames, 2, 0, 1, MOST, MOST);
    require(b.refusal == 0, "the window of 17 by 17 was refused");
    return b;
}

static void corner(void)
{
    static const uint8_t marks[6][3] = {{16, 8, 108}, {8, 16, 108}, {12, 4, 106},
                                        {8, 4, 101},  {14, 6, 103}, {13, 7, 102}};
    static const size_t last[3] = {288, 369, 450};
    lend_corner(marks, 6);
    open_case("corner");
    vp8model_build b = build_corner();
    printf("width %" PRIu32 ", height %" PRIu32 ", accepted %" PRIu32 "\n", b.width, b.height, b.accepted);
    for (size_t k = 0; k < 3; k++)
        printf("entry %zu: output %u, sum %" PRIu32 ", total %" PRIu32 "\n", last[k], (unsigned)output[last[k]],
               sums[last[k]], weights[last[k]]);
    close_case();
}

/* ---- searches: a ramp of 64 by 48, and the macroblock in column 2 and row 1, whose samples the source exceeds by t */

#define RAMP_WIDTH 64
#define RAMP_HEIGHT 48

static uint8_t ramp[RAMP_WIDTH * RAMP_HEIGHT];
static uint8_t source[256];

static void lend_ramp(void)
{
    for (int i = 0; i < RAMP_WIDTH * RAMP_HEIGHT; i++)
        ramp[i] = (uint8_t)(i % RAMP_WIDTH + 3 * (i / RAMP_WIDTH));
}

static void lend_source(int t)
{
    for (int i = 0; i < 256; i++)
        source[i] = (uint8_t)((32 + i % 16) + 3 * (16 + i / 16) + t);
}

/* The valley: |2 y - 47| in the plane, and a source of 255. */
static void lend_valley(void)
{
    for (int i = 0; i < RAMP_WIDTH * RAMP_HEIGHT; i++)
        ramp[i] = (uint8_t)abs(2 * (i / RAMP_WIDTH) - 47);
    memset(source, 255, sizeof source);
}

static uint32_t sad_at(int row, int col)
{
    vp8model_sad s = vp8model_mb_luma_sad_at_mv(ramp, sizeof ramp, RAMP_WIDTH, RAMP_WIDTH, RAMP_HEIGHT, 2, 1, source,
                                                (int16_t)row, (int16_t)col, 0);
    require(s.refusal == 0, "a SAD was refused");
    return s.sad;
}

static uint32_t whole_sad_at(int row, int col)
{
    vp8model_sad s = vp8model_mb_luma_sad_at_whole_mv(ramp, sizeof ramp, RAMP_WIDTH, RAMP_WIDTH, RAMP_HEIGHT, 2, 1,
                                                      source, (int16_t)row, (int16_t)col);
    require(s.refusal == 0 && s.sad == sad_at(row, col), "the two SADs of a whole vector differ");
    return s.sad;
}

static void print_tries(const char *what, const int v[4][2])
{
    printf("%s:", what);
    for (int k = 0; k < 4; k++)
        printf(" (%d, %d) %" PRIu32, v[k][0], v[k][1], whole_sad_at(v[k][0], v[k][1]));
    printf("\n");
}

static void print_diamond(int row, int col, uint32_t limit)
{
    vp8model_diamond d =
        vp8model_small_diamond_search_luma(ramp, sizeof ramp, RAMP_WIDTH, RAMP_WIDTH, RAMP_HEIGHT, 2, 1, source,
                                           (int16_t)row, (int16_t)col, limit);
    require(d.refusal == 0, "a diamond was refused");
    printf("centre (%d, %d), limit %" PRIu32 ": (%d, %d), SAD %" PRIu32 ", SADs %" PRIu32 ", rounds %" PRIu32 "\n",
           row, col, limit, d.row, d.col, d.sad, d.sads, d.rounds);
}

static void diamond(void)
{
    static const int first[4][2] = {{-4, 0}, {4, 0}, {4, -4}, {4, 4}};
    static const int second[4][2] = {{0, 4}, {8, 4}, {8, 0}, {8, 8}};
    static const int third[4][2] = {{4, 4}, {12, 4}, {8, 0}, {8, 8}};
    static const int valley[4][2] = {{-4, 0}, {0, 0}, {-4, -4}, {-4, 4}};
    lend_ramp();
    lend_source(7);
    open_case("diamond");
    printf("start: (0, 0) %" PRIu32 "\n", whole_sad_at(0, 0));
    print_tries("round 1", first);
    print_tries("round 2", second);
    print_tries("round 3", third);
    print_diamond(0, 0, 0);
    print_diamond(0, 0, 1);
    print_diamond(0, 0, 2);
    print_diamond(0, 0, 3);
    print_diamond(0, 0, UINT32_MAX);
    print_diamond(3, -7, 0);
    print_diamond(32767, -1023, UINT32_MAX);
    lend_valley();
    printf("valley\n");
    printf("start: (0, 0) %" PRIu32 "\n", whole_sad_at(0, 0));
    print_tries("round 1", valley);
    print_diamond(0, 0, 1);
    print_diamond(0, 0, UINT32_MAX);
    close_case();
}

/* The nine SADs of a refinement, as the square stands, and its answer. */
static void print_refinement(const char *what, int row, int col, int step, int t)
{
    lend_source(t);
    printf("%s of (%d, %d), t = %d\n", what, row, col, t);
    for (int r = row - step; r <= row + step; r += step) {
        for (int c = col - step; c <= col + step; c += step)
            printf("%s(%d, %d) %" PRIu32, c == col - step ? "" : "   ", r, c, sad_at(r, c));
        printf("\n");
    }
    vp8model_search s =
        step == VP8MODEL_HALF_PIXEL_STEP
            ? vp8model_half_pixel_refine_luma(ramp, sizeof ramp, RAMP_WIDTH, RAMP_WIDTH, RAMP_HEIGHT, 2, 1, source,
                                              (int16_t)row, (int16_t)col, 0)
            : vp8model_quarter_pixel_refine_luma(ramp, sizeof ramp, RAMP_WIDTH, RAMP_WIDTH, RAMP_HEIGHT, 2, 1, source,
                                                 (int16_t)row, (int16_t)col, 0);
    require(s.refusal == 0, "a refinement was refused");
    printf("gives (%d, %d), SAD %" PRIu32 "\n", s.row, s.col, s.sad);
}

static void refinements(void)
{
    lend_ramp();
    open_case("refinements");
    print_refinement("half", 0, 0, VP8MODEL_HALF_PIXEL_STEP, 2);
    print_refinement("half", 0, 0, VP8MODEL_HALF_PIXEL_STEP, 0);
    print_refinement("quarter", 2, -2, VP8MODEL_QUARTER_PIXEL_STEP, 1);
    close_case();
}

/* ---- the orders of the tries: two neighbours that follow one another cost the same, and less than all the others */

/* Neighbour k of 1 to 8: its column and row in the square of three by three. */
static int across(int k)
{
    return (k < 5 ? k - 1 : k) % 3;
}

static int down(int k)
{
    return (k < 5 ? k - 1 : k) / 3;
}

static void print_block_order(int k)
{
    uint8_t marks[3][3] = {{8, 8, 108}};
    for (int i = 0; i < 2; i++) {
        marks[1 + i][0] = (uint8_t)(4 + 4 * across(k + i));
        marks[1 + i][1] = (uint8_t)(4 + 4 * down(k + i));
        marks[1 + i][2] = 104;
    }
    lend_corner((const uint8_t (*)[3])marks, 3);
    build_corner();
    printf("block search, %d and %d: U sum %" PRIu32 ", total %" PRIu32 "; V sum %" PRIu32 ", total %" PRIu32 "\n", k,
           k + 1, sums[369], weights[369], sums[450], weights[450]);
}

#define FIELD_SIDE 36

static uint8_t field[FIELD_SIDE * FIELD_SIDE];

/* c + a x + b y in the plane, and a source that exceeds the macroblock in column 1 and row 1 by t. */
static void lend_field(int a, int b, int c, int t)
{
    for (int i = 0; i < FIELD_SIDE * FIELD_SIDE; i++)
        field[i] = (uint8_t)(c + a * (i % FIELD_SIDE) + b * (i / FIELD_SIDE));
    for (int i = 0; i < 256; i++)
        source[i] = (uint8_t)(field[(16 + i / 16) * FIELD_SIDE + 16 + i % 16] + t);
}

/* 100 + |2 x - 47| - |2 y - 47| in the plane, and a source of 255. */
static void lend_saddle(void)
{
    for (int i = 0; i < FIELD_SIDE * FIELD_SIDE; i++)
        field[i] = (uint8_t)(100 + abs(2 * (i % FIELD_SIDE) - 47) - abs(2 * (i / FIELD_SIDE) - 47));
    memset(source, 255, sizeof source);
}

/* Two neighbours with their SADs. */
static void print_pair(const char *what, int row, int col, int other_row, int other_col)
{
    int v[2][2] = {{row, col}, {other_row, other_col}};
    printf("%s:", what);
    for (int k = 0; k < 2; k++) {
        vp8model_sad s = vp8model_mb_luma_sad_at_mv(field, sizeof field, FIELD_SIDE, FIELD_SIDE, FIELD_SIDE, 1, 1,
                                                    source, (int16_t)v[k][0], (int16_t)v[k][1], 0);
        require(s.refusal == 0, "a SAD was refused");
        printf(" (%d, %d) %" PRIu32, v[k][0], v[k][1], s.sad);
    }
}

static void print_diamond_order(const char *what, int row, int col, int other_row, int other_col)
{
    print_pair(what, row, col, other_row, other_col);
    vp8model_diamond d = vp8model_small_diamond_search_luma(field, sizeof field, FIELD_SIDE, FIELD_SIDE, FIELD_SIDE, 1,
                                                            1, source, 0, 0, 1);
    require(d.refusal == 0, "a diamond was refused");
    printf("; gives (%d, %d)\n", d.row, d.col);
}

static void print_refinement_order(int k)
{
    char what[32];
    snprintf(what, sizeof what, "half refinement, %d and %d", k, k + 1);
    print_pair(what, 2 * down(k) - 2, 2 * across(k) - 2, 2 * down(k + 1) - 2, 2 * across(k + 1) - 2);
    vp8model_search s = vp8model_half_pixel_refine_luma(field, sizeof field, FIELD_SIDE, FIELD_SIDE, FIELD_SIDE, 1, 1,
                                                        source, 0, 0, 0);
    require(s.refusal == 0, "a refinement was refused");
    printf("; gives (%d, %d)\n", s.row, s.col);
}

static void orders(void)
{
    /* a, b, c and t for each pair; for 4 and 5 stands the saddle */
    static const int slopes[7][4] = {{1, 4, 0, -2}, {-1, 4, 40, -2}, {2, 4, 0, -1}, {0, 0, 0, 0},
                                     {2, 4, 0, 1},  {1, 4, 0, 2},    {-1, 4, 40, 2}};
    open_case("orders");
    for (int k = 1; k <= 7; k++)
        print_block_order(k);
    lend_field(-1, 1, 40, 1);
    print_diamond_order("diamond, down and left", 4, 0, 0, -4);
    lend_saddle();
    print_diamond_order("diamond, left and right", 0, -4, 0, 4);
    for (int k = 1; k <= 7; k++) {
        if (k == 4)
            lend_saddle();
        else
            lend_field(slopes[k - 1][0], slopes[k - 1][1], slopes[k - 1][2], slopes[k - 1][3]);
        print_refinement_order(k);
    }
    close_case();
}

/* ---- two passes: one sample of the halo whose sample at column x and row y of it is (4 x + 124 y) mod 256 */

static uint8_t halo[441];

/* Six products by the taps of a selector that is 2 or 4, and the library's sample, which has to follow from them. */
static uint8_t filtered(uint32_t selector, const uint8_t six[6], const char *what)
{
    static const int taps[2][6] = {{2, -11, 108, 36, -8, 1}, {3, -16, 77, 77, -16, 3}};
    int sum = 0;
    printf("%s:", what);
    for (int k = 0; k < 6; k++) {
        sum += taps[selector / 2 - 1][k] * six[k];
        printf(" %u", (unsigned)six[k]);
    }
    vp8model_sample s = vp8model_interp(selector, six);
    int up = sum + 64 < 0 ? 0 : (sum + 64) / 128;
    uint32_t expected = up < 255 ? (uint32_t)up : 255;
    require(s.refusal == 0 && s.sample == expected, "a sample does not follow from its products");
    printf("; products %d, sample %" PRIu32 "\n", sum, s.sample);
    return (uint8_t)s.sample;
}

static void two_passes(void)
{
    uint8_t across[6], block[256];
    for (int i = 0; i < 441; i++)
        halo[i] = (uint8_t)((4 * (i % 21) + 124 * (i / 21)) % 256);
    open_case("two-passes");
    for (int y = 0; y < 6; y++) {
        char what[32];
        snprintf(what, sizeof what, "across, halo row %d", y);
        across[y] = filtered(2, halo + 21 * y, what);
    }
    uint8_t sample = filtered(4, across, "down");
    vp8model_status s = vp8model_sixtap_mb_luma(halo, 2, 4, block);
    require(s.refusal == 0 && block[0] == sample, "the macroblock's first sample is not that of the two passes");
    print_bytes("macroblock row 0, first columns:", block, 4);
    print_bytes("\nmacroblock row 1, first columns:", block + 16, 4);
    s = vp8model_sixtap_mb_luma(halo, 4, 2, block);
    require(s.refusal == 0, "selectors (4, 2) were refused");
    print_bytes("\nby (4, 2), macroblock row 0, first columns:", block, 4);
    printf("\n");
    close_case();
}

/* ---- half samples: an edge of 48 by 1 or of 1 by 48, and the corner of 17 by 17 */

#define LINE 48
#define LINE_SAMPLES (2 * LINE)

static uint8_t line_bytes[2 * LINE_SAMPLES];

/* Frame 0 is the centre. The other frame's edge in Y stands `moved` samples further on. */
static void lend_line(int moved)
{
    uint8_t *centre = line_bytes, *other = line_bytes + LINE_SAMPLES;
    memset(centre, 100, LINE_SAMPLES);
    for (int x = 0; x < LINE; x++) {
        centre[x] = x < 24 ? 50 : 90;
        other[x] = x < 24 + moved ? 50 : 90;
    }
    for (int x = 0; x < LINE / 2; x++) {
        other[LINE + x] = (uint8_t)(52 + 4 * x);
        other[LINE + LINE / 2 + x] = x <= 12 ? 100 : 140;
    }
}

static void print_entry(const char *what, size_t i)
{
    printf("%s sum %" PRIu32 ", total %" PRIu32, what, sums[i], weights[i]);
}

/* U and V at sample 12 of their line, by one builder or the other. */
static void print_line(const char *what, int half, int moved, uint32_t width, uint32_t height)
{
    const vp8model_frame frames[2] = {{width, height, 0, 48, 72, width, (width + 1) / 2, 16},
                                      {width, height, 96, 144, 168, width, (width + 1) / 2, 16}};
    vp8model_build b = half ? build_half(line_bytes, sizeof line_bytes, frames, 2, 0, 6)
                            : build(line_bytes, sizeof line_bytes, frames, 2, 0, 6, MOST, MOST);
    require(b.refusal == 0 && b.accepted == 3, "a line was refused, or a block of it excluded");
    printf("%s = %d, %s:", what, moved, half ? "half" : "whole");
    print_entry(" U", LINE + 12);
    print_entry("; V", LINE + LINE / 2 + 12);
    printf("\n");
}

static void half_components(void)
{
    static const int components[7] = {-15, -2, -1, 0, 1, 2, 15};
    open_case("half-components");
    for (size_t i = 0; i < 7; i++) {
        lend_line(components[i]);
        print_line("dx", 0, components[i], LINE, 1);
        print_line("dx", 1, components[i], LINE, 1);
        print_line("dy", 1, components[i], 1, LINE);
    }
    close_case();
}

/* The other frame's U and V of the corner. */
static uint8_t corner_chroma(int plane, int x, int y)
{
    return (uint8_t)(plane == 1 ? 100 + 10 * x + 50 * y : 10 * x + 60 * y);
}

/* The corner's window with that U and V, by one builder or the other: the last sample of each plane. */
static void print_corner(int half, int dx, int dy)
{
    static const vp8model_frame frames[2] = {{SIDE, SIDE, 0, 289, 370, SIDE, CHROMA_SIDE, 16},
                                             {SIDE, SIDE, 451, 740, 821, SIDE, CHROMA_SIDE, 16}};
    uint8_t marks[3][3] = {{16, 8, 108}, {12, 8, 104}, {(uint8_t)(16 + dx), (uint8_t)(16 + dy), 102}};
    lend_corner((const uint8_t (*)[3])marks, 3);
    for (int i = 0; i < 2 * CHROMA_SIDE * CHROMA_SIDE; i++) {
        int at = i % (CHROMA_SIDE * CHROMA_SIDE);
        corner_bytes[740 + i] = corner_chroma(i < 81 ? 1 : 2, at % CHROMA_SIDE, at / CHROMA_SIDE);
    }
    vp8model_build b = half ? build_half(corner_bytes, sizeof corner_bytes, frames, 2, 0, 6)
                            : build(corner_bytes, sizeof corner_bytes, frames, 2, 0, 6, MOST, MOST);
    require(b.refusal == 0, "the window of 17 by 17 was refused");
    printf("(%d, %d), %s: accepted %" PRIu32, dx, dy, half ? "half" : "whole", b.accepted);
    print_entry("; Y", 288);
    print_entry("; U", 369);
    print_entry("; V", 450);
    printf("\n");
}

/* Both passes of the last sample of a plane at the displacement (-3, -9), which the builder's sum has to hold. */
static void print_passes(int plane, size_t entry)
{
    uint8_t six[6], down[6];
    char what[32];
    for (int y = 1; y <= 6; y++) {
        for (int x = 4; x <= 9; x++)
            six[x - 4] = corner_chroma(plane, x < 8 ? x : 8, y);
        snprintf(what, sizeof what, "%s, across, row %d", plane == 1 ? "U" : "V", y);
        down[y - 1] = filtered(4, six, what);
    }
    uint8_t sample = filtered(4, down, plane == 1 ? "U, down" : "V, down");
    require(sums[entry] == 16 * 100 + (weights[entry] - 16) * sample, "a sum does not hold the half sample");
}

static void half_passes(void)
{
    static const int displacements[4][2] = {{-4, -8}, {-3, -8}, {-4, -9}, {-3, -9}};
    open_case("half-passes");
    for (size_t i = 0; i < 4; i++) {
        print_corner(0, displacements[i][0], displacements[i][1]);
        print_corner(1, displacements[i][0], displacements[i][1]);
    }
    print_passes(1, 369);
    print_passes(2, 450);
    close_case();
}

/* ---- three planes: pictures of 1 by 1, single blocks and two beside one another, stripes of 48 by 1 or of 1 by 48 */

static const uint8_t three_bytes[] = {
    100, 60, 200, /* 0: the centre */
    104, 60, 240, /* 3: A */
    113, 60, 200, /* 6: C */
    100, 72, 200, /* 9: E */
    100, 73, 200, /* 12: F */
    100, 60, 188, /* 15: G */
    100, 60, 187, /* 18: H */
    112, 72, 188, /* 21: I */
};

/* The centre and one or two others, with these caps, accepted by luma alone or on three planes. A picture of one sample
 * has one displaced sample in each plane, so that both rules of U and V give the same. */
static void three_build(const char *what, int three, const uint32_t *starts, const uint32_t *caps_of, size_t others,
                        uint8_t strength)
{
    vp8model_frame frames[3] = {small_frame(1, 0, 16), small_frame(1, 0, 16), small_frame(1, 0, 16)};
    for (size_t g = 0; g < others; g++)
        frames[1 + g] = small_frame(1, starts[g], caps_of[g]);
    if (three) {
        uint32_t held[2 * MOST];
        vp8model_build of_half = build_three(1, three_bytes, sizeof three_bytes, frames, 1 + others, 0, strength);
        memcpy(held, sums, sizeof sums);
        memcpy(held + MOST, weights, sizeof weights);
        vp8model_build b = build_three(0, three_bytes, sizeof three_bytes, frames, 1 + others, 0, strength);
        require(b.refusal == 0 && of_half.refusal == 0 && b.accepted == of_half.accepted
                    && memcmp(held, sums, sizeof sums) == 0 && memcmp(held + MOST, weights, sizeof weights) == 0,
                "the two rules differ in a picture of one sample");
        printf("%s, three: accepted %" PRIu32, what, b.accepted);
    } else {
        vp8model_build b = build(three_bytes, sizeof three_bytes, frames, 1 + others, 0, strength, MOST, MOST);
        require(b.refusal == 0, "a window of 1 by 1 was refused");
        printf("%s, luma: accepted %" PRIu32, what, b.accepted);
    }
    print_small(1);
}

static void three_planes(void)
{
    static const char *const names[7] = {"A", "C", "E", "F", "G", "H", "I"};
    static const uint32_t starts[7] = {3, 6, 9, 12, 15, 18, 21};
    static const uint32_t f_and_h[] = {12, 18}, a_and_e[] = {3, 9}, caps_16[] = {16, 16}, caps_0[] = {0, 0};
    open_case("three-planes");
    for (int i = 0; i < 7; i++) {
        three_build(names[i], 0, starts + i, caps_16, 1, 6);
        three_build(names[i], 1, starts + i, caps_16, 1, 6);
    }
    three_build("A and E", 0, a_and_e, caps_16, 2, 6);
    three_build("A and E", 1, a_and_e, caps_16, 2, 6);
    three_build("F and H", 1, f_and_h, caps_16, 2, 6);
    three_build("E with cap 0", 1, starts + 2, caps_0, 1, 6);
    three_build("F with cap 0", 1, starts + 3, caps_0, 1, 6);
    three_build("F, strength 0", 1, starts + 3, caps_16, 1, 0);
    close_case();
}

/* Two frames of 100 throughout, but that in U or in V of the other, the last samples of a block, one for each 100 of the
 * SAD that it is to have there, are 200, and the one before them has what is left. */
static uint8_t area_bytes[2 * MOST];

static void lend_areas(uint32_t width, uint32_t height, int plane, const uint32_t *sads)
{
    uint32_t columns = (width + 1) / 2, rows = (height + 1) / 2;
    uint8_t *other = area_bytes + width * height + 2 * columns * rows;
    uint8_t *first = other + width * height + (plane == 1 ? 0 : columns * rows);
    memset(area_bytes, 100, sizeof area_bytes);
    for (uint32_t j = 0; 8 * j < columns; j++) {
        uint32_t across = columns - 8 * j < 8 ? columns - 8 * j : 8;
        uint32_t left = sads[j];
        for (uint32_t i = across * rows; 0 < i; i--) {
            uint32_t difference = left < 100 ? left : 100, at = i - 1;
            first[at / across * columns + 8 * j + at % across] = (uint8_t)(100 + difference);
            left -= difference;
        }
        require(left == 0, "a SAD does not fit into its block");
    }
}

/* One row of blocks: the accepted ones, and the total of each one's first sample of Y. Both rules give the same, as
 * nothing moves. */
static void print_areas(uint32_t width, uint32_t height, int plane, uint32_t first, uint32_t second)
{
    const uint32_t columns = (width + 1) / 2, rows = (height + 1) / 2, samples = width * height + 2 * columns * rows;
    const uint32_t u = width * height, v = u + columns * rows, sads[2] = {first, second};
    const vp8model_frame frames[2] = {
        {width, height, 0, u, v, width, columns, 16},
        {width, height, samples, samples + u, samples + v, width, columns, 16},
    };
    lend_areas(width, height, plane, sads);
    vp8model_build of_half = build_three(1, area_bytes, sizeof area_bytes, frames, 2, 0, 6);
    vp8model_build b = build_three(0, area_bytes, sizeof area_bytes, frames, 2, 0, 6);
    require(b.refusal == 0 && of_half.refusal == 0 && b.accepted == of_half.accepted, "the two rules differ");
    printf("%" PRIu32 " by %" PRIu32 ", %s %" PRIu32, width, height, plane == 1 ? "U" : "V", first);
    if (16 < width)
        printf(" and %" PRIu32, second);
    printf(": accepted %" PRIu32 "; Y total %" PRIu32, b.accepted, weights[0]);
    if (16 < width)
        printf(" and %" PRIu32, weights[16]);
    printf("\n");
}

static void three_areas(void)
{
    static const uint32_t limits[6][3] = {{16, 16, 832}, {15, 15, 832}, {8, 8, 208},
                                          {3, 3, 52},    {1, 16, 104},  {1, 1, 13}};
    open_case("three-areas");
    for (int i = 0; i < 6; i++)
        for (int plane = 1; plane <= 2; plane++) {
            print_areas(limits[i][0], limits[i][1], plane, limits[i][2] - 1, 0);
            print_areas(limits[i][0], limits[i][1], plane, limits[i][2], 0);
        }
    print_areas(17, 16, 1, 0, 103);
    print_areas(17, 16, 1, 0, 104);
    print_areas(17, 16, 1, 832, 103);
    close_case();
}

/* The lines of the half samples, but that U and V of the other frame are 60 and 140 by turns, and those of the centre
 * too or 100. */
static void lend_stripes(int moved, int both)
{
    lend_line(moved);
    for (int i = 0; i < LINE; i++) {
        line_bytes[LINE_SAMPLES + LINE + i] = i % 2 == 0 ? 60 : 140;
        if (both)
            line_bytes[LINE + i] = i % 2 == 0 ? 60 : 140;
    }
}

/* Y at sample 24 and U and V at sample 12 of their lines, which the middle block covers. */
static void print_stripes(const char *what, int half, int moved, int both, uint32_t width, uint32_t height)
{
    const vp8model_frame frames[2] = {{width, height, 0, 48, 72, width, (width + 1) / 2, 16},
                                      {width, height, 96, 144, 168, width, (width + 1) / 2, 16}};
    lend_stripes(moved, both);
    vp8model_build b = build_three(half, line_bytes, sizeof line_bytes, frames, 2, 0, 6);
    require(b.refusal == 0, "a line was refused");
    printf("%s, %s = %d, %s: accepted %" PRIu32, both ? "stripes" : "100", what, moved, half ? "half" : "whole",
           b.accepted);
    print_entry("; Y", 24);
    print_entry("; U", LINE + 12);
    print_entry("; V", LINE + LINE / 2 + 12);
    printf("\n");
}

static void three_rules(void)
{
    static const int components[4] = {-1, 1, 2, 4};
    open_case("three-rules");
    for (int both = 0; both < 2; both++)
        for (size_t i = 0; i < 4; i++) {
            print_stripes("dx", 0, components[i], both, LINE, 1);
            print_stripes("dx", 1, components[i], both, LINE, 1);
            print_stripes("dy", 1, components[i], both, 1, LINE);
        }
    close_case();
}

/* ---- bilinear rows: four samples a b over c d, the first that of the macroblock, in a halo of 9 */

/* The first sample of the macroblock, or the one below it. */
static unsigned of_four(const uint8_t four[4], uint32_t mx, uint32_t my, int below)
{
    uint8_t block[256];
    memset(halo, 9, sizeof halo);
    memcpy(halo + 2 * 21 + 2, four, 2);
    memcpy(halo + 3 * 21 + 2, four + 2, 2);
    vp8model_status s = vp8model_bilinear_mb_luma(halo, mx, my, block);
    require(s.refusal == 0, "a bilinear macroblock was refused");
    return block[below ? 16 : 0];
}

/* Two products, and the library's sample, across and down, which has to follow from them. */
static void print_row(uint32_t k, uint8_t sample, uint8_t next)
{
    const uint8_t beside[4] = {sample, next, 9, 9}, below[4] = {sample, 9, next, 9};
    unsigned sum = (128 - 16 * k) * sample + 16 * k * next;
    unsigned filtered = of_four(beside, k, 0, 0);
    require(filtered == (sum + 64) / 128 && filtered == of_four(below, 0, k, 0),
            "a bilinear sample does not follow from its products");
    printf("row %" PRIu32 " on %u %u: products %u, sample %u\n", k, (unsigned)sample, (unsigned)next, sum, filtered);
}

static void print_four(uint32_t mx, uint32_t my)
{
    static const uint8_t four[4] = {0, 0, 1, 3};
    printf("0 0 over 1 3 by (%" PRIu32 ", 0): %u over %u; by (%" PRIu32 ", %" PRIu32 "): %u\n", mx,
           of_four(four, mx, 0, 0), of_four(four, mx, 0, 1), mx, my, of_four(four, mx, my, 0));
}

/* The picture 0 0 over 1 3 and a source of 0. */
static void print_versions_of_sad(int16_t row, int16_t col)
{
    static const uint8_t picture[4] = {0, 0, 1, 3};
    memset(source, 0, sizeof source);
    printf("SAD of (%d, %d):", row, col);
    for (uint8_t version = 0; version <= 3; version++) {
        vp8model_sad s = vp8model_mb_luma_sad_at_mv(picture, 4, 2, 2, 2, 0, 0, source, row, col, version);
        printf("%s version %u %s%" PRIu32, version == 0 ? "" : ",", (unsigned)version, s.refusal != 0 ? "refusal " : "",
               s.refusal != 0 ? s.refusal : s.sad);
    }
    printf("\n");
}

/* The picture 0 100 0 and a source whose rows are `first`, `second` and zeros. */
static void print_versions_of_refinement(const char *what, int step, int16_t row, int16_t col, uint8_t first,
                                         uint8_t second)
{
    static const uint8_t picture[3] = {0, 100, 0};
    memset(source, 0, sizeof source);
    for (int y = 0; y < 16; y++) {
        source[16 * y] = first;
        source[16 * y + 1] = second;
    }
    printf("%s of (%d, %d):", what, row, col);
    for (uint8_t version = 0; version <= 3; version++) {
        vp8model_search s =
            step == VP8MODEL_HALF_PIXEL_STEP
                ? vp8model_half_pixel_refine_luma(picture, 3, 3, 3, 1, 0, 0, source, row, col, version)
                : vp8model_quarter_pixel_refine_luma(picture, 3, 3, 3, 1, 0, 0, source, row, col, version);
        printf("%s version %u ", version == 0 ? "" : ",", (unsigned)version);
        if (s.refusal != 0)
            printf("refusal %" PRIu32, s.refusal);
        else
            printf("(%d, %d) %" PRIu32, s.row, s.col, s.sad);
    }
    printf("\n");
}

static void bilinear(void)
{
    open_case("bilinear");
    print_row(1, 255, 0);
    print_row(2, 100, 104);
    print_row(4, 0, 255);
    print_row(7, 10, 20);
    print_four(2, 6);
    print_four(6, 2);
    print_versions_of_sad(3, 1);
    print_versions_of_refinement("half", VP8MODEL_HALF_PIXEL_STEP, 0, 0, 1, 0);
    print_versions_of_refinement("quarter", VP8MODEL_QUARTER_PIXEL_STEP, 0, 2, 45, 71);
    close_case();
}

/* ---- a whole picture: 17 by 16, all rows alike, and two macroblocks, the second of which is cut */

#define PICTURE_SAMPLES (17 * 16)

static uint8_t reference_plane[PICTURE_SAMPLES], source_plane[PICTURE_SAMPLES];

static void lend_picture(void)
{
    for (int i = 0; i < PICTURE_SAMPLES; i++) {
        reference_plane[i] = i % 17 == 16 ? 100 : 0;
        source_plane[i] = i % 17 == 16 ? 30 : i % 17 == 15 ? 100 : 0;
    }
}

/* The source block of the macroblock in this column; its rows have to be alike. */
static void print_source_block(size_t column)
{
    vp8model_status s = vp8model_fetch_luma_mb_whole_pixel(source_plane, PICTURE_SAMPLES, 17, 17, 16, 16 * column, 0, 0,
                                                           0, source);
    require(s.refusal == 0, "a fetch was refused");
    require(memcmp(source, source + 16, 240) == 0, "the rows of a source block differ");
    printf("macroblock %zu, each row of its source block:", column);
    print_bytes("", source, 16);
    printf("\n");
}

/* What the single calls give for that block, with at most two rounds. */
static void print_single_calls(size_t column, uint8_t version)
{
    const uint8_t *plane = reference_plane;
    vp8model_diamond d = vp8model_small_diamond_search_luma(plane, PICTURE_SAMPLES, 17, 17, 16, column, 0, source, 0, 0,
                                                            2);
    vp8model_search h = vp8model_half_pixel_refine_luma(plane, PICTURE_SAMPLES, 17, 17, 16, column, 0, source, d.row,
                                                        d.col, version);
    vp8model_search q = vp8model_quarter_pixel_refine_luma(plane, PICTURE_SAMPLES, 17, 17, 16, column, 0, source, h.row,
                                                           h.col, version);
    require(d.refusal == 0 && h.refusal == 0 && q.refusal == 0, "a single call was refused");
    printf("macroblock %zu, version %u: diamond (%d, %d) %" PRIu32, column, (unsigned)version, d.row, d.col, d.sad);
    printf(", half (%d, %d) %" PRIu32 ", quarter (%d, %d) %" PRIu32 "\n", h.row, h.col, h.sad, q.row, q.col, q.sad);
}

/* One call: its strides and height, the bytes of the source and the entries of the SADs that are lent. */
typedef struct picture_call {
    const char *what;
    size_t height, stride, source_stride, source_len;
    uint32_t limit;
    uint8_t version;
    size_t sads_len;
} picture_call;

static void print_lists(const int16_t *rows, const int16_t *cols, const uint32_t *held, size_t shown)
{
    printf("; rows");
    for (size_t i = 0; i < shown; i++)
        printf(" %d", rows[i]);
    printf("; columns");
    for (size_t i = 0; i < shown; i++)
        printf(" %d", cols[i]);
    print_words("; SADs", held, shown);
    printf("\n");
}

/* The entries of the lists, first 7, and one more than the picture has macroblocks. */
static void print_picture(picture_call c)
{
    int16_t rows[5] = {MARK, MARK, MARK, MARK, MARK}, cols[5] = {MARK, MARK, MARK, MARK, MARK};
    uint32_t held[5] = {MARK, MARK, MARK, MARK, MARK};
    size_t shown = c.height == 16 ? 3 : 5;
    vp8model_picture p = vp8model_search_picture_luma(reference_plane, PICTURE_SAMPLES, c.stride, 17, c.height,
                                                      source_plane, c.source_len, c.source_stride, c.limit, c.version,
                                                      rows, shown, cols, shown, held, c.sads_len);
    if (p.refusal != 0)
        printf("%s: refusal %" PRIu32, c.what, p.refusal);
    else
        printf("%s: macroblocks %" PRIu32, c.what, p.macroblocks);
    print_lists(rows, cols, held, shown);
}

static void picture(void)
{
    static const picture_call calls[] = {
        {"version 1, limit 2", 16, 17, 17, 272, 2, 1, 3},
        {"version 0, limit 2", 16, 17, 17, 272, 2, 0, 3},
        {"version 1, limit 0", 16, 17, 17, 272, 0, 1, 3},
        {"version 1, limit 4294967295", 16, 17, 17, 272, UINT32_MAX, 1, 3},
        {"source of 17 bytes, stride 0", 16, 17, 0, 17, 2, 1, 3},
        {"height 17, both strides 0", 17, 0, 0, 17, 2, 1, 5},
        {"SADs of 2", 16, 17, 17, 272, 2, 1, 2},
        {"SADs of 1", 16, 17, 17, 272, 2, 1, 1},
        {"source of 271 bytes", 16, 17, 17, 271, 2, 1, 3},
        {"source of 271 bytes, SADs of 1", 16, 17, 17, 271, 2, 1, 1},
        {"version 3, source of 271 bytes", 16, 17, 17, 271, 2, 3, 3},
    };
    lend_picture();
    open_case("picture");
    for (size_t column = 0; column <= 1; column++) {
        print_source_block(column);
        print_single_calls(column, 1);
        print_single_calls(column, 0);
    }
    for (size_t i = 0; i < sizeof calls / sizeof calls[0]; i++)
        print_picture(calls[i]);
    close_case();
}

/* ---- a picture within an allowance: 48 by 16, all rows alike, and three macroblocks */

#define STRIP_WIDTH 48
#define STRIP_SAMPLES (STRIP_WIDTH * 16)

static uint8_t strip[STRIP_SAMPLES], strip_source[STRIP_SAMPLES];

static void lend_flat(void)
{
    memset(strip, 100, sizeof strip);
    memset(strip_source, 103, sizeof strip_source);
}

/* The source is the slope, and 40 below it but in the first macroblock; turned, but in the last. */
static void lend_slope(int turned)
{
    for (int i = 0; i < STRIP_SAMPLES; i++) {
        int x = i % STRIP_WIDTH, along = turned ? STRIP_WIDTH - 1 - x : x;
        strip[i] = (uint8_t)(4 * along);
        strip_source[i] = (uint8_t)(along < 16 ? 4 * along : 4 * along - 40);
    }
}

/* What the single calls give for a macroblock with so many rounds, and the comparisons that they make. */
static vp8model_search strip_search(size_t column, uint32_t rounds, uint32_t *made)
{
    vp8model_status f = vp8model_fetch_luma_mb_whole_pixel(strip_source, STRIP_SAMPLES, STRIP_WIDTH, STRIP_WIDTH, 16,
                                                           16 * column, 0, 0, 0, source);
    vp8model_diamond d = vp8model_small_diamond_search_luma(strip, STRIP_SAMPLES, STRIP_WIDTH, STRIP_WIDTH, 16, column,
                                                            0, source, 0, 0, rounds);
    vp8model_search h = vp8model_half_pixel_refine_luma(strip, STRIP_SAMPLES, STRIP_WIDTH, STRIP_WIDTH, 16, column, 0,
                                                        source, d.row, d.col, 1);
    vp8model_search q = vp8model_quarter_pixel_refine_luma(strip, STRIP_SAMPLES, STRIP_WIDTH, STRIP_WIDTH, 16, column,
                                                           0, source, h.row, h.col, 1);
    require(f.refusal == 0 && d.refusal == 0 && h.refusal == 0 && q.refusal == 0, "a single call was refused");
    *made = d.sads + 9 + 9;
    return q;
}

/* The grants and rounds of the three macroblocks and the comparisons of each, whose sum is given; with those rounds the
 * single calls have to give the lists. */
static uint32_t print_account(uint32_t allowance, const int16_t *rows, const int16_t *cols, const uint32_t *held)
{
    uint32_t remains = allowance, grants[3], rounds[3], made[3];
    for (uint32_t i = 0; i < 3; i++) {
        grants[i] = remains / (3 - i);
        rounds[i] = (grants[i] - 19) / 4;
        vp8model_search q = strip_search(i, rounds[i], &made[i]);
        require(q.row == rows[i] && q.col == cols[i] && q.sad == held[i], "an entry does not follow from its grant");
        remains -= made[i];
    }
    print_words("grants", grants, 3);
    print_words("; rounds", rounds, 3);
    print_words("; comparisons", made, 3);
    printf("\n");
    return allowance - remains;
}

/* The entries of the lists, first 7, and one more than the picture has macroblocks; `sads_len` of the last are lent. */
static void print_allowance(const char *what, uint32_t allowance, uint8_t version, size_t sads_len)
{
    int16_t rows[4] = {MARK, MARK, MARK, MARK}, cols[4] = {MARK, MARK, MARK, MARK};
    uint32_t held[4] = {MARK, MARK, MARK, MARK};
    vp8model_allowed a = vp8model_search_picture_luma_within(strip, STRIP_SAMPLES, STRIP_WIDTH, STRIP_WIDTH, 16,
                                                             strip_source, STRIP_SAMPLES, STRIP_WIDTH, allowance,
                                                             version, rows, 4, cols, 4, held, sads_len);
    if (a.refusal != 0) {
        printf("%s: refusal %" PRIu32, what, a.refusal);
    } else {
        printf("%s: ", what);
        uint32_t made = print_account(allowance, rows, cols, held);
        require(made == a.comparisons, "the comparisons do not follow from the grants");
        printf("%s: macroblocks %" PRIu32 ", comparisons %" PRIu32, what, a.macroblocks, a.comparisons);
    }
    print_lists(rows, cols, held, 4);
}

static void allowance(void)
{
    open_case("allowance");
    lend_flat();
    print_allowance("flat, T = 100", 100, 1, 4);
    print_allowance("flat, T = 57", 57, 1, 4);
    print_allowance("flat, T = 56", 56, 1, 4);
    lend_slope(0);
    print_allowance("slope, T = 100", 100, 1, 4);
    print_allowance("slope, T = 57", 57, 1, 4);
    print_allowance("slope, T = 60", 60, 1, 4);
    print_allowance("slope, T = 61", 61, 1, 4);
    print_allowance("slope, T = 4294967295", UINT32_MAX, 1, 4);
    print_allowance("slope, T = 56, SADs of 2", 56, 1, 2);
    print_allowance("slope, T = 56, version 3", 56, 3, 4);
    lend_slope(1);
    print_allowance("slope turned, T = 100", 100, 1, 4);
    close_case();
}

/* ---- strides below the width */

static const uint8_t few[6] = {10, 20, 30, 40, 50, 60};

/* The first five columns and rows of what is fetched from the first `length` of these bytes, 3 columns and 4 rows: the
 * macroblock, or its halo. */
static void print_fetch(const char *what, size_t length, size_t stride, int of_halo, size_t x, size_t y, int16_t row,
                        int16_t col)
{
    uint8_t block[256];
    vp8model_status s =
        of_halo ? vp8model_fetch_luma_mb_halo(few, length, stride, 3, 4, x, y, row, col, halo)
                : vp8model_fetch_luma_mb_whole_pixel(few, length, stride, 3, 4, x, y, row, col, block);
    require(s.refusal == 0, "a fetch was refused");
    printf("%s\n", what);
    for (size_t i = 0; i < 25; i++) {
        uint8_t sample = of_halo ? halo[i / 5 * 21 + i % 5] : block[i / 5 * 16 + i % 5];
        printf("%u%s", (unsigned)sample, i % 5 == 4 ? "\n" : " ");
    }
}

static void narrow_strides(void)
{
    uint8_t block[256], line[16], tens[256];
    memset(tens, 10, sizeof tens);
    for (size_t i = 0; i < 16; i++)
        line[i] = (uint8_t)i;
    open_case("narrow-strides");
    print_fetch("stride 1, from (0, 0), vector (0, 0)", 6, 1, 0, 0, 0, 0, 0);
    print_fetch("stride 1, from (1, 0), vector (17, -15)", 6, 1, 0, 1, 0, 17, -15);
    print_fetch("its halo", 6, 1, 1, 1, 0, 17, -15);
    print_fetch("stride 0, from (0, 0), vector (0, 0)", 3, 0, 0, 0, 0, 0, 0);
    printf("stride 1, 5 bytes: refusal %" PRIu32 "\n",
           vp8model_fetch_luma_mb_whole_pixel(few, 5, 1, 3, 4, 0, 0, 0, 0, block).refusal);
    vp8model_sad s = vp8model_mb_luma_sad_at_whole_mv(line, 16, 0, 16, 16, 0, 0, tens, 0, 0);
    printf("stride 0, 16 bytes, SAD: refusal %" PRIu32 ", SAD %" PRIu32 "\n", s.refusal, s.sad);
    printf("short plane of 3 bytes, stride 9, width 3, height 0, 1, 2: %u %u %u\n",
           (unsigned)vp8model_short_plane(3, 9, 3, 0), (unsigned)vp8model_short_plane(3, 9, 3, 1),
           (unsigned)vp8model_short_plane(3, 9, 3, 2));
    close_case();
}

int main(void)
{
    strengths();
    small_windows();
    caps();
    edge();
    corner();
    diamond();
    refinements();
    orders();
    two_passes();
    half_components();
    half_passes();
    three_planes();
    three_areas();
    three_rules();
    bilinear();
    picture();
    allowance();
    narrow_strides();
    return 0;
}
