/*
 * A proved model of a VP8 encoder's picture pre-filter and luma motion search, for C and C++.
 *
 * Link target/staticlib/libmodel.a, which tools/staticlib writes (x86-64).
 *
 * Any numbers may be passed. A pointer and its length, in entries, name a lent slice, which is readable,
 * and writable where it is not const; it is aligned as its type asks, and where its length is 0 the pointer
 * still is not null. Fixed arrays are lent alike and have the length that is written. A writable slice or
 * array shares no byte with another argument.
 *
 * The first field of every struct that is returned, but vp8model_frame, is `refusal`: 0 where the call is
 * accepted, else the number of the first refusal that applies, in the order of the lines below. Every field
 * that the refusal does not name is then 0, and every lent slice and array holds what it held before. Calls
 * that are never refused give their number, frame or array as it is; vp8model_stored_luma_mv and
 * vp8model_block_sad_16x16_up_to, which are never refused either, give a refusal of 0.
 *
 *   1  the centre index is not below the frame count
 *   2  the frame count exceeds 1024
 *   3  the centre's width or height is 0 or above 16383: width, height
 *   4  a frame's size differs from the centre's: other_width, other_height of the first such frame,
 *      width, height of the centre
 *  29  a frame's cap exceeds 16: frame, the index of the first such frame
 *   5  a plane does not fit the picture bytes: frame, the index of the first such frame
 *   6  the output slice is shorter than P, the samples of all three planes
 *   7  either of the two working slices is shorter than P
 *  23  the version exceeds 2
 *   8  the reference width or height is 0 or above 16383
 *   9  the reference plane is shorter than (height - 1) * stride + width
 *  14  the source plane is shorter than (height - 1) * source_stride + width
 *  10  a macroblock column or row exceeds 1023, or a fetch's pixel origin exceeds 16368 in either direction
 *  11  a component of a vector to be measured or refined is outside -1023..1023
 *  12  a component is not a multiple of 4 (whole-pixel SAD, half refinement) or of 2 (quarter refinement)
 *  13  a filter selector exceeds 7
 *  15  a lent list has fewer entries than the picture has macroblocks
 *  30  the allowance is below 19 times the number of macroblocks
 */
#ifndef VP8MODEL_H
#define VP8MODEL_H

#include <stddef.h>
#include <stdint.h>

#ifdef __cplusplus
extern "C" {
#endif

#define VP8MODEL_MV_MIN (-1023)
#define VP8MODEL_MV_MAX 1023
#define VP8MODEL_WHOLE_PIXEL_STEP 4
#define VP8MODEL_HALF_PIXEL_STEP 2
#define VP8MODEL_QUARTER_PIXEL_STEP 1
#define VP8MODEL_NO_CEILING 65281
#define VP8MODEL_MAX_STRENGTH 6
#define VP8MODEL_NUMBERS_PER_FRAME 8
#define VP8MODEL_MAX_CAP 16

/* Whether a call that fills an array was accepted. */
typedef struct vp8model_status {
    uint32_t refusal;
} vp8model_status;

/* One filtered sample. */
typedef struct vp8model_sample {
    uint32_t refusal;
    uint32_t sample;
} vp8model_sample;

/* A motion vector; refusal is always 0. */
typedef struct vp8model_vector {
    uint32_t refusal;
    int16_t row;
    int16_t col;
} vp8model_vector;

/* The sum of absolute differences (SAD) of a macroblock and its prediction, 0 to 65280. */
typedef struct vp8model_sad {
    uint32_t refusal;
    uint32_t sad;
} vp8model_sad;

/* A SAD up to a ceiling: the lesser of the two, and the rows measured, 1 to 16; refusal is always 0. */
typedef struct vp8model_ceiled {
    uint32_t refusal;
    uint32_t sad;
    uint32_t rows;
} vp8model_ceiled;

/* The best vector of a refinement, in quarter pixels, and its SAD. */
typedef struct vp8model_search {
    uint32_t refusal;
    int16_t row;
    int16_t col;
    uint32_t sad;
} vp8model_search;

/* The diamond's last best, in quarter pixels, and its SAD; the SADs computed, the first included; the
 * rounds made, a last one without a move included. */
typedef struct vp8model_diamond {
    uint32_t refusal;
    int16_t row;
    int16_t col;
    uint32_t sad;
    uint32_t sads;
    uint32_t rounds;
} vp8model_diamond;

/* The number of macroblocks of a picture that was searched, 1 to 1048576. */
typedef struct vp8model_picture {
    uint32_t refusal;
    uint32_t macroblocks;
} vp8model_picture;

/* The number of macroblocks of a picture that was searched within an allowance, 1 to 1048576, and that of
 * the comparisons made for them, 19 for each macroblock or more. */
typedef struct vp8model_allowed {
    uint32_t refusal;
    uint32_t macroblocks;
    uint32_t comparisons;
} vp8model_allowed;

/* A frame: its size, where its planes start in the picture bytes, the bytes from row to row, and its cap, 0 to
 * 16: the share of a frame other than the centre is min(cap, w(e)), as the builders below say. */
typedef struct vp8model_frame {
    uint32_t width;
    uint32_t height;
    uint32_t y;
    uint32_t u;
    uint32_t v;
    uint32_t luma_stride;
    uint32_t chroma_stride;
    uint32_t cap;
} vp8model_frame;

/* A builder's answer: the picture's size and the number of accepted blocks over all other frames, or a
 * refusal's values (see the table above); the other fields are 0. */
typedef struct vp8model_build {
    uint32_t refusal;
    uint32_t width;
    uint32_t height;
    uint32_t accepted;
    uint32_t other_width;
    uint32_t other_height;
    uint32_t frame;
} vp8model_build;

/* Samples and vectors. v clamped to 0..255, and |a - b|: both by arithmetic alone, as the silicon's clamp and
 * difference cells do them. A vector is in quarter pixels; stored, it is in eighths: each component doubled,
 * wrapping. whole_offset and fraction take a component in eighths: an eighth of it rounded down, also below
 * zero, and the rest, 0 to 7. */
uint8_t vp8model_clamp255(int32_t v);
uint8_t vp8model_abs_diff(uint8_t a, uint8_t b);
vp8model_vector vp8model_stored_luma_mv(int16_t row, int16_t col);
int32_t vp8model_whole_offset(int16_t v);
uint32_t vp8model_fraction(int16_t v);

/* 0: the six-tap rows, for version 0; 1: the bilinear rows, for every other. A call that predicts by a
 * version takes 0, 1 and 2 alone: refusal 23. */
uint32_t vp8model_filter_set_for_version(uint8_t version);

/* One sample by the six-tap row of a selector, and a macroblock from its halo by the six-tap rows or by the
 * bilinear ones: selector mx across, then my down, rounded after each. Bilinear row k has the taps
 * 128 - 16 k on the sample and 16 k on the next one. Refusal 13. */
vp8model_sample vp8model_interp(uint32_t selector, const uint8_t support[6]);
vp8model_status vp8model_sixtap_mb_luma(const uint8_t halo[441], uint32_t mx, uint32_t my,
                                        uint8_t block[256]);
vp8model_status vp8model_bilinear_mb_luma(const uint8_t halo[441], uint32_t mx, uint32_t my,
                                          uint8_t block[256]);

/* Whether refusal 8, or refusal 9 at a plane of `len` bytes, applies: 1 or 0. vp8model_short_plane counts a
 * height of 0 as one row. */
uint8_t vp8model_bad_size(size_t width, size_t height);
uint8_t vp8model_short_plane(size_t len, size_t stride, size_t width, size_t height);

/* The macroblock, or its halo, at pixel origin (x, y) moved by the whole offset of a vector in eighths.
 * Refusals 8 to 10. */
vp8model_status vp8model_fetch_luma_mb_whole_pixel(const uint8_t *plane, size_t plane_len, size_t stride,
                                                   size_t width, size_t height, size_t x, size_t y,
                                                   int16_t mv_row, int16_t mv_col, uint8_t block[256]);
vp8model_status vp8model_fetch_luma_mb_halo(const uint8_t *plane, size_t plane_len, size_t stride,
                                            size_t width, size_t height, size_t x, size_t y,
                                            int16_t mv_row, int16_t mv_col, uint8_t halo[441]);

/* SADs of a source macroblock and its prediction. vp8model_block_sad_16x16 takes both as they are and
 * refuses nothing; nor does vp8model_block_sad_16x16_up_to, which adds row by row and ends with the
 * first row after which the sum is not below the ceiling: at a ceiling of 0 with the first row. A ceiling
 * of VP8MODEL_NO_CEILING or more is never reached: the whole SAD and 16 rows. At a whole vector, where the
 * prediction is a copy: refusals 8 to 12. At any vector, by the filters of a version: refusals 23 and 8 to
 * 11. */
uint32_t vp8model_block_sad_16x16(const uint8_t src[256], const uint8_t pred[256]);
vp8model_ceiled vp8model_block_sad_16x16_up_to(const uint8_t src[256], const uint8_t pred[256],
                                               uint32_t ceiling);
vp8model_sad vp8model_mb_luma_sad_at_whole_mv(const uint8_t *plane, size_t plane_len, size_t stride,
                                              size_t width, size_t height, size_t mb_col, size_t mb_row,
                                              const uint8_t src_y[256], int16_t mv_row, int16_t mv_col);
vp8model_sad vp8model_mb_luma_sad_at_mv(const uint8_t *plane, size_t plane_len, size_t stride,
                                        size_t width, size_t height, size_t mb_col, size_t mb_row,
                                        const uint8_t src_y[256], int16_t mv_row, int16_t mv_col,
                                        uint8_t version);

/* The small diamond from any centre, at most max_iters rounds: refusals 8 to 10. Half and quarter
 * refinement of a centre, by the filters of a version: refusals 23 and 8 to 12. Vectors are in quarter
 * pixels. */
vp8model_diamond vp8model_small_diamond_search_luma(const uint8_t *plane, size_t plane_len, size_t stride,
                                                    size_t width, size_t height, size_t mb_col,
                                                    size_t mb_row, const uint8_t src_y[256],
                                                    int16_t center_row, int16_t center_col,
                                                    uint32_t max_iters);
vp8model_search vp8model_half_pixel_refine_luma(const uint8_t *plane, size_t plane_len, size_t stride,
                                                size_t width, size_t height, size_t mb_col, size_t mb_row,
                                                const uint8_t src_y[256], int16_t center_row,
                                                int16_t center_col, uint8_t version);
vp8model_search vp8model_quarter_pixel_refine_luma(const uint8_t *plane, size_t plane_len, size_t stride,
                                                   size_t width, size_t height, size_t mb_col,
                                                   size_t mb_row, const uint8_t src_y[256],
                                                   int16_t center_row, int16_t center_col,
                                                   uint8_t version);

/* Every macroblock of a picture. Reference and source have one size and a stride each, and may be the same
 * bytes. There are C = (width + 15) / 16 columns of macroblocks and (height + 15) / 16 rows; entry i of each
 * list belongs to the macroblock in column i % C and row i / C. Its source block begins at (16 * column,
 * 16 * row) of the source; past the right or bottom edge it has the nearest edge sample. The diamond starts
 * at (0, 0) and makes at most max_iters rounds, half refinement takes its vector, quarter refinement takes
 * that one's, and row, column and SAD of the last are written. Entries past the macroblocks are unchanged.
 * Refusals 23, 8, 9, 14 and 15, in this order; 10 to 12 cannot occur. */
vp8model_picture vp8model_search_picture_luma(const uint8_t *plane, size_t plane_len, size_t stride,
                                              size_t width, size_t height, const uint8_t *source,
                                              size_t source_len, size_t source_stride, uint32_t max_iters,
                                              uint8_t version, int16_t *rows, size_t rows_len,
                                              int16_t *cols, size_t cols_len, uint32_t *sads,
                                              size_t sads_len);

/* The same within an allowance of comparisons for the whole picture. A comparison is one SAD computed, cut
 * short by a ceiling or not: a macroblock makes those of its diamond, the start included, and nine in each
 * refinement, the centre included. Before a macroblock what remains is the allowance less the comparisons
 * made for those before it, in the order of the lists. Its grant is that divided by the macroblocks left,
 * itself included, and its diamond makes at most (grant - 19) / 4 rounds, both rounded down; so it makes no
 * more comparisons than its grant. The macroblocks and the comparisons made come back, the latter at least
 * 19 * macroblocks and at most the allowance. Refusals 23, 8, 9, 14, 15 and 30, in this order. */
vp8model_allowed vp8model_search_picture_luma_within(const uint8_t *plane, size_t plane_len, size_t stride,
                                                     size_t width, size_t height, const uint8_t *source,
                                                     size_t source_len, size_t source_stride,
                                                     uint32_t allowance, uint8_t version, int16_t *rows,
                                                     size_t rows_len, int16_t *cols, size_t cols_len,
                                                     uint32_t *sads, size_t sads_len);

/* The weights w(e) of the differences e from 0 to 255 at a strength, one of them, the scale, and the distance
 * bound: n other frames move no sample farther, whatever their caps. Strengths 7 to 255 are read as 6; at 0
 * every weight is 0. */
void vp8model_curve(uint8_t strength, uint32_t curve[256]);
uint32_t vp8model_weight(uint8_t strength, uint8_t e);
uint32_t vp8model_scale_of(uint8_t strength);
uint32_t vp8model_distance_bound(uint32_t n, uint8_t strength);

/* A configuration is its strength byte: new stores at most 6, default is 3, with_strength stores v. */
uint8_t vp8model_arnr_config_new(uint8_t strength);
uint8_t vp8model_arnr_config_default(void);
uint8_t vp8model_arnr_config_with_strength(uint8_t config, uint8_t v);

/* Frames as eight numbers each, in the order of vp8model_frame: how many there are (numbers left over are
 * not read), and frame g; from the frame count on, the frame of zeros. Only the builders and their checks look
 * at caps: vp8model_frame_at hands the number out as it is, also above 16. */
size_t vp8model_frame_count(const uint32_t *numbers, size_t numbers_len);
vp8model_frame vp8model_frame_at(const uint32_t *numbers, size_t numbers_len, size_t g);

/* The builder's checks alone, by the lengths of its three lent slices: the picture's size, or the first of
 * the refusals 1, 2, 3, 4, 29, 5, 6 and 7, in this order; accepted is 0. */
vp8model_build vp8model_check_build(const uint8_t *bytes, size_t bytes_len, const uint32_t *numbers,
                                    size_t numbers_len, size_t centre, size_t output_len, size_t sums_len,
                                    size_t weights_len);

/* The builder over numbers and over records. Refusals 1, 2, 3, 4, 29, 5, 6 and 7, in this order. Where it is
 * accepted, the first P entries of output are Y, U and V, packed; those of sums and weights the sums and
 * total weights, unless the centre is only cropped (one frame, or strength 0), where they are unchanged.
 * Entries past P are unchanged.
 *
 * At each sample the centre weighs 16. Another frame's share is min(cap, w(e)) where its block is accepted,
 * else 0: the lesser of that frame's cap and the curve's weight of e, the difference of its displaced sample
 * and the centre sample. The centre's cap is checked (29) and not used. A frame with cap 0 has no share, but
 * its blocks are searched, accepted and counted as with any other cap. With every cap 16 the answers are those
 * of the Rust original.
 *
 * The frames may be listed in any order: two accepted calls of one builder, this one or one of those below, on
 * the same bytes, strength and frames, each as often, with a centre of the same eight numbers at any index,
 * return the same numbers and leave the same first P entries, as far as they write them. */
vp8model_build vp8model_build_from_numbers(const uint8_t *bytes, size_t bytes_len,
                                           const uint32_t *numbers, size_t numbers_len, size_t centre,
                                           uint8_t strength, uint8_t *output, size_t output_len,
                                           uint32_t *sums, size_t sums_len, uint32_t *weights,
                                           size_t weights_len);
vp8model_build vp8model_build_arnr_altref(const uint8_t *bytes, size_t bytes_len,
                                          const vp8model_frame *frames, size_t frames_len, size_t centre,
                                          uint8_t strength, uint8_t *output, size_t output_len,
                                          uint32_t *sums, size_t sums_len, uint32_t *weights,
                                          size_t weights_len);

/* The builder with half samples in U and V, as RFC 6386 has them for a whole-pixel luma vector, where the two
 * above halve an odd component of the displacement toward zero. Parameters, refusals, cropping and caps are
 * those of vp8model_build_from_numbers, and so are Y in all three slices and the accepted blocks. The
 * displaced sample in U and V is another. Each component d of the block's luma displacement, by itself, gives
 * a whole offset, half of d rounded down, and a selector: 0 where d is even, 4 where it is odd. So -1 gives
 * -1 and 4, and 1 gives 0 and 4. With both even the sample at the offset is copied. Else it goes through two
 * passes, across by the selector of the column's component, then down by that of the row's, each as
 * vp8model_interp filters. What they read is the frame's own U or V, with the edge samples of that plane
 * repeated. Difference, share, sum and denoised sample are made of this sample. The Rust original has no such
 * call.
 *
 * There is none over records: an array of vp8model_frame may be passed as its numbers, eight for each, by
 * (const uint32_t *)frames and VP8MODEL_NUMBERS_PER_FRAME times their count. */
vp8model_build vp8model_build_half_sample(const uint8_t *bytes, size_t bytes_len, const uint32_t *numbers,
                                          size_t numbers_len, size_t centre, uint8_t strength,
                                          uint8_t *output, size_t output_len, uint32_t *sums,
                                          size_t sums_len, uint32_t *weights, size_t weights_len);

/* The builder that accepts a block on all three planes together, once for each rule of U and V: the
 * displacement halved toward zero, as vp8model_build_from_numbers has it, or half samples, as
 * vp8model_build_half_sample has them. Parameters, refusals, cropping, caps, displaced samples and the search,
 * which looks at Y alone, are those of the builder with that rule. They differ in which blocks are accepted: the
 * builders above accept a frame's block where its SAD in Y is below 13 times the block's samples there. These
 * two ask Y, U and V, each by itself, and accept it where all three pass. A plane passes where its SAD is below
 * 13 times the samples that the block has in that plane: of a block of w columns and h rows, which is cut at the
 * picture's edge, w * h in Y and ((w + 1) / 2) * ((h + 1) / 2) in U and in V. The SAD of a plane is over these
 * samples, the centre's against the frame's displaced samples as the rule makes them. So of a whole block 3327
 * passes in Y and 831 in U or V, and 3328 and 832 do not. Nothing is added up across planes, and caps play no
 * part.
 *
 * A block that is not accepted has no share in any of the three planes, Y included, and is not counted: accepted
 * is at most what the builder with that rule gives. Where U and V of every block that it accepts pass, both give
 * the same answer and slices. The Rust original has no such calls. Records are passed as their numbers here
 * too. */
vp8model_build vp8model_build_three_planes(const uint8_t *bytes, size_t bytes_len, const uint32_t *numbers,
                                           size_t numbers_len, size_t centre, uint8_t strength,
                                           uint8_t *output, size_t output_len, uint32_t *sums,
                                           size_t sums_len, uint32_t *weights, size_t weights_len);
vp8model_build vp8model_build_three_planes_half_sample(const uint8_t *bytes, size_t bytes_len,
                                                       const uint32_t *numbers, size_t numbers_len,
                                                       size_t centre, uint8_t strength, uint8_t *output,
                                                       size_t output_len, uint32_t *sums, size_t sums_len,
                                                       uint32_t *weights, size_t weights_len);

#ifdef __cplusplus
}
#endif

#endif
