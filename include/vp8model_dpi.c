/*
 * The calls of vp8model.h that vp8model.svh cannot import as they are: slices come as open arrays, a size_t as a
 * longint unsigned, and an answer goes to the words of a packed struct, which are those of the C struct (little endian).
 */
#include "vp8model.h"

#include "svdpi.h"

#include <string.h>

#ifdef __cplusplus
extern "C" {
#endif

/* An open array of a type that has no C layout in the simulator counts as empty. */
static size_t length(const svOpenArrayHandle array)
{
    return svGetArrayPtr(array) != NULL ? (size_t)svSize(array, 1) : 0;
}

/* The entries, also of an empty array: the pointer is never null. */
static void *entries(const svOpenArrayHandle array)
{
    static uint32_t none;
    void *at = svGetArrayPtr(array);
    return at != NULL ? at : &none;
}

static const uint8_t *bytes_of(const svOpenArrayHandle array)
{
    return (const uint8_t *)entries(array);
}

static const uint32_t *words_of(const svOpenArrayHandle array)
{
    return (const uint32_t *)entries(array);
}

void vp8model_dpi_stored_luma_mv(int16_t row, int16_t col, svBitVecVal *answer)
{
    vp8model_vector v = vp8model_stored_luma_mv(row, col);
    memcpy(answer, &v, sizeof v);
}

void vp8model_dpi_interp(uint32_t selector, const uint8_t *support, svBitVecVal *answer)
{
    vp8model_sample s = vp8model_interp(selector, support);
    memcpy(answer, &s, sizeof s);
}

void vp8model_dpi_sixtap_mb_luma(const uint8_t *halo, uint32_t mx, uint32_t my, uint8_t *block,
                                 svBitVecVal *answer)
{
    vp8model_status s = vp8model_sixtap_mb_luma(halo, mx, my, block);
    memcpy(answer, &s, sizeof s);
}

void vp8model_dpi_bilinear_mb_luma(const uint8_t *halo, uint32_t mx, uint32_t my, uint8_t *block,
                                   svBitVecVal *answer)
{
    vp8model_status s = vp8model_bilinear_mb_luma(halo, mx, my, block);
    memcpy(answer, &s, sizeof s);
}

uint8_t vp8model_dpi_bad_size(uint64_t width, uint64_t height)
{
    return vp8model_bad_size(width, height);
}

uint8_t vp8model_dpi_short_plane(uint64_t len, uint64_t stride, uint64_t width, uint64_t height)
{
    return vp8model_short_plane(len, stride, width, height);
}

void vp8model_dpi_fetch_luma_mb_whole_pixel(const svOpenArrayHandle plane, uint64_t stride, uint64_t width,
                                            uint64_t height, uint64_t x, uint64_t y, int16_t mv_row,
                                            int16_t mv_col, uint8_t *block, svBitVecVal *answer)
{
    vp8model_status s = vp8model_fetch_luma_mb_whole_pixel(bytes_of(plane), length(plane), stride, width,
                                                           height, x, y, mv_row, mv_col, block);
    memcpy(answer, &s, sizeof s);
}

void vp8model_dpi_fetch_luma_mb_halo(const svOpenArrayHandle plane, uint64_t stride, uint64_t width,
                                     uint64_t height, uint64_t x, uint64_t y, int16_t mv_row, int16_t mv_col,
                                     uint8_t *halo, svBitVecVal *answer)
{
    vp8model_status s = vp8model_fetch_luma_mb_halo(bytes_of(plane), length(plane), stride, width, height, x,
                                                    y, mv_row, mv_col, halo);
    memcpy(answer, &s, sizeof s);
}

void vp8model_dpi_block_sad_16x16_up_to(const uint8_t *src, const uint8_t *pred, uint32_t ceiling,
                                        svBitVecVal *answer)
{
    vp8model_ceiled c = vp8model_block_sad_16x16_up_to(src, pred, ceiling);
    memcpy(answer, &c, sizeof c);
}

void vp8model_dpi_mb_luma_sad_at_whole_mv(const svOpenArrayHandle plane, uint64_t stride, uint64_t width,
                                          uint64_t height, uint64_t mb_col, uint64_t mb_row,
                                          const uint8_t *src_y, int16_t mv_row, int16_t mv_col,
                                          svBitVecVal *answer)
{
    vp8model_sad s = vp8model_mb_luma_sad_at_whole_mv(bytes_of(plane), length(plane), stride, width, height,
                                                      mb_col, mb_row, src_y, mv_row, mv_col);
    memcpy(answer, &s, sizeof s);
}

void vp8model_dpi_mb_luma_sad_at_mv(const svOpenArrayHandle plane, uint64_t stride, uint64_t width,
                                    uint64_t height, uint64_t mb_col, uint64_t mb_row, const uint8_t *src_y,
                                    int16_t mv_row, int16_t mv_col, uint8_t version, svBitVecVal *answer)
{
    vp8model_sad s = vp8model_mb_luma_sad_at_mv(bytes_of(plane), length(plane), stride, width, height, mb_col,
                                                mb_row, src_y, mv_row, mv_col, version);
    memcpy(answer, &s, sizeof s);
}

void vp8model_dpi_small_diamond_search_luma(const svOpenArrayHandle plane, uint64_t stride, uint64_t width,
                                            uint64_t height, uint64_t mb_col, uint64_t mb_row,
                                            const uint8_t *src_y, int16_t center_row, int16_t center_col,
                                            uint32_t max_iters, svBitVecVal *answer)
{
    vp8model_diamond d = vp8model_small_diamond_search_luma(bytes_of(plane), length(plane), stride, width,
                                                            height, mb_col, mb_row, src_y, center_row,
                                                            center_col, max_iters);
    memcpy(answer, &d, sizeof d);
}

void vp8model_dpi_half_pixel_refine_luma(const svOpenArrayHandle plane, uint64_t stride, uint64_t width,
                                         uint64_t height, uint64_t mb_col, uint64_t mb_row,
                                         const uint8_t *src_y, int16_t center_row, int16_t center_col,
                                         uint8_t version, svBitVecVal *answer)
{
    vp8model_search s = vp8model_half_pixel_refine_luma(bytes_of(plane), length(plane), stride, width, height,
                                                        mb_col, mb_row, src_y, center_row, center_col,
                                                        version);
    memcpy(answer, &s, sizeof s);
}

void vp8model_dpi_quarter_pixel_refine_luma(const svOpenArrayHandle plane, uint64_t stride, uint64_t width,
                                            uint64_t height, uint64_t mb_col, uint64_t mb_row,
                                            const uint8_t *src_y, int16_t center_row, int16_t center_col,
                                            uint8_t version, svBitVecVal *answer)
{
    vp8model_search s = vp8model_quarter_pixel_refine_luma(bytes_of(plane), length(plane), stride, width,
                                                           height, mb_col, mb_row, src_y, center_row,
                                                           center_col, version);
    memcpy(answer, &s, sizeof s);
}

void vp8model_dpi_search_picture_luma(const svOpenArrayHandle plane, uint64_t stride, uint64_t width,
                                      uint64_t height, const svOpenArrayHandle source, uint64_t source_stride,
                                      uint32_t max_iters, uint8_t version, const svOpenArrayHandle rows,
                                      const svOpenArrayHandle cols, const svOpenArrayHandle sads,
                                      svBitVecVal *answer)
{
    vp8model_picture p = vp8model_search_picture_luma(
        bytes_of(plane), length(plane), stride, width, height, bytes_of(source), length(source), source_stride,
        max_iters, version, (int16_t *)entries(rows), length(rows), (int16_t *)entries(cols), length(cols),
        (uint32_t *)entries(sads), length(sads));
    memcpy(answer, &p, sizeof p);
}

void vp8model_dpi_search_picture_luma_within(const svOpenArrayHandle plane, uint64_t stride, uint64_t width,
                                             uint64_t height, const svOpenArrayHandle source,
                                             uint64_t source_stride, uint32_t allowance, uint8_t version,
                                             const svOpenArrayHandle rows, const svOpenArrayHandle cols,
                                             const svOpenArrayHandle sads, svBitVecVal *answer)
{
    vp8model_allowed a = vp8model_search_picture_luma_within(
        bytes_of(plane), length(plane), stride, width, height, bytes_of(source), length(source), source_stride,
        allowance, version, (int16_t *)entries(rows), length(rows), (int16_t *)entries(cols), length(cols),
        (uint32_t *)entries(sads), length(sads));
    memcpy(answer, &a, sizeof a);
}

uint64_t vp8model_dpi_frame_count(const svOpenArrayHandle numbers)
{
    return vp8model_frame_count(words_of(numbers), length(numbers));
}

void vp8model_dpi_frame_at(const svOpenArrayHandle numbers, uint64_t g, svBitVecVal *answer)
{
    vp8model_frame f = vp8model_frame_at(words_of(numbers), length(numbers), g);
    memcpy(answer, &f, sizeof f);
}

void vp8model_dpi_check_build(const svOpenArrayHandle bytes, const svOpenArrayHandle numbers, uint64_t centre,
                              uint64_t output_len, uint64_t sums_len, uint64_t weights_len,
                              svBitVecVal *answer)
{
    vp8model_build b = vp8model_check_build(bytes_of(bytes), length(bytes), words_of(numbers), length(numbers),
                                            centre, output_len, sums_len, weights_len);
    memcpy(answer, &b, sizeof b);
}

void vp8model_dpi_build_from_numbers(const svOpenArrayHandle bytes, const svOpenArrayHandle numbers,
                                     uint64_t centre, uint8_t strength, const svOpenArrayHandle picture,
                                     const svOpenArrayHandle sums, const svOpenArrayHandle weights,
                                     svBitVecVal *answer)
{
    vp8model_build b = vp8model_build_from_numbers(
        bytes_of(bytes), length(bytes), words_of(numbers), length(numbers), centre, strength,
        (uint8_t *)entries(picture), length(picture), (uint32_t *)entries(sums), length(sums),
        (uint32_t *)entries(weights), length(weights));
    memcpy(answer, &b, sizeof b);
}

/* The records' numbers stand one after the other, as the fields of the C struct do; numbers left over are not read. */
void vp8model_dpi_build_arnr_altref(const svOpenArrayHandle bytes, const svOpenArrayHandle frames,
                                    uint64_t centre, uint8_t strength, const svOpenArrayHandle picture,
                                    const svOpenArrayHandle sums, const svOpenArrayHandle weights,
                                    svBitVecVal *answer)
{
    vp8model_build b = vp8model_build_arnr_altref(
        bytes_of(bytes), length(bytes), (const vp8model_frame *)entries(frames),
        length(frames) / VP8MODEL_NUMBERS_PER_FRAME, centre, strength, (uint8_t *)entries(picture),
        length(picture), (uint32_t *)entries(sums), length(sums), (uint32_t *)entries(weights),
        length(weights));
    memcpy(answer, &b, sizeof b);
}

void vp8model_dpi_build_half_sample(const svOpenArrayHandle bytes, const svOpenArrayHandle numbers,
                                    uint64_t centre, uint8_t strength, const svOpenArrayHandle picture,
                                    const svOpenArrayHandle sums, const svOpenArrayHandle weights,
                                    svBitVecVal *answer)
{
    vp8model_build b = vp8model_build_half_sample(
        bytes_of(bytes), length(bytes), words_of(numbers), length(numbers), centre, strength,
        (uint8_t *)entries(picture), length(picture), (uint32_t *)entries(sums), length(sums),
        (uint32_t *)entries(weights), length(weights));
    memcpy(answer, &b, sizeof b);
}

void vp8model_dpi_build_three_planes(const svOpenArrayHandle bytes, const svOpenArrayHandle numbers,
                                     uint64_t centre, uint8_t strength, const svOpenArrayHandle picture,
                                     const svOpenArrayHandle sums, const svOpenArrayHandle weights,
                                     svBitVecVal *answer)
{
    vp8model_build b = vp8model_build_three_planes(
        bytes_of(bytes), length(bytes), words_of(numbers), length(numbers), centre, strength,
        (uint8_t *)entries(picture), length(picture), (uint32_t *)entries(sums), length(sums),
        (uint32_t *)entries(weights), length(weights));
    memcpy(answer, &b, sizeof b);
}

void vp8model_dpi_build_three_planes_half_sample(const svOpenArrayHandle bytes, const svOpenArrayHandle numbers,
                                                 uint64_t centre, uint8_t strength, const svOpenArrayHandle picture,
                                                 const svOpenArrayHandle sums, const svOpenArrayHandle weights,
                                                 svBitVecVal *answer)
{
    vp8model_build b = vp8model_build_three_planes_half_sample(
        bytes_of(bytes), length(bytes), words_of(numbers), length(numbers), centre, strength,
        (uint8_t *)entries(picture), length(picture), (uint32_t *)entries(sums), length(sums),
        (uint32_t *)entries(weights), length(weights));
    memcpy(answer, &b, sizeof b);
}

#ifdef __cplusplus
}
#endif
