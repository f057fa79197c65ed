/*
 * The model's bilinear macroblock beside libvpx's: every pair of selectors on each halo. The forms are declared here, as
 * no header that libvpx installs does. A macroblock begins at row and column 2 of its halo.
 *
 * Prints a line for each form, `peer: NAME: N macroblocks compared, M differ`, after the first difference of it, and one
 * for all.
 * Exit status: 0 none differ; 1 some do; 3 the processor lacks SSSE3, and that form was left out.
 */
#include "vp8model.h"

#include <stdio.h>
#include <string.h>

typedef void form(unsigned char *src, int src_pitch, int xoffset, int yoffset, unsigned char *dst, int pitch);

form vp8_bilinear_predict16x16_c;
form vp8_bilinear_predict16x16_sse2;
form vp8_bilinear_predict16x16_ssse3;

#define SIDE 21
#define SEEDS 48
#define KINDS 7

static unsigned all;
static unsigned all_differing;
static uint64_t state;

static unsigned below(unsigned n)
{
    state ^= state << 13;
    state ^= state >> 7;
    state ^= state << 17;
    return (unsigned)((state >> 33) % n);
}

/* Means of three by three samples of noise. */
static void smooth(uint8_t halo[SIDE * SIDE])
{
    uint8_t noise[SIDE + 2][SIDE + 2];
    for (int i = 0; i < (SIDE + 2) * (SIDE + 2); i++)
        noise[i / (SIDE + 2)][i % (SIDE + 2)] = (uint8_t)below(256);
    for (int i = 0; i < SIDE * SIDE; i++) {
        unsigned sum = 0;
        for (int k = 0; k < 9; k++)
            sum += noise[i / SIDE + k / 3][i % SIDE + k % 3];
        halo[i] = (uint8_t)(sum / 9);
    }
}

/* A sample of noise, black and white noise, noise of few levels, or checkers of two levels. */
static uint8_t sample(int kind, int row, int col, int seed, const uint8_t levels[2])
{
    switch (kind) {
    case 0: return (uint8_t)below(256);
    case 1: return (uint8_t)(255 * below(2));
    case 2: return (uint8_t)below(4);
    default: return levels[((row + seed / 16) / (1 + seed % 4) + (col + seed / 16) / (1 + seed / 4 % 4)) % 2];
    }
}

/* Three kinds of noise, checkers, black and white checkers, flat, smooth. The first flat ones are black and white. */
static void draw(int kind, int seed, uint8_t halo[SIDE * SIDE])
{
    state = 88172645463325252u + (uint64_t)(kind * SEEDS + seed) * 0x9E3779B97F4A7C15u;
    uint8_t levels[2] = {0, 255};
    if (kind == 3)
        levels[0] = (uint8_t)below(256), levels[1] = (uint8_t)below(256);
    if (kind == 5)
        memset(halo, seed < 2 ? 255 * seed : (int)below(256), SIDE * SIDE);
    else if (kind == 6)
        smooth(halo);
    else
        for (int i = 0; i < SIDE * SIDE; i++)
            halo[i] = sample(kind, i / SIDE, i % SIDE, seed, levels);
}

/* Whether the form gives another macroblock than the model. */
static int differs(form *f, uint8_t halo[SIDE * SIDE], unsigned mx, unsigned my)
{
    _Alignas(16) uint8_t theirs[256];
    uint8_t ours[256];
    memset(theirs, 0x5A, sizeof theirs);
    f(halo + 2 * SIDE + 2, SIDE, (int)mx, (int)my, theirs, 16);
    return vp8model_bilinear_mb_luma(halo, mx, my, ours).refusal != 0 || memcmp(ours, theirs, sizeof ours) != 0;
}

static void print(const char *name, unsigned compared, unsigned differing)
{
    printf("peer: %s: %u macroblocks compared, %u differ\n", name, compared, differing);
}

/* Each halo at the pairs of selectors from `first` on. */
static void compare(const char *name, form *f, unsigned first)
{
    uint8_t halo[SIDE * SIDE];
    unsigned compared = 0, differing = 0;
    for (int i = 0; i < KINDS * SEEDS; i++) {
        draw(i / SEEDS, i % SEEDS, halo);
        for (unsigned pair = first; pair < 64; pair++) {
            compared++;
            if (!differs(f, halo, pair / 8, pair % 8))
                continue;
            if (differing == 0)
                printf("peer: %s: halo %d, selectors %u and %u\n", name, i, pair / 8, pair % 8);
            differing++;
        }
    }
    print(name, compared, differing);
    all += compared;
    all_differing += differing;
}

int main(void)
{
    compare("C", vp8_bilinear_predict16x16_c, 0);
    compare("SSE2", vp8_bilinear_predict16x16_sse2, 0);
    const int last = __builtin_cpu_supports("ssse3");
    /* libvpx copies at (0, 0), and calls no form; this one gives another macroblock there */
    if (last)
        compare("SSSE3", vp8_bilinear_predict16x16_ssse3, 1);
    else
        printf("peer: skipped: the form SSSE3, which this processor lacks\n");
    print("all", all, all_differing);
    return all_differing > 0 ? 1 : last ? 0 : 3;
}
