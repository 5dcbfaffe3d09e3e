/* The conversions of one literal against the machine's own: gcc's _Float16, hardware f32 and f64, hardware integer
 * conversion.
 *
 *   floats exhaustive          every f16 and every f32 pattern: f16 to f32, f32 to f16, f32 to i32, f32 to u32, f16
 *                              to i32, f16 to u32
 *   floats random COUNT SEED   COUNT doubles and COUNT 64-bit integers, edges first, skewed to ties, subnormal
 *                              results and thresholds: every conversion
 *
 * Prints a line for each conversion with how many patterns went through it and how many differ, and exits 1 where
 * any does. NaN is compared with NaN.
 */
#include <inttypes.h>
#include <stdint.h>
#include <stdio.h>
#include <stdlib.h>
#include <string.h>

#include "draw.h"

enum { BOOL, ABSTRACT_INT, ABSTRACT_FLOAT, I32, U32, F32, F16 };
enum { CONST, OVERRIDE, EXEC };

/* of the static library; crates/literal_c says what each promises */
uint64_t vireo_f64_to_f32(uint64_t x);
uint64_t vireo_f64_to_f16(uint64_t x);
uint64_t vireo_f32_to_f16(uint64_t x);
uint64_t vireo_f16_to_f32(uint64_t x);
uint64_t vireo_converted(uint8_t to, uint8_t from, uint64_t bits);
uint8_t vireo_fits(uint8_t to, uint8_t from, uint64_t bits);
uint64_t vireo_made(uint8_t stage, uint8_t to, uint8_t from, uint64_t bits);
uint8_t vireo_refusal(uint8_t stage, uint8_t to, uint8_t from, uint64_t bits);

static float f32_of(uint32_t b) { float f; memcpy(&f, &b, 4); return f; }
static uint32_t bits32(float f) { uint32_t b; memcpy(&b, &f, 4); return b; }
static double f64_of(uint64_t b) { double d; memcpy(&d, &b, 8); return d; }
static uint64_t bits64(double d) { uint64_t b; memcpy(&b, &d, 8); return b; }
static _Float16 f16_of(uint16_t b) { _Float16 h; memcpy(&h, &b, 2); return h; }
static uint16_t bits16(_Float16 h) { uint16_t b; memcpy(&b, &h, 2); return b; }
static int nan16(uint64_t b) { return (b & 0x7fff) > 0x7c00; }
static int nan32(uint64_t b) { return (b & 0x7fffffff) > 0x7f800000; }
static int inf16(uint64_t b) { return (b & 0x7fff) == 0x7c00; }
static int inf32(uint64_t b) { return (b & 0x7fffffff) == 0x7f800000; }

struct tally { const char *what; uint64_t done, wrong; };
static int any_wrong;

static void note(struct tally *t, int same, uint64_t in, uint64_t got, uint64_t want)
{
    t->done++;
    if (same) return;
    if (t->wrong++ < 5)
        fprintf(stderr, "%s: 0x%" PRIx64 " gives 0x%" PRIx64 ", the machine 0x%" PRIx64 "\n", t->what, in, got, want);
}
static void same(struct tally *t, uint64_t in, uint64_t got, uint64_t want) { note(t, got == want, in, got, want); }
static void same16(struct tally *t, uint64_t in, uint64_t got, uint64_t want)
{
    note(t, nan16(want) ? got == 0x7e00 : got == want, in, got, want);
}
static void same32(struct tally *t, uint64_t in, uint64_t got, uint64_t want)
{
    note(t, nan32(want) ? got == 0x7fc00000 : got == want, in, got, want);
}

static void report(struct tally *t, int n, double seconds)
{
    for (int i = 0; i < n; i++) {
        if (!t[i].done) continue;
        printf("%-28s %12" PRIu64 " patterns, %" PRIu64 " differ\n", t[i].what, t[i].done, t[i].wrong);
        any_wrong |= t[i].wrong != 0;
    }
    printf("%.1f s\n", seconds);
}

/* Toward zero by the hardware instruction where the result is in range, the ends of document 01 where it is not; f32
 * and f16 are exact in f64. */
static uint64_t to_i32(double d, int32_t lo, int32_t hi)
{
    if (d != d) return 0;
    if (d <= (double)lo) return (uint32_t)lo;
    if (d >= (double)hi) return (uint32_t)hi;
    return (uint32_t)(int32_t)d;
}
static uint64_t to_u32(double d, uint32_t hi)
{
    if (!(d > 0)) return 0;
    if (d >= (double)hi) return hi;
    return (uint32_t)(int64_t)d;
}

static void exhaustive(void)
{
    struct tally t[] = {{"f16 to f32", 0, 0}, {"f16 to i32", 0, 0}, {"f16 to u32", 0, 0}, {"f32 to f16", 0, 0},
        {"f32 to i32", 0, 0}, {"f32 to u32", 0, 0}};
    double start = now();
    for (uint32_t b = 0; b < 65536; b++) {
        double d = (double)f16_of((uint16_t)b);
        same32(&t[0], b, vireo_f16_to_f32(b), bits32((float)f16_of((uint16_t)b)));
        same(&t[1], b, vireo_made(EXEC, I32, F16, b), to_i32(d, -65504, 65504));
        same(&t[2], b, vireo_made(EXEC, U32, F16, b), to_u32(d, 65504));
    }
    for (uint64_t b = 0; b < 0x100000000; b++) {
        float f = f32_of((uint32_t)b);
        same16(&t[3], b, vireo_f32_to_f16(b), bits16((_Float16)f));
        same(&t[4], b, vireo_made(EXEC, I32, F32, b), to_i32(f, INT32_MIN, 2147483520));
        same(&t[5], b, vireo_made(EXEC, U32, F32, b), to_u32(f, 4294967040u));
        if ((b & 0xfffffff) == 0xfffffff) fprintf(stderr, "\r%" PRIu64 " of 16", (b >> 28) + 1);
    }
    fprintf(stderr, "\n");
    report(t, 6, now() - start);
}

/* doubles: any pattern; near the f32 and f16 ranges, with the digits that a rounding drops all zero, all one, or a
 * tie and its neighbours */
static uint64_t draw_f64(void)
{
    uint64_t r = draw(), pick = r & 15, sign = r & 0x8000000000000000, fraction = draw() & 0xfffffffffffff;
    if (pick < 3) return draw();
    int half = pick < 9;
    int64_t low = half ? 1023 - 27 : 1023 - 152, high = half ? 1023 + 17 : 1023 + 129;
    uint64_t exponent = (uint64_t)(low + (int64_t)(draw() % (uint64_t)(high - low + 1)));
    int keep = half ? 10 : 23;
    int below = half ? 1023 - 14 : 1023 - 126;
    if ((int64_t)exponent < below) keep -= below - (int)exponent;
    if (keep < 0) keep = 0;
    uint64_t mask = (1ull << (52 - keep)) - 1, tie = (mask + 1) >> 1;
    switch (draw() & 7) {
    case 0: fraction &= ~mask; break;
    case 1: fraction |= mask; break;
    case 2: fraction = (fraction & ~mask) | tie; break;
    case 3: fraction = (fraction & ~mask) | (tie + 1); break;
    case 4: fraction = (fraction & ~mask) | (tie - 1); break;
    case 5: fraction = (draw() & 1) ? 0xfffffffffffff & ~mask : 0; if (draw() & 1) fraction |= tie; break;
    default: break;
    }
    return sign | (exponent << 52) | (fraction & 0xfffffffffffff);
}

/* integers: any; few digits; ties of f32 and f64 and their neighbours; near the ends of i32, u32 and f16 */
static uint64_t draw_i64(void)
{
    static const int64_t ends[] = {0, 1, 65504, 65505, 65519, 65520, 65535, 65536, 16777215, 16777216, 16777217,
        2147483520, 2147483647, 2147483648,
                                   4294967040, 4294967295, 4294967296, INT64_MAX};
    uint64_t r = draw(), n;
    switch (r & 7) {
    case 0: n = draw(); break;
    case 1: n = draw() >> (draw() & 63); break;
    case 2: n = (uint64_t)ends[draw() % (sizeof ends / sizeof *ends)] + (draw() % 5) - 2; break;
    default: {
        int keep = (r & 8) ? 24 : 53, size = keep + 1 + (int)(draw() % (uint64_t)(63 - keep));
        uint64_t kept = (draw() & ((1ull << (keep - 1)) - 1)) | (1ull << (keep - 1));
        uint64_t tie = 1ull << (size - keep - 1);
        n = (kept << (size - keep)) + tie + (draw() % 3) - 1;
    }
    }
    return (draw() & 1) ? 0 - n : n;
}

static const uint64_t edges[] = {0, 0x8000000000000000, 1, 0x8000000000000001, 0xfffffffffffff, 0x10000000000000,
    0x7fefffffffffffff, 0x7ff0000000000000,
    0xfff0000000000000, 0x7ff8000000000000, 0x7ff0000000000001, 0xffffffffffffffff, 0x47efffffe0000000,
    0x47efffffe8000000, 0x47effffff0000000, 0x47efffffefffffff,
    0x40effc0000000000, 0x40effc0000000001, 0x40effdffffffffff, 0x40effe0000000000, 0x3ff0020000001000,
    0x3690000000000000, 0x3690000000000001, 0x36a0000000000000,
    0x380fffffffffffff, 0x3e60000000000000, 0x3e70000000000000, 0x3f10000000000000, 0x41dfffffffc00000,
    0x41e0000000000000, 0x41efffffffe00000, 0x41f0000000000000,
    0xc1e0000000000000, 0xc1e0000000200000, 0x3fefffffffffffff, 0xbfefffffffffffff};

static void one_f64(struct tally *t, uint64_t b)
{
    double d = f64_of(b);
    uint32_t w32 = bits32((float)d);
    uint16_t w16 = bits16((_Float16)d), twice = bits16((_Float16)(float)d);
    same32(&t[0], b, vireo_f64_to_f32(b), w32);
    same16(&t[1], b, vireo_f64_to_f16(b), w16);
    same32(&t[2], b, vireo_made(EXEC, F32, ABSTRACT_FLOAT, b), w32);
    same16(&t[3], b, vireo_made(EXEC, F16, ABSTRACT_FLOAT, b), twice);
    int in32 = d >= -(double)3.40282346638528859811704183484516925e38f && d <= (double)3.40282346638528859811704183484516925e38f;
    int in16 = d >= -65504.0 && d <= 65504.0;
    for (uint8_t stage = CONST; stage <= OVERRIDE; stage++) {
        same(&t[4], b, vireo_refusal(stage, F32, ABSTRACT_FLOAT, b), in32 ? 0 : 21);
        same(&t[5], b, vireo_refusal(stage, F16, ABSTRACT_FLOAT, b), in16 ? 0 : 21);
    }
    int fits32 = !nan32(w32) && !inf32(w32), fits16 = !nan16(w16) && !inf16(w16);
    same(&t[6], b, vireo_fits(F32, ABSTRACT_FLOAT, b), fits32);
    same(&t[7], b, vireo_fits(F16, ABSTRACT_FLOAT, b), fits16);
    same(&t[8], b, vireo_converted(F32, ABSTRACT_FLOAT, b), fits32 ? w32 : 0);
    same(&t[9], b, vireo_converted(F16, ABSTRACT_FLOAT, b), fits16 ? w16 : 0);
    same(&t[10], b, vireo_made(EXEC, I32, ABSTRACT_FLOAT, b), to_i32(d, INT32_MIN, INT32_MAX));
    same(&t[11], b, vireo_made(EXEC, U32, ABSTRACT_FLOAT, b), to_u32(d, UINT32_MAX));
    same(&t[12], b, vireo_made(EXEC, BOOL, ABSTRACT_FLOAT, b), d != 0.0);
}

static void one_i64(struct tally *t, uint64_t b)
{
    int64_t n = (int64_t)b;
    uint64_t w64 = bits64((double)n);
    uint32_t w32 = bits32((float)n);
    uint16_t w16 = bits16((_Float16)(float)n); /* exact in f32 below 65,520, and an infinity from there on */
    same(&t[0], b, vireo_converted(ABSTRACT_FLOAT, ABSTRACT_INT, b), w64);
    same(&t[1], b, vireo_converted(F32, ABSTRACT_INT, b), w32);
    same(&t[2], b, vireo_converted(F16, ABSTRACT_INT, b), inf16(w16) ? 0 : w16);
    same(&t[3], b, vireo_fits(F16, ABSTRACT_INT, b), !inf16(w16));
    same(&t[4], b, vireo_made(EXEC, F32, ABSTRACT_INT, b), w32);
    same(&t[5], b, vireo_made(EXEC, F16, ABSTRACT_INT, b), w16);
    for (uint8_t stage = CONST; stage <= OVERRIDE; stage++)
        same(&t[6], b, vireo_refusal(stage, F16, ABSTRACT_INT, b), n >= -65504 && n <= 65504 ? 0 : 21);
    int in_i = n >= INT32_MIN && n <= INT32_MAX, in_u = n >= 0 && n <= UINT32_MAX;
    same(&t[7], b, vireo_refusal(EXEC, I32, ABSTRACT_INT, b), in_i ? 0 : 15);
    same(&t[8], b, vireo_refusal(EXEC, U32, ABSTRACT_INT, b), in_u ? 0 : 15);
    same(&t[9], b, vireo_converted(I32, ABSTRACT_INT, b), in_i ? (uint32_t)n : 0);
    same(&t[10], b, vireo_converted(U32, ABSTRACT_INT, b), in_u ? (uint32_t)n : 0);
    uint32_t half = (uint32_t)b;
    same(&t[11], half, vireo_made(EXEC, F32, I32, half), bits32((float)(int32_t)half));
    same(&t[12], half, vireo_made(EXEC, F32, U32, half), bits32((float)half));
    same(&t[13], half, vireo_made(EXEC, F16, I32, half), bits16((_Float16)(float)(int32_t)half));
    same(&t[14], half, vireo_made(EXEC, F16, U32, half), bits16((_Float16)(float)half));
    same(&t[15], half, vireo_made(EXEC, I32, U32, half), half);
    same(&t[16], b, vireo_made(EXEC, BOOL, ABSTRACT_INT, b), n != 0);
}

static void random_ones(uint64_t count, uint64_t seed)
{
    struct tally d[] = {{"f64 to f32", 0, 0}, {"f64 to f16", 0, 0}, {"f32(f64)", 0, 0},
        {"f16(f64), two roundings", 0, 0}, {"f32(f64) in range", 0, 0},
        {"f16(f64) in range", 0, 0}, {"f64 fits f32", 0, 0}, {"f64 fits f16", 0, 0}, {"f64 converted to f32", 0, 0},
        {"f64 converted to f16", 0, 0},
        {"i32(f64)", 0, 0}, {"u32(f64)", 0, 0}, {"bool(f64)", 0, 0}};
    struct tally n[] = {{"i64 converted to f64", 0, 0}, {"i64 converted to f32", 0, 0}, {"i64 converted to f16", 0, 0},
        {"i64 fits f16", 0, 0}, {"f32(i64)", 0, 0},
        {"f16(i64)", 0, 0}, {"f16(i64) in range", 0, 0}, {"i32(i64) in range", 0, 0}, {"u32(i64) in range", 0, 0},
        {"i64 converted to i32", 0, 0},
        {"i64 converted to u32", 0, 0}, {"f32(i32)", 0, 0}, {"f32(u32)", 0, 0}, {"f16(i32)", 0, 0}, {"f16(u32)", 0, 0},
        {"i32(u32)", 0, 0}, {"bool(i64)", 0, 0}};
    double start = now();
    state = seed;
    for (size_t i = 0; i < sizeof edges / sizeof *edges; i++) { one_f64(d, edges[i]); one_i64(n, edges[i]); }
    for (uint64_t i = 0; i < count; i++) {
        one_f64(d, draw_f64());
        one_i64(n, draw_i64());
        if (count >= 10000000 && i % (count / 20) == 0) fprintf(stderr, "\r%" PRIu64 " %%", i * 100 / count);
    }
    if (count >= 10000000) fprintf(stderr, "\n");
    report(d, 13, now() - start);
    report(n, 17, now() - start);
}

int main(int argc, char **argv)
{
    if (argc == 2 && !strcmp(argv[1], "exhaustive")) exhaustive();
    else if (argc == 4 && !strcmp(argv[1], "random")) random_ones(strtoull(argv[2], 0, 10), strtoull(argv[3], 0, 10));
    else { fprintf(stderr, "usage: floats exhaustive | floats random COUNT SEED\n"); return 2; }
    return any_wrong;
}
