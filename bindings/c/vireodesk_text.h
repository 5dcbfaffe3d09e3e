/* Records and refusals of vireodesk.h in words: values, types and calls as WGSL writes them.
 *
 *     vec3<f32>(0.0, 6204.75, 12410.0)    Struct1(0.508f, array<f32, 3>(1180.5, 4400.25, 9031.0))
 *
 * A scalar alone, or a struct's member, has WGSL's suffix (0.508f, 1.5h, -3i, 7u); where a template
 * says the kind it has none. Abstract kinds can't be named in WGSL, so what is abstract has no
 * template: vec3(0.0, 1.5, 2.0). A struct is known by its identity alone: Struct1. WGSL can't write
 * infinities and NaN: inf, -inf, nan(0x7fc00000), with the bits. Floats have the fewest digits that
 * read back as the same number in their kind.
 *
 * Nothing is asked of the bytes: where they are no record, what was read so far is followed by `?`.
 * The library has no part in this, and nothing here is proved.
 */
#ifndef VIREODESK_TEXT_H
#define VIREODESK_TEXT_H

#include <inttypes.h>
#include <stdio.h>
#include <stdlib.h>
#include <string.h>

#include "vireodesk.h"

#ifdef __cplusplus
extern "C" {
#endif

/* ---- Refusals */

struct vireo_refusal_text {
    uint64_t number;
    const char *words, *advice;
};

static inline struct vireo_refusal_text vireo_refusal_text(uint64_t refusal)
{
    static const struct vireo_refusal_text rows[] = {
        {1,
         "The target is no well-formed record, or a shape (`Qa`, `Qv`, `Qm`) where a conversion "
         "needs a type",
         "Mend the encoder: marks, counts, at most 15 levels and 4,096 bytes."},
        {2,
         "An argument is no well-formed record; or there are too many, or another number than one"
         " for a conversion",
         "Mend the encoder: one kind in a vector, one type in an array, zero in unused payload "
         "bytes, at most 65,535 arguments."},
        {3,
         "The stage is over 2",
         "0 is Const, 1 Override, 2 Exec."},
        {4,
         "Nothing to construct: an abstract scalar type with arguments, typing of one, or a "
         "runtime-sized array without arguments",
         "Name a concrete type, or give the array its elements."},
        {5,
         "A scalar type with two or more arguments (typing: also with one that is no scalar)",
         "Give it one scalar."},
        {6,
         "A scalar type with one argument that is no scalar",
         "Take the component that is meant."},
        {7,
         "Shape or type mismatch: a vector or matrix of another size; typing: an array element "
         "that does not convert",
         "Give it the size or the type that the target has."},
        {8,
         "Another number than the target takes; `wanted` and `given` say which",
         "Add or drop arguments: nothing is filled up or cut off."},
        {9,
         "An argument does not convert to what the target wants, by its type or because a literal"
         " does not fit",
         "Write the conversion as a constructor (`f32(x)`), or a literal within range."},
        {10,
         "No common type, or a component that does not convert to it (typing: also an untemplated"
         " array without arguments)",
         "Make the parts one type, or name the type in the target."},
        {11,
         "An untemplated array or matrix without arguments (typing: a matrix alone)",
         "Name a type, whose zero value it then is, or give arguments."},
        {12,
         "A vector's part is neither scalar nor vector, or one vector is to become an abstract "
         "vector type",
         "Give scalars and vectors; name a concrete kind."},
        {13,
         "A matrix of something else than floats, or one matrix into a matrix type of "
         "AbstractFloat",
         "Convert to f32 or f16 first."},
        {14,
         "A column of another length than the matrix has rows",
         "Give columns of that length: short ones are not taken."},
        {15,
         "An AbstractInt outside i32 or u32",
         "Correct the number, or choose the other kind."},
        {16,
         "Typing of a runtime-sized array or of an abstract vector type",
         "Name the count, or a concrete kind."},
        {21,
         "Outside the float's range, or NaN, at Const or Override",
         "Correct the number; at Exec it is rounded all the same, to an infinity where it is too "
         "large, and a NaN stays one."},
        {22,
         "The record, or the value in memory, is longer than the lent buffer; nothing was written",
         "Lend more: the length follows from the type."},
        {23,
         "More than 256 jobs in one call",
         "Make two calls of them."},
        {24,
         "A job's part reaches outside the slice, or is empty and begins past its end",
         "Mend the job's starts and lengths."},
        {25,
         "The type holds Bool, an abstract kind or a runtime-sized array, which have no place in "
         "a buffer",
         "Convert to a 32-bit kind or F16 first; give the array its count."},
        {26,
         "The memory read is not as long as the type's size",
         "Hand over exactly the bytes that `layout_of` says."},
        {0, "No number of a refusal", "Link the library of this header's version."},
    };
    size_t i = 0;
    while (rows[i].number && rows[i].number != refusal) i++;
    return rows[i];
}

/* what a refusal's number means */
static inline const char *vireo_refusal_words(uint64_t refusal)
{
    return vireo_refusal_text(refusal).words;
}

/* what to do about it */
static inline const char *vireo_refusal_advice(uint64_t refusal)
{
    return vireo_refusal_text(refusal).advice;
}

/* what the refusal of an answer means, with the counts of 8 */
static inline void vireo_print_why(FILE *to, struct vireo_answer answer)
{
    const char *words = vireo_refusal_words(answer.refusal);
    if (answer.refusal == VIREO_REFUSAL_COUNT) {
        fprintf(to, "%.*s: %" PRIu64 " wanted, %" PRIu64 " given", (int)strcspn(words, ";"), words,
                answer.wanted, answer.given);
    } else {
        fputs(words, to);
    }
}

/* the refusal of an answer: its number, what it means and what to do, without an end of line */
static inline void vireo_print_refusal(FILE *to, struct vireo_answer answer)
{
    fprintf(to, "refusal %" PRIu64 ": ", answer.refusal);
    vireo_print_why(to, answer);
    fprintf(to, ". %s", vireo_refusal_advice(answer.refusal));
}

static inline void vireo_print_hex(FILE *to, const uint8_t *bytes, size_t len)
{
    size_t i;
    for (i = 0; i < len; i++) fprintf(to, "%02x", bytes[i]);
}

/* ---- Scalars */

static inline const char *vireo_kind_name(unsigned kind)
{
    static const char *const names[] = {"bool", "AbstractInt", "AbstractFloat", "i32", "u32", "f32",
                                        "f16"};
    return kind < 7 ? names[kind] : "?";
}

/* the number of a finite f16 */
static inline double vireo_f16_number(unsigned bits)
{
    const unsigned exponent = bits >> 10 & 31, fraction = bits & 1023;
    /* in units of the last place: 2 to the -24 for the smallest, 2 to the exponent - 25 otherwise */
    const double units = exponent ? 1024 + fraction : fraction;
    const int place = exponent ? (int)exponent - 25 : -24;
    const double number = place < 0 ? units / (1 << -place) : units * (1 << place);
    return bits >> 15 ? -number : number;
}

/* whether digits are read as this f16: no other is nearer to them, and of two as near it is the even
 * one */
static inline int vireo_reads_f16(const char *digits, unsigned magnitude)
{
    const double number = vireo_f16_number(magnitude), read = strtod(digits, NULL);
    const double above = magnitude == 0x7BFF ? 65536 : vireo_f16_number(magnitude + 1);
    const double below = vireo_f16_number(magnitude - 1);
    const double over = 2 * (read - number) - (above - number);
    const double under = 2 * (number - read) - (number - below);
    return magnitude % 2 ? over < 0 && under < 0 : over <= 0 && under <= 0;
}

/* whether digits are read as this number, above zero, of a float kind */
static inline int vireo_reads_back(const char *digits, double number, unsigned kind, unsigned bits)
{
    if (kind == VIREO_F16) return vireo_reads_f16(digits, bits & 0x7FFF);
    if (kind == VIREO_F32) return (double)strtof(digits, NULL) == number;
    return strtod(digits, NULL) == number;
}

/* Digits d.ddd times ten to some power, without an exponent where the number is from 0.0001 up to
 * 1e16, and always with a point or an exponent. */
static inline void vireo_print_digits(FILE *to, const char *digits, int count, int power)
{
    int i;
    if (power < -4 || power >= 16) {
        fprintf(to, "%c%s%.*se%d", digits[0], count > 1 ? "." : "", count - 1, digits + 1, power);
        return;
    }
    if (power < 0) fputs("0.", to);
    for (i = -1; i > power; i--) fputc('0', to);
    for (i = 0; i < count || i <= power; i++) {
        if (power >= 0 && i == power + 1) fputc('.', to);
        fputc(i < count ? digits[i] : '0', to);
    }
    if (power >= 0 && count <= power + 1) fputs(".0", to);
}

/* The first digits of a number, or one more in the last place; gives its power of ten. */
static inline int vireo_cut_digits(char *digits, const char *all, int count, int power, int up)
{
    int i = count;
    memcpy(digits, all, (size_t)count);
    if (!up) return power;
    while (i > 0 && digits[i - 1] == '9') digits[--i] = '0';
    if (i > 0) {
        digits[i - 1]++;
        return power;
    }
    digits[0] = '1';
    return power + 1;
}

/* A float above zero by the fewest digits that are read as it; of those as few the nearest, and of two
 * as near the one farther from zero, which is what Rust prints. */
static inline void vireo_print_number(FILE *to, double number, unsigned kind, unsigned bits)
{
    char text[64], all[41], digits[20], read[40];
    int count, power, other, up, i;
    snprintf(text, sizeof text, "%.39e", number);
    all[0] = text[0];
    for (i = 1; i < 40; i++) all[i] = text[i + 1]; /* past the point */
    all[40] = 0;
    for (count = 1; count <= 17; count++) {
        for (other = 0; other < 2; other++) {
            up = (all[count] >= '5') != other; /* the nearer one first */
            power = vireo_cut_digits(digits, all, count, atoi(strchr(text, 'e') + 1), up);
            snprintf(read, sizeof read, "%c.%.*se%d", digits[0], count - 1, digits + 1, power);
            if (vireo_reads_back(read, number, kind, bits)) {
                vireo_print_digits(to, digits, count, power);
                return;
            }
        }
    }
}

/* a float of a kind with so many bits, the exponent's among them, by its sign, its size and what it
 * is read as */
static inline void vireo_print_float(FILE *to, unsigned kind, uint64_t bits, int bare)
{
    const int width = kind == VIREO_F16 ? 16 : kind == VIREO_F32 ? 32 : 64;
    const int fraction = kind == VIREO_F16 ? 10 : kind == VIREO_F32 ? 23 : 52;
    const uint64_t magnitude = bits & ~(UINT64_C(1) << (width - 1));
    const uint64_t infinity = ((UINT64_C(1) << (width - 1 - fraction)) - 1) << fraction;
    double number;
    float single;
    const uint32_t low = (uint32_t)magnitude;
    if (magnitude > infinity) {
        fprintf(to, "nan(0x%0*" PRIx64 ")", width / 4, bits);
        return;
    }
    if (bits != magnitude) fputc('-', to);
    if (magnitude == infinity) {
        fputs("inf", to);
        return;
    }
    if (kind == VIREO_F16) {
        number = vireo_f16_number(low);
    } else if (kind == VIREO_F32) {
        memcpy(&single, &low, sizeof single);
        number = (double)single;
    } else {
        memcpy(&number, &magnitude, sizeof number);
    }
    if (magnitude) vireo_print_number(to, number, kind, low);
    else fputs("0.0", to);
    if (!bare && kind != VIREO_ABSTRACT_FLOAT) fputc(kind == VIREO_F16 ? 'h' : 'f', to);
}

static inline void vireo_print_literal(FILE *to, unsigned kind, uint64_t bits, int bare)
{
    const int32_t narrow = (int32_t)(uint32_t)bits;
    switch (kind) {
    case VIREO_BOOL: fputs(bits ? "true" : "false", to); break;
    case VIREO_ABSTRACT_INT:
        /* WGSL has no literal for the least one, which is the negation of none */
        if (bits == UINT64_C(1) << 63) fputs("(-9223372036854775807 - 1)", to);
        else fprintf(to, "%" PRId64, (int64_t)bits);
        break;
    case VIREO_I32:
        if (!bare && narrow == INT32_MIN) fputs("i32(-2147483648)", to);
        else fprintf(to, "%" PRId32 "%s", narrow, bare ? "" : "i");
        break;
    case VIREO_U32: fprintf(to, "%" PRIu64 "%s", bits, bare ? "" : "u"); break;
    default: vireo_print_float(to, kind, bits, bare);
    }
}

/* ---- Records. Each function takes what it reads from the front; a record that is cut short, or has
 * another mark or kind, or more than 15 levels, leaves nothing to read. */

struct vireo_reader {
    const uint8_t *at;
    size_t left;
    int levels, bad;
};

static inline struct vireo_reader vireo_reader_of(const uint8_t *bytes, size_t len)
{
    struct vireo_reader from;
    from.at = bytes;
    from.left = len;
    from.levels = 0;
    from.bad = 0;
    return from;
}

static inline uint64_t vireo_read_number(struct vireo_reader *from, size_t width)
{
    uint64_t number = 0;
    size_t i;
    if (from->bad || from->left < width) {
        from->bad = 1;
        return 0;
    }
    for (i = 0; i < width; i++) number |= (uint64_t)from->at[i] << 8 * i;
    from->at += width;
    from->left -= width;
    return number;
}

/* the second letter of a mark that begins with the first; 0 where there is none */
static inline int vireo_read_mark(struct vireo_reader *from, char first)
{
    const unsigned mark = (unsigned)vireo_read_number(from, 2);
    if ((mark & 255) != (unsigned char)first) from->bad = 1;
    return from->bad ? 0 : (int)(mark >> 8);
}

static inline unsigned vireo_read_kind(struct vireo_reader *from)
{
    const unsigned kind = (unsigned)vireo_read_number(from, 1);
    if (kind > VIREO_F16) from->bad = 1;
    return from->bad ? 0 : kind;
}

static inline unsigned vireo_read_scalar_type(struct vireo_reader *from)
{
    if (vireo_read_mark(from, 'T') != 's') from->bad = 1;
    return vireo_read_kind(from);
}

/* a type, or a shape; printed only where there is somewhere to print it */
static inline void vireo_print_type_at(FILE *to, struct vireo_reader *from)
{
    const int mark = vireo_read_mark(from, from->left && from->at[0] == 'Q' ? 'Q' : 'T');
    const int shape = !from->bad && from->at[-2] == 'Q';
    unsigned a, b;
    if (from->levels > 15) from->bad = 1;
    from->levels++;
    switch (from->bad ? 0 : mark) {
    case 's':
        a = vireo_read_kind(from);
        if (to) fputs(vireo_kind_name(a), to);
        break;
    case 'v':
        a = (unsigned)vireo_read_number(from, 1);
        if (to) fprintf(to, "vec%u", a);
        if (shape) break;
        b = vireo_read_scalar_type(from);
        if (to) fprintf(to, "<%s>", vireo_kind_name(b));
        break;
    case 'm':
        a = (unsigned)vireo_read_number(from, 1);
        b = (unsigned)vireo_read_number(from, 1);
        if (to) fprintf(to, "mat%ux%u", a, b);
        if (shape) break;
        a = vireo_read_scalar_type(from);
        if (to) fprintf(to, "<%s>", vireo_kind_name(a));
        break;
    case 'a':
    case 'r':
        if (to) fputs("array", to);
        if (shape) break;
        a = mark == 'a' ? (unsigned)vireo_read_number(from, 2) : 0;
        if (to) fputc('<', to);
        vireo_print_type_at(to, from);
        if (to && mark == 'a') fprintf(to, ", %u", a);
        if (to) fputc('>', to);
        break;
    case 'u':
        a = (unsigned)vireo_read_number(from, 2);
        if (to) fprintf(to, "Struct%u", a);
        b = (unsigned)vireo_read_number(from, 2);
        for (; b && !from->bad; b--) vireo_print_type_at(NULL, from);
        break;
    default: from->bad = 1;
    }
    from->levels--;
}

/* The type of the value at the front, by its first parts, which it leaves there; gives the kind at
 * the bottom, or -1 for a struct. */
static inline int vireo_print_type_of(FILE *to, struct vireo_reader from)
{
    unsigned a = 0, b = 0;
    int kind = -1, levels;
    size_t arrays[16];
    for (levels = 0; levels < 16; levels++) {
        const int mark = vireo_read_mark(&from, 'V');
        if (mark == 'a') {
            arrays[levels] = (size_t)vireo_read_number(&from, 2);
            if (to) fputs("array<", to);
            continue;
        }
        if (mark == 'u') {
            if (to) fprintf(to, "Struct%u", (unsigned)vireo_read_number(&from, 2));
            break;
        }
        if (mark == 'v') a = (unsigned)vireo_read_number(&from, 1);
        if (mark == 'm') {
            a = (unsigned)vireo_read_number(&from, 1);
            b = (unsigned)vireo_read_number(&from, 1);
            vireo_read_number(&from, 3); /* the first column's mark and length */
        }
        if (mark == 'v' || mark == 'm') vireo_read_mark(&from, 'V');
        kind = (int)vireo_read_kind(&from);
        if (to && mark == 'v') fprintf(to, "vec%u<", a);
        if (to && mark == 'm') fprintf(to, "mat%ux%u<", a, b);
        if (to) fputs(vireo_kind_name((unsigned)kind), to);
        if (to && mark != 's') fputc('>', to);
        break;
    }
    while (to && levels-- > 0) fprintf(to, ", %u>", (unsigned)arrays[levels]);
    return kind;
}

static inline void vireo_print_value_at(FILE *to, struct vireo_reader *from, int bare)
{
    const struct vireo_reader whole = *from;
    const int mark = vireo_read_mark(from, 'V');
    const int kind = mark == 'u' ? -1 : vireo_print_type_of(NULL, whole);
    const int named = kind != VIREO_ABSTRACT_INT && kind != VIREO_ABSTRACT_FLOAT;
    unsigned parts = 0, other, i;
    if (from->levels > 15) from->bad = 1;
    if (mark == 's' && !from->bad) {
        other = vireo_read_kind(from);
        vireo_print_literal(to, other, vireo_read_number(from, 8), bare);
        return;
    }
    switch (from->bad ? 0 : mark) {
    case 'v':
        parts = (unsigned)vireo_read_number(from, 1);
        if (!named) fprintf(to, "vec%u", parts);
        break;
    case 'm':
        parts = (unsigned)vireo_read_number(from, 1);
        other = (unsigned)vireo_read_number(from, 1);
        if (!named) fprintf(to, "mat%ux%u", parts, other);
        break;
    case 'a':
        parts = (unsigned)vireo_read_number(from, 2);
        if (!named) fputs("array", to);
        break;
    case 'u':
        vireo_read_number(from, 2);
        parts = (unsigned)vireo_read_number(from, 2);
        break;
    default: from->bad = 1;
    }
    if (from->bad) return;
    if (named) vireo_print_type_of(to, whole);
    fputc('(', to);
    from->levels++;
    for (i = 0; i < parts && !from->bad; i++) {
        if (i) fputs(", ", to);
        vireo_print_value_at(to, from, mark != 'u');
    }
    from->levels--;
    fputc(')', to);
}

/* a target: a type, or a shape without a template */
static inline void vireo_print_target(FILE *to, const uint8_t *target, size_t len)
{
    struct vireo_reader from = vireo_reader_of(target, len);
    vireo_print_type_at(to, &from);
    if (from.bad || from.left) fputc('?', to);
}

/* value records one after another, with commas between */
static inline void vireo_print_values(FILE *to, const uint8_t *records, size_t len)
{
    struct vireo_reader from = vireo_reader_of(records, len);
    while (from.left && !from.bad) {
        if (from.left < len) fputs(", ", to);
        vireo_print_value_at(to, &from, 0);
    }
    if (from.bad) fputc('?', to);
}

/* a constructor's call */
static inline void vireo_print_call(FILE *to, const uint8_t *target, size_t target_len,
                                    const uint8_t *args, size_t args_len)
{
    vireo_print_target(to, target, target_len);
    fputc('(', to);
    vireo_print_values(to, args, args_len);
    fputc(')', to);
}

#ifdef __cplusplus
}
#endif

#endif
