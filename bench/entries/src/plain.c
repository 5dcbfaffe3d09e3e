/* The arrays by a plain C loop: it reads the literals' records without a check, switches on the kind, converts with the
 * hardware's instruction and writes the record. The kinds that come are AbstractInt, AbstractFloat and F32. Each function
 * takes the arguments as the library does and gives the length of the record it wrote. */
#include <stddef.h>
#include <stdint.h>
#include <string.h>

enum { AINT = 1, AFLOAT = 2, F32 = 5, LITERAL = 11, HEAD = 4 };

static inline float as_f32(const uint8_t *literal)
{
    int64_t whole;
    double real;
    float single;
    switch (literal[2]) {
    case AINT: memcpy(&whole, literal + 3, 8); return (float)whole;
    case AFLOAT: memcpy(&real, literal + 3, 8); return (float)real;
    default: memcpy(&single, literal + 3, 4); return single;
    }
}

static inline double as_f64(const uint8_t *literal)
{
    int64_t whole;
    double real;
    switch (literal[2]) {
    case AINT: memcpy(&whole, literal + 3, 8); return (double)whole;
    default: memcpy(&real, literal + 3, 8); return real;
    }
}

static inline void put_f32(uint8_t *to, float single)
{
    memcpy(to, "Vs\5", 3);
    memcpy(to + 3, &single, 4);
    memset(to + 7, 0, 4);
}

static inline void put_f64(uint8_t *to, double real)
{
    memcpy(to, "Vs\2", 3);
    memcpy(to + 3, &real, 8);
}

static void put_head(uint8_t *out, size_t count)
{
    memcpy(out, "Va", 2);
    out[2] = (uint8_t)(count % 256);
    out[3] = (uint8_t)(count / 256);
}

/* literals that lie one after another, each as an F32 */
static inline void narrow(const uint8_t *from, size_t len, uint8_t *to)
{
    for (size_t at = 0; at < len; at += LITERAL) put_f32(to + at, as_f32(from + at));
}

/* call_ctor of an array type of F32 */
size_t plain_array(const uint8_t *args, size_t len, uint8_t *out)
{
    put_head(out, len / LITERAL);
    narrow(args, len, out + HEAD);
    return HEAD + len;
}

/* call_ctor of Qa: of the three kinds each converts to those with a greater number, so the common kind is the greatest;
 * AbstractInt alone does not come */
size_t plain_qa(const uint8_t *args, size_t len, uint8_t *out)
{
    uint8_t common = 0;
    for (size_t at = 0; at < len; at += LITERAL)
        if (args[at + 2] > common) common = args[at + 2];
    if (common == F32) return plain_array(args, len, out);
    put_head(out, len / LITERAL);
    for (size_t at = 0; at < len; at += LITERAL) put_f64(out + HEAD + at, as_f64(args + at));
    return HEAD + len;
}

/* convert_to of one array of literals, or of vectors of them, to F32: the heads are copied */
size_t plain_convert(const uint8_t *args, size_t len, uint8_t *out)
{
    memcpy(out, args, HEAD);
    if (args[HEAD + 1] == 's') {
        narrow(args + HEAD, len - HEAD, out + HEAD);
        return len;
    }
    for (size_t at = HEAD, parts = LITERAL * args[HEAD + 2]; at < len; at += 3 + parts) {
        memcpy(out + at, args + at, 3);
        narrow(args + at + 3, parts, out + at + 3);
    }
    return len;
}
