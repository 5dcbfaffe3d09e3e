/* What the programs of this folder share: the C entries, buffers with guard bytes on both sides, hex, and records at the limits. */
#include <inttypes.h>
#include <stddef.h>
#include <stdint.h>
#include <stdio.h>
#include <stdlib.h>
#include <string.h>

#include "../bindings/c/vireodesk.h"

enum { MOST = 1 << 20, GUARD = 64, FILL = 0xa5, ROOM = 65536 };
static uint8_t target[MOST], args[MOST], space[MOST + 2 * GUARD];

/* a row of bytes */
struct row { uint8_t *at; size_t n; };

/* the guards, and what lies past the record, are as they were */
static inline int untouched(size_t room, size_t used)
{
    for (size_t i = 0; i < room + 2 * GUARD; i++)
        if ((i < GUARD || i >= GUARD + used) && space[i] != FILL) return 0;
    return 1;
}

/* the four entries as one function: only building looks at the stage, and the rank at no buffer */
enum entry { CONVERT_TO, CALL_CTOR, TYPE_CTOR, CONVERSION_RANK, ENTRIES };
static inline struct vireo_answer entered(enum entry entry, int stage, const uint8_t *t, size_t tn, const uint8_t *a,
    size_t an, uint8_t *out, size_t room)
{
    if (entry == CONVERT_TO) return vireo_convert_to(t, tn, a, an, out, room);
    if (entry == TYPE_CTOR) return vireo_type_ctor(t, tn, a, an, out, room);
    if (entry == CONVERSION_RANK) return vireo_conversion_rank(t, tn, a, an);
    return vireo_call_ctor((uint8_t)stage, t, tn, a, an, out, room);
}

/* an entry on `target` and `args`, with a buffer of that length between two guards */
static inline struct vireo_answer call(enum entry entry, int stage, size_t tn, size_t an, size_t room)
{
    memset(space, FILL, room + 2 * GUARD);
    return entered(entry, stage, target, tn, args, an, space + GUARD, room);
}

static inline size_t u16(const uint8_t *p) { return p[0] + 256u * p[1]; }

/* the place after a well-formed type record; *abstract is set where one of its kinds is */
static inline const uint8_t *past_type(const uint8_t *t, int *abstract)
{
    if (t[1] == 's') {
        if (t[2] == 1 || t[2] == 2) *abstract = 1;
        return t + 3;
    }
    if (t[1] != 'u') return past_type(t + (t[1] == 'r' ? 2 : t[1] == 'v' ? 3 : 4), abstract);
    size_t members = u16(t + 4);
    for (t += 6; members; members--) t = past_type(t, abstract);
    return t;
}

/* lower-case hex of the lists into bytes; `-` is none */
static inline int digit(char c) { return c <= '9' ? c - '0' : c - 'a' + 10; }
static inline size_t unhex(const char *text, uint8_t *to)
{
    size_t n = 0;
    if (!strcmp(text, "-")) return 0;
    for (; text[2 * n] && text[2 * n + 1]; n++) to[n] = (uint8_t)(16 * digit(text[2 * n]) + digit(text[2 * n + 1]));
    return n;
}

/* n structs of one member around f32, as a type and as a value */
static inline size_t nest_type(uint8_t *to, int n)
{
    size_t at = 0;
    for (int i = 0; i < n; i++) { memcpy(to + at, "Tu\0\0\1\0", 6); at += 6; }
    memcpy(to + at, "Ts\5", 3);
    return at + 3;
}
static inline size_t nest_value(uint8_t *to, int n)
{
    size_t at = 0;
    for (int i = 0; i < n; i++) { memcpy(to + at, "Vu\0\0\1\0", 6); at += 6; }
    memcpy(to + at, "Vs\5\0\0\200\77\0\0\0\0", 11);
    return at + 11;
}
/* a struct of scalars whose type record has just n bytes: 6 + 3 a member */
static inline size_t wide_type(uint8_t *to, int members)
{
    memcpy(to, "Tu\0\0", 4);
    to[4] = (uint8_t)(members % 256);
    to[5] = (uint8_t)(members / 256);
    for (int i = 0; i < members; i++) memcpy(to + 6 + 3 * i, "Ts\5", 3);
    return (size_t)(6 + 3 * members);
}

/* a struct of a struct of 1,000 scalars, some matrices (7 bytes each) and some scalars: 3,012 + 7 m + 3 n bytes */
static inline size_t long_type(uint8_t *to, int matrices, int scalars)
{
    int members = 1 + matrices + scalars;
    memcpy(to, "Tu\0\0", 4);
    to[4] = (uint8_t)(members % 256);
    to[5] = (uint8_t)(members / 256);
    size_t at = 6 + wide_type(to + 6, 1000);
    for (int i = 0; i < matrices; i++) { memcpy(to + at, "Tm\2\2Ts\5", 7); at += 7; }
    for (int i = 0; i < scalars; i++) { memcpy(to + at, "Ts\5", 3); at += 3; }
    return at;
}

/* n literals of the kind k, one after another */
static inline size_t literals(uint8_t *to, size_t n, int k)
{
    for (size_t i = 0; i < n; i++) { memset(to + 11 * i, 0, 11); memcpy(to + 11 * i, "Vs", 2); to[11 * i + 2] = (uint8_t)k; }
    return 11 * n;
}

/* arrays of 65,535 in one another, n of them around f32 */
static inline size_t arrays(uint8_t *to, int n)
{
    for (int i = 0; i < n; i++) memcpy(to + 4 * i, "Ta\377\377", 4);
    memcpy(to + 4 * n, "Ts\5", 3);
    return (size_t)(4 * n + 3);
}

/* n times the same record, one after another */
static inline size_t repeat(uint8_t *to, size_t n, const char *record, size_t len)
{
    for (size_t i = 0; i < n; i++) memcpy(to + len * i, record, len);
    return len * n;
}
