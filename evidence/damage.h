/* Calls drawn from a seed, most of them damaged: the calls of the lists, and some made here around types that are
 * deep, long or wide, with up to 65,536 arguments. */
#include "draw.h"

static inline uint64_t below(uint64_t n) { return n ? draw() % n : 0; }
static inline int one_in(uint64_t n) { return draw() % n == 0; }

/* a call, whose rows can be damaged: they are `target` and `args` of records.h */
struct call { enum entry entry; int stage; struct row target, args; };

/* a row as hex, a long one cut */
static inline void print_row(struct row r)
{
    enum { PRINTED = 8192 };
    printf(r.n ? " " : " -");
    for (size_t i = 0; i < r.n && i < PRINTED; i++) printf("%02x", r.at[i]);
    if (r.n > PRINTED) printf("..(%zu bytes)", r.n);
}

static const char *const entry_names[ENTRIES] = {[CONVERT_TO] = "convert_to", [CALL_CTOR] = "call_ctor",
    [TYPE_CTOR] = "type_ctor", [CONVERSION_RANK] = "conversion_rank"};
static inline int takes_types(enum entry entry) { return entry == TYPE_CTOR || entry == CONVERSION_RANK; }

/* ---- the lists ---- */

struct listed { enum entry entry; int stage; struct row target, args, answer; };
static struct listed *list;
static size_t listed;

static struct row bytes_of(const char *hex)
{
    struct row r = {malloc(strlen(hex) / 2 + 1), 0};
    if (!r.at) { fprintf(stderr, "no memory for the lists\n"); exit(2); }
    r.n = unhex(hex, r.at);
    return r;
}

static void read_lists(FILE *from)
{
    static char text[4 * MOST], entry[32], stage[4], t[2 * MOST], a[2 * MOST], told[8], answer[2 * MOST];
    size_t room = 0;
    while (fgets(text, sizeof text, from)) {
        if (text[0] == '#' || sscanf(text, "%*15s %31s %3s %2097151s %2097151s %7s %2097151s", entry, stage, t, a, told,
            answer) != 6) continue;
        if (listed == room && !(list = realloc(list, (room = 2 * room + 1024) * sizeof *list))) exit(2);
        struct listed *l = &list[listed++];
        for (l->entry = 0; l->entry < ENTRIES && strcmp(entry, entry_names[l->entry]);) l->entry++;
        if (l->entry == ENTRIES) { fprintf(stderr, "not a line of the lists: %.100s\n", text); exit(2); }
        l->stage = stage[0] >= '0' && stage[0] <= '2' ? stage[0] - '0' : -1;
        l->target = bytes_of(t), l->args = bytes_of(a), l->answer = bytes_of(strcmp(told, "ok") ? "-" : answer);
    }
}

/* a row of some listed call */
static struct row some_row(void)
{
    const struct listed *l = &list[below(listed)];
    uint64_t pick = below(4);
    return pick == 0 ? l->target : pick == 1 ? l->answer : l->args;
}

static void put(struct row *r, const void *bytes, size_t n) { memcpy(r->at, bytes, n), r->n = n; }

static void from_list(struct call *c)
{
    const struct listed *l = &list[below(listed)];
    c->entry = l->entry, c->stage = l->stage < 0 ? (int)below(3) : l->stage;
    put(&c->target, l->target.at, l->target.n), put(&c->args, l->args.at, l->args.n);
}

/* ---- calls made around a type ---- */

static size_t put_u16(uint8_t *to, size_t n) { to[0] = (uint8_t)(n % 256), to[1] = (uint8_t)(n / 256); return 2; }

/* a literal: small numbers, numbers at the ends of ranges, any bits */
static size_t literal_made(uint8_t *to, uint8_t kind)
{
    static const uint64_t edges[] = {0x7fffffff, 0x80000000, 0xffffffff, 0x100000000, 65504, 65505, 65519, 65520,
        0x8000000000000000, 0x7bff, 0x7c00, 0x7e00, 0x8000,
        0x3f800000, 0x7f7fffff, 0x7f800000, 0x7fc00000, 0x3ff0000000000000, 0x40effc0000000000, 0x40effe0000000000,
        0x47efffffe0000000, 0x47effffff0000000,
        0x7ff0000000000000, 0x7ff8000000000000, ~0ull};
    uint64_t pick = below(4), x = pick == 0 ? draw() : pick == 1 ? edges[below(sizeof edges / sizeof *edges)] : below(300);
    int used = payload_bytes(kind);
    if (used < 8) x &= ((uint64_t)1 << (kind == 0 ? 1 : 8 * used)) - 1;
    memcpy(to, (uint8_t[]){'V', 's', kind}, 3), memcpy(to + 3, &x, 8);
    return 11;
}

/* a kind and a side, now and then one past the ends */
static uint8_t some_kind(void) { return (uint8_t)below(one_in(32) ? 8 : 7); }
static uint8_t some_side(void) { return (uint8_t)(one_in(32) ? 1 + below(5) : 2 + below(3)); }

/* a small type of that depth at most; an array or struct has one part less than the side says, so now and then none */
static size_t type_made(uint8_t *to, int depth)
{
    uint64_t pick = below(depth <= 0 ? 1 : depth == 1 ? 2 : 5);
    uint8_t n = some_side();
    size_t at = 4;
    switch (pick) {
    case 0: memcpy(to, (uint8_t[]){'T', 's', some_kind()}, 3); return 3;
    case 1: memcpy(to, (uint8_t[]){'T', 'v', n, 'T', 's', some_kind()}, 6); return 6;
    case 2: memcpy(to, (uint8_t[]){'T', 'm', n, some_side(), 'T', 's', one_in(32) ? some_kind() : "\2\5\6"[below(3)]}, 7); return 7;
    case 3: memcpy(to, "Ta", 2), put_u16(to + 2, n - 1); return 4 + type_made(to + 4, depth - 1);
    }
    memcpy(to, "Tu", 2), put_u16(to + 2, below(3)), at += put_u16(to + 4, n - 1);
    while (--n) at += type_made(to + at, depth - 1);
    return at;
}

/* arrays and structs of one part, of that depth in all */
static size_t deep_type(uint8_t *to, int depth)
{
    static const struct { const char *bytes; size_t n; } bottoms[] = {{"Ts\5", 3}, {"Tv\2Ts\5", 6}, {"Tm\2\2Ts\5", 7}};
    size_t at = 0, bottom = below(3);
    for (; depth > (int)bottom; depth--) {
        size_t n = one_in(2) ? 4 : 6;
        memcpy(to + at, n == 4 ? "Ta\1\0" : "Tu\0\0\1\0", n);
        at += n;
    }
    memcpy(to + at, bottoms[bottom].bytes, bottoms[bottom].n);
    return at + bottoms[bottom].n;
}

/* a type of just that many bytes, at least 3,026 */
static size_t type_of_length(uint8_t *to, size_t n)
{
    int matrices = (int)(n - 3012) % 3;
    return long_type(to, matrices, (int)(n - 3012 - 7 * (size_t)matrices) / 3);
}

/* a value of the type at *t, which is moved past it: the limits aside, a well-formed type of a depth that was made here */
static size_t value_made(const uint8_t **t, uint8_t *to)
{
    const uint8_t *type = *t, *element;
    int abstract;
    size_t at = type[1] == 'v' ? 3 : type[1] == 'u' ? 6 : 4,
        parts = type[1] == 'u' ? u16(type + 4) : type[1] == 'a' ? u16(type + 2) : type[2];
    if (type[1] == 's') { *t += 3; return literal_made(to, type[2]); }
    memcpy(to, type, at), to[0] = 'V', *t = type[1] == 'u' ? type + 6 : past_type(type, &abstract);
    for (size_t i = 0; i < parts; i++)
        switch (type[1]) {
        case 'v': at += literal_made(to + at, type[5]); break;
        case 'm':
            memcpy(to + at, (uint8_t[]){'V', 'v', type[3]}, 3), at += 3;
            for (int row = 0; row < type[3]; row++) at += literal_made(to + at, type[6]);
            break;
        case 'a': element = type + 4, at += value_made(&element, to + at); break;
        default: at += value_made(t, to + at);
        }
    return at;
}

/* one kind for every scalar of a row */
static void set_kinds(struct row *r, uint8_t kind)
{
    for (size_t i = 0; i + 3 <= r->n; i++)
        if ((r->at[i] == 'T' || r->at[i] == 'V') && r->at[i + 1] == 's') r->at[i + 2] = kind, i += 2;
}

/* the types of the parts of the target's type, one after another: what typing gets where building gets the parts */
static void part_types(struct row *to, const struct row *type)
{
    const uint8_t *t = type->at;
    char part[6] = {'T', t[1] == 'm' ? 'v' : 's', (char)t[3], 'T', 's', (char)t[6]};
    if (t[1] == 's') put(to, t, 3);
    else if (t[1] == 'v') to->n = repeat(to->at, t[2], (const char *)t + 3, 3);
    else if (t[1] == 'm') to->n = repeat(to->at, t[2], part, 6);
    else if (t[1] == 'a') to->n = repeat(to->at, u16(t + 2) < 64 ? u16(t + 2) : 64, (const char *)t + 4, type->n - 4);
    else put(to, t + 6, type->n - 6);
}

/* a call whose target is, or is like, the type that stands in `target`, and whose arguments go with it */
static void around(struct call *c)
{
    uint8_t *t = c->target.at, shape = t[1];
    const uint8_t *type = t;
    c->entry = (enum entry)below(ENTRIES), c->stage = (int)below(3);
    if (c->entry == CONVERSION_RANK) put(&c->args, t, c->target.n);
    else if (c->entry == TYPE_CTOR) part_types(&c->args, &c->target);
    else {
        c->args.n = value_made(&type, c->args.at);
        size_t head = c->entry == CONVERT_TO || shape == 's' ? 0 : shape == 'v' ? 3 : shape == 'u' ? 6 : 4;
        memmove(c->args.at, c->args.at + head, c->args.n -= head);
    }
    if (one_in(4)) set_kinds(&c->args, (uint8_t)(1 + below(2)));
    if (one_in(8)) c->args.n = 0;
    if (!one_in(3)) return;
    /* the shape of the type, or an array without its count; else around any type the shape `Qa` with the type's own value */
    if (shape == 'a' && one_in(2)) memmove(t + 2, t + 4, c->target.n - 4), t[1] = 'r', c->target.n -= 2;
    else if (shape == 'v' || shape == 'm') t[0] = 'Q', c->target.n = shape == 'v' ? 3 : 4;
    else if (shape == 'a' || !one_in(3)) put(&c->target, "Qa", 2);
}

/* a call with one to three arguments of the type that stands in `target`, as elements of an array or with a target
 * that has nothing to do with them */
static void as_elements(struct call *c)
{
    static uint8_t type[2 * TYPE_MOST];
    size_t n = c->target.n, count = 1 + below(3);
    const struct row other = list[below(listed)].target;
    memcpy(type, c->target.at, n);
    c->entry = (enum entry)below(ENTRIES), c->stage = (int)below(3), c->args.n = 0;
    for (size_t i = 0; i < count; i++) {
        const uint8_t *t = type;
        if (!takes_types(c->entry)) c->args.n += value_made(&t, c->args.at + c->args.n);
        else memcpy(c->args.at + c->args.n, type, n), c->args.n += n;
    }
    uint64_t pick = below(4);
    if (pick == 0) put(&c->target, other.at, other.n);
    else if (pick == 1) put(&c->target, "Qa", 2);
    else if (pick == 2) memcpy(c->target.at, "Tr", 2), memcpy(c->target.at + 2, type, n), c->target.n = n + 2;
    else memcpy(c->target.at, "Ta", 2), put_u16(c->target.at + 2, count), memcpy(c->target.at + 4, type, n), c->target.n = n + 4;
}

/* The zero value of a type whose length is a little more than 2^64, so that it would be short where a length wraps:
 * an array of a struct of arrays, each of them of arrays of 65,535 one level shallower than the last, with as many
 * elements as still go in. */
static void length_past_64_bits(struct call *c)
{
    unsigned __int128 of[4] = {11}, rest;
    uint64_t times = 1 + below(4);
    uint8_t *t = c->target.at;
    size_t at = 10;
    for (int i = 1; i < 4; i++) of[i] = 4 + 65535 * of[i - 1];
    memcpy(t, "Ta", 2), put_u16(t + 2, times), memcpy(t + 4, "Tu\0\0\4\0", 6);
    rest = (((unsigned __int128)1 << 64) + times - 1) / times + 11 + below(32) - 6;
    for (int i = 3; i >= 0; i--) {
        uint64_t count = (uint64_t)((rest - 4) / of[i]);
        memcpy(t + at, "Ta", 2), put_u16(t + at + 2, count > 65535 ? 65535 : count ? count : 1);
        rest -= 4 + u16(t + at + 2) * of[i];
        at += 4 + arrays(t + at + 4, i);
    }
    c->entry = CALL_CTOR, c->stage = (int)below(3), c->target.n = at, c->args.n = 0;
}

/* arguments at and over the greatest number */
static void many_arguments(struct call *c)
{
    static const struct { const char *bytes; size_t n; } targets[] = {
        {"Qa", 2}, {"TrTs\5", 5}, {"Ta\377\377Ts\5", 7}, {"Tv\4Ts\5", 6}, {"Ts\5", 3}, {"Qv\4", 3}, {"Tm\2\2Ts\5", 7}};
    size_t n = 65534 + below(3), pick = below(sizeof targets / sizeof *targets);
    c->entry = (enum entry)below(ENTRIES), c->stage = (int)below(3);
    put(&c->target, targets[pick].bytes, targets[pick].n);
    c->args.n = takes_types(c->entry) ? repeat(c->args.at, n, "Ts\1", 3) : literals(c->args.at, n, one_in(2) ? 5 : 1);
}

/* an array with many elements, most often some hundreds */
static size_t array_type(uint8_t *to)
{
    memcpy(to, "Ta", 2), put_u16(to + 2, one_in(64) ? below(16000) + 1 : below(600) + 1);
    return 4 + type_made(to + 4, (int)below(2));
}

static void made(struct call *c)
{
    uint64_t pick = below(4096);
    uint8_t *t = c->target.at;
    if (pick < 4) { many_arguments(c); return; }
    if (pick < 40) { length_past_64_bits(c); return; }
    if (pick < 160) c->target.n = type_of_length(t, 4091 + below(7));
    else if (pick < 200) c->target.n = wide_type(t, (int)(1 + (one_in(2) ? 1019 + below(5) : below(300))));
    else if (pick < 230) c->target.n = array_type(t);
    else if (pick < 1400) c->target.n = deep_type(t, 13 + (int)below(5));
    else c->target.n = type_made(t, (int)below(4));
    if (one_in(2) && (pick < 200 || pick >= 230)) as_elements(c);
    else around(c);
}

/* ---- damage ---- */

static void flip(struct row *r)
{
    for (uint64_t n = 1 + below(4); n && r->n; n--) r->at[below(r->n)] ^= (uint8_t)(1 << below(8));
}

/* at a mark, a count, a kind or a payload byte: from some place on to the next mark, and at most a literal's length further */
static void aim(struct row *r)
{
    static const uint8_t values[] = {0, 1, 2, 3, 4, 5, 6, 7, 255, 'T', 'V', 'Q', 's', 'v', 'm', 'a', 'r', 'u'};
    size_t at = below(r->n);
    while (at < r->n && r->at[at] != 'T' && r->at[at] != 'V' && r->at[at] != 'Q') at++;
    at += below(one_in(2) ? 4 : 11);
    if (at >= r->n) return;
    if (one_in(2)) r->at[at] ^= (uint8_t)(1 << below(8));
    else r->at[at] = values[below(sizeof values)];
}

static void cut(struct row *r)
{
    size_t n = one_in(3) && r->n ? r->n - 1 : below(r->n + 1);
    if (one_in(4)) memmove(r->at, r->at + r->n - n, n);
    r->n = n;
}

/* n bytes at a place become the given ones; where that is too long, nothing changes */
static void replace(struct row *r, size_t at, size_t n, const uint8_t *bytes, size_t len)
{
    if (r->n - n + len > MOST) return;
    memmove(r->at + at + len, r->at + at + n, r->n - at - n);
    memcpy(r->at + at, bytes, len);
    r->n += len - n;
}

/* a piece of another call's row, put in or over */
static void splice(struct row *r)
{
    struct row other = some_row();
    size_t from = one_in(2) ? 0 : below(other.n), len = one_in(2) ? other.n - from : below(other.n - from + 1),
        at = one_in(4) ? r->n : below(r->n + 1);
    size_t over = one_in(2) ? 0 : len < r->n - at ? len : r->n - at;
    replace(r, at, over, other.at + from, len);
}

static void delete_or_double(struct row *r)
{
    uint8_t piece[64];
    size_t at = below(r->n), n = 1 + below(one_in(2) ? 1 : one_in(2) ? 11 : sizeof piece);
    if (n > r->n - at) n = r->n - at;
    memcpy(piece, r->at + at, n);
    if (one_in(2)) replace(r, at, n, piece, 0);
    else replace(r, at, 0, piece, n);
}

/* target and arguments as one row of bytes, parted at another place */
static void part_elsewhere(struct call *c)
{
    static uint8_t joined[2 * MOST];
    size_t all = c->target.n + c->args.n, at = one_in(2) ? c->target.n + below(9) - 4 : below(all + 1);
    if (all > MOST || at > all) return;
    memcpy(joined, c->target.at, c->target.n), memcpy(joined + c->target.n, c->args.at, c->args.n);
    put(&c->target, joined, at), put(&c->args, joined + at, all - at);
}

static void damage(struct call *c)
{
    struct row *r = one_in(3) ? &c->target : &c->args, other = list[below(listed)].args;
    size_t from;
    switch (below(12)) {
    case 0: flip(r); break;
    case 1: case 2: case 3: aim(r); break;
    case 4: cut(r); break;
    case 5: splice(r); break;
    case 6: delete_or_double(r); break;
    case 7: part_elsewhere(c); break;
    case 8: put(&c->args, other.at, other.n); break;
    case 9: replace(&c->args, c->args.n, 0, other.at, other.n); break;
    case 10: c->entry = (enum entry)below(ENTRIES); break;
    case 11: from = one_in(2) ? 0 : below(r->n), set_kinds(&(struct row){r->at + from, r->n - from}, (uint8_t)below(7)); break;
    }
}

static void next_call(struct call *c)
{
    c->target.at = target, c->args.at = args;
    if (one_in(5)) made(c);
    else from_list(c);
    if (!one_in(4))
        for (uint64_t n = one_in(3) ? 1 + below(3) : 1; n; n--) damage(c);
    if (one_in(16)) c->stage = (int)below(256);
}
