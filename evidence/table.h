/* What is written down of WGSL's memory layout, with the numbers that must come: its own table, its two structs,
 * sizes past 64 bits, and the order of the refusals. The calls are made by `ask` of layout.c. */

static uint64_t written_down;
static void written(int good) { written_down++, hold(TABLE, good); }
static struct row row_at(uint8_t *to, const void *bytes, size_t n) { memcpy(to, bytes, n); return (struct row){to, n}; }

static void expect_layout(struct row type, uint64_t refusal, uint64_t size, uint64_t align)
{
    ask(OF, type, none, 0), written(came.answer.refusal == refusal && came.answer.value == size && came.align == align);
}

/* a value of up to 31 scalars whose bytes are all others, and none 0: those of the nth, counted from 1, are 4n, 4n + 1, .. */
static struct row counted_value(struct row type)
{
    const uint8_t *t = type.at;
    struct row value = {args, value_made(&t, args)};
    uint8_t n = 0;
    for (size_t i = 0; i + 11 <= value.n; i++)
        if (!memcmp(args + i, "Vs", 2)) {
            uint8_t kind = args[i + 2], next = (uint8_t)(++n * 4);
            memset(args + i + 3, 0, 8),
                memcpy(args + i + 3, (uint8_t[]){next, (uint8_t)(next + 1), (uint8_t)(next + 2), (uint8_t)(next + 3)},
                kind == 6 ? 2 : 4);
            i += 10;
        }
    return value;
}

/* the counted value lies with its scalars at these places and zero elsewhere, and is read back from there, also with
 * other bytes for zero */
static void expect_places(struct row type, uint64_t size, const uint16_t *places, size_t count, size_t scalar)
{
    struct row value = counted_value(type), laid = {memory, size};
    memset(memory, 0, size);
    for (size_t i = 0; i < count; i++)
        for (size_t b = 0; b < scalar; b++) memory[places[i] + b] = (uint8_t)(4 * (i + 1) + b);
    ask(WRITE, none, value, size), written(gave(memory, size));
    for (size_t i = 0; i < size; i++) if (!memory[i]) memory[i] = 0xff;
    ask(READ, type, laid, value.n), written(gave(value.at, value.n));
}

/* WGSL's table of alignment and size: of 32 bits, of F16; for a matrix with how far its columns are apart */
static const struct { uint8_t n, rows; uint16_t align, size, apart, half_align, half_size, half_apart; } table[] = {
    {1, 1, 4, 4, 4, 2, 2, 2}, {2, 1, 8, 8, 4, 4, 4, 2}, {3, 1, 16, 12, 4, 8, 6, 2}, {4, 1, 16, 16, 4, 8, 8, 2},
    {2, 2, 8, 16, 8, 4, 8, 4}, {3, 2, 8, 24, 8, 4, 12, 4}, {4, 2, 8, 32, 8, 4, 16, 4},
    {2, 3, 16, 32, 16, 8, 16, 8}, {3, 3, 16, 48, 16, 8, 24, 8}, {4, 3, 16, 64, 16, 8, 32, 8},
    {2, 4, 16, 32, 16, 8, 16, 8}, {3, 4, 16, 48, 16, 8, 24, 8}, {4, 4, 16, 64, 16, 8, 32, 8},
};

static void expect_row(size_t i, uint8_t kind)
{
    uint8_t n = table[i].n, rows = table[i].rows, scalar = kind == 6 ? 2 : 4;
    uint16_t size = kind == 6 ? table[i].half_size : table[i].size, align = kind == 6 ? table[i].half_align : table[i].align;
    uint16_t apart = kind == 6 ? table[i].half_apart : table[i].apart, places[16], count = 0;
    struct row type = rows > 1 ? row_at(target, (uint8_t[]){'T', 'm', n, rows, 'T', 's', kind}, 7)
        : n > 1 ? row_at(target, (uint8_t[]){'T', 'v', n, 'T', 's', kind}, 6) : row_at(target, (uint8_t[]){'T', 's', kind}, 3);
    for (uint8_t c = 0; c < n; c++)
        for (uint8_t r = 0; r < rows; r++) places[count++] = (uint16_t)(c * apart + r * scalar);
    expect_layout(type, 0, size, align);
    expect_places(type, size, places, count, scalar);
}

/* arrays: the element's alignment, and each element by its size rounded up to that */
static void expect_arrays(void)
{
    static const struct { const char *type; size_t n; uint64_t size, align; } arrays_of[] = {
        {"Ta\7\0Ts\5", 7, 28, 4}, {"Ta\7\0Ts\6", 7, 14, 2}, {"Ta\5\0Tv\3Ts\5", 10, 80, 16},
        {"Ta\3\0Tv\3Ts\6", 10, 24, 8}, {"Ta\3\0Tv\2Ts\4", 10, 24, 8},
        {"Ta\2\0Tm\3\3Ts\5", 11, 96, 16}, {"Ta\1\0Tv\3Ts\3", 10, 16, 16}, {"Ta\2\0Ta\3\0Tv\3Ts\5", 14, 96, 16},
        {"Ta\377\377Ts\5", 7, 262140, 4},
    };
    for (size_t i = 0; i < sizeof arrays_of / sizeof *arrays_of; i++)
        expect_layout(row_at(target, arrays_of[i].type, arrays_of[i].n), 0, arrays_of[i].size, arrays_of[i].align);
}

/* the two structs that WGSL works out: A { f32, f32, vec2<f32>, f32 } and B { vec2<f32>, vec3<f32>, f32, f32, A,
 * vec3<f32>, array<A, 3>, i32 } */
#define STRUCT_A "Tu\1\0\4\0Ts\5Ts\5Tv\2Ts\5Ts\5"
#define STRUCT_B "Tu\2\0\10\0Tv\2Ts\5Tv\3Ts\5Ts\5Ts\5" STRUCT_A "Tv\3Ts\5Ta\3\0" STRUCT_A "Ts\3"
static void expect_structs(void)
{
    static const uint16_t a[] = {0, 4, 8, 12, 16};
    static const uint16_t b[] = {0, 4, 16, 20, 24, 28, 32, 40, 44, 48, 52, 56, 64, 68, 72, 80, 84, 88, 92, 96, 104, 108,
        112, 116, 120, 128, 132, 136, 140, 144, 152};
    struct row type = row_at(target, STRUCT_A, sizeof STRUCT_A - 1);
    expect_layout(type, 0, 24, 8), expect_places(type, 24, a, sizeof a / sizeof *a, 4);
    type = row_at(target, STRUCT_B, sizeof STRUCT_B - 1);
    expect_layout(type, 0, 160, 16), expect_places(type, 160, b, sizeof b / sizeof *b, 4);
}

/* scalars whose bits arithmetic would change: quiet and signalling NaN, minus zero, subnormal numbers */
static void expect_bits(void)
{
    static const uint32_t bits[] = {0x7f800001, 0xff800001, 0x7fa00000, 0x7fc00000, 0xffc12345, 0x7fffffff, 0x80000000,
        0x00000001, 0x807fffff, 0x7f800000, 0xffffffff};
    static const uint16_t halves[] = {0x7c01, 0xfc01, 0x7d00, 0x7e00, 0xfe55, 0x7fff, 0x8000, 0x0001, 0x83ff, 0x7c00, 0xffff};
    for (size_t i = 0; i < 2 * sizeof bits / sizeof *bits; i++) {
        uint32_t x = i % 2 ? halves[i / 2] : bits[i / 2];
        uint8_t kind = i % 2 ? 6 : 5, low[4] = {(uint8_t)x, (uint8_t)(x >> 8), (uint8_t)(x >> 16), (uint8_t)(x >> 24)};
        size_t size = kind == 6 ? 2 : 4;
        struct row type = row_at(target, (uint8_t[]){'T', 's', kind}, 3),
            value = row_at(args, (uint8_t[11]){'V', 's', kind, low[0], low[1], low[2], low[3]}, 11);
        ask(WRITE, none, value, size), written(gave(low, size));
        ask(READ, type, row_at(memory, low, size), 11), written(gave(value.at, 11));
    }
}

/* as many elements as an array can have, with drawn scalars */
static void expect_long(uint8_t kind, uint64_t size)
{
    struct row type = row_at(target, (uint8_t[]){'T', 'a', 255, 255, 'T', 's', kind}, 7),
        value = {args, 4 + literals(args + 4, 65535, kind)}, laid = {memory, size};
    memcpy(args, "Va\377\377", 4);
    for (size_t at = 7; at < value.n; at += 11) args[at] = (uint8_t)draw(), args[at + 1] = (uint8_t)draw();
    ask(WRITE, none, value, size), written(!came.answer.refusal && came.answer.value == size);
    if (result) memcpy(memory, result, size);
    ask(READ, type, laid, value.n), written(gave(value.at, value.n));
}

/* arrays in one another, of 65,535 and of powers of two: sizes past 64 bits, also of just 2^64 and its multiples,
 * which leave nothing in 64 bits */
static struct row nest_of(int depth, size_t count, const char *leaf, size_t n)
{
    size_t at = 0;
    for (int i = 0; i < depth; i++) at += array_head(target + at, count);
    memcpy(target + at, leaf, n);
    return (struct row){target, at + n};
}
static void expect_vast(struct row type)
{
    static const size_t lengths[] = {0, 1, 4, 8, 16, 65536};
    expect_layout(type, 22, 0, 0);
    for (size_t i = 0; i < sizeof lengths / sizeof *lengths; i++)
        ask(READ, type, (struct row){memory, lengths[i]}, ROOM), written(came.answer.refusal == 26);
}

/* the last sizes of 64 bits and the first past them: alone, with a member behind, which may have to begin at 2^64 or
 * end there, and with one before */
static struct row sized(wide size, uint8_t kind) { return (struct row){target, type_of_size(target, size, kind)}; }
static struct row sized_before(wide size, const char *behind, size_t n)
{
    size_t at = 6 + type_of_size(target + 6, size, 5);
    memcpy(target, "Tu\0\0\2\0", 6), memcpy(target + at, behind, n);
    return (struct row){target, at + n};
}
static struct row sized_behind(wide size, const char *before_it, size_t n)
{
    memcpy(target, "Tu\0\0\2\0", 6), memcpy(target + 6, before_it, n);
    return (struct row){target, 6 + n + type_of_size(target + 6 + n, size, 5)};
}
static void expect_last_sizes(void)
{
    expect_layout(sized(TOP - 2, 6), 0, UINT64_MAX - 1, 2), expect_layout(sized(TOP - 4, 5), 0, UINT64_MAX - 3, 4);
    expect_vast(sized(TOP, 6)), expect_vast(sized(TOP, 5)), expect_vast(sized(TOP + 16, 5)), expect_vast(sized(3 * TOP + 8, 5));
    expect_layout(sized_before(TOP - 16, "Tv\2Ts\5", 6), 0, UINT64_MAX - 7, 8);
    expect_vast(sized_before(TOP - 12, "Tv\2Ts\5", 6)), expect_vast(sized_before(TOP - 4, "Ts\5", 3)),
        expect_vast(sized_before(TOP - 12, "Tv\3Ts\5", 6));
    expect_layout(sized_behind(TOP - 32, "Tv\3Ts\5", 6), 0, UINT64_MAX - 15, 16);
    expect_vast(sized_behind(TOP - 12, "Tv\3Ts\5", 6)), expect_vast(sized_behind(TOP - 16, "Tv\4Ts\5", 6));
}

static void expect_sizes(void)
{
    static const uint64_t of_65535[] = {4, 262140, 17179344900, 1125848368021500};
    for (int i = 0; i < 4; i++) expect_layout(nest_of(i, 65535, "Ts\5", 3), 0, of_65535[i], 4);
    for (int i = 4; i <= 15; i++) expect_vast(nest_of(i, 65535, "Ts\5", 3));
    expect_layout(nest_of(4, 32768, "Ts\5", 3), 0, 0x4000000000000000, 4);
    expect_layout(nest_of(4, 32768, "Tv\2Ts\5", 6), 0, 0x8000000000000000, 8);
    for (int i = 4; i <= 14; i++) expect_vast(nest_of(i, 32768, "Tv\4Ts\5", 6)), expect_vast(nest_of(i, 32768, "Tv\3Ts\5", 6));
    for (int i = 5; i <= 15; i++) expect_vast(nest_of(i, 32768, "Ts\6", 3)), expect_vast(nest_of(i, 16384, "Ts\5", 3));
    expect_last_sizes();
}

/* ---- refusals ---- */

/* a row that must be refused with that number */
struct bad_row { const char *bytes; size_t n; unsigned refusal; };

/* read_layout refuses whatever the memory's length and the buffer's, layout_of likewise */
static void expect_bad_targets(void)
{
    static const struct bad_row targets[] = {
        {"", 0, 1}, {"Ts\7", 3, 1}, {"Qa", 2, 1}, {"Qv\2", 3, 1}, {"Qm\2\2", 4, 1}, {"TsTs\5", 5, 1},
        {"Ts\5Ts\5", 6, 1}, {"Tm\2\2Ts\3", 7, 1}, {"Ta\0\0Ts\5", 7, 1},
        {"TrTrTs\5", 7, 1}, {"TrTs\5", 5, 25}, {"TrTs\0", 5, 25}, {"Ts\0", 3, 25}, {"Ts\1", 3, 25}, {"Ts\2", 3, 25},
        {"Tv\2Ts\0", 6, 25}, {"Tm\2\2Ts\2", 7, 25},
        {"Ta\2\0Ts\0", 7, 25}, {"Ta\2\0Ta\2\0Tv\2Ts\1", 14, 25}, {"Tu\0\0\2\0Ts\5Ts\0", 12, 25}, {"Tu\0\0\2\0Ts\0Ts\5", 12, 25},
        {"Ta\1\0Tu\0\0\2\0Ts\5Ta\1\0Tu\0\0\1\0Ts\0", 26, 25}, {"Ta\377\377Ta\377\377Ta\377\377Ta\377\377Ta\377\377Ts\0", 23, 25},
    };
    static const size_t lengths[] = {0, 1, 4, 8};
    for (size_t i = 0; i < sizeof targets / sizeof *targets; i++) {
        struct row type = row_at(target, targets[i].bytes, targets[i].n);
        expect_layout(type, targets[i].refusal, 0, 0);
        for (size_t l = 0; l < 4; l++)
            for (size_t room = 0; room <= ROOM; room += ROOM)
                ask(READ, type, (struct row){memory, lengths[l]}, room),
                written(came.answer.refusal == targets[i].refusal);
    }
}

/* what is no value or not one is 2, then 25, whatever the buffer's length */
static void expect_bad_values(void)
{
    static const struct bad_row values[] = {
        {"", 0, 2}, {"Ts\5", 3, 2}, {"Vs\7\0\0\0\0\0\0\0\0", 11, 2},
        {"Vs\5\0\0\0\0\0\0\0\0Vs\5\0\0\0\0\0\0\0\0", 22, 2}, {"Vs\5\0\0\0\0\0\0\0\0V", 12, 2},
        {"Vs\5\0\0\0\0\1\0\0\0", 11, 2}, {"Vs\0\2\0\0\0\0\0\0\0", 11, 2}, {"Vs\0\0\0\0\0\0\0\0\0Vs\0\0\0\0\0\0\0\0\0", 22, 2},
        {"Vs\0\1\0\0\0\0\0\0\0", 11, 25}, {"Vs\1\1\0\0\0\0\0\0\0", 11, 25}, {"Vs\2\1\0\0\0\0\0\0\0", 11, 25},
        {"Va\1\0Vs\0\1\0\0\0\0\0\0\0", 15, 25},
        {"Vu\0\0\2\0Vs\5\0\0\0\0\0\0\0\0Vs\0\1\0\0\0\0\0\0\0", 28, 25},
    };
    for (size_t i = 0; i < sizeof values / sizeof *values; i++)
        for (size_t room = 0; room <= ROOM; room += ROOM) {
            ask(WRITE, none, row_at(args, values[i].bytes, values[i].n), room);
            written(came.answer.refusal == values[i].refusal);
        }
}

/* every length of memory about a vec3's size, with every length of a buffer about its record's: 26, then 22 */
static void expect_lengths(void)
{
    struct row type = row_at(target, "Tv\3Ts\5", 6);
    for (size_t n = 0; n <= 20; n++)
        for (size_t room = 0; room <= 40; room++)
            ask(READ, type, (struct row){memory, n}, room),
            written(came.answer.refusal == (n != 12 ? 26 : room < 36 ? 22 : 0));
}

static void run_written(void)
{
    for (size_t i = 0; i < sizeof table / sizeof *table; i++)
        for (uint8_t kind = 3; kind <= 6; kind++)
            if (table[i].rows == 1 || kind >= 5) expect_row(i, kind);
    expect_arrays();
    expect_structs();
    expect_bits();
    expect_long(5, 262140), expect_long(6, 131070);
    expect_sizes();
    expect_bad_targets();
    expect_bad_values();
    expect_lengths();
}
