/* How a value lies in memory, from the words of document 02 alone: a tree of the type's parts, each with its size,
 * its alignment and its place, and so every scalar's place. It shares nothing with the library, so that one can be
 * held to the other. What is well formed, reader.h reads. */

typedef unsigned __int128 wide;
static const wide TOP = (wide)1 << 64;

/* A type or a part of one. `part` is the first member of a struct, of the others what each of the `count` parts is:
 * a vector's scalar, a matrix's column, an array's element. `at` is a member's place in its struct; no size is
 * followed past 2^64. */
struct node {
    uint8_t head[6]; /* what a value's record begins with: mark, kind or counts */
    size_t head_n, count;
    struct node *part, *next;
    wide size, align, stride, at;
    int unlaid; /* holds Bool or an abstract kind */
};
static struct node nodes[TYPE_MOST];
static size_t grown;

static struct node *grow(const uint8_t *head, size_t n, size_t count, struct node *part)
{
    struct node *t = &nodes[grown++];
    *t = (struct node){.head_n = n, .count = count, .part = part, .unlaid = part && part->unlaid};
    memcpy(t->head, head, n), t->head[0] = 'V';
    return t;
}

/* the next multiple */
static wide up(wide n, wide align) { return n % align ? n + align - n % align : n; }
static wide followed(wide size) { return size < TOP ? size : TOP; }

/* "32-bit scalars 4, F16 2" */
static struct node *scalar_of(uint8_t kind)
{
    struct node *t = grow((uint8_t[]){'V', 's', kind}, 3, 0, 0);
    t->size = t->align = kind == 6 ? 2 : 4;
    t->unlaid = kind <= 2;
    return t;
}

/* "a vector of 2 is aligned to two scalars, of 3 or 4 to four" */
static struct node *vector_of(uint8_t n, uint8_t kind)
{
    struct node *t = grow((uint8_t[]){'V', 'v', n}, 3, n, scalar_of(kind));
    t->stride = t->part->size, t->size = n * t->stride;
    t->align = (n == 2 ? 2 : 4) * t->part->size;
    return t;
}

/* "an array's stride is its element's size rounded up to the element's alignment"; "a matrix is laid as an array of its columns" */
static struct node *row_of(const uint8_t *head, size_t count, struct node *part)
{
    struct node *t = grow(head, 4, count, part);
    t->align = part->align, t->stride = up(part->size, part->align);
    t->size = followed(count * t->stride);
    return t;
}

/* "a struct's members follow one another, each at the next multiple of its alignment; a struct is aligned as its
 * most aligned member and its size is rounded up to that" */
static struct node *tree_of(const uint8_t **t);
static struct node *struct_of(const uint8_t **t)
{
    struct node *s = grow(*t, 6, u16(*t + 4), 0), **to = &s->part;
    wide at = 0;
    *t += 6;
    for (size_t i = 0; i < s->count; i++, to = &(*to)->next) {
        struct node *m = *to = tree_of(t);
        m->at = up(at, m->align), at = followed(m->at + m->size);
        if (m->align > s->align) s->align = m->align;
        s->unlaid |= m->unlaid;
    }
    s->size = followed(up(at, s->align));
    return s;
}

/* of the well-formed type at *t, which is moved past it */
static struct node *tree_of(const uint8_t **t)
{
    const uint8_t *r = *t;
    switch (r[1]) {
    case 's': *t += 3; return scalar_of(r[2]);
    case 'v': *t += 6; return vector_of(r[2], r[5]);
    case 'm': *t += 7; return row_of(r, r[2], vector_of(r[3], r[6]));
    case 'a': *t += 4; return row_of(r, u16(r + 2), tree_of(t));
    default: return struct_of(t);
    }
}

/* ---- where the scalars are ---- */

/* The scalars of a value, in order: each one's payload in the value's record, and its place in memory. `blank` is
 * that record with nothing in the payloads. */
static struct { size_t record, memory, size; } scalars[MOST / 11];
static size_t scalars_n;
static uint8_t blank[MOST];

/* the value begins at these places; gives where its record ends */
static size_t spread(const struct node *t, size_t record, size_t memory)
{
    memcpy(blank + record, t->head, t->head_n), record += t->head_n;
    if (t->head[1] == 's') {
        memset(blank + record, 0, 8);
        scalars[scalars_n].record = record, scalars[scalars_n].memory = memory, scalars[scalars_n++].size = (size_t)t->size;
        return record + 8;
    }
    if (t->head[1] == 'u') for (const struct node *m = t->part; m; m = m->next) record = spread(m, record, memory + (size_t)m->at);
    else for (size_t i = 0; i < t->count; i++) record = spread(t->part, record, memory + i * (size_t)t->stride);
    return record;
}

/* ---- what is due ---- */

/* A call: `given` is what write_layout takes for arguments, and read_layout for memory. What it answers: layout_of's
 * size is `value`, and only it has an alignment. */
enum laying { WRITE, READ, OF, LAYINGS };
struct asked { enum laying entry; struct row target, given; size_t room; };
struct told { struct vireo_answer answer; uint64_t align; };

/* What the call must answer, and the bytes that must come. `type` is the type of a well-formed value or target, and
 * `length` how long the result is, or would be if it were not refused, up to 2^64. */
static struct { struct told told; const struct node *type; wide length; uint8_t bytes[MOST]; } due;

static unsigned write_due(const struct asked *a)
{
    static uint8_t type[TYPE_ROOM];
    const uint8_t *t = type;
    size_t n;
    if (!a->given.n || value_front(a->given.at, a->given.n, DEPTH_MOST, type, &n) != a->given.n) return 2;
    due.type = tree_of(&t), due.length = due.type->size;
    if (due.type->unlaid) return 25;
    if (due.length > a->room) return 22;
    spread(due.type, 0, 0);
    memset(due.bytes, 0, (size_t)due.length);
    for (size_t i = 0; i < scalars_n; i++) memcpy(due.bytes + scalars[i].memory, a->given.at + scalars[i].record, scalars[i].size);
    return 0;
}

/* what read_layout and layout_of say of the target */
static unsigned target_due(const struct asked *a)
{
    const uint8_t *t = a->target.at;
    if (!target_formed(t, a->target.n, 0)) return 1;
    if (t[1] == 'r') return 25;
    due.type = tree_of(&t);
    return due.type->unlaid ? 25 : 0;
}

static unsigned read_due(const struct asked *a)
{
    const uint8_t *t = a->target.at;
    unsigned refusal = target_due(a);
    if (due.type) due.length = value_length(&t);
    if (refusal) return refusal;
    if (due.type->size != a->given.n) return 26;
    if (due.length > a->room) return 22;
    spread(due.type, 0, 0);
    memcpy(due.bytes, blank, (size_t)due.length);
    for (size_t i = 0; i < scalars_n; i++) memcpy(due.bytes + scalars[i].record, a->given.at + scalars[i].memory, scalars[i].size);
    return 0;
}

static unsigned of_due(const struct asked *a)
{
    unsigned refusal = target_due(a);
    if (due.type) due.length = due.type->size;
    return refusal ? refusal : due.length < TOP ? 0 : 22;
}

static inline void work_out(const struct asked *a)
{
    grown = scalars_n = 0, due.type = 0, due.length = 0;
    uint64_t refusal = a->entry == WRITE ? write_due(a) : a->entry == READ ? read_due(a) : of_due(a);
    due.told.answer = (struct vireo_answer){refusal, refusal ? 0 : (uint64_t)due.length, 0, 0};
    due.told.align = a->entry == OF && !refusal ? (uint64_t)due.type->align : 0;
}
