/* Routes for vireo_call_batch, drawn from a seed: one slice of records, well formed and damaged, and jobs whose
 * parts lie in it or, in some routes, do not. Whether a part lies in the slice is not known here: batch.c judges it. */

enum { JOBS_TAKEN = 256, JOBS_MOST = 1024, ROWS_MOST = MOST + 128, SLICE_MOST = 2 * ROWS_MOST + 64, KNOWN_MOST = 12 };

/* the route: a slice of n bytes, a list of jobs, and a buffer of that length. Where `fit` says so, the buffer ends
 * at the end of a job's record or a byte beside it */
enum fit { NOWHERE, ENDS_AT, BYTE_SHORT, BYTE_OVER };
struct route { size_t n, count, room; enum fit fit; size_t fit_job; };
static uint8_t slice[SLICE_MOST];
static struct vireo_job jobs[JOBS_MOST];

/* the calls whose rows lie in the slice: jobs are made of these, so that a list of 256 needs few of them and shares their parts */
struct known { struct vireo_part target, args; uint8_t stage; };
static struct known known[KNOWN_MOST];

/* a build: half of them are accepted ones of the lists, the others mostly damaged; now and then the rows of another
 * entry, often types for arguments */
static void next_build(struct call *c)
{
    const struct listed *l;
    if (one_in(2)) {
        do next_call(c); while (c->entry != CALL_CTOR && !one_in(16));
        return;
    }
    do l = &list[below(listed)]; while (l->entry != CALL_CTOR || !l->answer.n);
    c->entry = CALL_CTOR, c->stage = l->stage < 0 ? (int)below(3) : l->stage;
    c->target = l->target, c->args = l->args;
}

/* a row behind the earlier ones, now and then with some bytes between */
static struct vireo_part append(uint8_t *to, size_t *n, const struct row *r)
{
    if (one_in(8)) for (uint64_t gap = 1 + below(8); gap; gap--) to[(*n)++] = (uint8_t)draw();
    struct vireo_part part = {*n, r->n};
    memcpy(to + *n, r->at, r->n);
    *n += r->n;
    return part;
}

/* The slice of a route: all targets, then all arguments, or the other way round, so that lists of arguments that lie
 * side by side are one longer list too. Returns how many calls are known. */
static size_t draw_slice(struct route *r)
{
    static uint8_t rows[2][ROWS_MOST];
    size_t n[2] = {0, 0}, calls = 0, most = r->count < KNOWN_MOST ? 1 + below(r->count) : 1 + below(KNOWN_MOST);
    int first = (int)below(2);
    struct call c;
    for (; calls < most; calls++) {
        next_build(&c);
        if (calls && (n[0] + c.target.n > MOST || n[1] + c.args.n > MOST)) break;
        known[calls].target = append(rows[0], &n[0], &c.target), known[calls].args = append(rows[1], &n[1], &c.args);
        known[calls].stage = (uint8_t)c.stage;
    }
    memcpy(slice, rows[first], n[first]), memcpy(slice + n[first], rows[!first], n[!first]);
    for (size_t i = 0; i < calls; i++) *(first ? &known[i].target.start : &known[i].args.start) += n[first];
    r->n = n[0] + n[1];
    if (one_in(4)) for (uint64_t tail = 1 + below(8); tail; tail--) slice[r->n++] = (uint8_t)draw();
    if (one_in(64)) r->n = 0, known[0] = (struct known){{0, 0}, {0, 0}, (uint8_t)below(3)}, calls = 1;
    return calls;
}

/* a part of the slice that is no row, or not one: empty, the front or the rest of the slice, a row cut at its front,
 * two rows and what is between them */
static struct vireo_part odd_part(struct vireo_part p, struct vireo_part q, size_t n)
{
    size_t at = below(n + 1), end = p.start + p.len > q.start + q.len ? p.start + p.len : q.start + q.len;
    if (p.start > q.start) p.start = q.start;
    switch (below(8)) {
    case 0: return (struct vireo_part){at, 0};
    case 1: return (struct vireo_part){n, 0};
    case 2: return (struct vireo_part){at, n - at};
    case 3: return (struct vireo_part){0, at};
    case 4: return (struct vireo_part){at, below(n - at + 1)};
    case 5: at = below(q.len + 1); return (struct vireo_part){q.start + at, q.len - at};
    default: return (struct vireo_part){p.start, end - p.start};
    }
}

/* a part that reaches outside, by a byte or by far: past the end, at the top of 64 bits, and so that start + len in
 * 64 bits is a place inside */
static struct vireo_part outside_part(size_t n)
{
    size_t at = below(n + 1), more = 1 + (one_in(2) ? 0 : below(64)), top = SIZE_MAX, half = top / 2 + 1;
    switch (below(12)) {
    case 0: return (struct vireo_part){at, n - at + 1};
    case 1: return (struct vireo_part){at, n - at + more};
    case 2: return (struct vireo_part){n, more};
    case 3: case 4: return (struct vireo_part){n + more, 0};
    case 5: return (struct vireo_part){n + more, below(64)};
    case 6: return (struct vireo_part){top, below(4)};
    case 7: return (struct vireo_part){at, top - below(4)};
    case 8: return (struct vireo_part){top - more + 1, more};
    case 9: return (struct vireo_part){top - more + 1, more + at};
    case 10: return (struct vireo_part){at, top - at + (at != 0)};
    default: return (struct vireo_part){half, half + (one_in(2) ? 0 : at)};
    }
}

static struct vireo_job draw_job(size_t calls, size_t n)
{
    const struct known *k = &known[below(calls)], *other = &known[below(calls)];
    struct vireo_job j;
    memset(&j, (int)below(256), sizeof j);
    j.target = k->target, j.args = k->args, j.stage = k->stage;
    if (one_in(8)) j.args = other->args;
    if (one_in(32)) j.stage = (uint8_t)(one_in(2) ? 3 : below(256));
    if (one_in(24)) j.target = odd_part(k->target, other->target, n);
    if (one_in(12)) j.args = odd_part(k->args, other->args, n);
    /* what the call sets holds something else before, in each job another */
    j.answer = (struct vireo_answer){draw(), draw(), draw(), draw()}, j.at = draw();
    return j;
}

static size_t draw_count(void)
{
    uint64_t pick = below(64);
    if (pick == 0) return 0;
    if (pick < 8) return 1;
    if (pick < 16) return 2;
    if (pick > 17) return one_in(16) ? 9 + below(32) : 3 + below(6);
    switch (below(8)) {
    case 0: return 190 + below(21);
    case 1: return 255;
    case 2: case 3: return 256;
    case 4: case 5: return 257;
    case 6: return 258 + below(64);
    default: return one_in(8) ? 258 + below(JOBS_MOST - 257) : 41 + below(214);
    }
}

/* the slice and the list; in some routes a part of the first, the last or any job is outside, in some of these a second one */
static void draw_route(struct route *r)
{
    r->count = draw_count();
    size_t calls = draw_slice(r);
    for (size_t i = 0; i < r->count; i++) jobs[i] = draw_job(calls, r->n);
    if (!r->count || !one_in(r->count > JOBS_TAKEN ? 2 : 6)) return;
    do {
        uint64_t pick = below(3);
        struct vireo_job *j = &jobs[pick == 0 ? 0 : pick == 1 ? r->count - 1 : below(r->count)];
        *(one_in(2) ? &j->target : &j->args) = outside_part(r->n);
    } while (one_in(4));
}
