/* Batch calls that are wrong in one way each, to see that the checks of batch.c notice: each stands in for
 * vireo_call_batch and commits one fault around it. */

struct batch { uint8_t *bytes; size_t n; struct vireo_job *jobs; size_t count; uint8_t *out; size_t room; };

static struct vireo_answer right(struct batch b) { return vireo_call_batch(b.bytes, b.n, b.jobs, b.count, b.out, b.room); }

/* whether a part lies in the slice, and whether the call is accepted: the faults need to know it and must not use
 * the judge's own words for it */
static int within(struct vireo_part p, size_t n) { return p.start <= n && p.len <= n - p.start; }
static int job_within(const struct vireo_job *j, size_t n) { return within(j->target, n) && within(j->args, n); }
static size_t jobs_within(struct batch b)
{
    size_t i = 0;
    while (i < b.count && job_within(&b.jobs[i], b.n)) i++;
    return i;
}
static int taken(struct batch b) { return b.count <= JOBS_TAKEN && jobs_within(b) == b.count; }

/* the list as it was before the call */
static struct vireo_job kept[JOBS_MOST];
static void keep(struct batch b) { memcpy(kept, b.jobs, b.count * sizeof *kept); }
static void parts_back(struct batch b)
{
    for (size_t i = 0; i < b.count; i++) b.jobs[i].target = kept[i].target, b.jobs[i].args = kept[i].args, b.jobs[i].stage = kept[i].stage;
}

/* ---- outside what is lent, or changed in it ---- */

static volatile size_t looked_at;
static struct vireo_answer reads_past_slice(struct batch b) { looked_at = b.bytes[b.n]; return right(b); }
static struct vireo_answer reads_before_slice(struct batch b) { looked_at = b.bytes[-1]; return right(b); }
static struct vireo_answer reads_past_list(struct batch b) { looked_at = b.jobs[b.count].target.len; return right(b); }
static struct vireo_answer writes_past_list(struct batch b) { b.jobs[b.count].stage ^= 1; return right(b); }
static struct vireo_answer writes_before_list(struct batch b) { b.jobs[-1].at ^= 1; return right(b); }
static struct vireo_answer writes_past_buffer(struct batch b) { b.out[b.room] ^= 1; return right(b); }
static struct vireo_answer writes_before_buffer(struct batch b) { b.out[-1] ^= 1; return right(b); }
static struct vireo_answer sets_off_alarm(struct batch b) { if (b.count == JOBS_TAKEN) raise(SIGALRM); return right(b); }
static struct vireo_answer changes_slice(struct batch b)
{
    struct vireo_answer a = right(b);
    if (b.n) b.bytes[b.n / 2] ^= 1;
    return a;
}
static struct vireo_answer changes_stage(struct batch b)
{
    struct vireo_answer a = right(b);
    for (size_t i = 0; i < b.count; i++) if (b.jobs[i].stage > 3) b.jobs[i].stage = 3;
    return a;
}
static struct vireo_answer changes_part(struct batch b)
{
    struct vireo_answer a = right(b);
    for (size_t i = 0; i < b.count; i++) if (!b.jobs[i].args.len) b.jobs[i].args.start = b.n;
    return a;
}

/* ---- the answer of the whole call ---- */

static struct vireo_answer outside_first(struct batch b)
{
    struct vireo_answer a = right(b);
    if (a.refusal == 23 && jobs_within(b) < b.count) a.refusal = 24;
    return a;
}
static struct vireo_answer takes_257(struct batch b) { if (b.count == JOBS_TAKEN + 1) b.count--; return right(b); }
static struct vireo_answer takes_any(struct batch b) { if (b.count > JOBS_TAKEN) b.count = JOBS_TAKEN; return right(b); }
static struct vireo_answer refuses_256(struct batch b) { return b.count == JOBS_TAKEN ? (struct vireo_answer){23, 0, 0, 0} : right(b); }
static struct vireo_answer refuses_none(struct batch b) { return b.count ? right(b) : (struct vireo_answer){23, 0, 0, 0}; }

/* other parts in the place of those that `bend` changes */
static struct vireo_answer bent(struct batch b, struct vireo_part (*target_as)(struct vireo_part, size_t),
    struct vireo_part (*args_as)(struct vireo_part, size_t))
{
    keep(b);
    for (size_t i = 0; i < b.count; i++) b.jobs[i].target = target_as(b.jobs[i].target, b.n), b.jobs[i].args = args_as(b.jobs[i].args, b.n);
    struct vireo_answer a = right(b);
    parts_back(b);
    return a;
}
static struct vireo_part as_is(struct vireo_part p, size_t n) { (void)n; return p; }
static struct vireo_part into(struct vireo_part p, size_t n) { return within(p, n) ? p : (struct vireo_part){0, 0}; }
static struct vireo_part empty_into(struct vireo_part p, size_t n) { return p.len ? p : into(p, n); }
static struct vireo_part byte_into(struct vireo_part p, size_t n)
{
    return p.start <= n && p.len == n - p.start + 1 ? (struct vireo_part){p.start, p.len - 1} : p;
}
static struct vireo_part wrapped_into(struct vireo_part p, size_t n)
{
    return p.start + p.len < p.start && p.start + p.len <= n ? (struct vireo_part){0, 0} : p;
}
static struct vireo_part empty_end_out(struct vireo_part p, size_t n) { return !p.len && p.start == n ? (struct vireo_part){n + 1, 0} : p; }
static struct vireo_part end_out(struct vireo_part p, size_t n)
{
    return p.len && p.start <= n && p.len == n - p.start ? (struct vireo_part){p.start, p.len + 1} : p;
}
static struct vireo_answer empty_past_end(struct batch b) { return bent(b, empty_into, empty_into); }
static struct vireo_answer byte_outside(struct batch b) { return bent(b, byte_into, byte_into); }
static struct vireo_answer wrapped_sum(struct batch b) { return bent(b, wrapped_into, wrapped_into); }
static struct vireo_answer empty_end_refused(struct batch b) { return bent(b, empty_end_out, empty_end_out); }
static struct vireo_answer end_refused(struct batch b) { return bent(b, end_out, end_out); }
static struct vireo_answer any_target(struct batch b) { return bent(b, into, as_is); }
static struct vireo_answer any_args(struct batch b) { return bent(b, as_is, into); }
static struct vireo_answer last_not_looked_at(struct batch b)
{
    if (!b.count) return right(b);
    keep(b);
    struct vireo_job *last = &b.jobs[b.count - 1];
    last->target = into(last->target, b.n), last->args = into(last->args, b.n);
    struct vireo_answer a = right(b);
    parts_back(b);
    return a;
}
static struct vireo_answer stage_for_whole(struct batch b)
{
    size_t i = 0;
    while (i < b.count && b.jobs[i].stage <= 2) i++;
    return i < b.count && taken(b) ? (struct vireo_answer){3, 0, 0, 0} : right(b);
}
static struct vireo_answer records_counted(struct batch b)
{
    struct vireo_answer a = right(b);
    if (a.refusal) return a;
    a.value = 0;
    for (size_t i = 0; i < b.count; i++) a.value += !b.jobs[i].answer.refusal;
    return a;
}
static struct vireo_answer refusal_has_value(struct batch b)
{
    struct vireo_answer a = right(b);
    if (a.refusal == 24) a.value = jobs_within(b);
    return a;
}
static struct vireo_answer refusal_has_counts(struct batch b)
{
    struct vireo_answer a = right(b);
    if (a.refusal == 23) a.wanted = JOBS_TAKEN, a.given = b.count;
    return a;
}

/* ---- a refused call that writes ---- */

static struct vireo_answer answers_until_outside(struct batch b)
{
    struct vireo_answer a = right(b);
    if (a.refusal == 24) b.count = jobs_within(b), right(b);
    return a;
}
static struct vireo_answer told_in_list(struct batch b, uint64_t refusal)
{
    struct vireo_answer a = right(b);
    for (size_t i = 0; i < b.count && a.refusal == refusal; i++) b.jobs[i].answer = a;
    return a;
}
static struct vireo_answer told_23(struct batch b) { return told_in_list(b, 23); }
static struct vireo_answer told_24(struct batch b) { return told_in_list(b, 24); }
static struct vireo_answer place_set(struct batch b)
{
    struct vireo_answer a = right(b);
    if (a.refusal) b.jobs[b.count - 1].at = 0;
    return a;
}
static struct vireo_answer refused_call_writes(struct batch b)
{
    struct vireo_answer a = right(b);
    if (a.refusal && b.room) b.out[b.room - 1] ^= 1;
    return a;
}

/* ---- the answers, the places and the records of the jobs ---- */

static struct vireo_answer next_entry(struct batch b)
{
    struct vireo_answer a = right(b);
    for (size_t i = b.count; i-- > 1 && !a.refusal;) b.jobs[i].answer = b.jobs[i - 1].answer;
    return a;
}
static struct vireo_answer first_for_all(struct batch b, int target_too, int args_too, int stage_too)
{
    if (!taken(b)) return right(b);
    keep(b);
    for (size_t i = 1; i < b.count; i++) {
        if (target_too) b.jobs[i].target = b.jobs[0].target;
        if (args_too) b.jobs[i].args = b.jobs[0].args;
        if (stage_too) b.jobs[i].stage = b.jobs[0].stage;
    }
    struct vireo_answer a = right(b);
    parts_back(b);
    return a;
}
static struct vireo_answer first_target(struct batch b) { return first_for_all(b, 1, 0, 0); }
static struct vireo_answer first_args(struct batch b) { return first_for_all(b, 0, 1, 0); }
static struct vireo_answer first_stage(struct batch b) { return first_for_all(b, 0, 0, 1); }
static struct vireo_answer last_left_out(struct batch b) { if (b.count && taken(b)) b.count--; return right(b); }
static struct vireo_answer byte_of_buffer_lost(struct batch b) { if (b.room) b.room--; return right(b); }
/* the jobs behind the first that is refused, with that number or any, are not answered */
static struct vireo_answer stops(struct batch b, uint64_t refusal)
{
    keep(b);
    struct vireo_answer a = right(b);
    size_t i = 0;
    while (i < b.count && !a.refusal && (refusal ? b.jobs[i].answer.refusal != refusal : !b.jobs[i].answer.refusal)) i++;
    for (i++; i < b.count && !a.refusal; i++) b.jobs[i] = kept[i];
    return a;
}
static struct vireo_answer stops_at_refusal(struct batch b) { return stops(b, 0); }
static struct vireo_answer stops_at_22(struct batch b) { return stops(b, 22); }
static struct vireo_answer full_after_22(struct batch b)
{
    struct vireo_answer a = right(b);
    int full = 0;
    for (size_t i = 0; i < b.count && !a.refusal; i++) {
        if (full) b.jobs[i].answer = (struct vireo_answer){22, 0, 0, 0};
        full = full || b.jobs[i].answer.refusal == 22;
    }
    return a;
}
static struct vireo_answer counts_lost(struct batch b)
{
    struct vireo_answer a = right(b);
    for (size_t i = 0; i < b.count && !a.refusal; i++) b.jobs[i].answer.wanted = b.jobs[i].answer.given = 0;
    return a;
}
static struct vireo_answer refused_job_has_value(struct batch b)
{
    struct vireo_answer a = right(b);
    for (size_t i = 0; i < b.count && !a.refusal; i++) if (b.jobs[i].answer.refusal == 22) b.jobs[i].answer.value = b.room - b.jobs[i].at;
    return a;
}
static void turn_round(struct batch b)
{
    for (size_t i = 0; i < b.count / 2; i++) {
        struct vireo_job j = b.jobs[i];
        b.jobs[i] = b.jobs[b.count - 1 - i], b.jobs[b.count - 1 - i] = j;
    }
}
static struct vireo_answer last_first(struct batch b)
{
    turn_round(b);
    struct vireo_answer a = right(b);
    turn_round(b);
    return a;
}
static struct vireo_answer place_behind(struct batch b)
{
    struct vireo_answer a = right(b);
    for (size_t i = 0; i < b.count && !a.refusal; i++) b.jobs[i].at += b.jobs[i].answer.value;
    return a;
}
static struct vireo_answer refused_place_zero(struct batch b)
{
    struct vireo_answer a = right(b);
    for (size_t i = 0; i < b.count && !a.refusal; i++) if (b.jobs[i].answer.refusal) b.jobs[i].at = 0;
    return a;
}
static struct vireo_answer refused_place_left(struct batch b)
{
    keep(b);
    struct vireo_answer a = right(b);
    for (size_t i = 0; i < b.count && !a.refusal; i++) if (b.jobs[i].answer.refusal) b.jobs[i].at = kept[i].at;
    return a;
}
static struct vireo_answer refused_job_writes(struct batch b)
{
    struct vireo_answer a = right(b);
    for (size_t i = 0; i < b.count && !a.refusal; i++) if (b.jobs[i].answer.refusal && b.jobs[i].at < b.room) b.out[b.jobs[i].at] ^= 1;
    return a;
}
static struct vireo_answer byte_past_records(struct batch b)
{
    struct vireo_answer a = right(b);
    if (!a.refusal && a.value < b.room) b.out[a.value] ^= 1;
    return a;
}
static struct vireo_answer rest_cleared(struct batch b)
{
    struct vireo_answer a = right(b);
    if (!a.refusal) memset(b.out + a.value, 0, b.room - a.value);
    return a;
}

/* the walk over the jobs, but for how far the place moves on after a record and after a refusal */
static struct vireo_answer walk(struct batch b, int after_record, int after_refusal)
{
    if (!taken(b)) return right(b);
    size_t at = 0;
    for (struct vireo_job *j = b.jobs; j < b.jobs + b.count; j++) {
        j->answer = vireo_call_ctor(j->stage, b.bytes + j->target.start, j->target.len, b.bytes + j->args.start,
            j->args.len, b.out + at, b.room - at);
        j->at = at;
        at = j->answer.refusal ? at + (size_t)after_refusal : at + j->answer.value + (size_t)after_record;
        if (at > b.room) at = b.room;
    }
    return (struct vireo_answer){0, at, 0, 0};
}
static struct vireo_answer overlap(struct batch b) { return walk(b, -1, 0); }
static struct vireo_answer gap(struct batch b) { return walk(b, 1, 0); }
static struct vireo_answer refused_moves_on(struct batch b) { return walk(b, 0, 11); }

static const struct { const char *name; enum check check; struct vireo_answer (*call)(struct batch); } wrong[] = {
    {"a byte past the slice is read", ENDS, reads_past_slice},
    {"a byte before the slice is read", ENDS, reads_before_slice},
    {"an entry past the list is read", ENDS, reads_past_list},
    {"an entry past the list is written, beside the forbidden page", ENDS, writes_past_list},
    {"an entry past the list is written, in the guard", LIST, writes_past_list},
    {"an entry before the list is written, beside the forbidden page", ENDS, writes_before_list},
    {"an entry before the list is written, in the guard", LIST, writes_before_list},
    {"a byte past the buffer is written, beside the forbidden page", ENDS, writes_past_buffer},
    {"a byte past the buffer is written, in the guard of a refused call", REFUSED, writes_past_buffer},
    {"a byte past the buffer is written, in the guard of an accepted one", BYTES, writes_past_buffer},
    {"a byte before the buffer is written, beside the forbidden page", ENDS, writes_before_buffer},
    {"a byte before the buffer is written, in the guard", BYTES, writes_before_buffer},
    {"the alarm that a call which does not end sets off", ENDS, sets_off_alarm},
    {"the slice is changed", SLICE, changes_slice},
    {"a stage in the list is changed", LIST, changes_stage},
    {"an empty part in the list is moved", LIST, changes_part},
    {"24 before 23", CALL, outside_first},
    {"257 jobs are taken", CALL, takes_257},
    {"any number of jobs is taken", CALL, takes_any},
    {"256 jobs are refused", CALL, refuses_256},
    {"no jobs are refused", CALL, refuses_none},
    {"an empty part past the end is let through", CALL, empty_past_end},
    {"one byte outside is let through", CALL, byte_outside},
    {"start + len is taken in 64 bits", CALL, wrapped_sum},
    {"an empty part at the end is refused", CALL, empty_end_refused},
    {"a part up to the end is refused", CALL, end_refused},
    {"a target outside is let through", CALL, any_target},
    {"arguments outside are let through", CALL, any_args},
    {"the last job's parts are not looked at", CALL, last_not_looked_at},
    {"a stage over 2 refuses the whole call", CALL, stage_for_whole},
    {"the value is how many records there are", CALL, records_counted},
    {"24 has a value", CALL, refusal_has_value},
    {"23 has counts", CALL, refusal_has_counts},
    {"the jobs before a part outside are answered", REFUSED, answers_until_outside},
    {"entries are written on 23", REFUSED, told_23},
    {"entries are written on 24", REFUSED, told_24},
    {"a place is written on a refused call", REFUSED, place_set},
    {"the buffer is written on a refused call", REFUSED, refused_call_writes},
    {"each answer is in the next entry", ANSWER, next_entry},
    {"the first job's target for all", ANSWER, first_target},
    {"the first job's arguments for all", ANSWER, first_args},
    {"the first job's stage for all", ANSWER, first_stage},
    {"the last job is left out", ANSWER, last_left_out},
    {"nothing is answered behind a refused job", ANSWER, stops_at_refusal},
    {"nothing is answered behind a 22", ANSWER, stops_at_22},
    {"22 for all jobs behind a 22", ANSWER, full_after_22},
    {"the counts of 8 are lost", ANSWER, counts_lost},
    {"a refused job has a value", ANSWER, refused_job_has_value},
    {"a byte of the buffer is not used", FIT, byte_of_buffer_lost},
    {"the last job goes first", PLACE, last_first},
    {"the place is behind the record", PLACE, place_behind},
    {"the place of a refused job is 0", PLACE, refused_place_zero},
    {"the place of a refused job is not set", PLACE, refused_place_left},
    {"a refused job moves the place on", PLACE, refused_moves_on},
    {"records overlap", BYTES, overlap},
    {"a byte is left between records", BYTES, gap},
    {"a refused job writes", BYTES, refused_job_writes},
    {"a byte past the last record is changed", BYTES, byte_past_records},
    {"the rest of the buffer is cleared", BYTES, rest_cleared},
};
enum { WRONG = sizeof wrong / sizeof *wrong };
