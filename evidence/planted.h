/* Faults planted behind the library's answer, one at a time, to see that the checks of fuzz.c notice them: each
 * spoils what a call answered, wrote or was lent. */

struct made_call { const struct call *call; uint8_t *target, *args, *out; size_t room; struct vireo_answer *answer; };

static volatile uint8_t looked_at;
static int accepted(struct made_call m) { return !m.answer->refusal && m.call->entry != CONVERSION_RANK; }
static int literal_made_of(struct made_call m, uint8_t kind)
{
    return accepted(m) && m.answer->value == 11 && !memcmp(m.out, "Vs", 2) && m.out[2] == kind;
}
static void answer_instead(struct made_call m, uint64_t refusal, uint64_t with)
{
    if (m.answer->refusal == refusal) *m.answer = (struct vireo_answer){with, 0, 0, 0};
}

static void reads_past_arguments(struct made_call m) { looked_at = m.args[m.call->args.n]; }
static void reads_before_target(struct made_call m) { looked_at = m.target[-1]; }
static void writes_past_buffer(struct made_call m) { m.out[m.room] ^= 1; }
static void writes_before_buffer(struct made_call m) { m.out[-1] ^= 1; }
static void sets_off_alarm(struct made_call m) { if (m.answer->refusal == 14) raise(SIGALRM); }
static void changes_target(struct made_call m) { if (m.call->target.n) m.target[m.call->target.n / 2] ^= 1; }
static void changes_argument(struct made_call m) { if (m.call->args.n) m.args[m.call->args.n - 1] ^= 1; }
static void refusal_writes(struct made_call m) { if (m.answer->refusal && m.room) m.out[m.room - 1] ^= 1; }
static void refusal_has_value(struct made_call m) { if (m.answer->refusal == 22) m.answer->value = m.room; }
static void refusal_has_count(struct made_call m) { if (m.answer->refusal == 9) m.answer->given = 1; }
static void accepted_has_count(struct made_call m) { if (!m.answer->refusal) m.answer->wanted = 1; }
static void wrong_mark(struct made_call m) { if (accepted(m)) m.out[0] = 'W'; }
static void byte_past_record(struct made_call m) { if (accepted(m) && m.room > m.answer->value) m.out[m.answer->value] ^= 1; }
static void high_byte(struct made_call m) { if (literal_made_of(m, 5)) m.out[10] = 1; }
static void bool_of_two(struct made_call m) { if (literal_made_of(m, 0)) m.out[3] = 2; }
static void a_byte_longer(struct made_call m) { if (accepted(m) && m.room > m.answer->value) m.answer->value++; }
static void a_byte_shorter(struct made_call m) { if (accepted(m)) m.answer->value--; }
static void longer_than_buffer(struct made_call m) { if (accepted(m)) m.answer->value = m.room + 1; }
static void other_kind(struct made_call m) { if (literal_made_of(m, 5)) m.out[2] = 4; }
static void rank_of_eight(struct made_call m) { if (m.call->entry == CONVERSION_RANK && !m.answer->refusal) m.answer->value = 8; }
static void rank_for_equal(struct made_call m)
{
    if (m.call->entry == CONVERSION_RANK && !m.answer->refusal && !m.answer->value) m.answer->value = 3;
}
static void at_exec_instead(struct made_call m, int stage)
{
    if (m.call->stage == stage) *m.answer = entered(m.call->entry, 2, m.target, m.call->target.n, m.args, m.call->args.n, m.out, m.room);
}
static void stage_three_passes(struct made_call m) { at_exec_instead(m, 3); }
static void override_as_exec(struct made_call m) { at_exec_instead(m, 1); }
static void const_as_exec(struct made_call m) { at_exec_instead(m, 0); }
static void two_before_one(struct made_call m) { answer_instead(m, 1, 2); }
static void nine_for_two(struct made_call m) { answer_instead(m, 2, 9); }
static void one_for_nine(struct made_call m) { answer_instead(m, 9, 1); }
static void two_for_nine(struct made_call m) { answer_instead(m, 9, 2); }
static void three_for_twenty_one(struct made_call m) { answer_instead(m, 21, 3); }
static void sixteen_for_nine(struct made_call m) { answer_instead(m, 9, 16); }
static void no_such_number(struct made_call m) { answer_instead(m, 12, 99); }
static void given_made_up(struct made_call m) { if (m.answer->refusal == 8) m.answer->given++; }
static void wanted_made_up(struct made_call m) { if (m.answer->refusal == 8) m.answer->wanted++; }
static void too_long_always(struct made_call m) { answer_instead(m, 9, 22); }
static void exact_is_too_long(struct made_call m)
{
    if (accepted(m) && m.answer->value == m.room) *m.answer = (struct vireo_answer){22, 0, 0, 0};
}
static void too_short_passes(struct made_call m) { if (m.answer->refusal == 22) *m.answer = (struct vireo_answer){0, m.room, 0, 0}; }
static void now_and_then_another(struct made_call m) { static int turn; if (literal_made_of(m, 5) && ++turn % 2) m.out[3] ^= 1; }

static const struct { const char *name; enum check check; void (*spoil)(struct made_call); } planted[] = {
    {"a byte past the arguments is read", ENDS, reads_past_arguments},
    {"a byte before the target is read", ENDS, reads_before_target},
    {"a byte past the buffer is written, beside the forbidden page", ENDS, writes_past_buffer},
    {"a byte past the buffer is written, in the guard of a refusal", REFUSED, writes_past_buffer},
    {"a byte past the buffer is written, in the guard of a record", RECORD, writes_past_buffer},
    {"a byte before the buffer is written, beside the forbidden page", ENDS, writes_before_buffer},
    {"a byte before the buffer is written, in the guard", REFUSED, writes_before_buffer},
    {"the alarm that a call which does not end sets off", ENDS, sets_off_alarm},
    {"the target is changed", KEEPS, changes_target},
    {"an argument is changed", KEEPS, changes_argument},
    {"a refusal writes", REFUSED, refusal_writes},
    {"a refusal has a value", REFUSED, refusal_has_value},
    {"a refusal other than 8 has a count", REFUSED, refusal_has_count},
    {"an accepted call has a count", RECORD, accepted_has_count},
    {"a record with a wrong mark", RECORD, wrong_mark},
    {"a byte past the record is changed", RECORD, byte_past_record},
    {"an unused high byte is not zero", RECORD, high_byte},
    {"a Bool of 2", RECORD, bool_of_two},
    {"a length of one more", RECORD, a_byte_longer},
    {"a length of one less", RECORD, a_byte_shorter},
    {"a length past the buffer", RECORD, longer_than_buffer},
    {"a value of another type", TYPE, other_kind},
    {"a rank that is none", TYPE, rank_of_eight},
    {"a rank for equal types", TYPE, rank_for_equal},
    {"stage 3 passes", FORMED, stage_three_passes},
    {"2 for a malformed target", FORMED, two_before_one},
    {"9 for a malformed argument", FORMED, nine_for_two},
    {"1 for a well-formed target", FORMED, one_for_nine},
    {"2 for well-formed arguments", FORMED, two_for_nine},
    {"3 at a stage that is one", FORMED, three_for_twenty_one},
    {"16 where the rules have 9", NUMBER, sixteen_for_nine},
    {"a number that is none", NUMBER, no_such_number},
    {"a made-up count given", COUNTS, given_made_up},
    {"a made-up count wanted", COUNTS, wanted_made_up},
    {"22 where the record would fit", LENGTH, too_long_always},
    {"22 for a buffer that is just long enough", EXACT, exact_is_too_long},
    {"a record cut to the buffer", EXACT, too_short_passes},
    {"another answer the second time", AGAIN, now_and_then_another},
    {"Override passes what Const refuses", STAGES, override_as_exec},
    {"Const passes what Override refuses", STAGES, const_as_exec},
};
enum { PLANTED = sizeof planted / sizeof *planted };
