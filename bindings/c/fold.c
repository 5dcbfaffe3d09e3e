/* Folds the calls of a file, 256 in one call of the library, and prints each constant: the call and
 * its value as WGSL writes them, its record, and its bytes for a storage buffer; or the refusal, and
 * what to do about it. `./run` builds this and runs it on route.txt, or on the file it is given.
 *
 * A line of the file is one call: the stage (0 Const, 1 Override, 2 Exec), the target's record and
 * the arguments' records in hex, `-` for none; what follows `#` is its name. Empty lines, and lines
 * that begin with `#`, are passed over.
 *
 * gcc -O2 -I bindings/c -o target/fold bindings/c/fold.c target/staticlib/libvireodesk.a */
#include <ctype.h>
#include <errno.h>

#include "vireodesk_text.h"

/* how long a file may be, and how many bytes are lent for the records of one call */
enum { ROOM = 64 << 20 };

/* a call, and where it stands; its name ends with its line */
struct call {
    struct vireo_job job;
    const char *name;
    size_t line;
};

static void *some(void *bytes)
{
    if (!bytes) {
        fputs("fold: no memory\n", stderr);
        exit(2);
    }
    return bytes;
}

/* the whole file, with a zero at its end */
static char *file_text(const char *path)
{
    FILE *file = fopen(path, "rb");
    char *text = some(malloc((size_t)ROOM + 1));
    size_t len = file ? fread(text, 1, (size_t)ROOM + 1, file) : 0;
    if (!file || ferror(file) || len > ROOM) {
        fprintf(stderr, "fold: %s: %s\n", path, len > ROOM ? "over 64 MiB" : strerror(errno));
        exit(2);
    }
    fclose(file);
    text[len] = 0;
    return text;
}

static int digit(char c)
{
    if (isdigit((unsigned char)c)) return c - '0';
    return isxdigit((unsigned char)c) ? tolower((unsigned char)c) - 'a' + 10 : -1;
}

/* Takes the next word of the line, which is left at what comes behind it; gives its length. */
static size_t next_word(const char **line, const char **word)
{
    *word = *line + strspn(*line, " \t\r");
    const size_t len = strcspn(*word, " \t\r\n#");
    *line = *word + len;
    return len;
}

/* Appends the bytes of the next word, in hex; nothing for `-` or no word. Whether it is such. */
static int put_hex(struct vireo_records *to, const char **line, struct vireo_part *part)
{
    const char *word;
    const size_t len = next_word(line, &word), start = to->len;
    const int none = len == 1 && word[0] == '-';
    int good = none || len % 2 == 0;
    for (size_t i = 0; i < len && good && !none; i += 2) {
        const int high = digit(word[i]), low = digit(word[i + 1]);
        good = high >= 0 && low >= 0;
        vireo_put_number(to, (uint64_t)(16 * high + low), 1);
    }
    *part = vireo_part_since(to, start);
    return good;
}

/* Whether the line is a call, or nothing at all, where its stage's word is empty. */
static int read_call(struct call *call, const char *line, struct vireo_records *records,
                     int *empty)
{
    const char *stage, *more;
    const size_t len = next_word(&line, &stage);
    call->job.stage = (uint8_t)digit(*stage);
    *empty = !len;
    const int good = put_hex(records, &line, &call->job.target) &&
                     put_hex(records, &line, &call->job.args);
    const int over = next_word(&line, &more) > 0;
    call->name = line;
    return *empty || (len == 1 && digit(*stage) >= 0 && good && call->job.target.len && !over);
}

/* the calls of a file; their records are appended */
static struct call *read_calls(const char *path, struct vireo_records *records, size_t *count)
{
    struct call *calls = NULL;
    size_t line = 0;
    int empty;
    *count = 0;
    for (const char *at = file_text(path); *at; at += *at == '\n') {
        /* room for as many again whenever the number is a power of two */
        if (!(*count & (*count - 1)))
            calls = some(realloc(calls, (2 * *count + 1) * sizeof *calls));
        calls[*count].line = ++line;
        if (!read_call(&calls[*count], at, records, &empty)) {
            fprintf(stderr, "fold: %s:%zu: no call: a stage, a target and arguments in hex, "
                    "- for none\n", path, line);
            exit(2);
        }
        *count += !empty;
        at += strcspn(at, "\n");
    }
    return calls;
}

static void print_name(const struct call *call)
{
    const char *name = call->name + strspn(call->name, " \t\r#");
    const int len = (int)strcspn(name, "\r\n");
    if (len) printf("%.*s\n", len, name);
    else printf("line %zu\n", call->line);
}

/* The call as WGSL writes it. Where stage, target or arguments are refused they may be no records. */
static void print_call(const struct vireo_job *job, const uint8_t *target, const uint8_t *args)
{
    static const char *const stages[] = {"", "  at Override", "  at Exec"};
    if (job->answer.refusal < 1 || job->answer.refusal > 3) {
        vireo_print_call(stdout, target, job->target.len, args, job->args.len);
        puts(stages[job->stage]);
        return;
    }
    printf("stage %u, target ", job->stage);
    vireo_print_hex(stdout, target, job->target.len);
    printf(", arguments ");
    vireo_print_hex(stdout, args, job->args.len);
    puts("");
}

/* The value's bytes for a storage buffer, or why it has none. They are fewer than its record's. */
static void print_storage(const uint8_t *record, size_t len,
                          const uint8_t *target, size_t target_len)
{
    uint8_t *memory = some(malloc(len));
    const struct vireo_answer laid = vireo_write_layout(record, len, memory, len);
    const struct vireo_layout layout = vireo_layout_of(target, target_len); /* a shape has none */
    printf("  storage  ");
    if (laid.refusal) {
        printf("none: ");
        vireo_print_refusal(stdout, laid);
    } else {
        vireo_print_hex(stdout, memory, laid.value);
        printf("  (%" PRIu64 " bytes", laid.value);
        if (!layout.refusal) printf(", at a multiple of %" PRIu64, layout.align);
        printf(")");
    }
    puts("");
    free(memory);
}

static void print_folded(const struct call *call, const uint8_t *bytes, const uint8_t *out)
{
    const struct vireo_job *job = &call->job;
    const uint8_t *target = bytes + job->target.start, *record = out + job->at;
    print_name(call);
    printf("  call     ");
    print_call(job, target, bytes + job->args.start);
    if (job->answer.refusal) {
        printf("  refused  %" PRIu64 ": ", job->answer.refusal);
        vireo_print_why(stdout, job->answer);
        printf("\n  to do    %s\n", vireo_refusal_advice(job->answer.refusal));
        return;
    }
    printf("  value    ");
    vireo_print_values(stdout, record, job->answer.value);
    printf("\n  record   ");
    vireo_print_hex(stdout, record, job->answer.value);
    puts("");
    print_storage(record, job->answer.value, target, job->target.len);
}

/* One call of the library. Gives how many constants it refused. */
static size_t fold(struct call *calls, size_t count, const struct vireo_records *records,
                   uint8_t *out)
{
    struct vireo_job jobs[VIREO_MOST_JOBS];
    size_t refused = 0;
    for (size_t i = 0; i < count; i++) jobs[i] = calls[i].job;
    /* never refused as a whole: at most 256 jobs, and all their parts are inside */
    vireo_call_batch(records->bytes, records->len, jobs, count, out, ROOM);
    for (size_t i = 0; i < count; i++) {
        calls[i].job = jobs[i];
        print_folded(&calls[i], records->bytes, out);
        refused += jobs[i].answer.refusal != 0;
    }
    return refused;
}

int main(int argc, char **argv)
{
    if (argc != 2) {
        fputs("usage: fold FILE\n", stderr);
        return 2;
    }
    uint8_t *out = some(malloc(ROOM));
    struct vireo_records records = vireo_records_in(some(malloc(ROOM)), ROOM);
    size_t count, made = 0, refused = 0;
    struct call *calls = read_calls(argv[1], &records, &count);
    for (size_t i = 0; i < count; i += VIREO_MOST_JOBS, made++) {
        const size_t left = count - i;
        refused += fold(calls + i, left < VIREO_MOST_JOBS ? left : VIREO_MOST_JOBS, &records, out);
    }
    printf("%zu constants in %zu %s of the library: %zu folded, %zu refused\n", count, made,
           made == 1 ? "call" : "calls", count - refused, refused);
    return 0;
}
