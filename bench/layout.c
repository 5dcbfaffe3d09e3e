/* Values to memory and back by the library's entries, beside plain C loops that copy the same scalars without a
 * check: the same bytes, in one run, medians.
 *
 *   layout [RUNS]   51 runs where nothing is said; exits 1 where the sides do not make the same bytes, or the
 *                   library takes more than 11 times as long for ten times the parts
 *
 * The time is the processor's for this thread: other programs do not count. In a run every side of every group has
 * its turn, so that a change of the machine's speed meets them all; a turn begins with a pass that is not measured.
 */
#include <inttypes.h>
#include <stdio.h>
#include <stdlib.h>
#include <string.h>

#include "../bindings/c/vireodesk.h"
#include "../evidence/draw.h"

enum { LITERAL = 11, HEAD = 4, STRUCT_HEAD = 6, ROOM = 1 << 20, TYPE_MOST = 4096 };

/* ---- the plain loops ---- */

/* one scalar of 32 bits to memory, and back to a literal of the kind */
static inline void lay(const uint8_t *literal, uint8_t *memory) { memcpy(memory, literal + 3, 4); }
static inline void pick(const uint8_t *memory, uint8_t *literal, uint8_t kind)
{
    memcpy(literal, (uint8_t[]){'V', 's', kind}, 3);
    memcpy(literal + 3, memory, 4);
    memset(literal + 7, 0, 4);
}

static inline void lay_vector(const uint8_t *record, uint8_t *memory, int n)
{
    for (int i = 0; i < n; i++) lay(record + 3 + LITERAL * i, memory + 4 * i);
}
static inline void pick_vector(const uint8_t *memory, uint8_t *record, uint8_t n)
{
    memcpy(record, (uint8_t[]){'V', 'v', n}, 3);
    for (uint8_t i = 0; i < n; i++) pick(memory + 4 * i, record + 3 + LITERAL * i, 5);
}

static void put_head(uint8_t *record, size_t count)
{
    memcpy(record, (uint8_t[]){'V', 'a', (uint8_t)(count % 256), (uint8_t)(count / 256)}, HEAD);
}

static void write_scalars(const uint8_t *record, uint8_t *memory, size_t n)
{
    for (size_t i = 0; i < n; i++) lay(record + HEAD + LITERAL * i, memory + 4 * i);
}
static void read_scalars(const uint8_t *memory, uint8_t *record, size_t n)
{
    put_head(record, n);
    for (size_t i = 0; i < n; i++) pick(memory + 4 * i, record + HEAD + LITERAL * i, 5);
}

/* vec3<f32>: 12 bytes and 4 of padding */
enum { VEC3 = 3 + 3 * LITERAL, VEC2 = 3 + 2 * LITERAL };
static void write_vectors(const uint8_t *record, uint8_t *memory, size_t n)
{
    for (size_t i = 0; i < n; i++) lay_vector(record + HEAD + VEC3 * i, memory + 16 * i, 3), memset(memory + 16 * i + 12, 0, 4);
}
static void read_vectors(const uint8_t *memory, uint8_t *record, size_t n)
{
    put_head(record, n);
    for (size_t i = 0; i < n; i++) pick_vector(memory + 16 * i, record + HEAD + VEC3 * i, 3);
}

/* struct { vec3<f32>, f32, vec2<f32>, u32 }: at 0, 12, 16 and 24, of 32 bytes */
enum { STATION = STRUCT_HEAD + VEC3 + LITERAL + VEC2 + LITERAL };
static const uint8_t station_head[STRUCT_HEAD] = {'V', 'u', 1, 0, 4, 0};
static void write_stations(const uint8_t *record, uint8_t *memory, size_t n)
{
    for (size_t i = 0; i < n; i++) {
        const uint8_t *from = record + HEAD + STATION * i + STRUCT_HEAD;
        uint8_t *to = memory + 32 * i;
        lay_vector(from, to, 3), lay(from + VEC3, to + 12);
        lay_vector(from + VEC3 + LITERAL, to + 16, 2), lay(from + VEC3 + LITERAL + VEC2, to + 24), memset(to + 28, 0, 4);
    }
}
static void read_stations(const uint8_t *memory, uint8_t *record, size_t n)
{
    put_head(record, n);
    for (size_t i = 0; i < n; i++) {
        const uint8_t *from = memory + 32 * i;
        uint8_t *to = record + HEAD + STATION * i;
        memcpy(to, station_head, STRUCT_HEAD), to += STRUCT_HEAD;
        pick_vector(from, to, 3), pick(from + 12, to + VEC3, 5);
        pick_vector(from + 16, to + VEC3 + LITERAL, 2), pick(from + 24, to + VEC3 + LITERAL + VEC2, 4);
    }
}

/* struct { u32, struct { u32, .. vec2<f32> } }: each level takes 8 bytes, 4 of them padding. A vec2 is of depth 1,
 * so depth 15 are 14 structs; in an array one less */
enum { LEVELS = 14, LEVEL = STRUCT_HEAD + LITERAL };
static const uint8_t level_head[STRUCT_HEAD] = {'V', 'u', 2, 0, 2, 0};
static inline void write_nest(const uint8_t *record, uint8_t *memory, int levels)
{
    for (int i = 0; i < levels; i++, record += LEVEL, memory += 8) lay(record + STRUCT_HEAD, memory), memset(memory + 4, 0, 4);
    lay_vector(record, memory, 2);
}
static inline void read_nest(const uint8_t *memory, uint8_t *record, int levels)
{
    for (int i = 0; i < levels; i++, record += LEVEL, memory += 8)
        memcpy(record, level_head, STRUCT_HEAD), pick(memory, record + STRUCT_HEAD, 4);
    pick_vector(memory, record, 2);
}
static void write_one_nest(const uint8_t *record, uint8_t *memory, size_t n) { (void)n, write_nest(record, memory, LEVELS); }
static void read_one_nest(const uint8_t *memory, uint8_t *record, size_t n) { (void)n, read_nest(memory, record, LEVELS); }
enum { NEST = (LEVELS - 1) * LEVEL + VEC2, NEST_SIZE = (LEVELS - 1) * 8 + 8 };
static void write_nests(const uint8_t *record, uint8_t *memory, size_t n)
{
    for (size_t i = 0; i < n; i++) write_nest(record + HEAD + NEST * i, memory + NEST_SIZE * i, LEVELS - 1);
}
static void read_nests(const uint8_t *memory, uint8_t *record, size_t n)
{
    put_head(record, n);
    for (size_t i = 0; i < n; i++) read_nest(memory + NEST_SIZE * i, record + HEAD + NEST * i, LEVELS - 1);
}

/* ---- the groups ---- */

typedef void plain(const uint8_t *from, uint8_t *to, size_t n);

/* An element's type, with an array of n of them around it; or alone, where n is 0. `scalars` are those of one element. */
struct shape { const char *name; const uint8_t *element; size_t element_n, scalars; plain *write, *read; };
struct group { const struct shape *shape; size_t n, type_n, record_n, memory_n; uint8_t type[TYPE_MOST], *record, *memory; };

static size_t scalars_of(const struct group *g) { return g->shape->scalars * (g->n ? g->n : 1); }

static uint8_t nest_type[8 * LEVELS + LEVELS + 6];
static size_t make_nest(uint8_t *to, int levels)
{
    for (int i = 0; i < levels; i++) memcpy(to + 9 * i, "Tu\2\0\2\0Ts\4", 9);
    memcpy(to + 9 * levels, "Tv\2Ts\5", 6);
    return (size_t)(9 * levels + 6);
}

/* the value of n elements as the library reads it from drawn memory, and its memory as the library writes it: the
 * plain loops must make the same */
static int make_group(struct group *g, const struct shape *s, size_t n)
{
    static uint8_t drawn[ROOM];
    *g = (struct group){.shape = s, .n = n, .record = malloc(ROOM), .memory = malloc(ROOM)};
    if (!g->record || !g->memory) { fprintf(stderr, "no memory\n"); exit(2); }
    if (n) memcpy(g->type, (uint8_t[]){'T', 'a', (uint8_t)(n % 256), (uint8_t)(n / 256)}, HEAD), g->type_n = HEAD;
    memcpy(g->type + g->type_n, s->element, s->element_n), g->type_n += s->element_n;
    struct vireo_layout layout = vireo_layout_of(g->type, g->type_n);
    if (layout.refusal || layout.size > ROOM) return 0;
    for (size_t i = 0; i < layout.size; i++) drawn[i] = (uint8_t)draw();
    struct vireo_answer read = vireo_read_layout(g->type, g->type_n, drawn, layout.size, g->record, ROOM);
    struct vireo_answer written = vireo_write_layout(g->record, read.value, g->memory, ROOM);
    g->record_n = read.value, g->memory_n = written.value;
    return !read.refusal && !written.refusal && g->memory_n == layout.size;
}

/* ---- time ---- */

enum side { WRITE, WRITE_PLAIN, READ, READ_PLAIN, SIDES };
static uint8_t out[ROOM];

static void pass(const struct group *g, enum side side)
{
    switch (side) {
    case WRITE: vireo_write_layout(g->record, g->record_n, out, ROOM); break;
    case READ: vireo_read_layout(g->type, g->type_n, g->memory, g->memory_n, out, ROOM); break;
    case WRITE_PLAIN: g->shape->write(g->record, out, g->n); break;
    default: g->shape->read(g->memory, out, g->n);
    }
    __asm__ volatile("" ::: "memory");
}

/* whether each side, called as it is timed, makes the group's bytes and touches nothing behind them */
static int alike(const struct group *g)
{
    int same = 1;
    for (int s = 0; s < SIDES; s++) {
        const uint8_t *due = s == WRITE || s == WRITE_PLAIN ? g->memory : g->record;
        size_t n = due == g->memory ? g->memory_n : g->record_n;
        memset(out, 0xa5, ROOM), pass(g, s);
        same &= !memcmp(out, due, n) && out[n] == 0xa5;
    }
    return same;
}

static double thread_ns(void)
{
    struct timespec t;
    if (clock_gettime(CLOCK_THREAD_CPUTIME_ID, &t)) { perror("no clock for a thread's time"); exit(2); }
    return (double)t.tv_sec * 1e9 + (double)t.tv_nsec;
}

/* nanoseconds of one pass, over several; a measured stretch takes about a millisecond */
static double timed(const struct group *g, enum side side, uint64_t passes)
{
    double start = thread_ns();
    for (uint64_t i = 0; i < passes; i++) pass(g, side);
    return (thread_ns() - start) / (double)passes;
}

static int by_number(const void *x, const void *y)
{
    return (*(const double *)x > *(const double *)y) - (*(const double *)x < *(const double *)y);
}

enum { GROUPS = 9, RUNS_MOST = 10000 };
static double ns[GROUPS][SIDES][RUNS_MOST];

static void measure(const struct group *groups, int runs)
{
    static uint64_t passes[GROUPS][SIDES];
    for (int g = 0; g < GROUPS; g++)
        for (int s = 0; s < SIDES; s++) {
            double once = (pass(&groups[g], s), timed(&groups[g], s, 1));
            passes[g][s] = once < 1e6 ? (uint64_t)(1e6 / (once < 1 ? 1 : once)) + 1 : 1;
        }
    for (int r = 0; r < runs; r++)
        for (int g = 0; g < GROUPS; g++)
            for (int s = 0; s < SIDES; s++) pass(&groups[g], s), ns[g][s][r] = timed(&groups[g], s, passes[g][s]);
    for (int g = 0; g < GROUPS; g++)
        for (int s = 0; s < SIDES; s++) qsort(ns[g][s], (size_t)runs, sizeof(double), by_number);
}

/* ---- the tables ---- */

/* the group's name, with how many there are or with N for it */
static const char *name_of(const struct group *g, int with_n)
{
    static char name[80];
    char number[32] = "N";
    if (with_n && g->n >= 1000) snprintf(number, sizeof number, "%zu,%03zu", g->n / 1000, g->n % 1000);
    else if (with_n) snprintf(number, sizeof number, "%zu", g->n);
    snprintf(name, sizeof name, g->shape->name, number);
    return name;
}

static void print_times(const struct group *groups, int middle)
{
    printf("| ns a scalar | scalars | write, library | C loop | library / C loop | read, library | C loop | library / C loop |\n");
    printf("| --- | --: | --: | --: | --: | --: | --: | --: |\n");
    for (int g = 0; g < GROUPS; g++) {
        double of[SIDES];
        for (int s = 0; s < SIDES; s++) of[s] = ns[g][s][middle] / (double)scalars_of(&groups[g]);
        printf("| %-57s | %zu | %.2f | %.2f | %.2f | %.2f | %.2f | %.2f |\n", name_of(&groups[g], 1), scalars_of(&groups[g]),
               of[WRITE], of[WRITE_PLAIN], of[WRITE] / of[WRITE_PLAIN], of[READ], of[READ_PLAIN], of[READ] / of[READ_PLAIN]);
    }
}

/* how many times as long ten times the parts take; the sizes of a shape follow one another. Gives how often the
 * library takes more than 11 times as long */
static int print_growth(const struct group *groups, int middle)
{
    int over = 0;
    printf("\n| growth from a tenth | N | write, library | C loop | read, library | C loop |\n| --- | --: | --: | --: | --: | --: |\n");
    for (int g = 1; g < GROUPS; g++) {
        if (groups[g].shape != groups[g - 1].shape) continue;
        printf("| %-57s | %zu to %zu ", name_of(&groups[g], 0), groups[g - 1].n, groups[g].n);
        for (int s = 0; s < SIDES; s++) {
            double times = ns[g][s][middle] / ns[g - 1][s][middle];
            printf("| %.2f ", times);
            over += (s == WRITE || s == READ) && times > 11;
        }
        printf("|\n");
    }
    return over;
}

int main(int argc, char **argv)
{
    static const uint8_t f32[] = "Ts\5", vec3[] = "Tv\3Ts\5", station[] = "Tu\1\0\4\0Tv\3Ts\5Ts\5Tv\2Ts\5Ts\4";
    static struct group groups[GROUPS];
    int runs = argc > 1 ? atoi(argv[1]) : 51, unlike = 0;
    if (runs < 1 || runs > RUNS_MOST) { fprintf(stderr, "usage: layout [RUNS], 1 to %d of them\n", RUNS_MOST); return 2; }
    size_t nest_n = make_nest(nest_type, LEVELS);
    const struct shape shapes[] = {
        {"array of %s F32", f32, 3, 1, write_scalars, read_scalars},
        {"array of %s vec3<f32>", vec3, 6, 3, write_vectors, read_vectors},
        {"array of %s structs of vec3<f32>, f32, vec2<f32>, u32", station, sizeof station - 1, 7, write_stations, read_stations},
        {"array of %s nests of depth 14", nest_type + 9, nest_n - 9, LEVELS + 1, write_nests, read_nests},
        {"a nest of structs of depth 15", nest_type, nest_n, LEVELS + 2, write_one_nest, read_one_nest},
    };
    static const size_t sizes[] = {60000, 20000, 10000, 2000};
    state = 1;
    for (int g = 0; g < GROUPS; g++) {
        const struct shape *s = &shapes[g / 2];
        size_t n = g == GROUPS - 1 ? 0 : g % 2 ? sizes[g / 2] : sizes[g / 2] / 10;
        if (make_group(&groups[g], s, n) && alike(&groups[g])) continue;
        printf("%s: the library and the plain loop do not make the same bytes\n", name_of(&groups[g], 1)), unlike++;
    }
    if (unlike) return 1;
    measure(groups, runs);
    print_times(groups, runs / 2);
    int over = print_growth(groups, runs / 2);
    printf("\n%d groups, medians of %d interleaved runs, in processor time; the same bytes from all sides; "
           "growth over 11: %d\n", GROUPS, runs, over);
    return over != 0;
}
