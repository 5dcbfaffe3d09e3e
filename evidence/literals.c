/* The answers of the Rust reference on single literals, from standard input (lines of reference/answers.txt or of
 * `reference/run answers`), against the library: scalar constructors at each stage and conversions of one literal.
 * Other lines are passed over. Prints how many were compared and how many differ, by entry, and exits 1 where any
 * does. NaN is compared with NaN; the class nan-fits is held to the refusal that document 01 gives.
 */
#include <inttypes.h>
#include <stdint.h>
#include <stdio.h>
#include <stdlib.h>
#include <string.h>

uint64_t vireo_converted(uint8_t to, uint8_t from, uint64_t bits);
uint8_t vireo_fits(uint8_t to, uint8_t from, uint64_t bits);
uint64_t vireo_made(uint8_t stage, uint8_t to, uint8_t from, uint64_t bits);
uint8_t vireo_refusal(uint8_t stage, uint8_t to, uint8_t from, uint64_t bits);

/* a literal's record: `Vs`, its kind, 8 bytes, the low one first */
static int literal(const char *hex, unsigned *kind, uint64_t *bits)
{
    if (strlen(hex) != 22 || strncmp(hex, "5673", 4)) return 0;
    *bits = 0;
    for (int i = 10; i >= 2; i--) {
        unsigned byte;
        if (sscanf(hex + 2 * i, "%2x", &byte) != 1) return 0;
        if (i == 2) *kind = byte;
        else *bits = (*bits << 8) | byte;
    }
    return 1;
}

static int is_nan(unsigned kind, uint64_t b)
{
    return (kind == 6 && (b & 0x7fff) > 0x7c00) || (kind == 5 && (b & 0x7fffffff) > 0x7f800000);
}

int main(void)
{
    static char line[1 << 16];
    uint64_t ctor = 0, conv = 0, wrong = 0;
    while (fgets(line, sizeof line, stdin)) {
        char class[16], entry[32], stage[4], target[64], args[64], told[8], value[64] = "";
        unsigned to, from, kind;
        uint64_t bits, want;
        if (line[0] == '#' || sscanf(line, "%15s %31s %3s %63s %63s %7s %63s", class, entry, stage, target, args, told,
            value) < 6) continue;
        if (strlen(target) != 6 || sscanf(target, "5473%2x", &to) != 1 || !literal(args, &from, &bits)) continue;
        int building = !strcmp(entry, "call_ctor"), accepted = !strcmp(told, "ok"), same;
        if (!building && strcmp(entry, "convert_to")) continue;
        uint8_t refusal = building ? vireo_refusal((uint8_t)atoi(stage), (uint8_t)to, (uint8_t)from, bits)
            : (vireo_fits((uint8_t)to, (uint8_t)from, bits) ? 0 : 9);
        uint64_t got = building ? vireo_made((uint8_t)atoi(stage), (uint8_t)to, (uint8_t)from, bits)
            : vireo_converted((uint8_t)to, (uint8_t)from, bits);
        if (!strcmp(class, "nan-fits")) same = refusal == 9;
        else if (!accepted) same = refusal == atoi(value);
        else same = refusal == 0 && literal(value, &kind, &want) && kind == to
            && (got == want || (from != to && is_nan(to, got) && is_nan(to, want)));
        if (building) ctor++; else conv++;
        if (!same && wrong++ < 5) fprintf(stderr, "differs: %s", line);
    }
    printf("%" PRIu64 " scalar constructor calls and %" PRIu64 " conversions of one literal compared with the Rust, %" PRIu64
           " differ\n", ctor, conv, wrong);
    return wrong != 0 || ctor == 0 || conv == 0;
}
