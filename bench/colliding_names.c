/* Prints an MPS text with names that collide in a table that hashes them with the toolchain's fixed seed.

   cc -O2 -o colliding_names bench/colliding_names.c
   usage: colliding_names rows|columns COUNT [--plain]

   rows: COUNT rows. columns: COUNT columns, which are bounded in falling order.
   --plain: names of the same length that don't collide, to compare.

   The hash is `FoldHasher` of the toolchain's `core/src/hash/fold.rt`, over the length of a name and then each of its
   bytes, its halves joined by xor. A table of COUNT names has at least COUNT / 9 groups, a power of two, and a name is
   looked for from the group that the lowest bits of its hash name on. The names printed begin at one group; each of them
   goes past all groups that the names before it filled. They are found by trying names in order: 2 to the number of bits
   tries for each, some seconds for 100,000 names. */
#include <stdint.h>
#include <stdio.h>
#include <stdlib.h>
#include <string.h>

#define LENGTH 7

static const uint64_t SEED = 0x243f6a8885a308d3u;
static const uint64_t MULTIPLIER = 0x9e3779b97f4a7c15u;
static const char SIGNS[] = "ABCDEFGHIJKLMNOPQRSTUVWXYZabcdefghijklmnopqrstuvwxyz0123456789";

static char (*names)[LENGTH + 1];
static long wanted, found;
static uint32_t mask;

static uint64_t folded(uint64_t a, uint64_t b) {
    unsigned __int128 product = (unsigned __int128)a * b;
    return (uint64_t)product ^ (uint64_t)(product >> 64);
}

/* The state behind one byte more. */
static uint64_t behind(uint64_t state, char sign) {
    return folded(state ^ (uint64_t)(unsigned char)sign * 0x010101, MULTIPLIER ^ 2);
}

static int collides(uint64_t hash) { return ((uint32_t)(hash ^ hash >> 32) & mask) == 0; }

/* Takes the names that begin with the first `length` signs of `name`, whose state this is. */
static void take_names(char *name, int length, uint64_t state) {
    if (length == LENGTH) {
        if (collides(state)) memcpy(names[found++], name, LENGTH + 1);
        return;
    }
    for (const char *sign = SIGNS; *sign != 0 && found < wanted; sign++) {
        if (length == 0 && *sign >= '0' && *sign <= '9') continue;
        name[length] = *sign;
        take_names(name, length + 1, behind(state, *sign));
    }
}

static void plain_names(void) {
    for (long i = 0; i < wanted; i++) snprintf(names[i], LENGTH + 1, "x%0*ld", LENGTH - 1, i % 1000000);
}

static void print_rows(void) {
    printf("NAME rows\nROWS\n N z\n");
    for (long i = 0; i < wanted; i++) printf(" L %s\n", names[i]);
    printf("COLUMNS\nRHS\nBOUNDS\nENDATA\n");
}

static void print_columns(void) {
    printf("NAME columns\nROWS\n N z\nCOLUMNS\n");
    for (long i = 0; i < wanted; i++) printf(" %s z 1\n", names[i]);
    printf("RHS\nBOUNDS\n");
    for (long i = wanted; i-- > 0;) printf(" BV B %s\n", names[i]);
    printf("ENDATA\n");
}

int main(int argc, char **argv) {
    int is_rows = argc > 2 && strcmp(argv[1], "rows") == 0;
    int is_columns = argc > 2 && strcmp(argv[1], "columns") == 0;
    wanted = argc > 2 ? atol(argv[2]) : 0;
    if (!(is_rows || is_columns) || wanted < 1 || wanted > 1000000) {
        fprintf(stderr, "usage: colliding_names rows|columns COUNT [--plain]\n");
        return 2;
    }
    names = malloc((size_t)wanted * sizeof *names);
    if (names == NULL) return 1;
    uint32_t groups = 1;
    while (9 * (long)groups < wanted) groups *= 2;
    mask = groups - 1;
    char name[LENGTH + 1] = {0};
    if (argc > 3 && strcmp(argv[3], "--plain") == 0) plain_names();
    else take_names(name, 0, folded(SEED ^ LENGTH, MULTIPLIER ^ 16));
    if (is_rows) print_rows(); else print_columns();
    return 0;
}
