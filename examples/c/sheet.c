/* A maker's sheet, whose columns are levels, as a tree: which parts are below assembly 100? */
#include "flowpewter.h"
#include <inttypes.h>
#include <stdio.h>

enum { WIDTH = 3, LINES = 9, NODES = WIDTH * LINES };

/* Assembly, subassembly, part; 0 is blank. */
static const uint32_t sheet[WIDTH * LINES] = {
    100, 120, 121, /* pump, housing, bearing */
    100, 120, 122, /* pump, housing, seal */
    100, 110, 112, /* pump, drive, gear */
    100, 110, 111, /* pump, drive, shaft */
    0,   0,   0,   /* left out by the maker */
    100, 110, 112, /* the gear once more */
    100, 0,   130, /* pump, bolt */
    200, 210, 0,   /* stand, plate, which isn't taken apart */
    0,   0,   900, /* label, of no assembly */
};

static uint32_t words[FLOWPEWTER_INDEX_LEN(NODES)];
static int64_t totals[FLOWPEWTER_TOTALS_LEN(NODES)];
static const size_t words_len = sizeof words / sizeof words[0];
static const size_t totals_len = sizeof totals / sizeof totals[0];

static int refused(uint32_t refusal) {
    fprintf(stderr, "refused %" PRIu32 "\n", refusal);
    return 1;
}

static uint32_t numeral(uint32_t rank) { return words[FLOWPEWTER_BODY_AT(rank) + FLOWPEWTER_BODY_NUMERAL]; }

/* A numeral in its own column, and the first line that it is on, in the order of the sorted sheet. */
static void print_node(uint32_t rank) {
    const uint32_t *body = words + FLOWPEWTER_BODY_AT(rank);
    const int column = 4 * ((int)(body[FLOWPEWTER_BODY_LEVEL] & FLOWPEWTER_LEVEL_MASK) - 1);
    printf("%*s%-*" PRIu32 "line %" PRIu32, column, "", 13 - column, body[FLOWPEWTER_BODY_NUMERAL],
           body[FLOWPEWTER_BODY_ROW]);
    if (body[FLOWPEWTER_BODY_PARENT] != 0) {
        printf(", below %" PRIu32, numeral(body[FLOWPEWTER_BODY_PARENT]));
    }
    printf("\n");
}

int main(void) {
    flowpewter_built built =
        flowpewter_build_levelled(sheet, WIDTH * LINES, WIDTH, words, words_len, totals, totals_len);
    if (built.refusal != 0) {
        return refused(built.refusal);
    }
    printf("%" PRIu32 " nodes of %d lines, %" PRIu32 " of them blank\n", built.nodes, LINES, built.left);
    for (uint32_t rank = 1; rank <= built.nodes; rank++) {
        print_node(rank);
    }

    /* Assembly 100 has rank 1. Distances count columns: the bolt is two columns on, as all other parts are. */
    uint32_t list[NODES];
    flowpewter_listed listed = flowpewter_descendants(words, words_len, 1, 2, 2, list, NODES);
    if (listed.refusal != 0) {
        return refused(listed.refusal);
    }
    printf("parts below 100:");
    for (size_t i = 0; i < listed.len; i++) {
        printf(" %" PRIu32, numeral(list[i]));
    }
    printf("\n");
    return 0;
}
