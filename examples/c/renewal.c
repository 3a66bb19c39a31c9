/* A renewal shows the parts as they were: a pump whose design changed between two filings. Days are counted from the
 * first filing. */
#include "flowpewter.h"
#include <inttypes.h>
#include <stdio.h>

enum { NODES = 100, DAYS_COLUMN = 24 };

/* Parent, numeral, order on the sheet, drawing minutes, first and last day. */
static const flowpewter_row pump[] = {
    {0, 10, 1, 90, 0, FLOWPEWTER_LAST_DAY},    /* pump */
    {10, 20, 1, 45, 0, FLOWPEWTER_LAST_DAY},   /* housing */
    {20, 40, 1, 12, 0, 399},                   /* valve, in the housing at first */
    {10, 40, 2, 30, 400, FLOWPEWTER_LAST_DAY}, /* and then beside it */
    {20, 30, 2, 60, 200, FLOWPEWTER_LAST_DAY}, /* cover, which came later */
    {40, 41, 1, 8, 0, FLOWPEWTER_LAST_DAY},    /* spring of the valve */
    {40, 42, 2, 6, 0, 499},                    /* seat of the valve, given up */
};

static uint32_t words[FLOWPEWTER_INDEX_LEN(NODES)];
static int64_t totals[FLOWPEWTER_TOTALS_LEN(NODES)];
static uint32_t days[FLOWPEWTER_DAYS_LEN(NODES)];
static const size_t words_len = sizeof words / sizeof words[0];
static const size_t totals_len = sizeof totals / sizeof totals[0];
static const size_t days_len = sizeof days / sizeof days[0];

static int refused(uint32_t refusal) {
    fprintf(stderr, "refused %" PRIu32 "\n", refusal);
    return 1;
}

static void print_days(uint32_t first, uint32_t last) {
    if (first == last) {
        printf("day %" PRIu32 "\n", first);
    } else if (last == FLOWPEWTER_LAST_DAY) {
        printf("from day %" PRIu32 " on\n", first);
    } else {
        printf("days %" PRIu32 " to %" PRIu32 "\n", first, last);
    }
}

/* A numeral as far to the right as it is down, and its days. */
static void print_node(uint32_t rank) {
    const uint32_t *body = words + FLOWPEWTER_BODY_AT(rank);
    const uint32_t *own = days + FLOWPEWTER_DAYS_AT(rank);
    const int column = 4 * (int)(body[FLOWPEWTER_BODY_LEVEL] & FLOWPEWTER_LEVEL_MASK);
    printf("%*s%-*" PRIu32, column, "", DAYS_COLUMN - column, body[FLOWPEWTER_BODY_NUMERAL]);
    print_days(own[0], own[1]);
}

/* The parts in a window of days. Answers the refusal. */
static uint32_t print_parts(flowpewter_board board, const char *when, uint32_t first_day, uint32_t last_day) {
    const uint32_t attached =
        FLOWPEWTER_CODE(FLOWPEWTER_ORPHAN_IGNORE, FLOWPEWTER_MULTI_ALLOW, FLOWPEWTER_CYCLE_BREAK_UP);
    const flowpewter_built built =
        flowpewter_build_dated(board, attached, false, 0, false, NULL, 0, first_day, last_day, words, words_len, totals,
                               totals_len, days, days_len);
    if (built.refusal != 0) {
        return built.refusal;
    }
    printf("%s: %" PRIu32 " nodes, %" PRId64 " drawing minutes\n", when, built.nodes, totals[built.nodes]);
    for (uint32_t rank = 1; rank <= built.nodes; rank++) {
        print_node(rank);
    }
    return 0;
}

int main(void) {
    flowpewter_board board = flowpewter_empty();
    for (size_t i = 0; i < sizeof pump / sizeof pump[0]; i++) {
        const flowpewter_edited edited = flowpewter_add(board, pump[i]);
        if (edited.refusal != 0) {
            return refused(edited.refusal);
        }
        board = edited.board;
    }

    uint32_t refusal = print_parts(board, "first filing, day 0", 0, 0);
    if (refusal == 0) {
        refusal = print_parts(board, "second filing, day 450", 450, 450);
    }
    if (refusal == 0) {
        refusal = print_parts(board, "all days", 0, FLOWPEWTER_LAST_DAY);
    }
    return refusal == 0 ? 0 : refused(refusal);
}
