/* The minutes of one part are corrected, and the totals of an index follow without a build: a pull. The part is the
 * spring of a pump's valve, numeral 40, which is shown in three places. */
#include "flowpewter.h"
#include <inttypes.h>
#include <stdio.h>

enum { NODES = 100 };

static int refused(uint32_t refusal) {
    fprintf(stderr, "refused %" PRIu32 "\n", refusal);
    return 1;
}

/* Prints the minutes under numeral 40, place by place and of all. Answers the refusal. */
static uint32_t print_valves(const uint32_t *index, size_t index_len, const int64_t *totals, size_t totals_len) {
    int64_t minutes = 0;
    for (uint32_t rank = 1; rank <= index[0]; rank++) {
        const uint32_t *body = index + FLOWPEWTER_BODY_AT(rank);
        if (body[FLOWPEWTER_BODY_NUMERAL] == 40) {
            const flowpewter_summed summed = flowpewter_subtree_sum(index, index_len, totals, totals_len, rank);
            if (summed.refusal != 0) {
                return summed.refusal;
            }
            printf("numeral 40 at rank %" PRIu32 ": %" PRId64 " minutes\n", rank, summed.sum);
            minutes += summed.sum;
        }
    }
    printf("%" PRId64 " drawing minutes hang under numeral 40\n", minutes);
    return 0;
}

int main(void) {
    static uint32_t index[FLOWPEWTER_INDEX_LEN(NODES)];
    static int64_t totals[FLOWPEWTER_TOTALS_LEN(NODES)];
    const size_t index_len = sizeof index / sizeof index[0];
    const size_t totals_len = sizeof totals / sizeof totals[0];

    /* Parent, numeral, order on the sheet, drawing minutes; no days are given. */
    const flowpewter_row pump[] = {
        flowpewter_undated_row(0, 10, 1, 90),  /* pump */
        flowpewter_undated_row(10, 20, 1, 45), /* housing */
        flowpewter_undated_row(10, 30, 2, 60), /* cover */
        flowpewter_undated_row(10, 40, 3, 30), /* valve, beside the pump */
        flowpewter_undated_row(20, 40, 1, 12), /* valve, in the housing */
        flowpewter_undated_row(30, 40, 1, 15), /* valve, in the cover */
        flowpewter_undated_row(40, 41, 1, 8),  /* spring */
    };
    flowpewter_board board = flowpewter_empty();
    for (size_t i = 0; i < sizeof pump / sizeof pump[0]; i++) {
        const flowpewter_edited edited = flowpewter_add(board, pump[i]);
        if (edited.refusal != 0) {
            return refused(edited.refusal);
        }
        board = edited.board;
    }
    const flowpewter_built built = flowpewter_build_default(board, index, index_len, totals, totals_len);
    if (built.refusal != 0) {
        return refused(built.refusal);
    }
    uint32_t refusal = print_valves(index, index_len, totals, totals_len);
    if (refusal != 0) {
        return refused(refusal);
    }

    /* The spring, row 7, in each of the three places. */
    const flowpewter_edited remarked = flowpewter_remark(board, 7, 11);
    if (remarked.refusal != 0) {
        return refused(remarked.refusal);
    }
    printf("the spring takes 11 minutes, not 8:\n");
    refusal = flowpewter_pull(index, index_len, totals, totals_len, 7, 11 - 8);
    if (refusal == 0) {
        refusal = print_valves(index, index_len, totals, totals_len);
    }
    return refusal == 0 ? 0 : refused(refusal);
}
