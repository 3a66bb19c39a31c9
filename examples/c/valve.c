/* How many drawing minutes hang under numeral 40? A pump whose valve, numeral 40, is shown in three places, and a
 * gasket whose parent isn't drawn yet. Then the numeral list beside figure 1, in which each numeral stands once, and
 * the caption of two parts that a leader joins. */
#include "flowpewter.h"
#include <inttypes.h>
#include <stdio.h>

enum { NODES = 100 };

static int refused(uint32_t refusal) {
    fprintf(stderr, "refused %" PRIu32 "\n", refusal);
    return 1;
}

static uint32_t numeral_at(const uint32_t *index, uint32_t rank) {
    return index[FLOWPEWTER_BODY_AT(rank) + FLOWPEWTER_BODY_NUMERAL];
}

/* Names the smallest assembly that holds two parts, and the way up from the second. */
static int caption(const uint32_t *index, size_t index_len, uint32_t a, uint32_t b) {
    const flowpewter_meeting meeting = flowpewter_meet(index, index_len, a, b);
    if (meeting.refusal != 0) {
        return refused(meeting.refusal);
    }
    printf("a leader joins %" PRIu32 " and %" PRIu32, numeral_at(index, a), numeral_at(index, b));
    if (meeting.found) {
        printf(": %" PRIu32 " holds both\n", numeral_at(index, meeting.rank));
    } else {
        printf(": nothing holds both\n");
    }

    printf("up from %" PRIu32 ":", numeral_at(index, b));
    flowpewter_climbed_one up = flowpewter_climb(index, index_len, b);
    while (up.refusal == 0 && !up.root) {
        printf(" %" PRIu32, numeral_at(index, up.rank));
        up = flowpewter_climb(index, index_len, up.rank);
    }
    printf("\n");
    return up.refusal == 0 ? 0 : refused(up.refusal);
}

int main(void) {
    static uint32_t index[FLOWPEWTER_INDEX_LEN(NODES)];
    static int64_t totals[FLOWPEWTER_TOTALS_LEN(NODES)];
    const size_t index_len = sizeof index / sizeof index[0];
    const size_t totals_len = sizeof totals / sizeof totals[0];

    /* Parent, numeral, order on the sheet, drawing minutes; no days are given. */
    const flowpewter_row pump[] = {
        flowpewter_undated_row(0, 10, 1, 90),  /* pump */
        flowpewter_undated_row(10, 20, 1, 45), /* housing */
        flowpewter_undated_row(10, 30, 2, 60), /* cover */
        flowpewter_undated_row(10, 40, 3, 30), /* valve, beside the pump */
        flowpewter_undated_row(20, 40, 1, 12), /* valve, in the housing */
        flowpewter_undated_row(30, 40, 1, 15), /* valve, in the cover */
        flowpewter_undated_row(40, 41, 1, 8),  /* spring */
        flowpewter_undated_row(40, 42, 2, 6),  /* seat */
        flowpewter_undated_row(42, 43, 1, -2), /* seal, taken over from an older drawing */
        flowpewter_undated_row(50, 51, 1, 20), /* gasket of the flange, numeral 50, which isn't drawn yet */
    };
    flowpewter_board board = flowpewter_empty();
    for (size_t i = 0; i < sizeof pump / sizeof pump[0]; i++) {
        flowpewter_edited edited = flowpewter_add(board, pump[i]);
        if (edited.refusal != 0) {
            return refused(edited.refusal);
        }
        board = edited.board;
    }

    flowpewter_built built = flowpewter_build_default(board, index, index_len, totals, totals_len);
    if (built.refusal != 0) {
        return refused(built.refusal);
    }
    printf("%" PRIu32 " nodes, %" PRIu32 " rows left over\n", built.nodes, built.left);

    int64_t minutes = 0;
    for (uint32_t rank = 1; rank <= built.nodes; rank++) {
        const uint32_t *body = index + FLOWPEWTER_BODY_AT(rank);
        if (body[FLOWPEWTER_BODY_NUMERAL] == 40) {
            flowpewter_summed summed = flowpewter_subtree_sum(index, index_len, totals, totals_len, rank);
            if (summed.refusal != 0) {
                return refused(summed.refusal);
            }
            printf("numeral 40 at rank %" PRIu32 ", level %" PRIu32 ": %" PRId64 " minutes\n", rank,
                   body[FLOWPEWTER_BODY_LEVEL] & FLOWPEWTER_LEVEL_MASK, summed.sum);
            minutes += summed.sum;
        }
    }
    printf("%" PRId64 " drawing minutes hang under numeral 40\n", minutes);

    /* By default no part is lost sight of: what hangs from nothing drawn is a root, and marked. */
    for (uint32_t rank = 1; rank <= built.nodes; rank++) {
        const uint32_t *body = index + FLOWPEWTER_BODY_AT(rank);
        if (body[FLOWPEWTER_BODY_PARENT] == 0 && (body[FLOWPEWTER_BODY_LEVEL] & FLOWPEWTER_ORPHAN_BIT) != 0) {
            printf("numeral %" PRIu32 " at rank %" PRIu32 ": its parent isn't drawn yet\n",
                   body[FLOWPEWTER_BODY_NUMERAL], rank);
        }
    }

    /* What hangs from the pump alone: orphans are ignored, and counted. */
    const uint32_t attached =
        FLOWPEWTER_CODE(FLOWPEWTER_ORPHAN_IGNORE, FLOWPEWTER_MULTI_ALLOW, FLOWPEWTER_CYCLE_BREAK_UP);
    built = flowpewter_build(board, attached, false, 0, false, NULL, 0, index, index_len, totals, totals_len);
    if (built.refusal != 0) {
        return refused(built.refusal);
    }
    printf("without it: %" PRIu32 " nodes, %" PRIu32 " row left over\n", built.nodes, built.left);

    /* Each numeral as close to the pump as it can stand: the valve beside it, with spring, seat and seal. */
    built = flowpewter_build_shortest(board, false, NULL, 0, index, index_len, totals, totals_len);
    if (built.refusal != 0) {
        return refused(built.refusal);
    }
    printf("beside figure 1: %" PRIu32 " numerals, %" PRIu32 " rows left over\n", built.nodes, built.left);
    for (uint32_t rank = 1; rank <= built.nodes; rank++) {
        const uint32_t *body = index + FLOWPEWTER_BODY_AT(rank);
        const int level = (int)(body[FLOWPEWTER_BODY_LEVEL] & FLOWPEWTER_LEVEL_MASK);
        printf("%*s%" PRIu32 "\n", 4 * level, "", body[FLOWPEWTER_BODY_NUMERAL]);
    }
    flowpewter_summed once = flowpewter_subtree_sum(index, index_len, totals, totals_len, 1);
    if (once.refusal != 0) {
        return refused(once.refusal);
    }
    printf("%" PRId64 " drawing minutes, each numeral drawn once\n", once.sum);

    /* The spring, rank 5, and the seal, rank 7, are parts of the valve. */
    return caption(index, index_len, 5, 7);
}
