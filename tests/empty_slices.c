/* Every call with a null pointer for a slice of length 0, in each place that takes one: it answers as the header says.
 * Prints what is wrong, and fails then. */
#include "flowpewter.h"
#include <stdio.h>
#include <string.h>

enum { WORDS = FLOWPEWTER_INDEX_LEN(1), TOTALS = FLOWPEWTER_TOTALS_LEN(1), DAYS = FLOWPEWTER_DAYS_LEN(1) };

/* A board with one row, with days 3 to 5, and its index, totals and days. */
static flowpewter_board one;
static uint32_t words[WORDS];
static int64_t totals[TOTALS];
static uint32_t days[DAYS];
static int wrong;

static void expect(const char *what, bool right) {
    if (!right) {
        printf("empty slices: %s is WRONG\n", what);
        wrong = 1;
    }
}

static void refused(const char *what, uint32_t refusal, uint32_t expected) { expect(what, refusal == expected); }

static void builds_into_nothing(void) {
    const uint32_t short_slice = FLOWPEWTER_REFUSED_TOO_MANY_NODES;
    refused("no words and no totals", flowpewter_build_default(one, NULL, 0, NULL, 0).refusal, short_slice);
    refused("no totals", flowpewter_build_default(one, words, WORDS, NULL, 0).refusal, short_slice);
    refused("no words", flowpewter_build_default(one, NULL, 0, totals, TOTALS).refusal, short_slice);
    refused("an empty board", flowpewter_build_default(flowpewter_empty(), NULL, 0, NULL, 0).refusal, short_slice);
    refused("code 24", flowpewter_build(one, 24, false, 0, true, NULL, 0, NULL, 0, NULL, 0).refusal,
            FLOWPEWTER_REFUSED_UNKNOWN_CODE);
}

/* The one row is an orphan where no numeral is a start. */
static void builds_from_no_numerals(void) {
    for (uint32_t code = 0; code < 24; code++) {
        const flowpewter_built built =
            flowpewter_build(one, code, false, 0, true, NULL, 0, words, WORDS, totals, TOTALS);
        switch (code % 4) {
        case FLOWPEWTER_ORPHAN_IGNORE:
            expect("orphans ignored", built.refusal == 0 && built.nodes == 0 && built.left == 1);
            break;
        case FLOWPEWTER_ORPHAN_ERROR:
            refused("orphans refused", built.refusal, FLOWPEWTER_REFUSED_UNREACHED_ROW);
            break;
        case FLOWPEWTER_ORPHAN_ADOPT:
            refused("orphans adopted", built.refusal, FLOWPEWTER_REFUSED_NO_START_ROW);
            break;
        default:
            expect("orphans as roots", built.refusal == 0 && built.nodes == 1 && built.left == 0);
        }
    }
}

static void builds_that_read_no_list(void) {
    for (uint32_t code = 0; code < 24; code++) {
        const flowpewter_built built =
            flowpewter_build(one, code, false, 0, false, NULL, 0, words, WORDS, totals, TOTALS);
        expect("a list that isn't read", built.refusal == 0 && built.nodes == 1 && totals[1] == 5);
    }
}

static void shortest_placements(void) {
    const uint32_t short_slice = FLOWPEWTER_REFUSED_TOO_MANY_NODES;
    const flowpewter_board none = flowpewter_empty();
    refused("placement, no words and no totals",
            flowpewter_build_shortest(one, false, NULL, 0, NULL, 0, NULL, 0).refusal, short_slice);
    refused("placement, no totals",
            flowpewter_build_shortest(one, true, NULL, 0, words, WORDS, NULL, 0).refusal, short_slice);
    refused("placement, no words",
            flowpewter_build_shortest(one, false, NULL, 0, NULL, 0, totals, TOTALS).refusal, short_slice);
    refused("placement of an empty board",
            flowpewter_build_shortest(none, true, NULL, 0, NULL, 0, NULL, 0).refusal, short_slice);

    flowpewter_built built = flowpewter_build_shortest(one, true, NULL, 0, words, WORDS, totals, TOTALS);
    expect("placement from no numerals", built.refusal == 0 && built.nodes == 0 && built.left == 1);
    built = flowpewter_build_shortest(one, false, NULL, 0, words, WORDS, totals, TOTALS);
    expect("placement that reads no list", built.refusal == 0 && built.nodes == 1 && built.left == 0);
    expect("index of a placement", flowpewter_index_check(words, WORDS));
}

/* The refusal of a dated build by parent 0, in a window of all days, into slices of which any may be none. */
static uint32_t dated_into(uint32_t *index, size_t index_len, int64_t *sums, size_t sums_len, uint32_t *of_nodes,
                           size_t of_nodes_len) {
    return flowpewter_build_dated(one, 0, false, 0, false, NULL, 0, 0, FLOWPEWTER_LAST_DAY, index, index_len, sums,
                                  sums_len, of_nodes, of_nodes_len)
        .refusal;
}

static void dated_builds(void) {
    const uint32_t short_slice = FLOWPEWTER_REFUSED_TOO_MANY_NODES;
    refused("dated, no slices", dated_into(NULL, 0, NULL, 0, NULL, 0), short_slice);
    refused("dated, no words", dated_into(NULL, 0, totals, TOTALS, days, DAYS), short_slice);
    refused("dated, no totals", dated_into(words, WORDS, NULL, 0, days, DAYS), short_slice);
    refused("dated, no days", dated_into(words, WORDS, totals, TOTALS, NULL, 0), short_slice);
    refused("dated, code 24",
            flowpewter_build_dated(one, 24, false, 0, true, NULL, 0, 6, 5, NULL, 0, NULL, 0, NULL, 0).refusal,
            FLOWPEWTER_REFUSED_UNKNOWN_CODE);
    refused("dated, a window of no days",
            flowpewter_build_dated(one, 3, false, 0, true, NULL, 0, 6, 5, NULL, 0, NULL, 0, NULL, 0).refusal,
            FLOWPEWTER_REFUSED_NO_DAYS);
    refused("dated, orphans as roots",
            flowpewter_build_dated(one, 3, false, 0, true, NULL, 0, 5, 6, NULL, 0, NULL, 0, NULL, 0).refusal,
            FLOWPEWTER_REFUSED_DEPTH_WITH_ORPHANS);

    flowpewter_built built =
        flowpewter_build_dated(one, 0, false, 0, true, NULL, 0, 3, 5, words, WORDS, totals, TOTALS, NULL, 0);
    expect("dated, from no numerals", built.refusal == 0 && built.nodes == 0 && built.left == 1);
    built = flowpewter_build_dated(one, 0, false, 0, false, NULL, 0, 6, 9, words, WORDS, totals, TOTALS, NULL, 0);
    expect("dated, no node has days", built.refusal == 0 && built.nodes == 0 && built.left == 1);
    built = flowpewter_build_dated(one, 0, false, 0, false, NULL, 0, 5, 9, words, WORDS, totals, TOTALS, days, DAYS);
    expect("dated, a list that isn't read", built.refusal == 0 && built.nodes == 1 && built.left == 0);
    expect("its days", days[FLOWPEWTER_DAYS_AT(1)] == 5 && days[FLOWPEWTER_DAYS_AT(1) + 1] == 5);
    expect("its index", flowpewter_index_check(words, WORDS));
}

static void builds_of_no_lines(void) {
    const uint32_t short_slice = FLOWPEWTER_REFUSED_TOO_MANY_NODES;
    const uint32_t not_whole = FLOWPEWTER_REFUSED_NOT_WHOLE_LINES;
    refused("no lines of no cells", flowpewter_build_levelled(NULL, 0, 0, NULL, 0, NULL, 0).refusal, not_whole);
    refused("no lines of 9 cells", flowpewter_build_levelled(NULL, 0, 9, NULL, 0, NULL, 0).refusal, not_whole);
    for (uint32_t width = 1; width <= FLOWPEWTER_MAX_WIDTH; width++) {
        uint32_t contents[FLOWPEWTER_INDEX_LEN(0)];
        int64_t total[FLOWPEWTER_TOTALS_LEN(0)] = {7};
        const flowpewter_built built =
            flowpewter_build_levelled(NULL, 0, width, contents, FLOWPEWTER_INDEX_LEN(0), total, 1);
        expect("no lines", built.refusal == 0 && built.nodes == 0 && built.left == 0 && total[0] == 0);
        expect("index of no lines", flowpewter_index_check(contents, FLOWPEWTER_INDEX_LEN(0)));
        refused("no lines, no words and no totals",
                flowpewter_build_levelled(NULL, 0, width, NULL, 0, NULL, 0).refusal, short_slice);
        refused("no lines, no words", flowpewter_build_levelled(NULL, 0, width, NULL, 0, total, 1).refusal,
                short_slice);
        refused("no lines, no totals",
                flowpewter_build_levelled(NULL, 0, width, contents, FLOWPEWTER_INDEX_LEN(0), NULL, 0).refusal,
                short_slice);
    }
}

static void lines_into_nothing(void) {
    static const uint32_t cells[FLOWPEWTER_MAX_LINES + 1] = {10};
    refused("a line, no words and no totals", flowpewter_build_levelled(cells, 1, 1, NULL, 0, NULL, 0).refusal,
            FLOWPEWTER_REFUSED_TOO_MANY_NODES);
    refused("half a line", flowpewter_build_levelled(cells, 1, 2, NULL, 0, NULL, 0).refusal,
            FLOWPEWTER_REFUSED_NOT_WHOLE_LINES);
    refused("513 lines", flowpewter_build_levelled(cells, FLOWPEWTER_MAX_LINES + 1, 1, NULL, 0, NULL, 0).refusal,
            FLOWPEWTER_REFUSED_TOO_MANY_LINES);
}

static void navigation_of_nothing(void) {
    const uint32_t no_index = FLOWPEWTER_REFUSED_NO_INDEX;
    const flowpewter_span_answer part = flowpewter_span(NULL, 0, 1);
    expect("span", part.refusal == no_index && part.start == 0 && part.words == 0);
    refused("descendants", flowpewter_descendants(NULL, 0, 1, 0, 9, NULL, 0).refusal, no_index);
    refused("ancestors", flowpewter_ancestors(NULL, 0, 1, 0, 9, NULL, 0).refusal, no_index);
    refused("siblings", flowpewter_siblings(NULL, 0, 1, NULL, 0).refusal, no_index);
    refused("siblings by hops", flowpewter_siblings_by_hops(NULL, 0, 1, NULL, 0).refusal, no_index);
    const flowpewter_meeting meeting = flowpewter_meet(NULL, 0, 1, 2);
    expect("meet", meeting.refusal == no_index && !meeting.found && meeting.rank == 0);
    const flowpewter_climbed_one climber = flowpewter_climb(NULL, 0, 2);
    expect("climb", climber.refusal == no_index && !climber.root && climber.rank == 2);
    refused("subtree sum", flowpewter_subtree_sum(NULL, 0, NULL, 0, 1).refusal, no_index);
    refused("path sum", flowpewter_path_sum(NULL, 0, NULL, 0, 1).refusal, no_index);
    refused("subtree sum of no totals", flowpewter_subtree_sum(words, WORDS, NULL, 0, 1).refusal, no_index);
    refused("path sum of no totals", flowpewter_path_sum(words, WORDS, NULL, 0, 1).refusal, no_index);
    refused("pull", flowpewter_pull(NULL, 0, NULL, 0, 1, 5), no_index);
    refused("pull of row number 0", flowpewter_pull(NULL, 0, NULL, 0, 0, 5), FLOWPEWTER_REFUSED_NO_SUCH_ROW);
    refused("pull of no totals", flowpewter_pull(words, WORDS, NULL, 0, 1, 5), no_index);
    const int64_t total = totals[1];
    refused("pull of no words", flowpewter_pull(NULL, 0, totals, TOTALS, 1, 5), no_index);
    expect("totals of a refused pull", totals[0] == 0 && totals[1] == total);
    expect("index check", !flowpewter_index_check(NULL, 0));
}

static void lists_to_nowhere(void) {
    const uint32_t too_long = FLOWPEWTER_REFUSED_LIST_TOO_LONG;
    refused("a descendant", flowpewter_descendants(words, WORDS, 1, 0, 0, NULL, 0).refusal, too_long);
    refused("no descendant", flowpewter_descendants(words, WORDS, 1, 1, 0, NULL, 0).refusal, 0);
    refused("an ancestor", flowpewter_ancestors(words, WORDS, 1, 0, 0, NULL, 0).refusal, too_long);
    refused("no ancestor", flowpewter_ancestors(words, WORDS, 1, 1, 0, NULL, 0).refusal, 0);
    refused("a sibling", flowpewter_siblings(words, WORDS, 1, NULL, 0).refusal, too_long);
    refused("a sibling by hops", flowpewter_siblings_by_hops(words, WORDS, 1, NULL, 0).refusal, too_long);
    uint32_t own_parent[WORDS];
    memcpy(own_parent, words, sizeof words);
    own_parent[FLOWPEWTER_BODY_AT(1) + FLOWPEWTER_BODY_PARENT] = 1;
    refused("no sibling by hops", flowpewter_siblings_by_hops(own_parent, WORDS, 1, NULL, 0).refusal, 0);
}

static void replays(void) {
    const uint32_t undo[FLOWPEWTER_CALL_WORDS] = {FLOWPEWTER_CALL_UNDO};
    uint32_t refusals[1] = {7};
    refused("no calls", flowpewter_replay(NULL, 0, NULL, 0).refusal, 0);
    refused("no calls, one word for refusals", flowpewter_replay(NULL, 0, refusals, 1).refusal, 0);
    expect("that word", refusals[0] == 7);
    refused("no words for refusals", flowpewter_replay(undo, FLOWPEWTER_CALL_WORDS, NULL, 0).refusal,
            FLOWPEWTER_REFUSED_FEW_REFUSAL_WORDS);
}

int main(void) {
    one = flowpewter_add(flowpewter_empty(), (flowpewter_row){0, 10, 1, 5, 3, 5}).board;
    builds_into_nothing();
    builds_from_no_numerals();
    builds_that_read_no_list();
    shortest_placements();
    dated_builds();
    builds_of_no_lines();
    lines_into_nothing();
    navigation_of_nothing();
    lists_to_nowhere();
    replays();
    if (!wrong) {
        printf("empty slices: all agree\n");
    }
    return wrong;
}
