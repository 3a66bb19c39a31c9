/* Prints size, alignment and field offsets of each struct of the header, and each constant; the Rust program `layout`
 * prints its own. */
#include "flowpewter.h"
#include <stdalign.h>
#include <stdio.h>

#define STRUCT(type) printf(#type " %zu %zu\n", sizeof(flowpewter_##type), alignof(flowpewter_##type))
#define FIELD(type, field) printf("  " #field " %zu\n", offsetof(flowpewter_##type, field))
#define CONSTANT(name) printf(#name " %lu\n", (unsigned long)FLOWPEWTER_##name)
#define REFUSAL(name, constant) printf(#name " %d\n", FLOWPEWTER_REFUSED_##constant)

static void structs(void) {
    STRUCT(row);
    FIELD(row, parent);
    FIELD(row, numeral);
    FIELD(row, order);
    FIELD(row, minutes);
    FIELD(row, first_day);
    FIELD(row, last_day);
    STRUCT(entry);
    FIELD(entry, kind);
    FIELD(entry, at);
    FIELD(entry, row);
    STRUCT(board);
    FIELD(board, count);
    FIELD(board, rows);
    FIELD(board, kept);
    FIELD(board, undone);
    FIELD(board, journal);
    STRUCT(edited);
    FIELD(edited, board);
    FIELD(edited, refusal);
    STRUCT(replayed);
    FIELD(replayed, refusal);
    FIELD(replayed, calls);
    FIELD(replayed, board);
    STRUCT(built);
    FIELD(built, refusal);
    FIELD(built, nodes);
    FIELD(built, left);
    STRUCT(span_answer);
    FIELD(span_answer, refusal);
    FIELD(span_answer, start);
    FIELD(span_answer, words);
    STRUCT(listed);
    FIELD(listed, refusal);
    FIELD(listed, len);
    STRUCT(climbed);
    FIELD(climbed, refusal);
    FIELD(climbed, len);
    FIELD(climbed, links);
    STRUCT(hopped);
    FIELD(hopped, refusal);
    FIELD(hopped, len);
    FIELD(hopped, hops);
    STRUCT(meeting);
    FIELD(meeting, refusal);
    FIELD(meeting, found);
    FIELD(meeting, rank);
    STRUCT(climbed_one);
    FIELD(climbed_one, refusal);
    FIELD(climbed_one, root);
    FIELD(climbed_one, rank);
    STRUCT(summed);
    FIELD(summed, refusal);
    FIELD(summed, sum);
}

static void constants(void) {
    CONSTANT(MAX_ROWS);
    CONSTANT(MAX_KEPT);
    CONSTANT(MAX_UNDONE);
    CONSTANT(JOURNAL_PLACES);
    CONSTANT(LAST_DAY);
    CONSTANT(MAX_WIDTH);
    CONSTANT(MAX_LINES);
    CONSTANT(MAX_NODES);
    CONSTANT(CONTENTS);
    CONSTANT(BODY);
    CONSTANT(LEVEL_MASK);
    CONSTANT(CLOSING_BIT);
    CONSTANT(ORPHAN_BIT);
    CONSTANT(CALL_WORDS);
    printf("entries %d %d %d\n", FLOWPEWTER_ENTRY_TAKE_OUT, FLOWPEWTER_ENTRY_PUT_IN, FLOWPEWTER_ENTRY_SET);
    printf("lengths %zu %zu %zu\n", FLOWPEWTER_INDEX_LEN(7), FLOWPEWTER_TOTALS_LEN(7), FLOWPEWTER_DAYS_LEN(7));
    const flowpewter_row row = flowpewter_undated_row(1, 2, 3, 4);
    printf("undated row %u %u %u %d %u %u\n", (unsigned)row.parent, (unsigned)row.numeral, (unsigned)row.order,
           (int)row.minutes, (unsigned)row.first_day, (unsigned)row.last_day);
}

static void refusals(void) {
    REFUSAL(UnsoundBoard, UNSOUND_BOARD);
    REFUSAL(NumeralZero, NUMERAL_ZERO);
    REFUSAL(FullBoard, FULL_BOARD);
    REFUSAL(NoSuchRow, NO_SUCH_ROW);
    REFUSAL(NothingKept, NOTHING_KEPT);
    REFUSAL(UnknownCode, UNKNOWN_CODE);
    REFUSAL(DepthWithOrphans, DEPTH_WITH_ORPHANS);
    REFUSAL(NoStartRow, NO_START_ROW);
    REFUSAL(TooManyNodes, TOO_MANY_NODES);
    REFUSAL(ClosingNode, CLOSING_NODE);
    REFUSAL(SharedNumeral, SHARED_NUMERAL);
    REFUSAL(UnreachedRow, UNREACHED_ROW);
    REFUSAL(NoIndex, NO_INDEX);
    REFUSAL(NoSuchRank, NO_SUCH_RANK);
    REFUSAL(DamagedIndex, DAMAGED_INDEX);
    REFUSAL(ListTooLong, LIST_TOO_LONG);
    REFUSAL(NothingUndone, NOTHING_UNDONE);
    REFUSAL(NotWholeLines, NOT_WHOLE_LINES);
    REFUSAL(TooManyLines, TOO_MANY_LINES);
    REFUSAL(NoDays, NO_DAYS);
    REFUSAL(PartOfCall, PART_OF_CALL);
    REFUSAL(UnknownCall, UNKNOWN_CALL);
    REFUSAL(FewRefusalWords, FEW_REFUSAL_WORDS);
}

static void codes(void) {
    static const char *const orphans[] = {[FLOWPEWTER_ORPHAN_IGNORE] = "Ignore",
                                          [FLOWPEWTER_ORPHAN_ERROR] = "Error",
                                          [FLOWPEWTER_ORPHAN_ADOPT] = "Adopt",
                                          [FLOWPEWTER_ORPHAN_ROOT] = "Root"};
    static const char *const multis[] = {
        [FLOWPEWTER_MULTI_ALLOW] = "Allow", [FLOWPEWTER_MULTI_LEAVES] = "Leaves", [FLOWPEWTER_MULTI_ERROR] = "Error"};
    static const char *const cycles[] = {[FLOWPEWTER_CYCLE_BREAK_UP] = "BreakUp", [FLOWPEWTER_CYCLE_ERROR] = "Error"};
    for (int orphan = 0; orphan < 4; orphan++) {
        for (int multi = 0; multi < 3; multi++) {
            for (int cycle = 0; cycle < 2; cycle++) {
                printf("%s %s %s %u\n", orphans[orphan], multis[multi], cycles[cycle],
                       (unsigned)FLOWPEWTER_CODE(orphan, multi, cycle));
            }
        }
    }
    printf("default %u\n", (unsigned)FLOWPEWTER_DEFAULT_CODE);
}

static void words(void) {
    printf("call %d\ncall %d\ncall %d\ncall %d\ncall %d\n", FLOWPEWTER_CALL_ADD, FLOWPEWTER_CALL_WITHDRAW,
           FLOWPEWTER_CALL_REMARK, FLOWPEWTER_CALL_UNDO, FLOWPEWTER_CALL_REDO);
    printf("body [%d, %d, %d, %d, %d, %d]\n", FLOWPEWTER_BODY_NUMERAL, FLOWPEWTER_BODY_ROW, FLOWPEWTER_BODY_SIZE,
           FLOWPEWTER_BODY_PARENT, FLOWPEWTER_BODY_ROOT, FLOWPEWTER_BODY_LEVEL);
}

int main(void) {
    structs();
    constants();
    refusals();
    codes();
    words();
    return 0;
}
