/* Flowpewter: parts lists with undo and redo, their forest of paths as an index, navigation and sums.
 *
 * A board holds rows, each with a numeral and the numeral of its parent. A path is a chain of rows from a start row
 * down, each under the numeral of the row before; it is a node of its last row. So a part that is shown in three places
 * is three nodes, each with all that is below it. A build writes the nodes into an index, in the order of their ranks,
 * which begin at 1: a node comes before the nodes below it, and siblings by their order, then by their numeral, then by
 * their row number, the smaller first. Rows that no path from a start row reaches are orphans, as a part is whose
 * parent isn't drawn yet: by default they have paths of their own behind all others (flowpewter_build_default), and an
 * option code has them adopted, left over or refused (flowpewter_build). For a list of numerals, another build has each
 * numeral once, where it is closest to a start row (flowpewter_build_shortest). A row also has days, its first and its
 * last: a dated build has the paths whose rows have days in common, as the parts were in a window of days
 * (flowpewter_build_dated). An index is also built from a levelled list, whose columns are levels, as large makers send
 * it (flowpewter_build_levelled). The other calls look into an index by rank; and where one row gets other minutes, one
 * brings the totals up to date without a build (flowpewter_pull). docs/INDEX-FORMAT.md has examples, word by word.
 *
 * Link with crates/flowpewter/out/libflowpewter.a, which `rt lib --cpu=x86-64` makes in crates/flowpewter. It is
 * compiled for x86-64 Linux (System V calls, any x86-64 processor, position-independent) and for nothing else; of the C
 * library it takes memcpy, memmove and memset alone.
 *
 * Nothing is allocated, no state is kept, and any number of threads may call at once. Every call takes every argument:
 * what can't be done is refused by a number, and nothing is read or written outside the slices. What follows is all
 * that a caller must see to.
 *
 * Slices. A slice is a pointer and a number of elements. With length 0 the pointer may be anything, NULL too, and is
 * not used; that also holds for a list that isn't read. With any other length it must point to that many elements,
 * even if the call is refused or ignores them. No slice that a call writes may overlap another slice of the call.
 *
 * Stack. Boards are passed and returned by value, and working space is on the stack. No call takes 256 KB of it.
 * Measured by tests/stack.c: a replay 206 KB, an edit 168 KB, a build of a board 149 KB, flowpewter_sound 83 KB,
 * flowpewter_empty 41 KB, a build of a levelled list 15 KB, any other call next to nothing; a board in a variable of
 * your own is 41 KB more. The usual 8 MB of a Linux thread is plenty. A thread with a small stack is not: musl gives
 * 128 KiB where nothing is said, and an edit or a build would run over its end. There, ask for 512 KB by
 * pthread_attr_setstacksize.
 *
 * Comparing boards. Two boards are the same when their counts, their first `count` rows, their kept and undone numbers
 * and their first `kept + undone` journal entries are; of an entry that takes a row out, `row` isn't read and doesn't
 * count. Don't compare boards by memcmp: places beyond those hold what was left there, and flowpewter_edited and
 * flowpewter_replayed have padding.
 */
#ifndef FLOWPEWTER_H
#define FLOWPEWTER_H

#include <stdbool.h>
#include <stddef.h>
#include <stdint.h>

#ifdef __cplusplus
extern "C" {
#endif

/* Why a call was refused; 0 is no refusal. Of the reasons that hold, the one with the smallest number is given; but a
 * levelled list is refused by 18 and 19 before 9, an added row by 20 after 2 and before 3, and a dated build by 20
 * after 6 and before 7.
 *
 * A refused edit returns the board it got. A refused build zeroes its slices, the days of a dated one too, and its two
 * counts. A refused navigation or sum writes nothing and returns counts and sums of 0; a refused meeting isn't found,
 * and a refused climber stays. A refused pull leaves all totals as they were. A refused replay writes nothing and
 * returns no calls and the empty board. */
enum {
    FLOWPEWTER_REFUSED_UNSOUND_BOARD = 1,      /* the board isn't sound: see flowpewter_sound */
    FLOWPEWTER_REFUSED_NUMERAL_ZERO = 2,       /* an added row has numeral 0 */
    FLOWPEWTER_REFUSED_FULL_BOARD = 3,         /* a row is added to 1,024 rows */
    FLOWPEWTER_REFUSED_NO_SUCH_ROW = 4,        /* a withdrawn or remarked row number is 0 or above the count, or a
                                                  pulled one is 0 */
    FLOWPEWTER_REFUSED_NOTHING_KEPT = 5,       /* undo finds no kept step */
    FLOWPEWTER_REFUSED_UNKNOWN_CODE = 6,       /* the option code is above 23 */
    FLOWPEWTER_REFUSED_DEPTH_WITH_ORPHANS = 7, /* a depth is given and orphans aren't ignored; a dated build is refused
                                                  where they aren't, with a depth or without */
    FLOWPEWTER_REFUSED_NO_START_ROW = 8,       /* there is an orphan to adopt, on an island or not, and no start row to
                                                  adopt it */
    FLOWPEWTER_REFUSED_TOO_MANY_NODES = 9,     /* over 65,535 nodes, or more than the index, the totals or the days of a
                                                  dated build hold: FLOWPEWTER_INDEX_LEN, FLOWPEWTER_TOTALS_LEN and
                                                  FLOWPEWTER_DAYS_LEN say what they need */
    FLOWPEWTER_REFUSED_CLOSING_NODE = 10,      /* a node closes a cycle, under FLOWPEWTER_CYCLE_ERROR; below every
                                                  entry one does */
    FLOWPEWTER_REFUSED_SHARED_NUMERAL = 11,    /* two nodes share a numeral, under FLOWPEWTER_MULTI_ERROR; or a node
                                                  with nodes below it shares its numeral, under
                                                  FLOWPEWTER_MULTI_LEAVES; every entry does */
    FLOWPEWTER_REFUSED_UNREACHED_ROW = 12,     /* no path from a start row ends with some row, under
                                                  FLOWPEWTER_ORPHAN_ERROR */
    FLOWPEWTER_REFUSED_NO_INDEX = 13,          /* the index has under 8 words, word 1 isn't 8, word 2 isn't 6, word 0 is
                                                  over 65,535 or more nodes than fit, or a sum or a pull gets fewer
                                                  totals than nodes and one more */
    FLOWPEWTER_REFUSED_NO_SUCH_RANK = 14,      /* a rank is 0 or above the number of nodes */
    FLOWPEWTER_REFUSED_DAMAGED_INDEX = 15,     /* a span, descendants or subtree sum is of a node with size 0 or an end
                                                  above the number of nodes; a way up meets a parent rank that isn't
                                                  below its own; siblings by hops meet a size of 0, or their parent
                                                  has one, or its rank or end is above the number of nodes; a total
                                                  used is beyond 2^47 either side; a node's own minutes used in a path
                                                  sum leave int32_t; or a total is beyond 2^47 before a pull, or would
                                                  come beyond it */
    FLOWPEWTER_REFUSED_LIST_TOO_LONG = 16,     /* the list found is longer than its slice */
    FLOWPEWTER_REFUSED_NOTHING_UNDONE = 17,    /* redo finds no undone step */
    FLOWPEWTER_REFUSED_NOT_WHOLE_LINES = 18,   /* a levelled list has a width of 0 or above 8, or the number of its
                                                  cells isn't a multiple of the width */
    FLOWPEWTER_REFUSED_TOO_MANY_LINES = 19,    /* a levelled list has more than 512 lines */
    FLOWPEWTER_REFUSED_NO_DAYS = 20,           /* the first day of an added row, or of a window, is after its last */
    /* by flowpewter_replay as a whole; what it says of each call is one of the above */
    FLOWPEWTER_REFUSED_PART_OF_CALL = 101,     /* the words are no whole number of calls */
    FLOWPEWTER_REFUSED_UNKNOWN_CALL = 102,     /* a call is of no known kind */
    FLOWPEWTER_REFUSED_FEW_REFUSAL_WORDS = 103 /* there are fewer refusal words than calls */
};

/* ---- boards; refusals 1 to 5, 17 and 20 */

enum {
    FLOWPEWTER_MAX_ROWS = 1024,     /* places for rows on a board */
    FLOWPEWTER_MAX_KEPT = 256,      /* most steps kept, to be undone */
    FLOWPEWTER_MAX_UNDONE = 256,    /* most steps undone, to be redone */
    FLOWPEWTER_JOURNAL_PLACES = 512 /* places for journal entries on a board */
};

/* The last day there is. Days are numbered from 0; what day 0 is, callers agree among themselves. */
#define FLOWPEWTER_LAST_DAY UINT32_C(4294967295)

/* A row: parent 0 is none, the numeral is 1 or more, minutes are negative for a deduction. Its days are those from the
 * first to the last, both included; builds without a window don't read them. A row without days given must have all
 * days, 0 and FLOWPEWTER_LAST_DAY: flowpewter_undated_row makes one. Don't leave the last two out of an initializer,
 * which would make both 0. */
typedef struct flowpewter_row {
    uint32_t parent;
    uint32_t numeral;
    uint32_t order;
    int32_t minutes;
    uint32_t first_day;
    uint32_t last_day;
} flowpewter_row;

/* A row entered without days: all days are its days. */
static inline flowpewter_row flowpewter_undated_row(uint32_t parent, uint32_t numeral, uint32_t order,
                                                    int32_t minutes) {
    flowpewter_row row = {parent, numeral, order, minutes, 0, FLOWPEWTER_LAST_DAY};
    return row;
}

/* Kinds of journal entry. An entry of another kind can't be carried out. */
enum {
    FLOWPEWTER_ENTRY_TAKE_OUT = 0, /* takes out the row at place `at`; later rows move up by one */
    FLOWPEWTER_ENTRY_PUT_IN = 1,   /* puts `row` in at place `at`; the row there and later ones move down by one */
    FLOWPEWTER_ENTRY_SET = 2       /* makes place `at` hold `row` */
};

/* A change of the rows, which an undo or a redo carries out. `at` is a place, counted from 0. An entry can be carried
 * out when its place is there (`at` below the count; to put in, at most the count) and the rows afterwards are at most
 * 1,024, each with numeral 1 or more. Of an entry that takes a row out, edits make `row` that row, and nothing reads
 * it. */
typedef struct flowpewter_entry {
    uint32_t kind;
    uint32_t at;
    flowpewter_row row;
} flowpewter_entry;

/* A board: `count` rows, and a journal that is one tape with a cursor. The first `kept` entries are the steps to undo,
 * oldest first; the next `undone` entries are the steps to redo, newest first. So an undo carries out journal[kept - 1]
 * and a redo journal[kept]; each leaves the entry that leads back in that place, and moves the cursor over it. Where a
 * 257th step is kept, by an add, withdraw, remark or redo, the entries move up by one first and the oldest goes.
 *
 * Row numbers are counted from 1: row number k is rows[k - 1]. A board may come from anywhere; a call on one that isn't
 * sound is refused. */
typedef struct flowpewter_board {
    size_t count;
    flowpewter_row rows[FLOWPEWTER_MAX_ROWS];
    size_t kept;
    size_t undone;
    flowpewter_entry journal[FLOWPEWTER_JOURNAL_PLACES];
} flowpewter_board;

typedef struct flowpewter_edited {
    flowpewter_board board;
    uint32_t refusal;
} flowpewter_edited;

/* The board of no rows and no steps. */
flowpewter_board flowpewter_empty(void);

/* Whether the count is at most 1,024, the kept number and the undone number at most 256 each, every held row has
 * numeral 1 or more, and the newest kept entry and the newest undone one (if any) can each be carried out on the held
 * rows. Every board that edits make from the empty one is sound. Older entries aren't looked at: on a board from
 * elsewhere an undo or a redo can leave one that isn't sound. Nor are days: on a board from elsewhere the first day of
 * a row may be after its last, and such a row is on no path of a dated build. */
bool flowpewter_sound(flowpewter_board board);

/* An accepted add, withdraw or remark becomes the newest kept step; of 257 the oldest is forgotten, and so are all
 * undone steps. */

/* Puts the row at the end. 1, 2, 20, 3. */
flowpewter_edited flowpewter_add(flowpewter_board board, flowpewter_row row);

/* Takes out row number k; later rows move up by one. 1, 4. */
flowpewter_edited flowpewter_withdraw(flowpewter_board board, size_t k);

/* Gives row number k new minutes; its days stay. 1, 4. */
flowpewter_edited flowpewter_remark(flowpewter_board board, size_t k, int32_t minutes);

/* Goes back to the rows before the newest kept step, which becomes the newest undone one and can be redone. 1, 5. */
flowpewter_edited flowpewter_undo(flowpewter_board board);

/* Goes forward to the rows after the newest undone step, which becomes the newest kept one and can be undone. 1, 17.
 *
 * A board that edits make from the empty one has at most 256 steps, kept and undone together, so that undo and redo
 * forget none. On any other sound board an undo forgets the oldest undone step beyond 256, and a redo the oldest kept
 * one. */
flowpewter_edited flowpewter_redo(flowpewter_board board);

/* Edits as words, seven to a call: its kind, then what it takes; words that it doesn't use are ignored. */
enum {
    FLOWPEWTER_CALL_ADD = 0,      /* parent, numeral, order, minutes (the bits of an int32_t), first day, last day */
    FLOWPEWTER_CALL_WITHDRAW = 1, /* row number */
    FLOWPEWTER_CALL_REMARK = 2,   /* row number, minutes */
    FLOWPEWTER_CALL_UNDO = 3,
    FLOWPEWTER_CALL_REDO = 4,
    FLOWPEWTER_CALL_WORDS = 7
};

typedef struct flowpewter_replayed {
    uint32_t refusal;
    size_t calls;
    flowpewter_board board;
} flowpewter_replayed;

/* Runs a list of edits from the empty board. The refusal of each, 0 for none, goes to the front of `refusals`; the rest
 * of it stays. 101, 102, 103. */
flowpewter_replayed flowpewter_replay(const uint32_t *words, size_t words_len, uint32_t *refusals, size_t refusals_len);

/* ---- builds; refusals 1 and 6 to 12, by default and of the shortest placement 1 and 9, dated 1, 6, 20, 7 and 9 to 11,
 * of levelled lists 18, 19, 9 */

/* The index: a table of contents, then a body for each node, in the order of their ranks. */
enum {
    FLOWPEWTER_MAX_NODES = 65535, /* most nodes of an index */
    FLOWPEWTER_CONTENTS = 8,      /* words of the table of contents: node count, 8, 6, the sum of all words of bodies
                                     wrapping at 2^32, four zeros */
    FLOWPEWTER_BODY = 6           /* words of a body */
};

/* The words of a body. */
enum {
    FLOWPEWTER_BODY_NUMERAL = 0,
    FLOWPEWTER_BODY_ROW = 1,    /* number of the row that the node's path ends with; 0 for an entry, which is no row; of
                                   a levelled list the place, from 1, of the first sorted line that has the beginning */
    FLOWPEWTER_BODY_SIZE = 2,   /* the node and all nodes below it */
    FLOWPEWTER_BODY_PARENT = 3, /* rank of the parent, 0 for a root */
    FLOWPEWTER_BODY_ROOT = 4,   /* rank of the root above the node */
    FLOWPEWTER_BODY_LEVEL = 5   /* level in bits 0 to 15: of a board 1 for a root, else the parent's and 1; of a
                                   levelled list the number of the column, from 1; flags in bits 30 and 31 */
};

#define FLOWPEWTER_LEVEL_MASK UINT32_C(0xffff)
#define FLOWPEWTER_CLOSING_BIT (UINT32_C(1) << 30) /* the path closes a cycle: its last numeral stands on it before; an
                                                      entry's counts, that of the row that adopts does not */
#define FLOWPEWTER_ORPHAN_BIT (UINT32_C(1) << 31)  /* the node is on an orphan's path, or on one that begins with an
                                                      entry */

/* Words of an index of so many nodes, the number of its totals, and where the body of a rank begins. */
#define FLOWPEWTER_INDEX_LEN(nodes) (FLOWPEWTER_CONTENTS + FLOWPEWTER_BODY * (size_t)(nodes))
#define FLOWPEWTER_TOTALS_LEN(nodes) ((size_t)(nodes) + 1)
#define FLOWPEWTER_BODY_AT(rank) (FLOWPEWTER_CONTENTS + FLOWPEWTER_BODY * ((size_t)(rank) - 1))

/* Words of the days of so many nodes of a dated build, and where the first day of a rank stands; the last day is the
 * word behind it. */
#define FLOWPEWTER_DAYS_LEN(nodes) (2 * (size_t)(nodes))
#define FLOWPEWTER_DAYS_AT(rank) (2 * ((size_t)(rank) - 1))

/* What becomes of orphans, rows that no path from a start row reaches.
 *
 * Under adopt and root every row ends a node. First come the orphans without a parent among the rows, each with all
 * that is below it. The orphans that are left then are islands: rings of rows with no way in, and what hangs from them.
 * They join the tree by entries. An entry is a node without a row: its row number is 0, and it has 0 minutes. Its
 * numeral is that of the row with the lowest number, of the rows left, whose numeral lies on a ring of rows left. All
 * that is below that numeral by rows left is below the entry; a row there that has the numeral too closes a cycle. The
 * next entry follows in the same way, until no row is left. */
enum {
    FLOWPEWTER_ORPHAN_IGNORE = 0, /* they are left over */
    FLOWPEWTER_ORPHAN_ERROR = 1,  /* the build is refused */
    FLOWPEWTER_ORPHAN_ADOPT = 2,  /* those without a parent among the rows hang from the last start row, behind all that
                                     is below it; entries hang there behind them, in the order made */
    FLOWPEWTER_ORPHAN_ROOT = 3    /* those without a parent among the rows are roots after all others; entries are roots
                                     after them, in the order made */
};

/* Whether nodes may share a numeral. */
enum {
    FLOWPEWTER_MULTI_ALLOW = 0,  /* they may */
    FLOWPEWTER_MULTI_LEAVES = 1, /* only nodes with nothing below them may */
    FLOWPEWTER_MULTI_ERROR = 2   /* the build is refused if any do */
};

/* What becomes of a path that comes back to a numeral it has. */
enum {
    FLOWPEWTER_CYCLE_BREAK_UP = 0, /* it ends there, with a closing node */
    FLOWPEWTER_CYCLE_ERROR = 1     /* the build is refused */
};

/* The option code of three choices. */
#define FLOWPEWTER_CODE(orphan, multi, cycle) ((uint32_t)(orphan) + 4 * (uint32_t)(multi) + 12 * (uint32_t)(cycle))

typedef struct flowpewter_built {
    uint32_t refusal;
    uint32_t nodes;
    uint32_t left; /* rows that end no node, 0 where orphans aren't ignored; of the shortest placement also rows whose
                      numeral stands by another row; of a dated build also rows without days left; of a levelled list
                      the lines wholly blank */
} flowpewter_built;

/* Builds the index of the board's paths, and the running totals of their minutes: 0, then the minutes added node by
 * node, those of its row or 0 for an entry. Words and totals beyond stay.
 *
 * With has_depth, a path has at most depth + 1 rows, and none if depth is negative; else depth is ignored. With
 * by_list, paths start from rows whose numeral is in the list; else from rows with parent 0, and the list is ignored.
 */
flowpewter_built flowpewter_build(flowpewter_board board, uint32_t code, bool has_depth, int32_t depth, bool by_list,
                                  const uint32_t *list, size_t list_len, uint32_t *index, size_t index_len,
                                  int64_t *totals, size_t totals_len);

/* The option code of a build by default, 3: orphans are roots, numerals may be shared, cycles are broken up. */
#define FLOWPEWTER_DEFAULT_CODE                                                                                        \
    FLOWPEWTER_CODE(FLOWPEWTER_ORPHAN_ROOT, FLOWPEWTER_MULTI_ALLOW, FLOWPEWTER_CYCLE_BREAK_UP)

/* The same with FLOWPEWTER_DEFAULT_CODE, no depth, paths starting from rows with parent 0. Every row ends a node, also
 * one whose parent isn't among the rows: none is left over. Who wants only what hangs from start rows, or a depth,
 * calls flowpewter_build with FLOWPEWTER_ORPHAN_IGNORE, code 0. 1, 9. */
flowpewter_built flowpewter_build_default(flowpewter_board board, uint32_t *index, size_t index_len, int64_t *totals,
                                          size_t totals_len);

/* Builds the index of the board's shortest placement: each numeral that a path from a start row reaches once, as close
 * to a start row as it can stand. Words and totals beyond stay. 1, 9.
 *
 * Of all paths of any length that end with a row of the numeral, the one with fewest rows is kept, and of several the
 * first by rank: by the first row in which they differ, the one that comes first among siblings. The nodes are the kept
 * paths; every beginning of a kept path is one too. No node closes and orphans are left over, so that all flags are 0;
 * there are at most as many nodes as rows, and all that is below a node or summed is over the kept paths alone. A row
 * ends no node where no path reaches it, or where its numeral stands by another row. The start rule is that of
 * flowpewter_build. */
flowpewter_built flowpewter_build_shortest(flowpewter_board board, bool by_list, const uint32_t *list, size_t list_len,
                                           uint32_t *index, size_t index_len, int64_t *totals, size_t totals_len);

/* Builds the index of the board's paths as they were in a window of days, first_day to last_day, both included; their
 * running totals; and the days of each node, the first and the last, two words a node in the order of their ranks.
 * Words and totals beyond stay. 1, 6, 20, 7, then 9 to 11; a refused one zeroes all three slices.
 *
 * A path's days are those that all its rows and the window have in common; it is a node only if there are any. So a
 * node's days are within its parent's, and nothing is below a path without days. What is refused, counted, listed and
 * summed is over the paths with days left: one without closes no cycle and shares no numeral.
 *
 * Code, depth and start rule are those of flowpewter_build, but only a code that ignores orphans is taken, code 0 for
 * one: any other is refused by 7, with a depth or without. The days of what hangs over a start row don't matter. */
flowpewter_built flowpewter_build_dated(flowpewter_board board, uint32_t code, bool has_depth, int32_t depth,
                                        bool by_list, const uint32_t *list, size_t list_len, uint32_t first_day,
                                        uint32_t last_day, uint32_t *index, size_t index_len, int64_t *totals,
                                        size_t totals_len, uint32_t *days, size_t days_len);

enum {
    FLOWPEWTER_MAX_WIDTH = 8,  /* most cells of a line */
    FLOWPEWTER_MAX_LINES = 512 /* most lines of a levelled list */
};

/* Builds the index of a levelled list: lines of `width` cells each, one behind the other, in any order. The column of a
 * cell is its level, and 0 is a blank. Words and totals beyond stay. No list has more than 4,096 nodes. 18, 19, then 9.
 *
 * The lines are sorted cell by cell, the smaller first and blanks last. Each distinct beginning of a line that ends in
 * a filled cell is a node; blanks before that cell are part of the beginning. Its numeral is that cell, its level the
 * column's number, its flags are 0. Its row number is the place, from 1, of the first line that has it among all sorted
 * lines, equal and blank ones too. Its parent is the longest shorter beginning that ends in a filled cell; where there
 * is none, it is a root, of whatever level. Ranks follow the lines, and on a line the columns. All totals are 0. */
flowpewter_built flowpewter_build_levelled(const uint32_t *cells, size_t cells_len, uint32_t width, uint32_t *index,
                                           size_t index_len, int64_t *totals, size_t totals_len);

/* ---- navigation of any slices, built here or not; refusals 13 to 16, of a pull 4, 13 and 15. Ranks are counted from
 * 1. Distance is the listed node's level less that of the rank given; lo and hi are included, and a lo above hi lists
 * nothing. Lists go to the front of `out`; the rest of it stays. */

typedef struct flowpewter_span_answer {
    uint32_t refusal;
    size_t start; /* first word in the index slice, counted from 0; 0 if refused */
    size_t words; /* 0 if refused */
} flowpewter_span_answer;

typedef struct flowpewter_listed {
    uint32_t refusal;
    size_t len;
} flowpewter_listed;

typedef struct flowpewter_climbed {
    uint32_t refusal;
    size_t len;
    size_t links; /* parent links followed, those to rank 0 not counted: on an index built from a board the level less
                     1, on one of a levelled list the number of shorter beginnings that are nodes */
} flowpewter_climbed;

typedef struct flowpewter_hopped {
    uint32_t refusal;
    size_t len;
    size_t hops; /* one for each rank listed: where flowpewter_index_check accepts the index, the number of siblings */
} flowpewter_hopped;

typedef struct flowpewter_meeting {
    uint32_t refusal;
    bool found;    /* false where there is no such rank, and if refused */
    uint32_t rank; /* 0 where it isn't found */
} flowpewter_meeting;

typedef struct flowpewter_climbed_one {
    uint32_t refusal;
    bool root;     /* whether the climber is at a root, where it stays */
    uint32_t rank; /* where the climber has come to, the parent; at a root, or if refused, the rank it was at */
} flowpewter_climbed_one;

typedef struct flowpewter_summed {
    uint32_t refusal;
    int64_t sum;
} flowpewter_summed;

/* Where the bodies of a node and all nodes below it, ranks r to r + size - 1, stand in the index. 13, 14, 15. */
flowpewter_span_answer flowpewter_span(const uint32_t *index, size_t index_len, uint32_t rank);

/* The ranks of that span within the limits, rising. 13 to 16. */
flowpewter_listed flowpewter_descendants(const uint32_t *index, size_t index_len, uint32_t rank, int32_t lo, int32_t hi,
                                         uint32_t *out, size_t out_len);

/* The node, then parent after parent up to rank 0; those within the limits are listed. On a built index distances are 0
 * or less. 13 to 16. */
flowpewter_climbed flowpewter_ancestors(const uint32_t *index, size_t index_len, uint32_t rank, int32_t lo, int32_t hi,
                                        uint32_t *out, size_t out_len);

/* All ranks with the same parent rank, the node included, rising; roots are siblings. It reads the whole index, and is
 * the call for one that nobody checked. 13, 14, 16. */
flowpewter_listed flowpewter_siblings(const uint32_t *index, size_t index_len, uint32_t rank, uint32_t *out,
                                      size_t out_len);

/* Siblings by hops: the first is the rank after the parent's, rank 1 for roots, and each hop goes by the size of a tree
 * to the rank after it, up to the parent's end, or to the last node. It reads the node, its parent and the siblings
 * alone, and is the call for a panel that redraws siblings at each click; where a large part of all nodes are siblings,
 * flowpewter_siblings takes less time. 13 to 16.
 *
 * On an index that flowpewter_index_check accepts, as it does every built one, both calls list the same. On any other
 * the lists may differ, since sizes alone say which ranks are met: ranks with another parent rank may be listed, and
 * the node itself may be missing. */
flowpewter_hopped flowpewter_siblings_by_hops(const uint32_t *index, size_t index_len, uint32_t rank, uint32_t *out,
                                              size_t out_len);

/* Where two nodes meet: the smallest assembly that holds both parts, for the caption of a leader that joins them. Of
 * all ranks that are ancestors of both nodes, themselves included, it is the largest; none is found exactly where there
 * is no such rank. The two may be the same, or one above the other, in either order. The time is that of the two
 * climbs, however large the index is. Both run to rank 0: above the meeting place, too, a parent rank that isn't below
 * its own is refused. 13, 14, 15.
 *
 * On every built index the answer is the longest common beginning of the two nodes' paths that is a node, and there is
 * none exactly where their root ranks differ. */
flowpewter_meeting flowpewter_meet(const uint32_t *index, size_t index_len, uint32_t a, uint32_t b);

/* One call of a climber: from a rank up to its parent. The caller keeps the index and the rank, and passes the answered
 * rank to the next call. At a root the climber says so and stays; a refused one stays, too. Only the link that it
 * follows is judged, none further up. 13, 14, 15.
 *
 * Where two nodes meet, a climber from either comes through the rank that flowpewter_meet answers, or starts there. */
flowpewter_climbed_one flowpewter_climb(const uint32_t *index, size_t index_len, uint32_t rank);

/* The minutes of the node and all nodes below it. 13, 14, 15. */
flowpewter_summed flowpewter_subtree_sum(const uint32_t *index, size_t index_len, const int64_t *totals,
                                         size_t totals_len, uint32_t rank);

/* The minutes of the node and all its ancestors. 13, 14, 15. */
flowpewter_summed flowpewter_path_sum(const uint32_t *index, size_t index_len, const int64_t *totals, size_t totals_len,
                                      uint32_t rank);

/* The pull of one part: corrects the totals for new minutes of one row, without a build. Each node that ends in the row
 * gets `difference` more minutes, less if it is negative: the totals from that node on move by it, so that each of the
 * n + 1 totals of n nodes moves by the difference times the number of nodes up to its rank that end in the row. A row
 * number that no node has changes nothing. The index isn't written, nor are totals beyond the n + 1, which aren't
 * judged either. Answers the refusal, 0 for none. 4, 13, 15.
 *
 * Refused by 15 is what would leave a total that sums don't take: where any of the n + 1 totals is beyond 2^47 either
 * side, even if no node has the row or the difference is 0, or would come beyond it; 2^47 itself is allowed. The totals
 * are judged as they move, and those moved are moved back before the call answers 15. Nothing overflows, whatever the
 * difference.
 *
 * It is the call after flowpewter_remark, and after an undo or a redo of one: with the new minutes less the old,
 * (int64_t)new_minutes - old_minutes, the totals that any build of the board left become those of a new build with the
 * same options, and the index is that of the new build already, as are the days of a dated one. Where the row's minutes
 * and the difference together fit int32_t, a pull of what a build left is never refused by 15. Any other edit wants a
 * new build. On an index of a levelled list the row is a line, by its place among the sorted ones.
 *
 * The time is linear in the number of nodes, however many of them end in the row: row numbers and totals are gone
 * through once, and where the call is refused by 15 those up to the total that it is refused for once more. It takes
 * next to no stack. */
uint32_t flowpewter_pull(const uint32_t *index, size_t index_len, int64_t *totals, size_t totals_len, uint32_t row,
                         int64_t difference);

/* Whether the slice holds an index whose words agree with each other, as every index that an accepted build leaves
 * does. A root may have any level from 1, any other node any above its parent's. */
bool flowpewter_index_check(const uint32_t *index, size_t index_len);

#ifdef __cplusplus
}
#endif

#endif
