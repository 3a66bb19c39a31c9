/* How much stack each call takes, beyond what a thread that does nothing takes: on a stack painted beforehand, the
 * deepest byte that is no longer paint. Board, slices and results are static; the copy of a board that a caller hands
 * over is counted. Fails where a call takes 256 KB or more, or answers wrongly. */
#define _POSIX_C_SOURCE 200809L
#include "flowpewter.h"
#include <pthread.h>
#include <stdio.h>
#include <stdlib.h>
#include <string.h>

enum {
    NODES = FLOWPEWTER_MAX_ROWS,
    WORDS = FLOWPEWTER_INDEX_LEN(NODES),
    TOTALS = FLOWPEWTER_TOTALS_LEN(NODES),
    DAYS = FLOWPEWTER_DAYS_LEN(NODES),
    CALLS = NODES + 5,
    CALL_WORDS = FLOWPEWTER_CALL_WORDS * CALLS,
    CELLS = FLOWPEWTER_MAX_WIDTH * FLOWPEWTER_MAX_LINES,
    WIDE_WORDS = FLOWPEWTER_INDEX_LEN(CELLS),
    WIDE_TOTALS = FLOWPEWTER_TOTALS_LEN(CELLS),
    STACK = 8 << 20,
    MOST = 256000,
    PAINT = 0xA5
};

/* A chain of 1,024 rows, the deepest forest, and a journal with all its places in use. */
static flowpewter_board board;
static uint32_t words[WORDS];
static int64_t totals[TOTALS];
static uint32_t days[DAYS];
static uint32_t list[NODES];
/* Adds that fill a board, then each other kind of call. */
static uint32_t calls[CALL_WORDS];
static uint32_t refusals[CALLS];
/* The largest levelled list, no cell of which is blank: each is a node. The last line comes first. */
static uint32_t cells[CELLS];
static uint32_t wide_words[WIDE_WORDS];
static int64_t wide_totals[WIDE_TOTALS];

static flowpewter_board made;
static flowpewter_edited edited;
static flowpewter_replayed replayed;
static uint32_t refusal;
static int64_t answer;

static void nothing(void) {}

static void empty(void) { made = flowpewter_empty(); }

static void sound(void) { answer = flowpewter_sound(board); }

static void add(void) {
    edited = flowpewter_add(board, flowpewter_undated_row(0, 1, 1, 1));
    refusal = edited.refusal;
}

static void withdraw(void) {
    edited = flowpewter_withdraw(board, 1);
    refusal = edited.refusal;
    answer = (int64_t)edited.board.count;
}

static void remark(void) {
    edited = flowpewter_remark(board, NODES, 7);
    refusal = edited.refusal;
    answer = edited.board.rows[NODES - 1].minutes;
}

static void undo(void) {
    edited = flowpewter_undo(board);
    refusal = edited.refusal;
    answer = (int64_t)edited.board.kept;
}

static void redo(void) {
    edited = flowpewter_redo(board);
    refusal = edited.refusal;
    answer = (int64_t)edited.board.undone;
}

static void replay(void) {
    replayed = flowpewter_replay(calls, CALL_WORDS, refusals, CALLS);
    refusal = replayed.refusal;
    answer = (int64_t)replayed.board.count;
    for (size_t i = 0; i < CALLS; i++) {
        refusal |= refusals[i];
    }
}

static void build(void) {
    flowpewter_built built = flowpewter_build_default(board, words, WORDS, totals, TOTALS);
    refusal = built.refusal;
    answer = built.nodes;
}

static void build_by_list(void) {
    static const uint32_t start[] = {1};
    const uint32_t code = FLOWPEWTER_CODE(FLOWPEWTER_ORPHAN_ROOT, FLOWPEWTER_MULTI_ERROR, FLOWPEWTER_CYCLE_ERROR);
    flowpewter_built built = flowpewter_build(board, code, false, 0, true, start, 1, words, WORDS, totals,
                                              TOTALS);
    refusal = built.refusal;
    answer = built.nodes;
}

static void build_shortest(void) {
    static const uint32_t start[] = {1};
    flowpewter_built built = flowpewter_build_shortest(board, true, start, 1, words, WORDS, totals, TOTALS);
    refusal = built.refusal;
    answer = built.nodes;
}

static void build_dated(void) {
    static const uint32_t start[] = {1};
    const uint32_t code = FLOWPEWTER_CODE(FLOWPEWTER_ORPHAN_IGNORE, FLOWPEWTER_MULTI_ERROR, FLOWPEWTER_CYCLE_ERROR);
    flowpewter_built built = flowpewter_build_dated(board, code, true, NODES, true, start, 1, 0, FLOWPEWTER_LAST_DAY,
                                                    words, WORDS, totals, TOTALS, days, DAYS);
    refusal = built.refusal;
    answer = built.nodes;
}

static void build_levelled(void) {
    flowpewter_built built = flowpewter_build_levelled(cells, CELLS, FLOWPEWTER_MAX_WIDTH, wide_words, WIDE_WORDS,
                                                       wide_totals, WIDE_TOTALS);
    refusal = built.refusal;
    answer = built.nodes;
}

static void span(void) {
    flowpewter_span_answer found = flowpewter_span(words, WORDS, 1);
    refusal = found.refusal;
    answer = (int64_t)found.words;
}

static void descendants(void) {
    flowpewter_listed found = flowpewter_descendants(words, WORDS, 1, INT32_MIN, INT32_MAX, list, NODES);
    refusal = found.refusal;
    answer = (int64_t)found.len;
}

static void ancestors(void) {
    flowpewter_climbed found = flowpewter_ancestors(words, WORDS, NODES, INT32_MIN, INT32_MAX, list, NODES);
    refusal = found.refusal;
    answer = (int64_t)found.links;
}

static void siblings(void) {
    flowpewter_listed found = flowpewter_siblings(words, WORDS, NODES, list, NODES);
    refusal = found.refusal;
    answer = (int64_t)found.len;
}

static void siblings_by_hops(void) {
    flowpewter_hopped found = flowpewter_siblings_by_hops(words, WORDS, NODES, list, NODES);
    refusal = found.refusal;
    answer = (int64_t)found.hops;
}

static void meet(void) {
    flowpewter_meeting found = flowpewter_meet(words, WORDS, NODES / 2, NODES);
    refusal = found.refusal;
    answer = found.rank;
}

static void climb(void) {
    flowpewter_climbed_one found = flowpewter_climb(words, WORDS, NODES);
    refusal = found.refusal;
    answer = found.rank;
}

static void subtree_sum(void) {
    flowpewter_summed found = flowpewter_subtree_sum(words, WORDS, totals, TOTALS, 1);
    refusal = found.refusal;
    answer = found.sum;
}

static void path_sum(void) {
    flowpewter_summed found = flowpewter_path_sum(words, WORDS, totals, TOTALS, NODES);
    refusal = found.refusal;
    answer = found.sum;
}

/* Of the last node's row, by the widest difference that the limit of use leaves. */
static void pull(void) {
    refusal = flowpewter_pull(words, WORDS, totals, TOTALS, NODES, (INT64_C(1) << 47) - NODES);
    answer = totals[NODES];
}

static void index_check(void) { answer = flowpewter_index_check(words, WORDS); }

/* In this order: what a build leaves is navigated after it. */
static const struct job {
    const char *name;
    void (*call)(void);
    uint32_t refusal;
    int64_t answer;
} jobs[] = {
    {"empty", empty, 0, 0},
    {"sound", sound, 0, 1},
    {"add", add, FLOWPEWTER_REFUSED_FULL_BOARD, 0},
    {"withdraw", withdraw, 0, NODES - 1},
    {"remark", remark, 0, 7},
    {"undo", undo, 0, FLOWPEWTER_MAX_KEPT - 1},
    {"redo", redo, 0, FLOWPEWTER_MAX_UNDONE - 1},
    {"replay", replay, 0, NODES - 1},
    {"build_default", build, 0, NODES},
    {"build", build_by_list, 0, NODES},
    {"build_shortest", build_shortest, 0, NODES},
    {"build_dated", build_dated, 0, NODES},
    {"build_levelled", build_levelled, 0, CELLS},
    {"span", span, 0, FLOWPEWTER_BODY * NODES},
    {"descendants", descendants, 0, NODES},
    {"ancestors", ancestors, 0, NODES - 1},
    {"siblings", siblings, 0, 1},
    {"siblings_by_hops", siblings_by_hops, 0, 1},
    {"meet", meet, 0, NODES / 2},
    {"climb", climb, 0, NODES - 1},
    {"subtree_sum", subtree_sum, 0, NODES},
    {"path_sum", path_sum, 0, NODES},
    {"pull", pull, 0, INT64_C(1) << 47},
    {"index_check", index_check, 0, 1},
};

static void *run(void *call) {
    (*(void (**)(void))call)();
    return NULL;
}

/* The bytes of a new thread's stack that a call changes. */
static size_t used(unsigned char *stack, void (*call)(void)) {
    pthread_attr_t own;
    pthread_t thread;
    memset(stack, PAINT, STACK);
    if (pthread_attr_init(&own) != 0 || pthread_attr_setstack(&own, stack, STACK) != 0 ||
        pthread_create(&thread, &own, run, &call) != 0 || pthread_join(thread, NULL) != 0) {
        exit(2);
    }
    size_t unused = 0;
    while (unused < STACK && stack[unused] == PAINT) {
        unused++;
    }
    return STACK - unused;
}

static void fill_board(void) {
    board.count = FLOWPEWTER_MAX_ROWS;
    for (uint32_t i = 0; i < NODES; i++) {
        board.rows[i] = flowpewter_undated_row(i, i + 1, 1, 1);
    }
    board.kept = FLOWPEWTER_MAX_KEPT;
    board.undone = FLOWPEWTER_MAX_UNDONE;
    for (size_t i = 0; i < FLOWPEWTER_JOURNAL_PLACES; i++) {
        board.journal[i] = (flowpewter_entry){FLOWPEWTER_ENTRY_SET, 0, board.rows[0]};
    }
}

static void fill_calls(void) {
    static const uint32_t others[CALLS - NODES][FLOWPEWTER_CALL_WORDS] = {
        {FLOWPEWTER_CALL_WITHDRAW, 1}, {FLOWPEWTER_CALL_REMARK, 1, 7}, {FLOWPEWTER_CALL_UNDO},
        {FLOWPEWTER_CALL_UNDO},        {FLOWPEWTER_CALL_REDO},
    };
    for (uint32_t i = 0; i < NODES; i++) {
        uint32_t *words_of_call = calls + FLOWPEWTER_CALL_WORDS * i;
        words_of_call[0] = FLOWPEWTER_CALL_ADD;
        words_of_call[2] = i + 1;
        words_of_call[6] = FLOWPEWTER_LAST_DAY;
    }
    memcpy(calls + FLOWPEWTER_CALL_WORDS * NODES, others, sizeof others);
}

static void fill_cells(void) {
    for (uint32_t i = 0; i < CELLS; i++) {
        cells[i] = CELLS - i;
    }
}

int main(void) {
    fill_board();
    fill_calls();
    fill_cells();
    unsigned char *stack = aligned_alloc(4096, STACK);
    if (stack == NULL) {
        return 2;
    }
    const size_t idle = used(stack, nothing);
    int wrong = 0;
    for (size_t i = 0; i < sizeof jobs / sizeof jobs[0]; i++) {
        const struct job *job = &jobs[i];
        refusal = 0;
        answer = 0;
        const size_t bytes = used(stack, job->call) - idle;
        const bool right = refusal == job->refusal && answer == job->answer && bytes < MOST;
        printf("stack: %s %zu bytes%s\n", job->name, bytes, right ? "" : ", WRONG");
        wrong |= !right;
    }
    return wrong;
}
