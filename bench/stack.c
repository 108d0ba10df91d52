/* The stack that each C function takes, in bytes: the program behind bench/stack. It prints a table in Markdown.
 *
 * Each call runs on a stack of its own that was painted with one byte throughout. After it, the lowest byte that does not have the paint any
 * more says how deep the call went. This is done once more with another paint, since a call may write the paint itself. What the same way takes
 * without a call is taken off, so a number is that of the call: what it is passed on the stack, its return address, and all frames below.
 *
 * Each input has to do what it is there for: another result, or a session without one of its answers, ends the run. */
#define _XOPEN_SOURCE 700
#include <inttypes.h>
#include <stdarg.h>
#include <stdio.h>
#include <stdlib.h>
#include <string.h>
#include <ucontext.h>
#include "mwelitunga.h"

#define OPS MW_OPERATIONS_MOST
#define CALLS 4096
#define ROOM (1 << 20)

static void give_up(const char *text, ...) {
    va_list words;
    va_start(words, text);
    fputs("bench/stack: ", stderr);
    vfprintf(stderr, text, words);
    fputc('\n', stderr);
    va_end(words);
    exit(1);
}

/* ---- Painting ---- */

static unsigned char stack[ROOM];
static ucontext_t back, there;

static void run_on_stack(void (*call)(void)) {
    if (getcontext(&there) != 0) give_up("no context");
    there.uc_stack.ss_sp = stack;
    there.uc_stack.ss_size = ROOM;
    there.uc_link = &back;
    makecontext(&there, call, 0);
    if (swapcontext(&back, &there) != 0) give_up("no context");
}

static size_t depth(void (*call)(void), unsigned char paint) {
    size_t clean = 0;
    memset(stack, paint, ROOM);
    run_on_stack(call);
    while (clean < ROOM && stack[clean] == paint) clean++;
    if (clean == 0) give_up("a call takes more than the %d bytes of its stack", ROOM);
    return ROOM - clean;
}

static size_t deepest(void (*call)(void)) {
    size_t a = depth(call, 0x5a), b = depth(call, 0xc3);
    return a < b ? b : a;
}

/* ---- What calls are passed, and what they leave ---- */

static uint8_t file[MW_FILE_MOST];
static int32_t ops[2 * OPS], uses[2 * 4 * OPS], deps[4 * 256];
static size_t file_length, ops_length, uses_length, deps_length;
static size_t cap = 4096, horizon, budget = 1000000, interval;
static uint16_t starts[OPS], free_rows[24];
static uint64_t rows[MW_SEARCH_ROWS], calls[3 * CALLS], replies[2 * CALLS], answer[8];
static size_t calls_length, result;

static void nothing(void) {}
static void call_read(void) { result = mw_read(file, file_length, answer); }
static void call_write(void) { result = mw_write(ops, ops_length, uses, uses_length, deps, deps_length, file, sizeof file, answer); }
static void call_bounds(void) { result = mw_bounds(file, file_length, answer); }
static void call_verify(void) { result = mw_verify(file, file_length, interval, starts, OPS, answer); }
static void call_search(void) { result = mw_search(file, file_length, cap, horizon, budget, starts, OPS, rows, MW_SEARCH_ROWS, answer); }
static void call_plan(void) { result = mw_plan(file, file_length, cap, horizon, budget, starts, OPS, rows, MW_SEARCH_ROWS, answer); }
static void call_stage(void) { result = mw_stage(interval, horizon); }
static void call_cycle(void) { result = mw_cycle(interval, horizon); }
static void call_order(void) { result = mw_order(interval, starts, OPS, OPS - 1); }
static void call_session(void) {
    result = mw_session(file, file_length, interval, horizon, calls, calls_length, rows, MW_SEARCH_ROWS, replies, 2 * CALLS, starts, free_rows, answer);
}

/* The bytes of a call that has this result. */
static size_t taken(void (*call)(void), size_t wanted, const char *input) {
    size_t all = deepest(call), base = deepest(nothing);
    if (result != wanted) give_up("%s: the result is %zu, where %zu is wanted", input, result, wanted);
    return all < base ? 0 : all - base;
}

static void row(const char *function, const char *input, void (*call)(void), size_t wanted) {
    printf("| `%s` | %s | %zu |\n", function, input, taken(call, wanted, input));
}

/* ---- Loops ---- */

static void no_loop(void) { ops_length = uses_length = deps_length = 0; }

static void op(int latency, int count) {
    ops[ops_length++] = latency;
    ops[ops_length++] = count;
}

static void use(int slot, int duration) {
    uses[uses_length++] = slot;
    uses[uses_length++] = duration;
}

static void dep(int from, int to, int delay, int distance) {
    deps[deps_length++] = from;
    deps[deps_length++] = to;
    deps[deps_length++] = delay;
    deps[deps_length++] = distance;
}

static void make_file(void) {
    call_write();
    if (result != 0) give_up("a loop is refused by %zu at %" PRIu64, result, answer[0]);
    file_length = answer[1];
}

/* All that a file holds: 64 operations, 256 uses, 256 dependences. The operations stand in a ring with a delay of 64 at each step and a distance
 * of 1 at one; further dependences go two, three and five steps along it. At 4,096, its recurrence bound, all fit one after the other. (It is
 * the loop `largest` of bench/loops.py, of which mw_write takes the numbers here.) */
static void longest(void) {
    static const int steps[] = {1, 2, 3, 5};
    no_loop();
    for (int i = 0; i < OPS; i++) {
        op(64, 4);
        for (int j = 0; j < 4; j++) use(1 + i % 6 + 6 * j, 16);
    }
    for (int s = 0; s < 4; s++)
        for (int i = OPS - 1; i >= 0; i--) dep(i, (i + steps[s]) % OPS, 64, i + steps[s] >= OPS);
    make_file();
    if (file_length != MW_FILE_MOST) give_up("the longest file has %zu bytes", file_length);
}

/* n operations, of which the last two hold the same slots in the cycle in which they start, and the others nothing. Where all have to start in
 * cycle 0 there is no schedule, and a search sees this with its last operation. */
static void crowded(int n) {
    no_loop();
    for (int i = 0; i < n; i++) {
        int count = i < n - 2 ? 0 : 4;
        op(1, count);
        for (int j = 0; j < count; j++) use(1 + j, 1);
    }
    make_file();
}

/* 64 operations of which the last three are hard to fit below a horizon of 6: the planner's quick list is not the smallest, and the exact search
 * goes down to the last operation to find one that is. The others hold nothing and all start in one cycle, so that there is little to search. */
static void tight(void) {
    no_loop();
    for (int i = 0; i < OPS - 3; i++) {
        op(1, 0);
        if (i > 0) dep(0, i, 0, 0), dep(i, 0, 0, 0);
    }
    op(1, 3), use(1, 5), use(2, 3), use(3, 5);
    op(1, 1), use(3, 1);
    op(1, 2), use(2, 4), use(3, 2);
    make_file();
}

/* One operation that depends on itself within an iteration, and holds a slot for 16 cycles. */
static void circle(void) {
    no_loop();
    op(1, 1), use(24, 16);
    dep(0, 0, 1, 0);
    make_file();
}

/* ---- Calls of a session ---- */

static void session_call(uint64_t kind, uint64_t a, uint64_t b) {
    calls[calls_length++] = kind;
    calls[calls_length++] = a;
    calls[calls_length++] = b;
}

static uint32_t drawn(uint32_t n) {
    static uint32_t state = 1;
    state = state * 1664525 + 1013904223;
    return (state >> 16) % n;
}

/* Operations placed one after the other with a checkpoint after each until there is no room for one more, and a rollback over all of them; then
 * calls of every kind with numbers that look drawn. */
static void many_calls(void) {
    static const uint64_t kinds[] = {MW_CALL_PLACE, MW_CALL_PLACE, MW_CALL_FORCE, MW_CALL_FORCE, MW_CALL_REMOVE, MW_CALL_CHECKPOINT, MW_CALL_RELEASE, MW_CALL_ROLLBACK};
    calls_length = 0;
    for (uint64_t i = 0; i < 17; i++) {
        session_call(MW_CALL_PLACE, i, 64 * i);
        session_call(MW_CALL_CHECKPOINT, 0, 0);
    }
    session_call(MW_CALL_ROLLBACK, 1, 0);
    while (calls_length < 3 * CALLS) {
        uint64_t kind = kinds[drawn(8)], a = drawn(kind == MW_CALL_ROLLBACK ? 4 : OPS + 1), b = drawn((uint32_t)horizon + 1);
        session_call(kind, a, b);
    }
}

/* Whether a call of the kind was refused by the number or, for 0, done, with a value other than 0 where that is asked for. */
static int was_answered(uint64_t kind, uint64_t number, int with_value) {
    for (size_t i = 0; i < CALLS; i++)
        if (calls[3 * i] == kind && replies[2 * i] == number && (!with_value || replies[2 * i + 1] != 0)) return 1;
    return 0;
}

/* Each answer that the largest loop's calls can have is there; a force that displaces is. */
static void check_replies(void) {
    static const int answers[][3] = {
        {MW_CALL_PLACE, 0, 0},       {MW_CALL_PLACE, 12, 0},  {MW_CALL_PLACE, 13, 0},   {MW_CALL_PLACE, 15, 0},   {MW_CALL_PLACE, 16, 0},
        {MW_CALL_PLACE, 17, 0},      {MW_CALL_FORCE, 0, 1},   {MW_CALL_FORCE, 12, 0},   {MW_CALL_FORCE, 13, 0},   {MW_CALL_FORCE, 15, 0},
        {MW_CALL_REMOVE, 0, 0},      {MW_CALL_REMOVE, 12, 0}, {MW_CALL_REMOVE, 14, 0},  {MW_CALL_CHECKPOINT, 0, 1}, {MW_CALL_CHECKPOINT, 18, 0},
        {MW_CALL_RELEASE, 0, 0},     {MW_CALL_RELEASE, 19, 0}, {MW_CALL_ROLLBACK, 0, 0}, {MW_CALL_ROLLBACK, 19, 0},
    };
    for (size_t i = 0; i < sizeof answers / sizeof *answers; i++)
        if (!was_answered(answers[i][0], answers[i][1], answers[i][2]))
            give_up("no call of kind %d was answered by %d", answers[i][0], answers[i][1]);
}

/* ---- The table ---- */

static void reading_and_writing(void) {
    longest();
    row("mw_read", "the longest file", call_read, 0);
    file[MW_FILE_MOST - 1] = 16;
    row("mw_read", "the same, wrong in its last byte", call_read, MW_REFUSED_DEPENDENCE);
    longest();
    row("mw_write", "the numbers of the longest file", call_write, 0);
    deps[deps_length - 1] = 16;
    row("mw_write", "the same, wrong in the last number", call_write, MW_REFUSED_DEPENDENCE);
    longest();
    row("mw_bounds", "the longest file", call_bounds, 0);
    circle();
    row("mw_bounds", "a circle of dependences", call_bounds, MW_REFUSED_CIRCLE);
}

static void searching(void) {
    longest();
    horizon = 4096;
    row("mw_search", "the longest file: a schedule", call_search, 0);
    budget = 1000;
    row("mw_search", "the longest file: the budget is spent", call_search, MW_REFUSED_BUDGET);
    budget = 1000000;
    horizon = 1;
    crowded(OPS);
    row("mw_search", "64 operations: none, seen at the last operation", call_search, MW_REFUSED_NO_SCHEDULE);
    horizon = 4096;
    longest();
    row("mw_plan", "the longest file: a schedule without a search", call_plan, 0);
    horizon = 6;
    tight();
    row("mw_plan", "64 operations: a schedule by the exact search", call_plan, 0);
    if (answer[1] != 9) give_up("the plan of the tight loop has interval %" PRIu64, answer[1]);
    horizon = 1;
    crowded(OPS);
    row("mw_plan", "64 operations: none, by the exact search", call_plan, MW_REFUSED_NO_SCHEDULE);
}

static void verdict(const char *input, uint64_t wanted) {
    row("mw_verify", input, call_verify, 0);
    if (answer[1] != wanted) give_up("%s: the verdict is %" PRIu64, input, answer[1]);
}

static void judging(void) {
    longest();
    interval = 4096;
    for (int i = 0; i < OPS; i++) starts[i] = 64 * i;
    verdict("the longest file: legal", MW_VERDICT_LEGAL);
    memset(starts, 0, sizeof starts);
    verdict("the longest file: a broken dependence", MW_VERDICT_BROKEN);
    crowded(OPS);
    verdict("64 operations, of which the last two conflict", MW_VERDICT_CONFLICT);
    circle();
    deps_length = 0;
    make_file();
    interval = 8;
    verdict("an operation that conflicts with itself", MW_VERDICT_CONFLICT);
}

static void in_a_session(void) {
    longest();
    interval = 64;
    horizon = 1024;
    many_calls();
    row("mw_session", "the longest file: 4,096 calls, all kinds and answers", call_session, 0);
    check_replies();
}

static void listing(void) {
    interval = 64;
    horizon = 4095;
    row("mw_stage", "a start of 4,095", call_stage, 63);
    row("mw_cycle", "a start of 4,095", call_cycle, 63);
    memset(starts, 0, sizeof starts);
    row("mw_order", "64 operations in one stage", call_order, 63);
}

/* What one operation more takes in a search that goes down to the last: the two functions that call each other. */
static void each_operation(void) {
    size_t some, all;
    horizon = 1;
    crowded(8);
    some = taken(call_search, MW_REFUSED_NO_SCHEDULE, "8 operations");
    crowded(OPS);
    all = taken(call_search, MW_REFUSED_NO_SCHEDULE, "64 operations");
    printf("\nOf a search, each operation takes %zu bytes.\n", (all - some) / (OPS - 8));
}

int main(void) {
    printf("| Function | Input | Bytes |\n|---|---|---|\n");
    reading_and_writing();
    judging();
    searching();
    in_a_session();
    listing();
    each_operation();
    return 0;
}
