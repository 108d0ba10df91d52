/* The C functions of the Mwelitunga library: loop files read, written, bounded, scheduled and verified, and sessions replayed.
 *
 * Link target/staticlib/libmwelitunga.a, which `bin/build-library` puts there once the library is proved
 * (x86-64 Linux; of the C library it takes memcpy and memset). docs/FORMAT.md describes the loop file.
 *
 * For every function:
 * - Any bytes, numbers and starts may be passed: what is out of range is refused, or has the result that the comment says.
 * - A list is a pointer and the number of elements behind it. No pointer may be null, even where the number is 0:
 *   pass the address of any object of that type.
 * - What is written (answer; buffer of mw_write; starts and rows of mw_search and mw_plan; rows, replies, starts and free_rows of mw_session)
 *   may not overlap anything else that is passed to the same call. Nothing is kept after the call, and there is no hidden state.
 * - Of stack, mw_search and mw_plan take less than 20 KB, mw_session less than 8 KB, and each other function less than 1 KB. This is measured
 *   and not proved (docs/BENCH.md, "Stack").
 *
 * For mw_read, mw_write, mw_bounds, mw_verify, mw_search, mw_plan and mw_session:
 * - The result is 0, or the number of the refusal, MW_REFUSED_...; the first check that fails gives it.
 * - All eight numbers of `answer` are written each time, whatever they were. Where the result is 0, answer[0] is 0,
 *   and the function's own comment names what follows. Where it is a refusal, answer[0] is its detail. All others are 0,
 *   but for the probes that mw_search and mw_plan tell of two refusals.
 */
#ifndef MWELITUNGA_H
#define MWELITUNGA_H

#include <stddef.h>
#include <stdint.h>

#ifdef __cplusplus
extern "C" {
#endif

/* The version of the library and of this header; CHANGELOG.md says what each version has. */
#define MWELITUNGA_VERSION "0.1.0"

/* The largest loop file in bytes, so that a buffer of this length is enough for mw_write, and the most operations that a loop has. */
#define MW_FILE_MOST 1690
#define MW_OPERATIONS_MOST 64

/* The rows that mw_search and mw_plan ask for. */
#define MW_SEARCH_ROWS 4096

/* The refusals, each with its detail. 12, 13, 14, 16, 17, 18 and 19 are the answers of single calls of a session; so is 15 there.
 * Where mw_write has another detail it stands last; the number of an operation, use or dependence is its place in its list, from 0. */
#define MW_REFUSED_FILE_LENGTH 1      /* fewer than 26 or more than 1690 bytes: the length, 1691 where it is longer than that */
#define MW_REFUSED_HEAD 2             /* another version than 1: 0; another number of sections than 3: 1 */
#define MW_REFUSED_SECTION 3          /* an entry with a wrong tag, offset or length: the offset of the entry; of mw_write, not 1 to 64 whole operations: 2; not 0 to 256 whole dependences: 18 */
#define MW_REFUSED_OPERATION 4        /* a latency or a number of uses out of range: the offset of the byte; of mw_write, the operation's number */
#define MW_REFUSED_USE 5              /* not as many uses as the operations have: where they begin; a slot or duration out of range, slots that do not rise: the offset of the byte; of mw_write, the number of whole uses given; the use's number */
#define MW_REFUSED_DEPENDENCE 6       /* an operation number, a delay or a distance out of range: the offset of the byte; of mw_write, the dependence's number */
#define MW_REFUSED_REQUEST 7          /* a cap or an interval out of range: 1; a horizon: 2; a budget: 3 */
#define MW_REFUSED_CIRCLE 8           /* dependences that lead back to an operation within one iteration, with a delay above 0 in all: no interval is long enough: 0 */
#define MW_REFUSED_RECURRENCE 9       /* the recurrence bound is above 4096: 0 */
#define MW_REFUSED_NO_SCHEDULE 10     /* no interval up to the cap has a legal list below the horizon: the cap */
#define MW_REFUSED_BUDGET 11          /* the search takes more probes than the budget: the interval of the first probe not made */
#define MW_REFUSED_NO_OPERATION 12    /* there is no such operation: its number */
#define MW_REFUSED_PLACED 13          /* the operation is placed already: its number */
#define MW_REFUSED_NOT_PLACED 14      /* the operation is not placed: its number */
#define MW_REFUSED_START 15           /* a start is not below the horizon: the operation; of mw_verify, the first whose start is not below 4096 */
#define MW_REFUSED_BROKEN 16          /* the start breaks a dependence: the first such dependence */
#define MW_REFUSED_CONFLICT 17        /* the operation conflicts with itself or with a placed one: the number of the place, see below */
#define MW_REFUSED_CHECKPOINTS 18     /* 16 checkpoints are open already: 0 */
#define MW_REFUSED_NO_CHECKPOINT 19   /* there is no such checkpoint: 0 */
#define MW_REFUSED_ROOM 20            /* a list that is shorter than the operations, too few rows, or a buffer that is shorter than the file: the length that was passed */
#define MW_REFUSED_REPLIES 254        /* mw_session: `replies` has room for fewer than two numbers a call: the length that was passed */
#define MW_REFUSED_CALLS 255          /* mw_session: a call of no kind: its number from 0; numbers left over at the end: the number of whole calls */

/* The place of a conflict, as one number: where an operation meets a taken cell. A cell is a slot in a row, that is in a cycle modulo the
 * interval. The number is the detail of MW_REFUSED_CONFLICT, and answer[4] of mw_verify for MW_VERDICT_CONFLICT.
 *
 * number / 32 is the cycle, 0 to 15, counted from the operation's start; number % 32 is the slot, 1 to 24. It is the first such cycle and,
 * in that cycle, the lowest such slot. The row of the cell is (start + cycle) % interval. What is taken:
 * - of MW_CALL_PLACE, what the placed operations cover, and what the operation itself covers in an earlier cycle;
 * - of MW_CALL_FORCE, only what the operation itself covers in an earlier cycle;
 * - of a pair of mw_verify, what the first operation covers; cycle and slot are those of the second. Of twice the same operation, what it
 *   covers itself in an earlier cycle. */

/* The verdicts of mw_verify. */
#define MW_VERDICT_LEGAL 0
#define MW_VERDICT_BROKEN 1
#define MW_VERDICT_CONFLICT 2

/* The calls that mw_session makes: each is three numbers, one of these and two more. What is called unused may be any number. */
#define MW_CALL_PLACE 1               /* operation, start: places the operation */
#define MW_CALL_FORCE 2               /* operation, start: places it and takes out first what is in its way */
#define MW_CALL_REMOVE 3              /* operation, unused: takes it out */
#define MW_CALL_CHECKPOINT 4          /* unused, unused: keeps a copy of all starts */
#define MW_CALL_RELEASE 5             /* unused, unused: forgets the newest checkpoint */
#define MW_CALL_ROLLBACK 6            /* checkpoint, unused: goes back to its starts; it stays open, later ones are forgotten */

/* The start that mw_session writes for an operation that is not placed. */
#define MW_NOT_PLACED 65535

/* Reads a loop file.
 *
 * answer[1], [2], [3]: the numbers of operations, uses and dependences.
 * Refusals: 1 to 6. */
size_t mw_read(const uint8_t *file, size_t file_length, uint64_t answer[8]);

/* Writes the file of a loop to the beginning of a buffer. The loop is three flat lists, one record after the other; any numbers may stand
 * in them, and the lengths count numbers.
 *
 * ops: two numbers an operation, its latency (0 to 64) and its number of uses (0 to 4); 1 to 64 operations.
 * uses: two numbers a use, its slot (1 to 24, and above that of the same operation's use before) and its duration (1 to 16). The uses stand
 *   in the order of their operations, as many as these say.
 * deps: four numbers a dependence, from, to (operation numbers from 0), delay (-64 to 64) and distance (0 to 15); 0 to 256 dependences.
 *
 * answer[1]: the number of bytes of the file.
 * Refusals, in this order: 3 for the list of operations, then for that of dependences; 4, operation by operation; 5 for the number of uses,
 * then use by use; 6, dependence by dependence; 20.
 *
 * What it leaves: where the result is 0, the file stands first in `buffer`, and the rest of it is as it was; after any refusal all of it is
 * as it was. The file is one that mw_read accepts, and its loop is the one that was given. A loop has one file only: what is read from an
 * accepted file and written again has the same bytes. */
size_t mw_write(
    const int32_t *ops, size_t ops_length, const int32_t *uses, size_t uses_length, const int32_t *deps, size_t deps_length,
    uint8_t *buffer, size_t buffer_length, uint64_t answer[8]);

/* The two lower bounds of the interval.
 *
 * answer[1]: the resource bound, for how many cycles one iteration holds the busiest slot; 1 where no slot is used.
 * answer[2]: the recurrence bound, the smallest interval of 1 or more at which some starts meet all dependences.
 * Refusals: 1 to 6, 8, 9. */
size_t mw_bounds(const uint8_t *file, size_t file_length, uint64_t answer[8]);

/* The verdict on proposed starts: starts[i] is that of operation i. A longer list is fine; what is past the operations is not looked at.
 *
 * answer[1]: MW_VERDICT_LEGAL;
 *   or MW_VERDICT_BROKEN, where a dependence does not hold: the first one's number is answer[2];
 *   or MW_VERDICT_CONFLICT, where all hold and two operations take one slot in one cycle, counted modulo the interval: the first such
 *   pair is answer[2], answer[3], twice the same operation where it holds a slot for longer than the interval; and answer[4] is the
 *   number of the place in which the second meets the first.
 * Refusals: 1 to 6; 7, where the interval is not 1 to 4096; 20; 15. */
size_t mw_verify(
    const uint8_t *file, size_t file_length, size_t interval, const uint16_t *starts, size_t starts_length,
    uint64_t answer[8]);

/* The search: the smallest interval up to the cap that has a legal list of starts below the horizon, and of those lists the first
 * in dictionary order. A probe is one start tried for one operation.
 *
 * cap: 1 to 4096. horizon: 1 to 4096. budget: how many probes may be made, 1 to 1000000.
 * starts: room for one start an operation; MW_OPERATIONS_MOST is enough for every file. rows: scratch, MW_SEARCH_ROWS or more.
 *
 * answer[1]: the interval. answer[2], [3]: the resource and the recurrence bound. answer[4]: the number of stages: the last occupied cycle
 * divided by the interval, rounded down, plus 1. An operation occupies as many cycles from its start on as its latency says, at least one.
 * answer[5]: the probes made.
 * Refusals: 1 to 6, 7, 20, 8, 9, 10, 11. Of 10 and 11, answer[5] is the probes made; for 11 that is the budget.
 *
 * What it leaves: where the result is 0, the starts of the operations stand first in `starts`, and the rest of it is as it was; after any
 * refusal all of it is as it was. The first MW_SEARCH_ROWS rows are 0 where the result is 0, 10 or 11; later rows, and all rows after
 * another refusal, are as they were. */
size_t mw_search(
    const uint8_t *file, size_t file_length, size_t cap, size_t horizon, size_t budget, uint16_t *starts,
    size_t starts_length, uint64_t *rows, size_t rows_length, uint64_t answer[8]);

/* The plan: a legal list of starts below the horizon at an interval up to the cap, and whether no smaller interval has one. First a list is
 * looked for without a search, by iterative modulo scheduling. Where that is at the larger of the two bounds, no search is made; where it
 * is not, mw_search's own search goes through the intervals below it, or up to the cap where there is no such list.
 *
 * It is never worse than mw_search with the same numbers: where that finds a schedule, the plan has the same interval and is said to be
 * smallest. The starts may be other ones. Where mw_search runs out of probes, there may still be a plan.
 *
 * cap, horizon, budget, starts, rows: as those of mw_search. The budget is that of the search, where one is made.
 *
 * answer[1]: the interval. answer[2], [3]: the resource and the recurrence bound. answer[4]: the number of stages, as mw_search counts them.
 * answer[5]: 1 where no smaller interval has a legal list of starts below the horizon; 0 where that is not known.
 * Refusals: 1 to 6, 7, 20, 8, 9, 10, 11. Of 10 and 11, answer[5] is the probes made; they are those of mw_search.
 *
 * What it leaves: as mw_search does. */
size_t mw_plan(
    const uint8_t *file, size_t file_length, size_t cap, size_t horizon, size_t budget, uint16_t *starts,
    size_t starts_length, uint64_t *rows, size_t rows_length, uint64_t answer[8]);

/* The stage of a start: how many whole intervals are over before it. 0 where the interval is 0. */
size_t mw_stage(size_t interval, size_t start);

/* The cycle of a start: what is left over of those whole intervals. The start itself where the interval is 0. */
size_t mw_cycle(size_t interval, size_t start);

/* The order of operation `op` in its stage: how many operations of the same stage have a smaller cycle, or the same cycle and a smaller
 * number. All of the list counts, so pass the number of operations as its length, and not the room that it has. An operation past the list's
 * end is taken to start at 0. */
size_t mw_order(size_t interval, const uint16_t *starts, size_t starts_length, size_t op);

/* A session: a table of `interval` rows in which operations are placed, forced, removed, checkpointed and rolled back, by a list of calls
 * that are made one after the other on a session opened for them.
 *
 * interval: 1 to 4096, also below the bounds. horizon: 1 to 4096; starts stay below it. rows: the table, `interval` rows or more.
 * calls: three numbers a call, MW_CALL_... and two more; calls_length counts the numbers. replies: room for two numbers a call.
 *
 * replies[2 i], replies[2 i + 1]: the answer of call i, from 0. 0 and a value where it was done: for MW_CALL_FORCE the operations that were
 *   taken out, bit k for operation k; for MW_CALL_CHECKPOINT the number of the new checkpoint, 1 to 16; else 0. Where it was refused, the
 *   refusal's number and its detail, and the call changed nothing: 12, 13, 15, 16, 17 of placing and forcing (the detail of 17 is the
 *   number of the place); 12, 14 of removing; 18 of a checkpoint; 19 of releasing and rolling back.
 * answer[1]: the number of calls. answer[2]: how many checkpoints are open after the last.
 * Refusals, before any call is made: 255, 254; 1 to 6; 7, where the interval (1) or the horizon (2) is out of range; 20.
 *
 * What it leaves where the result is 0: starts[k] is the start of operation k, MW_NOT_PLACED where it is not placed and for every k that is
 * no operation's, so all 64 are written. Bit s - 1 of row r, for r below the interval, is 1 exactly where a placed operation covers slot s
 * in that row; later rows are as they were, and so is `replies` past the last call's. free_rows[s - 1], for s from 1 to 24, is the number of
 * rows below the interval in which slot s is free, that is in which bit s - 1 is 0; all 24 are written. It is the interval less the durations
 * for which the placed operations hold the slot. After a refusal rows, replies, starts and free_rows are as they were. */
size_t mw_session(
    const uint8_t *file, size_t file_length, size_t interval, size_t horizon, const uint64_t *calls, size_t calls_length,
    uint64_t *rows, size_t rows_length, uint64_t *replies, size_t replies_length, uint16_t starts[64], uint16_t free_rows[24],
    uint64_t answer[8]);

#ifdef __cplusplus
}
#endif

#endif
