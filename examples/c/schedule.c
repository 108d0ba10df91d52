/* Prints the schedule of a loop file, the verdict on starts for it, or the refusal, by the C functions of the library; and writes
 * a loop file.
 *
 *     schedule FILE                             the schedule that mw_search finds
 *     schedule plan FILE                        the plan of mw_plan, with `smallest` or `legal` in place of the probes
 *     schedule verify FILE INTERVAL START..     the verdict of mw_verify on these starts, one for each operation
 *     schedule write FILE [ROOM]                writes loop A of docs/FORMAT.md to FILE, by mw_write in a buffer of ROOM bytes (up to
 *                                               1690, and so many where it is not given)
 *
 * The status is 0 where the file was read or written, or the library refused, and 1 where the file was not read or written. */
#include <errno.h>
#include <inttypes.h>
#include <stdio.h>
#include <stdlib.h>
#include <string.h>

#include "mwelitunga.h"

/* The request. */
enum { CAP = 4096, HORIZON = 256, BUDGET = 1000000 };

/* Lent to the library. One byte more than the largest file has, so that a longer one is seen to be longer. */
static uint8_t file[MW_FILE_MOST + 1];
static uint16_t starts[MW_OPERATIONS_MOST];
static uint64_t rows[MW_SEARCH_ROWS];

/* Loop A: latency and number of uses of each operation; slot and duration of each use; from, to, delay and distance of each
 * dependence. */
static const int32_t ops[] = {2, 1, 3, 1, 1, 1};
static const int32_t uses[] = {1, 1, 2, 2, 1, 1};
static const int32_t deps[] = {0, 1, 2, 0, 1, 2, 3, 0, 1, 1, 3, 1};

/* How many elements an array has. */
#define LENGTH(array) (sizeof array / sizeof array[0])

/* Says on standard error how the program is called. */
static int usage(void) {
    fprintf(stderr, "usage: schedule [plan] FILE\n       schedule verify FILE INTERVAL START..\n       schedule write FILE [ROOM]\n");
    return 1;
}

/* Says on standard error why the file was not read or written. */
static int not_done(const char *what, const char *name) {
    fprintf(stderr, "schedule: cannot %s %s: %s\n", what, name, strerror(errno));
    return 1;
}

/* Reads the file, and tells its length. */
static int read_file(const char *name, size_t *length) {
    FILE *from = fopen(name, "rb");
    if (from == NULL) {
        return not_done("read", name);
    }
    *length = fread(file, 1, sizeof file, from);
    if (ferror(from)) {
        return not_done("read", name);
    }
    fclose(from);
    return 0;
}

static void print_refusal(size_t refusal, const uint64_t answer[8]) {
    printf("refused %zu at %" PRIu64 "\n", refusal, answer[0]);
}

/* A line for each of the n operations. */
static void list_operations(size_t interval, size_t n) {
    for (size_t op = 0; op < n; op++) {
        size_t start = starts[op];
        printf("op %zu start %zu stage %zu cycle %zu order %zu\n", op, start, mw_stage(interval, start),
               mw_cycle(interval, start), mw_order(interval, starts, n, op));
    }
}

/* The schedule or the plan of the file. */
static void schedule(size_t length, int planned) {
    uint64_t found[8];
    size_t refusal = (planned ? mw_plan : mw_search)(file, length, CAP, HORIZON, BUDGET, starts, MW_OPERATIONS_MOST, rows,
                                                     MW_SEARCH_ROWS, found);
    if (refusal != 0) {
        print_refusal(refusal, found);
        return;
    }
    printf("interval %" PRIu64 " resource %" PRIu64 " recurrence %" PRIu64 " stages %" PRIu64, found[1], found[2],
           found[3], found[4]);
    if (planned) {
        printf(found[5] == 1 ? " smallest\n" : " legal\n");
    } else {
        printf(" probes %" PRIu64 "\n", found[5]);
    }

    /* How many operations there are: the file is accepted, so this is not refused. */
    uint64_t counts[8];
    mw_read(file, length, counts);
    list_operations(found[1], counts[1]);
}

/* The verdict on the first n starts. */
static void verify(size_t length, size_t interval, size_t n) {
    uint64_t answer[8];
    size_t refusal = mw_verify(file, length, interval, starts, n, answer);
    if (refusal != 0) {
        print_refusal(refusal, answer);
    } else if (answer[1] == MW_VERDICT_LEGAL) {
        printf("legal\n");
    } else if (answer[1] == MW_VERDICT_BROKEN) {
        printf("dependence %" PRIu64 " is broken\n", answer[2]);
    } else {
        /* The place of the conflict: a cycle of the second operation, and a slot. */
        uint64_t first = answer[2], second = answer[3], cycle = answer[4] / 32, slot = answer[4] % 32;
        if (first == second) {
            printf("operation %" PRIu64 " conflicts with itself, in its cycle %" PRIu64 ", slot %" PRIu64 "\n", first, cycle,
                   slot);
        } else {
            printf("operations %" PRIu64 " and %" PRIu64 " conflict, in cycle %" PRIu64 " of operation %" PRIu64
                   ", slot %" PRIu64 "\n",
                   first, second, cycle, second, slot);
        }
    }
}

/* Loop A in a buffer of `room` bytes and, where the library writes it there, in the file. */
static int write_file(const char *name, size_t room) {
    uint64_t answer[8];
    size_t refusal = mw_write(ops, LENGTH(ops), uses, LENGTH(uses), deps, LENGTH(deps), file, room, answer);
    if (refusal != 0) {
        print_refusal(refusal, answer);
        return 0;
    }
    FILE *to = fopen(name, "wb");
    if (to == NULL) {
        return not_done("write", name);
    }
    size_t written = fwrite(file, 1, answer[1], to);
    if (fclose(to) != 0 || written != answer[1]) {
        return not_done("write", name);
    }
    return 0;
}

/* A number from 0 to 65535 in decimal digits, or -1. */
static long number(const char *word) {
    size_t digits = strspn(word, "0123456789");
    if (digits == 0 || digits > 5 || word[digits] != '\0') {
        return -1;
    }
    long value = strtol(word, NULL, 10);
    return value <= UINT16_MAX ? value : -1;
}

/* Takes an interval and starts, n words in all, from the command line; 0 where a word is no such number. */
static int take_proposal(int n, char **words, size_t *interval) {
    for (int i = 0; i < n; i++) {
        long value = number(words[i]);
        if (value < 0) {
            return 0;
        }
        if (i == 0) {
            *interval = (size_t)value;
        } else {
            starts[i - 1] = (uint16_t)value;
        }
    }
    return 1;
}

int main(int argc, char **argv) {
    if ((argc == 3 || argc == 4) && strcmp(argv[1], "write") == 0) {
        long room = argc == 4 ? number(argv[3]) : MW_FILE_MOST;
        return room < 0 || room > MW_FILE_MOST ? usage() : write_file(argv[2], (size_t)room);
    }
    int planned = argc == 3 && strcmp(argv[1], "plan") == 0;
    int verified = argc > 3 && argc - 4 <= MW_OPERATIONS_MOST && strcmp(argv[1], "verify") == 0;
    size_t interval = 0, length = 0;
    if ((argc != 2 && !planned && !verified) || (verified && !take_proposal(argc - 3, argv + 3, &interval))) {
        return usage();
    }
    if (read_file(argv[argc == 2 ? 1 : 2], &length) != 0) {
        return 1;
    }
    if (verified) {
        verify(length, interval, (size_t)argc - 4);
    } else {
        schedule(length, planned);
    }
    return 0;
}
