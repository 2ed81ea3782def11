/* Four threads, each with a seat at one counter, call until they are served. */
#include "lus.h"
#include <pthread.h>
#include <sched.h>
#include <stdio.h>
#include <stdlib.h>
#include <string.h>

#define THREADS 4
#ifndef CALLS
#define CALLS 250000
#endif

static const char text[] =
    "node counter(passed: bool) returns (count: int); let count = (0 -> pre count) + (if passed then 1 else 0); tel";

static void must(lus_status status, const char *call) {
    if (status != LUS_OK) { printf("%s gave %d\n", call, status); exit(1); }
}
#define MUST(call) must(call, #call)

struct caller { lus_seat *seat; int64_t last; };

static void *work(void *argument) {
    struct caller *caller = argument;
    lus_value passed = {LUS_BOOL, 0, 1}, count;
    lus_answer answer;
    for (int k = 0; k < CALLS; k++) {
        lus_status status;
        while ((status = lus_try_step(caller->seat, &passed, 1, &answer, &count, 1)) == LUS_BUSY) sched_yield();
        if (status != LUS_OK || answer.kind != LUS_OUTPUTS || count.number <= caller->last) {
            printf("call %d gave %d\n", k, status);
            exit(1);
        }
        caller->last = count.number;
    }
    return 0;
}

/* The journal of a counter: each entry counts one more, each caller has all of its calls. `threads FILE` writes it as text. */
static void check(lus_journal *journal) {
    uint64_t entries, own[THREADS] = {0};
    MUST(lus_entries(journal, &entries));
    for (uint64_t k = 0; k < entries; k++) {
        lus_entry entry;
        lus_value in, out;
        MUST(lus_entry_at(journal, k, &entry, &in, 1, &out, 1));
        if (entry.request != LUS_STEP || entry.reply != LUS_OUTPUTS || out.number != (int64_t)k + 1 || entry.caller >= THREADS) {
            printf("entry %llu is wrong\n", (unsigned long long)k);
            exit(1);
        }
        own[entry.caller]++;
    }
    for (int k = 0; k < THREADS; k++)
        if (own[k] != CALLS) { printf("caller %d has %llu entries\n", k, (unsigned long long)own[k]); exit(1); }
    printf("%d threads of %d calls: %llu entries in one order\n", THREADS, CALLS, (unsigned long long)entries);
}

static void write_text(lus_journal *journal, const char *path) {
    static const char names[] = "north\0east\0south\0west";
    uint64_t bytes;
    lus_status status = lus_journal_text(journal, "door", 4, names, sizeof names, 0, 0, &bytes);
    char *lines = status == LUS_SHORT ? malloc(bytes) : 0;
    FILE *file = fopen(path, "wb");
    if (!lines || !file) { printf("no room for the text\n"); exit(1); }
    MUST(lus_journal_text(journal, "door", 4, names, sizeof names, lines, bytes, &bytes));
    if (fwrite(lines, 1, bytes, file) != bytes || fclose(file)) { printf("no file\n"); exit(1); }
    free(lines);
}

int main(int count, char **words) {
    lus_program program = LUS_NONE;
    lus_seat seats[THREADS] = {LUS_NONE};
    lus_journal journal = LUS_NONE;
    pthread_t threads[THREADS];
    struct caller callers[THREADS];
    MUST(lus_compile(text, strlen(text), &program, 0, 0, 0));
    MUST(lus_open(&program, 0, seats, THREADS));
    for (int k = 0; k < THREADS; k++) {
        callers[k] = (struct caller){&seats[k], 0};
        if (pthread_create(&threads[k], 0, work, &callers[k])) return 1;
    }
    for (int k = 0; k < THREADS; k++) pthread_join(threads[k], 0);
    MUST(lus_close(seats, THREADS, &journal));
    check(&journal);
    if (count > 1) write_text(&journal, words[1]);
    MUST(lus_free(&journal));
    MUST(lus_free(&program));
    return 0;
}
