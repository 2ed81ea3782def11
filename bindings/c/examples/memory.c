/* Each allocation fails once, from the first on: every status is LUS_MEMORY, or, where less memory was enough after all, the journal's
 * text is the one of a run in which none fails. Nothing leaks (run it under -fsanitize=address).
 * Link with -Wl,--wrap=malloc -Wl,--wrap=realloc. */
#include "lus.h"
#include <stdio.h>
#include <stdlib.h>
#include <string.h>

static long left;
void *__real_malloc(size_t);
void *__real_realloc(void *, size_t);
void *__wrap_malloc(size_t n) { return left > 0 && --left == 0 ? 0 : __real_malloc(n); }
void *__wrap_realloc(void *p, size_t n) { return left > 0 && --left == 0 ? 0 : __real_realloc(p, n); }

static const char text[] = "node t(x: int) returns (n: int); let n = x -> pre n + x; tel\n";

static const char wrong[] = "node t(x: int) returns (n: int); let n = pre x; tel\n";

static char lines[128], why[1024];

static lus_status run(void) {
    lus_program program = LUS_NONE;
    lus_seat seats[2] = {LUS_NONE, LUS_NONE};
    lus_journal journal = LUS_NONE;
    lus_live live = LUS_NONE, twin = LUS_NONE;
    char line[32];
    lus_value in = {LUS_INT, 0, 5}, out;
    lus_answer answer;
    uint64_t bytes;
    lus_status status = lus_explain(wrong, strlen(wrong), "t", 1, why, sizeof why, &bytes);
    if (!status) status = lus_compile(text, strlen(text), &program, 0, 0, 0);
    if (!status) status = lus_open(&program, 0, seats, 2);
    if (!status) status = lus_try_step(&seats[0], &in, 1, &answer, &out, 1);
    if (!status) status = lus_try_step(&seats[1], &in, 1, &answer, &out, 1);
    if (!status) status = lus_hold(&seats[1], &bytes);
    if (!status) status = lus_release(&seats[1]);
    if (!status) status = lus_meet(&seats[0], &seats[1]);
    if (!status) status = lus_close(seats, 2, &journal);
    if (!status) status = lus_journal_text(&journal, "i", 1, "a\0b", 4, lines, sizeof lines, &bytes);
    if (!status) status = lus_live_open(&program, 0, &live);
    if (!status) status = lus_live_open(&program, 0, &twin);
    if (!status) status = lus_live_step(&live, &in, 1, &answer, &out, 1);
    if (!status) status = lus_live_line(&live, "a", 1, line, sizeof line, &bytes);
    if (!status) status = lus_live_replay(&twin, line, bytes);
    lus_free(&live);
    lus_free(&twin);
    lus_free(&program);
    lus_free(&seats[0]);
    lus_free(&seats[1]);
    lus_free(&journal);
    return status;
}

int main(void) {
    char whole[sizeof lines];
    lus_status first = run();
    memcpy(whole, lines, sizeof lines);
    if (first) printf("a run with no failure gave %d\n", first);
    for (long n = 1;; n++) {
        left = n;
        memset(lines, 0, sizeof lines);
        lus_status status = run();
        if (left > 0) {
            if (status) printf("a run with no failure gave %d\n", status);
            printf("each allocation failed once\n");
            return status;
        }
        if (status != LUS_MEMORY && (status || memcmp(lines, whole, sizeof lines))) {
            printf("failing allocation %ld gave %d\n", n, status);
            return 1;
        }
    }
}
