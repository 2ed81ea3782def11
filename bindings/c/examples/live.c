/* Live instances: a pool of workers steps doors, each worker one door at a time, and hands each line to a journal, here to a twin
 * that goes on with it as a service does that begins again. What an instance takes doesn't grow with its calls. `live FILE` writes
 * the journal of the first door. */
#include "lus.h"
#include <malloc.h>
#include <pthread.h>
#include <stdatomic.h>
#include <stdio.h>
#include <stdlib.h>
#include <string.h>

#define WORKERS 4
#define DOORS 16
#ifndef CALLS
#define CALLS 10000
#endif

static const char text[] =
    "node counter(passed: bool) returns (count: int); let count = (0 -> pre count) + (if passed then 1 else 0); tel";

static void must(lus_status status, const char *call) {
    if (status != LUS_OK) { printf("%s gave %d\n", call, status); exit(1); }
}
#define MUST(call) must(call, #call)
#define IS(fact) do { if (!(fact)) { printf("line %d: not %s\n", __LINE__, #fact); exit(1); } } while (0)

struct door { lus_live live, twin; FILE *journal; };
static struct door doors[DOORS];
static atomic_int next_door;

/* A call, and its line: to the twin and, where there is one, to the journal's file. */
static void pass(struct door *door, int64_t count) {
    lus_value passed = {LUS_BOOL, 0, 1}, out;
    lus_answer answer;
    char line[64];
    uint64_t bytes;
    MUST(lus_live_step(&door->live, &passed, 1, &answer, &out, 1));
    IS(answer.kind == LUS_OUTPUTS && out.number == count);
    MUST(lus_live_line(&door->live, "worker", 6, line, sizeof line, &bytes));
    if (door->journal) IS(fwrite(line, 1, bytes, door->journal) == bytes && fflush(door->journal) == 0);
    MUST(lus_live_replay(&door->twin, line, bytes));
}

static void *work(void *none) {
    for (int k; (k = atomic_fetch_add(&next_door, 1)) < DOORS;)
        for (int64_t count = 1; count <= CALLS; count++) pass(&doors[k], count);
    return none;
}

static void together(void *(*run)(void *), void *argument) {
    pthread_t threads[WORKERS];
    for (int k = 0; k < WORKERS; k++) IS(pthread_create(&threads[k], 0, run, argument) == 0);
    for (int k = 0; k < WORKERS; k++) IS(pthread_join(threads[k], 0) == 0);
}

/* Calls that come while another has the instance are LUS_HANDLE. */
static atomic_long made;
static void *meet(void *live) {
    lus_value passed = {LUS_BOOL, 0, 1}, out;
    lus_answer answer;
    for (int k = 0; k < CALLS; k++) {
        lus_status status = lus_live_step(live, &passed, 1, &answer, &out, 1);
        IS(status == LUS_OK || status == LUS_HANDLE);
        if (status == LUS_OK) atomic_fetch_add(&made, 1);
    }
    return 0;
}

/* Lines that are no right next one, an array that is too short, and the last entry. */
static void lines(struct door *door) {
    lus_value in, out;
    lus_entry entry;
    lus_answer answer;
    char line[64];
    uint64_t bytes, count;
    MUST(lus_live_count(&door->twin, &count));
    IS(count == CALLS);
    IS(lus_live_entry(&door->twin, &entry, &in, 1, &out, 1) == LUS_NO_SUCH);
    IS(lus_live_replay(&door->twin, "1 worker reset -> done\n", 23) == LUS_VALUE);
    int length = snprintf(line, sizeof line, "%d worker step(true) -> (0)\n", CALLS + 1);
    IS(lus_live_replay(&door->twin, line, length) == LUS_WRONG);
    IS(lus_live_step(&door->live, &(lus_value){LUS_INT, 0, 1}, 1, &answer, &out, 1) == LUS_OK && answer.why == LUS_SHAPE);
    IS(lus_live_call(&door->live, LUS_STEP, 0, &(lus_value){9, 0, 0}, 1, &answer, &out, 1) == LUS_VALUE);
    IS(lus_live_call(&door->live, LUS_STEP, 0, &(lus_value){LUS_BOOL, 0, 1}, 1, &answer, 0, 0) == LUS_SHORT);
    MUST(lus_live_entry(&door->live, &entry, &in, 1, &out, 1));
    IS(entry.request == LUS_STEP && in.number == 1 && out.number == CALLS + 1);
    IS(lus_live_line(&door->live, "worker", 6, line, 4, &bytes) == LUS_SHORT);
    MUST(lus_live_line(&door->live, "worker", 6, line, sizeof line, &bytes));
    printf("%.*s", (int)bytes, line);
    IS(lus_live_replay(&door->twin, line, bytes) == LUS_VALUE); /* the one before it is missing */
    MUST(lus_live_count(&door->twin, &count));
    IS(count == CALLS);
}

int main(int count, char **words) {
    lus_program program = LUS_NONE;
    uint64_t entries;
    MUST(lus_compile(text, strlen(text), &program, 0, 0, 0));
    for (int k = 0; k < DOORS; k++) {
        MUST(lus_live_open(&program, 0, &doors[k].live));
        MUST(lus_live_open(&program, 0, &doors[k].twin));
    }
    if (count > 1) {
        IS((doors[0].journal = fopen(words[1], "wb")) != 0);
        fprintf(doors[0].journal, "instance door counter\n");
    }
    together(work, 0);
    printf("%d workers, %d doors of %d calls\n", WORKERS, DOORS, CALLS);
    if (count > 1) IS(fprintf(doors[0].journal, "entries %d\n", CALLS) > 0 && fclose(doors[0].journal) == 0);
    doors[0].journal = 0;
    lines(&doors[0]);

    for (int64_t k = CALLS + 1; k < 2 * CALLS; k++) pass(&doors[1], k);
    size_t before = mallinfo2().uordblks;
    for (int64_t k = 2 * CALLS; k < 10 * CALLS; k++) pass(&doors[1], k);
    IS(mallinfo2().uordblks <= before);
    printf("%d calls more take no memory\n", 8 * CALLS);

    together(meet, &doors[2].live);
    MUST(lus_live_count(&doors[2].live, &entries));
    IS(entries == CALLS + (uint64_t)made);
    printf("each call of %d threads at one instance is made, or finds it in use\n", WORKERS);

    IS(lus_live_open(&program, 1, &doors[3].live) == LUS_HANDLE);
    IS(lus_live_count((lus_live *)(void *)&program, &entries) == LUS_HANDLE);
    for (int k = 0; k < DOORS; k++) {
        MUST(lus_free(&doors[k].live));
        MUST(lus_free(&doors[k].twin));
    }
    IS(lus_live_open(&program, 1, &doors[3].live) == LUS_NO_SUCH);
    IS(lus_live_count(&doors[3].live, &entries) == LUS_HANDLE && lus_live_replay(0, 0, 0) == LUS_HANDLE);
    MUST(lus_free(&program));
    return 0;
}
