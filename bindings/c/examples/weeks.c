/* What a process takes whose live instances are called for weeks: `weeks CALLS INSTANCES` opens so many thermostats, calls one of them
 * so often, each call with its line, and prints the bytes of the heap that an idle instance takes, those by which the calls let the heap
 * grow, how many calls a second were made, and the most memory that the process had. */
#include "lus.h"
#include <malloc.h>
#include <stdio.h>
#include <stdlib.h>
#include <string.h>
#include <time.h>

static const char text[] =
    "node thermostat(temperature: int; low: int; high: int) returns (heat: bool; minutes: int);\n"
    "let\n"
    "  heat = if temperature < low then true else if temperature > high then false else (false -> pre heat);\n"
    "  minutes = if heat then (0 -> pre minutes) + 1 else 0;\n"
    "tel\n";

static void must(lus_status status) {
    if (status != LUS_OK) { printf("status %d\n", status); exit(1); }
}

static double now(void) {
    struct timespec t;
    clock_gettime(CLOCK_PROCESS_CPUTIME_ID, &t);
    return t.tv_sec + t.tv_nsec / 1e9;
}

/* The bytes that the heap took from the system. (Those in use say less: the allocator counts what it keeps at hand among them.) */
static size_t heap(void) {
    struct mallinfo2 heap = mallinfo2();
    return heap.arena + heap.hblkhd;
}

/* The most memory that the process had, in KiB. */
static long most(void) {
    char line[128];
    long found = 0;
    FILE *status = fopen("/proc/self/status", "r");
    while (status && fgets(line, sizeof line, status)) sscanf(line, "VmHWM: %ld", &found);
    if (status) fclose(status);
    return found;
}

int main(int count, char **words) {
    long calls = count > 1 ? atol(words[1]) : 10000, instances = count > 2 ? atol(words[2]) : 1;
    lus_program program = LUS_NONE;
    lus_live *lives = calloc(instances, sizeof *lives);
    if (!lives || instances < 1) return 1;
    must(lus_compile(text, strlen(text), &program, 0, 0, 0));
    size_t before = mallinfo2().uordblks;
    for (long k = 0; k < instances; k++) must(lus_live_open(&program, 0, &lives[k]));
    printf("an idle instance: %zu bytes\n", (mallinfo2().uordblks - before) / instances);
    double begun = now();
    size_t first = 0;
    for (long k = 0; k < calls; k++) {
        lus_value inputs[] = {{LUS_INT, 0, 15 + k % 10}, {LUS_INT, 0, 19}, {LUS_INT, 0, 22}}, outputs[2];
        lus_answer answer;
        uint64_t bytes;
        char line[96];
        must(lus_live_step(&lives[0], inputs, 3, &answer, outputs, 2));
        must(lus_live_line(&lives[0], "panel", 5, line, sizeof line, &bytes));
        if (k == 100) first = heap();
    }
    double took = now() - begun;
    printf("%ld calls with their lines: %ld bytes more than 100 calls, %.0f a second of the processor\n", calls,
           calls > 100 ? (long)(heap() - first) : 0, calls / took);
    printf("most memory: %ld KiB\n", most());
    for (long k = 0; k < instances; k++) must(lus_free(&lives[k]));
    must(lus_free(&program));
    free(lives);
    return 0;
}
