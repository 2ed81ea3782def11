/* Steps a thermostat: cc thermostat.c liblus.a -o thermostat */
#include "lus.h"
#include <stdio.h>
#include <stdlib.h>
#include <string.h>

static const char text[] =
    "node thermostat(temperature: int; low: int; high: int) returns (heat: bool; minutes: int);\n"
    "let\n"
    "  heat = if temperature < low then true else if temperature > high then false else (false -> pre heat);\n"
    "  minutes = if heat then (0 -> pre minutes) + 1 else 0;\n"
    "tel\n";

static const char wrong[] = "node n(x: int) returns (y: int); let y = z; tel";

static void must(lus_status status) {
    if (status != LUS_OK) { printf("status %d\n", status); exit(1); }
}

int main(void) {
    lus_program program = LUS_NONE;
    lus_seat seat = LUS_NONE;
    lus_journal journal = LUS_NONE;
    uint32_t node;
    uint64_t bytes;
    char lines[1024];
    must(lus_explain(wrong, strlen(wrong), "wrong.lus", 9, lines, sizeof lines, &bytes));
    fwrite(lines, 1, bytes, stdout);
    must(lus_compile(text, strlen(text), &program, 0, 0, 0));
    must(lus_node(&program, "thermostat", 10, &node));
    must(lus_open(&program, node, &seat, 1));
    for (int temperature = 18; temperature <= 24; temperature += 2) {
        lus_value inputs[] = {{LUS_INT, 0, temperature}, {LUS_INT, 0, 19}, {LUS_INT, 0, 22}}, outputs[2];
        lus_answer answer;
        must(lus_try_step(&seat, inputs, 3, &answer, outputs, 2));
        printf("%d: heat %d, minutes %d\n", temperature, (int)outputs[0].number, (int)outputs[1].number);
    }
    must(lus_close(&seat, 1, &journal));
    must(lus_journal_text(&journal, "kitchen", 7, "panel", 6, lines, sizeof lines, &bytes));
    fwrite(lines, 1, bytes, stdout);
    must(lus_free(&journal));
    must(lus_free(&program));
    return 0;
}
