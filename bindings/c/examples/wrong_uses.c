/* Wrong uses: each gives a status and changes nothing, which is looked at behind each. Then what is right: structures, save and
 * restore, a seat that holds the machine, two seats that meet, and texts. */
#include "lus.h"
#include <stdio.h>
#include <stdlib.h>
#include <string.h>

#define MUST(call) do { lus_status s_ = (call); if (s_ != LUS_OK) { printf("line %d: %s gave %d\n", __LINE__, #call, s_); exit(1); } } while (0)
#define IS(fact) do { if (!(fact)) { printf("line %d: not %s\n", __LINE__, #fact); exit(1); } } while (0)

/* The instance is as it was: it has so many entries, and counts on from there. */
static void same(lus_seat *seat, uint64_t entries) {
    uint64_t found;
    MUST(lus_count(seat, &found));
    IS(found == entries);
}

/* Behind each wrong use the counter is as it was: it has its two entries, and its seat the reply to the second. */
static lus_seat *counter;
static int uses;
static void give(lus_status got, lus_status want, const char *call) {
    lus_answer answer;
    lus_value count;
    uses++;
    if (got != want) { printf("%s gave %d, not %d\n", call, got, want); exit(1); }
    if (!counter) return;
    same(counter, 2);
    MUST(lus_outputs(counter, &answer, &count, 1));
    IS(answer.kind == LUS_OUTPUTS && answer.count == 1 && count.number == 2);
}
#define GIVES(call, want) give(call, want, #call)

/* A handle of another kind, which no compiler takes without a cast. */
#define AS(kind, handle) ((kind *)(void *)(handle))
#define EMPTY(handle) (memcmp(&(handle), &(lus_handle){0, 0}, sizeof(lus_handle)) == 0)

static const char text[] = "type pair = struct { a: int; b: bool }; type light = enum { Red, Green };\n"
    "node counter(passed: bool) returns (count: int); let count = (0 -> pre count) + (if passed then 1 else 0); tel\n"
    "node swap(p: pair; l: light) returns (q: pair; m: light);\n"
    "let q = pair { a = p.a + 1; b = not p.b }; m = if l = Red then Green else Red; tel\n";
static const char cyclic[] = "node n(x: int) returns (y: int); var a: int; let y = a; a = y; tel";

static void wrong_uses(lus_program *program, lus_seat *one) {
    lus_program other = LUS_NONE;
    lus_journal journal = LUS_NONE;
    lus_live live = LUS_NONE;
    lus_seat two[2] = {LUS_NONE, LUS_NONE}, apart[2] = {LUS_NONE, LUS_NONE};
    lus_refusal refusal;
    lus_answer answer;
    lus_formal formal;
    lus_bounds bounds;
    lus_entry entry;
    lus_value passed = {LUS_BOOL, 0, 1}, in, out;
    char names[16];
    uint32_t number;
    uint64_t count, bytes;
    /* texts */
    GIVES(lus_compile(cyclic, sizeof cyclic - 1, &other, &refusal, names, sizeof names), LUS_REFUSED);
    printf("refused E%u line %u column %u, a cycle of %u:", refusal.number, refusal.line, refusal.column, refusal.cycle);
    for (char *name = names; name < names + refusal.bytes; name += strlen(name) + 1) printf(" %s", name);
    printf("\n");
    GIVES(lus_explain(cyclic, sizeof cyclic - 1, "cyclic", 6, names, sizeof names, &bytes), LUS_SHORT);
    char *explanation = malloc(bytes);
    MUST(lus_explain(cyclic, sizeof cyclic - 1, "cyclic", 6, explanation, bytes, &bytes));
    printf("%.*s", (int)bytes, explanation);
    free(explanation);
    GIVES(lus_explain(text, sizeof text - 1, "text", 4, names, sizeof names, &bytes), LUS_NO_SUCH);
    GIVES(lus_explain(cyclic, sizeof cyclic - 1, "\xff", 1, names, sizeof names, &bytes), LUS_TEXT);
    GIVES(lus_explain(cyclic, sizeof cyclic - 1, 0, 4, names, sizeof names, &bytes), LUS_HANDLE);
    GIVES(lus_compile("\xff", 1, &other, 0, 0, 0), LUS_TEXT);
    GIVES(lus_compile(0, 5, &other, 0, 0, 0), LUS_HANDLE);
    GIVES(lus_compile(text, sizeof text - 1, program, 0, 0, 0), LUS_HANDLE);
    IS(EMPTY(other));
    /* names and numbers */
    GIVES(lus_node(program, "nothing", 7, &number), LUS_NO_SUCH);
    GIVES(lus_formals(program, 7, &number, &refusal.line), LUS_NO_SUCH);
    GIVES(lus_cost(program, 7, &bounds), LUS_NO_SUCH);
    GIVES(lus_node_name(program, 7, &bytes, names, sizeof names), LUS_NO_SUCH);
    GIVES(lus_input(program, 0, 1, &formal, 0, 0), LUS_NO_SUCH);
    GIVES(lus_field(program, 0, 2, &formal, 0, 0), LUS_NO_SUCH);
    GIVES(lus_constructor(program, 1, 2, &bytes, names, sizeof names), LUS_NO_SUCH);
    GIVES(lus_open(program, 7, two, 2), LUS_NO_SUCH);
    GIVES(lus_open(program, 0, two, 0), LUS_HANDLE);
    GIVES(lus_open(program, 0, one, 1), LUS_HANDLE);
    IS(EMPTY(two[0]) && EMPTY(two[1]));
    /* handles of another kind, or empty */
    GIVES(lus_try_step(AS(lus_seat, program), &passed, 1, &answer, &out, 1), LUS_HANDLE);
    GIVES(lus_try_step(AS(lus_seat, &other), &passed, 1, &answer, &out, 1), LUS_HANDLE);
    GIVES(lus_try_step(0, &passed, 1, &answer, &out, 1), LUS_HANDLE);
    GIVES(lus_nodes(AS(lus_program, one), &number), LUS_HANDLE);
    GIVES(lus_cost(AS(lus_program, one), 0, &bounds), LUS_HANDLE);
    GIVES(lus_entries(AS(lus_journal, one), &count), LUS_HANDLE);
    GIVES(lus_release(one), LUS_HANDLE);
    GIVES(lus_hold(AS(lus_seat, program), &count), LUS_HANDLE);
    GIVES(lus_outputs(AS(lus_seat, program), &answer, &out, 1), LUS_HANDLE);
    GIVES(lus_meet(one, AS(lus_seat, program)), LUS_HANDLE);
    GIVES(lus_free(&other), LUS_HANDLE);
    /* values and requests that are none */
    lus_value structure = {LUS_STRUCT, 0, 3}, two_true = {LUS_BOOL, 0, 2}, nil = {5, 0, 0}, typed = {LUS_BOOL, 1, 1};
    GIVES(lus_try_step(one, &structure, 1, &answer, &out, 1), LUS_VALUE);
    GIVES(lus_try_step(one, &two_true, 1, &answer, &out, 1), LUS_VALUE);
    GIVES(lus_try_step(one, &nil, 1, &answer, &out, 1), LUS_VALUE);
    GIVES(lus_try_step(one, &typed, 1, &answer, &out, 1), LUS_VALUE);
    GIVES(lus_try_call(one, 7, 0, 0, 0, &answer, 0, 0), LUS_VALUE);
    lus_value three[3] = {passed, passed, passed};
    GIVES(lus_try_burst(one, 2, three, 3, &answer, &out, 1), LUS_VALUE); /* no two rows of one length */
    GIVES(lus_try_burst(one, 0, three, 3, &answer, &out, 1), LUS_VALUE);
    GIVES(lus_try_burst(one, 65536, 0, 0, &answer, &out, 1), LUS_VALUE);
    GIVES(lus_row_text(program, &two_true, 1, names, sizeof names, &bytes), LUS_VALUE);
    /* seats that aren't all of one instance */
    MUST(lus_open(program, 0, two, 2));
    GIVES(lus_close(two, 1, &journal), LUS_SEATS);
    GIVES(lus_close(two, 2, AS(lus_journal, program)), LUS_HANDLE);
    GIVES(lus_meet(&two[0], one), LUS_SEATS);
    GIVES(lus_meet(&two[0], &two[0]), LUS_HANDLE);
    MUST(lus_open(program, 0, &apart[0], 1));
    MUST(lus_open(program, 0, &apart[1], 1));
    GIVES(lus_close(apart, 2, &journal), LUS_SEATS);
    for (int k = 0; k < 2; k++) {
        same(&apart[k], 0);
        MUST(lus_free(&apart[k]));
    }
    same(&two[0], 0);
    same(&two[1], 0);
    MUST(lus_hold(&two[0], &count));
    GIVES(lus_try_step(&two[1], &passed, 1, &answer, &out, 1), LUS_BUSY);
    GIVES(lus_try_step(&two[0], &passed, 1, &answer, &out, 1), LUS_HANDLE);
    GIVES(lus_close(two, 2, &journal), LUS_HANDLE);
    MUST(lus_release(&two[0]));
    MUST(lus_close(two, 2, &journal));
    /* an entry, names and a handle that are none */
    GIVES(lus_entry_at(&journal, 0, &entry, &in, 1, &out, 1), LUS_NO_SUCH);
    GIVES(lus_entry_text(&journal, 0, "panel", 6, names, sizeof names, &bytes), LUS_NO_SUCH);
    GIVES(lus_journal_text(&journal, "\xff", 1, "panel", 6, names, sizeof names, &bytes), LUS_TEXT);
    /* names with which no journal is read back */
    GIVES(lus_entry_text(&journal, 0, "panel\0the clock", 16, names, sizeof names, &bytes), LUS_VALUE);
    GIVES(lus_journal_text(&journal, "front door", 10, "panel", 6, names, sizeof names, &bytes), LUS_VALUE);
    GIVES(lus_journal_text(&journal, "door", 4, "panel\n1 clock reset -> done", 28, names, sizeof names, &bytes), LUS_VALUE);
    MUST(lus_entries(&journal, &count));
    IS(count == 0);
    MUST(lus_free(&journal));
    GIVES(lus_free(&journal), LUS_HANDLE);
    MUST(lus_live_open(program, 0, &live));
    MUST(lus_live_step(&live, &passed, 1, &answer, &out, 1));
    GIVES(lus_live_line(&live, "panel step(true) -> (1)\n2 clock", 31, names, sizeof names, &bytes), LUS_VALUE);
    GIVES(lus_live_line(&live, "the panel", 9, names, sizeof names, &bytes), LUS_VALUE);
    MUST(lus_live_line(&live, "#7", 2, names, 0, &bytes) == LUS_SHORT ? LUS_OK : LUS_VALUE); /* a word, and so a name */
    MUST(lus_free(&live));
    printf("%d wrong uses, each behind which the counter is as it was\n", uses);
}

static void meetings(lus_program *program) {
    lus_seat two[2] = {LUS_NONE, LUS_NONE};
    lus_value passed = {LUS_BOOL, 0, 1}, out;
    lus_answer answer;
    lus_journal journal = LUS_NONE;
    uint64_t count;
    MUST(lus_open(program, 0, two, 2));
    MUST(lus_try_step(&two[0], &passed, 1, &answer, &out, 1));
    MUST(lus_meet(&two[0], &two[1]));
    MUST(lus_hold(&two[1], &count));
    GIVES(lus_hold(&two[0], &count), LUS_BUSY);
    IS(count == 1);
    MUST(lus_free(&two[1])); /* a seat that is let go gives the machine back */
    MUST(lus_try_step(&two[0], &passed, 1, &answer, &out, 1));
    IS(out.number == 2);
    GIVES(lus_close(two, 1, &journal), LUS_SEATS);
    MUST(lus_free(&two[0]));
}

static void structures(lus_program *program) {
    lus_seat seat = LUS_NONE;
    lus_value in[4] = {{LUS_STRUCT, 0, 2}, {LUS_INT, 0, 41}, {LUS_BOOL, 0, 0}, {LUS_ENUM, 1, 0}}, out[4];
    lus_answer answer;
    char line[64];
    uint64_t bytes;
    uint32_t node;
    lus_bounds bounds;
    MUST(lus_node(program, "swap", 4, &node));
    MUST(lus_cost(program, node, &bounds));
    IS(bounds.orders > 0 && bounds.row >= 4 && bounds.instance_bytes % 40 == 0 && bounds.saved_bytes <= bounds.instance_bytes);
    MUST(lus_open(program, node, &seat, 1));
    MUST(lus_try_step(&seat, in, 4, &answer, out, 4));
    IS(answer.count == 4 && out[0].kind == LUS_STRUCT && out[0].number == 2 && out[1].number == 42 && out[2].number == 1);
    MUST(lus_row_text(program, in, 4, line, sizeof line, &bytes));
    printf("swap%.*s", (int)bytes, line);
    MUST(lus_row_text(program, out, 4, line, sizeof line, &bytes));
    printf(" -> %.*s\n", (int)bytes, line);
    MUST(lus_free(&seat));
}

/* Three instants in one call; then three of which the second is no row of the node's, and none is made. */
static void bursts(lus_program *program) {
    lus_seat seat = LUS_NONE;
    lus_journal journal = LUS_NONE;
    lus_value in[3] = {{LUS_BOOL, 0, 1}, {LUS_BOOL, 0, 0}, {LUS_BOOL, 0, 1}}, out[3], again[3];
    lus_answer answer;
    lus_entry entry;
    char line[128];
    uint64_t bytes;
    MUST(lus_open(program, 0, &seat, 1));
    GIVES(lus_outputs(&seat, &answer, out, 3), LUS_NO_SUCH);
    GIVES(lus_try_burst(&seat, 3, in, 3, &answer, out, 2), LUS_SHORT);
    IS(answer.kind == LUS_ROWS && answer.count == 3);
    MUST(lus_outputs(&seat, &answer, out, 3));
    IS(out[0].number == 1 && out[1].number == 1 && out[2].number == 2);
    in[1].kind = LUS_INT;
    MUST(lus_try_burst(&seat, 3, in, 3, &answer, out, 3));
    IS(answer.kind == LUS_NOT_DONE && answer.why == LUS_SHAPE);
    MUST(lus_try_burst(&seat, 0, 0, 0, &answer, out, 3));
    IS(answer.kind == LUS_ROWS && answer.count == 0);
    MUST(lus_close(&seat, 1, &journal));
    MUST(lus_entry_at(&journal, 0, &entry, in, 3, again, 3));
    IS(entry.request == LUS_BURST && entry.slot == 3 && entry.inputs == 3 && entry.reply == LUS_ROWS && again[2].number == 2);
    for (uint64_t k = 0; k < 3; k++) {
        MUST(lus_entry_text(&journal, k, "panel", 6, line, sizeof line, &bytes));
        printf("%.*s", (int)bytes, line);
    }
    MUST(lus_free(&journal));
}

static void save_and_restore(lus_seat *seat) {
    lus_value passed = {LUS_BOOL, 0, 1}, out = {9, 9, 9};
    lus_answer answer;
    MUST(lus_try_step(seat, &passed, 1, &answer, &out, 1));
    MUST(lus_try_call(seat, LUS_SAVE, 3, 0, 0, &answer, 0, 0));
    MUST(lus_try_call(seat, LUS_RESET, 0, 0, 0, &answer, 0, 0));
    MUST(lus_try_step(seat, &passed, 1, &answer, &out, 1));
    IS(out.number == 1);
    MUST(lus_try_call(seat, LUS_RESTORE, 3, 0, 0, &answer, 0, 0));
    GIVES(lus_try_step(seat, &passed, 1, &answer, 0, 0), LUS_SHORT); /* the call was made */
    IS(answer.count == 1);
    MUST(lus_outputs(seat, &answer, &out, 1));
    IS(out.number == 4);
    MUST(lus_try_call(seat, LUS_RESTORE, 9, 0, 0, &answer, 0, 0));
    IS(answer.kind == LUS_NOT_DONE && answer.why == LUS_SHAPE);
    MUST(lus_try_step(seat, 0, 0, &answer, 0, 0)); /* a row of nothing is a row: the machine refuses it */
    IS(answer.kind == LUS_NOT_DONE && answer.why == LUS_SHAPE);
}

int main(void) {
    lus_program program = LUS_NONE;
    lus_seat one = LUS_NONE;
    lus_journal journal = LUS_NONE;
    lus_value passed = {LUS_BOOL, 0, 1}, out;
    lus_answer answer;
    char lines[512];
    uint64_t bytes;
    IS(lus_version() == LUS_VERSION);
    MUST(lus_compile(text, sizeof text - 1, &program, 0, 0, 0));
    MUST(lus_open(&program, 0, &one, 1));
    MUST(lus_try_step(&one, &passed, 1, &answer, &out, 1));
    MUST(lus_try_step(&one, &passed, 1, &answer, &out, 1));
    counter = &one;
    wrong_uses(&program, &one);
    counter = 0;
    meetings(&program);
    structures(&program);
    bursts(&program);
    save_and_restore(&one);
    MUST(lus_close(&one, 1, &journal));
    MUST(lus_entry_text(&journal, 8, "panel", 6, lines, sizeof lines, &bytes));
    printf("%.*s", (int)bytes, lines);
    MUST(lus_journal_text(&journal, "door", 4, "panel", 6, lines, sizeof lines, &bytes));
    printf("%.*s", (int)bytes, lines);
    MUST(lus_free(&journal));
    MUST(lus_free(&program));
    return 0;
}
