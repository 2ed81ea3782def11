/* The calls of lus.h: tests for null, and then the proved calls. An empty slice of Rattle's has a pointer that isn't null. */
#include "lus.h"
#include <stdatomic.h>

typedef lus_handle H;
lus_status lus_raw_compile(const uint8_t *, size_t, H *, lus_refusal *, uint8_t *, size_t);
lus_status lus_raw_explain(const uint8_t *, size_t, const uint8_t *, size_t, uint8_t *, size_t, uint64_t *);
lus_status lus_raw_nodes(H *, uint32_t *);
lus_status lus_raw_node(H *, const uint8_t *, size_t, uint32_t *);
lus_status lus_raw_node_name(H *, uint32_t, uint64_t *, uint8_t *, size_t);
lus_status lus_raw_formals(H *, uint32_t, uint32_t *, uint32_t *);
lus_status lus_raw_cost(H *, uint32_t, lus_bounds *);
lus_status lus_raw_input(H *, uint32_t, uint32_t, lus_formal *, uint8_t *, size_t);
lus_status lus_raw_output(H *, uint32_t, uint32_t, lus_formal *, uint8_t *, size_t);
lus_status lus_raw_field(H *, uint32_t, uint32_t, lus_formal *, uint8_t *, size_t);
lus_status lus_raw_constructor(H *, uint32_t, uint32_t, uint64_t *, uint8_t *, size_t);
lus_status lus_raw_row_text(H *, const lus_value *, size_t, uint8_t *, size_t, uint64_t *);
lus_status lus_raw_open(H *, uint32_t, uint32_t, uint64_t, H *);
lus_status lus_raw_try_call(H *, uint32_t, uint64_t, const lus_value *, size_t, lus_answer *, lus_value *, size_t);
lus_status lus_raw_outputs(H *, lus_answer *, lus_value *, size_t);
lus_status lus_raw_count(H *, uint64_t *);
lus_status lus_raw_number(H *, uint32_t *);
lus_status lus_raw_meet(H *, H *);
lus_status lus_raw_hold(H *, uint64_t *);
lus_status lus_raw_release(H *);
lus_status lus_raw_pop(H *, H *);
lus_status lus_raw_gather_none(H *);
lus_status lus_raw_gather(H *, H *);
lus_status lus_raw_close(H *);
lus_status lus_raw_entries(H *, uint64_t *);
lus_status lus_raw_entry(H *, uint64_t, lus_entry *, lus_value *, size_t, lus_value *, size_t);
lus_status lus_raw_journal_text(H *, const uint8_t *, size_t, const uint8_t *, size_t, uint8_t *, size_t, uint64_t *);
lus_status lus_raw_entry_text(H *, uint64_t, const uint8_t *, size_t, uint8_t *, size_t, uint64_t *);
lus_status lus_raw_live_open(H *, uint32_t, H *);
lus_status lus_raw_live_call(H *, uint32_t, uint64_t, const lus_value *, size_t, lus_answer *, lus_value *, size_t);
lus_status lus_raw_live_replay(H *, const uint8_t *, size_t);
lus_status lus_raw_live_entry(H *, lus_entry *, lus_value *, size_t, lus_value *, size_t);
lus_status lus_raw_live_line(H *, const uint8_t *, size_t, uint8_t *, size_t, uint64_t *);
lus_status lus_raw_live_count(H *, uint64_t *);
lus_status lus_raw_free(H *);

static uint64_t none[2];
#define BYTES(p, n) ((n) ? (uint8_t *)(p) : (uint8_t *)none)
#define VALUES(p, n) ((n) ? (lus_value *)(p) : (lus_value *)none)
#define NEED(x) do { if (!(x)) return LUS_HANDLE; } while (0)

uint32_t lus_version(void) { return LUS_VERSION; }
lus_status lus_compile(const char *text, size_t n, lus_program *out, lus_refusal *refusal, char *names, size_t room) {
    lus_refusal own;
    NEED((text || !n) && out && (names || !room));
    return lus_raw_compile(BYTES(text, n), n, &out->own, refusal ? refusal : &own, BYTES(names, room), room);
}
lus_status lus_explain(const char *text, size_t n, const char *name, size_t m, char *explanation, size_t room, uint64_t *bytes) {
    NEED((text || !n) && (name || !m) && (explanation || !room) && bytes);
    return lus_raw_explain(BYTES(text, n), n, BYTES(name, m), m, BYTES(explanation, room), room, bytes);
}
lus_status lus_nodes(lus_program *p, uint32_t *count) { NEED(p && count); return lus_raw_nodes(&p->own, count); }
lus_status lus_node(lus_program *p, const char *name, size_t n, uint32_t *node) {
    NEED(p && (name || !n) && node);
    return lus_raw_node(&p->own, BYTES(name, n), n, node);
}
lus_status lus_node_name(lus_program *p, uint32_t node, uint64_t *bytes, char *name, size_t n) {
    NEED(p && bytes && (name || !n));
    return lus_raw_node_name(&p->own, node, bytes, BYTES(name, n), n);
}
lus_status lus_formals(lus_program *p, uint32_t node, uint32_t *i, uint32_t *o) { NEED(p && i && o && i != o); return lus_raw_formals(&p->own, node, i, o); }
lus_status lus_cost(lus_program *p, uint32_t node, lus_bounds *bounds) { NEED(p && bounds); return lus_raw_cost(&p->own, node, bounds); }
lus_status lus_input(lus_program *p, uint32_t node, uint32_t k, lus_formal *f, char *name, size_t n) {
    NEED(p && f && (name || !n));
    return lus_raw_input(&p->own, node, k, f, BYTES(name, n), n);
}
lus_status lus_output(lus_program *p, uint32_t node, uint32_t k, lus_formal *f, char *name, size_t n) {
    NEED(p && f && (name || !n));
    return lus_raw_output(&p->own, node, k, f, BYTES(name, n), n);
}
lus_status lus_field(lus_program *p, uint32_t s, uint32_t k, lus_formal *f, char *name, size_t n) {
    NEED(p && f && (name || !n));
    return lus_raw_field(&p->own, s, k, f, BYTES(name, n), n);
}
lus_status lus_constructor(lus_program *p, uint32_t t, uint32_t k, uint64_t *bytes, char *name, size_t n) {
    NEED(p && bytes && (name || !n));
    return lus_raw_constructor(&p->own, t, k, bytes, BYTES(name, n), n);
}
lus_status lus_row_text(lus_program *p, const lus_value *values, size_t n, char *text, size_t room, uint64_t *bytes) {
    NEED(p && (values || !n) && (text || !room) && bytes);
    return lus_raw_row_text(&p->own, VALUES(values, n), n, BYTES(text, room), room, bytes);
}
lus_status lus_open(lus_program *p, uint32_t node, lus_seat *seats, uint32_t count) {
    static _Atomic uint64_t ids;
    H all = {0, 0};
    NEED(p && seats && count);
    for (uint32_t k = 0; k < count; k++) NEED(!seats[k].own.live && (void *)&seats[k] != p);
    lus_status status = lus_raw_open(&p->own, node, count, atomic_fetch_add(&ids, 1), &all);
    for (uint32_t k = 0; status == LUS_OK && k < count; k++) status = lus_raw_pop(&all, &seats[k].own);
    if (status != LUS_OK)
        for (uint32_t k = 0; k < count; k++) lus_raw_free(&seats[k].own);
    lus_raw_free(&all);
    return status;
}
lus_status lus_try_call(lus_seat *s, uint32_t request, uint64_t slot, const lus_value *in, size_t n, lus_answer *a, lus_value *out, size_t room) {
    NEED(s && (in || !n) && a && (out || !room));
    return lus_raw_try_call(&s->own, request, slot, VALUES(in, n), n, a, VALUES(out, room), room);
}
lus_status lus_outputs(lus_seat *s, lus_answer *a, lus_value *out, size_t room) {
    NEED(s && a && (out || !room));
    return lus_raw_outputs(&s->own, a, VALUES(out, room), room);
}
lus_status lus_count(lus_seat *s, uint64_t *count) { NEED(s && count); return lus_raw_count(&s->own, count); }
lus_status lus_number(lus_seat *s, uint32_t *number) { NEED(s && number); return lus_raw_number(&s->own, number); }
lus_status lus_meet(lus_seat *s, lus_seat *t) { NEED(s && t && s != t); return lus_raw_meet(&s->own, &t->own); }
lus_status lus_hold(lus_seat *s, uint64_t *count) { NEED(s && count); return lus_raw_hold(&s->own, count); }
lus_status lus_release(lus_seat *s) { NEED(s); return lus_raw_release(&s->own); }
lus_status lus_close(lus_seat *seats, uint32_t count, lus_journal *journal) {
    NEED(seats && count && journal && !journal->own.live);
    H all = {0, 0};
    uint32_t k = 0;
    lus_status status = lus_raw_gather_none(&all);
    for (; status == LUS_OK && k < count; k++)
        if ((status = lus_raw_gather(&all, &seats[k].own)) != LUS_OK) break;
    if (status == LUS_OK) status = lus_raw_close(&all);
    if (status == LUS_OK) {
        journal->own = all; /* moved: `all` is never used again */
        return LUS_OK;
    }
    while (k > 0 && lus_raw_pop(&all, &seats[k - 1].own) == LUS_OK) k--;
    lus_raw_free(&all);
    return status;
}
lus_status lus_entries(lus_journal *j, uint64_t *count) { NEED(j && count); return lus_raw_entries(&j->own, count); }
lus_status lus_entry_at(lus_journal *j, uint64_t place, lus_entry *e, lus_value *in, size_t n, lus_value *out, size_t room) {
    NEED(j && e && (in || !n) && (out || !room));
    return lus_raw_entry(&j->own, place, e, VALUES(in, n), n, VALUES(out, room), room);
}
lus_status lus_journal_text(lus_journal *j, const char *instance, size_t m, const char *callers, size_t n, char *text, size_t room, uint64_t *bytes) {
    NEED(j && (instance || !m) && (callers || !n) && (text || !room) && bytes);
    return lus_raw_journal_text(&j->own, BYTES(instance, m), m, BYTES(callers, n), n, BYTES(text, room), room, bytes);
}
lus_status lus_entry_text(lus_journal *j, uint64_t place, const char *callers, size_t n, char *text, size_t room, uint64_t *bytes) {
    NEED(j && (callers || !n) && (text || !room) && bytes);
    return lus_raw_entry_text(&j->own, place, BYTES(callers, n), n, BYTES(text, room), room, bytes);
}
/* A call takes a live instance out of its handle, and puts it back: another call that comes meanwhile finds an empty handle. */
static int take(lus_live *live, H *own) {
    uint64_t full = 1;
    if (!live || !atomic_compare_exchange_strong((_Atomic uint64_t *)&live->own.live, &full, 0)) return 0;
    *own = (H){1, live->own.kept};
    return 1;
}
static lus_status put(lus_live *live, const H *own, lus_status status) {
    live->own.kept = own->kept;
    atomic_store((_Atomic uint64_t *)&live->own.live, own->live);
    return status;
}
lus_status lus_live_open(lus_program *p, uint32_t node, lus_live *live) {
    NEED(p && live && (void *)p != live);
    return lus_raw_live_open(&p->own, node, &live->own);
}
lus_status lus_live_call(lus_live *live, uint32_t request, uint64_t slot, const lus_value *in, size_t n, lus_answer *a, lus_value *out, size_t room) {
    H own;
    NEED((in || !n) && a && (out || !room) && take(live, &own));
    return put(live, &own, lus_raw_live_call(&own, request, slot, VALUES(in, n), n, a, VALUES(out, room), room));
}
lus_status lus_live_replay(lus_live *live, const char *line, size_t n) {
    H own;
    NEED((line || !n) && take(live, &own));
    return put(live, &own, lus_raw_live_replay(&own, BYTES(line, n), n));
}
lus_status lus_live_entry(lus_live *live, lus_entry *e, lus_value *in, size_t n, lus_value *out, size_t room) {
    H own;
    NEED(e && (in || !n) && (out || !room) && take(live, &own));
    return put(live, &own, lus_raw_live_entry(&own, e, VALUES(in, n), n, VALUES(out, room), room));
}
lus_status lus_live_line(lus_live *live, const char *caller, size_t n, char *text, size_t room, uint64_t *bytes) {
    H own;
    NEED((caller || !n) && (text || !room) && bytes && take(live, &own));
    return put(live, &own, lus_raw_live_line(&own, BYTES(caller, n), n, BYTES(text, room), room, bytes));
}
lus_status lus_live_count(lus_live *live, uint64_t *count) {
    H own;
    NEED(count && take(live, &own));
    return put(live, &own, lus_raw_live_count(&own, count));
}
lus_status lus_free(void *h) { NEED(h); return lus_raw_free(h); }
