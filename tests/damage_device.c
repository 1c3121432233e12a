/* Damage at a device's end: its calls on states and buffers that no program should lend, and on any bytes. Prints counts; exit status
 * 1 on a fault.
 *
 *   damage_device [SEED [CALLS]]
 *
 * A device's end is built by a short run of calls, before the host's CNXN and after it in both modes. Then each call is made on random
 * state bytes; on the state with single bytes changed; with every buffer one byte short; and CALLS calls are made in a row on the
 * state as they leave it, with frames of every kind, other tables of names, and frames that are cut or changed.
 * Each call is foretold, and its number, its answer and every byte of every buffer compared. What a device's end does itself is written
 * here again after docs/SCOPE.md; what it does as the host's end does is foretold by the calls of adb.h, on a copy of the connection's
 * part of the state. The refusals ahead of a call's steps are tested as damage.c does, for a state with the bytes ahead of it.
 */
#include "lent.h"

#include <adb_device.h>

#define CHANNELS 6
#define PAYLOAD 64
#define MAX_RX 200
#define INITIAL_ACK 100
#define OUT 96
#define NONE UINT32_MAX
#define INNER ADB_DEVICE_STATE_CONNECTION
#define TEXT "device::ro.product.name=x;features=shell_v2,delayed_ack"

/* Four names; what stands behind the last zero byte is none. */
static const uint8_t table[] = { 't', 'c', 'p', ':', '7', 0, 's', 'y', 'n', 'c', ':', 0, 0, 't', 'c', 'p', ':', '7', 0, 'e', 'c', 'h',
                                 'o', 0, 't', 'a', 'i', 'l' };

/* ---- the calls */

enum kind { DISPATCH, SETTLE, TAKE, READ, WRITE, CLOSE };

struct call {
    const char *name;
    enum kind kind;
    size_t slot;
    uint32_t local;
    size_t number; /* want, room of the reader's buffer, or length of the data */
    uint8_t received[160];
    size_t received_len;
};

#define MAX_CALLS 64
static struct call calls[MAX_CALLS];
static int call_count;
static const struct call *running;
static const char *testing = "setup", *base_name = "";

static void fault(const char *what, uint64_t a, uint64_t b)
{
    printf("FAULT: %s, %s, %s: %s (%" PRIu64 ", %" PRIu64 ")\n", testing, base_name, running ? running->name : "-", what, a, b);
    exit(1);
}

static int has_out(enum kind k) { return k != TAKE; }
static int has_buf(enum kind k) { return k == TAKE || k == READ; }
static int has_names(enum kind k) { return k == DISPATCH || k == READ || k == WRITE; }

#define OF(b) ptr(b), len[b]

static uint32_t make_call(const struct call *c)
{
    switch (c->kind) {
    case DISPATCH: return adb_device_dispatch(OF(STATE), OF(RX), OF(OPENS), OF(NAMES), OF(RECEIVED), OF(OUTGOING), OF(ANSWER));
    case SETTLE: return adb_device_settle(OF(STATE), OF(RX), OF(OPENS), c->slot, c->local, c->number, OF(OUTGOING), OF(ANSWER));
    case TAKE: return adb_device_take(OF(STATE), OF(RX), OF(OPENS), c->slot, c->local, OF(BUF), OF(ANSWER));
    case READ:
        return adb_device_read(OF(STATE), OF(RX), OF(OPENS), OF(NAMES), c->slot, c->local, OF(RECEIVED), OF(OUTGOING), OF(BUF),
                               OF(ANSWER));
    case WRITE:
        return adb_device_write(OF(STATE), OF(RX), OF(OPENS), OF(NAMES), c->slot, c->local, OF(DATA), OF(RECEIVED), OF(OUTGOING),
                                OF(ANSWER));
    case CLOSE: return adb_device_close(OF(STATE), OF(RX), OF(OPENS), c->slot, c->local, OF(OUTGOING), OF(ANSWER));
    }
    return NONE;
}

/* ---- what a call does, foretold on copies of what is lent */

static uint8_t f_state[MOST], f_rx[MOST], f_opens[MOST], f_out[MOST], f_buf[MOST], f_values[ADB_ANSWER_LEN];
static uint64_t f_used, f_written, f_value[4];

#define F_LENT f_state + INNER, len[STATE] - INNER, f_rx, len[RX], f_opens, len[OPENS]
#define F_OUT f_out, len[OUTGOING], f_values, sizeof f_values

static void begin_copies(void)
{
    memcpy(f_state, before[STATE], len[STATE]);
    memcpy(f_rx, before[RX], len[RX]);
    memcpy(f_opens, before[OPENS], len[OPENS]);
    memcpy(f_out, before[OUTGOING], len[OUTGOING]);
    memcpy(f_buf, before[BUF], len[BUF]);
    f_used = f_written = 0;
    memset(f_value, 0, sizeof f_value);
}

/* The refusal ahead of the call's steps, or NONE. */
static uint32_t ahead(const struct call *c)
{
    const uint8_t *s = before[STATE], *inner = s + INNER;
    if (len[STATE] < ADB_DEVICE_STATE_LEN || len[ANSWER] < ADB_ANSWER_LEN) return ADB_REFUSED_STORE_SHORT;
    if (s[ADB_DEVICE_STATE_CONNECTED] > 1 || adb_le32(s + ADB_DEVICE_STATE_TEXT_LEN) > ADB_DEVICE_TEXT_MAX || !is_whole(inner))
        return ADB_REFUSED_BROKEN_STATE;
    if (len[RX] < rx_need(inner) || len[OPENS] < opens_need(inner)) return ADB_REFUSED_STORE_SHORT;
    if (has_out(c->kind) && len[OUTGOING] < ADB_OUT_MIN) return ADB_REFUSED_OUT_SHORT;
    return NONE;
}

struct packet {
    uint32_t arg0, arg1;
    size_t n, used;
    const uint8_t *payload;
};

static int is(const uint8_t *received, const char *name) { return !memcmp(received, name, 4); }

/* A whole packet that decodes, at the start of the received bytes. */
static int decodes(struct packet *p)
{
    static const char *const commands[] = { "SYNC", "CNXN", "OPEN", "OKAY", "CLSE", "WRTE", "AUTH", "STLS" };
    const uint8_t *r = before[RECEIVED];
    int known = 0;
    if (len[RECEIVED] < ADB_HEADER_LEN) return 0;
    for (int i = 0; i < 8; i++) known |= is(r, commands[i]);
    if (!known || adb_le32(r + 20) != ~adb_le32(r)) return 0;
    p->arg0 = adb_le32(r + 4);
    p->arg1 = adb_le32(r + 8);
    p->n = adb_le32(r + 12);
    p->used = ADB_HEADER_LEN + p->n;
    p->payload = r + ADB_HEADER_LEN;
    return p->n <= adb_le32(f_state + INNER + ADB_STATE_MAX_PAYLOAD) && p->used <= len[RECEIVED] &&
           (adb_le32(r + 16) == 0 || adb_le32(r + 16) == sum(p->payload, p->n));
}

/* Where the name stands in the table, or SIZE_MAX. */
static size_t place_of(const uint8_t *name, size_t n)
{
    if (n && name[n - 1] == 0) n--;
    for (size_t at = 0, end; at < len[NAMES]; at = end + 1) {
        for (end = at; end < len[NAMES] && before[NAMES][end]; end++) {}
        if (end < len[NAMES] && end - at == n && !memcmp(before[NAMES] + at, name, n)) return at;
    }
    return SIZE_MAX;
}

static uint8_t *f_slot(uint32_t local)
{
    for (size_t i = 0; i < adb_le64(f_state + INNER + ADB_STATE_CHANNELS); i++) {
        uint8_t *s = f_state + INNER + ADB_STATE_SLOT(i);
        if (s[ADB_STATE_SLOT_TAG] & ADB_TAG_FILLED && adb_le32(s + ADB_STATE_SLOT_LOCAL) == local) return s;
    }
    return NULL;
}

static int is_open(const uint8_t *slot) { return (slot[ADB_STATE_SLOT_TAG] >> ADB_TAG_STATE_SHIFT & 3) == 1; }

enum verdict { PASSES, IGNORED, REFUSED, TAKEN };

/* What the packet is to a device's end that is connected. */
static enum verdict meets(const struct packet *p, size_t *place)
{
    const uint8_t *r = before[RECEIVED], *slot;
    if (is(r, "CNXN")) return IGNORED;
    if (is(r, "OPEN")) {
        if (!p->arg0) return IGNORED;
        if (f_state[INNER + ADB_STATE_DELAYED] != (p->arg1 != 0)) return REFUSED;
        *place = place_of(p->payload, p->n);
        return *place == SIZE_MAX ? REFUSED : TAKEN;
    }
    if (!is(r, "OKAY") && !is(r, "WRTE") && !is(r, "CLSE")) return PASSES;
    slot = p->arg1 ? f_slot(p->arg1) : NULL;
    return slot && is_open(slot) ? PASSES : IGNORED;
}

/* A call of the host's end, on the copies; from `said` on it is added to what is foretold. */
static uint32_t adds(uint32_t said)
{
    f_used += adb_answer_used(f_values);
    f_written += adb_answer_written(f_values);
    for (int i = 0; i < 4; i++) f_value[i] = adb_answer_value(f_values, i);
    return said;
}

static int64_t budget_of(const uint8_t *slot)
{
    const uint64_t v = adb_le64(slot + ADB_STATE_SLOT_BUDGET);
    return v >> 63 ? -(int64_t)(UINT64_MAX - v) - 1 : (int64_t)v;
}

/* The host's write cuts a WRTE to the budget: it is made with one that does not count, and what is left of the right one is put there. */
static uint32_t sends(const struct call *c, uint8_t *slot, int64_t budget, size_t used)
{
    uint32_t said;
    poke(slot, ADB_STATE_SLOT_BUDGET, 8, INT64_MAX);
    said = adds(adb_write(F_LENT, c->slot, c->local, before[DATA], len[DATA], NULL, 0, F_OUT));
    if (said != ADB_DONE) begin_copies(); /* too short an outgoing buffer: the OKAY is not used either */
    else poke(slot, ADB_STATE_SLOT_BUDGET, 8, (uint64_t)(budget - (int64_t)f_value[0])), f_used = used;
    return said;
}

static uint32_t writes(const struct call *c, const uint8_t *received, size_t n)
{
    struct packet p;
    uint8_t *slot = c->slot < ADB_MAX_CHANNELS ? f_state + INNER + ADB_STATE_SLOT(c->slot) : NULL;
    if (len[DATA] && f_state[INNER + ADB_STATE_DELAYED] && slot && slot[ADB_STATE_SLOT_TAG] & ADB_TAG_FILLED && is_open(slot) &&
        adb_le32(slot + ADB_STATE_SLOT_LOCAL) == c->local) {
        int64_t budget = budget_of(slot);
        if (budget > 0) return sends(c, slot, budget, 0);
        /* Its own OKAY, which may bring the credit. */
        if (n && decodes(&p) && is(received, "OKAY") && p.arg1 == c->local && p.n == 4 && !(p.payload[3] >> 7)) {
            budget += adb_le32(p.payload);
            if (budget > 0) return sends(c, slot, budget, p.used);
        }
    }
    return adds(adb_write(F_LENT, c->slot, c->local, before[DATA], len[DATA], received, n, F_OUT));
}

static uint32_t steps(const struct call *c, const uint8_t *received, size_t n)
{
    switch (c->kind) {
    case DISPATCH: return adds(adb_dispatch(F_LENT, received, n, F_OUT));
    case SETTLE: return adds(adb_settle(F_LENT, c->slot, c->local, c->number, F_OUT));
    case TAKE: return adds(adb_take(F_LENT, c->slot, c->local, f_buf, len[BUF], f_values, sizeof f_values));
    case READ: return adds(adb_read(F_LENT, c->slot, c->local, received, n, f_out, len[OUTGOING], f_buf, len[BUF], f_values, sizeof f_values));
    case WRITE: return writes(c, received, n);
    case CLOSE: return adds(adb_close(F_LENT, c->slot, c->local, F_OUT));
    }
    return NONE;
}

/* An OPEN is accepted or rejected as an offer of the host's end would be, were nothing queued; its frame goes behind what is written. */
static uint32_t offered(const struct packet *p, int accepts)
{
    uint8_t queue[8 + ADB_STATE_QUEUED_LEN], out[ADB_OUT_MIN], *inner = f_state + INNER;
    uint32_t said;
    memcpy(queue, inner + ADB_STATE_QUEUED, 8);
    memcpy(queue + 8, inner + ADB_STATE_QUEUE, ADB_STATE_QUEUED_LEN);
    memset(inner + ADB_STATE_QUEUED, 0, 8);
    memset(inner + ADB_STATE_QUEUE, 0, ADB_STATE_QUEUED_LEN);
    put32(inner + ADB_STATE_QUEUE + ADB_STATE_QUEUED_REMOTE, p->arg0);
    put32(inner + ADB_STATE_QUEUE + ADB_STATE_QUEUED_CREDIT, p->arg1);
    inner[ADB_STATE_PENDING] = ADB_PENDING_OFFER;
    said = (accepts ? adb_accept : adb_reject)(F_LENT, out, sizeof out, f_values, sizeof f_values);
    memcpy(inner + ADB_STATE_QUEUED, queue, 8);
    memcpy(inner + ADB_STATE_QUEUE, queue + 8, ADB_STATE_QUEUED_LEN);
    memcpy(f_out + f_written, out, (size_t)adb_answer_written(f_values));
    return adds(said);
}

/* The host's first CNXN. */
static uint32_t connects(const struct packet *p)
{
    const uint32_t n = adb_le32(f_state + ADB_DEVICE_STATE_TEXT_LEN), most = adb_le32(f_state + INNER + ADB_STATE_MAX_PAYLOAD);
    const uint8_t *text = f_state + ADB_DEVICE_STATE_TEXT;
    uint8_t mine[ADB_STATE_LEN];
    uint32_t said;
    if (len[OUTGOING] < ADB_HEADER_LEN + n) return ADB_REFUSED_OUT_SHORT;
    put_head(f_out, "CNXN", 0x01000001, most, n, sum(text, n));
    memcpy(f_out + ADB_HEADER_LEN, text, n);
    f_written = ADB_HEADER_LEN + n;
    f_used = p->used;
    /* Whether our own text lists it is told by making a connection from it. */
    said = adb_make_from_cnxn(mine, sizeof mine, 1, 1, 0, 0, 0, 0, text, n, 1);
    if (said != ADB_DONE) fault("the text of ours", said, 0);
    said = adb_make_from_cnxn(f_state + INNER, ADB_STATE_LEN, (size_t)adb_le64(f_state + INNER + ADB_STATE_CHANNELS), most,
                              (size_t)adb_le64(f_state + INNER + ADB_STATE_MAX_RX_PER_CHANNEL),
                              adb_le32(f_state + INNER + ADB_STATE_INITIAL_ACK_BYTES), p->arg0, p->arg1, p->payload, p->n,
                              mine[ADB_STATE_DELAYED]);
    if (said != ADB_DONE) fault("the host's CNXN", said, 0);
    f_state[ADB_DEVICE_STATE_CONNECTED] = 1;
    f_value[0] = adb_le32(f_state + INNER + ADB_STATE_VERSION);
    f_value[1] = adb_le32(f_state + INNER + ADB_STATE_DEVICE_MAX_PAYLOAD);
    f_value[2] = f_state[INNER + ADB_STATE_DELAYED];
    return ADB_DEVICE_CONNECTED;
}

static uint64_t count_taken, count_ignored, count_refused, count_connected;

static uint32_t foretold(const struct call *c)
{
    struct packet p = { 0, 0, 0, 0, NULL };
    enum verdict v = PASSES;
    size_t place = 0;
    const uint32_t refused = ahead(c), handled = c->kind == DISPATCH ? ADB_DONE : ADB_WAITING;
    uint32_t said;
    begin_copies();
    if (refused != NONE) return refused;
    if (f_state[ADB_DEVICE_STATE_CONNECTED]) {
        if (has_names(c->kind) && decodes(&p)) v = meets(&p, &place);
    } else if (c->kind != DISPATCH) v = IGNORED; /* no packet is looked at: none is used */
    else if (decodes(&p)) {
        if (is(before[RECEIVED], "CNXN")) return count_connected++, connects(&p);
        v = IGNORED;
    }
    said = v == PASSES ? steps(c, before[RECEIVED], len[RECEIVED]) : steps(c, NULL, 0);
    if (v == PASSES || said != ADB_WAITING) return said;
    f_used = p.used;
    if (v == IGNORED) return count_ignored++, handled;
    said = offered(&p, v == TAKEN);
    if (v == TAKEN && said == ADB_DONE) {
        f_value[2] = p.arg0;
        f_value[3] = place;
        return count_taken++, ADB_DEVICE_TAKEN;
    }
    memset(f_value, 0, sizeof f_value);
    return count_refused++, handled;
}

static uint64_t count_all, count_13, count_8, count_9, count_on;

static void equals(int b, const uint8_t *want)
{
    for (size_t i = 0; i < len[b]; i++)
        if (at(b)[i] != want[i]) {
            printf("a byte of %s at %zu: %u, foretold %u\n", buffer_names[b], i, at(b)[i], want[i]);
            fault("another byte than foretold", (uint64_t)b, i);
        }
}

/* Makes the call on what is lent and tests everything after it. */
static uint32_t checked(const struct call *c)
{
    static uint8_t answer[MOST];
    uint32_t want, said;
    running = c;
    want = foretold(c);
    said = make_call(c);
    count_all++;
    count_8 += said == ADB_REFUSED_STORE_SHORT;
    count_9 += said == ADB_REFUSED_OUT_SHORT;
    count_13 += said == ADB_REFUSED_BROKEN_STATE;
    count_on += ahead(c) == NONE && said != ADB_REFUSED_OUT_SHORT;
    if (said != want) fault("another number than foretold", want, said);
    for (int b = 0; b < BUFFERS; b++)
        if (!guards(b)) fault("guard bytes", (uint64_t)b, said);
    for (int b = DESTINATION; b <= RECEIVED; b++) equals(b, before[b]);
    memcpy(answer, before[ANSWER], len[ANSWER]);
    if (len[STATE] >= ADB_DEVICE_STATE_LEN && len[ANSWER] >= ADB_ANSWER_LEN) {
        poke(answer, ADB_ANSWER_USED, 8, f_used);
        poke(answer, ADB_ANSWER_WRITTEN, 8, f_written);
        for (size_t i = 0; i < 4; i++) poke(answer, ADB_ANSWER_VALUES + 8 * i, 8, f_value[i]);
    }
    equals(ANSWER, answer);
    equals(STATE, f_state);
    equals(RX, f_rx);
    equals(OPENS, f_opens);
    equals(OUTGOING, f_out);
    equals(BUF, f_buf);
    if (ahead(c) != NONE) return said;
    /* What a state and an outgoing buffer hold after a call. */
    if (!is_whole(at(STATE) + INNER)) fault("the state is not whole any more", said, 0);
    if (!same(OPENS, 0)) fault("the open store", said, 0);
    for (size_t from = 0; from < f_written;) {
        from += ADB_HEADER_LEN + adb_le32(at(OUTGOING) + from + 12);
        if (from > f_written) fault("a part of a frame was written", from, f_written);
    }
    return said;
}

/* ---- a live end */

static uint8_t base_state[ADB_DEVICE_STATE_LEN], base_rx[CHANNELS * 2 * MAX_RX], base_opens[CHANNELS * PAYLOAD];
static int connected, lists, delayed; /* lists: the host's text does; delayed: both do */

static size_t frame(uint8_t *f, const char *name, uint32_t arg0, uint32_t arg1, const uint8_t *payload, size_t n)
{
    put_head(f, name, arg0, arg1, n, sum(payload, n));
    if (n) memcpy(f + ADB_HEADER_LEN, payload, n);
    return ADB_HEADER_LEN + n;
}

static struct call *add(const char *name, enum kind kind, size_t slot, uint32_t local, size_t number)
{
    struct call *c = &calls[call_count++];
    if (call_count > MAX_CALLS) fault("calls", (uint64_t)call_count, 0);
    memset(c, 0, sizeof *c);
    c->name = name;
    c->kind = kind;
    c->slot = slot;
    c->local = local;
    c->number = number;
    return c;
}

static struct call *with(struct call *c, const char *name, uint32_t arg0, uint32_t arg1, size_t n)
{
    uint8_t payload[PAYLOAD];
    for (size_t i = 0; i < n; i++) payload[i] = (uint8_t)(3 * i + arg0);
    c->received_len = frame(c->received, name, arg0, arg1, payload, n);
    return c;
}

static struct call *with_text(struct call *c, const char *name, uint32_t arg0, uint32_t arg1, const char *text, size_t n)
{
    c->received_len = frame(c->received, name, arg0, arg1, (const uint8_t *)text, n);
    return c;
}

static struct call *with_okay(struct call *c, uint32_t remote, uint32_t local, uint32_t credit)
{
    uint8_t payload[4];
    put32(payload, credit);
    c->received_len = frame(c->received, "OKAY", remote, local, payload, delayed ? 4 : 0);
    return c;
}

static struct call *with_cnxn(struct call *c, int lists)
{
    const char *text = lists ? "host::features=shell_v2,delayed_ack" : "host::features=shell_v2,cmd";
    return with_text(c, "CNXN", 0x01000001, 48, text, strlen(text));
}

static void lend_base(const struct call *c)
{
    static const uint8_t data[PAYLOAD] = "some bytes to write";
    lend(STATE, base_state, sizeof base_state);
    lend(RX, base_rx, sizeof base_rx);
    lend(OPENS, base_opens, sizeof base_opens);
    lend(NAMES, table, has_names(c->kind) ? sizeof table : 0);
    lend(DATA, data, c->kind == WRITE ? c->number : 0);
    lend(RECEIVED, c->received, c->received_len);
    lend(OUTGOING, NULL, has_out(c->kind) ? OUT : 0);
    lend(BUF, NULL, has_buf(c->kind) ? c->number : 0);
    lend(ANSWER, NULL, ADB_ANSWER_LEN);
}

static void keep(void)
{
    memcpy(base_state, at(STATE), sizeof base_state);
    memcpy(base_rx, at(RX), sizeof base_rx);
}

/* One step of the setup: made on the base, which then holds what it left. */
static void step(struct call *c, uint32_t want)
{
    uint32_t said;
    call_count = 0;
    lend_base(c);
    said = checked(c);
    if (said != want) fault("setup", want, said);
    keep();
}

static uint32_t credit(uint32_t n) { return delayed ? n : 0; }

static void build(int with_cnxn_of, int host_lists)
{
    static const char *const names[] = { "before the CNXN", "plain", "delayed" };
    uint32_t said;
    connected = with_cnxn_of;
    lists = host_lists;
    delayed = connected && lists;
    base_name = names[connected + delayed];
    testing = "setup";
    running = NULL;
    for (size_t i = 0; i < sizeof base_rx; i++) base_rx[i] = (uint8_t)next();
    for (size_t i = 0; i < sizeof base_opens; i++) base_opens[i] = (uint8_t)next();
    for (size_t i = 0; i < sizeof base_state; i++) base_state[i] = (uint8_t)next();
    said = adb_device_make(base_state, sizeof base_state, CHANNELS, PAYLOAD, MAX_RX, INITIAL_ACK, (const uint8_t *)TEXT, strlen(TEXT));
    if (said != ADB_DONE) fault("make", said, 0);
    if (connected) {
        step(with_cnxn(add("CNXN", DISPATCH, 0, 0, 0), lists), ADB_DEVICE_CONNECTED);
        for (uint32_t i = 0; i < 4; i++)
            step(with_text(add("OPEN", DISPATCH, 0, 0, 0), "OPEN", 11 + i, credit(50), "tcp:7", 6), ADB_DEVICE_TAKEN);
        /* Stream 0: bytes held, set aside, and taken from the front. */
        step(with(add("dispatch", DISPATCH, 0, 0, 0), "WRTE", 11, 1, 60), ADB_DONE);
        step(with(add("dispatch", DISPATCH, 0, 0, 0), "WRTE", 11, 1, 60), ADB_DONE);
        step(add("settle", SETTLE, 0, 1, 30), ADB_DONE);
        step(add("take", TAKE, 0, 1, 10), ADB_DONE);
        /* Stream 1: bytes held. Stream 2: closed with bytes. Stream 3: WRTEs are out, in delayed mode past the credit. */
        step(with(add("dispatch", DISPATCH, 0, 0, 0), "WRTE", 12, 2, 33), ADB_DONE);
        step(with(add("dispatch", DISPATCH, 0, 0, 0), "WRTE", 13, 3, 7), ADB_DONE);
        step(with(add("dispatch", DISPATCH, 0, 0, 0), "CLSE", 13, 3, 0), ADB_DONE);
        step(add("write", WRITE, 3, 4, 48), ADB_DONE);
        if (delayed) step(add("write", WRITE, 3, 4, 48), ADB_DONE);
        step(add("write", WRITE, 3, 4, 48), ADB_WAITING);
    }
    call_count = 0;
    running = NULL;
    with_cnxn(add("dispatch, CNXN", DISPATCH, 0, 0, 0), 1);
    with_cnxn(add("dispatch, CNXN of the plain mode", DISPATCH, 0, 0, 0), 0);
    with_cnxn(add("read, CNXN", READ, 3, 4, 8), 1);
    with(add("dispatch, WRTE", DISPATCH, 0, 0, 0), "WRTE", 12, 2, 40);
    with(add("dispatch, WRTE of none", DISPATCH, 0, 0, 0), "WRTE", 12, 9, 40);
    with(add("dispatch, WRTE of a closed one", DISPATCH, 0, 0, 0), "WRTE", 13, 3, 40);
    with(add("dispatch, WRTE over the limit", DISPATCH, 0, 0, 0), "WRTE", 12, 2, 40)->received[12] = PAYLOAD + 1;
    with_text(add("dispatch, OPEN", DISPATCH, 0, 0, 0), "OPEN", 80, credit(70), "echo", 4);
    with_text(add("dispatch, OPEN, zero byte", DISPATCH, 0, 0, 0), "OPEN", 81, credit(70), "sync:", 6);
    with_text(add("dispatch, OPEN, two zero bytes", DISPATCH, 0, 0, 0), "OPEN", 82, credit(70), "sync:\0", 7);
    with_text(add("dispatch, OPEN of no text", DISPATCH, 0, 0, 0), "OPEN", 83, credit(70), "", 0);
    with_text(add("dispatch, OPEN of another", DISPATCH, 0, 0, 0), "OPEN", 84, credit(70), "tcp:", 5);
    with_text(add("dispatch, OPEN of the tail", DISPATCH, 0, 0, 0), "OPEN", 85, credit(70), "tail", 5);
    with_text(add("dispatch, OPEN of two names", DISPATCH, 0, 0, 0), "OPEN", 86, credit(70), "tcp:7\0sync:", 11);
    with_text(add("dispatch, OPEN of the other mode", DISPATCH, 0, 0, 0), "OPEN", 87, delayed ? 0 : 70, "echo", 4);
    with_text(add("dispatch, OPEN from 0", DISPATCH, 0, 0, 0), "OPEN", 0, credit(70), "echo", 4);
    with(add("dispatch, CLSE", DISPATCH, 0, 0, 0), "CLSE", 12, 2, 0);
    with(add("dispatch, CLSE without our number", DISPATCH, 0, 0, 0), "CLSE", 12, 0, 0);
    with_okay(add("dispatch, OKAY", DISPATCH, 0, 0, 0), 14, 4, 25);
    with_okay(add("dispatch, OKAY of none", DISPATCH, 0, 0, 0), 14, 9, 25);
    with(add("dispatch, OKAY of 5 bytes", DISPATCH, 0, 0, 0), "OKAY", 14, 4, 5);
    with(add("dispatch, AUTH", DISPATCH, 0, 0, 0), "AUTH", 1, 2, 20);
    with(add("dispatch, part of a frame", DISPATCH, 0, 0, 0), "WRTE", 12, 2, 40)->received_len = 50;
    with(add("dispatch, wrong check", DISPATCH, 0, 0, 0), "WRTE", 12, 2, 40)->received[16] ^= 1;
    with(add("dispatch, no command", DISPATCH, 0, 0, 0), "WRTF", 12, 2, 0);
    add("settle, some set aside", SETTLE, 0, 1, 50);
    add("settle", SETTLE, 1, 2, 10);
    add("take", TAKE, 0, 1, 25);
    add("read, buffered", READ, 0, 1, 16);
    with_text(add("read, buffered, an OPEN behind", READ, 1, 2, 16), "OPEN", 80, credit(70), "echo", 4);
    add("read, closed", READ, 2, 3, 5);
    with(add("read, its WRTE", READ, 3, 4, 64), "WRTE", 14, 4, 50);
    with(add("read, a WRTE of another", READ, 3, 4, 8), "WRTE", 12, 2, 20);
    with(add("read, a WRTE of none", READ, 3, 4, 8), "WRTE", 12, 9, 20);
    with(add("read, its CLSE", READ, 3, 4, 8), "CLSE", 14, 4, 0);
    with(add("read, CLSE without our number", READ, 3, 4, 8), "CLSE", 14, 0, 0);
    with_text(add("read, OPEN", READ, 3, 4, 8), "OPEN", 80, credit(70), "echo", 4);
    with_text(add("read, OPEN of another", READ, 3, 4, 8), "OPEN", 84, credit(70), "tcp:", 5);
    add("write", WRITE, 1, 2, 40);
    add("write, over the credit", WRITE, 1, 2, 64);
    add("write, nothing", WRITE, 1, 2, 0);
    with_okay(add("write, its OKAY", WRITE, 3, 4, 40), 14, 4, 100);
    with_okay(add("write, its OKAY, too little", WRITE, 3, 4, 40), 14, 4, 46);
    with_text(add("write, OPEN", WRITE, 3, 4, 40), "OPEN", 80, credit(70), "echo", 4);
    with(add("write, its CLSE", WRITE, 3, 4, 40), "CLSE", 14, 4, 0);
    add("close", CLOSE, 1, 2, 0);
    add("close, no such stream", CLOSE, 5, 9, 0);
}

/* ---- the tests */

static void all_calls(const uint8_t *state)
{
    for (int k = 0; k < call_count; k++) {
        lend_base(&calls[k]);
        lend(STATE, state, ADB_DEVICE_STATE_LEN);
        checked(&calls[k]);
    }
}

static void random_states(void)
{
    uint8_t bytes[ADB_DEVICE_STATE_LEN];
    testing = "random states";
    for (int round = 0; round < 200; round++)
        for (int k = 0; k < call_count; k++) {
            lend_base(&calls[k]);
            for (size_t i = 0; i < sizeof bytes; i++) bytes[i] = round == 0 ? 0 : round == 1 ? 255 : (uint8_t)next();
            switch (round % 4) {
            case 1: /* a good connection behind random bytes */
                memcpy(bytes + INNER, base_state + INNER, ADB_STATE_LEN);
                break;
            case 2: { /* one random slot */
                const size_t from = INNER + ADB_STATE_SLOT(next() % 8);
                memcpy(bytes, base_state, from);
                memcpy(bytes + from + ADB_STATE_SLOT_LEN, base_state + from + ADB_STATE_SLOT_LEN, sizeof bytes - from - ADB_STATE_SLOT_LEN);
                break;
            }
            case 3: /* a few bytes changed anywhere */
                for (size_t i = 0; i < sizeof bytes; i++) bytes[i] = base_state[i] ^ (next() % 3000 ? 0 : (uint8_t)next());
                break;
            }
            lend(STATE, bytes, sizeof bytes);
            checked(&calls[k]);
        }
}

/* All bytes ahead of the connection but those of the text, of which some; the header and the slots that are there; some of the rest. */
static void changed_bytes(void)
{
    uint8_t state[ADB_DEVICE_STATE_LEN];
    testing = "one byte changed";
    for (size_t i = 0; i < ADB_DEVICE_STATE_LEN; i++) {
        const uint8_t was = base_state[i];
        const uint8_t values[] = { 0, (uint8_t)(was ^ 1), (uint8_t)(was + 2), 255, (uint8_t)next() };
        const int text = i >= ADB_DEVICE_STATE_TEXT && i < INNER, rest = i >= INNER + ADB_STATE_SLOT(CHANNELS + 1);
        if (text ? i % 97 && i != INNER - 1 : rest && i % 23) continue;
        for (size_t v = 0; v < sizeof values; v++) {
            if (values[v] == was) continue;
            memcpy(state, base_state, sizeof state);
            state[i] = values[v];
            all_calls(state);
        }
    }
}

/* Numbers at and past their limits. */
static void boundaries(void)
{
    static const int64_t budgets[] = { INT64_MIN, INT64_MIN + 1, -65, -1, 0, 1, 2, 47, 48, 49, 63, 64, INT64_MAX - 1, INT64_MAX };
    static const uint32_t texts[] = { 0, 1, (uint32_t)sizeof TEXT - 1, OUT - ADB_HEADER_LEN, OUT - ADB_HEADER_LEN + 1, 4095, 4096, 4097, 65536,
                                      UINT32_MAX };
    static const uint32_t most[] = { 0, 1, 9, 63, 64, 65, 1048576, 1048577, UINT32_MAX };
    uint8_t state[ADB_DEVICE_STATE_LEN];
    testing = "boundaries";
    for (size_t i = 0; i < sizeof budgets / sizeof *budgets; i++)
        for (size_t slot = 0; slot < 4; slot++) {
            memcpy(state, base_state, sizeof state);
            poke(state, INNER + ADB_STATE_SLOT(slot) + ADB_STATE_SLOT_BUDGET, 8, (uint64_t)budgets[i]);
            all_calls(state);
        }
    for (size_t i = 0; i < sizeof texts / sizeof *texts; i++) {
        memcpy(state, base_state, sizeof state);
        poke(state, ADB_DEVICE_STATE_TEXT_LEN, 4, texts[i]);
        all_calls(state);
    }
    for (size_t i = 0; i < 2 * sizeof most / sizeof *most; i++) {
        memcpy(state, base_state, sizeof state);
        poke(state, INNER + (i % 2 ? ADB_STATE_DEVICE_MAX_PAYLOAD : ADB_STATE_MAX_PAYLOAD), 4, most[i / 2]);
        all_calls(state);
    }
    /* Every slot filled, so that an OPEN finds none; and the numbers at their end. */
    for (uint32_t i = 0; i < 3; i++) {
        memcpy(state, base_state, sizeof state);
        for (size_t slot = 0; slot < CHANNELS; slot++) {
            uint8_t *s = state + INNER + ADB_STATE_SLOT(slot);
            if (i == 2 || s[ADB_STATE_SLOT_TAG] & ADB_TAG_FILLED) continue;
            memset(s, 0, ADB_STATE_SLOT_LEN);
            put32(s + ADB_STATE_SLOT_LOCAL, 100 + (uint32_t)slot);
            s[ADB_STATE_SLOT_TAG] = ADB_TAG_FILLED | ADB_TAG_HAS_REMOTE | 1 << ADB_TAG_STATE_SHIFT;
        }
        poke(state, INNER + ADB_STATE_NEXT_LOCAL, 4, UINT32_MAX - i);
        all_calls(state);
    }
    /* Opens that are queued and what is pending, which a device's end leaves to nothing, or keeps. */
    for (uint32_t queued = 0; queued <= CHANNELS + 1; queued++)
        for (uint8_t pending = 0; pending < 4; pending++) {
            memcpy(state, base_state, sizeof state);
            for (size_t i = 0; i < CHANNELS; i++) memset(state + INNER + ADB_STATE_QUEUED_OPEN(i), 0, ADB_STATE_QUEUED_LEN);
            poke(state, INNER + ADB_STATE_QUEUED, 8, queued);
            poke(state, INNER + ADB_STATE_PENDING_SLOT, 8, CHANNELS - 1);
            state[INNER + ADB_STATE_PENDING] = pending;
            all_calls(state);
        }
}

/* The base with some buffers at other lengths; more than a buffer's own bytes are filler. */
static uint32_t at_lengths(const struct call *c, size_t state, size_t rx, size_t opens, size_t out, size_t answer)
{
    uint8_t bytes[MOST];
    lend_base(c);
    memset(bytes, 0x3C, sizeof bytes);
    memcpy(bytes, base_state, sizeof base_state);
    lend(STATE, bytes, state);
    memset(bytes, 0x3C, sizeof bytes);
    memcpy(bytes, base_rx, sizeof base_rx);
    lend(RX, bytes, rx);
    memset(bytes, 0x3C, sizeof bytes);
    memcpy(bytes, base_opens, sizeof base_opens);
    lend(OPENS, bytes, opens);
    if (has_out(c->kind)) lend(OUTGOING, NULL, out);
    lend(ANSWER, NULL, answer);
    return checked(c);
}

static void short_buffers(void)
{
    const size_t s = ADB_DEVICE_STATE_LEN, r = sizeof base_rx, o = sizeof base_opens, a = ADB_ANSWER_LEN;
    static const size_t states[] = { 0, 1, ADB_DEVICE_STATE_TEXT - 1, ADB_STATE_LEN, INNER - 1, INNER, INNER + ADB_STATE_SLOTS,
                                     ADB_DEVICE_STATE_LEN - 1 };
    uint8_t kept;
    testing = "short buffers";
    for (int k = 0; k < call_count; k++) {
        const struct call *c = &calls[k];
        const uint32_t plain = at_lengths(c, s, r, o, OUT, a);
        uint8_t after[ADB_DEVICE_STATE_LEN], answer[ADB_ANSWER_LEN];
        memcpy(after, at(STATE), sizeof after);
        memcpy(answer, at(ANSWER), sizeof answer);
        for (size_t i = 0; i < sizeof states / sizeof *states; i++) at_lengths(c, states[i], r, o, OUT, a);
        for (size_t i = 0; i < a; i++) at_lengths(c, s, r, o, OUT, i);
        at_lengths(c, s, r - 1, o, OUT, a);
        at_lengths(c, s, 0, o, OUT, a);
        at_lengths(c, s, r, o - 1, OUT, a);
        at_lengths(c, s, r, 0, OUT, a);
        for (size_t i = 0; i < OUT; i++) at_lengths(c, s, r, o, i, a);
        /* More than one at a time: the order. */
        at_lengths(c, s - 1, r - 1, o - 1, 55, a - 1);
        at_lengths(c, s - 1, r - 1, o - 1, 55, a);
        at_lengths(c, s, r - 1, o - 1, 55, a - 1);
        at_lengths(c, s, r - 1, o, 55, a);
        at_lengths(c, s, r, o - 1, 55, a);
        at_lengths(c, 0, 0, 0, 0, 0);
        at_lengths(c, s, 0, 0, 0, a);
        for (int i = 0; i < 2; i++) {
            const size_t broken = i ? INNER + ADB_STATE_DELAYED : ADB_DEVICE_STATE_CONNECTED;
            kept = base_state[broken];
            base_state[broken] = 2;
            at_lengths(c, s, r, o, OUT, a);
            at_lengths(c, s, r - 1, o - 1, 55, a);
            at_lengths(c, s - 1, r, o, OUT, a);
            at_lengths(c, s, r, o, OUT, a - 1);
            base_state[broken] = kept;
        }
        /* Longer than needed: the same answer, the same state. */
        if (at_lengths(c, s + 7, r + 9, o + 11, OUT + 13, a + 5) != plain || memcmp(at(STATE), after, sizeof after) ||
            memcmp(at(ANSWER), answer, sizeof answer))
            fault("longer buffers", plain, 0);
    }
}

/* ---- any bytes: calls in a row, each on what the one before left */

static uint64_t walk;

/* Mostly a stream that is there, by both its numbers. */
static void some_stream(size_t *slot, uint32_t *local, uint32_t *remote)
{
    const uint8_t *s;
    *slot = (size_t)below(CHANNELS + 1);
    s = base_state + INNER + ADB_STATE_SLOT(*slot);
    *local = adb_le32(s + ADB_STATE_SLOT_LOCAL);
    *remote = adb_le32(s + ADB_STATE_SLOT_REMOTE);
    if (chance(5)) *local = (uint32_t)below(12);
    if (chance(5)) *remote = (uint32_t)below(12);
}

static size_t some_payload(uint8_t *p, const char *command)
{
    static const char *const asked[] = { "tcp:7", "sync:", "echo", "", "tail", "tcp:", "shell:" };
    size_t n = (size_t)below(chance(50) ? 8 : PAYLOAD + 2);
    for (size_t i = 0; i < n; i++) p[i] = (uint8_t)next();
    if (!strcmp(command, "OKAY") && chance(85)) {
        put32(p, (uint32_t)(chance(90) ? below(90) : next()));
        return delayed ? 4 : 0;
    }
    if (!strcmp(command, "OPEN") && chance(95)) {
        const char *text = asked[below(chance(70) ? 3 : 7)];
        n = strlen(text);
        memcpy(p, text, n + 1);
        return n + (size_t)below(chance(90) ? 2 : 1);
    }
    if (!strcmp(command, "CNXN") && chance(80)) {
        static const char *const texts[] = { "host::features=shell_v2,delayed_ack", "host::features=cmd", "host::" };
        const char *text = texts[below(3)];
        n = strlen(text);
        memcpy(p, text, n);
    }
    return n;
}

static void some_frame(struct call *c)
{
    static const char *const often[] = { "WRTE", "OKAY", "OPEN", "CLSE" }, *const all[] = { "SYNC", "CNXN", "OPEN", "OKAY", "CLSE", "WRTE",
                                                                                           "AUTH", "STLS", "WRT " };
    const char *command = !base_state[0] && chance(20) ? "CNXN" : chance(90) ? often[below(100) < 55 ? 0 : 1 + below(3)] : all[below(9)];
    uint8_t payload[PAYLOAD + 2];
    size_t slot, n;
    uint32_t local, remote, arg0, arg1;
    if (chance(15)) return; /* nothing has arrived */
    some_stream(&slot, &local, &remote);
    n = some_payload(payload, command);
    arg0 = remote, arg1 = local;
    if (!strcmp(command, "OPEN")) {
        arg0 = (uint32_t)below(30);
        arg1 = chance(90) ? credit(1 + (uint32_t)below(200)) : (uint32_t)below(2);
    } else if (!strcmp(command, "CNXN")) {
        arg0 = (uint32_t)(chance(50) ? 0x01000001 : next());
        arg1 = (uint32_t)(chance(70) ? below(100) : next());
    } else if (chance(3)) arg1 = 0;
    c->received_len = frame(c->received, command, arg0, arg1, payload, n);
    if (chance(30)) put32(c->received + 16, 0);
    if (chance(3)) c->received[below(c->received_len)] ^= (uint8_t)(1 << below(8));
    if (chance(5)) c->received_len = (size_t)below(c->received_len + 1);
    else if (chance(20)) c->received_len += 20; /* what stands behind it has arrived too */
}

static void any_bytes(void)
{
    static const enum kind kinds[] = { DISPATCH, DISPATCH, READ, READ, READ, WRITE, WRITE, WRITE, SETTLE, TAKE, CLOSE };
    static struct call c;
    testing = "any bytes";
    for (uint64_t i = 0; i < walk; i++) {
        uint32_t remote;
        memset(&c, 0, sizeof c);
        c.name = "any";
        c.kind = kinds[below(chance(60) ? 8 : 11)];
        some_stream(&c.slot, &c.local, &remote);
        c.number = (size_t)below(PAYLOAD + 1);
        if (has_names(c.kind)) some_frame(&c);
        lend_base(&c);
        if (has_names(c.kind) && chance(10)) lend(NAMES, table + below(20), (size_t)below(sizeof table - 19));
        if (has_out(c.kind)) lend(OUTGOING, NULL, ADB_OUT_MIN + (size_t)below(OUT - ADB_OUT_MIN + 1));
        checked(&c);
        keep();
        delayed = base_state[INNER + ADB_STATE_DELAYED];
        if (!below(1000)) build(connected, lists), testing = "any bytes";
    }
}

/* ---- make */

static uint64_t makes;

static void one_make(size_t state_len, size_t channels, uint32_t payload, size_t max_rx, uint32_t ack, const uint8_t *text, size_t n,
                     uint32_t want)
{
    static uint8_t lent[2 * GUARD + 6000], fresh[MOST];
    uint32_t said;
    lend(STATE, NULL, state_len);
    memset(lent, MARK, sizeof lent);
    if (n) memcpy(lent + GUARD, text, n);
    said = adb_device_make(ptr(STATE), len[STATE], channels, payload, max_rx, ack, n ? lent + GUARD : NULL, n);
    makes++;
    if (!guards(STATE)) fault("guard bytes", STATE, said);
    if (said != want) fault("make", want, said);
    if (n && memcmp(lent + GUARD, text, n)) fault("the text", n, said);
    memcpy(fresh, before[STATE], state_len);
    if (said == ADB_DONE) {
        fresh[ADB_DEVICE_STATE_CONNECTED] = 0;
        put32(fresh + ADB_DEVICE_STATE_TEXT_LEN, (uint32_t)n);
        if (n) memcpy(fresh + ADB_DEVICE_STATE_TEXT, text, n);
        if (adb_make(fresh + INNER, ADB_STATE_LEN, channels, payload, max_rx, ack, 0x01000001, payload, 0, 0) != ADB_DONE)
            fault("a connection", channels, payload);
    }
    equals(STATE, fresh);
}

static void make_limits(void)
{
    static const size_t channels[] = { 0, 1, 2, 63, 64, 65, 1000, SIZE_MAX }, texts[] = { 0, 1, 55, 4095, 4096, 4097, 5000 };
    static const uint32_t payloads[] = { 0, 1, 4096, ADB_MAX_PAYLOAD, ADB_MAX_PAYLOAD + 1, UINT32_MAX };
    static const size_t rxs[] = { 0, 1, ADB_MAX_RX_PER_CHANNEL, ADB_MAX_RX_PER_CHANNEL + 1, SIZE_MAX };
    static const uint32_t acks[] = { 0, 1, ADB_MAX_INITIAL_ACK_BYTES, (uint32_t)ADB_MAX_INITIAL_ACK_BYTES + 1, UINT32_MAX };
    static uint8_t text[5000];
    testing = "make";
    base_name = "-";
    running = NULL;
    for (size_t i = 0; i < sizeof text; i++) text[i] = (uint8_t)next();
    for (int c = 0; c < 8; c++)
        for (int p = 0; p < 6; p++)
            for (int r = 0; r < 5; r++)
                for (int k = 0; k < 5; k++) {
                    const size_t t = (size_t)below(7);
                    const int kept = c >= 1 && c <= 4 && p >= 1 && p <= 3 && r <= 2 && k <= 2 && t <= 4;
                    const uint32_t want = kept ? ADB_DONE : ADB_REFUSED_BAD_CONFIG;
                    one_make(ADB_DEVICE_STATE_LEN, channels[c], payloads[p], rxs[r], acks[k], text, texts[t], want);
                    one_make(ADB_DEVICE_STATE_LEN + 9, channels[c], payloads[p], rxs[r], acks[k], text, texts[t], want);
                    one_make(ADB_DEVICE_STATE_LEN - 1, channels[c], payloads[p], rxs[r], acks[k], text, texts[t], ADB_REFUSED_STORE_SHORT);
                    one_make(0, channels[c], payloads[p], rxs[r], acks[k], text, texts[t], ADB_REFUSED_STORE_SHORT);
                }
    for (size_t t = 0; t < 7; t++)
        one_make(ADB_DEVICE_STATE_LEN, 4, 4096, 0, 100, text, texts[t], t <= 4 ? ADB_DONE : ADB_REFUSED_BAD_CONFIG);
}

static void say(const char *what, void (*test)(void))
{
    count_all = count_13 = count_8 = count_9 = count_on = 0;
    count_taken = count_ignored = count_refused = count_connected = 0;
    test();
    printf("%-16s %-18s %9" PRIu64 " %8" PRIu64 " %8" PRIu64 " %8" PRIu64 " %9" PRIu64 " %9" PRIu64 " %9" PRIu64 " %9" PRIu64 " %9" PRIu64 "\n",
           base_name, what, count_all, count_13, count_8, count_9, count_on, count_connected, count_taken, count_refused, count_ignored);
}

int main(int argc, char **argv)
{
    rng = argc > 1 ? strtoull(argv[1], NULL, 0) : 1;
    walk = argc > 2 ? strtoull(argv[2], NULL, 0) : 200000;
    printf("%-16s %-18s %9s %8s %8s %8s %9s %9s %9s %9s %9s\n", "", "", "calls", "by 13", "by 8", "by 9", "went on", "CNXNs", "taken",
           "refused", "ignored");
    for (int base = 0; base < 3; base++) {
        build(base > 0, base > 1);
        say("random states", random_states);
        say("one byte changed", changed_bytes);
        say("boundaries", boundaries);
        say("short buffers", short_buffers);
        say("any bytes", any_bytes);
    }
    make_limits();
    printf("make: %" PRIu64 " calls\nno fault\n", makes);
    return 0;
}
