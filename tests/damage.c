/* Damage: the calls on states and buffers that no program should lend. Prints counts; exit status 1 on a fault.
 *
 *   damage [SEED]
 *
 * A live connection is built by a short run of calls, in both modes, with and without an open that waits. Then each call is
 * made on random state bytes; on the state with each single byte changed, and with numbers at and past their limits; and with
 * every buffer one byte short. Expected is what the scope document says, from a test of a whole state that is written again
 * in lent.h after docs/LAYOUT.md:
 *   8 for a short state or answer, with nothing touched; else 13 if and only if the bytes are not a whole state; else 8 for a
 *   short store; else 9 for a short outgoing buffer; each with nothing changed but the answer, which is all 0.
 * After any other answer only what the call may change has changed, and the state is whole.
 */
#include "lent.h"

#define CHANNELS 6
#define PAYLOAD 64
#define MAX_RX 200
#define INITIAL_ACK 100
#define OUT 88
#define NONE UINT32_MAX

/* ---- the calls */

enum kind { OPEN, DISPATCH, SETTLE, TAKE, READ, WRITE, CLOSE, FRONT, ACCEPT, REJECT, LET_GO, NUMBERS };

struct call {
    const char *name;
    enum kind kind;
    size_t slot;
    uint32_t local;
    size_t number; /* want, room of the reader's buffer, or length of the data */
    uint8_t received[128];
    size_t received_len;
};

#define MAX_CALLS 32
static struct call calls[MAX_CALLS];
static int call_count;
static const struct call *running;
static const char *testing = "setup", *base_name = "";

static void fault(const char *what, uint64_t a, uint64_t b)
{
    printf("FAULT: %s, %s, %s: %s (%" PRIu64 ", %" PRIu64 ")\n", testing, base_name, running ? running->name : "-", what, a, b);
    exit(1);
}

static int has_out(enum kind k) { return k != TAKE && k != FRONT && k != LET_GO && k != NUMBERS; }
static int has_buf(enum kind k) { return k == TAKE || k == READ; }
static int keeps_stores(enum kind k) { return k == SETTLE || k == TAKE || k >= CLOSE; }

#define OF(b) ptr(b), len[b]

static uint32_t make_call(const struct call *c)
{
    switch (c->kind) {
    case OPEN: return adb_open(OF(STATE), OF(RX), OF(OPENS), OF(DESTINATION), OF(RECEIVED), OF(OUTGOING), OF(ANSWER));
    case DISPATCH: return adb_dispatch(OF(STATE), OF(RX), OF(OPENS), OF(RECEIVED), OF(OUTGOING), OF(ANSWER));
    case SETTLE: return adb_settle(OF(STATE), OF(RX), OF(OPENS), c->slot, c->local, c->number, OF(OUTGOING), OF(ANSWER));
    case TAKE: return adb_take(OF(STATE), OF(RX), OF(OPENS), c->slot, c->local, OF(BUF), OF(ANSWER));
    case READ:
        return adb_read(OF(STATE), OF(RX), OF(OPENS), c->slot, c->local, OF(RECEIVED), OF(OUTGOING), OF(BUF), OF(ANSWER));
    case WRITE:
        return adb_write(OF(STATE), OF(RX), OF(OPENS), c->slot, c->local, OF(DATA), OF(RECEIVED), OF(OUTGOING), OF(ANSWER));
    case CLOSE: return adb_close(OF(STATE), OF(RX), OF(OPENS), c->slot, c->local, OF(OUTGOING), OF(ANSWER));
    case FRONT: return adb_take_front(OF(STATE), OF(RX), OF(OPENS), OF(ANSWER));
    case NUMBERS: return adb_numbers(OF(STATE), OF(RX), OF(OPENS), c->slot, c->local, OF(ANSWER));
    case ACCEPT: return adb_accept(OF(STATE), OF(RX), OF(OPENS), OF(OUTGOING), OF(ANSWER));
    case REJECT: return adb_reject(OF(STATE), OF(RX), OF(OPENS), OF(OUTGOING), OF(ANSWER));
    case LET_GO: return adb_let_go(OF(STATE), OF(RX), OF(OPENS), OF(ANSWER));
    }
    return NONE;
}

/* The refusal ahead of the call's steps, or NONE. */
static uint32_t expected(const struct call *c)
{
    if (len[STATE] < ADB_STATE_LEN || len[ANSWER] < ADB_ANSWER_LEN) return ADB_REFUSED_STORE_SHORT;
    if (!is_whole(before[STATE])) return ADB_REFUSED_BROKEN_STATE;
    if (len[RX] < rx_need(before[STATE]) || len[OPENS] < opens_need(before[STATE])) return ADB_REFUSED_STORE_SHORT;
    if (has_out(c->kind) && len[OUTGOING] < ADB_OUT_MIN) return ADB_REFUSED_OUT_SHORT;
    return NONE;
}

/* Changed bytes of a store lie in one share, and in the store's length. */
static void one_share(int b, size_t need, size_t share)
{
    size_t low = 0, high = len[b];
    if (!same(b, need)) fault("a store past its length", (uint64_t)b, need);
    while (low < high && at(b)[low] == before[b][low]) low++;
    while (high > low && at(b)[high - 1] == before[b][high - 1]) high--;
    if (low < high && low / share != (high - 1) / share) fault("two shares of a store", low, high);
}

static uint64_t count_all, count_13, count_8, count_9, count_on;

/* Makes the call on what is lent and tests everything after it. `late`: 9 may come after all else. */
static uint32_t checked(const struct call *c, int late)
{
    const uint32_t want = expected(c), said = (running = c, make_call(c));
    const uint8_t *a = at(ANSWER);
    count_all++;
    for (int b = 0; b < BUFFERS; b++)
        if (!guards(b)) fault("guard bytes", (uint64_t)b, said);
    for (int b = DESTINATION; b <= RECEIVED; b++)
        if (!same(b, 0)) fault("handed in bytes", (uint64_t)b, said);
    if (want != NONE && said != want) fault("expected another refusal", want, said);
    if (want == NONE && (said == ADB_REFUSED_STORE_SHORT || said == ADB_REFUSED_BROKEN_STATE ||
                         (said == ADB_REFUSED_OUT_SHORT && !late)))
        fault("expected no such refusal", said, 0);
    if (said == ADB_REFUSED_STORE_SHORT || said == ADB_REFUSED_OUT_SHORT || said == ADB_REFUSED_BROKEN_STATE) {
        const int no_answer = len[STATE] < ADB_STATE_LEN || len[ANSWER] < ADB_ANSWER_LEN;
        count_8 += said == ADB_REFUSED_STORE_SHORT;
        count_9 += said == ADB_REFUSED_OUT_SHORT;
        count_13 += said == ADB_REFUSED_BROKEN_STATE;
        for (int b = 0; b < ANSWER; b++)
            if (!same(b, 0)) fault(buffer_names[b], said, (uint64_t)b);
        if (!same(ANSWER, no_answer ? 0 : ADB_ANSWER_LEN)) fault("answer", said, 0);
        for (size_t i = 0; !no_answer && i < ADB_ANSWER_LEN; i++)
            if (a[i]) fault("answer of a refusal that changes nothing", said, i);
        return said;
    }
    count_on++;
    if (said > ADB_REFUSED_BROKEN_STATE && said != ADB_WAITING && said != ADB_NONE && said != ADB_CLOSED && said != ADB_REFUSED_LONG_READY_PAYLOAD &&
        said != ADB_REFUSED_NEGATIVE_CREDIT)
        fault("no such answer", said, 0);
    if (said == ADB_REFUSED_BAD_CONFIG) fault("refused by 7", said, 0);
    const uint64_t used = adb_answer_used(a), written = adb_answer_written(a);
    const uint64_t got = said == ADB_DONE && has_buf(c->kind) ? adb_answer_value(a, 0) : 0;
    if (!same(ANSWER, ADB_ANSWER_LEN)) fault("answer past its length", said, 0);
    if (used > len[RECEIVED] || (used && used != ADB_HEADER_LEN + (uint64_t)adb_le32(at(RECEIVED) + 12))) fault("used", used, said);
    if (written > (has_out(c->kind) ? len[OUTGOING] : 0) || !same(OUTGOING, (size_t)written))
        fault("out past the count", written, said);
    if (got > len[BUF] || !same(BUF, (size_t)got)) fault("buf past the count", got, said);
    if (keeps_stores(c->kind) && (!same(RX, 0) || !same(OPENS, 0))) fault("a store that the call only reads", said, 0);
    one_share(RX, rx_need(before[STATE]), 2 * cap_of(before[STATE]));
    one_share(OPENS, opens_need(before[STATE]), adb_le32(before[STATE] + ADB_STATE_MAX_PAYLOAD));
    if (!same(STATE, c->kind == NUMBERS ? 0 : ADB_STATE_LEN)) fault("bytes of the state that the call only reads", said, 0);
    /* What adb_make settled stays. */
    if (memcmp(at(STATE), before[STATE], ADB_STATE_PENDING_SLOT) ||
        memcmp(at(STATE) + ADB_STATE_MAX_PAYLOAD, before[STATE] + ADB_STATE_MAX_PAYLOAD,
               ADB_STATE_NEXT_LOCAL - ADB_STATE_MAX_PAYLOAD) ||
        at(STATE)[ADB_STATE_DELAYED] != before[STATE][ADB_STATE_DELAYED])
        fault("limits or negotiated values", said, 0);
    if (!is_whole(at(STATE))) fault("the state is not whole any more", said, 0);
    return said;
}

/* ---- a live connection */

static uint8_t base_state[ADB_STATE_LEN], base_rx[CHANNELS * 2 * MAX_RX], base_opens[CHANNELS * PAYLOAD];
static int delayed;

static size_t frame(uint8_t *f, const char *name, uint32_t arg0, uint32_t arg1, const uint8_t *payload, size_t n)
{
    put_head(f, name, arg0, arg1, n, sum(payload, n));
    if (n) memcpy(f + ADB_HEADER_LEN, payload, n);
    return ADB_HEADER_LEN + n;
}

static struct call *add(const char *name, enum kind kind, size_t slot, uint32_t local, size_t number)
{
    struct call *c = &calls[call_count++];
    memset(c, 0, sizeof *c);
    c->name = name;
    c->kind = kind;
    c->slot = slot;
    c->local = local;
    c->number = number;
    return c;
}

static struct call *with(struct call *c, const char *name, uint32_t arg0, uint32_t arg1, size_t n)
{
    uint8_t payload[PAYLOAD];
    for (size_t i = 0; i < n; i++) payload[i] = (uint8_t)(3 * i + arg0);
    c->received_len = frame(c->received, name, arg0, arg1, payload, n);
    return c;
}

static struct call *with_okay(struct call *c, uint32_t remote, uint32_t local, uint32_t credit)
{
    uint8_t payload[4];
    put32(payload, credit);
    c->received_len = frame(c->received, "OKAY", remote, local, payload, delayed ? 4 : 0);
    return c;
}

static void lend_base(const struct call *c)
{
    static const uint8_t destination[] = "tcp:1234", data[PAYLOAD] = "some bytes to write";
    lend(STATE, base_state, sizeof base_state);
    lend(RX, base_rx, sizeof base_rx);
    lend(OPENS, base_opens, sizeof base_opens);
    lend(DESTINATION, destination, c->kind == OPEN ? sizeof destination : 0);
    lend(DATA, data, c->kind == WRITE ? c->number : 0);
    lend(RECEIVED, c->received, c->received_len);
    lend(OUTGOING, NULL, OUT);
    lend(BUF, NULL, has_buf(c->kind) ? c->number : 0);
    lend(ANSWER, NULL, ADB_ANSWER_LEN);
}

/* One step of the setup: made on the base, which then holds what it left. */
static void step(struct call *c, uint32_t want)
{
    uint32_t said;
    call_count = 0;
    lend_base(c);
    said = checked(c, 0);
    if (said != want) fault("setup", want, said);
    memcpy(base_state, at(STATE), sizeof base_state);
    memcpy(base_rx, at(RX), sizeof base_rx);
    memcpy(base_opens, at(OPENS), sizeof base_opens);
}

static void build(int with_delayed, int waiting)
{
    static char name[64];
    uint32_t said;
    delayed = with_delayed;
    snprintf(name, sizeof name, "%s%s", delayed ? "delayed" : "classic", waiting ? " with an open that waits" : "");
    base_name = name;
    testing = "setup";
    for (size_t i = 0; i < sizeof base_rx; i++) base_rx[i] = (uint8_t)next();
    for (size_t i = 0; i < sizeof base_opens; i++) base_opens[i] = (uint8_t)next();
    said = adb_make(base_state, sizeof base_state, CHANNELS, PAYLOAD, MAX_RX, INITIAL_ACK, 0x01000001, 48, 1, (uint8_t)delayed);
    if (said != ADB_DONE) fault("make", said, 0);
    for (uint32_t i = 0; i < 4; i++) {
        step(add("open", OPEN, 0, 0, 0), ADB_WAITING);
        step(with_okay(add("open, OKAY", OPEN, 0, 0, 0), 11 + i, 1 + i, 50), ADB_DONE);
    }
    /* Channel 0: bytes held, set aside, and taken from the front. */
    step(with(add("dispatch", DISPATCH, 0, 0, 0), "WRTE", 11, 1, 60), ADB_DONE);
    step(with(add("dispatch", DISPATCH, 0, 0, 0), "WRTE", 11, 1, 60), ADB_DONE);
    step(add("settle", SETTLE, 0, 1, 30), ADB_DONE);
    step(add("take", TAKE, 0, 1, 10), ADB_DONE);
    /* Channel 1: bytes held. Channel 2: closed with bytes. Channel 3: a WRTE is out. */
    step(with(add("dispatch", DISPATCH, 0, 0, 0), "WRTE", 12, 2, 33), ADB_DONE);
    step(with(add("dispatch", DISPATCH, 0, 0, 0), "WRTE", 13, 3, 7), ADB_DONE);
    step(with(add("dispatch", DISPATCH, 0, 0, 0), "CLSE", 13, 3, 0), ADB_DONE);
    step(add("write", WRITE, 3, 4, 50), ADB_DONE);
    /* Three opens of the device's, one taken, let go, taken again: it is offered, unless an open of ours then waits. */
    for (uint32_t i = 0; i < 3; i++) step(with(add("dispatch", DISPATCH, 0, 0, 0), "OPEN", 70 + i, 5 + i, 9 + i), ADB_DONE);
    step(add("take_front", FRONT, 0, 0, 0), ADB_DONE);
    step(add("let_go", LET_GO, 0, 0, 0), ADB_DONE);
    step(add("take_front", FRONT, 0, 0, 0), ADB_DONE);
    if (waiting) step(add("open", OPEN, 0, 0, 0), ADB_WAITING);
    call_count = 0;
    running = NULL;
    add("open", OPEN, 0, 0, 0);
    with_okay(add("open, its OKAY", OPEN, 0, 0, 0), 15, 5, 50);
    with(add("open, a WRTE of another", OPEN, 0, 0, 0), "WRTE", 12, 2, 20);
    with(add("dispatch, WRTE", DISPATCH, 0, 0, 0), "WRTE", 12, 2, 40);
    with(add("dispatch, OPEN", DISPATCH, 0, 0, 0), "OPEN", 80, 9, 12);
    with(add("dispatch, CLSE", DISPATCH, 0, 0, 0), "CLSE", 71, 0, 0);
    with_okay(add("dispatch, OKAY", DISPATCH, 0, 0, 0), 14, 4, 25);
    with(add("dispatch, part of a frame", DISPATCH, 0, 0, 0), "WRTE", 12, 2, 40)->received_len = 50;
    with(add("dispatch, wrong check", DISPATCH, 0, 0, 0), "WRTE", 12, 2, 40)->received[16] ^= 1;
    add("settle, some set aside", SETTLE, 0, 1, 50);
    add("settle", SETTLE, 1, 2, 10);
    add("take", TAKE, 0, 1, 25);
    add("read, buffered", READ, 0, 1, 16);
    add("read, closed", READ, 2, 3, 5);
    with(add("read, its WRTE", READ, 3, 4, 64), "WRTE", 14, 4, 50);
    with(add("read, a WRTE of another", READ, 3, 4, 8), "WRTE", 12, 2, 20);
    with(add("read, its CLSE", READ, 3, 4, 8), "CLSE", 14, 4, 0);
    add("write", WRITE, 1, 2, 40);
    with_okay(add("write, its OKAY", WRITE, 3, 4, 40), 14, 4, 100);
    add("close", CLOSE, 1, 2, 0);
    add("close, no such channel", CLOSE, 5, 9, 0);
    add("take_front", FRONT, 0, 0, 0);
    add("numbers", NUMBERS, 0, 1, 0);
    add("numbers of a closed channel", NUMBERS, 2, 3, 0);
    add("accept", ACCEPT, 0, 0, 0);
    add("reject", REJECT, 0, 0, 0);
    add("let_go", LET_GO, 0, 0, 0);
    if (call_count > MAX_CALLS) fault("calls", (uint64_t)call_count, 0);
}

/* ---- the tests */

static void random_states(void)
{
    uint8_t bytes[ADB_STATE_LEN];
    testing = "random states";
    for (int round = 0; round < 400; round++)
        for (int k = 0; k < call_count; k++) {
            const struct call *c = &calls[k];
            lend_base(c);
            for (size_t i = 0; i < sizeof bytes; i++) bytes[i] = round == 0 ? 0 : round == 1 ? 255 : (uint8_t)next();
            switch (round % 5) {
            case 1: /* a good header before random slots and opens */
                memcpy(bytes, base_state, ADB_STATE_SLOTS);
                break;
            case 2: /* a random header before good slots */
                memcpy(bytes + ADB_STATE_SLOTS, base_state + ADB_STATE_SLOTS, sizeof bytes - ADB_STATE_SLOTS);
                break;
            case 3: { /* one random slot or open */
                const size_t i = next() % ADB_MAX_CHANNELS, is_slot = next() % 2;
                const size_t from = is_slot ? ADB_STATE_SLOT(i % 8) : ADB_STATE_QUEUED_OPEN(i % 4);
                const size_t n = is_slot ? ADB_STATE_SLOT_LEN : ADB_STATE_QUEUED_LEN;
                memcpy(bytes, base_state, from);
                memcpy(bytes + from + n, base_state + from + n, sizeof bytes - from - n);
                break;
            }
            case 4: /* a few bytes changed anywhere */
                for (size_t i = 0; i < sizeof bytes; i++) bytes[i] = base_state[i] ^ (next() % 3000 ? 0 : (uint8_t)next());
                break;
            }
            lend(STATE, bytes, sizeof bytes);
            checked(c, 0);
        }
}

static void all_calls(const uint8_t *state)
{
    for (int k = 0; k < call_count; k++) {
        lend_base(&calls[k]);
        lend(STATE, state, ADB_STATE_LEN);
        checked(&calls[k], 0);
    }
}

static void changed_bytes(void)
{
    uint8_t state[ADB_STATE_LEN];
    testing = "one byte changed";
    for (size_t i = 0; i < ADB_STATE_LEN; i++) {
        const uint8_t was = base_state[i];
        const uint8_t values[] = { 0, (uint8_t)(was ^ 1), (uint8_t)(was + 2), 255, (uint8_t)next() };
        for (size_t v = 0; v < sizeof values; v++) {
            if (values[v] == was) continue;
            memcpy(state, base_state, sizeof state);
            state[i] = values[v];
            all_calls(state);
        }
    }
}

/* Numbers at and past their limits. */
static void boundaries(void)
{
    static const struct field {
        size_t at;
        int bytes;
        uint64_t values[12];
    } fields[] = {
        { ADB_STATE_CHANNELS, 8, { 0, 1, 3, 4, 5, 6, 7, 64, 65, 256, 1u << 31, UINT64_MAX } },
        { ADB_STATE_MAX_RX_PER_CHANNEL, 8, { 0, 1, 63, 64, 65, 119, 199, 200, 201, 16777216, 16777217, UINT64_MAX } },
        { ADB_STATE_PENDING_SLOT, 8, { 0, 1, 2, 3, 4, 5, 6, 7, 63, 64, 65, UINT64_MAX } },
        { ADB_STATE_QUEUED, 8, { 0, 1, 2, 3, 4, 5, 6, 7, 63, 64, 65, UINT64_MAX } },
        { ADB_STATE_MAX_PAYLOAD, 4, { 0, 1, 9, 10, 11, 12, 63, 64, 65, 1048576, 1048577, UINT32_MAX } },
        { ADB_STATE_INITIAL_ACK_BYTES, 4, { 0, 1, 63, 64, 65, 136, 137, 138, 2147483646, 2147483647, 2147483648u, UINT32_MAX } },
        { ADB_STATE_DEVICE_MAX_PAYLOAD, 4, { 0, 1, 2, 47, 48, 49, 1048575, 1048576, 1048577, 1u << 24, 1u << 31, UINT32_MAX } },
        { ADB_STATE_VERSION, 4, { 0, 1, 0x00ffffff, 0x01000000, 0x01000001, 0x01000002, 1u << 25, 1u << 31, 3, 4, 5, UINT32_MAX } },
        { ADB_STATE_NEXT_LOCAL, 4, { 0, 1, 2, 3, 4, 5, 6, 7, 1u << 31, UINT32_MAX - 1, UINT32_MAX, 8 } },
        { ADB_STATE_DELAYED, 1, { 0, 1, 2, 3, 4, 5, 6, 7, 127, 128, 254, 255 } },
        { ADB_STATE_PENDING, 1, { 0, 1, 2, 3, 4, 5, 6, 7, 127, 128, 254, 255 } },
        { ADB_STATE_QUEUED_OPEN(0) + ADB_STATE_QUEUED_SHARE, 8, { 0, 1, 2, 3, 4, 5, 6, 7, 63, 64, 65, UINT64_MAX } },
        { ADB_STATE_QUEUED_OPEN(1) + ADB_STATE_QUEUED_SHARE, 8, { 0, 1, 2, 3, 4, 5, 6, 7, 63, 64, 65, UINT64_MAX } },
        { ADB_STATE_QUEUED_OPEN(2) + ADB_STATE_QUEUED_SHARE, 8, { 0, 1, 2, 3, 4, 5, 6, 7, 63, 64, 65, UINT64_MAX } },
        { ADB_STATE_QUEUED_OPEN(1) + ADB_STATE_QUEUED_SIZE, 8, { 0, 1, 10, 62, 63, 64, 65, 66, 128, 1048577, 1u << 31, UINT64_MAX } },
        { ADB_STATE_QUEUED_OPEN(2) + ADB_STATE_QUEUED_SIZE, 8, { 0, 1, 10, 62, 63, 64, 65, 66, 128, 1048577, 1u << 31, UINT64_MAX } },
    };
    static const uint64_t lengths[] = { 0, 1, MAX_RX - 1, MAX_RX, MAX_RX + 1, 2 * MAX_RX - 1, 2 * MAX_RX, 2 * MAX_RX + 1,
                                        UINT32_MAX - 2 * MAX_RX, UINT32_MAX };
    static const size_t slots[] = { 0, 2, 4, CHANNELS, ADB_MAX_CHANNELS - 1 };
    const size_t n = sizeof lengths / sizeof *lengths, of = sizeof fields / sizeof *fields;
    uint8_t state[ADB_STATE_LEN];
    testing = "boundaries";
    /* Each field alone, and any two of them. */
    for (size_t f = 0; f < of; f++)
        for (int v = 0; v < 12; v++)
            for (size_t g = 0; g < of; g++) {
                memcpy(state, base_state, sizeof state);
                if (g != f) poke(state, fields[g].at, fields[g].bytes, fields[g].values[next() % 12]);
                poke(state, fields[f].at, fields[f].bytes, fields[f].values[v]);
                all_calls(state);
            }
    for (size_t i = 0; i < n * n * n; i++) {
        memcpy(state, base_state, sizeof state);
        poke(state, ADB_STATE_SLOT(0) + ADB_STATE_SLOT_SETTLED, 4, lengths[i % n]);
        poke(state, ADB_STATE_SLOT(0) + ADB_STATE_SLOT_BUFFERED, 4, lengths[i / n % n]);
        poke(state, ADB_STATE_SLOT(0) + ADB_STATE_SLOT_HEAD, 4, lengths[i / n / n]);
        all_calls(state);
    }
    for (size_t i = 0; i < sizeof slots / sizeof *slots; i++)
        for (unsigned tag = 0; tag < 256; tag++) {
            memcpy(state, base_state, sizeof state);
            state[ADB_STATE_SLOT(slots[i]) + ADB_STATE_SLOT_TAG] = (uint8_t)tag;
            all_calls(state);
        }
    /* Budgets and unacknowledged counts are never refused, at their ends either. */
    for (size_t i = 0; i < 4; i++)
        for (int j = 0; j < 64; j++) {
            memcpy(state, base_state, sizeof state);
            poke(state, ADB_STATE_SLOT(i) + ADB_STATE_SLOT_BUDGET, 8, (UINT64_C(1) << j) - (uint64_t)(next() % 2));
            poke(state, ADB_STATE_SLOT(i) + ADB_STATE_SLOT_UNACKED, 8, UINT64_MAX - (UINT64_C(1) << j) + 1 + next() % 2);
            all_calls(state);
        }
}

/* The base with some buffers at other lengths; more than a buffer's own bytes are filler. */
static uint32_t at_lengths(const struct call *c, size_t state, size_t rx, size_t opens, size_t out, size_t answer, int late)
{
    uint8_t bytes[MOST];
    lend_base(c);
    memset(bytes, 0x3C, sizeof bytes);
    memcpy(bytes, base_state, sizeof base_state);
    lend(STATE, bytes, state);
    memset(bytes, 0x3C, sizeof bytes);
    memcpy(bytes, base_rx, sizeof base_rx);
    lend(RX, bytes, rx);
    memset(bytes, 0x3C, sizeof bytes);
    memcpy(bytes, base_opens, sizeof base_opens);
    lend(OPENS, bytes, opens);
    lend(OUTGOING, NULL, out);
    lend(ANSWER, NULL, answer);
    return checked(c, late);
}

static void short_buffers(void)
{
    const size_t s = ADB_STATE_LEN, r = sizeof base_rx, o = sizeof base_opens, a = ADB_ANSWER_LEN;
    static const size_t states[] = { 0, 1, ADB_STATE_SLOTS - 1, ADB_STATE_SLOTS, ADB_STATE_QUEUE - 1, ADB_STATE_QUEUE, ADB_STATE_LEN - 1 };
    uint8_t kept;
    testing = "short buffers";
    for (int k = 0; k < call_count; k++) {
        const struct call *c = &calls[k];
        const uint32_t plain = at_lengths(c, s, r, o, OUT, a, 0);
        uint8_t after[ADB_STATE_LEN], answer[ADB_ANSWER_LEN];
        memcpy(after, at(STATE), sizeof after);
        memcpy(answer, at(ANSWER), sizeof answer);
        for (size_t i = 0; i < sizeof states / sizeof *states; i++) at_lengths(c, states[i], r, o, OUT, a, 0);
        for (size_t i = 0; i < a; i++) at_lengths(c, s, r, o, OUT, i, 0);
        at_lengths(c, s, r - 1, o, OUT, a, 0);
        at_lengths(c, s, 0, o, OUT, a, 0);
        at_lengths(c, s, r, o - 1, OUT, a, 0);
        at_lengths(c, s, r, 0, OUT, a, 0);
        for (size_t i = 0; i < ADB_OUT_MIN; i++) at_lengths(c, s, r, o, i, a, 0);
        /* More than one at a time: the order. */
        at_lengths(c, s - 1, r - 1, o - 1, 55, a - 1, 0);
        at_lengths(c, s - 1, r - 1, o - 1, 55, a, 0);
        at_lengths(c, s, r - 1, o - 1, 55, a - 1, 0);
        at_lengths(c, s, r - 1, o, 55, a, 0);
        at_lengths(c, s, r, o - 1, 55, a, 0);
        at_lengths(c, 0, 0, 0, 0, 0, 0);
        at_lengths(c, s, 0, 0, 0, a, 0);
        kept = base_state[ADB_STATE_DELAYED];
        base_state[ADB_STATE_DELAYED] = 2;
        at_lengths(c, s, r, o, OUT, a, 0);
        at_lengths(c, s, r - 1, o - 1, 55, a, 0);
        at_lengths(c, s - 1, r, o, OUT, a, 0);
        at_lengths(c, s, r, o, OUT, a - 1, 0);
        base_state[ADB_STATE_DELAYED] = kept;
        /* Longer than needed: the same answer, the same state. */
        if (at_lengths(c, s + 7, r + 9, o + 11, OUT + 13, a + 5, 0) != plain || memcmp(at(STATE), after, sizeof after) ||
            memcmp(at(ANSWER), answer, sizeof answer))
            fault("longer buffers", plain, 0);
    }
}

/* 9 after all else: a buffer of 56 bytes or more that is one byte short of the OPEN or WRTE due, and one that is not. */
static void short_frames(void)
{
    uint8_t destination[PAYLOAD];
    struct call c;
    testing = "short frames";
    memset(destination, 'x', sizeof destination);
    memset(&c, 0, sizeof c);
    c.name = "open";
    c.kind = OPEN;
    for (size_t n = ADB_OUT_MIN - ADB_HEADER_LEN + 1; n <= PAYLOAD; n++)
        for (int enough = 0; enough < 2; enough++) {
            const int waits = base_state[ADB_STATE_PENDING] == ADB_PENDING_OPEN;
            lend_base(&c);
            lend(DESTINATION, destination, n);
            lend(OUTGOING, NULL, ADB_HEADER_LEN + n - !enough);
            const uint32_t said = checked(&c, 1);
            /* An open that waits does not look at its destination. */
            if (said != (enough || waits ? ADB_WAITING : ADB_REFUSED_OUT_SHORT)) fault("an OPEN's room", n, said);
        }
    c.name = "write";
    c.kind = WRITE;
    c.slot = 1;
    c.local = 2;
    for (size_t n = ADB_OUT_MIN - ADB_HEADER_LEN + 1; n <= PAYLOAD; n++)
        for (int enough = 0; enough < 2; enough++) {
            /* The device takes 48 bytes at most. */
            const size_t sent = n < 48 ? n : 48;
            c.number = n;
            lend_base(&c);
            lend(OUTGOING, NULL, ADB_HEADER_LEN + sent - !enough);
            const uint32_t said = checked(&c, 1);
            if (said != (enough ? ADB_DONE : ADB_REFUSED_OUT_SHORT)) fault("a WRTE's room", n, said);
            if (enough && adb_answer_length(at(ANSWER)) != sent) fault("a WRTE's length", n, adb_answer_length(at(ANSWER)));
        }
    /* The OKAY that brings the credit is not used either. */
    c.name = "write, its OKAY";
    c.slot = 3;
    c.local = 4;
    c.number = 40;
    with_okay(&c, 14, 4, 100);
    for (int enough = 0; enough < 2; enough++) {
        /* Delayed: 2 bytes of credit are left, so that a WRTE goes out at once. */
        const uint32_t due = enough || delayed ? ADB_DONE : ADB_REFUSED_OUT_SHORT;
        lend_base(&c);
        lend(OUTGOING, NULL, ADB_HEADER_LEN + c.number - !enough);
        const uint32_t said = checked(&c, 1);
        if (said != due) fault("a WRTE's room after its OKAY", due, said);
    }
}

static uint64_t makes;

/* Identity texts that list delayed_ack, and ones that do not. */
static const char *const listing[] = { "device::features=delayed_ack", "device::a=1;features=shell_v2,delayed_ack;b=2",
                                       "x;features=delayed_ack", "device::features=cmd,,delayed_ack,;features=cmd" };
static const char *const other[] = { "", "delayed_ack", "device::features=shell_v2,cmd;delayed_ack", "device::features=",
                                     "device::ro.features=delayed_ack;features=cmd", "features=delayed_ack",
                                     "device::features=cmd;features=delayed_ack", "device::features=delayed_ack2" };

/* By the device's flag, or by a text that says the same. */
static uint32_t make_by(int by_text, size_t channels, uint32_t payload, size_t max_rx, uint32_t ack, uint32_t version,
                        uint32_t device_max, uint8_t host, uint8_t device)
{
    const char *text = device ? listing[below(sizeof listing / sizeof *listing)] : other[below(sizeof other / sizeof *other)];
    if (!by_text) return adb_make(ptr(STATE), len[STATE], channels, payload, max_rx, ack, version, device_max, host, device);
    return adb_make_from_cnxn(ptr(STATE), len[STATE], channels, payload, max_rx, ack, version, device_max,
                              (const uint8_t *)text, strlen(text), host);
}

static void one_make_by(int by_text, size_t state_len, size_t channels, uint32_t payload, size_t max_rx, uint32_t ack,
                        uint32_t version, uint32_t device_max, uint8_t host, uint8_t device, uint32_t want)
{
    uint8_t fresh[ADB_STATE_LEN];
    uint32_t said;
    lend(STATE, NULL, state_len);
    said = make_by(by_text, channels, payload, max_rx, ack, version, device_max, host, device);
    makes++;
    if (!guards(STATE)) fault("guard bytes", STATE, said);
    if (said != want) fault("make", want, said);
    if (said != ADB_DONE) {
        if (!same(STATE, 0)) fault("make is refused and changes the state", said, 0);
        return;
    }
    memset(fresh, 0, sizeof fresh);
    put32(fresh + ADB_STATE_CHANNELS, (uint32_t)channels);
    put32(fresh + ADB_STATE_MAX_RX_PER_CHANNEL, (uint32_t)max_rx);
    put32(fresh + ADB_STATE_MAX_PAYLOAD, payload);
    put32(fresh + ADB_STATE_INITIAL_ACK_BYTES, ack);
    put32(fresh + ADB_STATE_DEVICE_MAX_PAYLOAD, device_max < ADB_MAX_PAYLOAD ? device_max : ADB_MAX_PAYLOAD);
    put32(fresh + ADB_STATE_VERSION, version < 0x01000001 ? version : 0x01000001);
    put32(fresh + ADB_STATE_NEXT_LOCAL, 1);
    fresh[ADB_STATE_DELAYED] = host && device;
    if (memcmp(at(STATE), fresh, sizeof fresh) || !same(STATE, ADB_STATE_LEN)) fault("a fresh state's bytes", channels, payload);
    if (!is_whole(at(STATE))) fault("a fresh state is not whole", channels, payload);
}

static void one_make(size_t state_len, size_t channels, uint32_t payload, size_t max_rx, uint32_t ack, uint32_t version,
                     uint32_t device_max, uint8_t host, uint8_t device, uint32_t want)
{
    for (int by_text = 0; by_text < 2; by_text++)
        one_make_by(by_text, state_len, channels, payload, max_rx, ack, version, device_max, host, device, want);
}

static void make_limits(void)
{
    static const size_t channels[] = { 0, 1, 2, 63, 64, 65, 1000, SIZE_MAX };
    static const uint32_t payloads[] = { 0, 1, 4096, ADB_MAX_PAYLOAD, ADB_MAX_PAYLOAD + 1, UINT32_MAX };
    static const size_t rxs[] = { 0, 1, ADB_MAX_RX_PER_CHANNEL, ADB_MAX_RX_PER_CHANNEL + 1, SIZE_MAX };
    static const uint32_t acks[] = { 0, 1, ADB_MAX_INITIAL_ACK_BYTES, (uint32_t)ADB_MAX_INITIAL_ACK_BYTES + 1, UINT32_MAX };
    static const uint32_t versions[] = { 0, 0x01000000, 0x01000001, 0x01000002, UINT32_MAX };
    static const uint32_t maxima[] = { 0, 1, 4096, ADB_MAX_PAYLOAD, ADB_MAX_PAYLOAD + 1, UINT32_MAX };
    testing = "make";
    base_name = "-";
    running = NULL;
    for (int c = 0; c < 8; c++)
        for (int p = 0; p < 6; p++)
            for (int r = 0; r < 5; r++)
                for (int k = 0; k < 5; k++) {
                    const int kept = c >= 1 && c <= 4 && p >= 1 && p <= 3 && r <= 2 && k <= 2;
                    const uint32_t want = kept ? ADB_DONE : ADB_REFUSED_BAD_CONFIG;
                    const uint32_t version = versions[next() % 5], maximum = maxima[next() % 6];
                    const uint8_t host = (uint8_t)(next() % 2 * (next() % 256)), device = (uint8_t)(next() % 2 * (next() % 256));
                    one_make(ADB_STATE_LEN, channels[c], payloads[p], rxs[r], acks[k], version, maximum, host, device, want);
                    one_make(ADB_STATE_LEN + 9, channels[c], payloads[p], rxs[r], acks[k], version, maximum, host, device, want);
                    one_make(ADB_STATE_LEN - 1, channels[c], payloads[p], rxs[r], acks[k], version, maximum, host, device,
                             ADB_REFUSED_STORE_SHORT);
                    one_make(0, channels[c], payloads[p], rxs[r], acks[k], version, maximum, host, device, ADB_REFUSED_STORE_SHORT);
                }
}

static void say(const char *what, void (*test)(void))
{
    count_all = count_13 = count_8 = count_9 = count_on = 0;
    test();
    printf("%-32s %-18s %9" PRIu64 " %9" PRIu64 " %9" PRIu64 " %9" PRIu64 " %9" PRIu64 "\n", base_name, what, count_all, count_13,
           count_8, count_9, count_on);
}

int main(int argc, char **argv)
{
    rng = argc > 1 ? strtoull(argv[1], NULL, 0) : 1;
    printf("%-32s %-18s %9s %9s %9s %9s %9s\n", "", "", "calls", "by 13", "by 8", "by 9", "went on");
    for (int mode = 0; mode < 2; mode++)
        for (int waiting = 0; waiting < 2; waiting++) {
            build(mode, waiting);
            say("random states", random_states);
            say("one byte changed", changed_bytes);
            say("boundaries", boundaries);
            say("short buffers", short_buffers);
            say("short frames", short_frames);
        }
    make_limits();
    printf("make: %" PRIu64 " calls\nno fault\n", makes);
    return 0;
}
