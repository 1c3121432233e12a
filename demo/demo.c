/* Forty simulated peers on one connection, in each mode: channels are opened, some megabytes go both ways by reads and writes
 * in a random order, every byte is checked at its end, and a table says what happened. Exit status 1 on any fault.
 *
 *   demo [--capture FILE] [SEED [MIB]]       (default 1 and 8: MiB each way and mode)
 *
 * With --capture every frame that the host takes or writes goes into a pcap file, with the time at which it did.
 * The host's half uses the C interface alone. The device's half is simulated here: it answers OPENs, sends no more than the
 * protocol lets it, and acknowledges late. Every third peer's channel is opened by the device, and the host accepts it by its
 * name; now and then the device opens channels of other names, which the host rejects. Of both it lets some go first and takes
 * them later. What the device sends arrives cut at random places.
 */
#define _POSIX_C_SOURCE 199309L
#include "common.h"

#include <adb_pcap.h>

#include <time.h>

#define PEERS 40
#define CHANNELS 48
#define MAX_PAYLOAD 4096
#define MAX_RX 16384
#define INITIAL_ACK 32768
#define DEVICE_MAX_PAYLOAD 6000
#define MAX_DATA 9000
#define MAX_BUF 6000
#define DEVICE_OPENS 300
#define FIRST_OPEN_NUMBER 50000
#define GUARD 32
#define MARK 0xA5

/* Byte `at` of a stream: each channel has its own in each direction, so that bytes that are lost, repeated or mixed up show. */
static uint8_t stream(uint64_t key, uint64_t at) { return (uint8_t)(mix(key + at / 8 * 0x9e3779b97f4a7c15u) >> at % 8 * 8); }

static void fill(uint8_t *p, size_t n, uint64_t key, uint64_t at)
{
    for (size_t i = 0; i < n; i++) p[i] = stream(key, at + i);
}

static void expect(const uint8_t *p, size_t n, uint64_t key, uint64_t at, const char *what)
{
    for (size_t i = 0; i < n; i++)
        if (p[i] != stream(key, at + i)) die(what, at + i, p[i]);
}

static uint64_t now_ns(void)
{
    struct timespec t;
    clock_gettime(CLOCK_MONOTONIC, &t);
    return (uint64_t)t.tv_sec * 1000000000u + (uint64_t)t.tv_nsec;
}

/* ---- lent buffers */

struct lent {
    uint8_t *at;
    size_t len;
};

static struct lent lend(size_t len)
{
    struct lent l;
    uint8_t *base = malloc(len + 2 * GUARD);
    if (!base) die("no memory", len, 0);
    memset(base, MARK, len + 2 * GUARD);
    l.at = base + GUARD;
    l.len = len;
    return l;
}

static void guarded(const struct lent *l, const char *what)
{
    for (size_t i = 0; i < GUARD; i++)
        if (l->at[l->len + i] != MARK || l->at[i - GUARD] != MARK) die(what, i, 0);
}

static void give_back(struct lent *l)
{
    free(l->at - GUARD);
    l->at = NULL;
}

/* ---- one mode's run */

enum { SYNC, CNXN, OPEN, OKAY, CLSE, WRTE, COMMANDS };

static const char *const names[COMMANDS] = { "SYNC", "CNXN", "OPEN", "OKAY", "CLSE", "WRTE" };

struct peer {
    /* the host's view */
    size_t slot;
    uint32_t local;
    uint64_t got, put; /* bytes read and written so far */
    /* the device's view */
    uint32_t host, number;        /* both ends' numbers */
    int opened, closed;           /* by the device, by the host */
    uint64_t sent, heard;         /* bytes sent to the host and received from it */
    int64_t credit;               /* delayed: bytes that the device may send; classic: 1 if it may send a WRTE */
    int64_t first_credit;         /* as the OPEN granted it, or the OKAY that accepted */
    int64_t host_credit;          /* what the host may send, likewise */
    uint64_t window;              /* delayed: the host's credit at the start */
    uint64_t owed;                /* delayed: bytes to acknowledge; classic: 1 if an OKAY is owed */
    /* both */
    uint64_t total_in, total_out; /* bytes that the host is to read and to write */
    uint64_t allowed;             /* what the host's OKAYs allowed the device, as adb_numbers tells it */
    uint64_t key_in, key_out;
};

struct tally {
    uint64_t calls, waiting, partial, frames_in, frames_out, wrte_in, wrte_out, okay_in, okay_out;
    uint64_t bytes_in, bytes_out, refused, rejected, accepted, let_go, ns, wall, captured;
};

static struct peer peers[PEERS];
static struct tally t;
static int delayed;
static uint32_t version;

static struct lent state, rx, opens, in, out, buf, data, answer;
static size_t have;          /* bytes of `in` that have arrived and are not used */
static uint8_t *wire;        /* what the device has sent and has not arrived */
static size_t wire_len, wire_at;
#define WIRE_MAX (1u << 17)
static uint32_t next_open;   /* opens of the device's so far */
static uint32_t next_front;  /* of those, rejected or refused since too many waited */
static uint8_t refused[DEVICE_OPENS];

/* ---- the capture */

static FILE *capture; /* NULL for none */

static void capture_bytes(const uint8_t *bytes, size_t n)
{
    if (fwrite(bytes, 1, n, capture) != n) die("the capture cannot be written", n, 0);
}

static void capture_begins(const char *path)
{
    uint8_t header[ADB_PCAP_HEADER_LEN];
    capture = fopen(path, "wb");
    if (!capture) die("the capture cannot be opened", 0, 0);
    if (adb_pcap_write_header(header, sizeof header) != ADB_PCAP_DONE) die("a capture's header is refused", 0, 0);
    capture_bytes(header, sizeof header);
}

static void capture_frame(const uint8_t *frame, size_t n)
{
    static uint8_t record[ADB_PCAP_RECORD_LEN + ADB_HEADER_LEN + MAX_DATA];
    struct timespec now;
    uint32_t said;
    if (!capture) return;
    clock_gettime(CLOCK_REALTIME, &now);
    said = adb_pcap_write_record((uint32_t)now.tv_sec, (uint32_t)(now.tv_nsec / 1000), frame, n, record, sizeof record);
    if (said != ADB_PCAP_DONE) die("a frame is not captured", said, n);
    capture_bytes(record, ADB_PCAP_RECORD_LEN + n);
    t.captured++;
}

/* ---- the device */

static void device_sends(int command, uint32_t arg0, uint32_t arg1, const uint8_t *payload, size_t n)
{
    uint8_t *f;
    if (wire_at) {
        memmove(wire, wire + wire_at, wire_len - wire_at);
        wire_len -= wire_at;
        wire_at = 0;
    }
    if (wire_len + ADB_HEADER_LEN + n > WIRE_MAX) die("the device's queue is full", wire_len, n);
    f = wire + wire_len;
    /* A check of 0 is not compared. */
    put_head(f, names[command], arg0, arg1, n, chance(50) ? sum(payload, n) : 0);
    if (n) memcpy(f + ADB_HEADER_LEN, payload, n);
    wire_len += ADB_HEADER_LEN + n;
    t.frames_in++;
    t.wrte_in += command == WRTE;
    t.okay_in += command == OKAY;
}

static void device_okays(struct peer *p, uint32_t credit)
{
    uint8_t bytes[4];
    put32(bytes, credit);
    device_sends(OKAY, p->number, p->host, bytes, delayed ? 4 : 0);
    p->host_credit = delayed ? p->host_credit + credit : 1;
}

static struct peer *peer_of(uint32_t number)
{
    for (int i = 0; i < PEERS; i++)
        if (peers[i].number == number && peers[i].opened && !peers[i].closed) return &peers[i];
    die("a frame for no channel", number, 0);
    return NULL;
}

/* Whether the device opens a peer's channel. */
static int inward(const struct peer *p) { return (p - peers) % 3 == 2; }

static size_t name_of(const struct peer *p, char *name, size_t room) { return (size_t)snprintf(name, room, "peer:%d", (int)(p - peers)); }

static void device_opens(struct peer *p)
{
    char name[32];
    const size_t n = name_of(p, name, sizeof name);
    device_sends(OPEN, p->number, delayed ? (uint32_t)p->window : 0, (const uint8_t *)name, n);
}

/* The peer whose channel the device has asked for, and that is not accepted yet, or NULL. */
static struct peer *asked(uint32_t number)
{
    for (int i = 0; i < PEERS; i++)
        if (peers[i].number == number && inward(&peers[i]) && !peers[i].opened) return &peers[i];
    return NULL;
}

/* Its OKAY: it carries the credit that the device has at first, and acknowledges nothing. */
static void device_is_accepted(struct peer *p, uint32_t local, const uint8_t *payload, size_t n)
{
    if (n != (delayed ? 4u : 0u)) die("an accepting OKAY's length", n, 0);
    p->opened = 1;
    p->host = local;
    p->credit = p->first_credit = delayed ? (int64_t)adb_le32(payload) : 1;
    p->host_credit = delayed ? (int64_t)p->window : 1;
}

static void device_hears_open(uint32_t local, uint32_t credit, const uint8_t *name, size_t n)
{
    char text[32];
    struct peer *p;
    memcpy(text, name, least(n, sizeof text - 1));
    text[least(n, sizeof text - 1)] = 0;
    if (strncmp(text, "peer:", 5) || atoi(text + 5) < 0 || atoi(text + 5) >= PEERS) die("an OPEN for another name", n, 0);
    p = &peers[atoi(text + 5)];
    if (p->opened || inward(p)) die("a channel opened twice", p->host, local);
    if (delayed != (credit != 0)) die("an OPEN's credit", credit, 0);
    p->opened = 1;
    p->host = local;
    p->credit = p->first_credit = delayed ? (int64_t)credit : 1;
    p->window = between(1000, 20000);
    device_okays(p, (uint32_t)p->window);
}

static void device_hears(const uint8_t *f, size_t n)
{
    const uint32_t arg0 = adb_le32(f + 4), arg1 = adb_le32(f + 8), check = adb_le32(f + 16);
    const uint8_t *payload = f + ADB_HEADER_LEN;
    t.frames_out++;
    if (adb_le32(f + 20) != ~adb_le32(f)) die("a frame's magic", adb_le32(f), adb_le32(f + 20));
    if (check != (version >= 0x01000001 ? 0 : sum(payload, n))) die("a frame's check", check, sum(payload, n));
    if (!memcmp(f, names[OPEN], 4)) {
        device_hears_open(arg0, arg1, payload, n);
        return;
    }
    if (!memcmp(f, names[CLSE], 4) && arg0 == 0) {
        const uint32_t i = arg1 - FIRST_OPEN_NUMBER;
        if (asked(arg1)) { /* too many waited: once more */
            device_opens(asked(arg1));
            return;
        }
        if (i >= next_open || refused[i]) die("a CLSE for no open of the device's", arg1, 0);
        refused[i] = 1;
        t.refused++;
        return;
    }
    if (!memcmp(f, names[OKAY], 4) && asked(arg1)) {
        device_is_accepted(asked(arg1), arg0, payload, n);
        return;
    }
    struct peer *p = peer_of(arg1);
    if (p->host != arg0) die("numbers of two channels", arg0, arg1);
    if (!memcmp(f, names[OKAY], 4)) {
        t.okay_out++;
        if (n != (delayed ? 4u : 0u)) die("an OKAY's length", n, 0);
        if (!delayed && p->credit) die("an OKAY for no WRTE", arg0, 0);
        p->credit = delayed ? p->credit + (int32_t)adb_le32(payload) : 1;
    } else if (!memcmp(f, names[WRTE], 4)) {
        t.wrte_out++;
        if (n > DEVICE_MAX_PAYLOAD) die("a WRTE over the device's maximum", n, 0);
        if (delayed ? p->host_credit < (int64_t)n : !p->host_credit) die("a WRTE without credit", arg0, n);
        expect(payload, n, p->key_out, p->heard, "a byte written");
        p->heard += n;
        p->host_credit = delayed ? p->host_credit - (int64_t)n : 0;
        p->owed = delayed ? p->owed + n : 1;
    } else if (!memcmp(f, names[CLSE], 4)) {
        p->closed = 1;
    } else die("a frame that the host does not send", adb_le32(f), 0);
}

static int may_send(const struct peer *p) { return p->opened && p->credit > 0 && p->sent < p->total_in; }
/* Late, as a device does, so that credit does not go back in crumbs. */
static int may_ack(const struct peer *p) { return p->opened && p->owed > (delayed ? p->window / 2 : 0); }

static void device_acts(void)
{
    uint8_t bytes[MAX_PAYLOAD];
    struct peer *p = &peers[below(PEERS)];
    if (wire_len - wire_at > WIRE_MAX / 2) return;
    /* From a random peer on, the first that has something to do. */
    for (int i = 0; i < PEERS && !may_send(p) && !may_ack(p); i++) p = p == peers + PEERS - 1 ? peers : p + 1;
    if (may_ack(p) && (chance(50) || !may_send(p))) {
        const uint64_t n = delayed && chance(50) ? between(p->owed / 2, p->owed) : p->owed;
        p->owed -= n;
        device_okays(p, (uint32_t)n);
    } else if (may_send(p)) {
        /* Any credit above 0 allows a whole WRTE. */
        const size_t n = (size_t)least(p->total_in - p->sent, chance(30) ? MAX_PAYLOAD : between(1, MAX_PAYLOAD));
        fill(bytes, n, p->key_in, p->sent);
        p->sent += n;
        p->credit = delayed ? p->credit - (int64_t)n : 0;
        device_sends(WRTE, p->number, p->host, bytes, n);
    }
    /* Now and then some opens at once, at times more than may wait. */
    for (uint64_t i = chance(1) ? between(1, chance(10) ? CHANNELS + 12 : 6) : 0; i && next_open < DEVICE_OPENS; i--) {
        const int n = snprintf((char *)bytes, sizeof bytes, "service:%" PRIu32, next_open);
        device_sends(OPEN, FIRST_OPEN_NUMBER + next_open, 7 * next_open, bytes, (size_t)n);
        next_open++;
    }
}

static void arrive(void)
{
    const size_t n = (size_t)least(least(chance(30) ? between(0, 30) : between(0, 6000), in.len - have), wire_len - wire_at);
    memcpy(in.at + have, wire + wire_at, n);
    wire_at += n;
    have += n;
}

/* ---- the host */

static uint64_t started;

static void ahead(void) { started = now_ns(); }

/* What every call is followed by: its frames go to the device, its used bytes from the arrived ones. */
static void after(uint32_t said, int has_out)
{
    const uint64_t used = adb_answer_used(answer.at), written = adb_answer_written(answer.at);
    t.ns += now_ns() - started;
    t.calls++;
    guarded(&state, "guard: state"), guarded(&rx, "guard: receive store"), guarded(&opens, "guard: open store");
    guarded(&in, "guard: received"), guarded(&out, "guard: out"), guarded(&buf, "guard: buf");
    guarded(&data, "guard: data"), guarded(&answer, "guard: answer");
    if (used > have) die("used more than has arrived", used, have);
    if (written > (has_out ? out.len : 0)) die("written more than there is room for", written, 0);
    if (said == ADB_WAITING) {
        t.waiting++;
        t.partial += !used && have;
    }
    if (used) capture_frame(in.at, (size_t)used);
    for (size_t at = 0; at < written;) {
        if (written - at < ADB_HEADER_LEN) die("a part of a frame was written", written, at);
        const size_t n = adb_le32(out.at + at + 12);
        if (written - at - ADB_HEADER_LEN < n) die("a part of a frame was written", written, at);
        capture_frame(out.at + at, ADB_HEADER_LEN + n);
        device_hears(out.at + at, n);
        at += ADB_HEADER_LEN + n;
    }
    have -= (size_t)used;
    memmove(in.at, in.at + used, have);
}

#define LENT state.at, state.len, rx.at, rx.len, opens.at, opens.len

static void host_opens(struct peer *p, int i)
{
    char name[32];
    const size_t n = name_of(p, name, sizeof name);
    uint32_t said;
    do {
        ahead();
        said = adb_open(LENT, (const uint8_t *)name, n, in.at, have, out.at, out.len, answer.at, answer.len);
        after(said, 1);
        device_acts();
        arrive();
    } while (said == ADB_WAITING);
    if (said != ADB_DONE) die("open is refused", said, (uint64_t)i);
    p->slot = adb_answer_slot(answer.at);
    p->local = adb_answer_local(answer.at);
}

static void handed(struct peer *p)
{
    const size_t n = adb_answer_length(answer.at);
    expect(buf.at, n, p->key_in, p->got, "a byte read");
    p->got += n;
    t.bytes_in += n;
}

static uint32_t host_reads(struct peer *p, size_t room)
{
    uint32_t said;
    ahead();
    said = adb_read(LENT, p->slot, p->local, in.at, have, out.at, out.len, buf.at, room, answer.at, answer.len);
    after(said, 1);
    if (said == ADB_DONE) handed(p);
    return said;
}

/* A read in its two halves, of what is buffered. */
static void host_settles_and_takes(struct peer *p, size_t room)
{
    uint32_t said;
    ahead();
    said = adb_settle(LENT, p->slot, p->local, room, out.at, out.len, answer.at, answer.len);
    after(said, 1);
    if (said != ADB_DONE) die("settle is refused", said, p->local);
    ahead();
    said = adb_take(LENT, p->slot, p->local, buf.at, room, answer.at, answer.len);
    after(said, 0);
    if (said == ADB_DONE) handed(p);
    else if (said != ADB_NONE) die("take is refused", said, p->local);
}

static void host_writes(struct peer *p, size_t n)
{
    uint32_t said;
    fill(data.at, n, p->key_out, p->put);
    ahead();
    said = adb_write(LENT, p->slot, p->local, data.at, n, in.at, have, out.at, out.len, answer.at, answer.len);
    after(said, 1);
    if (said == ADB_DONE) {
        p->put += adb_answer_length(answer.at);
        t.bytes_out += adb_answer_length(answer.at);
    } else if (said != ADB_WAITING) die("write is refused", said, p->local);
}

static uint32_t host_dispatches(void)
{
    uint32_t said;
    ahead();
    said = adb_dispatch(LENT, in.at, have, out.at, out.len, answer.at, answer.len);
    after(said, 1);
    if (said != ADB_DONE && said != ADB_WAITING) die("dispatch is refused", said, 0);
    return said;
}

/* The verdict on the open that was taken: its peer's channel is accepted. */
static void host_accepts(struct peer *p)
{
    uint32_t said;
    ahead();
    said = adb_accept(LENT, out.at, out.len, answer.at, answer.len);
    after(said, 1);
    if (said != ADB_DONE) die("accept is refused", said, p->number);
    p->slot = adb_answer_slot(answer.at);
    p->local = adb_answer_local(answer.at);
    if (!p->opened || p->host != p->local) die("no OKAY reached the device", p->local, p->host);
    t.accepted++;
}

static void host_rejects(uint32_t number)
{
    uint32_t said;
    ahead();
    said = adb_reject(LENT, out.at, out.len, answer.at, answer.len);
    after(said, 1);
    if (said != ADB_DONE) die("reject is refused", said, number);
    if (!refused[number]) die("no CLSE reached the device", number, 0);
    t.rejected++;
}

static void host_lets_go(void)
{
    uint32_t said;
    ahead();
    said = adb_let_go(LENT, answer.at, answer.len);
    after(said, 0);
    if (said != ADB_DONE) die("let_go is refused", said, 0);
    t.let_go++;
}

/* The device's open that has waited longest: a peer's is accepted, any other rejected; some are let go first. */
static uint32_t host_takes_front(void)
{
    char name[32];
    struct peer *p;
    uint32_t said, number, credit;
    size_t n, at, len;
    ahead();
    said = adb_take_front(LENT, answer.at, answer.len);
    after(said, 0);
    if (said == ADB_NONE) return said;
    if (said != ADB_DONE) die("take_front is refused", said, 0);
    p = asked(adb_answer_remote(answer.at));
    number = adb_answer_remote(answer.at) - FIRST_OPEN_NUMBER;
    if (!p) {
        /* They come in order; some were refused since too many waited. */
        while (next_front < number && next_front < DEVICE_OPENS && refused[next_front]) next_front++;
        if (number != next_front) die("the device's opens out of order", number, next_front);
    }
    credit = p ? (delayed ? (uint32_t)p->window : 0) : 7 * number;
    n = p ? name_of(p, name, sizeof name) : (size_t)snprintf(name, sizeof name, "service:%" PRIu32, number);
    at = adb_answer_destination(answer.at);
    len = adb_answer_destination_len(answer.at);
    if (adb_answer_credit(answer.at) != credit) die("an open's credit", adb_answer_credit(answer.at), number);
    if (len != n || at > opens.len || n > opens.len - at || memcmp(opens.at + at, name, n)) die("an open's destination", at, len);
    if (chance(10)) host_lets_go();
    else if (p) host_accepts(p);
    else {
        host_rejects(number);
        next_front++;
    }
    return said;
}

/* A peer's channel that the device opens. */
static void device_opens_toward(struct peer *p)
{
    p->window = between(1000, 20000);
    device_opens(p);
    while (!p->opened) {
        device_acts();
        arrive();
        host_dispatches();
        host_takes_front();
    }
}

static void host_closes(struct peer *p)
{
    uint32_t said;
    ahead();
    said = adb_close(LENT, p->slot, p->local, out.at, out.len, answer.at, answer.len);
    after(said, 1);
    if (said != ADB_DONE) die("close is refused", said, p->local);
    if (!p->closed) die("no CLSE reached the device", p->local, 0);
}

/* ---- a run */

static void begin(uint64_t seed, uint64_t total)
{
    const uint32_t max_version = delayed ? 0x01000001 : 0x01000000; /* classic: frames carry their sums */
    uint32_t said;
    rng = mix(seed * 2 + (uint64_t)delayed);
    version = max_version;
    memset(&t, 0, sizeof t);
    memset(peers, 0, sizeof peers);
    memset(refused, 0, sizeof refused);
    have = wire_len = wire_at = 0;
    next_open = next_front = 0;
    wire = malloc(WIRE_MAX);
    if (!wire) die("no memory", WIRE_MAX, 0);
    state = lend(ADB_STATE_LEN);
    rx = lend(adb_rx_store_len(CHANNELS, MAX_PAYLOAD, MAX_RX));
    opens = lend(adb_open_store_len(CHANNELS, MAX_PAYLOAD));
    in = lend(3 * (ADB_HEADER_LEN + MAX_PAYLOAD));
    out = lend(adb_out_len(MAX_DATA));
    buf = lend(MAX_BUF);
    data = lend(MAX_DATA);
    answer = lend(ADB_ANSWER_LEN);
    said = adb_make(state.at, state.len, CHANNELS, MAX_PAYLOAD, MAX_RX, INITIAL_ACK, version, DEVICE_MAX_PAYLOAD, 1,
                    (uint8_t)delayed);
    if (said != ADB_DONE) die("make is refused", said, 0);
    for (int i = 0; i < PEERS; i++) {
        struct peer *p = &peers[i];
        p->number = (uint32_t)(1000 + 17 * i);
        p->total_in = between(total / PEERS / 2, total / PEERS);
        p->total_out = between(total / PEERS / 2, total / PEERS);
        p->key_in = mix(rng + 2 * (uint64_t)i);
        p->key_out = mix(rng + 2 * (uint64_t)i + 1);
    }
    /* What is left of the total is the last peer's. */
    for (int i = 0; i < PEERS - 1; i++) total -= peers[i].total_in;
    peers[PEERS - 1].total_in = total;
    for (int i = 0; i < PEERS - 1; i++) total += peers[i].total_in - peers[i].total_out;
    peers[PEERS - 1].total_out = total;
}

static int reads_left(const struct peer *p) { return p->got < p->total_in; }
static int writes_left(const struct peer *p) { return p->put < p->total_out; }

static void move_bytes(void)
{
    uint64_t idle = 0, moved = 0;
    for (;;) {
        struct peer *p = &peers[below(PEERS)];
        int left = 0;
        for (int i = 0; i < PEERS && !reads_left(p) && !writes_left(p); i++) p = p == peers + PEERS - 1 ? peers : p + 1;
        for (int i = 0; i < PEERS; i++) left |= reads_left(&peers[i]) || writes_left(&peers[i]);
        if (!left) return;
        device_acts();
        arrive();
        const unsigned kind = (unsigned)below(100);
        const size_t room = (size_t)(chance(20) ? between(1, 64) : between(1, MAX_BUF));
        if (kind < 6) host_takes_front();
        else if (kind < 12) host_dispatches();
        else if (kind < 55 && writes_left(p)) host_writes(p, (size_t)least(p->total_out - p->put, between(1, MAX_DATA)));
        else if (kind < 65 && reads_left(p)) host_settles_and_takes(p, room);
        else if (reads_left(p)) {
            const uint32_t said = host_reads(p, room);
            if (said != ADB_DONE && said != ADB_WAITING) die("read is refused", said, p->local);
        }
        idle = moved == t.bytes_in + t.bytes_out ? idle + 1 : 0;
        moved = t.bytes_in + t.bytes_out;
        if (idle > 1000000) die("nothing moves any more", t.bytes_in, t.bytes_out);
    }
}

static void drain(void)
{
    while (have || wire_at < wire_len) {
        arrive();
        host_dispatches();
    }
}

/* What a screen shows of a channel: all that the device sent is read, so our OKAYs allowed it that much again. */
static void host_shows(struct peer *p, uint32_t want)
{
    const uint32_t said = adb_numbers(state.at, state.len, rx.at, rx.len, opens.at, opens.len, p->slot, p->local, answer.at, answer.len);
    if (said != want) die("a channel's numbers", said, want);
    p->allowed = adb_answer_acked_total(answer.at);
    if (p->allowed != (delayed ? p->sent : 0)) die("what the device was allowed", p->allowed, p->sent);
    if (adb_answer_buffered(answer.at) || adb_answer_unacked(answer.at)) die("bytes left at the end", adb_answer_buffered(answer.at), adb_answer_unacked(answer.at));
}

/* Every other channel is closed by the device, which a read tells after the last byte; then the host closes all. */
static void finish(void)
{
    for (int i = 0; i < PEERS; i++) {
        if (peers[i].owed) device_okays(&peers[i], (uint32_t)peers[i].owed);
        peers[i].owed = 0;
    }
    drain();
    for (int i = 0; i < PEERS; i++) {
        struct peer *p = &peers[i];
        if (p->sent != p->total_in || p->heard != p->total_out) die("bytes missing at the end", p->sent, p->heard);
        /* All is read, so all is acknowledged: no credit was lost or made up. */
        if (p->credit != p->first_credit) die("credit at the end", (uint64_t)p->credit, (uint64_t)p->first_credit);
        if (i % 2) {
            uint32_t said;
            device_sends(CLSE, p->number, p->host, NULL, 0);
            do {
                arrive();
                said = host_reads(p, MAX_BUF);
            } while (said == ADB_WAITING);
            if (said != ADB_REFUSED_CHANNEL_CLOSED) die("a read after the last byte", said, 0);
        }
        host_shows(p, i % 2 ? ADB_CLOSED : ADB_DONE);
        host_closes(p);
        if (adb_le64(state.at + ADB_STATE_SLOT(p->slot) + ADB_STATE_SLOT_ACKED_TOTAL) != p->allowed) die("the total after closing", p->allowed, 0);
    }
    drain();
    while (host_takes_front() == ADB_DONE) {}
    for (uint32_t i = 0; i < next_open; i++)
        if (!refused[i]) die("an open of the device's was not answered", i, 0);
}

static struct tally run(int with_delayed, uint64_t seed, uint64_t total)
{
    uint64_t from;
    delayed = with_delayed;
    mode = delayed ? "delayed" : "classic";
    begin(seed, total);
    from = now_ns();
    for (int i = 0; i < PEERS; i++) {
        if (inward(&peers[i])) device_opens_toward(&peers[i]);
        else host_opens(&peers[i], i);
    }
    move_bytes();
    finish();
    t.wall = now_ns() - from;
    free(wire);
    give_back(&state), give_back(&rx), give_back(&opens), give_back(&in);
    give_back(&out), give_back(&buf), give_back(&data), give_back(&answer);
    return t;
}

static void row(const char *what, uint64_t classic, uint64_t with_delayed)
{
    printf("%-44s %12" PRIu64 " %12" PRIu64 "\n", what, classic, with_delayed);
}

int main(int argc, char **argv)
{
    const int captures = argc > 1 && !strcmp(argv[1], "--capture");
    const char *const path = captures ? argv[2] : NULL; /* NULL too where no file is named */
    struct tally c, d;
    uint64_t seed, mib;
    if (captures) argc -= 2, argv += 2;
    seed = argc > 1 ? strtoull(argv[1], NULL, 0) : 1;
    mib = argc > 2 ? strtoull(argv[2], NULL, 0) : 8;
    if (argc < 1 || argc > 3 || mib < 1 || mib > 4096) {
        fputs("usage: demo [--capture FILE] [SEED [MIB]]\n", stderr);
        return 2;
    }
    if (path) capture_begins(path);
    c = run(0, seed, mib << 20);
    d = run(1, seed, mib << 20);
    printf("%d peers on one connection, seed %" PRIu64 ", every byte checked\n", PEERS, seed);
    printf("%-44s %12s %12s\n", "", "classic", "delayed");
    row("bytes read", c.bytes_in, d.bytes_in);
    row("bytes written", c.bytes_out, d.bytes_out);
    row("frames from the device", c.frames_in, d.frames_in);
    row("  WRTE", c.wrte_in, d.wrte_in);
    row("  OKAY", c.okay_in, d.okay_in);
    row("frames to the device", c.frames_out, d.frames_out);
    row("  WRTE", c.wrte_out, d.wrte_out);
    row("  OKAY", c.okay_out, d.okay_out);
    row("channels that the device opened, accepted", c.accepted, d.accepted);
    row("other opens of the device's, all refused", c.refused, d.refused);
    row("  since too many waited", c.refused - c.rejected, d.refused - d.rejected);
    row("opens let go and taken again", c.let_go, d.let_go);
    row("calls", c.calls, d.calls);
    row("  answered waiting", c.waiting, d.waiting);
    row("  waiting on a part of a frame", c.partial, d.partial);
    row("ns in a call, mean", c.ns / c.calls, d.ns / d.calls);
    row("MiB/s both ways, time in calls", ((c.bytes_in + c.bytes_out) * 1000000000u >> 20) / (c.ns + 1),
        ((d.bytes_in + d.bytes_out) * 1000000000u >> 20) / (d.ns + 1));
    row("ms in all, the device's half with it", c.wall / 1000000, d.wall / 1000000);
    if (path) row("frames in the capture", c.captured, d.captured);
    printf("bytes that our OKAYs allowed the device, each channel, delayed (0 in classic):\n");
    for (int i = 0; i < PEERS; i++) printf("%10" PRIu64 "%s", peers[i].allowed, i % 8 == 7 || i == PEERS - 1 ? "\n" : " ");
    if (capture && fclose(capture)) die("the capture cannot be written", 0, 0);
    return 0;
}
