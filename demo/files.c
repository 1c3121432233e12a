/* A file by the sync messages over a channel, in each mode: a file of random bytes is sent to a simulated device, looked up,
 * listed, received back and compared byte for byte; a missing one is asked for. One line a mode; exit status 1 on any fault.
 *
 *   files [SEED [BYTES]]       (default 1 and 3,000,017)
 *
 * The host's half uses the C interfaces alone: adb.h for the channel, adb_sync.h for the messages. The device's half is
 * simulated here: it speaks frames and reads requests and writes replies by adb_sync.h too. What either end sends arrives cut
 * at random places, messages and frames alike.
 */
#include "queue.h"

#include <adb_sync.h>

#define CHANNELS 2
#define MAX_PAYLOAD 4096
#define MAX_RX 16384
#define INITIAL_ACK 32768
#define DEVICE_MAX_PAYLOAD 6000
#define MAX_BUF 9000
#define MESSAGE_MAX (ADB_SYNC_HEAD_MAX + ADB_SYNC_DATA_MAX)
#define DEVICE 71 /* the device's number for the channel */
#define PATH "/sdcard/route.bin"
#define MODE 0100644
#define SENT PATH ",33188" /* a SEND's text: the mode in decimal */
#define TIME 1700000000
#define WHY "No such file or directory"

/* ---- a run's memory */

static int delayed;
static uint8_t state[ADB_STATE_LEN], answer[ADB_ANSWER_LEN], said[ADB_SYNC_ANSWER_LEN], message[MESSAGE_MAX];
static uint8_t *rx, *opens, out[ADB_HEADER_LEN + MAX_BUF];
static size_t rx_len, opens_len, slot;
static uint32_t local;
static struct queue wire, in;            /* frames that the device sent; what of them has arrived */
static struct queue replies;             /* the host's: bytes that were read from the channel */
static struct queue file;                /* what the host sends */
static struct queue heard, due, stored;  /* the device's: bytes of requests, bytes of replies to send, the file's */
static uint32_t stored_time, host;
static int64_t credit, owed;             /* what the device may send, and what it has to acknowledge */
static int opened, quit, closed;
static uint64_t frames_in, frames_out, messages_out, messages_in, idle;

/* One message; both ends write with this. Its bytes go to q. */
static void say(struct queue *q, uint32_t exchange, uint32_t id, const uint32_t v[4], const void *text, size_t n)
{
    const uint32_t r = adb_sync_write(exchange, id, v[0], v[1], v[2], v[3], text, n, message, sizeof message, said, sizeof said);
    if (r != ADB_SYNC_MESSAGE) die("a message is not written", r, id);
    add(q, message, adb_sync_written(said));
}

static const uint32_t none[4];

static size_t piece(size_t left) { return least(left, chance(50) ? ADB_SYNC_DATA_MAX : between(1, ADB_SYNC_DATA_MAX)); }

/* ---- the device: requests */

static int is_text(const uint8_t *text, size_t n, const char *s) { return n == strlen(s) && !memcmp(text, s, n); }

static void device_gives(const uint8_t *path, size_t n)
{
    if (!is_text(path, n, PATH)) {
        say(&due, ADB_SYNC_RECV_REPLIES, ADB_SYNC_ID_FAIL, none, WHY, strlen(WHY));
        return;
    }
    for (size_t at = 0, k; at < count(&stored); at += k) {
        k = piece(count(&stored) - at);
        say(&due, ADB_SYNC_RECV_REPLIES, ADB_SYNC_ID_DATA, none, front(&stored) + at, k);
    }
    say(&due, ADB_SYNC_RECV_REPLIES, ADB_SYNC_ID_DONE, none, NULL, 0);
}

static void device_does(uint32_t id, uint32_t number, const uint8_t *text, size_t n)
{
    const uint32_t dir[4] = { 0040755, 4096, TIME, 0 }, it[4] = { MODE, (uint32_t)count(&stored), stored_time, 0 };
    if (id == ADB_SYNC_ID_STAT) {
        say(&due, ADB_SYNC_STAT_REPLIES, ADB_SYNC_ID_STAT, is_text(text, n, PATH) ? it : none, NULL, 0);
    } else if (id == ADB_SYNC_ID_LIST) {
        say(&due, ADB_SYNC_LIST_REPLIES, ADB_SYNC_ID_DENT, dir, ".", 1);
        say(&due, ADB_SYNC_LIST_REPLIES, ADB_SYNC_ID_DENT, it, "route.bin", 9);
        say(&due, ADB_SYNC_LIST_REPLIES, ADB_SYNC_ID_DONE, none, NULL, 0);
    } else if (id == ADB_SYNC_ID_RECV) {
        device_gives(text, n);
    } else if (id == ADB_SYNC_ID_SEND) {
        if (!is_text(text, n, SENT)) die("a SEND's text", n, strlen(SENT));
    } else if (id == ADB_SYNC_ID_DATA) {
        add(&stored, text, n);
    } else if (id == ADB_SYNC_ID_DONE) {
        stored_time = number;
        say(&due, ADB_SYNC_SEND_REPLIES, ADB_SYNC_ID_OKAY, none, NULL, 0);
    } else quit = 1;
}

/* ---- the device: frames */

static void device_sends(const char *command, const uint8_t *payload, size_t n)
{
    uint8_t head[ADB_HEADER_LEN];
    put_head(head, command, DEVICE, host, n, sum(payload, n));
    add(&wire, head, sizeof head);
    add(&wire, payload, n);
    frames_in++;
}

static void device_okays(uint32_t n)
{
    uint8_t bytes[4];
    put32(bytes, n);
    device_sends("OKAY", bytes, delayed ? 4 : 0);
    owed = 0;
}

static void device_hears(const uint8_t *f, size_t n)
{
    const uint8_t *payload = f + ADB_HEADER_LEN;
    frames_out++;
    if (!memcmp(f, "OPEN", 4)) {
        if (n < 5 || memcmp(payload, "sync:", 5)) die("an OPEN for another name", n, 0);
        host = adb_le32(f + 4);
        credit = delayed ? adb_le32(f + 8) : 1;
        opened = 1;
        device_okays(20000);
    } else if (!memcmp(f, "OKAY", 4)) {
        credit = delayed ? credit + (int32_t)adb_le32(payload) : 1;
    } else if (!memcmp(f, "WRTE", 4)) {
        owed = delayed ? owed + (int64_t)n : 1;
        add(&heard, payload, n);
    } else if (!memcmp(f, "CLSE", 4)) {
        closed = 1;
    } else die("a frame that the host does not send", adb_le32(f), 0);
}

/* The device takes a message, acknowledges, or sends a piece of its replies; some of its bytes arrive at the host. */
static void device_acts(void)
{
    const uint32_t r = adb_sync_read(ADB_SYNC_REQUESTS, front(&heard), count(&heard), said, sizeof said);
    size_t n;
    if (r == ADB_SYNC_MESSAGE) {
        n = adb_sync_used(said);
        device_does(adb_sync_id(said), adb_sync_value(said, 0), front(&heard) + adb_sync_at(said), adb_sync_length(said));
        drop(&heard, n);
    } else if (r != ADB_SYNC_WAITING) die("a request is refused", r, 0);
    if (owed > (delayed ? 9000 : 0) || (owed && chance(20))) device_okays((uint32_t)owed);
    if (opened && credit > 0 && count(&due)) {
        n = least(count(&due), chance(50) ? MAX_PAYLOAD : between(1, MAX_PAYLOAD));
        device_sends("WRTE", front(&due), n);
        drop(&due, n);
        credit = delayed ? credit - (int64_t)n : 0;
    }
    if (quit && !count(&due)) device_sends("CLSE", NULL, 0), quit = 0;
    n = least(count(&wire), chance(30) ? between(0, 30) : between(0, 7000));
    add(&in, front(&wire), n);
    drop(&wire, n);
    idle = n || r == ADB_SYNC_MESSAGE ? 0 : idle + 1;
    if (idle > 1000000) die("nothing moves any more", count(&due), count(&heard));
}

/* ---- the host: the channel */

#define LENT state, sizeof state, rx, rx_len, opens, opens_len

/* What every call is followed by: its frames go to the device, its used bytes from the arrived ones. */
static void after(void)
{
    const size_t written = (size_t)adb_answer_written(answer);
    for (size_t at = 0, n; at < written; at += ADB_HEADER_LEN + n) {
        n = adb_le32(out + at + 12);
        device_hears(out + at, n);
    }
    drop(&in, (size_t)adb_answer_used(answer));
    device_acts();
}

static void host_opens(void)
{
    uint32_t r = ADB_WAITING;
    while (r == ADB_WAITING) {
        r = adb_open(LENT, (const uint8_t *)"sync:", 6, front(&in), count(&in), out, sizeof out, answer, sizeof answer);
        after();
    }
    if (r != ADB_DONE) die("open is refused", r, 0);
    slot = adb_answer_slot(answer);
    local = adb_answer_local(answer);
}

static void host_writes(struct queue *q)
{
    while (count(q)) {
        const size_t n = least(count(q), chance(20) ? between(1, 40) : between(1, MAX_BUF));
        const uint32_t r = adb_write(LENT, slot, local, front(q), n, front(&in), count(&in), out, sizeof out, answer,
                                     sizeof answer);
        if (r != ADB_DONE && r != ADB_WAITING) die("write is refused", r, 0);
        if (r == ADB_DONE) drop(q, adb_answer_length(answer));
        after();
    }
}

static uint32_t host_reads(void)
{
    static uint8_t buf[MAX_BUF];
    const size_t n = chance(20) ? between(1, 40) : between(1, sizeof buf);
    const uint32_t r = adb_read(LENT, slot, local, front(&in), count(&in), out, sizeof out, buf, n, answer, sizeof answer);
    if (r == ADB_DONE) add(&replies, buf, adb_answer_length(answer));
    after();
    return r;
}

/* ---- the host: messages */

static void asks(uint32_t id, uint32_t number, const void *text, size_t n)
{
    static struct queue q;
    const uint32_t v[4] = { number, 0, 0, 0 };
    say(&q, ADB_SYNC_REQUESTS, id, v, text, n);
    host_writes(&q);
    messages_out++;
}

/* The next reply, which stands at the front of `replies` until it is dropped; its answer is `got`. */
static uint8_t got[ADB_SYNC_ANSWER_LEN];

static uint32_t reply(uint32_t exchange)
{
    uint32_t r;
    while ((r = adb_sync_read(exchange, front(&replies), count(&replies), got, sizeof got)) == ADB_SYNC_WAITING)
        if ((r = host_reads()) != ADB_DONE && r != ADB_WAITING) die("read is refused", r, 0);
    if (r != ADB_SYNC_MESSAGE) die("a reply is refused", r, exchange);
    messages_in++;
    return adb_sync_id(got);
}

/* It has this id, these numbers and this text. */
static void expect(uint32_t exchange, uint32_t id, const uint32_t v[4], const char *text)
{
    const uint32_t found = reply(exchange);
    if (found != id) die("another reply", found, id);
    for (int i = 0; i < 4; i++)
        if (adb_sync_value(got, i) != v[i]) die("a reply's number", adb_sync_value(got, i), v[i]);
    if (!is_text(front(&replies) + adb_sync_at(got), adb_sync_length(got), text)) die("a reply's text", adb_sync_length(got), 0);
    drop(&replies, adb_sync_used(got));
}

static void host_sends_file(void)
{
    asks(ADB_SYNC_ID_SEND, 0, SENT, strlen(SENT));
    for (size_t at = 0, k; at < count(&file); at += k) {
        k = piece(count(&file) - at);
        asks(ADB_SYNC_ID_DATA, 0, front(&file) + at, k);
    }
    asks(ADB_SYNC_ID_DONE, TIME, NULL, 0);
    expect(ADB_SYNC_SEND_REPLIES, ADB_SYNC_ID_OKAY, none, "");
}

static void host_receives_file(void)
{
    size_t at = 0;
    asks(ADB_SYNC_ID_RECV, 0, PATH, strlen(PATH));
    while (reply(ADB_SYNC_RECV_REPLIES) == ADB_SYNC_ID_DATA) {
        const size_t n = adb_sync_length(got);
        if (n > count(&file) - at) die("more bytes than were sent", at, n);
        if (memcmp(front(&replies) + adb_sync_at(got), front(&file) + at, n)) die("a byte received", at, n);
        at += n;
        drop(&replies, adb_sync_used(got));
    }
    if (at != count(&file)) die("bytes missing at the end", at, count(&file));
    expect(ADB_SYNC_RECV_REPLIES, ADB_SYNC_ID_DONE, none, "");
}

static void host_looks(uint32_t size)
{
    const uint32_t dir[4] = { 0040755, 4096, TIME, 0 }, it[4] = { MODE, size, TIME, 0 };
    asks(ADB_SYNC_ID_STAT, 0, PATH, strlen(PATH));
    expect(ADB_SYNC_STAT_REPLIES, ADB_SYNC_ID_STAT, it, "");
    asks(ADB_SYNC_ID_STAT, 0, "/missing", 8);
    expect(ADB_SYNC_STAT_REPLIES, ADB_SYNC_ID_STAT, none, "");
    asks(ADB_SYNC_ID_LIST, 0, "/sdcard", 7);
    expect(ADB_SYNC_LIST_REPLIES, ADB_SYNC_ID_DENT, dir, ".");
    expect(ADB_SYNC_LIST_REPLIES, ADB_SYNC_ID_DENT, it, "route.bin");
    expect(ADB_SYNC_LIST_REPLIES, ADB_SYNC_ID_DONE, none, "");
    if (adb_sync_used(got) != 20) die("a listing's DONE", adb_sync_used(got), 20);
    asks(ADB_SYNC_ID_RECV, 0, "/missing", 8);
    expect(ADB_SYNC_RECV_REPLIES, ADB_SYNC_ID_FAIL, none, WHY);
}

/* ---- a run */

static void run(int with_delayed, uint64_t seed, size_t size)
{
    const char *identity;
    uint32_t r;
    delayed = with_delayed;
    mode = delayed ? "delayed" : "plain";
    rng = seed * 2 + (uint64_t)delayed;
    credit = owed = opened = quit = closed = 0;
    stored_time = 0;
    frames_in = frames_out = messages_in = messages_out = 0;
    rx_len = adb_rx_store_len(CHANNELS, MAX_PAYLOAD, MAX_RX);
    opens_len = adb_open_store_len(CHANNELS, MAX_PAYLOAD);
    rx = malloc(rx_len);
    opens = malloc(opens_len);
    if (!rx || !opens) die("no memory", rx_len, opens_len);
    identity = delayed ? "device::ro.product.name=test;features=shell_v2,delayed_ack" : "device::ro.product.name=test;features=shell_v2";
    r = adb_make_from_cnxn(state, sizeof state, CHANNELS, MAX_PAYLOAD, MAX_RX, INITIAL_ACK, delayed ? 0x01000001 : 0x01000000,
                           DEVICE_MAX_PAYLOAD, (const uint8_t *)identity, strlen(identity), 1);
    if (r != ADB_DONE) die("make is refused", r, 0);
    for (size_t i = 0; i < size; i++) {
        const uint8_t byte = (uint8_t)below(256);
        add(&file, &byte, 1);
    }
    host_opens();
    host_sends_file();
    host_looks((uint32_t)size);
    host_receives_file();
    asks(ADB_SYNC_ID_QUIT, 0, NULL, 0);
    while ((r = host_reads()) == ADB_WAITING) {}
    if (r != ADB_REFUSED_CHANNEL_CLOSED || count(&replies) || count(&heard)) die("the channel's end", r, count(&replies));
    r = adb_close(LENT, slot, local, out, sizeof out, answer, sizeof answer);
    after();
    if (r != ADB_DONE || !closed) die("close", r, 0);
    printf("%-7s %zu bytes sent and received, every byte compared; %" PRIu64 " messages and %" PRIu64 " frames to the device, %"
           PRIu64 " and %" PRIu64 " from it\n", mode, size, messages_out, frames_out, messages_in, frames_in);
    free(rx), free(opens);
    empty(&wire), empty(&in), empty(&replies), empty(&file), empty(&heard), empty(&due), empty(&stored);
}

int main(int argc, char **argv)
{
    const uint64_t seed = argc > 1 ? strtoull(argv[1], NULL, 0) : 1;
    const uint64_t size = argc > 2 ? strtoull(argv[2], NULL, 0) : 3000017;
    if (argc > 3 || size > 1u << 30) {
        fputs("usage: files [SEED [BYTES]]\n", stderr);
        return 2;
    }
    run(0, seed, (size_t)size);
    run(1, seed, (size_t)size);
    return 0;
}
