/* Both ends in one program, the host's by adb.h and the device's by adb_device.h, over a loopback TCP socket that neither waits for,
 * in each mode: up to forty streams at once, opened, read, written and closed by either end in a random order, frames cut wherever the
 * socket cuts them. Prints a line a mode; exit status 1 on any fault.
 *
 *   ends [SEED [MIB]]       (default 1 and 4: MiB each way and mode)
 *
 * Tested: every byte that is read is the one that was written; a reader whose other end closed got all that was written; an OPEN is
 * taken if and only if its name is in the table that was lent, its arg1 fits the mode and the device has an empty slot; what names no
 * stream is ignored. In delayed mode, after every call and for every stream that both ends have and neither has closed:
 *   the device's credit + bytes of its WRTEs on the line + bytes that the host has not acknowledged
 *     + amounts of the host's OKAYs on the line = the credit in the host's OPEN
 * and the same the other way round, with the credit in the device's OKAY. What is on the line and the device's credit are counted from
 * the frames that were written and used; the rest, and the device's credit once more, is what adb_numbers tells.
 */
#define _POSIX_C_SOURCE 200809L
#include "../demo/queue.h"

#include <adb_device.h>

#include <arpa/inet.h>
#include <errno.h>
#include <fcntl.h>
#include <netinet/in.h>
#include <netinet/tcp.h>
#include <sys/socket.h>
#include <unistd.h>

#define STREAMS 40 /* slots of the device's end */
#define HOST_CHANNELS 48
#define HOST_OPENS 43 /* streams that the host has or asks for at a time: some past the slots of the device's end */
#define MAX_LOCAL 200000
#define VERSION 0x01000001
#define HOST_MAX 4096 /* maximum payloads, caps and credits */
#define HOST_RX 16384
#define HOST_ACK 3000
#define DEVICE_MAX 6000
#define DEVICE_RX 20000
#define DEVICE_ACK 2500
#define IN_ROOM 20000
#define MOST 9000 /* bytes of a write, and of a reader's buffer */
#define HAND 0x70000000 /* numbers of frames that are made by hand */

enum { HOST = 1, DEVICE = 2 };

/* The last name is empty; what stands behind the last zero byte is none. */
static const char *const served[] = { "tcp:7", "sync:", "shell,v2:", "" }, *const others[] = { "tcp:70", "tcp:", "none" };
static const uint8_t whole_table[] = "tcp:7\0sync:\0shell,v2:\0\0none", short_table[] = "sync:\0shell,v2:";

struct stream {
    uint32_t local, number;       /* the host's and the device's */
    size_t slot, place;           /* slots */
    int host, device;             /* open there */
    int met, taken;               /* the device's end used the OPEN, took it */
    int dropped;                  /* the host went on with another call */
    int closed;                   /* who has written a CLSE */
    int closer, early;            /* who is to close, and whether before all is done */
    int host_mute, device_mute;   /* a write told that the other end closed */
    uint64_t key_down, key_up;    /* down: toward the device; up: toward the host */
    uint64_t plan_down, plan_up, put_down, put_up, got_down, got_up;
    int64_t credit;               /* the device's */
    uint64_t opening_up, opening_down;             /* credits in the OPEN and in the OKAY */
    uint64_t wrte_up, wrte_down, okay_up, okay_down; /* on the line; plain mode: an OKAY that is still to come */
};

struct end {
    int fd;
    uint8_t in[IN_ROOM]; /* arrived and not used */
    size_t have;
    struct queue unsent; /* written and not sent */
    uint64_t sent, came;
};

static struct stream *by_local[MAX_LOCAL], *live[4 * STREAMS + HOST_CHANNELS], *pending;
static size_t live_count;
static struct end host, device;
static int delayed, slot_taken[STREAMS];
static uint32_t next_number;
static uint8_t host_state[ADB_STATE_LEN], device_state[ADB_DEVICE_STATE_LEN], answer[ADB_ANSWER_LEN], out[ADB_HEADER_LEN + MOST];
static uint8_t host_rx[HOST_CHANNELS * 2 * HOST_RX], host_opens[HOST_CHANNELS * HOST_MAX];
static uint8_t device_rx[STREAMS * 2 * DEVICE_RX], device_opens[STREAMS * DEVICE_MAX], buf[MOST], data[MOST];

static struct {
    uint64_t opened, down, up, frames_down, frames_up, calls, nameless, past_slots, dropped, by_hand, beyond, closed_host, closed_device;
    uint64_t checks;
    size_t most;
} t;

/* Byte `at` of a stream: each has its own in each direction. */
static uint8_t stream_byte(uint64_t key, uint64_t at) { return (uint8_t)(mix(key + at / 8 * 0x9e3779b97f4a7c15u) >> at % 8 * 8); }

static void fill(size_t n, uint64_t key, uint64_t at)
{
    for (size_t i = 0; i < n; i++) data[i] = stream_byte(key, at + i);
}

static void expect(size_t n, uint64_t key, uint64_t at, const char *what)
{
    for (size_t i = 0; i < n; i++)
        if (buf[i] != stream_byte(key, at + i)) die(what, at + i, buf[i]);
}

/* ---- the line */

static size_t some(void) { return (size_t)(chance(30) ? between(1, 30) : between(1, 16000)); }

static void moves(struct end *e)
{
    if (count(&e->unsent) && chance(70)) {
        const ssize_t n = send(e->fd, front(&e->unsent), (size_t)least(some(), count(&e->unsent)), MSG_NOSIGNAL);
        if (n < 0 && errno != EAGAIN && errno != EWOULDBLOCK) die("send", (uint64_t)errno, 0);
        if (n > 0) drop(&e->unsent, (size_t)n), e->sent += (uint64_t)n;
    }
    if (e->have < IN_ROOM && chance(70)) {
        const ssize_t n = recv(e->fd, e->in + e->have, (size_t)least(some(), IN_ROOM - e->have), 0);
        if (n == 0 || (n < 0 && errno != EAGAIN && errno != EWOULDBLOCK)) die("recv", (uint64_t)errno, 0);
        if (n > 0) e->have += (size_t)n, e->came += (uint64_t)n;
    }
}

/* What of the arrived bytes a call is lent: all, or now and then less. */
static size_t lent(const struct end *e) { return chance(90) ? e->have : (size_t)below(e->have + 1); }

static void dial(void)
{
    const int one = 1, listener = socket(AF_INET, SOCK_STREAM, 0), small = 8192;
    struct sockaddr_in a = { .sin_family = AF_INET, .sin_addr = { htonl(INADDR_LOOPBACK) } };
    socklen_t n = sizeof a;
    if (bind(listener, (struct sockaddr *)&a, n) || listen(listener, 1) || getsockname(listener, (struct sockaddr *)&a, &n))
        die("the port", (uint64_t)errno, 0);
    host.fd = socket(AF_INET, SOCK_STREAM, 0);
    if (connect(host.fd, (struct sockaddr *)&a, n)) die("connect", (uint64_t)errno, 0);
    if ((device.fd = accept(listener, NULL, NULL)) < 0) die("accept", (uint64_t)errno, 0);
    close(listener);
    for (int i = 0; i < 2; i++) {
        const int fd = i ? host.fd : device.fd;
        setsockopt(fd, IPPROTO_TCP, TCP_NODELAY, &one, sizeof one);
        setsockopt(fd, SOL_SOCKET, SO_SNDBUF, &small, sizeof small);
        fcntl(fd, F_SETFL, O_NONBLOCK);
    }
    host.have = device.have = 0;
    host.sent = host.came = device.sent = device.came = 0;
}

/* ---- what the frames say */

static int is(const uint8_t *f, const char *command) { return !memcmp(f, command, 4); }
static struct stream *of(uint32_t local) { return local < MAX_LOCAL ? by_local[local] : NULL; }

static uint64_t amount(const uint8_t *f)
{
    const uint32_t n = adb_le32(f + 12);
    if (n != (delayed ? 4u : 0u)) die("an OKAY's length", n, 0);
    return delayed ? adb_le32(f + ADB_HEADER_LEN) : 0;
}

static void host_wrote(const uint8_t *f)
{
    const uint32_t arg0 = adb_le32(f + 4), arg1 = adb_le32(f + 8), n = adb_le32(f + 12);
    struct stream *s = of(arg0);
    t.frames_down++;
    if (is(f, "OPEN")) {
        if (!pending || s || arg0 >= MAX_LOCAL) die("an OPEN of the host's", arg0, arg1);
        if (delayed != (arg1 != 0)) die("an OPEN's credit", arg1, 0);
        by_local[arg0] = pending;
        pending->local = arg0;
        pending->opening_up = arg1;
        return;
    }
    if (!s) die("a frame of the host's for no stream", arg0, arg1);
    if (!s->taken || s->number != arg1) die("the host's numbers", arg0, arg1);
    if (is(f, "OKAY")) {
        s->okay_down += amount(f);
        if (!delayed && s->okay_down++) die("an OKAY of the host's for no WRTE", arg0, 0);
    } else if (is(f, "WRTE")) {
        if (n > DEVICE_MAX) die("a WRTE of the host's is too long", n, 0);
        if (!delayed && s->wrte_down) die("a WRTE of the host's ahead of an OKAY", arg0, 0);
        s->wrte_down += delayed ? n : 1;
    } else if (is(f, "CLSE")) t.closed_host += !s->closed, s->closed |= HOST;
    else die("a frame that the host does not send", adb_le32(f), 0);
}

static void device_wrote(const uint8_t *f)
{
    const uint32_t arg0 = adb_le32(f + 4), arg1 = adb_le32(f + 8), n = adb_le32(f + 12);
    struct stream *s = of(arg1);
    t.frames_up++;
    if (is(f, "CNXN") || (is(f, "CLSE") && !arg0)) return; /* looked at where they are written */
    if (!s || s->number != arg0) die("the device's numbers", arg0, arg1);
    if (is(f, "OKAY")) {
        s->okay_up += amount(f);
        if (!delayed && s->okay_up++) die("an OKAY of the device's for no WRTE", arg0, 0);
    } else if (is(f, "WRTE")) {
        if (n > HOST_MAX) die("a WRTE of the device's is too long", n, 0);
        if (delayed ? s->credit <= 0 : s->wrte_up != 0) die("a WRTE of the device's without credit", arg0, n);
        s->credit -= delayed ? (int64_t)n : 0;
        if (s->credit <= -HOST_MAX) die("credit that is too low", arg0, n);
        t.beyond += s->credit < 0;
        s->wrte_up += delayed ? n : 1;
    } else if (is(f, "CLSE")) t.closed_device += !s->closed, s->closed |= DEVICE;
    else die("a frame that the device does not send", adb_le32(f), 0);
}

static void wrote(void (*frame)(const uint8_t *))
{
    const size_t written = (size_t)adb_answer_written(answer);
    for (size_t at = 0; at < written; at += ADB_HEADER_LEN + adb_le32(out + at + 12)) {
        if (written - at < ADB_HEADER_LEN || written - at - ADB_HEADER_LEN < adb_le32(out + at + 12)) die("a part of a frame", written, at);
        if (adb_le32(out + at + 20) != ~adb_le32(out + at)) die("a frame's magic", adb_le32(out + at), 0);
        frame(out + at);
    }
}

/* An OKAY or a WRTE that an end used is on the line no more. In the plain mode a WRTE counts until its OKAY is used. */
static void host_used(const uint8_t *f)
{
    struct stream *s = of(adb_le32(f + 8));
    if (!s) return;
    if (is(f, "OKAY")) {
        s->okay_up -= delayed ? amount(f) : 1;
        if (!delayed) s->wrte_down = 0;
    } else if (is(f, "WRTE") && delayed) s->wrte_up -= adb_le32(f + 12);
}

static const uint8_t *names;
static size_t names_len;

/* The names of the table, one by one. */
static int in_table(const uint8_t *name, size_t n)
{
    const uint8_t *at = names, *end;
    if (n && !name[n - 1]) n--;
    while ((end = memchr(at, 0, (size_t)(names + names_len - at))) != NULL) {
        if ((size_t)(end - at) == n && !memcmp(at, name, n)) return 1;
        at = end + 1;
    }
    return 0;
}

static size_t lowest_place(void)
{
    size_t i = 0;
    while (i < STREAMS && slot_taken[i]) i++;
    return i;
}

/* An OPEN that the device's end used: `said` is its call's number, `handled` what it would be for another packet. */
static void device_used_open(const uint8_t *f, uint32_t said, uint32_t handled)
{
    const uint32_t arg0 = adb_le32(f + 4), arg1 = adb_le32(f + 8), n = adb_le32(f + 12);
    const int named = in_table(f + ADB_HEADER_LEN, n), fits = delayed == (arg1 != 0), slots = lowest_place() < STREAMS;
    const size_t written = (size_t)adb_answer_written(answer), name = adb_device_answer_name(answer);
    struct stream *s = of(arg0);
    if (!arg0) {
        if (said != handled || written) die("an OPEN from 0", said, written);
        return;
    }
    if (s && s->met) die("an OPEN used twice", arg0, 0);
    if (s) s->met = 1;
    if (!named || !fits || !slots) {
        const uint8_t *clse = out + written - ADB_HEADER_LEN;
        if (said != handled || written < ADB_HEADER_LEN || !is(clse, "CLSE") || adb_le32(clse + 4) || adb_le32(clse + 8) != arg0)
            die("an OPEN that is to be refused", said, arg0);
        t.nameless += !named;
        t.past_slots += named && fits;
        return;
    }
    if (said != ADB_DEVICE_TAKEN || !s) die("an OPEN that is to be taken", said, arg0);
    if (adb_device_answer_remote(answer) != arg0 || adb_answer_slot(answer) != lowest_place() || adb_answer_local(answer) != next_number)
        die("what is said of a stream that was taken", adb_answer_slot(answer), adb_answer_local(answer));
    if (strncmp((const char *)names + name, (const char *)f + ADB_HEADER_LEN, n) || strlen((const char *)names + name) > n)
        die("the name that was taken", name, n);
    s->taken = s->device = 1;
    s->number = next_number++;
    s->place = adb_answer_slot(answer);
    slot_taken[s->place] = 1;
    s->credit = arg1;
    wrote(device_wrote); /* its OKAY, behind one of the stream that is read, if that was due */
    if (!s->okay_up || !is(out + written - ADB_HEADER_LEN - (delayed ? 4 : 0), "OKAY")) die("an OKAY that takes a stream", written, arg0);
    s->opening_down = s->okay_up;
    t.opened++;
}

static void device_used(const uint8_t *f, uint32_t said, uint32_t handled)
{
    struct stream *s = of(adb_le32(f + 4));
    if (is(f, "OPEN")) {
        device_used_open(f, said, handled);
        return;
    }
    if (said == ADB_DEVICE_TAKEN) die("taken, and no OPEN", adb_le32(f), 0);
    if (adb_le32(f + 4) >= HAND || !adb_le32(f + 8)) { /* made by hand: nothing comes of it */
        if (said != handled || adb_answer_written(answer)) die("a frame made by hand", said, adb_answer_written(answer));
    } else if (s && is(f, "OKAY")) {
        s->okay_down -= delayed ? amount(f) : 1;
        s->credit += (int64_t)amount(f);
        if (!delayed) s->wrte_up = 0;
    } else if (s && is(f, "WRTE") && delayed) s->wrte_down -= adb_le32(f + 12);
}

/* ---- what every call is followed by */

static void balance(void)
{
    for (size_t i = 0; delayed && i < live_count; i++) {
        const struct stream *s = live[i];
        int64_t budget = 0;
        uint64_t unacked = 0;
        if (!s->device || s->closed || s->dropped) continue;
        if (s->host) {
            const uint32_t said = adb_numbers(host_state, sizeof host_state, host_rx, sizeof host_rx, host_opens, sizeof host_opens, s->slot,
                                              s->local, answer, sizeof answer);
            if (said != ADB_DONE) die("the host's numbers of a stream", said, s->local);
            budget = adb_answer_send_budget(answer);
            unacked = adb_answer_unacked(answer);
        }
        if ((uint64_t)s->credit + s->wrte_up + unacked + s->okay_down != s->opening_up) die("the device's credit", s->local, s->opening_up);
        const uint32_t said = adb_numbers(device_state + ADB_DEVICE_STATE_CONNECTION, ADB_STATE_LEN, device_rx, sizeof device_rx, device_opens,
                                          sizeof device_opens, s->place, s->number, answer, sizeof answer);
        if (said != ADB_DONE) die("the device's numbers of a stream", said, s->number);
        if (adb_answer_send_budget(answer) != s->credit) die("the device's credit by its numbers", s->number, (uint64_t)s->credit);
        if ((uint64_t)budget + s->wrte_down + adb_answer_unacked(answer) + s->okay_up != s->opening_down)
            die("the host's credit", s->local, s->opening_down);
        t.checks++;
    }
}

static void uses(struct end *e, size_t used)
{
    if (used > e->have) die("used more than has arrived", used, e->have);
    e->have -= used;
    memmove(e->in, e->in + used, e->have);
}

/* opens: the stream that adb_open goes on with; NULL for other calls. */
static uint32_t host_after_open(uint32_t said, struct stream *opens)
{
    const size_t used = (size_t)adb_answer_used(answer);
    uint8_t kept[ADB_ANSWER_LEN];
    t.calls++;
    add(&host.unsent, out, (size_t)adb_answer_written(answer));
    if (used) host_used(host.in);
    wrote(host_wrote);
    uses(&host, used);
    if (opens && said == ADB_DONE) {
        if (!opens->taken || adb_answer_local(answer) != opens->local) die("a stream that was not taken", opens->local, 0);
        opens->host = 1;
        opens->slot = adb_answer_slot(answer);
    }
    memcpy(kept, answer, sizeof kept);
    balance();
    memcpy(answer, kept, sizeof kept);
    return said;
}

static uint32_t host_after(uint32_t said) { return host_after_open(said, NULL); }

/* handled: what the call says of a packet that was handled. */
static uint32_t device_after(uint32_t said, uint32_t handled)
{
    const size_t used = (size_t)adb_answer_used(answer);
    uint8_t kept[ADB_ANSWER_LEN];
    t.calls++;
    add(&device.unsent, out, (size_t)adb_answer_written(answer));
    if (used) device_used(device.in, said, handled);
    if (said == ADB_DEVICE_TAKEN && !used) die("taken from nothing", said, 0);
    if (said != ADB_DEVICE_TAKEN) wrote(device_wrote);
    uses(&device, used);
    memcpy(kept, answer, sizeof kept);
    balance();
    memcpy(answer, kept, sizeof kept);
    return said;
}

/* ---- the host */

#define H_LENT host_state, sizeof host_state, host_rx, sizeof host_rx, host_opens, sizeof host_opens
#define IN(e) (e).in, lent(&(e))
#define OUT out, sizeof out
#define ANSWER answer, sizeof answer

static size_t room(void) { return (size_t)(chance(20) ? between(1, 64) : between(1, MOST)); }

static void host_closes(struct stream *s)
{
    const uint32_t said = host_after(adb_close(H_LENT, s->slot, s->local, OUT, ANSWER));
    if (said != ADB_DONE || !(s->closed & HOST)) die("a close of the host's", said, s->local);
    s->host = 0;
}

/* All that the other end wrote before it closed was read. */
static void host_is_told(struct stream *s)
{
    if (!(s->closed & DEVICE) || s->got_up != s->put_up) die("the end of a stream, at the host", s->got_up, s->put_up);
    host_closes(s);
}

static void host_got(struct stream *s)
{
    const size_t n = adb_answer_length(answer);
    expect(n, s->key_up, s->got_up, "a byte that the host read");
    s->got_up += n;
    t.up += n;
}

static void host_reads(struct stream *s)
{
    const uint32_t said = host_after(adb_read(H_LENT, s->slot, s->local, IN(host), OUT, buf, room(), ANSWER));
    if (said == ADB_DONE) host_got(s);
    else if (said == ADB_REFUSED_CHANNEL_CLOSED) host_is_told(s);
    else if (said != ADB_WAITING) die("a read of the host's", said, s->local);
}

static void host_settles_and_takes(struct stream *s)
{
    const size_t n = room();
    uint32_t said = host_after(adb_settle(H_LENT, s->slot, s->local, n, OUT, ANSWER));
    if (said != ADB_DONE) die("a settle of the host's", said, s->local);
    said = host_after(adb_take(H_LENT, s->slot, s->local, buf, n, ANSWER));
    if (said == ADB_DONE) host_got(s);
    else if (said == ADB_REFUSED_CHANNEL_CLOSED) host_is_told(s);
    else if (said != ADB_NONE) die("a take of the host's", said, s->local);
}

static void host_writes(struct stream *s)
{
    const size_t n = (size_t)least(s->plan_down - s->put_down, between(1, MOST));
    uint32_t said;
    fill(n, s->key_down, s->put_down);
    said = host_after(adb_write(H_LENT, s->slot, s->local, data, n, IN(host), OUT, ANSWER));
    if (said == ADB_DONE) s->put_down += adb_answer_length(answer);
    else if (said == ADB_REFUSED_CHANNEL_CLOSED) s->host_mute = 1;
    else if (said != ADB_WAITING) die("a write of the host's", said, s->local);
}

static void host_dispatches(void)
{
    const uint32_t said = host_after(adb_dispatch(H_LENT, IN(host), OUT, ANSWER));
    if (said != ADB_DONE && said != ADB_WAITING) die("a dispatch of the host's", said, 0);
}

static uint64_t plan_most;

static void host_asks(void)
{
    static char name[32];
    static size_t n;
    uint32_t said;
    if (!pending) {
        struct stream *s = pending = calloc(1, sizeof *s);
        if (!s || live_count == sizeof live / sizeof *live) die("no room for a stream", live_count, 0);
        n = (size_t)snprintf(name, sizeof name, "%s", chance(8) ? others[below(3)] : served[below(4)]);
        n += chance(50); /* AOSP's host has a zero byte behind it */
        s->key_down = next(), s->key_up = next();
        s->plan_down = below(plan_most), s->plan_up = below(plan_most);
        s->closer = (int)between(1, 3);
        s->early = chance(25);
        live[live_count++] = s;
    }
    said = host_after_open(adb_open(H_LENT, (const uint8_t *)name, n, IN(host), OUT, ANSWER), pending);
    if (said == ADB_WAITING) return;
    if (said != ADB_DONE && (said != ADB_REFUSED_CHANNEL_CLOSED || !pending->met || pending->taken))
        die("an open of the host's", said, pending->local);
    pending = NULL;
}

/* Frames that no host of ours sends, and that a device's end ignores: nothing may come of them, but a CLSE for an OPEN of the other
 * mode, or of a name that is not there. */
static void by_hand(const struct stream *s)
{
    static const char *const commands[] = { "CNXN", "OPEN", "OPEN", "OKAY", "WRTE", "CLSE", "CLSE", "AUTH", "SYNC" };
    const unsigned kind = (unsigned)below(9);
    const char *command = commands[kind];
    uint8_t f[ADB_HEADER_LEN + 40];
    const size_t n = kind == 1 || kind == 2 ? 6 : kind == 3 ? (delayed ? 4 : 0) : (size_t)below(40);
    uint32_t arg0 = HAND + (uint32_t)below(1000), arg1 = (uint32_t)(HAND + below(1000));
    for (size_t i = 0; i < n; i++) f[ADB_HEADER_LEN + i] = kind == 3 ? 1 : (uint8_t)next();
    if (kind == 1 || kind == 2) memcpy(f + ADB_HEADER_LEN, "sync:", 6), arg1 = delayed ? 0 : 7;
    if (kind == 2) arg0 = 0, arg1 = delayed ? 7 : 0; /* from 0: ignored */
    if (kind == 4 && s && s->device) arg1 = 0;
    if (kind == 6 && s) arg0 = s->local, arg1 = 0; /* a CLSE without the device's number */
    put_head(f, command, arg0, arg1, n, sum(f + ADB_HEADER_LEN, n));
    add(&host.unsent, f, ADB_HEADER_LEN + n);
    t.by_hand++;
}

static void close_or(struct stream *s, int who, int done, void (*closes)(struct stream *), void (*goes_on)(struct stream *))
{
    if (s->closer & who && !s->closed && (s->early ? chance(3) : done)) closes(s);
    else goes_on(s);
}

static void host_works(struct stream *s)
{
    const unsigned kind = (unsigned)below(100);
    if (kind < 45 && s->put_down < s->plan_down && !s->host_mute) host_writes(s);
    else if (kind < 60) host_settles_and_takes(s);
    else host_reads(s);
}

static size_t host_count(void)
{
    size_t n = 0;
    for (size_t i = 0; i < live_count; i++) n += live[i]->host || live[i] == pending;
    return n;
}

static void host_acts(int draining)
{
    struct stream *s = live_count ? live[below(live_count)] : NULL;
    if (pending && !chance(1)) {
        host_asks();
        return;
    }
    if (!pending && !draining && host_count() < HOST_OPENS && chance(20)) {
        host_asks();
        return;
    }
    if (chance(2)) by_hand(s);
    if (!s || !s->host || chance(15)) host_dispatches();
    else close_or(s, HOST, s->put_down == s->plan_down && s->got_up == s->plan_up, host_closes, host_works);
    if (pending) { /* that call dropped it: whatever the device answers, the host knows of no such stream */
        pending->dropped = 1;
        pending = NULL;
        t.dropped++;
    }
}

/* ---- the device */

#define D_LENT device_state, sizeof device_state, device_rx, sizeof device_rx, device_opens, sizeof device_opens
#define NAMES names, names_len

static void some_names(void)
{
    const int all = !chance(10);
    names = all ? whole_table : short_table;
    names_len = all ? sizeof whole_table - 1 : sizeof short_table; /* a literal's own zero byte ends its last name, or there is none */
}

static void device_closes(struct stream *s)
{
    const uint32_t said = device_after(adb_device_close(D_LENT, s->place, s->number, OUT, ANSWER), ADB_DONE);
    if (said != ADB_DONE || !(s->closed & DEVICE)) die("a close of the device's", said, s->number);
    s->device = 0;
    slot_taken[s->place] = 0;
}

static void device_is_told(struct stream *s)
{
    if (!(s->closed & HOST) || s->got_down != s->put_down) die("the end of a stream, at the device", s->got_down, s->put_down);
    device_closes(s);
}

static void device_got(struct stream *s)
{
    const size_t n = adb_answer_length(answer);
    expect(n, s->key_down, s->got_down, "a byte that the device read");
    s->got_down += n;
    t.down += n;
}

static void device_reads(struct stream *s)
{
    const uint32_t said = device_after(adb_device_read(D_LENT, NAMES, s->place, s->number, IN(device), OUT, buf, room(), ANSWER), ADB_WAITING);
    if (said == ADB_DONE) device_got(s);
    else if (said == ADB_REFUSED_CHANNEL_CLOSED) device_is_told(s);
    else if (said != ADB_WAITING && said != ADB_DEVICE_TAKEN) die("a read of the device's", said, s->number);
}

static void device_settles_and_takes(struct stream *s)
{
    const size_t n = room();
    uint32_t said = device_after(adb_device_settle(D_LENT, s->place, s->number, n, OUT, ANSWER), ADB_DONE);
    if (said != ADB_DONE) die("a settle of the device's", said, s->number);
    said = device_after(adb_device_take(D_LENT, s->place, s->number, buf, n, ANSWER), ADB_DONE);
    if (said == ADB_DONE) device_got(s);
    else if (said == ADB_REFUSED_CHANNEL_CLOSED) device_is_told(s);
    else if (said != ADB_NONE) die("a take of the device's", said, s->number);
}

static void device_writes(struct stream *s)
{
    const size_t n = (size_t)least(s->plan_up - s->put_up, between(1, MOST));
    uint32_t said;
    fill(n, s->key_up, s->put_up);
    said = device_after(adb_device_write(D_LENT, NAMES, s->place, s->number, data, n, IN(device), OUT, ANSWER), ADB_WAITING);
    if (said == ADB_DONE) s->put_up += adb_answer_length(answer);
    else if (said == ADB_REFUSED_CHANNEL_CLOSED) s->device_mute = 1;
    else if (said != ADB_WAITING && said != ADB_DEVICE_TAKEN) die("a write of the device's", said, s->number);
}

static void device_works(struct stream *s)
{
    const unsigned kind = (unsigned)below(100);
    if (kind < 45 && s->put_up < s->plan_up && !s->device_mute) device_writes(s);
    else if (kind < 60) device_settles_and_takes(s);
    else device_reads(s);
}

static void device_acts(void)
{
    struct stream *s = live_count ? live[below(live_count)] : NULL;
    some_names();
    if (s && s->device && !chance(15)) {
        close_or(s, DEVICE, s->put_up == s->plan_up && s->got_down == s->plan_down, device_closes, device_works);
        return;
    }
    const uint32_t said = device_after(adb_device_dispatch(D_LENT, NAMES, IN(device), OUT, ANSWER), ADB_DONE);
    if (said != ADB_DONE && said != ADB_WAITING && said != ADB_DEVICE_TAKEN) die("a dispatch of the device's", said, 0);
}

/* ---- a run */

/* Frames ahead of the host's CNXN, which are ignored; both CNXNs; and the host's connection from the device's. */
static void connects(void)
{
    static const char theirs[] = "host::features=shell_v2,delayed_ack,cmd";
    const char *ours = delayed ? "device::ro.product.name=x;features=delayed_ack,cmd" : "device::ro.product.name=x;features=cmd;delayed_ack";
    const size_t n = strlen(theirs), m = strlen(ours);
    uint8_t f[ADB_HEADER_LEN + 64];
    uint32_t said = adb_device_make(device_state, sizeof device_state, STREAMS, DEVICE_MAX, DEVICE_RX, DEVICE_ACK, (const uint8_t *)ours, m);
    if (said != ADB_DONE) die("the device's end is not made", said, 0);
    put_head(f, "OPEN", 1, delayed ? 100 : 0, 5, sum((const uint8_t *)"sync:", 5));
    memcpy(f + ADB_HEADER_LEN, "sync:", 5);
    add(&host.unsent, f, ADB_HEADER_LEN + 5);
    put_head(f, "WRTE", 1, 1, 0, 0);
    add(&host.unsent, f, ADB_HEADER_LEN);
    put_head(f, "CNXN", VERSION, HOST_MAX, n, sum((const uint8_t *)theirs, n));
    memcpy(f + ADB_HEADER_LEN, theirs, n);
    add(&host.unsent, f, ADB_HEADER_LEN + n);
    some_names();
    for (int frames = 0; frames < 3;) {
        moves(&host), moves(&device);
        said = adb_device_dispatch(D_LENT, NAMES, IN(device), OUT, ANSWER);
        if (said == ADB_WAITING) continue;
        if (said != (frames < 2 ? (uint32_t)ADB_DONE : ADB_DEVICE_CONNECTED) || (adb_answer_written(answer) && frames < 2))
            die("ahead of the host's CNXN", said, (uint64_t)frames);
        add(&device.unsent, out, (size_t)adb_answer_written(answer));
        uses(&device, (size_t)adb_answer_used(answer));
        frames++;
    }
    if (adb_device_answer_version(answer) != VERSION || adb_device_answer_max_payload(answer) != HOST_MAX ||
        adb_device_answer_delayed(answer) != delayed)
        die("what is agreed on", adb_device_answer_max_payload(answer), (uint64_t)adb_device_answer_delayed(answer));
    while (host.have < ADB_HEADER_LEN + m) moves(&host), moves(&device);
    if (host.have != ADB_HEADER_LEN + m || !is(host.in, "CNXN") || adb_le32(host.in + 4) != VERSION || adb_le32(host.in + 8) != DEVICE_MAX ||
        adb_le32(host.in + 16) != sum((const uint8_t *)ours, m) || memcmp(host.in + ADB_HEADER_LEN, ours, m))
        die("the device's CNXN", host.have, m);
    said = adb_make_from_cnxn(host_state, sizeof host_state, HOST_CHANNELS, HOST_MAX, HOST_RX, HOST_ACK, adb_le32(host.in + 4),
                              adb_le32(host.in + 8), host.in + ADB_HEADER_LEN, m, 1);
    if (said != ADB_DONE || host_state[ADB_STATE_DELAYED] != delayed) die("the host's end is not made", said, 0);
    uses(&host, host.have);
}

/* Streams that both ends have done with. One that the host dropped is done with once the device has heard so, or has refused it. */
static void sweep(void)
{
    size_t kept = 0, open = 0;
    for (size_t i = 0; i < live_count; i++) {
        struct stream *s = live[i];
        if (s == pending || s->host || s->device || !s->met) {
            live[kept++] = s;
            open += s->host && s->device && !s->closed;
        }
    }
    live_count = kept;
    if (open > t.most) t.most = open;
}

static void run(int with_delayed, uint64_t seed, uint64_t total)
{
    uint64_t idle = 0, before = 0;
    delayed = with_delayed;
    mode = delayed ? "delayed" : "plain";
    rng = mix(seed * 2 + (uint64_t)delayed);
    memset(&t, 0, sizeof t);
    memset(slot_taken, 0, sizeof slot_taken);
    for (uint32_t i = 0; i < MAX_LOCAL; i++) free(by_local[i]), by_local[i] = NULL;
    next_number = 1;
    live_count = 0;
    pending = NULL;
    plan_most = total / 150 + 1;
    dial();
    connects();
    for (;;) {
        const int draining = t.down >= total && t.up >= total;
        if (chance(50)) host_acts(draining);
        else device_acts();
        moves(&host), moves(&device);
        sweep();
        if (draining && !live_count && !count(&host.unsent) && !count(&device.unsent) && host.sent == device.came && device.sent == host.came &&
            !host.have && !device.have)
            break;
        idle = before == t.down + t.up + t.frames_down + t.frames_up ? idle + 1 : 0;
        before = t.down + t.up + t.frames_down + t.frames_up;
        if (idle > 3000000) die("nothing moves any more", t.down, t.up);
    }
    for (size_t i = 0; i < ADB_MAX_CHANNELS; i++) {
        const size_t tag = ADB_STATE_SLOT(i) + ADB_STATE_SLOT_TAG;
        if ((host_state[tag] | device_state[ADB_DEVICE_STATE_CONNECTION + tag]) & ADB_TAG_FILLED) die("a slot that is filled at the end", i, 0);
    }
    close(host.fd), close(device.fd);
    empty(&host.unsent), empty(&device.unsent);
    printf("%-7s %" PRIu64 " streams, %zu at once, closed first by the host %" PRIu64 ", by the device %" PRIu64 "; %" PRIu64 " and %" PRIu64
           " bytes, every one compared; %" PRIu64 " and %" PRIu64 " frames, %" PRIu64 " calls; refused by name %" PRIu64 ", past the slots %"
           PRIu64 "; opens dropped %" PRIu64 "; frames by hand %" PRIu64, mode, t.opened, t.most, t.closed_host, t.closed_device, t.down, t.up,
           t.frames_down, t.frames_up, t.calls, t.nameless, t.past_slots, t.dropped, t.by_hand);
    if (delayed) printf("; WRTEs past the credit %" PRIu64 "; both equations hold %" PRIu64 " times", t.beyond, t.checks);
    printf("\n");
}

int main(int argc, char **argv)
{
    const uint64_t seed = argc > 1 ? strtoull(argv[1], NULL, 0) : 1, mib = argc > 2 ? strtoull(argv[2], NULL, 0) : 4;
    if (argc > 3 || mib < 1 || mib > 256) {
        fputs("usage: ends [SEED [MIB]]\n", stderr);
        return 2;
    }
    run(0, seed, mib << 20);
    run(1, seed, mib << 20);
    return 0;
}
