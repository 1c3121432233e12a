/* A device's end for a real adb: the channels that `adb forward tcp:A tcp:B` opens are taken by adb_accept, and what arrives
 * on them is echoed (tcp:7) or read and dropped (tcp:9). Opens of other names are rejected. Exit status 1 on any fault.
 *
 *   peer PORT MAX_PAYLOAD MAX_RX_PER_CHANNEL INITIAL_ACK_BYTES DELAYED SLOW
 *
 * It listens on a loopback port (0: a free one), takes one connection and ends with it. DELAYED 1: delayed acknowledgement is
 * in its list of features. SLOW n: every n-th channel that is accepted is read slowly, SLOW_BYTES in SLOW_MS; 0 for none.
 * One loop waits by poll. Packets are taken as they arrive, whatever the readers do, so that refusal 11 is met where the cap
 * leaves no room. A program of use would close a channel then; this one reads on, to count what was lost.
 */
#define _POSIX_C_SOURCE 200809L
#include "wire.h"

#define VERSION 0x01000001
#define SLOW_BYTES 1000
#define SLOW_MS 1
#define IN_MORE 65536      /* received bytes beyond one frame */
#define UNSENT_MAX 1048576 /* with more than this to send no channel is served */

struct channel {
    int taken, echo, slow;
    uint32_t local, number, crc;   /* number: how many were accepted before it; crc: of what was dropped */
    uint64_t came, got, put, lost; /* bytes that arrived, were read, written, refused by 11 */
    uint64_t last;                 /* when a slow one was read last, in ms */
    uint8_t *hold;                 /* what was read and is not echoed yet: `held` bytes, the first `sent` of them gone */
    size_t held, sent;
};

static uint32_t max_payload, initial_ack, slow_each;
static size_t max_rx, rx_len, opens_len, out_len, in_room, have;
static int delayed;
static struct channel channels[ADB_MAX_CHANNELS];
static uint8_t state[ADB_STATE_LEN], answer[ADB_ANSWER_LEN], *rx, *opens, *in, *out;
static uint64_t accepted, rejected, no_slot, overflows, got, put, longest;

#define LENT state, sizeof state, rx, rx_len, opens, opens_len

/* After each call: what it wrote goes to the wire. */
static uint32_t sending(uint32_t said)
{
    const size_t n = (size_t)adb_answer_written(answer);
    add(&unsent, out, n);
    if (n > longest) longest = n;
    return said;
}

/* ---- the connection */

static void read_all(int fd, uint8_t *p, size_t n)
{
    while (n) {
        const ssize_t r = recv(fd, p, n, 0);
        if (r <= 0) die("the connection ended before its CNXN", n, 0);
        p += r;
        n -= (size_t)r;
    }
}

static void connects(int fd)
{
    char mine[128];
    uint8_t head[ADB_HEADER_LEN], frame[ADB_HEADER_LEN + sizeof mine], *text;
    uint32_t said, n;
    read_all(fd, head, sizeof head);
    n = adb_le32(head + 12);
    if (memcmp(head, "CNXN", 4) || n > ADB_MAX_PAYLOAD) die("no CNXN", adb_le32(head), n);
    text = memory(NULL, n);
    read_all(fd, text, n);
    if (adb_le32(head + 16) != sum(text, n)) die("the check of a CNXN", adb_le32(head + 16), sum(text, n));
    said = adb_make_from_cnxn(state, sizeof state, ADB_MAX_CHANNELS, max_payload, max_rx, initial_ack, adb_le32(head + 4),
                              adb_le32(head + 8), text, n, (uint8_t)delayed);
    if (said != ADB_DONE) die("no connection is made", said, 0);
    printf("cnxn version=%08" PRIx32 " maxdata=%" PRIu32 " delayed=%d\n", adb_le32(head + 4), adb_le32(head + 8), state[ADB_STATE_DELAYED]);
    n = (uint32_t)snprintf(mine, sizeof mine, "device::ro.product.name=vedunka;features=cmd,shell_v2%s", delayed ? ",delayed_ack" : "");
    put_head(frame, "CNXN", VERSION, max_payload, n, sum((uint8_t *)mine, n));
    memcpy(frame + ADB_HEADER_LEN, mine, n);
    add(&unsent, frame, ADB_HEADER_LEN + n);
    free(text);
}

/* ---- channels */

static void accepts(int echo)
{
    struct channel *c;
    const uint32_t said = sending(adb_accept(LENT, out, out_len, answer, sizeof answer));
    no_slot += said == ADB_REFUSED_NO_FREE_CHANNELS;
    if (said == ADB_REFUSED_NO_FREE_CHANNELS) return;
    if (said != ADB_DONE) die("an open is not accepted", said, 0);
    c = &channels[adb_answer_slot(answer)];
    if (c->taken) die("a slot that is filled", adb_answer_slot(answer), 0);
    *c = (struct channel){ .taken = 1, .echo = echo, .local = adb_answer_local(answer), .number = (uint32_t)accepted++ };
    c->slow = slow_each && c->number % slow_each == 0;
    c->hold = memory(NULL, max_payload);
}

/* The opens that wait, each by its name; AOSP's end has a zero byte behind it. */
static void decides(void)
{
    uint32_t said;
    while ((said = adb_take_front(LENT, answer, sizeof answer)) == ADB_DONE) {
        const char *name = (const char *)opens + adb_answer_destination(answer);
        const size_t n = adb_answer_destination_len(answer);
        if (n == 6 && !memcmp(name, "tcp:7", 6)) accepts(1);
        else if (n == 6 && !memcmp(name, "tcp:9", 6)) accepts(0);
        else {
            said = sending(adb_reject(LENT, out, out_len, answer, sizeof answer));
            if (said != ADB_DONE) die("an open is not rejected", said, 0);
            rejected++;
        }
    }
    if (said != ADB_NONE) die("the queue's front", said, 0);
}

static void ends(struct channel *c)
{
    const uint32_t said = sending(adb_close(LENT, (size_t)(c - channels), c->local, out, out_len, answer, sizeof answer));
    if (said != ADB_DONE) die("a channel is not closed", said, c->local);
    printf("channel %" PRIu32 " %s%s read=%" PRIu64 " crc=%08" PRIx32 " wrote=%" PRIu64 " lost=%" PRIu64 "\n", c->number,
           c->echo ? "echo" : "drop", c->slow ? " slow" : "", c->got, c->crc, c->put, c->lost);
    got += c->got;
    put += c->put;
    free(c->hold);
    c->taken = 0;
}

/* Echoes what is held, as far as the other end's credit goes. A WRTE is at most max_payload, since no more is held. */
static void writes(struct channel *c)
{
    while (c->sent < c->held) {
        const uint32_t said = sending(adb_write(LENT, (size_t)(c - channels), c->local, c->hold + c->sent, c->held - c->sent, NULL, 0,
                                                out, out_len, answer, sizeof answer));
        if (said == ADB_WAITING) return;
        if (said == ADB_REFUSED_CHANNEL_CLOSED) break; /* the other end hears no more */
        if (said != ADB_DONE) die("a write", said, c->local);
        c->sent += adb_answer_length(answer);
        c->put += adb_answer_length(answer);
    }
    c->held = c->sent = 0;
}

/* Echoes and reads in turn, until the one or the other waits. */
static void serves(struct channel *c, uint64_t now)
{
    while (c->taken && count(&unsent) < UNSENT_MAX) {
        uint32_t said;
        writes(c);
        if (c->held || (c->slow && now < c->last + SLOW_MS)) return;
        said = sending(adb_read(LENT, (size_t)(c - channels), c->local, NULL, 0, out, out_len, c->hold,
                                c->slow ? (size_t)least(SLOW_BYTES, max_payload) : max_payload, answer, sizeof answer));
        c->last = now;
        if (said == ADB_WAITING) return;
        if (said == ADB_REFUSED_CHANNEL_CLOSED) {
            ends(c);
            return;
        }
        if (said != ADB_DONE) die("a read", said, c->local);
        c->got += adb_answer_length(answer);
        if (!c->echo) c->crc = crc32(c->crc, c->hold, adb_answer_length(answer));
        c->held = c->echo ? adb_answer_length(answer) : 0;
    }
}

/* A WRTE was taken, or refused by 11: which of its channel's bytes are then lost. */
static void came(const uint8_t *frame, int refused)
{
    const uint32_t n = adb_le32(frame + 12);
    struct channel *c = channels;
    while (c < channels + ADB_MAX_CHANNELS && !(c->taken && c->local == adb_le32(frame + 8))) c++;
    if (c == channels + ADB_MAX_CHANNELS) die("a WRTE for no channel", adb_le32(frame + 8), n);
    if (refused) printf("lost %" PRIu32 " at=%" PRIu64 " length=%" PRIu32 "\n", c->number, c->came, n);
    c->came += n;
    c->lost += refused ? n : 0;
    overflows += (uint64_t)refused;
}

static void dispatches(void)
{
    size_t at = 0, used = 1;
    while (used) {
        const uint32_t said = sending(adb_dispatch(LENT, in + at, have - at, out, out_len, answer, sizeof answer));
        used = (size_t)adb_answer_used(answer);
        if (said != ADB_DONE && said != ADB_WAITING && said != ADB_REFUSED_CHANNEL_RX_OVERFLOW) die("a packet", said, adb_le32(in + at));
        if (used && !memcmp(in + at, "WRTE", 4)) came(in + at, said == ADB_REFUSED_CHANNEL_RX_OVERFLOW);
        if (used && !memcmp(in + at, "OPEN", 4)) decides();
        at += used;
    }
    have -= at;
    memmove(in, in + at, have);
}

static void loop(int fd)
{
    for (;;) {
        int slow = 0;
        for (int i = 0; i < ADB_MAX_CHANNELS; i++) slow |= channels[i].taken && channels[i].slow;
        if (!arrives(fd, slow ? SLOW_MS : -1, in, &have, in_room)) return; /* the other end went */
        dispatches();
        for (int i = 0; i < ADB_MAX_CHANNELS; i++) serves(&channels[i], now_ms());
        send_some(fd);
    }
}

int main(int argc, char **argv)
{
    int fd;
    if (argc != 7) die("peer PORT MAX_PAYLOAD MAX_RX_PER_CHANNEL INITIAL_ACK_BYTES DELAYED SLOW", (uint64_t)argc, 7);
    mode = "peer";
    setvbuf(stdout, NULL, _IOLBF, BUFSIZ); /* a script reads along */
    max_payload = (uint32_t)least(strtoul(argv[2], NULL, 10), ADB_MAX_PAYLOAD);
    max_rx = (size_t)least(strtoul(argv[3], NULL, 10), ADB_MAX_RX_PER_CHANNEL);
    initial_ack = (uint32_t)least(strtoul(argv[4], NULL, 10), ADB_MAX_INITIAL_ACK_BYTES);
    delayed = atoi(argv[5]) != 0;
    slow_each = (uint32_t)strtoul(argv[6], NULL, 10);
    rx = memory(NULL, rx_len = adb_rx_store_len(ADB_MAX_CHANNELS, max_payload, max_rx));
    opens = memory(NULL, opens_len = adb_open_store_len(ADB_MAX_CHANNELS, max_payload));
    out = memory(NULL, out_len = adb_out_len(max_payload));
    in = memory(NULL, in_room = ADB_HEADER_LEN + max_payload + IN_MORE);
    fd = listens((uint16_t)atoi(argv[1]));
    connects(fd);
    fcntl(fd, F_SETFL, O_NONBLOCK);
    loop(fd);
    printf("end accepted=%" PRIu64 " rejected=%" PRIu64 " refused12=%" PRIu64 " refused11=%" PRIu64 " read=%" PRIu64 " wrote=%" PRIu64
           " longest=%" PRIu64 "\n", accepted, rejected, no_slot, overflows, got, put, longest);
    return 0;
}
