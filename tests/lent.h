/* What the damage tests of both ends share: lent buffers with guard bytes around them, and what a whole state is, written again after
 * docs/LAYOUT.md. */
#ifndef LENT_H
#define LENT_H

#include "../demo/common.h"

#define GUARD 16
#define MARK 0xA5
#define MOST 9216 /* bytes of the longest buffer */

/* ---- lent buffers: what each held before the call is kept beside it */

/* NAMES: a device's end, which is lent no destination. */
enum { STATE, RX, OPENS, DESTINATION, NAMES = DESTINATION, DATA, RECEIVED, OUTGOING, BUF, ANSWER, BUFFERS };

static const char *const buffer_names[BUFFERS] = { "state", "rx", "opens", "destination or names", "data", "received", "out", "buf",
                                                   "answer" };

/* Guard bytes stand right before and right behind each buffer, whatever its length. */
static uint8_t room[BUFFERS][2 * GUARD + MOST];
static uint8_t before[BUFFERS][MOST];
static size_t len[BUFFERS];

static inline uint8_t *at(int b) { return room[b] + GUARD; }

/* An empty buffer is lent as null. */
static inline uint8_t *ptr(int b) { return len[b] ? at(b) : NULL; }

static inline void lend(int b, const uint8_t *bytes, size_t n)
{
    len[b] = n;
    memset(room[b], MARK, GUARD);
    if (bytes) memcpy(at(b), bytes, n);
    else memset(at(b), 0x5A, n);
    memset(at(b) + n, MARK, GUARD);
    memcpy(before[b], at(b), n);
}

static inline int guards(int b)
{
    static uint8_t marks[GUARD];
    memset(marks, MARK, GUARD);
    return !memcmp(room[b], marks, GUARD) && !memcmp(at(b) + len[b], marks, GUARD);
}

static inline int same(int b, size_t from) { return from >= len[b] || !memcmp(at(b) + from, before[b] + from, len[b] - from); }

/* ---- what a whole state is (docs/LAYOUT.md) */

static inline size_t cap_of(const uint8_t *s)
{
    return adb_rx_cap(adb_le32(s + ADB_STATE_MAX_PAYLOAD), (size_t)adb_le64(s + ADB_STATE_MAX_RX_PER_CHANNEL));
}

static inline int slot_is_whole(const uint8_t *s, size_t i)
{
    const uint8_t *p = s + ADB_STATE_SLOT(i);
    const unsigned tag = p[ADB_STATE_SLOT_TAG], in_state = tag >> ADB_TAG_STATE_SHIFT & 3;
    const uint64_t settled = adb_le32(p + ADB_STATE_SLOT_SETTLED), head = adb_le32(p + ADB_STATE_SLOT_HEAD);
    const uint64_t buffered = adb_le32(p + ADB_STATE_SLOT_BUFFERED), cap = cap_of(s);
    if (tag >> ADB_TAG_FAULT_SHIFT > 5 || in_state == 3) return 0;
    if (!(tag & ADB_TAG_FILLED)) return 1;
    return i < adb_le64(s + ADB_STATE_CHANNELS) && in_state != 0 && tag >> ADB_TAG_FAULT_SHIFT == 0 && tag & ADB_TAG_HAS_REMOTE &&
           settled <= buffered && settled <= cap && buffered - settled <= cap && head <= 2 * cap && buffered <= 2 * cap - head;
}

static inline int is_whole(const uint8_t *s)
{
    const uint64_t channels = adb_le64(s + ADB_STATE_CHANNELS), queued = adb_le64(s + ADB_STATE_QUEUED);
    const uint64_t place = adb_le64(s + ADB_STATE_PENDING_SLOT);
    const uint32_t payload = adb_le32(s + ADB_STATE_MAX_PAYLOAD);
    if (channels < 1 || channels > ADB_MAX_CHANNELS || payload < 1 || payload > ADB_MAX_PAYLOAD) return 0;
    if (adb_le64(s + ADB_STATE_MAX_RX_PER_CHANNEL) > ADB_MAX_RX_PER_CHANNEL) return 0;
    if (adb_le32(s + ADB_STATE_INITIAL_ACK_BYTES) > ADB_MAX_INITIAL_ACK_BYTES) return 0;
    if (adb_le32(s + ADB_STATE_DEVICE_MAX_PAYLOAD) > ADB_MAX_PAYLOAD || adb_le32(s + ADB_STATE_VERSION) > 0x01000001) return 0;
    if (adb_le32(s + ADB_STATE_NEXT_LOCAL) == 0 || queued > channels) return 0;
    if (s[ADB_STATE_DELAYED] > 1 || s[ADB_STATE_PENDING] > ADB_PENDING_OFFER) return 0;
    for (size_t i = 0; i < ADB_MAX_CHANNELS; i++)
        if (!slot_is_whole(s, i)) return 0;
    if (s[ADB_STATE_PENDING] == ADB_PENDING_OPEN &&
        (place >= channels || s[ADB_STATE_SLOT(place) + ADB_STATE_SLOT_TAG] & ADB_TAG_FILLED))
        return 0;
    if (s[ADB_STATE_PENDING] == ADB_PENDING_OFFER && queued >= channels) return 0;
    for (size_t i = 0; i < queued + (s[ADB_STATE_PENDING] == ADB_PENDING_OFFER); i++) {
        const uint8_t *p = s + ADB_STATE_QUEUED_OPEN(i);
        if (adb_le64(p + ADB_STATE_QUEUED_SHARE) >= channels || adb_le64(p + ADB_STATE_QUEUED_SIZE) > payload) return 0;
    }
    return 1;
}

static inline size_t rx_need(const uint8_t *s)
{
    return adb_rx_store_len((size_t)adb_le64(s + ADB_STATE_CHANNELS), adb_le32(s + ADB_STATE_MAX_PAYLOAD),
                            (size_t)adb_le64(s + ADB_STATE_MAX_RX_PER_CHANNEL));
}

static inline size_t opens_need(const uint8_t *s)
{
    return adb_open_store_len((size_t)adb_le64(s + ADB_STATE_CHANNELS), adb_le32(s + ADB_STATE_MAX_PAYLOAD));
}

static inline void poke(uint8_t *state, size_t at_byte, int bytes, uint64_t v)
{
    for (int i = 0; i < bytes; i++) state[at_byte + (size_t)i] = (uint8_t)(v >> 8 * i);
}

#endif
