/* Vedunka: the host end of an ADB connection, as calls on lent memory. C99 and C++.
 *
 * No call waits, allocates or keeps a pointer. A program lends the state, two stores and, where a call has them, received
 * bytes, an outgoing buffer and a reader's buffer. A call takes at most one packet, writes at most two frames, and answers
 * by its number and in the answer's 48 bytes. Calls on different connections share nothing and may run at the same time.
 *
 * Buffers
 *   - Every pointer is followed by its length in bytes. An empty buffer may be null.
 *   - No two buffers of one call may overlap.
 *   - A buffer that is longer than needed is fine; the bytes past the need keep their values.
 *   - Any address will do. Calls are fastest where `answer` lies in one cache line and `out` begins 8 past a multiple of 16,
 *     since a payload behind its header then begins at one.
 *   - `state`: ADB_STATE_LEN bytes, filled by adb_make or adb_make_from_cnxn. Nothing else of a connection is kept between
 *     calls but the stores.
 *   - `rx`: the receive store, adb_rx_store_len bytes. `opens`: the open store, adb_open_store_len bytes. Both may hold
 *     anything when the connection is made.
 *   - `received`: what has arrived and has not been used yet, from the first byte of a frame on. It need only hold what is
 *     there: a part of a frame gives ADB_WAITING with 0 used, and the next call is lent the same bytes and more. The program
 *     drops the first adb_answer_used bytes after each call, refused ones too.
 *   - `out`: the first adb_answer_written bytes are to be sent before the next call's, after a refusal too. At least
 *     ADB_OUT_MIN bytes; an OPEN or a WRTE needs its payload and ADB_HEADER_LEN (adb_out_len).
 *   - `buf`: the reader's buffer; after ADB_DONE the first adb_answer_length bytes are what was read.
 *   - `answer`: ADB_ANSWER_LEN bytes, all of them written by each call, unless the state or the answer is too short.
 *
 * What a call may change, and nothing else:
 *   adb_make            state
 *   adb_make_from_cnxn  state
 *   adb_open            state, rx, opens, out, answer
 *   adb_dispatch        state, rx, opens, out, answer
 *   adb_settle          state, out, answer
 *   adb_take            state, buf, answer
 *   adb_read            state, rx, opens, out, buf, answer
 *   adb_write           state, rx, opens, out, answer
 *   adb_close           state, out, answer
 *   adb_take_front      state, answer
 *   adb_numbers         answer
 *   adb_stretch         both spare stores, answer
 * Of `out` and `buf` only the bytes counted in the answer change.
 *
 * Refusals ahead of a call's steps, in this order; they change nothing but the answer:
 *   ADB_REFUSED_STORE_SHORT   the state is under ADB_STATE_LEN or the answer under ADB_ANSWER_LEN; no answer is written
 *   ADB_REFUSED_BROKEN_STATE  the state's bytes are not those of a connection (docs/LAYOUT.md)
 *   ADB_REFUSED_BAD_CONFIG    adb_make and adb_make_from_cnxn only
 *   ADB_REFUSED_STORE_SHORT   a store is under its length
 *   ADB_REFUSED_OUT_SHORT     `out` is under ADB_OUT_MIN
 *
 * Reading from one channel, where MAX_PAYLOAD is the max_payload that adb_make got, so that `in` has room for any frame, and
 * receive_some waits for at least one byte:
 *
 *     uint8_t in[ADB_HEADER_LEN + MAX_PAYLOAD];
 *     size_t have = 0;
 *     for (;;) {
 *         uint32_t said = adb_read(state, sizeof state, rx, rx_len, opens, opens_len, slot, local, in, have,
 *                                  out, sizeof out, buf, sizeof buf, answer, sizeof answer);
 *         size_t used = (size_t)adb_answer_used(answer);
 *         send_all(fd, out, (size_t)adb_answer_written(answer));
 *         have -= used;
 *         memmove(in, in + used, have);
 *         if (said == ADB_DONE)
 *             consume(buf, adb_answer_length(answer));
 *         else if (said != ADB_WAITING)
 *             break;                                               // refused: said is the reason
 *         else if (used == 0)
 *             have += receive_some(fd, in + have, sizeof in - have);
 *     }
 *
 * A read also takes packets that are not its channel's: their bytes go to the receive store, and a read on their channel
 * hands them over. adb_open and adb_write are called in the same way until they answer other than ADB_WAITING; but the first
 * adb_open takes no packet, so that it is called again before more is received where received bytes are left. A write sends
 * at most one WRTE, whose length is the answer's first value, and is called again with the rest. A program that only wants to
 * take packets calls adb_dispatch. While an open is pending, only adb_open goes on with it: any other call that is
 * not refused by 8, 9 or 13 drops it.
 *
 * A channel that the device opens is queued. adb_take_front takes the first of the queue and tells its name, which is then
 * offered: decide by adb_accept or adb_reject, or put it back by adb_let_go, before any other call. Any other call that is not
 * refused by 8, 9 or 13 ends the offer, adb_take_front too; the open is then gone, and the device was told nothing.
 */
#ifndef ADB_H
#define ADB_H

#include <stddef.h>
#include <stdint.h>

/* ---- limits, which adb_make tests; docs/LIMITS.md says how to choose them */

#define ADB_MAX_CHANNELS 64
#define ADB_MAX_PAYLOAD 1048576
#define ADB_MAX_RX_PER_CHANNEL 16777216
#define ADB_MAX_INITIAL_ACK_BYTES 2147483647

/* ---- answers */

#define ADB_DONE 0      /* the call reached its end */
#define ADB_WAITING 100 /* the frame is incomplete (0 used), or one packet was handled and the call's end has not come */
#define ADB_NONE 101    /* adb_take: nothing is buffered; adb_take_front: no open is queued; the verdicts: none is offered;
                         * adb_stretch: no such refusal */
#define ADB_CLOSED 102  /* adb_numbers: the numbers of a channel that the device closed */

/* Refusals. Nothing is used, written or changed unless said. A read may have written its channel's OKAY first. */
#define ADB_REFUSED_INVALID_COMMAND 1      /* the header's command is none of the eight; value 0 is the word */
#define ADB_REFUSED_INVALID_MAGIC 2        /* the header's magic is not its command with all bits flipped */
#define ADB_REFUSED_PAYLOAD_TOO_LARGE 3    /* length over max_payload; or a destination over 1 MiB, its number spent */
#define ADB_REFUSED_INVALID_CHECKSUM 4     /* the payload's sum is another; frame used */
#define ADB_REFUSED_SHORT_READY_PAYLOAD 5  /* delayed: an OKAY under 4 bytes; frame used, an open's own is answered CLSE */
#define ADB_REFUSED_UNEXPECTED_COMMAND 6   /* a WRTE for the pending open; frame used, CLSE written, nothing opened */
#define ADB_REFUSED_BAD_CONFIG 7           /* adb_make, adb_make_from_cnxn: a limit is broken */
#define ADB_REFUSED_STORE_SHORT 8          /* a store, the state or the answer is under its length */
#define ADB_REFUSED_OUT_SHORT 9            /* out is under ADB_OUT_MIN, or too short for the OPEN or WRTE due */
#define ADB_REFUSED_CHANNEL_CLOSED 10      /* no such channel, or closed; a CLSE that says so is used and closes it */
#define ADB_REFUSED_CHANNEL_RX_OVERFLOW 11 /* a WRTE over what the channel may hold; frame used, its bytes are dropped */
#define ADB_REFUSED_NO_FREE_CHANNELS 12    /* every slot is filled; adb_accept wrote a CLSE then, and the open is gone */
#define ADB_REFUSED_BROKEN_STATE 13        /* the state's bytes are not those of a connection */
#define ADB_REFUSED_LONG_READY_PAYLOAD 20  /* delayed: an OKAY over 4 bytes; as 5 */
#define ADB_REFUSED_NEGATIVE_CREDIT 21     /* delayed: an OKAY whose credit is below 0; as 5 */

/* ---- lengths */

#define ADB_STATE_LEN 4474
#define ADB_ANSWER_LEN 48
#define ADB_HEADER_LEN 24 /* of a frame */
#define ADB_OUT_MIN 56    /* of an outgoing buffer */

/* Most bytes that one channel holds unread. */
static inline size_t adb_rx_cap(uint32_t max_payload, size_t max_rx_per_channel)
{
    return max_rx_per_channel > max_payload ? max_rx_per_channel : (size_t)max_payload;
}

/* Bytes of the receive store; a channel's share is twice its cap. For limits that adb_make accepts. */
static inline size_t adb_rx_store_len(size_t channels, uint32_t max_payload, size_t max_rx_per_channel)
{
    return channels * 2 * adb_rx_cap(max_payload, max_rx_per_channel);
}

/* Bytes of the open store; a share is max_payload. For limits that adb_make accepts. */
static inline size_t adb_open_store_len(size_t channels, uint32_t max_payload)
{
    return channels * (size_t)max_payload;
}

/* Bytes of an outgoing buffer that has room for any call whose destination or data is this long. */
static inline size_t adb_out_len(size_t payload)
{
    return payload + ADB_HEADER_LEN > ADB_OUT_MIN ? payload + ADB_HEADER_LEN : (size_t)ADB_OUT_MIN;
}

/* ---- the answer: six little-endian numbers of 64 bits */

#define ADB_ANSWER_USED 0
#define ADB_ANSWER_WRITTEN 8
#define ADB_ANSWER_VALUES 16 /* four of them, 0 where a call has none */

static inline uint32_t adb_le32(const uint8_t *p)
{
    return (uint32_t)p[0] | (uint32_t)p[1] << 8 | (uint32_t)p[2] << 16 | (uint32_t)p[3] << 24;
}

static inline uint64_t adb_le64(const uint8_t *p)
{
    return (uint64_t)adb_le32(p) | (uint64_t)adb_le32(p + 4) << 32;
}

/* Bytes of `received` that were used. */
static inline uint64_t adb_answer_used(const uint8_t *answer)
{
    return adb_le64(answer + ADB_ANSWER_USED);
}

/* Bytes of frames at the start of `out`. */
static inline uint64_t adb_answer_written(const uint8_t *answer)
{
    return adb_le64(answer + ADB_ANSWER_WRITTEN);
}

/* Value i, 0 to 3. */
static inline uint64_t adb_answer_value(const uint8_t *answer, int i)
{
    return adb_le64(answer + ADB_ANSWER_VALUES + 8 * i);
}

/* adb_open, adb_accept, ADB_DONE: the channel's place and our number for it, by which the other calls name it. */
static inline size_t adb_answer_slot(const uint8_t *answer)
{
    return (size_t)adb_answer_value(answer, 0);
}

static inline uint32_t adb_answer_local(const uint8_t *answer)
{
    return (uint32_t)adb_answer_value(answer, 1);
}

/* ADB_DONE: bytes handed over (adb_take, adb_read), sent (adb_write) or acknowledged (adb_settle; 0 for none). */
static inline size_t adb_answer_length(const uint8_t *answer)
{
    return (size_t)adb_answer_value(answer, 0);
}

/* ADB_REFUSED_INVALID_COMMAND: the word. */
static inline uint32_t adb_answer_word(const uint8_t *answer)
{
    return (uint32_t)adb_answer_value(answer, 0);
}

/* adb_numbers, ADB_DONE or ADB_CLOSED: what the channel's OKAYs allowed the device, which stops at UINT64_MAX and is 0 where
 * acknowledgements are not delayed; bytes waiting to be read; bytes that the device has had no OKAY for; and bytes that may still be
 * sent. */
static inline uint64_t adb_answer_acked_total(const uint8_t *answer)
{
    return adb_answer_value(answer, 0);
}
static inline uint64_t adb_answer_buffered(const uint8_t *answer)
{
    return adb_answer_value(answer, 1);
}
static inline uint64_t adb_answer_unacked(const uint8_t *answer)
{
    return adb_answer_value(answer, 2);
}
static inline int64_t adb_answer_send_budget(const uint8_t *answer)
{
    const uint64_t v = adb_answer_value(answer, 3);
    return v >> 63 ? -(int64_t)(UINT64_MAX - v) - 1 : (int64_t)v;
}

/* adb_take_front, ADB_DONE: the device's number and credit, where in `opens` its destination is, and how long it is. */
static inline uint32_t adb_answer_remote(const uint8_t *answer)
{
    return (uint32_t)adb_answer_value(answer, 0);
}

static inline uint32_t adb_answer_credit(const uint8_t *answer)
{
    return (uint32_t)adb_answer_value(answer, 1);
}

static inline size_t adb_answer_destination(const uint8_t *answer)
{
    return (size_t)adb_answer_value(answer, 2);
}

static inline size_t adb_answer_destination_len(const uint8_t *answer)
{
    return (size_t)adb_answer_value(answer, 3);
}

/* adb_stretch, ADB_DONE: the first frame's place among those received, from 0, and how many frames. */
static inline size_t adb_answer_first(const uint8_t *answer)
{
    return (size_t)adb_answer_value(answer, 0);
}

static inline size_t adb_answer_count(const uint8_t *answer)
{
    return (size_t)adb_answer_value(answer, 1);
}

/* ---- the state's fields (docs/LAYOUT.md), for programs that look; bytes of each in the comment. Only calls change them. */

#define ADB_STATE_CHANNELS 0            /* 8 */
#define ADB_STATE_MAX_RX_PER_CHANNEL 8  /* 8 */
#define ADB_STATE_PENDING_SLOT 16       /* 8: the place of the last open of ours */
#define ADB_STATE_QUEUED 24             /* 8: how many opens of the device's are queued */
#define ADB_STATE_MAX_PAYLOAD 32        /* 4: as configured */
#define ADB_STATE_INITIAL_ACK_BYTES 36  /* 4 */
#define ADB_STATE_DEVICE_MAX_PAYLOAD 40 /* 4: as negotiated */
#define ADB_STATE_VERSION 44            /* 4: as negotiated */
#define ADB_STATE_NEXT_LOCAL 48         /* 4 */
#define ADB_STATE_PENDING_LOCAL 52      /* 4: its local number */
#define ADB_STATE_DELAYED 56            /* 1: 1 in delayed mode */
#define ADB_STATE_PENDING 57            /* 1: what is pending */
#define ADB_PENDING_NOTHING 0
#define ADB_PENDING_OPEN 1  /* an open of ours */
#define ADB_PENDING_OFFER 2 /* an open of the device's that was taken: its entry stands behind those that are queued */

/* Slot i, 0 to 63, begins at ADB_STATE_SLOT(i); its fields count from there. */
#define ADB_STATE_SLOTS 58
#define ADB_STATE_SLOT_LEN 45
#define ADB_STATE_SLOT(i) (ADB_STATE_SLOTS + (size_t)(i) * ADB_STATE_SLOT_LEN)
#define ADB_STATE_SLOT_LOCAL 0     /* 4 */
#define ADB_STATE_SLOT_REMOTE 4    /* 4 */
#define ADB_STATE_SLOT_BUDGET 8    /* 8: two's complement */
#define ADB_STATE_SLOT_UNACKED 16  /* 8 */
#define ADB_STATE_SLOT_ACKED_TOTAL 24 /* 8: what our OKAYs allowed the device; stays when the channel is closed */
#define ADB_STATE_SLOT_SETTLED 32  /* 4: bytes set aside */
#define ADB_STATE_SLOT_HEAD 36     /* 4: where the buffered bytes begin in the share */
#define ADB_STATE_SLOT_BUFFERED 40 /* 4 */
#define ADB_STATE_SLOT_TAG 44      /* 1: the flags below; bits 3, 4: state (0 opening, 1 open, 2 closed); bits 5 to 7: fault */
#define ADB_TAG_FILLED 1
#define ADB_TAG_HAS_REMOTE 2
#define ADB_TAG_WRTE_ACKED 4
#define ADB_TAG_STATE_SHIFT 3
#define ADB_TAG_FAULT_SHIFT 5

/* Queued open i of the device's, 0 to 63, begins at ADB_STATE_QUEUED_OPEN(i). */
#define ADB_STATE_QUEUE 2938
#define ADB_STATE_QUEUED_LEN 24
#define ADB_STATE_QUEUED_OPEN(i) (ADB_STATE_QUEUE + (size_t)(i) * ADB_STATE_QUEUED_LEN)
#define ADB_STATE_QUEUED_REMOTE 0 /* 4 */
#define ADB_STATE_QUEUED_CREDIT 4 /* 4 */
#define ADB_STATE_QUEUED_SHARE 8  /* 8: which max_payload bytes of the open store */
#define ADB_STATE_QUEUED_SIZE 16  /* 8: the destination's length */

#ifdef __cplusplus
extern "C" {
#endif

/* Fills the state of a connection on which nothing has happened. version and device_max_payload are arg0 and arg1 of the
 * device's CNXN; the flags say who lists delayed acknowledgement (0 no, anything else yes), and the mode is delayed where
 * both do. Answers ADB_DONE, ADB_REFUSED_BAD_CONFIG, or ADB_REFUSED_STORE_SHORT for a short state. */
uint32_t adb_make(uint8_t *state, size_t state_len, size_t channels, uint32_t max_payload, size_t max_rx_per_channel,
                  uint32_t initial_ack_bytes, uint32_t version, uint32_t device_max_payload, uint8_t host_delayed_ack,
                  uint8_t device_delayed_ack);

/* The same from the device's CNXN itself: version, device_max_payload and identity are its arg0, arg1 and payload. The device
 * lists delayed acknowledgement where its identity text has the property `features` with delayed_ack in its list: "features="
 * begins the text after the second colon or follows a semicolon, and the list ends at the next semicolon. */
uint32_t adb_make_from_cnxn(uint8_t *state, size_t state_len, size_t channels, uint32_t max_payload, size_t max_rx_per_channel,
                            uint32_t initial_ack_bytes, uint32_t version, uint32_t device_max_payload,
                            const uint8_t *identity, size_t identity_len, uint8_t host_delayed_ack);

/* Opens a channel: the first call writes the OPEN, takes no packet and leaves it pending; later ones take a packet each, and
 * do not look at the destination. ADB_DONE: slot and local number. A refusal ends it, unless it is 8, 9 or 13. */
uint32_t adb_open(uint8_t *state, size_t state_len, uint8_t *rx, size_t rx_len, uint8_t *opens, size_t opens_len,
                  const uint8_t *destination, size_t destination_len, const uint8_t *received, size_t received_len,
                  uint8_t *out, size_t out_len, uint8_t *answer, size_t answer_len);

/* Takes one packet, for whatever channel it is. */
uint32_t adb_dispatch(uint8_t *state, size_t state_len, uint8_t *rx, size_t rx_len, uint8_t *opens, size_t opens_len,
                      const uint8_t *received, size_t received_len, uint8_t *out, size_t out_len, uint8_t *answer,
                      size_t answer_len);

/* First half of a read that takes no packet: sets up to `want` buffered bytes aside and writes the OKAY that is due for
 * them. ADB_DONE: length acknowledged. */
uint32_t adb_settle(uint8_t *state, size_t state_len, const uint8_t *rx, size_t rx_len, const uint8_t *opens, size_t opens_len,
                    size_t slot, uint32_t local, size_t want, uint8_t *out, size_t out_len, uint8_t *answer,
                    size_t answer_len);

/* Second half: hands buffered bytes over, those set aside or, where none are, all that fit. ADB_DONE: length. ADB_NONE:
 * nothing is buffered. Bytes that are taken without settling are never acknowledged. */
uint32_t adb_take(uint8_t *state, size_t state_len, const uint8_t *rx, size_t rx_len, const uint8_t *opens, size_t opens_len,
                  size_t slot, uint32_t local, uint8_t *buf, size_t buf_len, uint8_t *answer, size_t answer_len);

/* Reads from a channel: buffered bytes if there are any, else takes one packet. ADB_DONE: length handed over. A closed
 * channel is read to its end before it is refused. */
uint32_t adb_read(uint8_t *state, size_t state_len, uint8_t *rx, size_t rx_len, uint8_t *opens, size_t opens_len, size_t slot,
                  uint32_t local, const uint8_t *received, size_t received_len, uint8_t *out, size_t out_len, uint8_t *buf,
                  size_t buf_len, uint8_t *answer, size_t answer_len);

/* Writes to a channel: one WRTE if the device's credit allows one, else takes one packet, and sends if that was the credit.
 * ADB_DONE: length sent, which may be less than the data's. No data: ADB_DONE at once. */
uint32_t adb_write(uint8_t *state, size_t state_len, uint8_t *rx, size_t rx_len, uint8_t *opens, size_t opens_len, size_t slot,
                   uint32_t local, const uint8_t *data, size_t data_len, const uint8_t *received, size_t received_len,
                   uint8_t *out, size_t out_len, uint8_t *answer, size_t answer_len);

/* Writes a CLSE and empties the slot; bytes that were not read are gone. */
uint32_t adb_close(uint8_t *state, size_t state_len, const uint8_t *rx, size_t rx_len, const uint8_t *opens, size_t opens_len,
                   size_t slot, uint32_t local, uint8_t *out, size_t out_len, uint8_t *answer, size_t answer_len);

/* Takes the device's OPEN that was queued first. ADB_DONE: remote number, credit, and where in `opens` its destination is,
 * which stays there until a later call receives another OPEN. The open is offered then, until the next call: decide or let
 * go before any other. ADB_NONE: none is queued. */
uint32_t adb_take_front(uint8_t *state, size_t state_len, const uint8_t *rx, size_t rx_len, const uint8_t *opens,
                        size_t opens_len, uint8_t *answer, size_t answer_len);

/* A channel's numbers, for a screen: nothing changes, and a pending open stays. ADB_DONE: it is open. ADB_CLOSED: the device closed
 * it. Both: what our OKAYs allowed the device, bytes buffered, bytes unacknowledged, the send budget. */
uint32_t adb_numbers(const uint8_t *state, size_t state_len, const uint8_t *rx, size_t rx_len, const uint8_t *opens, size_t opens_len,
                     size_t slot, uint32_t local, uint8_t *answer, size_t answer_len);

/* Takes the channel that is offered: writes an OKAY, which carries our opening credit in delayed mode, and fills the lowest
 * empty slot; the open's credit is what may be sent. ADB_DONE: slot and local number, as adb_open's.
 * ADB_REFUSED_NO_FREE_CHANNELS: no slot is empty, a CLSE is written, and the open is gone. ADB_NONE: none is offered. */
uint32_t adb_accept(uint8_t *state, size_t state_len, const uint8_t *rx, size_t rx_len, const uint8_t *opens, size_t opens_len,
                    uint8_t *out, size_t out_len, uint8_t *answer, size_t answer_len);

/* Refuses the open that is offered: writes a CLSE. ADB_NONE: none is offered. */
uint32_t adb_reject(uint8_t *state, size_t state_len, const uint8_t *rx, size_t rx_len, const uint8_t *opens, size_t opens_len,
                    uint8_t *out, size_t out_len, uint8_t *answer, size_t answer_len);

/* Puts the open that is offered back to the head of the queue. ADB_NONE: none is offered. */
uint32_t adb_let_go(uint8_t *state, size_t state_len, const uint8_t *rx, size_t rx_len, const uint8_t *opens, size_t opens_len,
                    uint8_t *answer, size_t answer_len);

/* Only looks. The first 32 frames of `received` are dispatched, one a call, from a copy of the state, up to the first refusal. Where
 * that is 1 to 5, 11, 20 or 21, the fewest neighbouring frames are found, none past the refused one, that dispatched from the
 * state as it is end in the same number; of equally few the earliest. ADB_DONE: their first one's place and their count. ADB_NONE:
 * the frames end in no such refusal, or in an incomplete frame. State and stores stay as they are, and nothing that is pending ends. The
 * work is done in spare stores as long as the stores, which may hold anything and then hold anything; one that is shorter gives
 * ADB_REFUSED_STORE_SHORT. A call dispatches at most 32 × 33 frames, and has the copy of the state on the stack. */
uint32_t adb_stretch(const uint8_t *state, size_t state_len, const uint8_t *rx, size_t rx_len, const uint8_t *opens,
                     size_t opens_len, const uint8_t *received, size_t received_len, uint8_t *spare_rx, size_t spare_rx_len,
                     uint8_t *spare_opens, size_t spare_opens_len, uint8_t *answer, size_t answer_len);

#ifdef __cplusplus
}
#endif

#endif
