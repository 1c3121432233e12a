/* Vedunka: the device's end of an ADB connection, as calls on lent memory, for a program that stands in for a device. C99 and C++.
 *
 * A library of its own (libadb_device.a), which works with or without adb.h's; the header includes adb.h for its limits, lengths,
 * answers and refusals. What adb.h says of buffers, answers and refusals holds here too, with "the host" for "the device", but for
 * what follows. The end that opens channels is the host; here they are called streams.
 *
 * Buffers
 *   - `state`: ADB_DEVICE_STATE_LEN bytes, filled by adb_device_make: a few of its own and our identity text, then a connection's
 *     state as adb.h has it (docs/LAYOUT.md). Nothing else of a connection is kept between calls but the receive store.
 *   - `rx`: the receive store, adb_rx_store_len bytes. `opens`: adb_open_store_len bytes, lent for their number alone; no call
 *     changes them.
 *   - `names`: the destinations that are served, one behind the other, each ended by a zero byte; bytes behind the last zero byte
 *     are no name. A string literal's own zero byte ends its last name. Any call may be lent another table.
 *   - `received`: as adb.h's. A payload over max_payload is refused by 3, that of the host's CNXN too, which is its text: some
 *     hundred bytes (246 of AOSP's adb 34.0.5).
 *   - `out`: at least ADB_OUT_MIN bytes; our CNXN needs ADB_HEADER_LEN and the text, a WRTE its payload and ADB_HEADER_LEN
 *     (adb_out_len). Where that is more than there is, 9 is answered, and nothing is used.
 *
 * What a call may change, and nothing else:
 *   adb_device_make      state
 *   adb_device_dispatch  state, rx, out, answer
 *   adb_device_read      state, rx, out, buf, answer
 *   adb_device_settle    state, out, answer
 *   adb_device_take      state, buf, answer
 *   adb_device_write     state, rx, out, answer
 *   adb_device_close     state, out, answer
 * Of `out` and `buf` only the bytes counted in the answer change.
 *
 * What a packet is to a device's end
 *   - Before the host's CNXN: adb_device_dispatch answers it by our CNXN (version 0x01000001, our max_payload, our text, with its
 *     check summed whatever the version) and says ADB_DEVICE_CONNECTED. Any other frame is used and ignored. Reads and writes look
 *     at no packet, and there is no stream yet.
 *   - Acknowledgement is delayed where both texts list it (adb_make_from_cnxn says when a text does).
 *   - A later CNXN, and an OPEN from number 0, are used and ignored.
 *   - An OPEN is taken by an OKAY if its destination, less one zero byte at the end, is a name of the table, if its arg1 fits the mode
 *     (not 0 where acknowledgement is delayed, else 0), and if a slot is empty. It then fills the lowest empty slot, and the call that
 *     met it says ADB_DEVICE_TAKEN, be it a dispatch, a read or a write. Else it is answered CLSE(0, its number), and the call says
 *     what it says of any packet that was handled: a dispatch ADB_DONE, a read and a write ADB_WAITING.
 *   - An OKAY, a WRTE or a CLSE whose arg1 is no open stream of ours is used and ignored.
 *   - All else is as at the host's end. A CLSE closes a stream, whose bytes can still be read, and which keeps its slot until
 *     adb_device_close.
 * A read or a write that hands over or sends without a packet does not look at one.
 *
 * Serving streams, where MAX_PAYLOAD is the max_payload that adb_device_make got, receive_some waits for at least one byte, begin
 * notes a stream and its name, and serve reads and writes what streams have and may send, lending no received bytes:
 *
 *     uint8_t in[ADB_HEADER_LEN + MAX_PAYLOAD];
 *     size_t have = 0;
 *     for (;;) {
 *         uint32_t said = adb_device_dispatch(state, sizeof state, rx, rx_len, opens, opens_len, names, names_len, in, have, out,
 *                                             sizeof out, answer, sizeof answer);
 *         size_t used = (size_t)adb_answer_used(answer);
 *         send_all(fd, out, (size_t)adb_answer_written(answer));
 *         have -= used;
 *         memmove(in, in + used, have);
 *         if (said == ADB_DEVICE_TAKEN)
 *             begin(adb_answer_slot(answer), adb_answer_local(answer), (const char *)names + adb_device_answer_name(answer));
 *         else if (said != ADB_DEVICE_CONNECTED && said != ADB_DONE && said != ADB_WAITING)
 *             break;                                               // refused: said is the reason
 *         serve();
 *         if (said == ADB_WAITING)
 *             have += receive_some(fd, in + have, sizeof in - have);
 *     }
 *
 * adb_numbers (libadb.a) may be lent the connection's part of the state, from ADB_DEVICE_STATE_CONNECTION on, and the stores: it then
 * tells a stream's numbers. No other call of adb.h should be.
 */
#ifndef ADB_DEVICE_H
#define ADB_DEVICE_H

#include "adb.h"

/* ---- answers, besides adb.h's ADB_DONE, ADB_WAITING and ADB_NONE */

#define ADB_DEVICE_TAKEN 103     /* an OPEN was taken: slot, our number, the host's number, the name's place in `names` */
#define ADB_DEVICE_CONNECTED 104 /* adb_device_dispatch: the host's CNXN was answered: version, maximum payload, delayed or not */

/* ---- lengths */

#define ADB_DEVICE_TEXT_MAX 4096 /* of an identity text */
#define ADB_DEVICE_STATE_LEN (ADB_DEVICE_STATE_CONNECTION + ADB_STATE_LEN)

/* ---- the answer; adb_answer_slot and adb_answer_local tell of ADB_DEVICE_TAKEN too */

/* ADB_DEVICE_TAKEN: the host's number for the stream. */
static inline uint32_t adb_device_answer_remote(const uint8_t *answer)
{
    return (uint32_t)adb_answer_value(answer, 2);
}

/* ADB_DEVICE_TAKEN: where in `names` the name begins; the first place, where it stands there twice. */
static inline size_t adb_device_answer_name(const uint8_t *answer)
{
    return (size_t)adb_answer_value(answer, 3);
}

/* ADB_DEVICE_CONNECTED: what both ends agree on: the version, the longest payload that we send, 1 if acknowledgement is delayed. */
static inline uint32_t adb_device_answer_version(const uint8_t *answer)
{
    return (uint32_t)adb_answer_value(answer, 0);
}

static inline uint32_t adb_device_answer_max_payload(const uint8_t *answer)
{
    return (uint32_t)adb_answer_value(answer, 1);
}

static inline int adb_device_answer_delayed(const uint8_t *answer)
{
    return adb_answer_value(answer, 2) != 0;
}

/* ---- the state's fields (docs/LAYOUT.md), for programs that look; bytes of each in the comment. Only calls change them. */

#define ADB_DEVICE_STATE_CONNECTED 0     /* 1: 1 once the host's CNXN was answered */
#define ADB_DEVICE_STATE_TEXT_LEN 1      /* 4 */
#define ADB_DEVICE_STATE_TEXT 5          /* ADB_DEVICE_TEXT_MAX, of which the text's length count */
#define ADB_DEVICE_STATE_CONNECTION 4101 /* ADB_STATE_LEN: a connection's state, fields as adb.h's from here on */

#ifdef __cplusplus
extern "C" {
#endif

/* Fills the state of a device's end that waits for the host's CNXN. The limits are adb_make's; text is the payload of our own CNXN,
 * as "device::ro.product.name=…;features=…", with no zero byte at its end. Answers ADB_DONE; ADB_REFUSED_STORE_SHORT for a short
 * state; then ADB_REFUSED_BAD_CONFIG for a broken limit or a text over ADB_DEVICE_TEXT_MAX bytes. */
uint32_t adb_device_make(uint8_t *state, size_t state_len, size_t channels, uint32_t max_payload, size_t max_rx_per_channel,
                         uint32_t initial_ack_bytes, const uint8_t *text, size_t text_len);

/* Takes one packet, whatever stream it is for. ADB_DEVICE_CONNECTED: it was the host's first CNXN, and is answered.
 * ADB_DEVICE_TAKEN: it was an OPEN, and is taken. */
uint32_t adb_device_dispatch(uint8_t *state, size_t state_len, uint8_t *rx, size_t rx_len, uint8_t *opens, size_t opens_len,
                             const uint8_t *names, size_t names_len, const uint8_t *received, size_t received_len, uint8_t *out,
                             size_t out_len, uint8_t *answer, size_t answer_len);

/* Reads from a stream: buffered bytes if there are any, else takes one packet. ADB_DONE: length handed over. A stream that the
 * host closed is read to its end before it is refused. */
uint32_t adb_device_read(uint8_t *state, size_t state_len, uint8_t *rx, size_t rx_len, uint8_t *opens, size_t opens_len,
                         const uint8_t *names, size_t names_len, size_t slot, uint32_t local, const uint8_t *received,
                         size_t received_len, uint8_t *out, size_t out_len, uint8_t *buf, size_t buf_len, uint8_t *answer,
                         size_t answer_len);

/* First half of a read that takes no packet, as adb_settle. ADB_DONE: length acknowledged. */
uint32_t adb_device_settle(uint8_t *state, size_t state_len, const uint8_t *rx, size_t rx_len, const uint8_t *opens,
                           size_t opens_len, size_t slot, uint32_t local, size_t want, uint8_t *out, size_t out_len,
                           uint8_t *answer, size_t answer_len);

/* Second half, as adb_take. ADB_DONE: length handed over. ADB_NONE: nothing is buffered. */
uint32_t adb_device_take(uint8_t *state, size_t state_len, const uint8_t *rx, size_t rx_len, const uint8_t *opens, size_t opens_len,
                         size_t slot, uint32_t local, uint8_t *buf, size_t buf_len, uint8_t *answer, size_t answer_len);

/* Writes to a stream: one WRTE if the host's credit allows one, else takes one packet, and sends if that was the credit.
 * ADB_DONE: length sent: the data's, or what the host's CNXN allows at once (at least 1), if that is less. Where acknowledgement is
 * delayed, a WRTE is sent while the credit is above 0 and is not cut to it, so that the credit may go below 0, as AOSP's own
 * sender lets it. AOSP's host takes no WRTE over the smaller of both ends' maximum payloads: lend no more data than max_payload
 * at a time. No data: ADB_DONE at once. */
uint32_t adb_device_write(uint8_t *state, size_t state_len, uint8_t *rx, size_t rx_len, uint8_t *opens, size_t opens_len,
                          const uint8_t *names, size_t names_len, size_t slot, uint32_t local, const uint8_t *data,
                          size_t data_len, const uint8_t *received, size_t received_len, uint8_t *out, size_t out_len,
                          uint8_t *answer, size_t answer_len);

/* Writes a CLSE and empties the slot; bytes that were not read are gone. */
uint32_t adb_device_close(uint8_t *state, size_t state_len, const uint8_t *rx, size_t rx_len, const uint8_t *opens,
                          size_t opens_len, size_t slot, uint32_t local, uint8_t *out, size_t out_len, uint8_t *answer,
                          size_t answer_len);

#ifdef __cplusplus
}
#endif

#endif
