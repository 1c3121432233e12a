/* Vedunka: captures that Wireshark and other viewers open: classic pcap files, version 2.4, little-endian, times in microseconds,
 * link type 147 (the first of those left to private use), one record a frame. C99 and C++.
 *
 * Four calls, in a library of their own (libadb_pcap.a) that works with or without adb.h's. A program that logs what it moves writes
 * the header once, and a record for each frame it receives or sends, at the time it gives. No call waits, allocates or keeps
 * anything between calls; files are the program's. Which way a frame went stands in no record: a file for each direction tells.
 *
 * Buffers
 *   - Every pointer is followed by its length in bytes. An empty buffer may be null.
 *   - No two buffers of one call may overlap.
 *   - A buffer that is longer than needed is fine; the bytes past the need keep their values.
 *   - `received`: what has been read of a file and has not been used yet, from the header or a record's first byte on. It need only
 *     hold what is there, cut anywhere: a part gives ADB_PCAP_WAITING, and the next call is lent the same bytes and more.
 *   - `out`: after ADB_PCAP_DONE the header or the record stands at its start; after a refusal no byte of it has changed.
 *
 * Reading a file with frames up to 65,536 bytes, where file_read gives what there is to read, and 0 at the end:
 *
 *     uint8_t in[ADB_PCAP_RECORD_LEN + 65536], answer[ADB_PCAP_ANSWER_LEN];
 *     size_t have = file_read(in, ADB_PCAP_HEADER_LEN), more = 1;
 *     if (adb_pcap_read_header(in, have) != ADB_PCAP_DONE)
 *         return;                                                  // another kind of file
 *     for (have = 0; more;) {
 *         uint32_t said = adb_pcap_read_record(in, have, answer, sizeof answer);
 *         if (said == ADB_PCAP_WAITING && have < sizeof in) {
 *             more = file_read(in + have, sizeof in - have);
 *             have += more;
 *             continue;
 *         }
 *         if (said != ADB_PCAP_DONE)
 *             break;                                               // refused, or a frame too long for `in`
 *         consume(in + ADB_PCAP_RECORD_LEN, adb_pcap_length(answer));
 *         have -= adb_pcap_used(answer);
 *         memmove(in, in + adb_pcap_used(answer), have);
 *     }
 */
#ifndef ADB_PCAP_H
#define ADB_PCAP_H

#include <stddef.h>
#include <stdint.h>

/* ---- answers, of adb.h's numbers */

#define ADB_PCAP_DONE 0      /* a header or a record was read or written */
#define ADB_PCAP_WAITING 100 /* a read: what is due is not all there */

/* Refusals. Nothing is used or written. */
#define ADB_PCAP_REFUSED_STORE_SHORT 8     /* the answer is under its length; it is not written either */
#define ADB_PCAP_REFUSED_OUT_SHORT 9       /* a write: out is too short */
#define ADB_PCAP_REFUSED_INVALID_HEADER 22 /* another file header than the one that adb_pcap_write_header writes */
#define ADB_PCAP_REFUSED_INVALID_LENGTH 23 /* a frame over ADB_PCAP_SNAP_LEN; read: or a record that does not keep all of it */

/* ---- lengths */

#define ADB_PCAP_HEADER_LEN 24     /* of a file's header */
#define ADB_PCAP_RECORD_LEN 16     /* of a record's header: the frame stands behind it */
#define ADB_PCAP_SNAP_LEN 1048600  /* longest frame of a record: a frame's header and its longest payload */
#define ADB_PCAP_ANSWER_LEN 32     /* of a read's answer */

/* ---- the answer of adb_pcap_read_record: four little-endian numbers of 64 bits. All are 0 where there is no record. */

static inline uint64_t adb_pcap_number(const uint8_t *answer, int i)
{
    uint64_t n = 0;
    int k;
    for (k = 7; k >= 0; k--) n = n << 8 | answer[8 * i + k];
    return n;
}

/* Bytes of `received` that the record takes with its frame. */
static inline size_t adb_pcap_used(const uint8_t *answer)
{
    return (size_t)adb_pcap_number(answer, 0);
}

/* The length of the frame, which begins ADB_PCAP_RECORD_LEN bytes into `received`. */
static inline size_t adb_pcap_length(const uint8_t *answer)
{
    return (size_t)adb_pcap_number(answer, 1);
}

/* Its time: seconds since 1970, and microseconds, as the record has them. */
static inline uint32_t adb_pcap_seconds(const uint8_t *answer)
{
    return (uint32_t)adb_pcap_number(answer, 2);
}

static inline uint32_t adb_pcap_micros(const uint8_t *answer)
{
    return (uint32_t)adb_pcap_number(answer, 3);
}

#ifdef __cplusplus
extern "C" {
#endif

/* Writes a file's header, ADB_PCAP_HEADER_LEN bytes, to the start of `out`. Answers ADB_PCAP_DONE or 9. */
uint32_t adb_pcap_write_header(uint8_t *out, size_t out_len);

/* Whether `received` begins with a file's header. Answers ADB_PCAP_DONE, ADB_PCAP_WAITING for under ADB_PCAP_HEADER_LEN bytes, or 22. */
uint32_t adb_pcap_read_header(const uint8_t *received, size_t received_len);

/* Writes a record, ADB_PCAP_RECORD_LEN + frame_len bytes, to the start of `out`. The times are not looked at. Answers ADB_PCAP_DONE, or
 * 23 and then 9. */
uint32_t adb_pcap_write_record(uint32_t seconds, uint32_t micros, const uint8_t *frame, size_t frame_len, uint8_t *out,
                               size_t out_len);

/* The record that `received` begins with. Answers ADB_PCAP_DONE, ADB_PCAP_WAITING, or a refusal: 8 first; 23 once
 * ADB_PCAP_RECORD_LEN bytes are here. A refusal stays whatever is read behind: nothing more of the file can be read. */
uint32_t adb_pcap_read_record(const uint8_t *received, size_t received_len, uint8_t *answer, size_t answer_len);

#ifdef __cplusplus
}
#endif

#endif
