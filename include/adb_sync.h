/* Vedunka: the messages of AOSP's SYNC.TXT, by which files travel over a channel to "sync:". C99 and C++.
 *
 * A reader and a writer, in a library of their own (libadb_sync.a) that works with or without adb.h's; each a second time for
 * the replies with AOSP's second stat layout, and conversion between the two layouts. They know nothing of channels: a program
 * hands them the bytes that adb_read gave it, and writes what they made by adb_write. No call waits, allocates or keeps
 * anything between calls.
 *
 * A message is an id of four letters, numbers of 32 bits or more, and for some a text or data. The caller names the exchange
 * that it reads or writes, since what stands behind an id depends on it:
 *
 *   exchange                 ids                            numbers                     text
 *   ADB_SYNC_REQUESTS        LIST, RECV, STAT, LIS2, STA2   -                           a path
 *                            SEND                           -                           a path, a comma, the mode in decimal
 *                            DATA                           -                           the file's next bytes
 *                            DONE                           the file's time             -
 *                            QUIT                           not looked at               -
 *   ADB_SYNC_LIST_REPLIES    DENT                           mode, size, time            a name
 *                            DONE                           four, not looked at         -
 *   ADB_SYNC_STAT_REPLIES    STAT                           mode, size, time            -
 *   ADB_SYNC_RECV_REPLIES    DATA                           -                           the file's next bytes
 *                            DONE                           not looked at               -
 *                            FAIL                           -                           why
 *   ADB_SYNC_SEND_REPLIES    OKAY                           not looked at               -
 *                            FAIL                           -                           why
 *   ADB_SYNC_LIST_V2_REPLIES DNT2                           a stat of the second layout a name
 *                            DONE                           that and one, not looked at -
 *   ADB_SYNC_STAT_V2_REPLIES STA2                           a stat of the second layout -
 *
 * The last two exchanges have more numbers than the others, and are read and written by adb_sync_read_v2 and
 * adb_sync_write_v2 alone; to adb_sync_read and adb_sync_write they are no exchanges. The second stat layout has error (0, or
 * why there is no file), device, inode, mode, links, owner, group, size, and three times: of the last access, of the last
 * change of the contents, of the last change of the status. Device, inode and size have 64 bits, a time 64 with a sign.
 *
 * A text's length is not among the numbers. Numbers that are not looked at by either end are read and written all the same.
 * Sizes and times have 32 bits but in the second stat layout; a time is in seconds since 1970. A text may hold any bytes; data
 * has at most ADB_SYNC_DATA_MAX bytes, other texts what a length of 32 bits can say.
 *
 * Buffers
 *   - Every pointer is followed by its length in bytes. An empty buffer may be null.
 *   - No two buffers of one call may overlap.
 *   - A buffer that is longer than needed is fine; the bytes past the need keep their values.
 *   - `received`: what has arrived and has not been used yet, from the first byte of a message on. It need only hold what is
 *     there, cut anywhere: a part of a message gives ADB_SYNC_WAITING, and the next call is lent the same bytes and more.
 *   - `out`: after ADB_SYNC_MESSAGE the message stands at its start; after a refusal no byte of it has changed.
 *
 * Reading what a RECV brings, where channel_read waits for at least one byte of the channel:
 *
 *     uint8_t in[ADB_SYNC_HEAD_MAX + ADB_SYNC_DATA_MAX], answer[ADB_SYNC_ANSWER_LEN];
 *     size_t have = 0;
 *     for (;;) {
 *         uint32_t said = adb_sync_read(ADB_SYNC_RECV_REPLIES, in, have, answer, sizeof answer);
 *         if (said == ADB_SYNC_WAITING && have < sizeof in) {
 *             have += channel_read(in + have, sizeof in - have);
 *             continue;
 *         }
 *         if (said != ADB_SYNC_MESSAGE || adb_sync_id(answer) != ADB_SYNC_ID_DATA)
 *             break;                                               // DONE, FAIL, refused, or a text too long for `in`
 *         consume(in + adb_sync_at(answer), adb_sync_length(answer));
 *         have -= adb_sync_used(answer);
 *         memmove(in, in + adb_sync_used(answer), have);
 *     }
 */
#ifndef ADB_SYNC_H
#define ADB_SYNC_H

#include <stddef.h>
#include <stdint.h>

/* ---- exchanges */

#define ADB_SYNC_REQUESTS 0
#define ADB_SYNC_LIST_REPLIES 1
#define ADB_SYNC_STAT_REPLIES 2
#define ADB_SYNC_RECV_REPLIES 3
#define ADB_SYNC_SEND_REPLIES 4
#define ADB_SYNC_LIST_V2_REPLIES 5 /* of adb_sync_read_v2 and adb_sync_write_v2 */
#define ADB_SYNC_STAT_V2_REPLIES 6

/* ---- ids: their four letters, as a little-endian number */

#define ADB_SYNC_ID_LIST 0x5453494cu
#define ADB_SYNC_ID_RECV 0x56434552u
#define ADB_SYNC_ID_SEND 0x444e4553u
#define ADB_SYNC_ID_STAT 0x54415453u
#define ADB_SYNC_ID_DATA 0x41544144u
#define ADB_SYNC_ID_DONE 0x454e4f44u
#define ADB_SYNC_ID_QUIT 0x54495551u
#define ADB_SYNC_ID_DENT 0x544e4544u
#define ADB_SYNC_ID_OKAY 0x59414b4fu
#define ADB_SYNC_ID_FAIL 0x4c494146u
#define ADB_SYNC_ID_LIS2 0x3253494cu
#define ADB_SYNC_ID_STA2 0x32415453u
#define ADB_SYNC_ID_DNT2 0x32544e44u

/* ---- answers, of adb.h's numbers */

#define ADB_SYNC_MESSAGE 0   /* a message was read or written, or a stat converted */
#define ADB_SYNC_WAITING 100 /* a read: the message is not all there */

/* Refusals. Nothing is used or written. */
#define ADB_SYNC_REFUSED_STORE_SHORT 8     /* the answer is under its length; it is not written either */
#define ADB_SYNC_REFUSED_OUT_SHORT 9       /* a write: out is too short, or the text is longer than its length can say */
#define ADB_SYNC_REFUSED_INVALID_ID 14     /* the exchange has no such id, or there is no such exchange */
#define ADB_SYNC_REFUSED_DATA_TOO_LARGE 15 /* data over ADB_SYNC_DATA_MAX */
#define ADB_SYNC_REFUSED_OUT_OF_RANGE 16   /* adb_sync_narrow: a size of 2^32 or more, or a time negative or that large */
#define ADB_SYNC_REFUSED_STAT_ERROR 17     /* adb_sync_narrow: the stat has an error; tested before 16 */

/* ---- lengths */

#define ADB_SYNC_DATA_MAX 65536       /* of one DATA's data */
#define ADB_SYNC_HEAD_MAX 20          /* most bytes ahead of a text: a message with its text fits in these and the text's */
#define ADB_SYNC_HEAD_V2_MAX 76       /* the same, with the second stat layout */
#define ADB_SYNC_ANSWER_LEN 64        /* of adb_sync_read's answer, and of adb_sync_narrow's */
#define ADB_SYNC_ANSWER_V2_LEN 128    /* of adb_sync_read_v2's answer, and of adb_sync_widen's */
#define ADB_SYNC_WRITE_ANSWER_LEN 8   /* of a write's; a read's will do */

/* ---- the answer: little-endian numbers of 64 bits, eight of a read, sixteen of adb_sync_read_v2 and one of a write. All are 0
 * where there is no message. */

static inline uint64_t adb_sync_number(const uint8_t *answer, int i)
{
    uint64_t n = 0;
    int k;
    for (k = 7; k >= 0; k--) n = n << 8 | answer[8 * i + k];
    return n;
}

/* A read: bytes of `received` that the message takes with its text. */
static inline size_t adb_sync_used(const uint8_t *answer)
{
    return (size_t)adb_sync_number(answer, 0);
}

/* A read: where in `received` the text begins, and its length, 0 for a message without one. */
static inline size_t adb_sync_at(const uint8_t *answer)
{
    return (size_t)adb_sync_number(answer, 1);
}

static inline size_t adb_sync_length(const uint8_t *answer)
{
    return (size_t)adb_sync_number(answer, 2);
}

/* A read: the id. */
static inline uint32_t adb_sync_id(const uint8_t *answer)
{
    return (uint32_t)adb_sync_number(answer, 3);
}

/* adb_sync_read: number i, 0 to 3, in the order of the table; 0 where the message has fewer. */
static inline uint32_t adb_sync_value(const uint8_t *answer, int i)
{
    return (uint32_t)adb_sync_number(answer, 4 + i);
}

/* adb_sync_read_v2 and adb_sync_widen: the stat. */
typedef struct adb_sync_stat_v2 {
    uint64_t dev, ino, size;
    int64_t atime, mtime, ctime; /* of the last access, change of the contents, change of the status */
    uint32_t error, mode, nlink, uid, gid;
} adb_sync_stat_v2;

static inline int64_t adb_sync_time(const uint8_t *answer, int i)
{
    const uint64_t n = adb_sync_number(answer, i);
    return n >> 63 ? -1 - (int64_t)~n : (int64_t)n;
}

static inline adb_sync_stat_v2 adb_sync_stat(const uint8_t *answer)
{
    adb_sync_stat_v2 s;
    s.error = (uint32_t)adb_sync_number(answer, 4);
    s.dev = adb_sync_number(answer, 5);
    s.ino = adb_sync_number(answer, 6);
    s.mode = (uint32_t)adb_sync_number(answer, 7);
    s.nlink = (uint32_t)adb_sync_number(answer, 8);
    s.uid = (uint32_t)adb_sync_number(answer, 9);
    s.gid = (uint32_t)adb_sync_number(answer, 10);
    s.size = adb_sync_number(answer, 11);
    s.atime = adb_sync_time(answer, 12);
    s.mtime = adb_sync_time(answer, 13);
    s.ctime = adb_sync_time(answer, 14);
    return s;
}

/* adb_sync_read_v2: the number of a DONE where a DNT2 has the length of its name, 0 of the others. */
static inline uint32_t adb_sync_last(const uint8_t *answer)
{
    return (uint32_t)adb_sync_number(answer, 15);
}

/* A write: bytes written to the start of `out`. */
static inline size_t adb_sync_written(const uint8_t *answer)
{
    return (size_t)adb_sync_number(answer, 0);
}

#ifdef __cplusplus
extern "C" {
#endif

/* The message that `received` begins with. Answers ADB_SYNC_MESSAGE, ADB_SYNC_WAITING, or a refusal: 8 first; 14 once 4 bytes
 * are here; 15 once 8 are. A refusal stays whatever arrives behind: nothing more of the exchange can be read. */
uint32_t adb_sync_read(uint32_t exchange, const uint8_t *received, size_t received_len, uint8_t *answer, size_t answer_len);

/* Writes a message with its text to the start of `out`. a, b, c, d are the message's numbers in the order of the table; those
 * that it has not are not looked at. Answers ADB_SYNC_MESSAGE or a refusal: 8 first, then 14, 15, 9. A text for a message that
 * has none is refused by 9. */
uint32_t adb_sync_write(uint32_t exchange, uint32_t id, uint32_t a, uint32_t b, uint32_t c, uint32_t d, const uint8_t *text,
                        size_t text_len, uint8_t *out, size_t out_len, uint8_t *answer, size_t answer_len);

/* adb_sync_read for the exchanges of the second stat layout, with an answer of ADB_SYNC_ANSWER_V2_LEN bytes. */
uint32_t adb_sync_read_v2(uint32_t exchange, const uint8_t *received, size_t received_len, uint8_t *answer, size_t answer_len);

/* adb_sync_write for the exchanges of the second stat layout. `last` is a DONE's, and not looked at for the others. */
uint32_t adb_sync_write_v2(uint32_t exchange, uint32_t id, uint32_t error, uint64_t dev, uint64_t ino, uint32_t mode,
                           uint32_t nlink, uint32_t uid, uint32_t gid, uint64_t size, int64_t atime, int64_t mtime, int64_t ctime,
                           uint32_t last, const uint8_t *text, size_t text_len, uint8_t *out, size_t out_len, uint8_t *answer,
                           size_t answer_len);

/* A stat of the first layout as one of the second, with 0 for what the first has not: adb_sync_stat reads it off the answer,
 * whose other numbers are 0. Answers 0, or 8 for an answer under ADB_SYNC_ANSWER_V2_LEN bytes. */
uint32_t adb_sync_widen(uint32_t mode, uint32_t size, uint32_t mtime, uint8_t *answer, size_t answer_len);

/* A stat of the second layout as one of the first, from the numbers of it that matter; mtime is the contents' time. Mode, size
 * and time are values 0 to 2 of the answer, whose other numbers are 0, as all are after a refusal. Answers 0, or a refusal: 8
 * for an answer under ADB_SYNC_ANSWER_LEN bytes, 17, 16. */
uint32_t adb_sync_narrow(uint32_t error, uint32_t mode, uint64_t size, int64_t mtime, uint8_t *answer, size_t answer_len);

#ifdef __cplusplus
}
#endif

#endif
