/* Vedunka: the frames of AOSP's shell protocol, by which a program's output and its errors come apart over a channel to
 * "shell,v2:…". C99 and C++.
 *
 * Two calls, a reader and a writer, in a library of their own (libadb_shell.a) that works with or without adb.h's. They know
 * nothing of channels: a program hands them the bytes that adb_read gave it, and writes what they made by adb_write. No call
 * waits, allocates or keeps anything between calls.
 *
 * A frame is one byte of kind, the data's length in 32 bits, little-endian, and the data:
 *
 *   kind                      data                                                                     sent by
 *   ADB_SHELL_INPUT           bytes for the program's standard input                                   us
 *   ADB_SHELL_OUTPUT          bytes of its standard output                                             the device
 *   ADB_SHELL_ERRORS          bytes of its standard error                                              the device
 *   ADB_SHELL_EXIT            the exit code, one byte; more bytes are kept and not looked at           the device
 *   ADB_SHELL_CLOSE_INPUT     none: the standard input is to be closed                                 us
 *   ADB_SHELL_WINDOW_SIZE     the size of the window that the program runs in                          us
 *
 * Both calls take every kind, whichever end sends it. Data may hold any bytes; only an exit's may not be empty.
 *
 * Buffers
 *   - Every pointer is followed by its length in bytes. An empty buffer may be null.
 *   - No two buffers of one call may overlap.
 *   - A buffer that is longer than needed is fine; the bytes past the need keep their values.
 *   - `received`: what has arrived and has not been used yet, from the first byte of a frame on. It need only hold what is
 *     there, cut anywhere: a part of a frame gives ADB_SHELL_WAITING, and the next call is lent the same bytes and more.
 *     However the bytes are cut, the frames are the same. A frame's data is as long as its sender likes: a program that does
 *     not want to hold the whole of it gives up on a length that it has no room for.
 *   - `out`: after ADB_SHELL_FRAME the frame stands at its start; after a refusal no byte of it has changed.
 *
 * A program's output and errors up to its exit, where channel_read waits for at least one byte of the channel:
 *
 *     uint8_t in[ADB_SHELL_HEAD_LEN + DATA_MAX], answer[ADB_SHELL_ANSWER_LEN];
 *     size_t have = 0;
 *     for (;;) {
 *         uint32_t said = adb_shell_read(in, have, answer, sizeof answer);
 *         if (said == ADB_SHELL_WAITING && have < sizeof in) {
 *             have += channel_read(in + have, sizeof in - have);
 *             continue;
 *         }
 *         if (said != ADB_SHELL_FRAME)
 *             return -1;                                           // refused, or data over DATA_MAX
 *         if (adb_shell_kind(answer) == ADB_SHELL_EXIT)
 *             return adb_shell_code(answer);
 *         if (adb_shell_kind(answer) == ADB_SHELL_OUTPUT)
 *             output(in + adb_shell_at(answer), adb_shell_length(answer));
 *         if (adb_shell_kind(answer) == ADB_SHELL_ERRORS)
 *             errors(in + adb_shell_at(answer), adb_shell_length(answer));
 *         have -= adb_shell_used(answer);
 *         memmove(in, in + adb_shell_used(answer), have);
 *     }
 */
#ifndef ADB_SHELL_H
#define ADB_SHELL_H

#include <stddef.h>
#include <stdint.h>

/* ---- kinds */

#define ADB_SHELL_INPUT 0
#define ADB_SHELL_OUTPUT 1
#define ADB_SHELL_ERRORS 2
#define ADB_SHELL_EXIT 3
#define ADB_SHELL_CLOSE_INPUT 4
#define ADB_SHELL_WINDOW_SIZE 5

/* ---- answers, of adb.h's numbers */

#define ADB_SHELL_FRAME 0     /* a frame was read or written */
#define ADB_SHELL_WAITING 100 /* adb_shell_read: the frame is not all there */

/* Refusals. Nothing is used or written. */
#define ADB_SHELL_REFUSED_STORE_SHORT 8   /* the answer is under its length; it is not written either */
#define ADB_SHELL_REFUSED_OUT_SHORT 9     /* adb_shell_write: out is too short, or the data is longer than its length can say */
#define ADB_SHELL_REFUSED_INVALID_KIND 18 /* a kind above 5 */
#define ADB_SHELL_REFUSED_EMPTY_EXIT 19   /* an exit frame of length 0, which has no code */

/* ---- lengths */

#define ADB_SHELL_HEAD_LEN 5         /* of what stands ahead of the data */
#define ADB_SHELL_ANSWER_LEN 40      /* of a read's answer */
#define ADB_SHELL_WRITE_ANSWER_LEN 8 /* of a write's; a read's will do */

/* ---- the answer: little-endian numbers of 64 bits, five of a read and one of a write. All are 0 where there is no frame. */

static inline uint64_t adb_shell_number(const uint8_t *answer, int i)
{
    uint64_t n = 0;
    int k;
    for (k = 7; k >= 0; k--) n = n << 8 | answer[8 * i + k];
    return n;
}

/* adb_shell_read: bytes of `received` that the frame takes with its data. */
static inline size_t adb_shell_used(const uint8_t *answer)
{
    return (size_t)adb_shell_number(answer, 0);
}

/* adb_shell_read: where in `received` the data begins, and its length. */
static inline size_t adb_shell_at(const uint8_t *answer)
{
    return (size_t)adb_shell_number(answer, 1);
}

static inline size_t adb_shell_length(const uint8_t *answer)
{
    return (size_t)adb_shell_number(answer, 2);
}

/* adb_shell_read: the kind. */
static inline uint32_t adb_shell_kind(const uint8_t *answer)
{
    return (uint32_t)adb_shell_number(answer, 3);
}

/* adb_shell_read: an exit's code, its first data byte; 0 of other kinds. */
static inline int adb_shell_code(const uint8_t *answer)
{
    return (int)adb_shell_number(answer, 4);
}

/* adb_shell_write: bytes written to the start of `out`. */
static inline size_t adb_shell_written(const uint8_t *answer)
{
    return (size_t)adb_shell_number(answer, 0);
}

#ifdef __cplusplus
extern "C" {
#endif

/* The frame that `received` begins with. Answers ADB_SHELL_FRAME, ADB_SHELL_WAITING, or a refusal: 8 first; 18 once a byte is
 * here; 19 once 5 are. A refusal stays whatever arrives behind: nothing more of the channel can be read. */
uint32_t adb_shell_read(const uint8_t *received, size_t received_len, uint8_t *answer, size_t answer_len);

/* Writes a frame with its data to the start of `out`. Answers ADB_SHELL_FRAME or a refusal: 8 first, then 18, 19, 9. */
uint32_t adb_shell_write(uint32_t kind, const uint8_t *data, size_t data_len, uint8_t *out, size_t out_len, uint8_t *answer,
                         size_t answer_len);

#ifdef __cplusplus
}
#endif

#endif
