/* Shell frames on any bytes, against a reader and a writer that are written here again from docs/SCOPE.md, 11: every kind and
 * some that are none, data of every kind of length, cut anywhere, answers and outgoing buffers of every length; and sessions of
 * many frames, with a bad one now and then, whose bytes arrive cut at random places and are compared with what was sent. Guard
 * bytes stand around what is lent. Prints counts; exit status 1 on a fault.
 *
 *   damage_shell [SEED [CALLS]]
 */
#include "../demo/numbers.h"

#include <adb_shell.h>

#include <inttypes.h>
#include <stdio.h>
#include <stdlib.h>
#include <string.h>

#define GUARD 16
#define MARK 0xA5
#define ROOM 70000
#define FRAMES 60

static void die(const char *what, uint64_t a, uint64_t b)
{
    printf("FAULT: %s (%" PRIu64 ", %" PRIu64 ")\n", what, a, b);
    exit(1);
}

static uint32_t get32(const uint8_t *p) { return p[0] | (uint32_t)p[1] << 8 | (uint32_t)p[2] << 16 | (uint32_t)p[3] << 24; }

/* The number of a read, and its five numbers. */
static uint32_t reads(const uint8_t *s, size_t n, uint64_t v[5])
{
    memset(v, 0, 5 * sizeof *v);
    if (n == 0) return 100;
    if (s[0] > 5) return 18;
    if (n < 5) return 100;
    const uint64_t len = get32(s + 1);
    if (s[0] == 3 && len == 0) return 19;
    if (n - 5 < len) return 100;
    v[0] = 5 + len, v[1] = 5, v[2] = len, v[3] = s[0], v[4] = s[0] == 3 ? s[5] : 0;
    return 0;
}

/* The number of a write, and the frame's bytes in `out`, whose length goes to *n. */
static uint32_t writes(uint32_t kind, const uint8_t *data, size_t len, size_t room, uint8_t *out, size_t *n)
{
    *n = 0;
    if (kind > 5) return 18;
    if (kind == 3 && len == 0) return 19;
    if (room < 5 + len) return 9;
    out[0] = (uint8_t)kind;
    put32(out + 1, (uint32_t)len);
    if (len) memcpy(out + 5, data, len);
    *n = 5 + len;
    return 0;
}

/* ---- lent buffers */

static uint8_t in[ROOM], data[ROOM], made[ROOM], out[2 * GUARD + ROOM], answer[2 * GUARD + 56];

static void mark(uint8_t *p, size_t n) { memset(p, MARK, n); }

static void held(const uint8_t *p, size_t from, size_t to, const char *what)
{
    for (size_t i = from; i < to; i++)
        if (p[i] != MARK) die(what, i, p[i]);
}

/* Mostly a kind; an exit oftener than the others. */
static uint32_t some_kind(void)
{
    if (!below(12)) return (uint32_t)(below(2) ? below(256) : below(UINT64_C(1) << 32));
    return below(4) ? (uint32_t)below(6) : 3;
}

/* Mostly short; none now and then; at the end of 16 bits. */
static size_t some_length(void)
{
    if (!below(6)) return 0;
    return below(30) ? (size_t)below(40) : 65533 + (size_t)below(6);
}

static uint64_t counts[101];

static void try_read(void)
{
    for (size_t i = 0; i < 64; i++) in[i] = (uint8_t)below(256);
    in[0] = (uint8_t)some_kind();
    if (below(8)) put32(in + 1, (uint32_t)some_length());
    const size_t n = below(20) ? (size_t)below(64) : ROOM - (size_t)below(100);
    const size_t len = below(4) ? 40 + (size_t)below(17) : (size_t)below(40);
    uint64_t v[5];
    mark(answer, sizeof answer);
    const uint32_t want = len < 40 ? 8 : reads(in, n, v);
    const uint32_t r = adb_shell_read(n ? in : NULL, n, len ? answer + GUARD : NULL, len);
    if (r != want) die("the number of a read", r, want);
    held(answer, 0, GUARD, "a byte before the answer");
    held(answer, GUARD + (r == 8 ? 0 : 40), sizeof answer, "a byte behind the answer");
    if (r != 8)
        for (int i = 0; i < 5; i++)
            if (adb_shell_number(answer + GUARD, i) != v[i]) die("a number of a read", adb_shell_number(answer + GUARD, i), v[i]);
    counts[r]++;
}

static void try_write(void)
{
    const uint32_t kind = some_kind();
    const size_t len = some_length(), size = below(4) ? 40 + (size_t)below(17) : (size_t)below(12);
    const size_t room = below(2) ? len + (size_t)below(12) : (size_t)below(ROOM);
    size_t n;
    mark(answer, sizeof answer);
    mark(out, sizeof out);
    uint32_t want = writes(kind, data, len, room, made, &n);
    if (size < 8) want = 8, n = 0;
    const uint32_t r = adb_shell_write(kind, len ? data : NULL, len, room ? out + GUARD : NULL, room,
                                       size ? answer + GUARD : NULL, size);
    if (r != want) die("the number of a write", r, want);
    held(out, 0, GUARD, "a byte before out");
    if (n && memcmp(out + GUARD, made, n)) die("a frame's bytes", kind, n);
    held(out, GUARD + n, sizeof out, "a byte behind the frame");
    held(answer, 0, GUARD, "a byte before the answer");
    held(answer, GUARD + (r == 8 ? 0 : 8), sizeof answer, "a byte behind the count");
    if (r != 8 && adb_shell_written(answer + GUARD) != n) die("the count of a write", adb_shell_written(answer + GUARD), n);
    counts[r]++;
}

/* ---- sessions */

static uint64_t frames_seen, pieces_seen;

/* Frames written one behind the other, now and then a bad one behind them; read from pieces, with a buffer of its own whose
 * bytes past those that have arrived are not there. */
static void try_session(void)
{
    size_t total = 0, count = (size_t)below(FRAMES), at[FRAMES + 1];
    for (size_t i = 0; i < count; i++) {
        const uint32_t kind = (uint32_t)below(6);
        const size_t len = (size_t)below(900) + (kind == 3);
        at[i] = total;
        if (adb_shell_write(kind, data + below(1000), len, in + total, sizeof in - total, answer, 8))
            die("a session's frame", kind, len);
        total += adb_shell_written(answer);
    }
    at[count] = total;
    const uint64_t bad = below(3); /* 0: none; 1: a kind above 5; 2: an exit of length 0 */
    const uint8_t wrong[2][5] = { { (uint8_t)(6 + below(250)), 0, 0, 0, 0 }, { 3, 0, 0, 0, 0 } };
    if (bad) memcpy(in + total, wrong[bad - 1], 5), total += 5;
    const size_t end = total - (bad ? 0 : (size_t)below(2) * (size_t)below(total - (count ? at[count - 1] : 0) + 1));
    size_t from = 0, to = 0, seen = 0;
    for (;;) {
        uint8_t *lent = malloc(to - from + 1);
        if (!lent) die("no memory", to, from);
        memcpy(lent, in + from, to - from);
        const uint32_t r = adb_shell_read(lent, to - from, answer, 40);
        if (r == 0) {
            if (from != at[seen] || adb_shell_used(answer) != at[seen + 1] - at[seen]) die("a frame of a session", seen, from);
            if (memcmp(lent + 5, in + from + 5, adb_shell_length(answer))) die("a frame's data", seen, from);
            from += adb_shell_used(answer), seen++, frames_seen++;
        }
        free(lent);
        if (r == 0) continue;
        if (r != 100) {
            if (r != 17 + bad || seen != count) die("a session's refusal", r, seen);
            break;
        }
        if (to == end) break;
        to += 1 + (size_t)below(end - to > 700 ? 700 : end - to), pieces_seen++;
    }
    if (!bad && (from != at[seen] || (end == total && seen != count))) die("a session's rest", from, seen);
}

int main(int argc, char **argv)
{
    const uint64_t calls = argc > 2 ? strtoull(argv[2], NULL, 10) : 20000;
    rng = argc > 1 ? strtoull(argv[1], NULL, 10) : 1;
    for (size_t i = 0; i < ROOM; i++) in[i] = (uint8_t)below(256), data[i] = (uint8_t)below(256);
    for (uint64_t i = 0; i < calls; i++) try_read(), try_write();
    printf("shell frames: %" PRIu64 " reads and as many writes", calls);
    for (size_t i = 0; i < 101; i++)
        if (counts[i]) printf("; %zu: %" PRIu64, i, counts[i]);
    for (uint64_t i = 0; i < calls / 50; i++) try_session();
    printf("; %" PRIu64 " sessions, %" PRIu64 " frames in %" PRIu64 " pieces\n", calls / 50, frames_seen, pieces_seen);
    return 0;
}
