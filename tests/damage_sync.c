/* The sync messages on any bytes, against a reader and a writer that are written here again from docs/SCOPE.md, 10 and 12: every
 * exchange and numbers that name none, every id and some that are none, texts of every kind of length, cut anywhere,
 * answers and outgoing buffers of every length; the same with the second stat layout, and conversion between the layouts.
 * Guard bytes stand around what is lent. Prints counts; exit status 1 on a fault.
 *
 *   damage_sync [SEED [CALLS]]
 */
#include "../demo/numbers.h"

#include <adb_sync.h>

#include <inttypes.h>
#include <stdio.h>
#include <stdlib.h>
#include <string.h>

#define GUARD 16
#define MARK 0xA5
#define ROOM (ADB_SYNC_HEAD_MAX + ADB_SYNC_DATA_MAX + 64)

static void die(const char *what, uint64_t a, uint64_t b)
{
    printf("FAULT: %s (%" PRIu64 ", %" PRIu64 ")\n", what, a, b);
    exit(1);
}

static void put(uint8_t *p, uint64_t v, int n)
{
    for (int i = 0; i < n; i++) p[i] = (uint8_t)(v >> 8 * i);
}

static uint32_t get32(const uint8_t *p) { return p[0] | (uint32_t)p[1] << 8 | (uint32_t)p[2] << 16 | (uint32_t)p[3] << 24; }

/* ---- the messages: how many numbers each has, and whether the last of its words is a text's length */

struct row { uint32_t exchange; const char *id; int numbers, text; };

static const struct row rows[] = {
    { 0, "LIST", 0, 1 }, { 0, "RECV", 0, 1 }, { 0, "SEND", 0, 1 }, { 0, "STAT", 0, 1 }, { 0, "DATA", 0, 1 },
    { 0, "LIS2", 0, 1 }, { 0, "STA2", 0, 1 },
    { 0, "DONE", 1, 0 }, { 0, "QUIT", 1, 0 }, { 1, "DENT", 3, 1 }, { 1, "DONE", 4, 0 }, { 2, "STAT", 3, 0 },
    { 3, "DATA", 0, 1 }, { 3, "DONE", 1, 0 }, { 3, "FAIL", 0, 1 }, { 4, "OKAY", 1, 0 }, { 4, "FAIL", 0, 1 },
};

#define ROWS (sizeof rows / sizeof *rows)

static const struct row *found(uint32_t exchange, const uint8_t *id)
{
    for (size_t i = 0; i < ROWS; i++)
        if (rows[i].exchange == exchange && !memcmp(rows[i].id, id, 4)) return &rows[i];
    return NULL;
}

/* The number of a read, and its eight numbers. */
static uint32_t reads(uint32_t exchange, const uint8_t *s, size_t n, uint64_t v[8])
{
    memset(v, 0, 8 * sizeof *v);
    if (n < 4) return 100;
    const struct row *m = found(exchange, s);
    if (!m) return 14;
    const size_t head = 4 * (size_t)(1 + m->numbers + m->text);
    if (n < head) return 100;
    const size_t text = m->text ? get32(s + head - 4) : 0;
    if (!memcmp(m->id, "DATA", 4) && text > 65536) return 15;
    if (n - head < text) return 100;
    v[0] = head + text, v[1] = head, v[2] = text, v[3] = get32(s);
    for (int i = 0; i < m->numbers; i++) v[4 + i] = get32(s + 4 + 4 * i);
    return 0;
}

/* The number of a write, and the message's bytes in `out`, whose length goes to *n. */
static uint32_t writes(uint32_t exchange, uint32_t id, const uint32_t v[4], const uint8_t *text, size_t len, size_t room,
                       uint8_t *out, size_t *n)
{
    uint8_t word[4];
    put(word, id, 4);
    const struct row *m = found(exchange, word);
    *n = 0;
    if (!m) return 14;
    const size_t head = 4 * (size_t)(1 + m->numbers + m->text);
    if (!memcmp(m->id, "DATA", 4) && len > 65536) return 15;
    if ((!m->text && len > 0) || room < head + len) return 9;
    memcpy(out, word, 4);
    for (int i = 0; i < m->numbers; i++) put(out + 4 + 4 * i, v[i], 4);
    if (m->text) put(out + head - 4, len, 4);
    if (len) memcpy(out + head, text, len);
    *n = head + len;
    return 0;
}

/* ---- lent buffers */

static uint8_t in[ROOM], text[ROOM], made[ROOM], out[2 * GUARD + ROOM], answer[2 * GUARD + 144];

static void mark(uint8_t *p, size_t n) { memset(p, MARK, n); }

static void held(const uint8_t *p, size_t from, size_t to, const char *what)
{
    for (size_t i = from; i < to; i++)
        if (p[i] != MARK) die(what, i, p[i]);
}

static uint32_t some(void) { return below(4) ? (uint32_t)below(300) : (uint32_t)below(UINT64_C(1) << 32); }

/* Mostly short; now and then at DATA's end. */
static size_t some_length(void) { return below(40) ? (size_t)below(40) : 65534 + (size_t)below(5); }

/* Mostly of the exchange, where there is such a one. */
static uint32_t some_id(uint32_t exchange, uint8_t *p)
{
    size_t i = below(ROWS);
    if (exchange < 5 && below(5))
        while (rows[i].exchange != exchange) i = (i + 1) % ROWS;
    memcpy(p, rows[i].id, 4);
    if (!below(12)) p[below(4)] = (uint8_t)below(256);
    return get32(p);
}

static uint64_t counts[101];

static void try_read(void)
{
    const uint32_t exchange = below(12) ? (uint32_t)below(7) : some();
    for (size_t i = 0; i < 64; i++) in[i] = (uint8_t)below(256);
    some_id(exchange, in);
    const struct row *m = found(exchange, in);
    if (m && m->text && below(8)) put(in + 4 * (m->numbers + 1), some_length(), 4);
    size_t n = below(20) ? (size_t)below(64) : ROOM - (size_t)below(100);
    const size_t len = below(4) ? 64 + (size_t)below(17) : (size_t)below(64);
    uint64_t v[8];
    mark(answer, sizeof answer);
    const uint32_t want = len < 64 ? 8 : reads(exchange, in, n, v);
    const uint32_t r = adb_sync_read(exchange, n ? in : NULL, n, len ? answer + GUARD : NULL, len);
    if (r != want) die("the number of a read", r, want);
    held(answer, 0, GUARD, "a byte before the answer");
    held(answer, GUARD + (r == 8 ? 0 : 64), sizeof answer, "a byte behind the answer");
    if (r != 8)
        for (int i = 0; i < 8; i++)
            if (adb_sync_number(answer + GUARD, i) != v[i]) die("a number of a read", adb_sync_number(answer + GUARD, i), v[i]);
    counts[r]++;
}

static void try_write(void)
{
    const uint32_t exchange = below(12) ? (uint32_t)below(7) : some(), v[4] = { some(), some(), some(), some() };
    uint8_t word[4];
    const uint32_t id = some_id(exchange, word);
    const size_t len = below(3) ? some_length() : 0, size = below(4) ? 64 + (size_t)below(17) : (size_t)below(12);
    const size_t room = below(2) ? len + (size_t)below(30) : (size_t)below(ROOM);
    size_t n;
    mark(answer, sizeof answer);
    mark(out, sizeof out);
    uint32_t want = writes(exchange, id, v, text, len, room, made, &n);
    if (size < 8) want = 8, n = 0;
    const uint32_t r = adb_sync_write(exchange, id, v[0], v[1], v[2], v[3], len ? text : NULL, len, room ? out + GUARD : NULL,
                                      room, size ? answer + GUARD : NULL, size);
    if (r != want) die("the number of a write", r, want);
    held(out, 0, GUARD, "a byte before out");
    if (n && memcmp(out + GUARD, made, n)) die("a message's bytes", id, n);
    held(out, GUARD + n, sizeof out, "a byte behind the message");
    held(answer, 0, GUARD, "a byte before the answer");
    held(answer, GUARD + (r == 8 ? 0 : 8), sizeof answer, "a byte behind the count");
    if (r != 8 && adb_sync_written(answer + GUARD) != n) die("the count of a write", adb_sync_written(answer + GUARD), n);
    counts[r]++;
}

/* ---- the second stat layout: the wire's places and widths, error first, and a DNT2's length or a DONE's last number */

static const int place[12] = { 4, 8, 16, 24, 28, 32, 36, 40, 48, 56, 64, 72 }, width[12] = { 4, 8, 8, 4, 4, 4, 4, 8, 8, 8, 8, 4 };

struct wide { uint32_t exchange; const char *id; size_t head; int text, last; };

static const struct wide wides[] = { { 5, "DNT2", 76, 1, 0 }, { 5, "DONE", 76, 0, 1 }, { 6, "STA2", 72, 0, 0 } };

static const struct wide *found_v2(uint32_t exchange, const uint8_t *id)
{
    for (size_t i = 0; i < 3; i++)
        if (wides[i].exchange == exchange && !memcmp(wides[i].id, id, 4)) return &wides[i];
    return NULL;
}

static uint64_t get(const uint8_t *p, int n)
{
    uint64_t v = 0;
    for (int i = n - 1; i >= 0; i--) v = v << 8 | p[i];
    return v;
}

static uint32_t reads_v2(uint32_t exchange, const uint8_t *s, size_t n, uint64_t v[16])
{
    memset(v, 0, 16 * sizeof *v);
    if (n < 4) return 100;
    const struct wide *m = found_v2(exchange, s);
    if (!m) return 14;
    if (n < m->head) return 100;
    const size_t len = m->text ? get(s + 72, 4) : 0;
    if (n - m->head < len) return 100;
    v[0] = m->head + len, v[1] = m->head, v[2] = len, v[3] = get(s, 4);
    for (int i = 0; i < 11; i++) v[4 + i] = get(s + place[i], width[i]);
    if (m->last) v[15] = get(s + 72, 4);
    return 0;
}

static uint64_t some_wide(void) { return below(3) ? below(300) : below(2) ? below(UINT64_C(1) << 33) : below(UINT64_MAX); }

/* Mostly of the two exchanges, and then mostly with an id of theirs. */
static uint32_t some_v2(uint8_t *id)
{
    const struct wide *m = &wides[below(3)];
    memcpy(id, m->id, 4);
    if (!below(12)) id[below(4)] = (uint8_t)below(256);
    return below(8) ? m->exchange : below(2) ? (uint32_t)below(9) : some();
}

static void held_answer(const uint64_t *v, int numbers)
{
    held(answer, 0, GUARD, "a byte before the answer");
    held(answer, GUARD + 8 * (size_t)numbers, sizeof answer, "a byte behind the answer");
    for (int i = 0; i < numbers; i++)
        if (adb_sync_number(answer + GUARD, i) != v[i]) die("a number of an answer", adb_sync_number(answer + GUARD, i), v[i]);
}

static void try_read_v2(void)
{
    for (size_t i = 0; i < 160; i++) in[i] = (uint8_t)below(256);
    const uint32_t exchange = some_v2(in);
    if (below(8)) put(in + 72, some_length(), 4);
    const size_t n = below(20) ? (size_t)below(140) : ROOM - (size_t)below(100);
    const size_t len = below(4) ? 128 + (size_t)below(17) : (size_t)below(128);
    uint64_t v[16];
    mark(answer, sizeof answer);
    const uint32_t want = len < 128 ? 8 : reads_v2(exchange, in, n, v);
    const uint32_t r = adb_sync_read_v2(exchange, n ? in : NULL, n, len ? answer + GUARD : NULL, len);
    if (r != want) die("the number of a second read", r, want);
    held_answer(v, r == 8 ? 0 : 16);
    if (r == 0) {
        const adb_sync_stat_v2 s = adb_sync_stat(answer + GUARD);
        const uint64_t again[11] = { s.error, s.dev, s.ino, s.mode, s.nlink, s.uid, s.gid, s.size,
                                     (uint64_t)s.atime, (uint64_t)s.mtime, (uint64_t)s.ctime };
        if (memcmp(again, v + 4, sizeof again) || adb_sync_last(answer + GUARD) != v[15]) die("a stat", v[4], v[15]);
    }
    counts[r]++;
}

static void try_write_v2(void)
{
    uint8_t word[4];
    const uint32_t exchange = some_v2(word);
    uint64_t v[12];
    for (int i = 0; i < 12; i++) v[i] = width[i] == 4 ? some() : some_wide();
    const struct wide *m = found_v2(exchange, word);
    const size_t len = (m && m->text ? below(3) : !below(8)) ? some_length() : 0;
    const size_t room = below(2) ? len + 60 + (size_t)below(30) : (size_t)below(ROOM);
    const size_t size = below(4) ? 8 + (size_t)below(9) : (size_t)below(8);
    uint32_t want = 0;
    size_t n = 0;
    if (size < 8) want = 8;
    else if (!m) want = 14;
    else if ((!m->text && len > 0) || room < m->head + len) want = 9;
    else {
        memcpy(made, word, 4);
        for (int i = 0; i < 11; i++) put(made + place[i], v[i], width[i]);
        if (m->head == 76) put(made + 72, m->text ? len : v[11], 4);
        if (len) memcpy(made + m->head, text, len);
        n = m->head + len;
    }
    mark(answer, sizeof answer);
    mark(out, sizeof out);
    const uint32_t r = adb_sync_write_v2(exchange, get32(word), (uint32_t)v[0], v[1], v[2], (uint32_t)v[3], (uint32_t)v[4],
                                         (uint32_t)v[5], (uint32_t)v[6], v[7], (int64_t)v[8], (int64_t)v[9], (int64_t)v[10],
                                         (uint32_t)v[11], len ? text : NULL, len, room ? out + GUARD : NULL, room,
                                         size ? answer + GUARD : NULL, size);
    if (r != want) die("the number of a second write", r, want);
    held(out, 0, GUARD, "a byte before out");
    if (n && memcmp(out + GUARD, made, n)) die("a message's bytes", exchange, n);
    held(out, GUARD + n, sizeof out, "a byte behind the message");
    const uint64_t count[1] = { n };
    held_answer(count, r == 8 ? 0 : 1);
    counts[r]++;
}

static void try_convert(void)
{
    const uint32_t mode = some(), old_size = some(), old_time = some(), error = below(3) ? 0 : some();
    const uint64_t size = some_wide(), time = below(2) ? some_wide() : some(), len = 60 + below(10), len_v2 = 124 + below(10);
    const uint64_t wide[16] = { 0, 0, 0, 0, 0, 0, 0, mode, 0, 0, 0, old_size, 0, old_time, 0, 0 };
    mark(answer, sizeof answer);
    uint32_t r = adb_sync_widen(mode, old_size, old_time, answer + GUARD, len_v2);
    if (r != (len_v2 < 128 ? 8 : 0)) die("the number of widening", r, len_v2);
    held_answer(wide, r == 8 ? 0 : 16);
    if (r == 0) { /* and back */
        const adb_sync_stat_v2 s = adb_sync_stat(answer + GUARD);
        const uint64_t again[8] = { 0, 0, 0, 0, mode, old_size, old_time, 0 };
        mark(answer, sizeof answer);
        if (adb_sync_narrow(s.error, s.mode, s.size, s.mtime, answer + GUARD, 64))
            die("a widened stat is refused", old_size, old_time);
        held_answer(again, 8);
    }
    const uint32_t want = len < 64 ? 8 : error ? 17 : size >> 32 || time >> 32 ? 16 : 0;
    const uint64_t none[8] = { 0 }, kept[8] = { 0, 0, 0, 0, mode, size, time, 0 };
    mark(answer, sizeof answer);
    r = adb_sync_narrow(error, mode, size, (int64_t)time, answer + GUARD, len);
    if (r != want) die("the number of narrowing", r, want);
    held_answer(want ? none : kept, r == 8 ? 0 : 8);
    counts[r]++;
}

int main(int argc, char **argv)
{
    const uint64_t calls = argc > 2 ? strtoull(argv[2], NULL, 10) : 20000;
    rng = argc > 1 ? strtoull(argv[1], NULL, 10) : 1;
    for (size_t i = 0; i < ROOM; i++) in[i] = (uint8_t)below(256), text[i] = (uint8_t)below(256);
    for (uint64_t i = 0; i < calls; i++) try_read(), try_write(), try_read_v2(), try_write_v2(), try_convert();
    printf("sync messages: %" PRIu64 " reads and as many writes, as many of the second layout, and conversions", calls);
    for (size_t i = 0; i < 101; i++)
        if (counts[i]) printf("; %zu: %" PRIu64, i, counts[i]);
    printf("\n");
    return 0;
}
