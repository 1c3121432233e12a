/* Captures on any bytes, against a reader and a writer that are written here again from docs/SCOPE.md, 11: headers with any of their
 * bytes changed, records with lengths of every kind, cut anywhere, answers and outgoing buffers of every length. Guard bytes stand
 * around what is lent. What was written is read back, and what was read is written again. Prints counts; exit status 1 on a fault.
 *
 *   damage_pcap [SEED [CALLS]]
 */
#include "../demo/numbers.h"

#include <adb_pcap.h>

#include <inttypes.h>
#include <stdio.h>
#include <stdlib.h>
#include <string.h>

#define GUARD 16
#define MARK 0xA5
#define SNAP 1048600
#define ROOM (16 + SNAP + 64)

static void die(const char *what, uint64_t a, uint64_t b)
{
    printf("FAULT: %s (%" PRIu64 ", %" PRIu64 ")\n", what, a, b);
    exit(1);
}

static uint32_t get32(const uint8_t *p) { return p[0] | (uint32_t)p[1] << 8 | (uint32_t)p[2] << 16 | (uint32_t)p[3] << 24; }

/* ---- the format, once more */

static const uint8_t header[24] = { 0xd4, 0xc3, 0xb2, 0xa1, 2, 0, 4, 0, 0, 0, 0, 0, 0, 0, 0, 0, 0x18, 0, 0x10, 0, 147, 0, 0, 0 };

static uint32_t reads_header(const uint8_t *s, size_t n) { return n < 24 ? 100 : memcmp(s, header, 24) ? 22 : 0; }

/* The number of a read, and its four numbers. */
static uint32_t reads_record(const uint8_t *s, size_t n, uint64_t v[4])
{
    memset(v, 0, 4 * sizeof *v);
    if (n < 16) return 100;
    const uint32_t kept = get32(s + 8);
    if (kept != get32(s + 12) || kept > SNAP) return 23;
    if (n - 16 < kept) return 100;
    v[0] = 16 + (uint64_t)kept, v[1] = kept, v[2] = get32(s), v[3] = get32(s + 4);
    return 0;
}

/* ---- lent buffers */

static uint8_t in[ROOM], frame[ROOM], out[2 * GUARD + ROOM], answer[2 * GUARD + 48];

static void mark(uint8_t *p, size_t n) { memset(p, MARK, n); }

static void held(const uint8_t *p, size_t from, size_t to, const char *what)
{
    for (size_t i = from; i < to; i++)
        if (p[i] != MARK) die(what, i, p[i]);
}

static uint64_t counts[101];

/* Mostly short; now and then at the snap length. */
static size_t some_length(void) { return below(400) ? (size_t)below(60) : SNAP - 2 + (size_t)below(5); }

static uint32_t some(void) { return below(3) ? (uint32_t)below(300) : (uint32_t)below(UINT64_C(1) << 32); }

static void try_header(void)
{
    uint8_t s[40];
    for (size_t i = 0; i < sizeof s; i++) s[i] = (uint8_t)below(256);
    if (below(20)) memcpy(s, header, 24);
    if (below(3)) s[below(24)] = (uint8_t)below(256);
    const size_t n = below(4) ? 24 + (size_t)below(16) : (size_t)below(24), room = (size_t)below(64);
    const uint32_t want = reads_header(s, n), r = adb_pcap_read_header(n ? s : NULL, n);
    if (r != want) die("the number of a header's read", r, want);
    counts[r]++;
    mark(out, 2 * GUARD + 64);
    const uint32_t w = adb_pcap_write_header(room ? out + GUARD : NULL, room);
    if (w != (room < 24 ? 9u : 0u)) die("the number of a header's write", w, room);
    held(out, 0, GUARD, "a byte before out");
    if (!w && memcmp(out + GUARD, header, 24)) die("the header's bytes", room, 0);
    held(out, GUARD + (w ? 0 : 24), 2 * GUARD + 64, "a byte behind the header");
    counts[w]++;
}

static void try_read(void)
{
    const uint32_t kept = below(12) ? (uint32_t)some_length() : some();
    for (size_t i = 0; i < 8; i++) in[i] = (uint8_t)below(256);
    put32(in + 8, kept);
    put32(in + 12, below(8) ? kept : below(2) ? kept ^ 1u << below(32) : some());
    const size_t n = !below(4) ? (size_t)below(100) : kept <= SNAP ? 16 + kept - !below(6) * !!kept + (size_t)below(4) : ROOM;
    const size_t len = below(4) ? 32 + (size_t)below(16) : (size_t)below(32);
    uint64_t v[4];
    mark(answer, sizeof answer);
    const uint32_t want = len < 32 ? 8 : reads_record(in, n, v);
    const uint32_t r = adb_pcap_read_record(n ? in : NULL, n, len ? answer + GUARD : NULL, len);
    if (r != want) die("the number of a read", r, want);
    held(answer, 0, GUARD, "a byte before the answer");
    held(answer, GUARD + (r == 8 ? 0 : 32), sizeof answer, "a byte behind the answer");
    if (r != 8)
        for (int i = 0; i < 4; i++)
            if (adb_pcap_number(answer + GUARD, i) != v[i]) die("a number of a read", adb_pcap_number(answer + GUARD, i), v[i]);
    if (r == 0) { /* and written again */
        const uint8_t *a = answer + GUARD;
        const uint32_t w = adb_pcap_write_record(adb_pcap_seconds(a), adb_pcap_micros(a), in + ADB_PCAP_RECORD_LEN, adb_pcap_length(a),
                                                 out + GUARD, ROOM);
        if (w || memcmp(out + GUARD, in, adb_pcap_used(a))) die("a record read and written again", w, kept);
    }
    counts[r]++;
}

static void try_write(void)
{
    const size_t len = some_length(), room = !below(4) ? (size_t)below(80) : 16 + len - !below(6) + (size_t)below(3);
    const uint32_t seconds = some(), micros = some();
    const size_t shown = 2 * GUARD + (room < 16 + len ? 16 + len : room);
    mark(out, shown);
    const uint32_t want = len > SNAP ? 23 : room < 16 + len ? 9 : 0;
    const uint32_t r = adb_pcap_write_record(seconds, micros, len ? frame : NULL, len, room ? out + GUARD : NULL, room);
    if (r != want) die("the number of a write", r, want);
    held(out, 0, GUARD, "a byte before out");
    held(out, GUARD + (r ? 0 : 16 + len), shown, "a byte behind the record");
    if (!r) {
        const uint8_t *p = out + GUARD;
        if (get32(p) != seconds || get32(p + 4) != micros || get32(p + 8) != len || get32(p + 12) != len) die("a record's header", len, 0);
        if (len && memcmp(p + 16, frame, len)) die("a record's frame", len, 0);
        const uint32_t back = adb_pcap_read_record(p, 16 + len, answer + GUARD, 32); /* and read back */
        if (back || adb_pcap_used(answer + GUARD) != 16 + len || adb_pcap_seconds(answer + GUARD) != seconds
            || adb_pcap_micros(answer + GUARD) != micros)
            die("a record written and read back", back, len);
    }
    counts[r]++;
}

int main(int argc, char **argv)
{
    const uint64_t calls = argc > 2 ? strtoull(argv[2], NULL, 10) : 20000;
    rng = argc > 1 ? strtoull(argv[1], NULL, 10) : 1;
    for (size_t i = 0; i < ROOM; i++) in[i] = (uint8_t)below(256), frame[i] = (uint8_t)below(256);
    for (uint64_t i = 0; i < calls; i++) {
        try_header();
        try_read();
        try_write();
    }
    printf("captures on any bytes, %" PRIu64 " headers, records read and records written: done %" PRIu64 ", waiting %" PRIu64, calls,
           counts[0], counts[100]);
    printf(", refused by 8 %" PRIu64 ", by 9 %" PRIu64 ", by 22 %" PRIu64 ", by 23 %" PRIu64 "\n", counts[8], counts[9], counts[22], counts[23]);
    return 0;
}
