/* Runs the oracle's scripts (plain hex only: `oracle --expand` makes that) on the port's C interface and prints the oracle's
 * result lines, which `compare.py` holds to the oracle's own. The state's part of a line is read off the lent state by its
 * documented layout.
 *
 *   driver < script
 *
 * Every lent buffer stands between guard bytes; buffers that a call may not change, and bytes past the counts that it
 * answers, must keep their values; an empty buffer is null in every second call. A fault is printed as `FAULT ..` in the line
 * of its call.
 */
#include <adb.h>

#include <inttypes.h>
#include <stdio.h>
#include <stdlib.h>
#include <string.h>

#define GUARD 64
#define MARK 0xA5
#define OUT_FILL 0x11
#define BUF_FILL 0x22

struct lent {
    uint8_t *base, *at;
    size_t len;
};

static struct lent state, rx, opens;
static int made;
static uint64_t calls;

static void fault(const char *what) { printf("FAULT %s ", what); }

static struct lent lend(size_t len, int fill)
{
    struct lent l;
    l.base = malloc(len + 2 * GUARD);
    if (!l.base) {
        fputs("driver: no memory\n", stderr);
        exit(2);
    }
    l.at = l.base + GUARD;
    l.len = len;
    memset(l.base, MARK, len + 2 * GUARD);
    memset(l.at, fill, len);
    return l;
}

static void guarded(const struct lent *l, const char *what)
{
    for (size_t i = 0; i < GUARD; i++)
        if (l->base[i] != MARK || l->at[l->len + i] != MARK) {
            fault(what);
            return;
        }
}

static void back(struct lent *l, const char *what)
{
    guarded(l, what);
    free(l->base);
}

static void untouched(const struct lent *l, size_t from, int fill, const char *what)
{
    for (size_t i = from; i < l->len; i++)
        if (l->at[i] != fill) {
            fault(what);
            return;
        }
}

/* An empty buffer may be null. */
static uint8_t *ptr(const struct lent *l) { return l->len || calls % 2 ? l->at : NULL; }

static uint64_t hash(const struct lent *l)
{
    uint64_t h = 14695981039346656037u;
    for (size_t i = 0; i < l->len; i++) h = (h ^ l->at[i]) * 1099511628211u;
    return h;
}

static int digit(int c) { return c <= '9' ? c - '0' : (c | 32) - 'a' + 10; }

static struct lent bytes(const char *hex)
{
    size_t n = strcmp(hex, "-") ? strlen(hex) / 2 : 0;
    struct lent l = lend(n, 0);
    for (size_t i = 0; i < n; i++) l.at[i] = (uint8_t)(digit(hex[2 * i]) << 4 | digit(hex[2 * i + 1]));
    return l;
}

static void hex(const uint8_t *p, size_t n)
{
    if (!n) putchar('-');
    for (size_t i = 0; i < n; i++) {
        putchar("0123456789abcdef"[p[i] >> 4]);
        putchar("0123456789abcdef"[p[i] & 15]);
    }
}

/* ---- the state, as the oracle prints it */

static uint64_t size_at(size_t at) { return adb_le64(state.at + at); }
static uint32_t word_at(size_t at) { return adb_le32(state.at + at); }

static size_t cap(void) { return adb_rx_cap(word_at(ADB_STATE_MAX_PAYLOAD), size_at(ADB_STATE_MAX_RX_PER_CHANNEL)); }

static size_t in_use(void)
{
    size_t n = 0;
    for (size_t i = 0; i < ADB_MAX_CHANNELS; i++) n += state.at[ADB_STATE_SLOT(i) + ADB_STATE_SLOT_TAG] & ADB_TAG_FILLED;
    return n;
}

static void print_slots(void)
{
    static const char *const names[] = { "opening", "open", "closed", "?" };
    int first = 1;
    for (size_t i = 0; i < ADB_MAX_CHANNELS; i++) {
        const size_t at = ADB_STATE_SLOT(i);
        const unsigned tag = state.at[at + ADB_STATE_SLOT_TAG];
        const uint64_t head = word_at(at + ADB_STATE_SLOT_HEAD), n = word_at(at + ADB_STATE_SLOT_BUFFERED);
        if (!(tag & ADB_TAG_FILLED)) continue;
        if (!first) putchar(';');
        first = 0;
        printf("%zu:%" PRIu32 ":", i, word_at(at + ADB_STATE_SLOT_LOCAL));
        if (tag & ADB_TAG_HAS_REMOTE) printf("%" PRIu32, word_at(at + ADB_STATE_SLOT_REMOTE));
        else printf("none");
        printf(":%s%s:%" PRId64 ":%d:%" PRIu64 ":%" PRIu64 ":", names[tag >> ADB_TAG_STATE_SHIFT & 3],
               tag >> ADB_TAG_FAULT_SHIFT ? "!" : "", (int64_t)size_at(at + ADB_STATE_SLOT_BUDGET),
               tag & ADB_TAG_WRTE_ACKED ? 1 : 0, size_at(at + ADB_STATE_SLOT_UNACKED), (uint64_t)word_at(at + ADB_STATE_SLOT_SETTLED));
        if (head > 2 * cap() || n > 2 * cap() - head) fault("bytes outside the share");
        else hex(rx.at + i * 2 * cap() + head, n);
    }
    if (first) putchar('-');
}

static void print_queue(void)
{
    const uint64_t queued = size_at(ADB_STATE_QUEUED), payload = word_at(ADB_STATE_MAX_PAYLOAD);
    if (!queued) putchar('-');
    for (size_t i = 0; i < queued && i < ADB_MAX_CHANNELS; i++) {
        const size_t at = ADB_STATE_QUEUED_OPEN(i);
        const uint64_t share = size_at(at + ADB_STATE_QUEUED_SHARE), n = size_at(at + ADB_STATE_QUEUED_SIZE);
        printf("%s%" PRIu32 ":%" PRIu32 ":", i ? ";" : "", word_at(at + ADB_STATE_QUEUED_REMOTE),
               word_at(at + ADB_STATE_QUEUED_CREDIT));
        if (share >= size_at(ADB_STATE_CHANNELS) || n > payload) fault("destination outside its share");
        else hex(opens.at + share * payload, n);
    }
}

static void print_state(void)
{
    if (!made) {
        printf(" next=- slots=- queue=- wait=-\n");
        return;
    }
    printf(" next=%" PRIu32 " slots=", word_at(ADB_STATE_NEXT_LOCAL));
    print_slots();
    printf(" queue=");
    print_queue();
    if (state.at[ADB_STATE_PENDING] == ADB_PENDING_OPEN)
        printf(" wait=%" PRIu64 ":%" PRIu32 "\n", size_at(ADB_STATE_PENDING_SLOT), word_at(ADB_STATE_PENDING_LOCAL));
    else printf(" wait=-\n");
}

/* ---- one result line */

/* values: how many of the answer's four this call's ADB_DONE has. */
static void line(uint32_t code, const char *done, int values, const struct lent *answer, const struct lent *out,
                 const struct lent *buf)
{
    const uint8_t *a = answer->at;
    const size_t written = (size_t)adb_answer_written(a);
    size_t got = code == ADB_DONE && buf ? adb_answer_length(a) : 0;
    if (code == ADB_WAITING) printf("waiting");
    else if (code == ADB_NONE) printf("none");
    else if (code == ADB_DONE) {
        printf("%s", done);
        if (!strcmp(done, "front")) {
            const size_t at = adb_answer_destination(a), n = adb_answer_destination_len(a);
            printf(" remote=%" PRIu32 " credit=%" PRIu32 " destination=", adb_answer_remote(a), adb_answer_credit(a));
            if (at > opens.len || n > opens.len - at) fault("destination outside the open store");
            else hex(opens.at + at, n);
        } else if (!strcmp(done, "settled") && !adb_answer_length(a)) printf(" ack=none");
        else if (!strcmp(done, "settled")) printf(" ack=%zu", adb_answer_length(a));
        else if (values == 1) printf(" n=%zu", adb_answer_length(a));
        else if (values == 2) printf(" slot=%zu local=%" PRIu32, adb_answer_slot(a), adb_answer_local(a));
    } else {
        printf("refused %" PRIu32, code);
        if (code == ADB_REFUSED_INVALID_COMMAND) printf(" word=%" PRIu32, adb_answer_word(a));
    }
    printf(" used=%" PRIu64 " out=", adb_answer_used(a));
    for (int i = code == ADB_DONE ? values : code == ADB_REFUSED_INVALID_COMMAND; i < 4; i++)
        if (adb_answer_value(a, i)) fault("a value that the answer does not have");
    if (written > (out ? out->len : 0)) fault("written past the outgoing buffer");
    else {
        hex(out ? out->at : NULL, written);
        if (out) untouched(out, written, OUT_FILL, "outgoing buffer past the count");
    }
    if (got > (buf ? buf->len : 0)) {
        fault("handed over past the reader's buffer");
        got = 0;
    }
    printf(" got=");
    hex(buf ? buf->at : NULL, got);
    if (buf) untouched(buf, got, BUF_FILL, "reader's buffer past the count");
}

static char *word(char **p)
{
    char *w = strtok(*p, " \n");
    *p = NULL;
    return w ? w : "-";
}
#define NUM strtoull(word(&p), 0, 0)

/* An outgoing buffer of just the length that is needed, or somewhat more. */
static struct lent lend_out(size_t payload)
{
    static const size_t more[] = { 0, 1, 40, 300 };
    return lend(adb_out_len(payload) + more[calls / 2 % 4], OUT_FILL);
}

#define LENT state.at, state.len, rx.at, rx.len, opens.at, opens.len
#define OF(l) ptr(&l), l.len

int main(void)
{
    static char text[1 << 24];
    setvbuf(stdout, NULL, _IOFBF, 1 << 20);
    while (fgets(text, sizeof text, stdin)) {
        char *p = text, *call = word(&p);
        if (*call == '#' || *call == '-') continue;
        calls++;
        if (!strcmp(call, "make")) {
            const size_t ch = NUM;
            const uint32_t mp = (uint32_t)NUM;
            const size_t mr = NUM;
            const uint32_t ia = (uint32_t)NUM, ver = (uint32_t)NUM, dm = (uint32_t)NUM;
            const uint8_t hd = NUM ? (uint8_t)(1 + calls % 255) : 0, dd = NUM ? (uint8_t)(1 + calls % 255) : 0;
            free(state.base);
            free(rx.base);
            free(opens.base);
            state = lend(ADB_STATE_LEN, 0x33);
            rx = lend(adb_rx_store_len(ch, mp, mr), 0x44);
            opens = lend(adb_open_store_len(ch, mp), 0x55);
            const uint32_t code = adb_make(state.at, state.len, ch, mp, mr, ia, ver, dm, hd, dd);
            made = code == ADB_DONE;
            /* By the text of a CNXN that says what the flag says: the same number and the same bytes. */
            const char *text = dd ? "device::a=1;features=cmd,delayed_ack;b=2" : "device::features=cmd,shell_v2;delayed_ack";
            struct lent twin = lend(ADB_STATE_LEN, 0x33);
            if (adb_make_from_cnxn(twin.at, twin.len, ch, mp, mr, ia, ver, dm, (const uint8_t *)text, strlen(text), hd) != code ||
                memcmp(twin.at, state.at, ADB_STATE_LEN))
                fault("a make by the identity text");
            free(twin.base);
            if (made)
                printf("made cap=%zu max=%" PRIu32 " version=%" PRIu32 " delayed=%d used=0 out=- got=-", cap(),
                       word_at(ADB_STATE_DEVICE_MAX_PAYLOAD), word_at(ADB_STATE_VERSION), state.at[ADB_STATE_DELAYED]);
            else printf("refused %" PRIu32 " used=0 out=- got=-", code);
        } else if (!strcmp(call, "has_feature") || !strcmp(call, "decode") || !strcmp(call, "missing")) {
            printf("skipped\n");
            continue;
        } else if (!made) {
            printf("error no_connection used=0 out=- got=-");
        } else if (!strcmp(call, "in_use")) {
            printf("in_use n=%zu used=0 out=- got=-", in_use());
        } else if (!strcmp(call, "totals")) {
            const char *before = "totals ";
            for (size_t i = 0; i < ADB_MAX_CHANNELS; i++)
                if (size_at(ADB_STATE_SLOT(i) + ADB_STATE_SLOT_ACKED_TOTAL)) {
                    printf("%s%zu:%" PRIu64, before, i, size_at(ADB_STATE_SLOT(i) + ADB_STATE_SLOT_ACKED_TOTAL));
                    before = ";";
                }
            printf("%s used=0 out=- got=-", *before == ';' ? "" : "totals -");
        } else if (!strcmp(call, "numbers")) {
            const size_t slot = NUM;
            const uint32_t local = (uint32_t)NUM;
            struct lent a = lend(ADB_ANSWER_LEN, 0x77);
            const uint64_t was = hash(&state) ^ hash(&rx) ^ hash(&opens);
            const uint32_t code = adb_numbers(LENT, slot, local, OF(a));
            if (code == ADB_DONE || code == ADB_CLOSED)
                printf("numbers %s total=%" PRIu64 " buffered=%" PRIu64 " unacked=%" PRIu64 " budget=%" PRId64, code == ADB_CLOSED ? "closed" : "open",
                       adb_answer_acked_total(a.at), adb_answer_buffered(a.at), adb_answer_unacked(a.at), adb_answer_send_budget(a.at));
            else printf("refused %" PRIu32, code);
            if (adb_answer_used(a.at) || adb_answer_written(a.at)) fault("a call that only looks used or wrote");
            if ((hash(&state) ^ hash(&rx) ^ hash(&opens)) != was) fault("a call that only looks changed something");
            printf(" used=0 out=- got=-");
            back(&a, "answer");
        } else if (!strcmp(call, "set_next_local")) {
            const uint32_t n = (uint32_t)NUM;
            state.at[ADB_STATE_PENDING] = 0;
            for (int i = 0; i < 4; i++) state.at[ADB_STATE_NEXT_LOCAL + i] = (uint8_t)(n >> 8 * i);
            printf("set used=0 out=- got=-");
        } else if (!strcmp(call, "set_budget")) {
            const size_t slot = NUM;
            const uint32_t local = (uint32_t)NUM;
            const uint64_t n = (uint64_t)strtoll(word(&p), 0, 0);
            state.at[ADB_STATE_PENDING] = 0;
            uint8_t *s = slot < ADB_MAX_CHANNELS ? state.at + ADB_STATE_SLOT(slot) : NULL;
            const int there = s && s[ADB_STATE_SLOT_TAG] & ADB_TAG_FILLED && adb_le32(s + ADB_STATE_SLOT_LOCAL) == local;
            if (there)
                for (int i = 0; i < 8; i++) s[ADB_STATE_SLOT_BUDGET + i] = (uint8_t)(n >> 8 * i);
            printf("%s used=0 out=- got=-", there ? "set" : "refused 10");
        } else {
            struct lent a = lend(ADB_ANSWER_LEN, 0x77);
            if (!strcmp(call, "open")) {
                struct lent d = bytes(word(&p)), r = bytes(word(&p)), out = lend_out(d.len);
                const uint64_t was = hash(&d) ^ hash(&r);
                const uint32_t code = adb_open(LENT, OF(d), OF(r), OF(out), OF(a));
                line(code, "opened", 2, &a, &out, NULL);
                if ((hash(&d) ^ hash(&r)) != was) fault("handed in bytes");
                back(&d, "destination"), back(&r, "received"), back(&out, "out");
            } else if (!strcmp(call, "dispatch")) {
                struct lent r = bytes(word(&p)), out = lend_out(0);
                const uint64_t was = hash(&r);
                const uint32_t code = adb_dispatch(LENT, OF(r), OF(out), OF(a));
                line(code, "handled", 0, &a, &out, NULL);
                if (hash(&r) != was) fault("handed in bytes");
                back(&r, "received"), back(&out, "out");
            } else if (!strcmp(call, "settle")) {
                const size_t slot = NUM;
                const uint32_t local = (uint32_t)NUM;
                const size_t want = NUM;
                struct lent out = lend_out(0);
                const uint64_t was = hash(&rx) ^ hash(&opens);
                const uint32_t code = adb_settle(LENT, slot, local, want, OF(out), OF(a));
                line(code, "settled", 1, &a, &out, NULL);
                if ((hash(&rx) ^ hash(&opens)) != was) fault("a store");
                back(&out, "out");
            } else if (!strcmp(call, "take")) {
                const size_t slot = NUM;
                const uint32_t local = (uint32_t)NUM;
                struct lent buf = lend(NUM, BUF_FILL);
                const uint64_t was = hash(&rx) ^ hash(&opens);
                const uint32_t code = adb_take(LENT, slot, local, OF(buf), OF(a));
                line(code, "taken", 1, &a, NULL, &buf);
                if ((hash(&rx) ^ hash(&opens)) != was) fault("a store");
                back(&buf, "buf");
            } else if (!strcmp(call, "read")) {
                const size_t slot = NUM;
                const uint32_t local = (uint32_t)NUM;
                struct lent buf = lend(NUM, BUF_FILL), r = bytes(word(&p)), out = lend_out(0);
                const uint64_t was = hash(&r);
                const uint32_t code = adb_read(LENT, slot, local, OF(r), OF(out), OF(buf), OF(a));
                line(code, "read", 1, &a, &out, &buf);
                if (hash(&r) != was) fault("handed in bytes");
                back(&buf, "buf"), back(&r, "received"), back(&out, "out");
            } else if (!strcmp(call, "write")) {
                const size_t slot = NUM;
                const uint32_t local = (uint32_t)NUM;
                struct lent d = bytes(word(&p)), r = bytes(word(&p)), out = lend_out(d.len);
                const uint64_t was = hash(&d) ^ hash(&r);
                const uint32_t code = adb_write(LENT, slot, local, OF(d), OF(r), OF(out), OF(a));
                line(code, "written", 1, &a, &out, NULL);
                if ((hash(&d) ^ hash(&r)) != was) fault("handed in bytes");
                back(&d, "data"), back(&r, "received"), back(&out, "out");
            } else if (!strcmp(call, "close")) {
                const size_t slot = NUM;
                const uint32_t local = (uint32_t)NUM;
                struct lent out = lend_out(0);
                const uint64_t was = hash(&rx) ^ hash(&opens);
                const uint32_t code = adb_close(LENT, slot, local, OF(out), OF(a));
                line(code, "closed", 0, &a, &out, NULL);
                if ((hash(&rx) ^ hash(&opens)) != was) fault("a store");
                back(&out, "out");
            } else if (!strcmp(call, "take_front")) {
                const uint64_t was = hash(&rx) ^ hash(&opens);
                const uint32_t code = adb_take_front(LENT, OF(a));
                line(code, "front", 4, &a, NULL, NULL);
                if ((hash(&rx) ^ hash(&opens)) != was) fault("a store");
            } else if (!strcmp(call, "accept") || !strcmp(call, "reject")) {
                struct lent out = lend_out(0);
                const uint64_t was = hash(&rx) ^ hash(&opens);
                const int takes = !strcmp(call, "accept");
                const uint32_t code = takes ? adb_accept(LENT, OF(out), OF(a)) : adb_reject(LENT, OF(out), OF(a));
                line(code, takes ? "opened" : "rejected", takes ? 2 : 0, &a, &out, NULL);
                if ((hash(&rx) ^ hash(&opens)) != was) fault("a store");
                back(&out, "out");
            } else if (!strcmp(call, "let_go")) {
                const uint64_t was = hash(&rx) ^ hash(&opens);
                const uint32_t code = adb_let_go(LENT, OF(a));
                line(code, "let_go", 0, &a, NULL, NULL);
                if ((hash(&rx) ^ hash(&opens)) != was) fault("a store");
            } else printf("error no such call: %s", call);
            back(&a, "answer");
        }
        guarded(&state, "state"), guarded(&rx, "receive store"), guarded(&opens, "open store");
        print_state();
    }
    free(state.base);
    free(rx.base);
    free(opens.base);
    return 0;
}
