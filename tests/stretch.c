/* The shortest stretch against a plain search. Prints counts; exit status 1 on a fault.
 *
 *   stretch [SEED] [LOGS]
 *
 * A live connection is built by a short run of calls, in both modes, with bytes buffered, some set aside, and with or without
 * an open that waits. Then logs of 1 to 40 frames are made up, most of them WRTEs that bring a channel near its cap, with a frame
 * that is refused, or none, at their end. For each, adb_stretch is compared with the search that docs/SCOPE.md, 14, tells: every
 * stretch, fewest frames first, then earliest, each dispatched by adb_dispatch from a copy of the state and of both stores. The
 * spare stores hold anything; state and stores must be as they were, and so must the bytes right behind the spare stores.
 *
 * Then the call is made on broken states, and with every buffer one byte short.
 */
#include "../demo/common.h"

#define CHANNELS 4
#define PAYLOAD 32
#define MAX_RX 96
#define INITIAL_ACK 64
#define MOST 32
#define GUARD 16
#define RX (CHANNELS * 2 * MAX_RX)
#define OPENS (CHANNELS * PAYLOAD)
#define FRAMES 40

static uint8_t state[ADB_STATE_LEN], rx[RX], opens[OPENS], out[ADB_OUT_MIN], answer[ADB_ANSWER_LEN];
static uint8_t state2[ADB_STATE_LEN], rx2[RX], opens2[OPENS], answer2[ADB_ANSWER_LEN];
static uint8_t spare_rx[RX + GUARD], spare_opens[OPENS + GUARD];
static uint8_t log_bytes[FRAMES * (ADB_HEADER_LEN + PAYLOAD + 8)];
static size_t log_len;
static uint32_t locals[CHANNELS];
static size_t opened;

/* what the logs were */
static unsigned long logs, none, alone, whole_log, between_them, waits, past, tied, other, by_number[24], dispatches;

static uint32_t dispatch(const uint8_t *received, size_t n)
{
    dispatches++;
    return adb_dispatch(state2, sizeof state2, rx2, sizeof rx2, opens2, sizeof opens2, received, n, out, sizeof out, answer2,
                        sizeof answer2);
}

static void anew(void)
{
    memcpy(state2, state, sizeof state);
    memcpy(rx2, rx, sizeof rx);
    memcpy(opens2, opens, sizeof opens);
}

/* ---- a connection */

static void fill(int delayed)
{
    uint8_t frame[ADB_HEADER_LEN + 4];
    if (adb_make(state, sizeof state, CHANNELS, PAYLOAD, MAX_RX, INITIAL_ACK, 0x01000001, 4096, 1, (uint8_t)delayed)) die("make", 0, 0);
    for (size_t i = 0; i < sizeof rx; i++) rx[i] = (uint8_t)next();
    for (size_t i = 0; i < sizeof opens; i++) opens[i] = (uint8_t)next();
    opened = 1 + below(CHANNELS - 1);
    for (size_t i = 0; i < opened; i++) {
        uint32_t said = adb_open(state, sizeof state, rx, sizeof rx, opens, sizeof opens, (const uint8_t *)"x:", 3, NULL, 0, out,
                                 sizeof out, answer, sizeof answer);
        if (said != ADB_WAITING) die("open", said, i);
        locals[i] = adb_le32(out + 4);
        put_head(frame, "OKAY", (uint32_t)(100 + i), locals[i], delayed ? 4 : 0, 0);
        put32(frame + ADB_HEADER_LEN, 1000);
        said = adb_open(state, sizeof state, rx, sizeof rx, opens, sizeof opens, NULL, 0, frame, sizeof frame - (delayed ? 0 : 4),
                        out, sizeof out, answer, sizeof answer);
        if (said != ADB_DONE) die("opened", said, i);
    }
}

static size_t put_frame(uint8_t *p, const char *command, uint32_t arg0, uint32_t arg1, size_t n)
{
    for (size_t i = 0; i < n; i++) p[ADB_HEADER_LEN + i] = (uint8_t)next();
    put_head(p, command, arg0, arg1, n, chance(30) ? sum(p + ADB_HEADER_LEN, n) : 0);
    return ADB_HEADER_LEN + n;
}

/* bytes are buffered, some of them set aside, and an open may wait */
static void use(void)
{
    uint8_t frame[ADB_HEADER_LEN + PAYLOAD];
    for (size_t k = below(4); k > 0; k--) {
        const size_t i = below(opened);
        const size_t n = put_frame(frame, "WRTE", (uint32_t)(100 + i), locals[i], below(PAYLOAD + 1));
        adb_dispatch(state, sizeof state, rx, sizeof rx, opens, sizeof opens, frame, n, out, sizeof out, answer, sizeof answer);
        if (chance(30))
            adb_settle(state, sizeof state, rx, sizeof rx, opens, sizeof opens, i, locals[i], below(20), out, sizeof out, answer,
                       sizeof answer);
    }
    if (chance(30))
        adb_open(state, sizeof state, rx, sizeof rx, opens, sizeof opens, (const uint8_t *)"y:", 3, NULL, 0, out, sizeof out, answer,
                 sizeof answer);
}

/* ---- a log */

static size_t done_frame(uint8_t *p, size_t most)
{
    const size_t i = below(opened);
    const uint32_t remote = (uint32_t)(100 + i);
    switch (below(12)) {
    case 0: return put_frame(p, "CLSE", remote, chance(50) ? locals[i] : 0, 0);
    case 1: return put_frame(p, "OPEN", (uint32_t)(500 + below(8)), 0, below(PAYLOAD + 1));
    case 2: return put_frame(p, "OKAY", remote, (uint32_t)(7000 + below(9)), below(8));
    case 3: return put_frame(p, "CNXN", 0x01000001, 4096, below(PAYLOAD + 1));
    case 4: {
        const size_t n = put_frame(p, "OKAY", remote, locals[i], 4);
        put32(p + ADB_HEADER_LEN, (uint32_t)below(1000));
        put_head(p, "OKAY", remote, locals[i], 4, 0);
        return n;
    }
    default: return put_frame(p, "WRTE", remote, locals[i], below(most + 1));
    }
}

static size_t refused_frame(uint8_t *p)
{
    const size_t i = below(opened);
    const uint32_t remote = (uint32_t)(100 + i);
    size_t n;
    switch (below(9)) {
    case 0: n = put_frame(p, "WRTE", remote, locals[i], 5); put32(p, 0x12345678); return n;
    case 1: n = put_frame(p, "WRTE", remote, locals[i], 5); p[20] ^= 1; return n;
    case 2: put_head(p, "WRTE", remote, locals[i], PAYLOAD + 1, 0); return ADB_HEADER_LEN;
    case 3: n = put_frame(p, "WRTE", remote, locals[i], 5); put32(p + 16, sum(p + ADB_HEADER_LEN, 5) + 1); return n;
    case 4: return put_frame(p, "OKAY", remote, locals[i], below(4));
    case 5: return put_frame(p, "OKAY", remote, locals[i], 5 + below(4));
    case 6: n = put_frame(p, "OKAY", remote, locals[i], 4); put32(p + ADB_HEADER_LEN, 0x80000000u); put_head(p, "OKAY", remote, locals[i], 4, 0); return n;
    case 7: return put_frame(p, "WRTE", remote, locals[i], PAYLOAD) - 1;
    default: return put_frame(p, "WRTE", remote, locals[i], PAYLOAD);
    }
}

static void make_log(void)
{
    const size_t n = chance(15) ? MOST + below(FRAMES - MOST) : below(14);
    const size_t most = chance(30) ? 1 + below(4) : PAYLOAD;
    log_len = 0;
    for (size_t i = 0; i < n; i++) log_len += done_frame(log_bytes + log_len, most);
    if (chance(85)) log_len += refused_frame(log_bytes + log_len);
}

/* ---- the plain search */

static size_t places[MOST + 1], frames;

/* what the frames from `first` on end in: the number of the first of n that is not done, 0 where all are */
static uint32_t ends(size_t first, size_t n)
{
    anew();
    for (size_t i = first; i < first + n; i++) {
        const uint32_t said = dispatch(log_bytes + places[i], log_len - places[i]);
        if (said != ADB_DONE) return said;
    }
    return 0;
}

static int counts(uint32_t x) { return (x >= 1 && x <= 5) || x == 11 || x == 20 || x == 21; }

static uint32_t search(size_t *first, size_t *count)
{
    uint32_t said = 0;
    size_t at = 0;
    anew();
    for (frames = 0; frames < MOST && said == 0; frames++) {
        places[frames] = at;
        said = dispatch(log_bytes + at, log_len - at);
        at += (size_t)adb_answer_used(answer2);
    }
    if (said == 0) past += counts(dispatch(log_bytes + at, log_len - at));
    if (said == ADB_WAITING) waits++;
    if (!counts(said)) return ADB_NONE;
    by_number[said]++;
    for (size_t n = 1; n <= frames; n++) {
        size_t found = 0, here = 0;
        for (size_t i = 0; i + n <= frames; i++) {
            const uint32_t x = ends(i, n);
            if (x == said && found++ == 0) here = i;
            else if (x != said && x != 0) other++;
        }
        if (found) {
            *first = here;
            *count = n;
            tied += found > 1;
            alone += n == 1;
            whole_log += n == frames && n > 1;
            between_them += n > 1 && n < frames;
            return ADB_DONE;
        }
    }
    die("a refused log has no stretch", said, frames);
    return 0;
}

static void compare(void)
{
    static uint8_t guard[GUARD];
    size_t first = 0, count = 0;
    const uint32_t want = search(&first, &count);
    anew();
    memset(guard, 0xA5, GUARD);
    for (size_t i = 0; i < RX; i++) spare_rx[i] = (uint8_t)next();
    for (size_t i = 0; i < OPENS; i++) spare_opens[i] = (uint8_t)next();
    memcpy(spare_rx + RX, guard, GUARD);
    memcpy(spare_opens + OPENS, guard, GUARD);
    memset(answer, 0x5A, sizeof answer);
    const int longer = chance(20);
    const uint32_t said = adb_stretch(state, sizeof state, rx, sizeof rx, opens, sizeof opens, log_bytes, log_len, spare_rx,
                                      RX + (longer ? GUARD : 0), spare_opens, OPENS + (longer ? GUARD : 0), answer, sizeof answer);
    if (said != want) die("number", said, want);
    if (adb_answer_used(answer) || adb_answer_written(answer)) die("counts", adb_answer_used(answer), adb_answer_written(answer));
    if (adb_answer_first(answer) != first) die("first", adb_answer_first(answer), first);
    if (adb_answer_count(answer) != count) die("count", adb_answer_count(answer), count);
    if (adb_answer_value(answer, 2) || adb_answer_value(answer, 3)) die("values", said, 0);
    if (memcmp(state, state2, sizeof state) || memcmp(rx, rx2, sizeof rx) || memcmp(opens, opens2, sizeof opens)) die("lent bytes", said, 0);
    if (memcmp(spare_rx + RX, guard, GUARD) || memcmp(spare_opens + OPENS, guard, GUARD)) die("behind a spare store", said, 0);
    logs++;
    none += said == ADB_NONE;
}

/* ---- refusals: nothing is touched */

static unsigned long broken, whole, shorts;

static void refused(uint32_t want, size_t s, size_t r, size_t o, size_t sr, size_t so, size_t a)
{
    uint8_t r0[RX], o0[OPENS], a0[ADB_ANSWER_LEN];
    memset(answer, 0x5A, sizeof answer);
    memcpy(r0, spare_rx, RX);
    memcpy(o0, spare_opens, OPENS);
    memset(a0, a < sizeof answer || s < sizeof state ? 0x5A : 0, sizeof a0);
    const uint32_t said = adb_stretch(state2, s, rx, r, opens, o, log_bytes, log_len, spare_rx, sr, spare_opens, so, answer, a);
    if (said != want) die("refusal", said, want);
    if (memcmp(r0, spare_rx, RX) || memcmp(o0, spare_opens, OPENS) || memcmp(a0, answer, sizeof a0)) die("refused, and touched", said, 0);
}

static void damage(void)
{
    anew();
    refused(8, sizeof state - 1, RX, OPENS, RX, OPENS, sizeof answer);
    refused(8, sizeof state, RX, OPENS, RX, OPENS, sizeof answer - 1);
    refused(8, sizeof state, RX - 1, OPENS, RX, OPENS, sizeof answer);
    refused(8, sizeof state, RX, OPENS - 1, RX, OPENS, sizeof answer);
    refused(8, sizeof state, RX, OPENS, RX - 1, OPENS, sizeof answer);
    refused(8, sizeof state, RX, OPENS, RX, OPENS - 1, sizeof answer);
    refused(8, sizeof state, RX, OPENS, 0, 0, sizeof answer);
    shorts += 7;
    for (size_t i = 0; i < sizeof state; i++) {
        anew();
        state2[i] ^= (uint8_t)(1 + below(255));
        const uint32_t said = adb_dispatch(state2, sizeof state2, rx2, sizeof rx2, opens2, sizeof opens2, NULL, 0, out, sizeof out, answer2, sizeof answer2);
        if (said == 13) {
            refused(13, sizeof state, RX, OPENS, RX, OPENS, sizeof answer);
            refused(13, sizeof state, 0, 0, 0, 0, sizeof answer);
            broken++;
        } else {
            whole++;
        }
    }
}

int main(int argc, char **argv)
{
    rng = argc > 1 ? strtoull(argv[1], NULL, 0) : 1;
    const unsigned long most = argc > 2 ? strtoul(argv[2], NULL, 0) : 40000;
    while (logs < most) {
        fill(logs % 2);
        mode = logs % 2 ? "delayed" : "plain";
        use();
        make_log();
        compare();
        if (logs % 4000 == 0) damage();
    }
    printf("stretch: %lu logs agree with a plain search of %lu dispatches: %lu end in none, %lu of them in an incomplete frame, %lu in a 33rd frame that is refused\n",
           logs, dispatches, none, waits, past);
    printf("stretch: the refused frame alone %lu, all frames %lu, some of them %lu; two of the fewest %lu, another refusal %lu\n", alone, whole_log,
           between_them, tied, other);
    for (int x = 0; x < 24; x++)
        if (by_number[x]) printf("stretch: refusal %d: %lu logs\n", x, by_number[x]);
    printf("stretch: %lu broken states, %lu short buffers, nothing touched\n", broken, shorts);
    if (!alone || !between_them || !whole_log || !waits || !past) die("a kind of log is missing", alone, past);
    return 0;
}
