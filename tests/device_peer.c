/* A device for a real adb, on adb_device.h: streams, files and commands. Exit status 1 on any fault.
 *
 *   device_peer PORT MAX_PAYLOAD MAX_RX_PER_CHANNEL INITIAL_ACK_BYTES FEATURES NAME...
 *
 * It listens on a loopback port (0: a free one), takes one connection and ends with it. FEATURES is the list in its identity text; the
 * names are its table, and all that it serves:
 *   sync:...    files by adb_sync.h. They are kept in memory, in one directory (DIRECTORY): STAT, LIST and LIS2, RECV, SEND
 *   shell...:   a command behind the colon, by the frames of adb_shell.h: `ls PATH`, `cat` (its input, to its output), `exit N`; of any
 *               other it says that it is not there
 *   ...drop     what arrives is read and dropped
 *   any other   what arrives is echoed
 * One loop waits by poll. Packets are taken as they arrive, whatever the readers do. A read or a write is lent no received bytes.
 */
#define _POSIX_C_SOURCE 200809L
#include "wire.h"

#include <adb_device.h>
#include <adb_shell.h>
#include <adb_sync.h>

#define IN_MORE 65536      /* received bytes beyond one frame */
#define UNSENT_MAX 1048576 /* with more than this to send no stream is served */
#define DUE_MAX 300000     /* with more than this to write a stream is not read */
#define PIECE 65536        /* bytes of a read */
#define DIRECTORY "/data"
#define TIME 1700000000
#define FILES 64

enum service { ECHO, DROP, SYNC, SHELL };

struct stream {
    int taken, over;         /* over: closed once all is written */
    enum service service;
    const char *name, *command;
    uint32_t local, number, crc; /* number: how many were taken before it */
    uint64_t got, put;
    struct queue heard, due; /* bytes of messages that are not all there; bytes to write */
    struct queue sending;    /* sync: the file that arrives */
    char path[1025];
    uint32_t mode;
};

struct file {
    char path[1025];
    uint32_t mode, time;
    struct queue bytes;
};

static uint32_t max_payload;
static size_t rx_len, opens_len, out_len, in_room, have, names_len;
static struct stream streams[ADB_MAX_CHANNELS];
static struct file files[FILES];
static size_t file_count;
static uint8_t state[ADB_DEVICE_STATE_LEN], answer[ADB_ANSWER_LEN], *rx, *opens, *in, *out, *names, piece[PIECE];
static uint8_t said[ADB_SYNC_ANSWER_V2_LEN], message[ADB_SYNC_HEAD_V2_MAX + PIECE];
static uint64_t taken, refused, overflows, got, put, longest, lis2, read_by[4];

#define LENT state, sizeof state, rx, rx_len, opens, opens_len
#define NAMES names, names_len

/* After each call: what it wrote goes to the wire. */
static uint32_t sending(uint32_t number)
{
    const size_t n = (size_t)adb_answer_written(answer);
    add(&unsent, out, n);
    if (n > longest) longest = n;
    return number;
}

/* ---- files */

static struct file *file_at(const char *path)
{
    for (size_t i = 0; i < file_count; i++)
        if (!strcmp(files[i].path, path)) return &files[i];
    return NULL;
}

static const char *base(const struct file *f) { return strrchr(f->path, '/') + 1; }

static int is_directory(const char *path) { return !strcmp(path, DIRECTORY) || !strcmp(path, DIRECTORY "/"); }

static void keep_file(struct stream *s, uint32_t time)
{
    struct file *f = file_at(s->path);
    if (!f && file_count == FILES) die("too many files", file_count, 0);
    if (!f) f = &files[file_count++];
    else empty(&f->bytes);
    memcpy(f->path, s->path, sizeof f->path);
    f->mode = s->mode;
    f->time = time;
    f->bytes = s->sending;
    memset(&s->sending, 0, sizeof s->sending);
}

/* ---- sync */

static void replies(struct stream *s, uint32_t exchange, uint32_t id, uint32_t a, uint32_t b, uint32_t c, const void *text, size_t n)
{
    const uint32_t r = adb_sync_write(exchange, id, a, b, c, 0, text, n, message, sizeof message, said, sizeof said);
    if (r != ADB_SYNC_MESSAGE) die("a message is not written", r, id);
    add(&s->due, message, adb_sync_written(said));
}

static void replies_v2(struct stream *s, uint32_t id, uint32_t mode, uint64_t size, int64_t time, const char *name)
{
    const uint32_t r = adb_sync_write_v2(ADB_SYNC_LIST_V2_REPLIES, id, 0, 1, 2, mode, 1, 1000, 1000, size, time, time, time, 0,
                                         (const uint8_t *)name, strlen(name), message, sizeof message, said, sizeof said);
    if (r != ADB_SYNC_MESSAGE) die("a message is not written", r, id);
    add(&s->due, message, adb_sync_written(said));
}

static void lists(struct stream *s, const char *path, int v2)
{
    for (size_t i = 0; is_directory(path) && i < file_count; i++) {
        const struct file *f = &files[i];
        if (v2) replies_v2(s, ADB_SYNC_ID_DNT2, f->mode, count(&f->bytes), f->time, base(f));
        else replies(s, ADB_SYNC_LIST_REPLIES, ADB_SYNC_ID_DENT, f->mode, (uint32_t)count(&f->bytes), f->time, base(f), strlen(base(f)));
    }
    if (v2) replies_v2(s, ADB_SYNC_ID_DONE, 0, 0, 0, "");
    else replies(s, ADB_SYNC_LIST_REPLIES, ADB_SYNC_ID_DONE, 0, 0, 0, NULL, 0);
}

static void gives(struct stream *s, const char *path)
{
    static const char why[] = "no such file";
    const struct file *f = file_at(path);
    if (!f) {
        replies(s, ADB_SYNC_RECV_REPLIES, ADB_SYNC_ID_FAIL, 0, 0, 0, why, strlen(why));
        return;
    }
    for (size_t at = 0, n; at < count(&f->bytes); at += n) {
        n = least(count(&f->bytes) - at, ADB_SYNC_DATA_MAX);
        replies(s, ADB_SYNC_RECV_REPLIES, ADB_SYNC_ID_DATA, 0, 0, 0, front(&f->bytes) + at, n);
    }
    replies(s, ADB_SYNC_RECV_REPLIES, ADB_SYNC_ID_DONE, 0, 0, 0, NULL, 0);
}

static void stats(struct stream *s, const char *path)
{
    const struct file *f = file_at(path);
    const int there = f || is_directory(path);
    replies(s, ADB_SYNC_STAT_REPLIES, ADB_SYNC_ID_STAT, f ? f->mode : there ? 0040755 : 0, f ? (uint32_t)count(&f->bytes) : there ? 4096 : 0,
            f ? f->time : there ? TIME : 0, NULL, 0);
}

static void asked(struct stream *s, uint32_t id, uint32_t number, const uint8_t *bytes, size_t n)
{
    char text[sizeof s->path], *comma;
    if (id != ADB_SYNC_ID_DATA && n >= sizeof text) die("a path is too long", n, id);
    if (id == ADB_SYNC_ID_DATA) {
        add(&s->sending, bytes, n);
        return;
    }
    memcpy(text, bytes, n);
    text[n] = 0;
    if (id == ADB_SYNC_ID_STAT) stats(s, text);
    else if (id == ADB_SYNC_ID_LIST) lists(s, text, 0);
    else if (id == ADB_SYNC_ID_LIS2) lis2++, lists(s, text, 1);
    else if (id == ADB_SYNC_ID_RECV) gives(s, text);
    else if (id == ADB_SYNC_ID_SEND) {
        if (!(comma = strrchr(text, ',')) || text[0] != '/') die("a SEND's text", n, 0);
        *comma = 0;
        memcpy(s->path, text, sizeof text);
        s->mode = (uint32_t)strtoul(comma + 1, NULL, 10);
    } else if (id == ADB_SYNC_ID_DONE) {
        keep_file(s, number);
        replies(s, ADB_SYNC_SEND_REPLIES, ADB_SYNC_ID_OKAY, 0, 0, 0, NULL, 0);
    } else if (id == ADB_SYNC_ID_QUIT) s->over = 1;
    else die("a request that is not served", id, 0);
}

static void syncs(struct stream *s)
{
    uint32_t r;
    while (!s->over && (r = adb_sync_read(ADB_SYNC_REQUESTS, front(&s->heard), count(&s->heard), said, sizeof said)) != ADB_SYNC_WAITING) {
        const size_t n = adb_sync_used(said);
        if (r != ADB_SYNC_MESSAGE) die("a request is refused", r, 0);
        asked(s, adb_sync_id(said), adb_sync_value(said, 0), front(&s->heard) + adb_sync_at(said), adb_sync_length(said));
        drop(&s->heard, n);
    }
}

/* ---- shell */

static void prints(struct stream *s, uint32_t kind, const void *bytes, size_t n)
{
    const uint32_t r = adb_shell_write(kind, bytes, n, message, sizeof message, said, sizeof said);
    if (r != ADB_SHELL_FRAME) die("a frame is not written", r, kind);
    add(&s->due, message, adb_shell_written(said));
}

static void ends(struct stream *s, int code)
{
    const uint8_t byte = (uint8_t)code;
    prints(s, ADB_SHELL_EXIT, &byte, 1);
    s->over = 1;
}

static void runs(struct stream *s)
{
    static const char no_such[] = "no such file or directory\n", none[] = "not found\n";
    if (!strncmp(s->command, "ls ", 3)) {
        const int there = is_directory(s->command + 3);
        for (size_t i = 0; there && i < file_count; i++) {
            prints(s, ADB_SHELL_OUTPUT, base(&files[i]), strlen(base(&files[i])));
            prints(s, ADB_SHELL_OUTPUT, "\n", 1);
        }
        if (!there) prints(s, ADB_SHELL_ERRORS, no_such, strlen(no_such));
        ends(s, there ? 0 : 1);
    } else if (!strncmp(s->command, "exit ", 5)) ends(s, atoi(s->command + 5));
    else if (strcmp(s->command, "cat")) {
        prints(s, ADB_SHELL_ERRORS, none, strlen(none));
        ends(s, 127);
    }
}

/* What the host's frames bring to a command that is still there: its input. */
static void is_typed(struct stream *s)
{
    uint32_t r;
    while (!s->over && (r = adb_shell_read(front(&s->heard), count(&s->heard), said, sizeof said)) != ADB_SHELL_WAITING) {
        const size_t n = adb_shell_used(said), at = adb_shell_at(said), length = adb_shell_length(said);
        const uint32_t kind = adb_shell_kind(said);
        if (r != ADB_SHELL_FRAME) die("a frame is refused", r, s->local);
        for (size_t k = 0, m; kind == ADB_SHELL_INPUT && k < length; k += m) {
            m = least(length - k, PIECE);
            prints(s, ADB_SHELL_OUTPUT, front(&s->heard) + at + k, m);
        }
        if (kind == ADB_SHELL_CLOSE_INPUT) ends(s, 0);
        drop(&s->heard, n);
    }
}

/* ---- streams */

static int ends_in(const char *text, const char *end)
{
    return strlen(text) >= strlen(end) && !strcmp(text + strlen(text) - strlen(end), end);
}

static void begins(void)
{
    struct stream *s = &streams[adb_answer_slot(answer)];
    if (s->taken) die("a slot that is filled", adb_answer_slot(answer), 0);
    *s = (struct stream){ .taken = 1, .local = adb_answer_local(answer), .number = (uint32_t)taken++ };
    s->name = (const char *)names + adb_device_answer_name(answer);
    s->service = !strncmp(s->name, "sync:", 5) ? SYNC : !strncmp(s->name, "shell", 5) ? SHELL : ends_in(s->name, "drop") ? DROP : ECHO;
    if (s->service == SHELL) {
        const char *colon = strchr(s->name, ':');
        s->command = colon ? colon + 1 : "";
        runs(s);
    }
}

static void closes(struct stream *s)
{
    const uint32_t r = sending(adb_device_close(LENT, (size_t)(s - streams), s->local, out, out_len, answer, sizeof answer));
    if (r != ADB_DONE) die("a stream is not closed", r, s->local);
    if (s->service == DROP || s->service == ECHO)
        printf("stream %" PRIu32 " %s read=%" PRIu64 " crc=%08" PRIx32 " wrote=%" PRIu64 "\n", s->number, s->name, s->got, s->crc, s->put);
    got += s->got;
    put += s->put;
    read_by[s->service] += s->got;
    empty(&s->heard), empty(&s->due), empty(&s->sending);
    s->taken = 0;
}

/* Writes what is due, as far as the host's credit goes; a WRTE is at most max_payload. */
static void writes(struct stream *s)
{
    while (count(&s->due) && count(&unsent) < UNSENT_MAX) {
        const uint32_t r = sending(adb_device_write(LENT, NAMES, (size_t)(s - streams), s->local, front(&s->due),
                                                    (size_t)least(count(&s->due), max_payload), NULL, 0, out, out_len, answer, sizeof answer));
        if (r == ADB_WAITING) return;
        if (r == ADB_REFUSED_CHANNEL_CLOSED) { /* the host hears no more */
            empty(&s->due);
            return;
        }
        if (r != ADB_DONE) die("a write", r, s->local);
        s->put += adb_answer_length(answer);
        drop(&s->due, adb_answer_length(answer));
    }
}

static void hears(struct stream *s, size_t n)
{
    s->got += n;
    if (s->service == DROP) s->crc = crc32(s->crc, piece, n);
    else add(s->service == ECHO ? &s->due : &s->heard, piece, n);
    if (s->service == SYNC) syncs(s);
    else if (s->service == SHELL) is_typed(s);
}

/* Writes and reads in turn, until the one or the other waits. */
static void serves(struct stream *s)
{
    while (s->taken && count(&unsent) < UNSENT_MAX) {
        uint32_t r;
        writes(s);
        if (s->over && !count(&s->due)) {
            closes(s);
            return;
        }
        if (s->over || count(&s->due) > DUE_MAX) return;
        r = sending(adb_device_read(LENT, NAMES, (size_t)(s - streams), s->local, NULL, 0, out, out_len, piece, sizeof piece, answer, sizeof answer));
        if (r == ADB_WAITING) return;
        if (r == ADB_REFUSED_CHANNEL_CLOSED) {
            closes(s);
            return;
        }
        if (r != ADB_DONE) die("a read", r, s->local);
        hears(s, adb_answer_length(answer));
    }
}

static void dispatches(void)
{
    size_t at = 0, used = 1;
    while (used) {
        const uint32_t r = sending(adb_device_dispatch(LENT, NAMES, in + at, have - at, out, out_len, answer, sizeof answer));
        used = (size_t)adb_answer_used(answer);
        if (r == ADB_DEVICE_CONNECTED)
            printf("cnxn version=%08" PRIx32 " maxdata=%" PRIu32 " delayed=%d\n", adb_device_answer_version(answer),
                   adb_device_answer_max_payload(answer), adb_device_answer_delayed(answer));
        else if (r == ADB_DEVICE_TAKEN) begins();
        else if (r == ADB_REFUSED_CHANNEL_RX_OVERFLOW) overflows++;
        else if (r != ADB_DONE && r != ADB_WAITING) die("a packet", r, adb_le32(in + at));
        else if (used && !memcmp(in + at, "OPEN", 4)) {
            refused++;
            printf("refused %.*s\n", (int)adb_le32(in + at + 12), (const char *)in + at + ADB_HEADER_LEN);
        }
        at += used;
    }
    have -= at;
    memmove(in, in + at, have);
}

int main(int argc, char **argv)
{
    char text[256];
    size_t max_rx;
    uint32_t initial_ack, r;
    int fd, n;
    if (argc < 6) die("device_peer PORT MAX_PAYLOAD MAX_RX_PER_CHANNEL INITIAL_ACK_BYTES FEATURES NAME...", (uint64_t)argc, 6);
    mode = "device_peer";
    setvbuf(stdout, NULL, _IOLBF, BUFSIZ); /* a script reads along */
    max_payload = (uint32_t)strtoul(argv[2], NULL, 10);
    max_rx = (size_t)strtoul(argv[3], NULL, 10);
    initial_ack = (uint32_t)strtoul(argv[4], NULL, 10);
    n = snprintf(text, sizeof text, "device::ro.product.name=vedunka;ro.product.model=vedunka;ro.product.device=vedunka;features=%s", argv[5]);
    if (n < 0 || (size_t)n >= sizeof text) die("the features are too long", (uint64_t)n, 0);
    r = adb_device_make(state, sizeof state, ADB_MAX_CHANNELS, max_payload, max_rx, initial_ack, (const uint8_t *)text, (size_t)n);
    if (r != ADB_DONE) die("no end is made", r, 0);
    for (int i = 6; i < argc; i++) names_len += strlen(argv[i]) + 1;
    names = memory(NULL, names_len);
    for (size_t i = 6, at = 0; i < (size_t)argc; at += strlen(argv[i++]) + 1) memcpy(names + at, argv[i], strlen(argv[i]) + 1);
    rx = memory(NULL, rx_len = adb_rx_store_len(ADB_MAX_CHANNELS, max_payload, max_rx));
    opens = memory(NULL, opens_len = adb_open_store_len(ADB_MAX_CHANNELS, max_payload));
    out = memory(NULL, out_len = adb_out_len(max_payload > sizeof text ? max_payload : sizeof text));
    in = memory(NULL, in_room = ADB_HEADER_LEN + max_payload + IN_MORE);
    fd = listens((uint16_t)atoi(argv[1]));
    fcntl(fd, F_SETFL, O_NONBLOCK);
    while (arrives(fd, -1, in, &have, in_room)) {
        dispatches();
        for (int i = 0; i < ADB_MAX_CHANNELS; i++) serves(&streams[i]);
        send_some(fd);
    }
    printf("end taken=%" PRIu64 " refused=%" PRIu64 " refused11=%" PRIu64 " read=%" PRIu64 " wrote=%" PRIu64 " longest=%" PRIu64 " echo=%" PRIu64
           " sync=%" PRIu64 " shell=%" PRIu64 " lis2=%" PRIu64 "\n", taken, refused, overflows, got, put, longest, read_by[ECHO], read_by[SYNC],
           read_by[SHELL], lis2);
    return 0;
}
