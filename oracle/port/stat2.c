/* A line of standard input is the body of a STA2 reply in hexadecimal. Reads it behind its id by adb_sync_read_v2, writes it
 * again by adb_sync_write_v2, and prints the stat's numbers as oracle/harness/src/bin/stat2.rs does. Exit status 1 on a fault. */
#include <adb_sync.h>

#include <inttypes.h>
#include <stdio.h>
#include <string.h>

static int digit(int c) { return c <= '9' ? c - '0' : c - 'a' + 10; }

int main(void)
{
    char line[256];
    uint8_t in[72] = { 'S', 'T', 'A', '2' }, out[72], answer[ADB_SYNC_ANSWER_V2_LEN], count[ADB_SYNC_WRITE_ANSWER_LEN];
    while (fgets(line, sizeof line, stdin)) {
        for (int i = 0; i < 68; i++) in[4 + i] = (uint8_t)(digit(line[2 * i]) << 4 | digit(line[2 * i + 1]));
        if (adb_sync_read_v2(ADB_SYNC_STAT_V2_REPLIES, in, sizeof in, answer, sizeof answer)) return 1;
        if (adb_sync_used(answer) != sizeof in) return 1;
        const adb_sync_stat_v2 s = adb_sync_stat(answer);
        if (adb_sync_write_v2(ADB_SYNC_STAT_V2_REPLIES, adb_sync_id(answer), s.error, s.dev, s.ino, s.mode, s.nlink, s.uid,
                              s.gid, s.size, s.atime, s.mtime, s.ctime, 0, NULL, 0, out, sizeof out, count, sizeof count)
            || memcmp(in, out, sizeof in))
            return 1;
        printf("error=%" PRIu32 " dev=%" PRIu64 " ino=%" PRIu64 " mode=%" PRIu32 " nlink=%" PRIu32 " uid=%" PRIu32 " gid=%" PRIu32
               " size=%" PRIu64 " atime=%" PRId64 " mtime=%" PRId64 " ctime=%" PRId64 "\n",
               s.error, s.dev, s.ino, s.mode, s.nlink, s.uid, s.gid, s.size, s.atime, s.mtime, s.ctime);
    }
    return 0;
}
