/* A recorded console session, the bytes of a channel to "shell,v2:…", taken apart: what the program printed goes to standard
 * output, its errors to standard error, and behind them a line with its exit code. Standard input is read PIECE bytes at a time,
 * as a channel's bytes arrive; the result is the same for every PIECE.
 *
 *   console [PIECE] < SESSION      (default 4096)
 *
 * Exit status 1, with the reason on standard error, where a frame is refused or over 1 MiB or the session ends before its exit.
 */
#include <adb_shell.h>

#include <stdio.h>
#include <stdlib.h>
#include <string.h>

#define DATA_MAX 1048576

static uint8_t in[ADB_SHELL_HEAD_LEN + DATA_MAX], answer[ADB_SHELL_ANSWER_LEN];

/* Writes a frame's data where it belongs; an exit's code, or -1 for other kinds. */
static int show(void)
{
    const uint32_t kind = adb_shell_kind(answer);
    if (kind == ADB_SHELL_OUTPUT) fwrite(in + adb_shell_at(answer), 1, adb_shell_length(answer), stdout);
    if (kind == ADB_SHELL_ERRORS) fwrite(in + adb_shell_at(answer), 1, adb_shell_length(answer), stderr);
    return kind == ADB_SHELL_EXIT ? adb_shell_code(answer) : -1;
}

/* The exit code, or -1 with the reason in *why. */
static int session(size_t piece, const char **why)
{
    size_t have = 0;
    for (;;) {
        const uint32_t said = adb_shell_read(in, have, answer, sizeof answer);
        if (said == ADB_SHELL_FRAME) {
            const int code = show();
            if (code >= 0) return code;
            have -= adb_shell_used(answer);
            memmove(in, in + adb_shell_used(answer), have);
            continue;
        }
        *why = said == ADB_SHELL_REFUSED_INVALID_KIND ? "refused: a kind above 5" : "refused: an exit frame of length 0";
        if (said != ADB_SHELL_WAITING) return -1;
        *why = "a frame over 1 MiB";
        if (have == sizeof in) return -1;
        const size_t room = sizeof in - have, n = fread(in + have, 1, piece < room ? piece : room, stdin);
        *why = "the session ends before its exit";
        if (n == 0) return -1;
        have += n;
    }
}

int main(int argc, char **argv)
{
    const long piece = argc > 1 ? strtol(argv[1], NULL, 10) : 4096;
    const char *why = "";
    const int code = session(piece > 0 ? (size_t)piece : 1, &why);
    if (code < 0) {
        fflush(stdout);
        fprintf(stderr, "console: %s\n", why);
        return 1;
    }
    printf("exit code %d\n", code);
    return 0;
}
