/* What the programs that a real adb connects to share: one connection on a loopback port, what is still to be sent on it, the time, and
 * the check by which a script compares. */
#ifndef WIRE_H
#define WIRE_H

#include "../demo/queue.h"

#include <arpa/inet.h>
#include <errno.h>
#include <fcntl.h>
#include <netinet/in.h>
#include <netinet/tcp.h>
#include <poll.h>
#include <sys/socket.h>
#include <time.h>
#include <unistd.h>

static struct queue unsent;

static inline void *memory(void *old, size_t n)
{
    void *p = realloc(old, n ? n : 1);
    if (!p) die("no memory", n, 0);
    return p;
}

static inline uint64_t now_ms(void)
{
    struct timespec t;
    clock_gettime(CLOCK_MONOTONIC, &t);
    return (uint64_t)t.tv_sec * 1000 + (uint64_t)t.tv_nsec / 1000000;
}

/* CRC-32 as zlib has it, so that a script can compare what a dropping channel read. */
static inline uint32_t crc32(uint32_t crc, const uint8_t *p, size_t n)
{
    crc = ~crc;
    for (size_t i = 0; i < n; i++) {
        crc ^= p[i];
        for (int k = 0; k < 8; k++) crc = crc & 1 ? crc >> 1 ^ 0xedb88320u : crc >> 1;
    }
    return ~crc;
}

/* A failure is left to reading, which meets it too. */
static inline void send_some(int fd)
{
    const ssize_t n = count(&unsent) ? send(fd, front(&unsent), count(&unsent), MSG_NOSIGNAL) : 0;
    if (n > 0) drop(&unsent, (size_t)n);
}

/* Waits for one connection; 0 is a free port. */
static inline int listens(uint16_t port)
{
    const int one = 1, fd = socket(AF_INET, SOCK_STREAM, 0);
    struct sockaddr_in a = { .sin_family = AF_INET, .sin_port = htons(port), .sin_addr = { htonl(INADDR_LOOPBACK) } };
    socklen_t n = sizeof a;
    int c;
    setsockopt(fd, SOL_SOCKET, SO_REUSEADDR, &one, sizeof one);
    if (bind(fd, (struct sockaddr *)&a, n) || listen(fd, 1) || getsockname(fd, (struct sockaddr *)&a, &n)) die("the port", port, 0);
    printf("port %d\n", ntohs(a.sin_port));
    if ((c = accept(fd, NULL, NULL)) < 0) die("no connection", 0, 0);
    setsockopt(c, IPPROTO_TCP, TCP_NODELAY, &one, sizeof one);
    close(fd);
    return c;
}

/* What has arrived, behind what is there: 0 where the other end went. `ms`: how long to wait for it, -1 for ever. */
static inline int arrives(int fd, int ms, uint8_t *in, size_t *have, size_t room)
{
    struct pollfd p = { fd, (short)(POLLIN | (count(&unsent) ? POLLOUT : 0)), 0 };
    ssize_t n;
    if (poll(&p, 1, ms) < 0) die("poll", (uint64_t)errno, 0);
    n = p.revents & ~POLLOUT ? recv(fd, in + *have, room - *have, 0) : -1;
    if (n == 0 || (n < 0 && p.revents & (POLLERR | POLLHUP))) return 0;
    *have += n > 0 ? (size_t)n : 0;
    return 1;
}

#endif
