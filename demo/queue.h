/* Queues of bytes: what is there stands from `from` to `len`. For the demonstrations and the tests. */
#ifndef QUEUE_H
#define QUEUE_H

#include "common.h"

struct queue {
    uint8_t *at;
    size_t from, len, room;
};

static inline const uint8_t *front(const struct queue *q) { return q->at ? q->at + q->from : NULL; }
static inline size_t count(const struct queue *q) { return q->len - q->from; }

static inline void add(struct queue *q, const void *bytes, size_t n)
{
    if (!n) return;
    if (q->from > q->len / 2) {
        memmove(q->at, q->at + q->from, count(q));
        q->len -= q->from;
        q->from = 0;
    }
    if (q->len + n > q->room) {
        q->room = 2 * (q->len + n);
        q->at = realloc(q->at, q->room);
        if (!q->at) die("no memory", q->room, 0);
    }
    memcpy(q->at + q->len, bytes, n);
    q->len += n;
}

static inline void drop(struct queue *q, size_t n)
{
    if (n > count(q)) die("used more than has arrived", n, count(q));
    q->from += n;
}

static inline void empty(struct queue *q)
{
    free(q->at);
    memset(q, 0, sizeof *q);
}

#endif
