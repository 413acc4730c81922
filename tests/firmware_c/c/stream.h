/* Calls of mlgd_decode as the tests hand them over, in memory where a stray access is noticed. */
#ifndef STREAM_H
#define STREAM_H

#include <mlgd.h>
#include <stdio.h>
#include <stdlib.h>
#include <string.h>
#include <sys/mman.h>

/* Where a buffer stands: right before a page that may not be touched, or right behind one. One of
   length 0 may be the null pointer. */
enum { BEFORE_FENCE = 0, BEHIND_FENCE = 1, NULL_IF_EMPTY = 2 };

enum { PAGE = 4096, GUARD = 0xa5 };

/* A buffer between two fences. What is left of its pages has the guard's pattern. */
struct buffer {
    uint8_t *bytes;
    size_t length;
    uint8_t *pages;
    size_t room;
};

struct call {
    uint16_t n, m, rho, gamma, bits, limit, kind;
    uint32_t step;
    struct buffer list, samples, word, levels, report;
};

static inline void give_up(const char *why)
{
    fprintf(stderr, "%s\n", why);
    exit(2);
}

static inline void read_whole(uint8_t *bytes, size_t count)
{
    if (count != 0 && fread(bytes, 1, count, stdin) != count) {
        give_up("the stream ends inside a call");
    }
}

static inline uint32_t read_number(size_t bytes)
{
    uint8_t read[4];
    uint32_t number = 0;
    read_whole(read, bytes);
    for (size_t i = bytes; i > 0; i--) {
        number = 256 * number + read[i - 1];
    }
    return number;
}

static inline uint16_t read16(void)
{
    return (uint16_t)read_number(2);
}

/* A buffer of this length, filled from the stream. */
static inline struct buffer read_buffer(size_t length, uint32_t place)
{
    struct buffer b = {NULL, length, NULL, (length / PAGE + 1) * PAGE};
    uint8_t *fenced = mmap(NULL, b.room + 2 * PAGE, PROT_NONE, MAP_PRIVATE | MAP_ANONYMOUS, -1, 0);
    if (fenced == MAP_FAILED || mprotect(fenced + PAGE, b.room, PROT_READ | PROT_WRITE) != 0) {
        give_up("no memory");
    }
    b.pages = fenced + PAGE;
    memset(b.pages, GUARD, b.room);
    b.bytes = place == BEHIND_FENCE ? b.pages : b.pages + b.room - length;
    read_whole(b.bytes, length);
    if (place == NULL_IF_EMPTY && length == 0) {
        b.bytes = NULL;
    }
    return b;
}

/* The same for one that is only read: a write to it ends the program. */
static inline struct buffer read_lent(size_t length, uint32_t place)
{
    struct buffer b = read_buffer(length, place);
    if (mprotect(b.pages, b.room, PROT_READ) != 0) {
        give_up("no read-only memory");
    }
    return b;
}

/* Whether the guards stand. */
static inline int guards_stand(const struct buffer *b)
{
    for (size_t i = 0; i < b->room; i++) {
        uint8_t *at = b->pages + i;
        int within = b->bytes != NULL && at >= b->bytes && at < b->bytes + b->length;
        if (!within && *at != GUARD) {
            return 0;
        }
    }
    return 1;
}

static inline void give_back(struct buffer *b)
{
    munmap(b->pages - PAGE, b->room + 2 * PAGE);
}

/* The next call of the stream, whose first number, the buffers' place, has been read. */
static inline struct call read_call(uint32_t place)
{
    struct call c;
    uint32_t lengths[5];
    c.n = read16();
    c.m = read16();
    c.rho = read16();
    c.gamma = read16();
    c.bits = read16();
    c.limit = read16();
    c.kind = read16();
    c.step = read_number(4);
    for (size_t i = 0; i < 5; i++) {
        lengths[i] = read_number(4);
    }
    c.list = read_lent(lengths[0], place);
    c.samples = read_lent(lengths[1], place);
    c.word = read_buffer(lengths[2], place);
    c.levels = read_buffer(lengths[3], place);
    c.report = read_buffer(lengths[4], place);
    return c;
}

static inline uint32_t decode(struct call *c)
{
    return mlgd_decode(c->n, c->m, c->rho, c->gamma, c->list.bytes, c->list.length,
                       c->bits, c->limit, c->kind, c->step,
                       c->samples.bytes, c->samples.length,
                       c->word.bytes, c->word.length,
                       c->levels.bytes, c->levels.length,
                       c->report.bytes, c->report.length);
}

#endif
