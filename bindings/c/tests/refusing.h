/* What the harnesses and the fuzz target share: memory that is refused where they say so, checks, and numbers that look drawn.
   To be included once in a program, which is linked with -Wl,--wrap=malloc,--wrap=realloc,--wrap=free. */
#ifndef REFUSING_H
#define REFUSING_H

#include <stdint.h>
#include <stdio.h>
#include <stdlib.h>
#include <string.h>

/* What lists are filled with, to see whether something was written; and the request that never comes. */
enum { UNTOUCHED = 0xAB, NONE = -1 };

/* Requests for memory so far, the first and the last one that are refused, and the blocks that were not given back. */
static long requests, first_refused, last_refused = NONE, blocks;

/* Whether a request was refused since this was last set to 0. */
static int refused;

void *__real_malloc(size_t size);
void *__real_realloc(void *block, size_t size);
void __real_free(void *block);

static int refuse(void)
{
    int now = first_refused <= requests && requests <= last_refused;
    requests++;
    refused |= now;
    return now;
}

void *__wrap_malloc(size_t size)
{
    void *block = refuse() ? NULL : __real_malloc(size);
    blocks += block != NULL;
    return block;
}

void *__wrap_realloc(void *block, size_t size)
{
    void *moved = refuse() ? NULL : __real_realloc(block, size);
    blocks += block == NULL && moved != NULL;
    return moved;
}

void __wrap_free(void *block)
{
    blocks -= block != NULL;
    __real_free(block);
}

/* Counts requests from 0 again, and refuses those from first to last. */
static void refuse_requests(long first, long last)
{
    requests = 0;
    refused = 0;
    first_refused = first;
    last_refused = last;
}

static void refuse_nothing(void)
{
    last_refused = NONE;
}

static void fail(const char *what)
{
    fprintf(stderr, "harness: %s\n", what);
    exit(1);
}

static void check(int holds, const char *what)
{
    if (!holds)
        fail(what);
}

/* Each byte is as the one before it, and the first is as it was filled. */
static int is_untouched(const void *at, size_t size)
{
    const unsigned char *bytes = at;
    return size == 0 || (bytes[0] == UNTOUCHED && !memcmp(bytes, bytes + 1, size - 1));
}

/* Numbers that look drawn: xorshift. Where there are bytes to draw from they are made of these, as long as there are some, and
   then each is the least that it may be. */
static uint32_t state = 2463534242u;
static const unsigned char *drawn_from;
static size_t drawn_left;

static uint32_t take_byte(void)
{
    return drawn_left > 0 ? (drawn_left--, *drawn_from++) : 0;
}

static uint32_t within(uint32_t low, uint32_t high)
{
    uint32_t span = high - low, number = 0;
    if (drawn_from) {
        for (uint32_t rest = span; rest > 0; rest >>= 8)
            number = number << 8 | take_byte();
        return span == UINT32_MAX ? number : low + number % (span + 1);
    }
    state ^= state << 13;
    state ^= state >> 17;
    state ^= state << 5;
    return low + state % (span + 1);
}

#endif
