/* What smoke.c looks by: the room and the places that are lent to each call, and what they must hold behind it. */
#ifndef EXPECT_H
#define EXPECT_H

#include <stddef.h>
#include <stdint.h>
#include <stdio.h>
#include <stdlib.h>
#include <string.h>

static unsigned checks;

static void expect(int holds, const char *file, int line)
{
    checks++;
    if (!holds) {
        fprintf(stderr, "smoke: %s:%d does not hold\n", file, line);
        exit(1);
    }
}

#define EXPECT(test) expect((test) != 0, __FILE__, __LINE__)

/* What the places and the room hold before each call. */
enum { UNTOUCHED = 77, BLANK = 0xA5, ROOM = 32 };

static uint8_t out[ROOM];
static size_t length;
static uint32_t glyph, tokens, entry, reason, width_kind;
static int32_t width;

static void clear(void)
{
    memset(out, BLANK, sizeof out);
    length = UNTOUCHED;
    glyph = tokens = entry = reason = width_kind = UNTOUCHED;
    width = UNTOUCHED;
}

/* Whether out starts with these bytes, and is blank behind them. */
static int holds(const uint8_t *bytes, size_t n)
{
    size_t i;
    for (i = n; i < ROOM; i++)
        if (out[i] != BLANK)
            return 0;
    return memcmp(out, bytes, n) == 0;
}

static int blank(void) { return holds(out, 0); }

#define BYTES(...) ((const uint8_t[]){__VA_ARGS__}), sizeof((const uint8_t[]){__VA_ARGS__})
/* no bytes: the pointer is valid all the same */
#define NONE ((const uint8_t[]){0}), 0

/* the local list L of docs/RULES.md, and a font's list that has no entries */
static const uint8_t L[] = {0x00, 0x01, 0x01, 0x01, 0x05, 0x8C, 0x8D, 0x15, 0x0B};
static const uint8_t EMPTY[] = {0x00, 0x00};

/* What a struct has for what a place holds: 0 where that was left as it was. */
static size_t given(size_t held) { return held == UNTOUCHED ? 0 : held; }

#endif
