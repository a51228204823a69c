/*
 * The part of smoke.c about ighzamrel_flatten_font and ighzamrel_flatten_glyphs: each place and every lent byte, of all glyphs of a font
 * and of those that numbers ask for.
 */
#ifndef FONTS_H
#define FONTS_H

#include "ighzamrel.h"

#include "expect.h"

/* The most numbers that an INDEX counts. */
enum { MOST_NUMBERS = 65535 };

/* The three INDEXes of a font: CharStrings, globals and locals. */
struct font {
    const uint8_t *charstrings;
    size_t charstrings_len;
    const uint8_t *globals;
    size_t globals_len;
    const uint8_t *locals;
    size_t locals_len;
};

/* Numbers of glyphs. */
struct choice {
    const uint32_t *numbers;
    size_t len;
};

#define NUMBERS(...) {((const uint32_t[]){__VA_ARGS__}), sizeof((const uint32_t[]){__VA_ARGS__}) / sizeof(uint32_t)}
/* no numbers: the pointer is valid all the same */
#define NO_NUMBERS {((const uint32_t[]){0}), 0}

#define LISTS(f) (f)->globals, (f)->globals_len, (f)->locals, (f)->locals_len

/* Both functions by their places; without a choice it is the whole font. */
static uint32_t by_places(const struct font *font, const struct choice *choice, const uint32_t limits[3], uint8_t *to)
{
    if (choice == NULL)
        return ighzamrel_flatten_font(font->charstrings, font->charstrings_len, LISTS(font), limits[0], limits[1], to, limits[2],
                                      &length, &glyph, &tokens, &entry, &reason);
    return ighzamrel_flatten_glyphs(font->charstrings, font->charstrings_len, choice->numbers, choice->len, LISTS(font), limits[0],
                                    limits[1], to, limits[2], &length, &glyph, &tokens, &entry, &reason);
}

/* And by the struct. */
static uint32_t by_struct(const struct font *font, const struct choice *choice, const uint32_t limits[3], ighzamrel_font_flattening *result)
{
    if (choice == NULL)
        return ighzamrel_flatten_font_into(font->charstrings, font->charstrings_len, LISTS(font), limits[0], limits[1], out, limits[2],
                                           result);
    return ighzamrel_flatten_glyphs_into(font->charstrings, font->charstrings_len, choice->numbers, choice->len, LISTS(font), limits[0],
                                         limits[1], out, limits[2], result);
}

/* Whether each place holds what it must. */
static int places_hold(const ighzamrel_font_flattening *must)
{
    return length == must->length && glyph == must->glyph && tokens == must->tokens && entry == must->entry && reason == must->reason;
}

/* Flattens glyphs of a font, as `flattened` does a charstring. */
static void chosen_flattened(const struct font *font, const struct choice *choice, const uint32_t limits[3],
                             const ighzamrel_font_flattening *must, const uint8_t *flat)
{
    ighzamrel_font_flattening result;
    clear();
    EXPECT(by_places(font, choice, limits, out) == must->answer);
    EXPECT(places_hold(must));
    EXPECT(flat == NULL ? blank() : holds(flat, length));
    clear();
    memset(&result, BLANK, sizeof result);
    EXPECT(by_struct(font, choice, limits, &result) == must->answer);
    EXPECT(result.answer == must->answer && result.length == given(must->length) && result.glyph == given(must->glyph));
    EXPECT(result.tokens == given(must->tokens) && result.entry == given(must->entry) && result.reason == given(must->reason));
    EXPECT(flat == NULL ? blank() : holds(flat, result.length));
}

/* A whole font, and the same by the numbers of all its glyphs in order. */
static void font_flattened(const struct font *font, const uint32_t limits[3], const ighzamrel_font_flattening *must, const uint8_t *flat)
{
    static const uint32_t in_order[] = {0, 1, 2};
    uint32_t count = 0, bad = 0;
    struct choice all = {in_order, 0};
    (void)ighzamrel_check_list(font->charstrings, font->charstrings_len, &count, &bad);
    EXPECT(count <= sizeof in_order / sizeof in_order[0]);
    all.len = count;
    chosen_flattened(font, NULL, limits, must, flat);
    chosen_flattened(font, &all, limits, must, flat);
}

/* A font with L as its local list, with what it must answer. */
struct font_row {
    const uint8_t *charstrings;
    size_t charstrings_len;
    uint32_t limits[3];
    uint32_t answer;
    size_t length;
    uint32_t glyph;
    uint32_t tokens;
    const uint8_t *flat;
};

static void fonts(void)
{
    /* three glyphs: -107 callsubr endchar, no bytes, and 5 endchar with the 5 in three bytes */
    static const uint8_t three[] = {0x00, 0x03, 0x01, 0x01, 0x04, 0x04, 0x08, 0x20, 0x0A, 0x0E, 0x1C, 0x00, 0x05, 0x0E};
    static const uint8_t three_flat[] = {0x00, 0x03, 0x01, 0x01, 0x05, 0x05, 0x07, 0x8C, 0x8D, 0x15, 0x0E, 0x90, 0x0E};
    /* the same without the one that has no bytes, for which strict refuses it: 16 comes with the glyph alone */
    static const uint8_t two[] = {0x00, 0x02, 0x01, 0x01, 0x04, 0x08, 0x20, 0x0A, 0x0E, 0x1C, 0x00, 0x05, 0x0E};
    static const uint8_t two_flat[] = {0x00, 0x02, 0x01, 0x01, 0x05, 0x07, 0x8C, 0x8D, 0x15, 0x0E, 0x90, 0x0E};
    /* endchar, -106 callsubr, and a byte that is no operator: the second is the first that is refused */
    static const uint8_t refused[] = {0x00, 0x03, 0x01, 0x01, 0x02, 0x04, 0x05, 0x0E, 0x21, 0x0A, 0x00};
    /* endchar, and an operand that waits at a second mask: 15 comes with the glyph alone */
    static const uint8_t waiting[] = {0x00, 0x02, 0x01, 0x01, 0x02, 0x0B, 0x0E, 0x8B, 0x8C, 0x01, 0x13, 0x80, 0x8B, 0x14, 0x80, 0x0E};
    const struct font_row rows[] = {
        {three, sizeof three, {0, 1000, ROOM}, 0, 13, UNTOUCHED, UNTOUCHED, three_flat},
        {two, sizeof two, {1, 7, 12}, 0, 12, UNTOUCHED, UNTOUCHED, two_flat},
        {two, sizeof two, {1, 7, 11}, 13, 12, UNTOUCHED, UNTOUCHED, NULL},
        {three, sizeof three, {1, 7, 13}, 16, UNTOUCHED, 1, UNTOUCHED, NULL},
        {three, sizeof three, {1, 7, 0}, 16, UNTOUCHED, 1, UNTOUCHED, NULL},
        {three, sizeof three, {1, 6, 13}, 3, UNTOUCHED, 0, 6, NULL},
        {three, sizeof three, {0, 7, 12}, 13, 13, UNTOUCHED, UNTOUCHED, NULL},
        {three, sizeof three, {0, 7, 0}, 13, 13, UNTOUCHED, UNTOUCHED, NULL},
        {three, sizeof three, {0, 6, ROOM}, 3, UNTOUCHED, 0, 6, NULL},
        {refused, sizeof refused, {0, 1000, ROOM}, 9, UNTOUCHED, 1, 2, NULL},
        {refused, sizeof refused, {0, 1000, 0}, 9, UNTOUCHED, 1, 2, NULL},
        {refused, sizeof refused, {0, 1, ROOM}, 3, UNTOUCHED, 1, 1, NULL},
        {waiting, sizeof waiting, {0, 1000, ROOM}, 0, sizeof waiting, UNTOUCHED, UNTOUCHED, waiting},
        {waiting, sizeof waiting, {1, 1000, ROOM}, 15, UNTOUCHED, 1, UNTOUCHED, NULL},
        {waiting, sizeof waiting, {1, 1000, 0}, 15, UNTOUCHED, 1, UNTOUCHED, NULL},
        {waiting, sizeof waiting, {1, 5, ROOM}, 3, UNTOUCHED, 1, 5, NULL},
        {EMPTY, sizeof EMPTY, {0, 0, ROOM}, 0, 2, UNTOUCHED, UNTOUCHED, EMPTY},
        {EMPTY, sizeof EMPTY, {0, 0, 2}, 0, 2, UNTOUCHED, UNTOUCHED, EMPTY},
        {EMPTY, sizeof EMPTY, {0, 0, 1}, 13, 2, UNTOUCHED, UNTOUCHED, NULL},
    };
    size_t i;
    for (i = 0; i < sizeof rows / sizeof rows[0]; i++) {
        const struct font_row *r = &rows[i];
        const struct font font = {r->charstrings, r->charstrings_len, EMPTY, sizeof EMPTY, L, sizeof L};
        const ighzamrel_font_flattening must = {r->answer, r->length, r->glyph, r->tokens, UNTOUCHED, UNTOUCHED};
        font_flattened(&font, r->limits, &must, r->flat);
    }
}

/* five glyphs: endchar, -107 callsubr endchar, 2 hmoveto endchar, a byte that starts no token, and -106 callsubr, which L has not */
static const uint8_t FIVE[] = {0x00, 0x05, 0x01, 0x01, 0x02, 0x05, 0x08, 0x09, 0x0B, 0x0E, 0x20, 0x0A, 0x0E, 0x8D, 0x16, 0x0E, 0x00, 0x21, 0x0A};

/* What is asked of FIVE with L, with what it must answer; `flat` is NULL where it is refused. */
struct glyphs_row {
    struct choice choice;
    uint32_t limits[3];
    uint32_t answer;
    size_t length;
    uint32_t glyph;
    uint32_t tokens;
    const uint8_t *flat;
};

static void glyphs_hold(const struct glyphs_row *rows, size_t n)
{
    static const struct font five = {FIVE, sizeof FIVE, EMPTY, sizeof EMPTY, L, sizeof L};
    uint32_t kept[8];
    size_t i;
    for (i = 0; i < n; i++) {
        const struct glyphs_row *r = &rows[i];
        const ighzamrel_font_flattening must = {r->answer, r->length, r->glyph, r->tokens, UNTOUCHED, UNTOUCHED};
        memcpy(kept, r->choice.numbers, r->choice.len * sizeof kept[0]);
        chosen_flattened(&five, &r->choice, r->limits, &must, r->flat);
        EXPECT(memcmp(kept, r->choice.numbers, r->choice.len * sizeof kept[0]) == 0);
    }
}

/* No numbers, one, repeats, descending ones, into just the room and into a byte less; what is not asked for refuses nothing. */
static void glyphs(void)
{
    enum { U = UNTOUCHED };
    static const uint8_t one[] = {0x00, 0x01, 0x01, 0x01, 0x05, 0x8C, 0x8D, 0x15, 0x0E};
    static const uint8_t again[] = {0x00, 0x03, 0x01, 0x01, 0x04, 0x05, 0x08, 0x8D, 0x16, 0x0E, 0x0E, 0x8D, 0x16, 0x0E};
    static const uint8_t down[] = {0x00, 0x03, 0x01, 0x01, 0x04, 0x08, 0x09, 0x8D, 0x16, 0x0E, 0x8C, 0x8D, 0x15, 0x0E, 0x0E};
    const struct glyphs_row rows[] = {
        {NO_NUMBERS, {0, 0, ROOM}, 0, 2, U, U, EMPTY},
        {NO_NUMBERS, {1, 0, 2}, 0, 2, U, U, EMPTY},
        {NO_NUMBERS, {0, 0, 1}, 13, 2, U, U, NULL},
        {NUMBERS(1), {0, 7, ROOM}, 0, 9, U, U, one},
        {NUMBERS(1), {1, 7, 9}, 0, 9, U, U, one},
        {NUMBERS(1), {0, 7, 8}, 13, 9, U, U, NULL},
        {NUMBERS(2, 0, 2), {0, 7, ROOM}, 0, 14, U, U, again},
        {NUMBERS(2, 0, 2), {1, 7, 14}, 0, 14, U, U, again},
        {NUMBERS(2, 0, 2), {0, 7, 13}, 13, 14, U, U, NULL},
        {NUMBERS(2, 1, 0), {0, 7, ROOM}, 0, 15, U, U, down},
        {NUMBERS(2, 1, 0), {1, 7, 15}, 0, 15, U, U, down},
        {NUMBERS(2, 1, 0), {0, 7, 0}, 13, 15, U, U, NULL},
    };
    glyphs_hold(rows, sizeof rows / sizeof rows[0]);
}

/* The first place that is refused decides, and is told: one past the last glyph, a refused glyph, and both in either order. */
static void glyphs_refused(void)
{
    enum { U = UNTOUCHED, PAST = 5 };
    const struct glyphs_row rows[] = {
        {NUMBERS(PAST), {0, 7, ROOM}, 25, U, 0, U, NULL},
        {NUMBERS(0, 2, PAST), {1, 7, ROOM}, 25, U, 2, U, NULL},
        {NUMBERS(0, 0xFFFFFFFF, 2), {0, 7, 0}, 25, U, 1, U, NULL},
        {NUMBERS(2, 1, 3), {0, 7, ROOM}, 6, U, 2, 1, NULL},
        {NUMBERS(4), {1, 7, 0}, 9, U, 0, 2, NULL},
        {NUMBERS(0, 4, 3), {0, 7, ROOM}, 9, U, 1, 2, NULL},
        {NUMBERS(0, 3, 4), {0, 7, ROOM}, 6, U, 1, 1, NULL},
        {NUMBERS(0, PAST, 3), {0, 7, ROOM}, 25, U, 1, U, NULL},
        {NUMBERS(0, 3, PAST), {0, 7, ROOM}, 6, U, 1, 1, NULL},
        {NUMBERS(0, 1, 1), {0, 6, ROOM}, 3, U, 1, 6, NULL},
    };
    /* endchar, an operand that waits at a second mask, and no endchar */
    static const uint8_t strict[] = {0x00, 0x03, 0x01, 0x01, 0x02, 0x0B, 0x0D, 0x0E, 0x8B, 0x8C,
                                     0x01, 0x13, 0x80, 0x8B, 0x14, 0x80, 0x0E, 0x8C, 0x16};
    static const uint32_t limits[] = {IGHZAMREL_STRICT, 1000, ROOM};
    const struct font font = {strict, sizeof strict, EMPTY, sizeof EMPTY, EMPTY, sizeof EMPTY};
    const struct choice waiting = NUMBERS(0, 0, 1, 2), unfinished = NUMBERS(0, 2, 1);
    const ighzamrel_font_flattening at_mask = {IGHZAMREL_OPERANDS_AT_MASK, U, 2, U, U, U};
    const ighzamrel_font_flattening no_endchar = {IGHZAMREL_NO_ENDCHAR, U, 1, U, U, U};
    glyphs_hold(rows, sizeof rows / sizeof rows[0]);
    chosen_flattened(&font, &waiting, limits, &at_mask, NULL);
    chosen_flattened(&font, &unfinished, limits, &no_endchar, NULL);
}

static uint32_t many[MOST_NUMBERS + 1];

static int all_blank(const uint8_t *bytes, size_t n)
{
    while (n > 0 && bytes[n - 1] == BLANK)
        n--;
    return n == 0;
}

/* Whether `index` is that of so many times endchar as can be, with offsets of three bytes, and what follows is blank. */
static int is_full(const uint8_t *index, size_t size)
{
    static const uint8_t head[] = {0xFF, 0xFF, 0x03};
    const uint8_t *offset = index + sizeof head, *data = offset + 3 * (MOST_NUMBERS + 1);
    size_t i;
    if (memcmp(index, head, sizeof head) != 0 || data + MOST_NUMBERS + 1 != index + size || index[size - 1] != BLANK)
        return 0;
    for (i = 0; i <= MOST_NUMBERS; i++, offset += 3)
        if (((size_t)offset[0] << 16 | (size_t)offset[1] << 8 | offset[2]) != i + 1 || (i < MOST_NUMBERS && data[i] != 0x0E))
            return 0;
    return 1;
}

/* As many numbers as an INDEX counts, into just the room and into a byte less; and one more, which is 22, whatever they are. */
static void many_glyphs(void)
{
    enum { U = UNTOUCHED, FULL = 3 + 3 * (MOST_NUMBERS + 1) + MOST_NUMBERS };
    static const uint8_t one[] = {0x00, 0x01, 0x01, 0x01, 0x02, 0x0E};
    static uint8_t large[FULL + 1];
    const struct font font = {one, sizeof one, EMPTY, sizeof EMPTY, EMPTY, sizeof EMPTY};
    const struct choice most = {many, MOST_NUMBERS}, over = {many, MOST_NUMBERS + 1};
    const uint32_t ample[] = {0, 1, FULL}, lacking[] = {0, 1, FULL - 1}, small[] = {0, 1, ROOM};
    const ighzamrel_font_flattening written = {IGHZAMREL_ACCEPTED, FULL, U, U, U, U}, too_long = {IGHZAMREL_SHORT, FULL, U, U, U, U};
    const ighzamrel_font_flattening too_many = {IGHZAMREL_TOO_MANY_ELEMENTS, U, U, U, U, U};
    const ighzamrel_font_flattening last = {IGHZAMREL_PAST_COUNT, U, MOST_NUMBERS - 1, U, U, U};
    memset(many, 0, sizeof many);
    memset(large, BLANK, sizeof large);
    clear();
    EXPECT(by_places(&font, &most, lacking, large) == too_long.answer && places_hold(&too_long) && all_blank(large, sizeof large));
    clear();
    EXPECT(by_places(&font, &most, ample, large) == written.answer && places_hold(&written) && is_full(large, sizeof large));
    chosen_flattened(&font, &most, small, &too_long, NULL);
    chosen_flattened(&font, &over, small, &too_many, NULL);
    many[MOST_NUMBERS - 1] = 1;
    chosen_flattened(&font, &most, small, &last, NULL);
    chosen_flattened(&font, &over, small, &too_many, NULL);
}

/* A font with one bad list: the lists are looked at before any glyph and any number, the CharStrings INDEX last of the three. */
static void bad_font(const uint8_t *list, size_t n, uint32_t why, uint32_t bad)
{
    static const uint32_t limits[] = {IGHZAMREL_PLAIN, 0, ROOM};
    const struct font globals = {list, n, list, n, list, n};
    const struct font locals = {list, n, L, sizeof L, list, n};
    const struct font charstrings = {list, n, L, sizeof L, EMPTY, sizeof EMPTY};
    const struct choice over = {many, MOST_NUMBERS + 1};
    ighzamrel_font_flattening must = {IGHZAMREL_BAD_GLOBALS, UNTOUCHED, UNTOUCHED, UNTOUCHED, bad, why};
    font_flattened(&globals, limits, &must, NULL);
    chosen_flattened(&globals, &over, limits, &must, NULL);
    must.answer = IGHZAMREL_BAD_LOCALS;
    font_flattened(&locals, limits, &must, NULL);
    chosen_flattened(&locals, &over, limits, &must, NULL);
    must.answer = IGHZAMREL_BAD_CHARSTRINGS;
    font_flattened(&charstrings, limits, &must, NULL);
    chosen_flattened(&charstrings, &over, limits, &must, NULL);
}

#endif
