/* The part of smoke.c about ighzamrel_flatten_marked: each place, and every byte of the room and of both rows. */
#ifndef MARKED_H
#define MARKED_H

#include "ighzamrel.h"

#include "expect.h"

enum { ROW = 3, B = BLANK, MOST = 9 };

/* Lists by how many entries they have. Each entry returns; or entry i calls entry i of the globals. */
static uint8_t returns[MOST + 1][32], calls[MOST + 1][32];
static size_t returns_len[MOST + 1], calls_len[MOST + 1];

static void make_lists(void)
{
    uint8_t one[MOST], two[2 * MOST];
    uint32_t ones[MOST], twos[MOST], i;
    for (i = 0; i < MOST; i++) {
        one[i] = 0x0B;
        two[2 * i] = (uint8_t)(0x20 + i);
        two[2 * i + 1] = 0x1D;
        ones[i] = 1;
        twos[i] = 2;
    }
    for (i = 0; i <= MOST; i++) {
        EXPECT(ighzamrel_write_index(ones, i, one, i, returns[i], sizeof returns[i], &returns_len[i]) == 0);
        EXPECT(ighzamrel_write_index(twos, i, two, 2 * i, calls[i], sizeof calls[i], &calls_len[i]) == 0);
    }
}

/* What is lent: a charstring, its two lists, profile, budget and room, and how many bytes of each row. */
struct lent {
    const uint8_t *charstring;
    size_t charstring_len;
    const uint8_t *globals;
    size_t globals_len;
    const uint8_t *locals;
    size_t locals_len;
    const uint32_t *limits;
    const size_t *rows;
};

#define LENT(l, rows) \
    (l)->charstring, (l)->charstring_len, (l)->globals, (l)->globals_len, (l)->locals, (l)->locals_len, (l)->limits[0], \
        (l)->limits[1], out, (l)->limits[2], (rows)[0], (l)->rows[0], (rows)[1], (l)->rows[1]

/* The rows hold these bytes, and the room what was asked for: endchar where it was accepted. */
static int left(const uint8_t rows[2][ROW], const uint8_t must[2][ROW], uint32_t answer)
{
    static const uint8_t flat[] = {0x0E};
    return memcmp(rows, must, 2 * ROW) == 0 && (answer == IGHZAMREL_ACCEPTED ? holds(flat, 1) : blank());
}

/* Flattens with rows, by the places and by the struct: both must have this answer and these values, and leave these bytes. */
static void marked(const struct lent *lent, const ighzamrel_flattening *must, const uint8_t must_rows[2][ROW])
{
    uint8_t rows[2][ROW];
    ighzamrel_flattening result;
    clear();
    memset(rows, BLANK, sizeof rows);
    EXPECT(ighzamrel_flatten_marked(LENT(lent, rows), &length, &tokens, &entry, &reason, &width_kind, &width) == must->answer);
    EXPECT(length == must->length && tokens == must->tokens && entry == must->entry && reason == must->reason);
    EXPECT(width_kind == must->width_kind && width == must->width);
    EXPECT(left((const uint8_t(*)[ROW])rows, must_rows, must->answer));
    clear();
    memset(rows, BLANK, sizeof rows);
    memset(&result, BLANK, sizeof result);
    EXPECT(ighzamrel_flatten_marked_into(LENT(lent, rows), &result) == must->answer);
    EXPECT(result.answer == must->answer && result.length == given(must->length) && result.tokens == given(must->tokens));
    EXPECT(result.entry == given(must->entry) && result.reason == given(must->reason));
    EXPECT(result.width_kind == given(must->width_kind) && result.width == 0);
    EXPECT(left((const uint8_t(*)[ROW])rows, must_rows, must->answer));
}

/* A charstring with so many globals, which return, and so many locals, which call them; what it must answer, and both rows then. */
struct marked_row {
    const uint8_t *charstring;
    size_t charstring_len;
    uint32_t counts[2];
    uint32_t limits[3];
    size_t lent[2];
    uint32_t answer;
    size_t length;
    uint32_t tokens;
    uint8_t rows[2][ROW];
};

static void marked_rows_hold(const struct marked_row *rows, size_t n)
{
    size_t i;
    for (i = 0; i < n; i++) {
        const struct marked_row *r = &rows[i];
        const uint32_t g = r->counts[0], l = r->counts[1];
        const uint32_t kind = r->answer == IGHZAMREL_ACCEPTED ? IGHZAMREL_NO_WIDTH : UNTOUCHED;
        const ighzamrel_flattening must = {r->answer, r->length, r->tokens, UNTOUCHED, UNTOUCHED, kind, UNTOUCHED};
        const struct lent lent = {r->charstring, r->charstring_len, returns[g], returns_len[g],
                                  calls[l],      calls_len[l],      r->limits,  r->lent};
        marked(&lent, &must, (const uint8_t(*)[ROW])r->rows);
    }
}

/* Rows that are just long enough or longer, for 0, 1, 7, 8 and 9 entries: none, the first, the last, and through a local entry. */
static void marks(void)
{
    const struct marked_row rows[] = {
        {BYTES(0x0E), {0, 0}, {0, 1, 1}, {0, 0}, 0, 1, 1, {{B, B, B}, {B, B, B}}},
        {BYTES(0x0E), {0, 0}, {0, 1, 1}, {3, 3}, 0, 1, 1, {{B, B, B}, {B, B, B}}},
        {BYTES(0x0E), {9, 8}, {1, 1, 1}, {2, 1}, 0, 1, 1, {{0, 0, B}, {0, B, B}}},
        {BYTES(0x20, 0x1D, 0x0E), {1, 0}, {0, 4, 1}, {1, 0}, 0, 1, 4, {{1, B, B}, {B, B, B}}},
        {BYTES(0x26, 0x1D, 0x0E), {7, 1}, {0, 4, 1}, {1, 1}, 0, 1, 4, {{0x40, B, B}, {0, B, B}}},
        {BYTES(0x27, 0x1D, 0x0E), {8, 9}, {0, 4, 1}, {1, 2}, 0, 1, 4, {{0x80, B, B}, {0, 0, B}}},
        {BYTES(0x20, 0x1D, 0x0E), {9, 7}, {0, 4, 1}, {2, 1}, 0, 1, 4, {{1, 0, B}, {0, B, B}}},
        {BYTES(0x28, 0x1D, 0x0E), {9, 0}, {0, 4, 1}, {2, 1}, 0, 1, 4, {{0, 1, B}, {B, B, B}}},
        {BYTES(0x20, 0x0A, 0x0E), {1, 1}, {1, 6, 1}, {1, 1}, 0, 1, 6, {{1, B, B}, {1, B, B}}},
        {BYTES(0x26, 0x0A, 0x0E), {8, 7}, {0, 6, 1}, {2, 2}, 0, 1, 6, {{0x40, B, B}, {0x40, B, B}}},
        {BYTES(0x27, 0x0A, 0x0E), {9, 8}, {0, 6, 1}, {3, 1}, 0, 1, 6, {{0x80, 0, B}, {0x80, B, B}}},
        {BYTES(0x28, 0x0A, 0x0E), {9, 9}, {0, 6, 1}, {2, 3}, 0, 1, 6, {{0, 1, B}, {0, 1, B}}},
        /* local 8 twice, which enters global 8 twice, and global 0 */
        {BYTES(0x28, 0x0A, 0x28, 0x0A, 0x20, 0x1D, 0x0E), {9, 9}, {0, 14, 1}, {2, 2}, 0, 1, 14, {{1, 1, B}, {0, 1, B}}},
    };
    marked_rows_hold(rows, sizeof rows / sizeof rows[0]);
}

/* What is refused leaves both rows: a run that has entered both entries, or the local one alone; and a row that is too short, whatever the run. */
static void marks_refused(void)
{
    enum { U = UNTOUCHED, SHORT_ROW = IGHZAMREL_ROW_TOO_SHORT };
    const struct marked_row rows[] = {
        {BYTES(0x20, 0x0A, 0x00), {1, 1}, {0, 9, 9}, {1, 1}, 6, U, 6, {{B, B, B}, {B, B, B}}},
        {BYTES(0x20, 0x0A, 0x0E), {1, 1}, {0, 5, 9}, {1, 1}, 3, U, 5, {{B, B, B}, {B, B, B}}},
        {BYTES(0x20, 0x0A, 0x0E), {1, 1}, {0, 6, 0}, {2, 2}, 13, 1, 6, {{B, B, B}, {B, B, B}}},
        {BYTES(0x28, 0x0A, 0x0E), {8, 9}, {0, 9, 9}, {1, 2}, 9, U, 4, {{B, B, B}, {B, B, B}}},
        {BYTES(0x20, 0x0A), {1, 1}, {1, 9, 9}, {1, 1}, 16, U, U, {{B, B, B}, {B, B, B}}},
        {BYTES(0x20, 0x0A, 0x0E), {1, 1}, {0, 9, 9}, {0, 1}, SHORT_ROW, U, U, {{B, B, B}, {B, B, B}}},
        {BYTES(0x20, 0x0A, 0x0E), {1, 1}, {0, 9, 9}, {1, 0}, SHORT_ROW, U, U, {{B, B, B}, {B, B, B}}},
        {BYTES(0x20, 0x0A, 0x0E), {9, 8}, {0, 9, 9}, {1, 1}, SHORT_ROW, U, U, {{B, B, B}, {B, B, B}}},
        {BYTES(0x20, 0x0A, 0x0E), {8, 9}, {1, 9, 9}, {3, 1}, SHORT_ROW, U, U, {{B, B, B}, {B, B, B}}},
        /* before the budget, the room, an operator that is none, and an end without endchar */
        {BYTES(0x00), {7, 0}, {0, 0, 0}, {0, 0}, SHORT_ROW, U, U, {{B, B, B}, {B, B, B}}},
        {BYTES(0x00), {0, 7}, {0, 9, 9}, {3, 0}, SHORT_ROW, U, U, {{B, B, B}, {B, B, B}}},
        {NONE, {1, 1}, {1, 0, 0}, {0, 0}, SHORT_ROW, U, U, {{B, B, B}, {B, B, B}}},
    };
    marked_rows_hold(rows, sizeof rows / sizeof rows[0]);
}

/* A list that is not well formed goes before a row that is too short, for itself or for the other. */
static void bad_list_with_rows(const uint8_t *list, size_t n, uint32_t why, uint32_t bad)
{
    static const uint8_t untouched[2][ROW] = {{B, B, B}, {B, B, B}}, charstring[] = {0x0E};
    static const uint32_t limits[] = {IGHZAMREL_PLAIN, 0, 0};
    static const size_t none[] = {0, 0}, all[] = {ROW, ROW};
    ighzamrel_flattening must = {IGHZAMREL_BAD_GLOBALS, UNTOUCHED, UNTOUCHED, bad, why, UNTOUCHED, UNTOUCHED};
    struct lent globals = {charstring, 1, list, n, L, sizeof L, limits, none};
    struct lent locals = {charstring, 1, L, sizeof L, list, n, limits, none};
    marked(&globals, &must, untouched);
    globals.rows = all;
    marked(&globals, &must, untouched);
    must.answer = IGHZAMREL_BAD_LOCALS;
    marked(&locals, &must, untouched);
    locals.rows = all;
    marked(&locals, &must, untouched);
}

#endif
