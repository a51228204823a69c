/*
 * Calls each function of include/ighzamrel.h on the examples of docs/RULES.md, and looks at the answer, at each place and
 * at every lent byte, also where nothing may change.
 */
#include "ighzamrel.h"

#include "expect.h"
#include "explained.h"
#include "fonts.h"
#include "marked.h"

static void numbers_read(const uint8_t *bytes, size_t n, uint32_t answer, uint32_t kind, int32_t value, size_t width)
{
    uint32_t k = UNTOUCHED;
    int32_t v = UNTOUCHED;
    size_t w = UNTOUCHED;
    EXPECT(ighzamrel_read_charstring_number(bytes, n, &k, &v, &w) == answer);
    EXPECT(k == kind && v == value && w == width);
}

static void integers_read(const uint8_t *bytes, size_t n, uint32_t answer, int32_t value, size_t width)
{
    int32_t v = UNTOUCHED;
    size_t w = UNTOUCHED;
    EXPECT(ighzamrel_read_dict_integer(bytes, n, &v, &w) == answer);
    EXPECT(v == value && w == width);
}

static void number_written(uint32_t kind, int32_t value, const uint8_t *bytes, size_t n)
{
    clear();
    EXPECT(ighzamrel_write_charstring_number(kind, value, out, ROOM, &length) == IGHZAMREL_ACCEPTED);
    EXPECT(length == n && holds(bytes, n));
    clear();
    EXPECT(ighzamrel_write_charstring_number(kind, value, out, n - 1, &length) == IGHZAMREL_SHORT);
    EXPECT(length == n && blank());
}

static void integer_written(int32_t value, const uint8_t *bytes, size_t n)
{
    clear();
    EXPECT(ighzamrel_write_dict_integer(value, out, ROOM, &length) == IGHZAMREL_ACCEPTED);
    EXPECT(length == n && holds(bytes, n));
    clear();
    EXPECT(ighzamrel_write_dict_integer(value, out, n - 1, &length) == IGHZAMREL_SHORT);
    EXPECT(length == n && blank());
}

static void numbers(void)
{
    numbers_read(BYTES(0x20), 0, IGHZAMREL_INTEGER, -107, 1);
    numbers_read(BYTES(0xFA, 0xFF, 0x0E), 0, IGHZAMREL_INTEGER, 1131, 2);
    numbers_read(BYTES(0x1C, 0xFB, 0x94), 0, IGHZAMREL_INTEGER, -1132, 3);
    numbers_read(BYTES(0xFF, 0xFF, 0x95, 0x00, 0x00), 0, IGHZAMREL_FIXED, -107 * 65536, 5);
    numbers_read(NONE, 4, UNTOUCHED, UNTOUCHED, UNTOUCHED);
    numbers_read(BYTES(0xFF, 0x00), 4, UNTOUCHED, UNTOUCHED, UNTOUCHED);
    numbers_read(BYTES(0x1D, 0x00, 0x00, 0x80, 0x00), 6, UNTOUCHED, UNTOUCHED, UNTOUCHED);

    integers_read(BYTES(0x1D, 0x00, 0x00, 0x80, 0x00), 0, 32768, 5);
    integers_read(BYTES(0xFE, 0xFF), 0, -1131, 2);
    integers_read(BYTES(0x1D, 0x00), 4, UNTOUCHED, UNTOUCHED);
    integers_read(BYTES(0xFF, 0x00, 0x01, 0x00, 0x00), 6, UNTOUCHED, UNTOUCHED);

    number_written(0, 107, BYTES(0xF6));
    number_written(0, 108, BYTES(0xF7, 0x00));
    number_written(0, -1131, BYTES(0xFE, 0xFF));
    number_written(0, 32767, BYTES(0x1C, 0x7F, 0xFF));
    number_written(1, 65536, BYTES(0xFF, 0x00, 0x01, 0x00, 0x00));
    number_written(2, 65536, BYTES(0xFF, 0x00, 0x01, 0x00, 0x00));
    clear();
    EXPECT(ighzamrel_write_charstring_number(0, 32768, out, ROOM, &length) == IGHZAMREL_OUTSIDE_16_BITS);
    EXPECT(length == UNTOUCHED && blank());

    integer_written(-108, BYTES(0xFB, 0x00));
    integer_written(32768, BYTES(0x1D, 0x00, 0x00, 0x80, 0x00));
}

static void call_index(uint32_t kind, int32_t value, uint32_t profile, uint32_t answer, int32_t index)
{
    int32_t i = UNTOUCHED;
    EXPECT(ighzamrel_call_index(kind, value, profile, &i) == answer);
    EXPECT(i == index);
}

static void call_indexes(void)
{
    call_index(IGHZAMREL_INTEGER, -107, IGHZAMREL_PLAIN, 0, -107);
    call_index(IGHZAMREL_FIXED, 0x012C0001, IGHZAMREL_PLAIN, 0, 300);
    call_index(IGHZAMREL_FIXED, 0x012C0001, IGHZAMREL_STRICT, 7, UNTOUCHED);
    call_index(IGHZAMREL_FIXED, 0x00FF0001, IGHZAMREL_PLAIN, 7, UNTOUCHED);
    call_index(IGHZAMREL_FIXED, 0x7FFFFFFF, IGHZAMREL_PLAIN, 0, 32768);
}

static void index_read(const uint8_t *bytes, size_t n, uint32_t answer, uint32_t count, size_t taken)
{
    uint32_t c = UNTOUCHED;
    size_t t = UNTOUCHED;
    EXPECT(ighzamrel_read_index(bytes, n, &c, &t) == answer);
    EXPECT(c == count && t == taken);
}

static void entry_read(const uint8_t *bytes, size_t n, uint32_t number, uint32_t answer, size_t place, size_t size)
{
    size_t p = UNTOUCHED, s = UNTOUCHED;
    EXPECT(ighzamrel_read_entry(bytes, n, number, &p, &s) == answer);
    EXPECT(p == place && s == size);
}

static void list_checked(const uint8_t *bytes, size_t n, uint32_t answer, uint32_t count, uint32_t bad)
{
    uint32_t c = UNTOUCHED, e = UNTOUCHED;
    EXPECT(ighzamrel_check_list(bytes, n, &c, &e) == answer);
    EXPECT(c == count && e == bad);
}

static void index_written(const uint32_t *lengths, size_t n, const uint8_t *data, size_t size, size_t room,
                          uint32_t answer, size_t given)
{
    static const uint8_t whole[] = {0x00, 0x02, 0x01, 0x01, 0x02, 0x02, 0x0E};
    clear();
    EXPECT(ighzamrel_write_index(lengths, n, data, size, out, room, &length) == answer);
    EXPECT(length == given && (answer == 0 ? holds(whole, sizeof whole) : blank()));
}

static void indexes(void)
{
    static const uint32_t lengths[] = {1, 0};
    static const uint8_t data[] = {0x0E};
    index_read(L, sizeof L, 0, 1, 9);
    index_read(EMPTY, sizeof EMPTY, 0, 0, 2);
    index_read(NONE, 20, UNTOUCHED, UNTOUCHED);
    index_read(BYTES(0x00, 0x01, 0x05), 21, UNTOUCHED, UNTOUCHED);
    entry_read(L, sizeof L, 0, 0, 5, 4);
    entry_read(L, sizeof L - 1, 0, 20, UNTOUCHED, UNTOUCHED);
    entry_read(BYTES(0x00, 0x01, 0x05), 0, 21, UNTOUCHED, UNTOUCHED);
    entry_read(L, sizeof L, 1, 25, UNTOUCHED, UNTOUCHED);
    list_checked(L, sizeof L, 0, 1, UNTOUCHED);
    list_checked(EMPTY, sizeof EMPTY, 0, 0, UNTOUCHED);
    index_written(lengths, 2, data, 1, ROOM, 0, 7);
    index_written(lengths, 2, data, 1, 7, 0, 7);
    index_written(lengths, 2, data, 1, 6, 13, 7);
    index_written(lengths, 2, data, 0, ROOM, 24, UNTOUCHED);
}

/* Flattens, by the places and by the struct: both must have this answer and these values, and the room these bytes; NULL is blank. */
static void flattened(const uint8_t *charstring, size_t n, const uint8_t *globals, size_t globals_len, const uint8_t *locals,
                      size_t locals_len, const uint32_t limits[3], const ighzamrel_flattening *must, const uint8_t *flat)
{
    ighzamrel_flattening result;
    clear();
    EXPECT(ighzamrel_flatten(charstring, n, globals, globals_len, locals, locals_len, limits[0], limits[1], out, limits[2], &length,
                             &tokens, &entry, &reason, &width_kind, &width) == must->answer);
    EXPECT(length == must->length && tokens == must->tokens && entry == must->entry && reason == must->reason);
    EXPECT(width_kind == must->width_kind && width == must->width);
    EXPECT(flat == NULL ? blank() : holds(flat, length));
    clear();
    memset(&result, BLANK, sizeof result);
    EXPECT(ighzamrel_flatten_into(charstring, n, globals, globals_len, locals, locals_len, limits[0], limits[1], out, limits[2],
                                  &result) == must->answer);
    EXPECT(result.answer == must->answer && result.length == given(must->length) && result.tokens == given(must->tokens));
    EXPECT(result.entry == given(must->entry) && result.reason == given(must->reason));
    EXPECT(result.width_kind == given(must->width_kind) && result.width == (must->width == UNTOUCHED ? 0 : must->width));
    EXPECT(flat == NULL ? blank() : holds(flat, result.length));
}

/* A flattening by this local list, with what it must answer; `flat` is NULL where it is refused. It says no width. */
struct row {
    const uint8_t *charstring;
    size_t charstring_len;
    const uint8_t *locals;
    size_t locals_len;
    uint32_t limits[3]; /* profile, budget and room */
    uint32_t answer;
    size_t length;
    uint32_t tokens;
    const uint8_t *flat;
};

static void rows_hold(const struct row *rows, size_t n)
{
    size_t i;
    for (i = 0; i < n; i++) {
        const struct row *r = &rows[i];
        const uint32_t kind = r->answer == IGHZAMREL_ACCEPTED ? IGHZAMREL_NO_WIDTH : UNTOUCHED;
        const ighzamrel_flattening must = {r->answer, r->length, r->tokens, UNTOUCHED, UNTOUCHED, kind, UNTOUCHED};
        flattened(r->charstring, r->charstring_len, EMPTY, sizeof EMPTY, r->locals, r->locals_len, r->limits, &must, r->flat);
    }
}

static void flattening(void)
{
    static const uint8_t deep[] = {0x00, 0x01, 0x01, 0x01, 0x03, 0x20, 0x0A};
    static const uint8_t twice[] = {0x00, 0x02, 0x01, 0x01, 0x02, 0x04, 0x0A, 0x8C, 0x16};
    static const uint8_t called[] = {0x8C, 0x8D, 0x15, 0x0E};
    static const uint8_t fixed[] = {0xFF, 0xFF, 0x95, 0x00, 0x00, 0x0A, 0x0E};
    static const uint8_t pair[] = {0x8C, 0x16, 0x0E};
    static const uint8_t masked[] = {0x8B, 0x8C, 0x01, 0x8B, 0x8C, 0x13, 0x80, 0x0E};
    const struct row rows[] = {
        {NONE, EMPTY, 2, {0, 0, ROOM}, 0, 0, 0, called},
        {BYTES(0x20, 0x0A, 0x0E), L, 9, {0, 1000, ROOM}, 0, 4, 7, called},
        {BYTES(0x20, 0x0A, 0x0E), L, 9, {1, 7, 4}, 0, 4, 7, called},
        {BYTES(0x20, 0x0A, 0x0E), L, 9, {0, 1000, 3}, 13, 4, 7, NULL},
        {BYTES(0x20, 0x0A, 0x0E), L, 9, {0, 6, ROOM}, 3, UNTOUCHED, 6, NULL},
        {fixed, sizeof fixed, L, 9, {0, 1000, ROOM}, 0, 4, 7, called},
        {fixed, sizeof fixed, L, 9, {1, 1000, ROOM}, 0, 4, 7, called},
        {BYTES(0xFF, 0x00, 0xFF, 0x00, 0x01, 0x0A), L, 9, {0, 1000, ROOM}, 7, UNTOUCHED, 2, NULL},
        {BYTES(0x21, 0x20, 0x0A, 0x0E), twice, 9, {0, 1000, ROOM}, 0, 3, 7, pair},
        {masked, sizeof masked, EMPTY, 2, {0, 1000, ROOM}, 0, 8, 7, masked},
        {BYTES(0x8B, 0x8B, 0x8B, 0x8B, 0x0E), EMPTY, 2, {0, 1000, ROOM}, 12, UNTOUCHED, 5, NULL},
        {BYTES(0x8B, 0x8C, 0x01, 0x13, 0x80, 0x20, 0x13, 0x80, 0x0A), L, 9, {0, 1000, ROOM}, 8, UNTOUCHED, 7, NULL},
        {BYTES(0x20, 0x0A), deep, 7, {0, 1000, ROOM}, 10, UNTOUCHED, 128, NULL},
        {BYTES(0x20, 0x0A), deep, 7, {1, 1000, ROOM}, 10, UNTOUCHED, 22, NULL},
        {BYTES(0x20, 0x0A), deep, 7, {0, 127, ROOM}, 3, UNTOUCHED, 127, NULL},
        {BYTES(0x00), EMPTY, 2, {0, 1000, ROOM}, 6, UNTOUCHED, 1, NULL},
        {BYTES(0x20, 0x0A, 0x0E), EMPTY, 2, {0, 1000, ROOM}, 9, UNTOUCHED, 2, NULL},
    };
    rows_hold(rows, sizeof rows / sizeof rows[0]);
}

/* A charstring with its local list, the tokens, its flat string, and the width that it says. */
struct width_row {
    const uint8_t *charstring;
    size_t charstring_len;
    const uint8_t *locals;
    size_t locals_len;
    uint32_t tokens;
    const uint8_t *flat;
    size_t length;
    uint32_t kind;
    int32_t width;
};

/* Into just the room, within just the budget; and a refusal for want of either says no width. */
static void width_holds(const struct width_row *r)
{
    const uint32_t enough[] = {0, r->tokens, (uint32_t)r->length}, no_room[] = {0, r->tokens, 0}, no_budget[] = {0, 0, ROOM};
    const ighzamrel_flattening said = {IGHZAMREL_ACCEPTED, r->length, r->tokens, UNTOUCHED, UNTOUCHED, r->kind, r->width};
    const ighzamrel_flattening too_long = {IGHZAMREL_SHORT, r->length, r->tokens, UNTOUCHED, UNTOUCHED, UNTOUCHED, UNTOUCHED};
    const ighzamrel_flattening spent = {IGHZAMREL_BUDGET_SPENT, UNTOUCHED, 0, UNTOUCHED, UNTOUCHED, UNTOUCHED, UNTOUCHED};
    flattened(r->charstring, r->charstring_len, EMPTY, sizeof EMPTY, r->locals, r->locals_len, enough, &said, r->flat);
    flattened(r->charstring, r->charstring_len, EMPTY, sizeof EMPTY, r->locals, r->locals_len, no_room, &too_long, NULL);
    flattened(r->charstring, r->charstring_len, EMPTY, sizeof EMPTY, r->locals, r->locals_len, no_budget, &spent, NULL);
}

/* The width by each operator that may have one, and by others; of an integer, a Fixed, and an operand that a subroutine leaves. */
static void widths(void)
{
    enum { INTEGER = IGHZAMREL_INTEGER, FIXED = IGHZAMREL_FIXED, NO_WIDTH = IGHZAMREL_NO_WIDTH };
    /* two entries: 1 2 rmoveto, and -5 */
    static const uint8_t entries[] = {0x00, 0x02, 0x01, 0x01, 0x05, 0x07, 0x8C, 0x8D, 0x15, 0x0B, 0x86, 0x0B};
    const struct width_row rows[] = {
        {BYTES(0x1C, 0x00, 0x05, 0x0E), EMPTY, 2, 2, BYTES(0x90, 0x0E), INTEGER, 5},
        {BYTES(0x0E), EMPTY, 2, 1, BYTES(0x0E), NO_WIDTH, UNTOUCHED},
        {BYTES(0x8C), EMPTY, 2, 1, BYTES(0x8C), NO_WIDTH, UNTOUCHED},
        {BYTES(0xFF, 0xFF, 0xFE, 0x80, 0x00, 0x0E), EMPTY, 2, 2, BYTES(0xFF, 0xFF, 0xFE, 0x80, 0x00, 0x0E), FIXED, -98304},
        {BYTES(0x8C, 0x8D, 0x8E, 0x01, 0x0E), EMPTY, 2, 5, BYTES(0x8C, 0x8D, 0x8E, 0x01, 0x0E), INTEGER, 1},
        {BYTES(0x8C, 0x8D, 0x01, 0x8E, 0x0E), EMPTY, 2, 5, BYTES(0x8C, 0x8D, 0x01, 0x8E, 0x0E), NO_WIDTH, UNTOUCHED},
        {BYTES(0x8C, 0x8D, 0x8E, 0x13, 0x80, 0x0E), EMPTY, 2, 5, BYTES(0x8C, 0x8D, 0x8E, 0x13, 0x80, 0x0E), INTEGER, 1},
        {BYTES(0x13, 0x8C, 0x0E), EMPTY, 2, 3, BYTES(0x13, 0x8C, 0x0E), NO_WIDTH, UNTOUCHED},
        {BYTES(0x8C, 0x8D, 0x15, 0x8C, 0x0E), EMPTY, 2, 5, BYTES(0x8C, 0x8D, 0x15, 0x8C, 0x0E), NO_WIDTH, UNTOUCHED},
        {BYTES(0x8C, 0x8D, 0x8E, 0x8F, 0x15), EMPTY, 2, 5, BYTES(0x8C, 0x8D, 0x8E, 0x8F, 0x15), INTEGER, 1},
        {BYTES(0x8C, 0x8D, 0x16), EMPTY, 2, 3, BYTES(0x8C, 0x8D, 0x16), INTEGER, 1},
        {BYTES(0x8C, 0x8D, 0x04), EMPTY, 2, 3, BYTES(0x8C, 0x8D, 0x04), INTEGER, 1},
        {BYTES(0x8B, 0x05, 0x8C, 0x0E), EMPTY, 2, 4, BYTES(0x8B, 0x05, 0x8C, 0x0E), NO_WIDTH, UNTOUCHED},
        {BYTES(0x8D, 0x20, 0x0A, 0x0E), entries, sizeof entries, 8, BYTES(0x8D, 0x8C, 0x8D, 0x15, 0x0E), INTEGER, 2},
        {BYTES(0x21, 0x0A, 0x20, 0x0A, 0x0E), entries, sizeof entries, 11, BYTES(0x86, 0x8C, 0x8D, 0x15, 0x0E), INTEGER, -5},
    };
    size_t i;
    for (i = 0; i < sizeof rows / sizeof rows[0]; i++)
        width_holds(&rows[i]);
}

/* An operand that waits at a second mask: plain leaves it there, and strict refuses it with 15, after 3 and before 4, and sets no place. */
static void masks(void)
{
    static const uint8_t waiting[] = {0x8B, 0x8C, 0x01, 0x13, 0x80, 0x8B, 0x14, 0x80, 0x0E};
    /* operands at a first mask are stems; one without bytes fixes no length */
    static const uint8_t stems[] = {0x8B, 0x8C, 0x13, 0x80, 0x14, 0x80, 0x0E};
    static const uint8_t no_bytes[] = {0x13, 0x8B, 0x8C, 0x13, 0x80, 0x0E};
    const size_t cut = sizeof waiting - 2;
    const struct row rows[] = {
        {waiting, sizeof waiting, EMPTY, 2, {0, 1000, ROOM}, 0, sizeof waiting, 7, waiting},
        {waiting, sizeof waiting, EMPTY, 2, {1, 1000, ROOM}, 15, UNTOUCHED, UNTOUCHED, NULL},
        {waiting, sizeof waiting, EMPTY, 2, {1, 1000, 0}, 15, UNTOUCHED, UNTOUCHED, NULL},
        {waiting, sizeof waiting, EMPTY, 2, {1, 5, ROOM}, 3, UNTOUCHED, 5, NULL},
        {waiting, cut, EMPTY, 2, {0, 6, ROOM}, 4, UNTOUCHED, 6, NULL},
        {waiting, cut, EMPTY, 2, {1, 6, ROOM}, 15, UNTOUCHED, UNTOUCHED, NULL},
        {BYTES(0x8B, 0x8C, 0x01, 0x13, 0x80, 0x20, 0x13, 0x80, 0x0A), L, 9, {1, 1000, ROOM}, 15, UNTOUCHED, UNTOUCHED, NULL},
        {stems, sizeof stems, EMPTY, 2, {1, 1000, ROOM}, 0, sizeof stems, 5, stems},
        {no_bytes, sizeof no_bytes, EMPTY, 2, {1, 1000, ROOM}, 0, sizeof no_bytes, 5, no_bytes},
    };
    rows_hold(rows, sizeof rows / sizeof rows[0]);
}

/*
 * An end without endchar: plain accepts it, and strict refuses it with 16, after every refusal of the run and before 13, and
 * sets no place.
 */
static void ends(void)
{
    static const uint8_t path[] = {0x8C, 0x8D, 0x15};
    static const uint8_t returned[] = {0x8C, 0x8D, 0x15, 0x0B, 0x0E};
    /* three entries: endchar; a call of that one; and an end that only goes back */
    static const uint8_t entries[] = {0x00, 0x03, 0x01, 0x01, 0x02, 0x04, 0x06, 0x0E, 0x20, 0x0A, 0x8C, 0x16};
    static const uint8_t ended[] = {0x0E};
    static const uint8_t went_back[] = {0x8C, 0x16, 0x0E};
    /* a mask's byte that looks like endchar */
    static const uint8_t mask[] = {0x8B, 0x8C, 0x13, 0x0E};
    const struct row rows[] = {
        {path, sizeof path, EMPTY, 2, {0, 1000, ROOM}, 0, 3, 3, path},
        {path, sizeof path, EMPTY, 2, {1, 1000, ROOM}, 16, UNTOUCHED, UNTOUCHED, NULL},
        {path, sizeof path, EMPTY, 2, {0, 3, 2}, 13, 3, 3, NULL},
        {path, sizeof path, EMPTY, 2, {1, 3, 2}, 16, UNTOUCHED, UNTOUCHED, NULL},
        {path, sizeof path, EMPTY, 2, {1, 2, ROOM}, 3, UNTOUCHED, 2, NULL},
        {NONE, EMPTY, 2, {1, 0, ROOM}, 16, UNTOUCHED, UNTOUCHED, NULL},
        {NONE, EMPTY, 2, {1, 0, 0}, 16, UNTOUCHED, UNTOUCHED, NULL},
        {BYTES(0x8B), EMPTY, 2, {1, 1, 0}, 16, UNTOUCHED, UNTOUCHED, NULL},
        {returned, sizeof returned, EMPTY, 2, {0, 1000, ROOM}, 0, 3, 4, path},
        {returned, sizeof returned, EMPTY, 2, {1, 1000, ROOM}, 16, UNTOUCHED, UNTOUCHED, NULL},
        {mask, sizeof mask, EMPTY, 2, {0, 1000, ROOM}, 0, 4, 3, mask},
        {mask, sizeof mask, EMPTY, 2, {1, 1000, ROOM}, 16, UNTOUCHED, UNTOUCHED, NULL},
        {BYTES(0x8C, 0x00), EMPTY, 2, {1, 1000, ROOM}, 6, UNTOUCHED, 2, NULL},
        {BYTES(0x8B, 0x8B, 0x8B, 0x8B, 0x0E), EMPTY, 2, {1, 1000, ROOM}, 12, UNTOUCHED, 5, NULL},
        {BYTES(0x20, 0x0A), entries, sizeof entries, {1, 1000, ROOM}, 0, 1, 3, ended},
        {BYTES(0x21, 0x0A, 0x00), entries, sizeof entries, {1, 1000, ROOM}, 0, 1, 5, ended},
        {BYTES(0x22, 0x0A), entries, sizeof entries, {1, 1000, ROOM}, 16, UNTOUCHED, UNTOUCHED, NULL},
        {BYTES(0x22, 0x0A, 0x0E), entries, sizeof entries, {1, 1000, ROOM}, 0, 3, 5, went_back},
        {BYTES(0x20, 0x0A), L, 9, {1, 1000, ROOM}, 16, UNTOUCHED, UNTOUCHED, NULL},
    };
    rows_hold(rows, sizeof rows / sizeof rows[0]);
}

/* A list that is not well formed: the reason, and the entry that comes with it. The global list is looked at before the local one. */
static void bad_list(const uint8_t *list, size_t n, uint32_t why, uint32_t bad)
{
    static const uint32_t limits[] = {IGHZAMREL_PLAIN, 0, ROOM};
    static const uint8_t charstring[] = {0x0E};
    const ighzamrel_flattening globals = {IGHZAMREL_BAD_GLOBALS, UNTOUCHED, UNTOUCHED, bad, why, UNTOUCHED, UNTOUCHED};
    const ighzamrel_flattening locals = {IGHZAMREL_BAD_LOCALS, UNTOUCHED, UNTOUCHED, bad, why, UNTOUCHED, UNTOUCHED};
    list_checked(list, n, why, UNTOUCHED, bad);
    flattened(charstring, 1, list, n, EMPTY, 1, limits, &globals, NULL);
    flattened(charstring, 1, L, sizeof L, list, n, limits, &locals, NULL);
    bad_font(list, n, why, bad);
    bad_list_with_rows(list, n, why, bad);
    bad_list_explained(list, n, why, bad);
    if (bad != UNTOUCHED)
        entry_read(list, n, bad, why, UNTOUCHED, UNTOUCHED);
}

static void bad_lists(void)
{
    bad_list(NONE, 20, UNTOUCHED);
    bad_list(L, sizeof L - 1, 20, UNTOUCHED);
    bad_list(BYTES(0x00, 0x01, 0x05), 21, UNTOUCHED);
    /* a last offset of 0, a first one, and one between */
    bad_list(BYTES(0x00, 0x02, 0x01, 0x01, 0x01, 0x00), 40, 0);
    bad_list(BYTES(0x00, 0x02, 0x01, 0x00, 0x01, 0x01), 40, 0);
    bad_list(BYTES(0x00, 0x03, 0x01, 0x01, 0x01, 0x00, 0x01), 40, 1);
    bad_list(BYTES(0x00, 0x03, 0x01, 0x01, 0x02, 0x01, 0x02, 0x0E), 41, 1);
    bad_list(BYTES(0x00, 0x03, 0x01, 0x01, 0x01, 0x03, 0x02, 0x0E), 42, 1);
    /* a last offset of 0 is looked at before the number */
    entry_read(BYTES(0x00, 0x02, 0x01, 0x01, 0x01, 0x00), 7, 40, UNTOUCHED, UNTOUCHED);
}

int main(void)
{
    numbers();
    call_indexes();
    indexes();
    flattening();
    widths();
    masks();
    ends();
    make_lists();
    marks();
    marks_refused();
    fonts();
    glyphs();
    glyphs_refused();
    many_glyphs();
    explanations();
    accepted_explained();
    long_list_explained(216, 215, 0xF7, 0x00);
    long_list_explained(1240, 0, 0xFE, 0xFF);
    refusals_explained();
    bad_lists();
    printf("smoke: fourteen functions, %u checks hold\n", checks);
    return 0;
}
