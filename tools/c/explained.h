/*
 * The part of smoke.c about ighzamrel_explain: each place and every word, at each refusal of a run, in the charstring itself, one call
 * deep and as deep as calls go.
 */
#ifndef EXPLAINED_H
#define EXPLAINED_H

#include "ighzamrel.h"

#include "expect.h"

/* Words are lent from place 1 and from place 2 on, so that 16 divides the address of one slice and not that of the other. */
enum { CALL_WORDS = 3, MOST_WORDS = CALL_WORDS * IGHZAMREL_MOST_CALLS, WORDS = MOST_WORDS + 8 };

static uint64_t words[WORDS];
static size_t open_calls;

/* What is asked: a charstring with its two lists, the profile and the budget. */
struct asked {
    const uint8_t *charstring;
    size_t charstring_len;
    const uint8_t *globals;
    size_t globals_len;
    const uint8_t *locals;
    size_t locals_len;
    uint32_t profile;
    uint32_t budget;
};

#define ASKED(a) \
    (a)->charstring, (a)->charstring_len, (a)->globals, (a)->globals_len, (a)->locals, (a)->locals_len, (a)->profile, (a)->budget

/* Whether the n words from `at` on start with those of as many calls as they hold whole, and every other word is blank. */
static int words_hold(size_t at, size_t n, const uint64_t *calls, size_t count)
{
    const size_t told = CALL_WORDS * (count < n / CALL_WORDS ? count : n / CALL_WORDS);
    uint64_t blank_word;
    size_t i;
    memset(&blank_word, BLANK, sizeof blank_word);
    for (i = 0; i < WORDS; i++)
        if (words[i] != (i >= at && i < at + told ? calls[i - at] : blank_word))
            return 0;
    return 1;
}

/* Explains into n words from `at` on, by the places and by the struct: both must have this answer and these values, and leave the words so. */
static void explained_into(const struct asked *asked, size_t at, size_t n, const ighzamrel_explanation *must, const uint64_t *calls)
{
    ighzamrel_explanation result;
    clear();
    open_calls = UNTOUCHED;
    memset(words, BLANK, sizeof words);
    EXPECT(ighzamrel_explain(ASKED(asked), words + at, n, &length, &tokens, &entry, &reason, &width_kind, &width, &open_calls)
           == must->answer);
    EXPECT(length == must->length && tokens == must->tokens && entry == must->entry && reason == must->reason);
    EXPECT(width_kind == must->width_kind && width == must->width && open_calls == must->calls);
    EXPECT(words_hold(at, n, calls, must->calls));
    memset(words, BLANK, sizeof words);
    memset(&result, BLANK, sizeof result);
    EXPECT(ighzamrel_explain_into(ASKED(asked), words + at, n, &result) == must->answer);
    EXPECT(result.answer == must->answer && result.length == given(must->length) && result.tokens == given(must->tokens));
    EXPECT(result.entry == given(must->entry) && result.reason == given(must->reason));
    EXPECT(result.width_kind == given(must->width_kind) && result.width == (must->width == UNTOUCHED ? 0 : must->width));
    EXPECT(result.calls == must->calls && words_hold(at, n, calls, must->calls));
}

/* ighzamrel_flatten, which has room for all that is accepted here, answers the same and sets the same places. */
static void flattens_so(const struct asked *asked, const ighzamrel_explanation *must)
{
    clear();
    EXPECT(ighzamrel_flatten(ASKED(asked), out, ROOM, &length, &tokens, &entry, &reason, &width_kind, &width) == must->answer);
    EXPECT(length == must->length && tokens == must->tokens && entry == must->entry && reason == must->reason);
    EXPECT(width_kind == must->width_kind && width == must->width);
}

/* Into no words, a few, one too few, just enough and more. */
static void explained(const struct asked *asked, const ighzamrel_explanation *must, const uint64_t *calls)
{
    const size_t exact = CALL_WORDS * must->calls;
    const size_t lent[] = {0, 1, 2, 3, 4, 5, 6, exact > 0 ? exact - 1 : 0, exact, exact + 1, exact + 2, exact + 3, MOST_WORDS};
    size_t at, i;
    flattens_so(asked, must);
    for (at = 1; at <= 2; at++)
        for (i = 0; i < sizeof lent / sizeof lent[0]; i++)
            explained_into(asked, at, lent[i], must, calls);
}

/* What is asked, what it must answer, and the words of its calls. */
struct explained_row {
    struct asked asked;
    uint32_t answer;
    uint32_t tokens;
    size_t count;
    uint64_t calls[2 * CALL_WORDS];
};

static void explained_rows_hold(const struct explained_row *rows, size_t n)
{
    size_t i;
    for (i = 0; i < n; i++) {
        const struct explained_row *r = &rows[i];
        const ighzamrel_explanation must = {r->answer, UNTOUCHED, r->tokens, UNTOUCHED, UNTOUCHED, UNTOUCHED, UNTOUCHED, r->count};
        explained(&r->asked, &must, r->calls);
    }
}

/* the local list of document 02's example: one entry, whose byte starts no token */
static const uint8_t UNKNOWN_ENTRY[] = {0x00, 0x01, 0x01, 0x01, 0x02, 0x00};

/* The example; what is open and what is not any more; and where the budget ends. */
static void explanations(void)
{
    enum { U = UNTOUCHED, P = IGHZAMREL_PLAIN, S = IGHZAMREL_STRICT, N = sizeof UNKNOWN_ENTRY };
    const uint8_t *one = UNKNOWN_ENTRY;
    /* five entries, of which the last calls local 0; and three: return, no bytes, and a byte that starts no token */
    static const uint8_t five[] = {0x00, 0x05, 0x01, 0x01, 0x01, 0x01, 0x01, 0x01, 0x03, 0x20, 0x0A};
    static const uint8_t three[] = {0x00, 0x03, 0x01, 0x01, 0x02, 0x02, 0x03, 0x0B, 0x00};
    const struct explained_row rows[] = {
        {{BYTES(0x20, 0x0A), EMPTY, 2, one, N, P, 1000000}, 6, 3, 1, {0, 0, 1}},
        {{BYTES(0x20, 0x1D), one, N, EMPTY, 2, S, 3}, 6, 3, 1, {1, 0, 1}},
        {{BYTES(0x8C, 0x16, 0x24, 0x1D), five, sizeof five, one, N, P, 7}, 6, 7, 2, {1, 4, 3, 0, 0, 1}},
        {{BYTES(0x00), EMPTY, 2, one, N, P, 1}, 6, 1, 0, {0}},
        /* calls that came back, by return and for want of bytes, and one that is still open behind them */
        {{BYTES(0x20, 0x0A, 0x00), EMPTY, 2, L, 9, P, 1000}, 6, 7, 0, {0}},
        {{BYTES(0x20, 0x0A, 0x21, 0x0A, 0x00), EMPTY, 2, three, sizeof three, P, 1000}, 6, 6, 0, {0}},
        {{BYTES(0x20, 0x0A, 0x21, 0x0A, 0x22, 0x0A), EMPTY, 2, three, sizeof three, P, 1000}, 6, 8, 1, {0, 2, 5}},
        /* calls that are refused */
        {{BYTES(0x0A), EMPTY, 2, one, N, P, 1000}, 7, 1, 0, {0}},
        {{BYTES(0x21, 0x0A), EMPTY, 2, one, N, P, 1000}, 9, 2, 0, {0}},
        /* an index of five bytes and of three: the operator is behind it */
        {{BYTES(0xFF, 0xFF, 0x95, 0x00, 0x00, 0x0A), EMPTY, 2, one, N, P, 1000}, 6, 3, 1, {0, 0, 5}},
        {{BYTES(0x1C, 0xFF, 0x95, 0x1D), one, N, EMPTY, 2, S, 1000}, 6, 3, 1, {1, 0, 3}},
        /* the budget ends before the first token, before the call, and behind it */
        {{BYTES(0x20, 0x0A), EMPTY, 2, one, N, P, 0}, 3, 0, 0, {0}},
        {{BYTES(0x20, 0x0A), EMPTY, 2, one, N, P, 1}, 3, 1, 0, {0}},
        {{BYTES(0x20, 0x0A), EMPTY, 2, one, N, P, 2}, 3, 2, 1, {0, 0, 1}},
        /* a return takes a token, and the end of an entry none */
        {{BYTES(0x20, 0x0A, 0x0E), EMPTY, 2, three, sizeof three, P, 2}, 3, 2, 1, {0, 0, 1}},
        {{BYTES(0x20, 0x0A, 0x0E), EMPTY, 2, three, sizeof three, P, 3}, 3, 3, 0, {0}},
        {{BYTES(0x21, 0x0A, 0x0E), EMPTY, 2, three, sizeof three, P, 2}, 3, 2, 0, {0}},
        /* an end without endchar has no call open, and tells no tokens */
        {{BYTES(0x20, 0x0A), EMPTY, 2, L, 9, S, 1000}, 16, U, 0, {0}},
        {{NONE, EMPTY, 2, one, N, S, 0}, 16, U, 0, {0}},
    };
    explained_rows_hold(rows, sizeof rows / sizeof rows[0]);
}

/* Accepted: no word changes, also where endchar stands in a subroutine. */
static void accepted_explained(void)
{
    enum { U = UNTOUCHED, NO_WIDTH = IGHZAMREL_NO_WIDTH };
    static const uint8_t ends[] = {0x00, 0x01, 0x01, 0x01, 0x02, 0x0E};
    const struct {
        struct asked asked;
        ighzamrel_explanation must;
    } rows[] = {
        {{NONE, EMPTY, 2, EMPTY, 2, 0, 0}, {0, 0, 0, U, U, NO_WIDTH, U, 0}},
        {{BYTES(0x20, 0x0A, 0x0E), EMPTY, 2, L, 9, 0, 7}, {0, 4, 7, U, U, NO_WIDTH, U, 0}},
        {{BYTES(0x20, 0x0A), EMPTY, 2, ends, sizeof ends, 1, 3}, {0, 1, 3, U, U, NO_WIDTH, U, 0}},
        {{BYTES(0x20, 0x1D, 0x00), ends, sizeof ends, EMPTY, 2, 0, 3}, {0, 1, 3, U, U, NO_WIDTH, U, 0}},
        {{BYTES(0x1C, 0x00, 0x05, 0x0E), EMPTY, 2, EMPTY, 2, 1, 2}, {0, 2, 2, U, U, IGHZAMREL_INTEGER, 5, 0}},
        {{BYTES(0xFF, 0xFF, 0xFE, 0x80, 0x00, 0x0E), EMPTY, 2, EMPTY, 2, 0, 2}, {0, 6, 2, U, U, IGHZAMREL_FIXED, -98304, 0}},
    };
    size_t i;
    for (i = 0; i < sizeof rows / sizeof rows[0]; i++)
        explained(&rows[i].asked, &rows[i].must, NULL);
}

/* A list that is not well formed: the reason, and the entry that comes with it; no call is open, and no word changes. */
static void bad_list_explained(const uint8_t *list, size_t n, uint32_t why, uint32_t bad)
{
    const struct asked globals = {BYTES(0x20, 0x0A), list, n, EMPTY, 1, IGHZAMREL_PLAIN, 1000};
    const struct asked locals = {BYTES(0x20, 0x1D), UNKNOWN_ENTRY, sizeof UNKNOWN_ENTRY, list, n, IGHZAMREL_STRICT, 1000};
    ighzamrel_explanation must = {IGHZAMREL_BAD_GLOBALS, UNTOUCHED, UNTOUCHED, bad, why, UNTOUCHED, UNTOUCHED, 0};
    explained(&globals, &must, NULL);
    must.answer = IGHZAMREL_BAD_LOCALS;
    explained(&locals, &must, NULL);
}

/* An index of two bytes, over a list of so many entries, of which this one alone has a byte, one that starts no token. */
static void long_list_explained(uint32_t count, uint32_t number, uint8_t first, uint8_t second)
{
    enum { MOST_ENTRIES = 1240 };
    static uint32_t lengths[MOST_ENTRIES];
    static uint8_t list[3 + 2 * (MOST_ENTRIES + 1) + 1];
    const uint64_t call[] = {IGHZAMREL_LOCAL, number, 2};
    const ighzamrel_explanation must = {6, UNTOUCHED, 3, UNTOUCHED, UNTOUCHED, UNTOUCHED, UNTOUCHED, 1};
    const uint8_t charstring[] = {first, second, 0x0A};
    size_t size;
    memset(lengths, 0, sizeof lengths);
    lengths[number] = 1;
    EXPECT(ighzamrel_write_index(lengths, count, BYTES(0x00), list, sizeof list, &size) == 0);
    {
        const struct asked asked = {charstring, sizeof charstring, EMPTY, 2, list, size, IGHZAMREL_PLAIN, 1000};
        explained(&asked, &must, call);
    }
}

/*
 * A chain: strings of which each calls the next, the charstring and then entries of the local and of the global list by turns. The
 * last string of a list comes first in it; behind these comes an entry that declares 24 hints.
 */
enum { LEVELS = IGHZAMREL_MOST_CALLS + 1, STRING = 64, LIST = 4096, HINTS = 24, MOST_HINTED = 2730 };

struct chain {
    uint8_t charstring[2 * MOST_HINTED + STRING];
    size_t charstring_len;
    uint8_t lists[2][LIST];
    size_t lists_len[2];
    uint64_t calls[MOST_WORDS];
    uint32_t tokens; /* that are run before the last string */
};

/* How many strings of a chain are entries of this list. */
static uint32_t entries_of(uint32_t depth, uint32_t list) { return (depth - list) / 2; }

/* Puts a call of this entry: behind 0 to 3 rmoveto, by an index of one byte, of three or of five. Gives how many bytes it has. */
static size_t put_call(uint8_t *to, uint32_t level, uint32_t number, uint32_t list)
{
    const uint32_t index = number - 107;
    const uint8_t high = (uint8_t)(index >> 8), low = (uint8_t)index;
    const uint8_t forms[3][5] = {{(uint8_t)(0x20 + number)}, {0x1C, high, low}, {0xFF, high, low}};
    size_t n, i;
    for (n = 0; n < 3 * (level % 4); n++)
        to[n] = n % 3 == 2 ? 0x15 : 0x8B;
    for (i = 0; i < 1 + 2 * (level % 3); i++)
        to[n++] = forms[level % 3][i];
    to[n++] = list == IGHZAMREL_GLOBAL ? 0x1D : 0x0A;
    return n;
}

/* Puts the string of this level: the tail, or the call of the next, which is told in the chain. */
static size_t put_level(struct chain *c, uint8_t *to, size_t before, uint32_t level, uint32_t depth, const uint8_t *tail, size_t tail_len)
{
    const uint32_t list = level % 2, number = entries_of(depth, list) - 1 - level / 2;
    uint64_t *call = c->calls + CALL_WORDS * level;
    size_t n;
    if (level + 1 == depth) {
        memcpy(to, tail, tail_len);
        return tail_len;
    }
    n = put_call(to, level, number, list);
    call[0] = list;
    call[1] = number;
    call[2] = before + n - 1;
    c->tokens += 3 * (level % 4) + 2;
    return n;
}

/* Makes a list of the chain. */
static void put_list(struct chain *c, uint32_t list, uint32_t depth, const uint8_t *tail, size_t tail_len)
{
    static uint8_t data[LIST];
    uint32_t lengths[LEVELS / 2 + 1], i;
    const uint32_t count = entries_of(depth, list);
    size_t n = 0;
    for (i = 0; i < count; i++) {
        lengths[i] = (uint32_t)put_level(c, data + n, 0, 2 * (count - 1 - i) + 1 + list, depth, tail, tail_len);
        n += lengths[i];
    }
    memset(data + n, 0x8B, 2 * HINTS);
    data[n + 2 * HINTS] = 0x01;
    lengths[count] = 2 * HINTS + 1;
    EXPECT(ighzamrel_write_index(lengths, count + 1, data, n + 2 * HINTS + 1, c->lists[list], LIST, &c->lists_len[list]) == 0);
}

/* Makes a chain of so many strings, the last of them the tail; the charstring first calls for so many times 24 hints. */
static void make_chain(struct chain *c, uint32_t depth, uint32_t hinted, const uint8_t *tail, size_t tail_len)
{
    uint32_t i;
    for (i = 0; i < hinted; i++) {
        c->charstring[2 * i] = (uint8_t)(0x20 + entries_of(depth, IGHZAMREL_LOCAL));
        c->charstring[2 * i + 1] = 0x0A;
    }
    c->tokens = hinted * (2 + 2 * HINTS + 1);
    c->charstring_len = 2 * hinted + put_level(c, c->charstring + 2 * hinted, 2 * hinted, 0, depth, tail, tail_len);
    put_list(c, IGHZAMREL_LOCAL, depth, tail, tail_len);
    put_list(c, IGHZAMREL_GLOBAL, depth, tail, tail_len);
}

/* A string that is refused at this token of its own, by either profile or by one of them. */
struct tail {
    const uint8_t *bytes;
    size_t n;
    uint32_t answer;
    uint32_t token;
};

/* Such a string at the end of a chain: refused with all calls of the chain open, under a budget that just lets the token be run. */
static void refused_at(const struct tail *t, uint32_t profile, uint32_t depth)
{
    static struct chain c;
    const int untold = t->answer == IGHZAMREL_OPERANDS_AT_MASK;
    const uint32_t most_hinted = profile == IGHZAMREL_STRICT ? 96 / HINTS : MOST_HINTED;
    ighzamrel_explanation must = {t->answer, UNTOUCHED, UNTOUCHED, UNTOUCHED, UNTOUCHED, UNTOUCHED, UNTOUCHED, depth - 1};
    make_chain(&c, depth, t->answer == IGHZAMREL_TOO_MANY_HINTS ? most_hinted : 0, t->bytes, t->n);
    {
        const struct asked asked = {c.charstring,   c.charstring_len, c.lists[IGHZAMREL_GLOBAL], c.lists_len[IGHZAMREL_GLOBAL],
                                    c.lists[IGHZAMREL_LOCAL], c.lists_len[IGHZAMREL_LOCAL], profile, c.tokens + t->token};
        must.tokens = untold ? UNTOUCHED : c.tokens + t->token;
        explained(&asked, &must, c.calls);
    }
}

/* In the charstring, one call deep, and as deep as calls go; 10 comes there alone, and a string higher up for 8, which it goes before. */
static void refused_at_depths(const struct tail *t, uint32_t profile)
{
    const uint32_t deepest = profile == IGHZAMREL_STRICT ? 11 : LEVELS;
    if (t->answer == IGHZAMREL_TOO_DEEP) {
        refused_at(t, profile, deepest);
        return;
    }
    refused_at(t, profile, 1);
    refused_at(t, profile, 2);
    refused_at(t, profile, t->answer == IGHZAMREL_INDEX_NOT_LAST ? deepest - 1 : deepest);
}

/* Every refusal of a run: 3 to 12 in plain; in strict 15 too, and 8 never. */
static void refusals_explained(void)
{
    static uint8_t operands[49], stem[33];
    const struct tail tails[] = {
        {BYTES(0x0E), 3, 0},
        {BYTES(0x1C), 4, 1},
        {BYTES(0x0C), 4, 1},
        {BYTES(0x8B, 0x8C, 0x13), 4, 3},
        {operands, sizeof operands, 5, 49},
        {BYTES(0x8B, 0x15, 0x00), 6, 3},
        {BYTES(0x0A), 7, 1},
        {BYTES(0xFF, 0x00, 0xFF, 0x00, 0x01, 0x1D), 7, 2},
        {BYTES(0xEF, 0x0A), 9, 2},
        {BYTES(0xEF, 0x1D), 9, 2},
        {BYTES(0x20, 0x0A), 10, 2},
        {BYTES(0x20, 0x1D), 10, 2},
        {stem, sizeof stem, 11, 33},
        {BYTES(0x8B, 0x8B, 0x8B, 0x8B, 0x0E), 12, 5},
    };
    const struct tail index_not_last = {BYTES(0x8B, 0x8C, 0x01, 0x13, 0x80, 0x20, 0x13, 0x80, 0x0A), 8, 7};
    const struct tail at_mask = {BYTES(0x8B, 0x8C, 0x01, 0x13, 0x80, 0x8B, 0x14, 0x80), 15, 6};
    size_t i;
    memset(operands, 0x8B, sizeof operands);
    memset(stem, 0x8B, sizeof stem - 1);
    stem[sizeof stem - 1] = 0x01;
    for (i = 0; i < sizeof tails / sizeof tails[0]; i++) {
        refused_at_depths(&tails[i], IGHZAMREL_PLAIN);
        refused_at_depths(&tails[i], IGHZAMREL_STRICT);
    }
    refused_at_depths(&index_not_last, IGHZAMREL_PLAIN);
    refused_at_depths(&at_mask, IGHZAMREL_STRICT);
}

#endif
