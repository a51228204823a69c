/*
 * One charstring made flat, the same charstring refused, and a list of subroutines that is damaged; the glyphs of a
 * whole font, and those of them that a text needs; what the strict profile refuses beyond the plain one; charstrings that say their width; which
 * subroutines a charstring uses; and where a refused one is refused, through its calls.
 *
 *     cc example.c $(pkg-config --cflags --libs ighzamrel)
 */
#include "ighzamrel.h"

#include <stdio.h>

/* The most tokens to run for one glyph, through every call: what bounds the time that a font can take. */
enum { BUDGET = 100000, ROOM = 64 };

/* A row of so many bytes serves any list, for none of CFF has more than 65535 entries. */
enum { ROW = 8192 };

/* What a refusal of a charstring says to a person; the header has the whole list. */
static const char *in_words(uint32_t answer)
{
    switch (answer) {
    case IGHZAMREL_BAD_GLOBALS: return "the font's list of global subroutines is damaged";
    case IGHZAMREL_BAD_LOCALS: return "the font's list of local subroutines is damaged";
    case IGHZAMREL_BUDGET_SPENT: return "the glyph takes more tokens than it may";
    case IGHZAMREL_UNKNOWN: return "a byte starts no number, or an operator is not supported";
    case IGHZAMREL_NO_ENTRY: return "the glyph calls a subroutine that the font does not have";
    case IGHZAMREL_OPERANDS_AT_MASK: return "the glyph has operands at a hint mask that takes none";
    case IGHZAMREL_NO_ENDCHAR: return "the glyph comes to its end without endchar";
    case IGHZAMREL_SHORT: return "the result is longer than the room for it";
    case IGHZAMREL_TOO_MANY_ELEMENTS: return "more glyphs are asked for than an INDEX can have";
    case IGHZAMREL_PAST_COUNT: return "the font has no glyph of that number";
    case IGHZAMREL_BAD_CHARSTRINGS: return "the font's list of glyphs is damaged";
    case IGHZAMREL_ROW_TOO_SHORT: return "a row is too short for the font's list of subroutines";
    default: return "the glyph's charstring is damaged or not supported";
    }
}

/* What is wrong with a list; 40, 41 and 42 come with the number of its first bad entry. */
static void explain_list(uint32_t reason, uint32_t entry)
{
    switch (reason) {
    case IGHZAMREL_INDEX_LACKING: printf("it lacks bytes\n"); break;
    case IGHZAMREL_OFFSET_SIZE: printf("its offset size is not 1 to 4\n"); break;
    case IGHZAMREL_ZERO_OFFSET: printf("entry %u: an offset, or the list's last, is 0\n", (unsigned)entry); break;
    case IGHZAMREL_DESCENDING: printf("entry %u: its offsets descend\n", (unsigned)entry); break;
    case IGHZAMREL_PAST_DATA: printf("entry %u: its offsets pass the data\n", (unsigned)entry); break;
    }
}

/* 1 and 2 come with a reason, 3 to 13 with the tokens, and 15, 16 and 43 with neither. */
static void explain(const ighzamrel_flattening *flat)
{
    printf("refused with %u", (unsigned)flat->answer);
    if (flat->reason != 0) {
        printf(": %s: ", in_words(flat->answer));
        explain_list(flat->reason, flat->entry);
        return;
    }
    if (flat->answer <= IGHZAMREL_SHORT)
        printf(" after %u tokens", (unsigned)flat->tokens);
    printf(": %s\n", in_words(flat->answer));
}

/* a font without such subroutines */
static const uint8_t no_list[] = {0x00, 0x00};

static void show_bytes(const uint8_t *bytes, size_t n)
{
    size_t i;
    for (i = 0; i < n; i++)
        printf(" %02X", (unsigned)bytes[i]);
    printf("\n");
}

/* What the charstring says of its advance width: it is so much more than the font's nominalWidthX, or defaultWidthX. */
static void show_width(const ighzamrel_flattening *flat)
{
    switch (flat->width_kind) {
    case IGHZAMREL_INTEGER: printf("nominalWidthX + %ld", (long)flat->width); break;
    case IGHZAMREL_FIXED: printf("nominalWidthX + %ld/65536", (long)flat->width); break;
    case IGHZAMREL_NO_WIDTH: printf("defaultWidthX"); break;
    }
}

static void show(uint32_t profile, const uint8_t *charstring, size_t charstring_len, const uint8_t *locals,
                 size_t locals_len)
{
    uint8_t out[ROOM];
    ighzamrel_flattening flat;
    if (ighzamrel_flatten_into(charstring, charstring_len, no_list, sizeof no_list, locals, locals_len, profile, BUDGET,
                               out, sizeof out, &flat) != IGHZAMREL_ACCEPTED) {
        explain(&flat);
        return;
    }
    printf("flat, %u bytes in %u tokens, width ", (unsigned)flat.length, (unsigned)flat.tokens);
    show_width(&flat);
    printf(":");
    show_bytes(out, flat.length);
}

/* 1, 2 and 26 come with a reason, 3 to 12, 15, 16 and 25 with the first that is refused, a glyph's number or its place. */
static void explain_font(const ighzamrel_font_flattening *flat, const char *what, const char *first)
{
    printf("%s refused with %u", what, (unsigned)flat->answer);
    if ((flat->answer >= IGHZAMREL_BUDGET_SPENT && flat->answer <= IGHZAMREL_COMPOSITE) ||
        flat->answer == IGHZAMREL_OPERANDS_AT_MASK || flat->answer == IGHZAMREL_NO_ENDCHAR ||
        flat->answer == IGHZAMREL_PAST_COUNT)
        printf(" at %s %u", first, (unsigned)flat->glyph);
    printf(": %s", in_words(flat->answer));
    if (flat->reason == 0) {
        printf("\n");
        return;
    }
    printf(": ");
    explain_list(flat->reason, flat->entry);
}

static void show_font(uint32_t profile, const uint8_t *charstrings, size_t charstrings_len, const uint8_t *locals,
                      size_t locals_len)
{
    uint8_t out[ROOM];
    ighzamrel_font_flattening flat;
    if (ighzamrel_flatten_font_into(charstrings, charstrings_len, no_list, sizeof no_list, locals, locals_len, profile,
                                    BUDGET, out, sizeof out, &flat) != IGHZAMREL_ACCEPTED) {
        explain_font(&flat, "the font is", "glyph");
        return;
    }
    printf("the INDEX of all flat strings, %u bytes:", (unsigned)flat.length);
    show_bytes(out, flat.length);
}

/* The glyphs that a text needs, in its order: what of the font goes into the document. */
static void show_glyphs(const uint8_t *charstrings, size_t charstrings_len, const uint32_t *numbers, size_t numbers_len,
                        const uint8_t *locals, size_t locals_len)
{
    uint8_t out[ROOM];
    ighzamrel_font_flattening flat;
    if (ighzamrel_flatten_glyphs_into(charstrings, charstrings_len, numbers, numbers_len, no_list, sizeof no_list, locals,
                                      locals_len, IGHZAMREL_PLAIN, BUDGET, out, sizeof out, &flat) != IGHZAMREL_ACCEPTED) {
        explain_font(&flat, "the glyphs are", "place");
        return;
    }
    printf("the INDEX of %u flat strings, %u bytes:", (unsigned)numbers_len, (unsigned)flat.length);
    show_bytes(out, flat.length);
}

static void asked_for(void)
{
    /* endchar, a call of local 0, which is 1 2 rmoveto, and 2 hmoveto; of these the last, the second and the last again */
    static const uint8_t glyphs[] = {0x00, 0x03, 0x01, 0x01, 0x02, 0x05, 0x08, 0x0E, 0x20, 0x0A, 0x0E, 0x8D, 0x16, 0x0E};
    static const uint8_t locals[] = {0x00, 0x01, 0x01, 0x01, 0x05, 0x8C, 0x8D, 0x15, 0x0B};
    static const uint32_t numbers[] = {2, 1, 2}, absent[] = {2, 0, 3};
    show_glyphs(glyphs, sizeof glyphs, numbers, 3, locals, sizeof locals);
    show_glyphs(glyphs, sizeof glyphs, numbers, 0, locals, sizeof locals);
    show_glyphs(glyphs, sizeof glyphs, numbers, 3, no_list, sizeof no_list);
    show_glyphs(glyphs, sizeof glyphs, absent, 3, locals, sizeof locals);
}

/* A list by itself, as a font editor would look at it. */
static void check(const uint8_t *list, size_t list_len)
{
    uint32_t count = 0, entry = 0;
    uint32_t answer = ighzamrel_check_list(list, list_len, &count, &entry);
    if (answer == IGHZAMREL_ACCEPTED) {
        printf("the list is well formed, entries: %u\n", (unsigned)count);
        return;
    }
    printf("the list is refused with %u: ", (unsigned)answer);
    explain_list(answer, entry);
}

/* The entries of a list that are marked in its row: entry i at bit i mod 8 of byte i / 8. */
static void show_marked(const uint8_t *list, size_t list_len, const uint8_t *row)
{
    uint32_t count = 0, entry = 0, i;
    (void)ighzamrel_check_list(list, list_len, &count, &entry);
    for (i = 0; i < count; i++)
        if ((row[i / 8] >> i % 8) & 1)
            printf(" %u", (unsigned)i);
}

/* Which subroutines a glyph uses. Where none of these is changed, it need not be flattened again. */
static void show_used(const uint8_t *charstring, size_t charstring_len, const uint8_t *globals, size_t globals_len,
                      const uint8_t *locals, size_t locals_len)
{
    static uint8_t globals_row[ROW], locals_row[ROW];
    uint8_t out[ROOM];
    ighzamrel_flattening flat;
    if (ighzamrel_flatten_marked_into(charstring, charstring_len, globals, globals_len, locals, locals_len, IGHZAMREL_PLAIN,
                                      BUDGET, out, sizeof out, globals_row, sizeof globals_row, locals_row,
                                      sizeof locals_row, &flat) != IGHZAMREL_ACCEPTED) {
        explain(&flat);
        return;
    }
    printf("the glyph uses the global subroutines");
    show_marked(globals, globals_len, globals_row);
    printf(" and the local subroutines");
    show_marked(locals, locals_len, locals_row);
    printf("\n");
}

static void used(void)
{
    /* calls of local 0, which is 1 2 rmoveto, and of local 2, which calls global 1; global 0 and local 1 are not used */
    static const uint8_t calls[] = {0x20, 0x0A, 0x22, 0x0A, 0x0E};
    static const uint8_t two[] = {0x00, 0x02, 0x01, 0x01, 0x02, 0x05, 0x0B, 0x8C, 0x16, 0x0B};
    static const uint8_t three[] = {0x00, 0x03, 0x01, 0x01, 0x05, 0x06, 0x09, 0x8C, 0x8D, 0x15, 0x0B, 0x0B, 0x21, 0x1D, 0x0B};
    show_used(calls, sizeof calls, two, sizeof two, three, sizeof three);
}

/* Where a token stands: in which subroutine, the innermost call's, and where each is called. The words have the outermost first. */
static void show_place(const uint64_t *words, size_t calls)
{
    if (calls == 0) {
        printf("the charstring itself\n");
        return;
    }
    for (; calls > 0; calls--) {
        const uint64_t *call = words + 3 * (calls - 1);
        printf("%s subroutine %lu, called at byte %lu of ", call[0] == IGHZAMREL_GLOBAL ? "global" : "local",
               (unsigned long)call[1], (unsigned long)call[2]);
    }
    printf("the charstring\n");
}

/* 3 to 12 come with the tokens, 15 without; at 16 no token is refused. The budget is spent before a token is begun. */
static void explain_run(const ighzamrel_explanation *why, const uint64_t *words)
{
    int spent = why->answer == IGHZAMREL_BUDGET_SPENT;
    printf("refusal %u: %s", (unsigned)why->answer, in_words(why->answer));
    if (why->answer <= IGHZAMREL_COMPOSITE)
        printf("%s token %u", spent ? " after" : ", at", (unsigned)why->tokens);
    if (why->answer == IGHZAMREL_NO_ENDCHAR) {
        printf("\n");
        return;
    }
    printf("; %s stands in ", spent ? "the next token" : "it");
    show_place(words, why->calls);
}

/* Why a glyph is refused, and where. So many words have room for every call that can be open. */
static void show_why(const uint8_t *charstring, size_t charstring_len, const uint8_t *globals, size_t globals_len,
                     const uint8_t *locals, size_t locals_len)
{
    uint64_t words[3 * IGHZAMREL_MOST_CALLS];
    ighzamrel_explanation why;
    if (ighzamrel_explain_into(charstring, charstring_len, globals, globals_len, locals, locals_len, IGHZAMREL_PLAIN, BUDGET,
                               words, sizeof words / sizeof words[0], &why) == IGHZAMREL_ACCEPTED) {
        printf("accepted: %u bytes in %u tokens\n", (unsigned)why.length, (unsigned)why.tokens);
        return;
    }
    if (why.reason == 0) {
        explain_run(&why, words);
        return;
    }
    printf("refusal %u: %s: ", (unsigned)why.answer, in_words(why.answer));
    explain_list(why.reason, why.entry);
}

static void explained(void)
{
    /* -107 callsubr, and a local list whose entry 0 is a byte that starts no token */
    static const uint8_t call[] = {0x20, 0x0A};
    static const uint8_t unknown[] = {0x00, 0x01, 0x01, 0x01, 0x02, 0x00};
    /* 1 hmoveto and a call of global 4, the one that has bytes: a call of local 0 */
    static const uint8_t nested[] = {0x8C, 0x16, 0x24, 0x1D};
    static const uint8_t five[] = {0x00, 0x05, 0x01, 0x01, 0x01, 0x01, 0x01, 0x01, 0x03, 0x20, 0x0A};
    /* entry 0 is a call of entry 1, which is not there */
    static const uint8_t missing[] = {0x00, 0x01, 0x01, 0x01, 0x03, 0x21, 0x0A};
    show_why(call, sizeof call, no_list, sizeof no_list, unknown, sizeof unknown);
    show_why(nested, sizeof nested, five, sizeof five, missing, sizeof missing);
    show_why(call, sizeof call, no_list, sizeof no_list, no_list, sizeof no_list);
}

int main(void)
{
    /* -107 callsubr endchar: with the bias 107, a call of entry 0 of the local list, which is 1 2 rmoveto return */
    static const uint8_t charstring[] = {0x20, 0x0A, 0x0E};
    static const uint8_t locals[] = {0x00, 0x01, 0x01, 0x01, 0x05, 0x8C, 0x8D, 0x15, 0x0B};
    /* three entries by the offsets 1, 2, 1 and 2: entry 1 would end before it starts */
    static const uint8_t damaged[] = {0x00, 0x03, 0x01, 0x01, 0x02, 0x01, 0x02, 0x0B};
    /* the CharStrings INDEX of a font with three glyphs: endchar, that charstring, and endchar */
    static const uint8_t glyphs[] = {0x00, 0x03, 0x01, 0x01, 0x02, 0x05, 0x06, 0x0E, 0x20, 0x0A, 0x0E, 0x0E};
    /* 0 1 hstem, hintmask 80, and a 0 that waits at hintmask 80; and a font with that as its second glyph */
    static const uint8_t masks[] = {0x8B, 0x8C, 0x01, 0x13, 0x80, 0x8B, 0x13, 0x80, 0x0E};
    static const uint8_t masked[] = {0x00, 0x02, 0x01, 0x01, 0x02, 0x0B, 0x0E, 0x8B,
                                     0x8C, 0x01, 0x13, 0x80, 0x8B, 0x13, 0x80, 0x0E};
    /* 1 2 rmoveto, and no endchar; and a font with that as its first glyph */
    static const uint8_t unfinished[] = {0x8C, 0x8D, 0x15};
    static const uint8_t unfinished_font[] = {0x00, 0x02, 0x01, 0x01, 0x04, 0x05, 0x8C, 0x8D, 0x15, 0x0E};
    /* 100, that call and endchar: 100 is one operand more than rmoveto takes; and 1.5, a Fixed, before endchar */
    static const uint8_t wide[] = {0xEF, 0x20, 0x0A, 0x0E};
    static const uint8_t narrow[] = {0xFF, 0x00, 0x01, 0x80, 0x00, 0x0E};
    show(IGHZAMREL_PLAIN, charstring, sizeof charstring, locals, sizeof locals);
    show(IGHZAMREL_PLAIN, charstring, sizeof charstring, no_list, sizeof no_list);
    show(IGHZAMREL_PLAIN, charstring, sizeof charstring, damaged, sizeof damaged);
    check(locals, sizeof locals);
    check(damaged, sizeof damaged);
    show_font(IGHZAMREL_PLAIN, glyphs, sizeof glyphs, locals, sizeof locals);
    show_font(IGHZAMREL_PLAIN, glyphs, sizeof glyphs, no_list, sizeof no_list);
    show_font(IGHZAMREL_PLAIN, damaged, sizeof damaged, locals, sizeof locals);
    show(IGHZAMREL_PLAIN, masks, sizeof masks, no_list, sizeof no_list);
    show(IGHZAMREL_STRICT, masks, sizeof masks, no_list, sizeof no_list);
    show_font(IGHZAMREL_STRICT, masked, sizeof masked, no_list, sizeof no_list);
    show(IGHZAMREL_PLAIN, unfinished, sizeof unfinished, no_list, sizeof no_list);
    show(IGHZAMREL_STRICT, unfinished, sizeof unfinished, no_list, sizeof no_list);
    show_font(IGHZAMREL_STRICT, unfinished_font, sizeof unfinished_font, no_list, sizeof no_list);
    show(IGHZAMREL_PLAIN, wide, sizeof wide, locals, sizeof locals);
    show(IGHZAMREL_PLAIN, narrow, sizeof narrow, no_list, sizeof no_list);
    asked_for();
    used();
    explained();
    return 0;
}
