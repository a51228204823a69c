/*
 * Ighzamrel: Type 2 charstrings of a CFF font made flat, and the numbers and INDEXes that they stand in.
 *
 * Each function takes any bytes, ends, and answers 0, which is accepted, or the number of one refusal.
 * What each answers is proved; docs/PROOFS.md says against what.
 *
 * Places. A pointer to a single value is a place for a part of the answer. A place for a value that the
 * answer does not give is left as it was.
 *
 * Lent bytes. Inputs are never changed. A refusal changes no byte of `out` and of the rows of
 * ighzamrel_flatten_marked; acceptance changes only the first *length bytes of `out`, and of a row as many as its list
 * needs. Of `words`, which ighzamrel_explain alone has, only those change that tell a call, and these come first.
 *
 * Pointers. A slice is a pointer, `x`, and then how many elements it has, `x_len`. Every pointer is valid
 * for its length and aligned, and none is null, also where the length is 0. `out`, the rows, `words` and the places
 * overlap nothing: no input, and not each other. Inputs may overlap each other.
 *
 * There is no state, nothing is allocated, and nothing is called but memcpy and memset; so any threads may
 * call at once, each with its own `out`, rows, `words` and places. ighzamrel_flatten goes one call deeper for each call
 * of the charstring: at 64 strings deep, the most in plain, it used less than 48 KiB of stack, at 11, the most
 * in strict, less than 11 KiB; ighzamrel_explain likewise.
 * ighzamrel_flatten_marked keeps the marks in 16 KiB of stack besides: it used less than 64 KiB in plain, less than
 * 28 KiB in strict. ighzamrel_flatten_font and ighzamrel_flatten_glyphs keep what they can of a font in 64 KiB besides:
 * they used less than 112 KiB in plain, less than 80 KiB in strict. Each other function used less than 200 bytes (x86-64;
 * docs/BENCHMARKS.md says how that was measured).
 *
 * Each function stands in a section of its own, so a program that is linked with --gc-sections has what it calls
 * and no more.
 */
#ifndef IGHZAMREL_H
#define IGHZAMREL_H

#include <stddef.h>
#include <stdint.h>

#ifdef __cplusplus
extern "C" {
#endif

/* What a function answers. The refusals are made from refusals.txt, by tools/refusals --write. */
enum ighzamrel_answer {
    IGHZAMREL_ACCEPTED = 0,
    IGHZAMREL_BAD_GLOBALS = 1,        /* the list of global subroutines is not well formed */
    IGHZAMREL_BAD_LOCALS = 2,         /* the list of local subroutines is not well formed */
    IGHZAMREL_BUDGET_SPENT = 3,       /* the budget is spent */
    IGHZAMREL_BYTES_LACKING = 4,      /* a number, an operator or a mask lacks bytes */
    IGHZAMREL_TOO_MANY_OPERANDS = 5,  /* more than 48 operands wait */
    IGHZAMREL_UNKNOWN = 6,            /* a byte starts no number, or an operator is not supported */
    IGHZAMREL_NO_INDEX = 7,           /* a call has no index, or one that is not whole */
    IGHZAMREL_INDEX_NOT_LAST = 8,     /* a call's index does not stand last in the flat string */
    IGHZAMREL_NO_ENTRY = 9,           /* a call names a subroutine that is not there */
    IGHZAMREL_TOO_DEEP = 10,          /* calls nest over 64 strings deep in plain, over 11 in strict */
    IGHZAMREL_TOO_MANY_HINTS = 11,    /* there are over 65535 hints in plain, over 96 in strict */
    IGHZAMREL_COMPOSITE = 12,         /* endchar has four operands or more, for a glyph made of two others */
    IGHZAMREL_SHORT = 13,             /* the result is longer than the room for it */
    IGHZAMREL_OPERANDS_AT_MASK = 15,  /* operands wait at a mask whose length is fixed, in strict */
    IGHZAMREL_NO_ENDCHAR = 16,        /* the charstring comes to its end without endchar, in strict */
    IGHZAMREL_OUTSIDE_16_BITS = 17,   /* an integer to be written into a charstring is outside 16 bits */
    IGHZAMREL_INDEX_LACKING = 20,     /* an INDEX lacks bytes */
    IGHZAMREL_OFFSET_SIZE = 21,       /* the offset size of an INDEX is not 1 to 4 */
    IGHZAMREL_TOO_MANY_ELEMENTS = 22, /* an INDEX to be written has over 65535 elements */
    IGHZAMREL_TOO_LONG = 23,          /* an INDEX to be written has a last offset over 4294967295 */
    IGHZAMREL_LENGTHS_MISMATCH = 24,  /* the lengths of an INDEX to be written do not add up to its data */
    IGHZAMREL_PAST_COUNT = 25,        /* the INDEX has no entry of that number */
    IGHZAMREL_BAD_CHARSTRINGS = 26,   /* the CharStrings INDEX is not well formed */
    IGHZAMREL_ZERO_OFFSET = 40,       /* an offset of the entry, or the INDEX's last, is 0 */
    IGHZAMREL_DESCENDING = 41,        /* the offsets of the entry descend */
    IGHZAMREL_PAST_DATA = 42,         /* the offsets of the entry pass the data */
    IGHZAMREL_ROW_TOO_SHORT = 43      /* a row is too short for its list's entries */
};

/* The kind of an operand, `kind`. What is not 0 is taken as a Fixed; reading gives 0 or 1. */
enum ighzamrel_kind {
    IGHZAMREL_INTEGER = 0,
    IGHZAMREL_FIXED = 1 /* a value that counts 65536ths */
};

/* What the kind of a width, `width_kind`, may be besides: there is none. Reading a number never gives it. */
enum ighzamrel_width_kind {
    IGHZAMREL_NO_WIDTH = 2
};

/*
 * The rules to run by, `profile`. What is not 0 is taken as strict: Technical Note 5177's limits, an index that is exactly
 * whole, no operands at a mask once an earlier one has fixed its length, and an end by endchar, its own or a
 * subroutine's. Where strict accepts, plain gives the same.
 */
enum ighzamrel_profile {
    IGHZAMREL_PLAIN = 0,
    IGHZAMREL_STRICT = 1
};

/* The list of a call, the first of its three words. */
enum ighzamrel_list {
    IGHZAMREL_LOCAL = 0,
    IGHZAMREL_GLOBAL = 1
};

/* How many calls can be open at once: so many in plain, 10 in strict. */
enum ighzamrel_most {
    IGHZAMREL_MOST_CALLS = 63
};

/*
 * The number at the start of a part of a charstring.
 * 0: *kind, *value, and *width, how many bytes it is. 4 or 6: no place.
 */
uint32_t ighzamrel_read_charstring_number(const uint8_t *bytes, size_t bytes_len, uint32_t *kind, int32_t *value,
                                          size_t *width);

/*
 * The integer at the start of a part of a DICT.
 * 0: *value, and *width, how many bytes it is. 4 or 6: no place.
 */
uint32_t ighzamrel_read_dict_integer(const uint8_t *bytes, size_t bytes_len, int32_t *value, size_t *width);

/*
 * Writes a charstring number to the start of out, an integer in its shortest form.
 * 0: *length, how many bytes it has. 13: *length, how many it needs. 17: no place.
 */
uint32_t ighzamrel_write_charstring_number(uint32_t kind, int32_t value, uint8_t *out, size_t out_len,
                                           size_t *length);

/*
 * Writes a DICT integer to the start of out, in its shortest form.
 * 0: *length, how many bytes it has. 13: *length, how many it needs.
 */
uint32_t ighzamrel_write_dict_integer(int32_t value, uint8_t *out, size_t out_len, size_t *length);

/*
 * The index that an operand is at a call, before the bias is added.
 * 0: *index. 7: no place.
 */
uint32_t ighzamrel_call_index(uint32_t kind, int32_t value, uint32_t profile, int32_t *index);

/*
 * The INDEX at the start of the bytes.
 * 0: *count, how many entries it has, and *taken, how many bytes it takes. 20 or 21: no place.
 */
uint32_t ighzamrel_read_index(const uint8_t *bytes, size_t bytes_len, uint32_t *count, size_t *taken);

/*
 * Entry `number`, counted from 0, of the INDEX at the start of the bytes.
 * 0: *place, where it starts, counted from the first of the bytes, and *length. 20, 21, 25, 40, 41 or 42: no place.
 */
uint32_t ighzamrel_read_entry(const uint8_t *bytes, size_t bytes_len, uint32_t number, size_t *place,
                              size_t *length);

/*
 * Whether the INDEX at the start of the bytes is well formed: it can be read, and it has every entry that it counts.
 * 0: *count, how many these are. 20 or 21: no place. 40, 41 or 42: *entry, the number of the first that it has not,
 * which is 0 where the last offset of the INDEX is 0; that gives 40.
 */
uint32_t ighzamrel_check_list(const uint8_t *bytes, size_t bytes_len, uint32_t *count, uint32_t *entry);

/*
 * Writes the INDEX of elements of these lengths, joined in `data`, to the start of out.
 * 0: *length, how many bytes it has. 13: *length, how many it needs. 22, 23 or 24: no place.
 */
uint32_t ighzamrel_write_index(const uint32_t *lengths, size_t lengths_len, const uint8_t *data, size_t data_len,
                               uint8_t *out, size_t out_len, size_t *length);

/*
 * Writes the flat string of a charstring to the start of out. `globals` and `locals` are the two subroutine
 * INDEXes, 00 00 where a font has none; `budget` is how many tokens may be run, through every call.
 * 0: *length, how many bytes the flat string has, *tokens, how many tokens were run, and *width_kind, the kind of the
 * width that the charstring says, with its value in *width; or IGHZAMREL_NO_WIDTH, and *width is left as it was.
 * 1 or 2: *reason, what ighzamrel_check_list answers for that list, and at 40, 41 and 42 its *entry. 3 to 12: *tokens,
 * with the token that is refused but at 3. 15 or 16: no place. 13: *length, how many bytes are needed, and *tokens.
 *
 * The width is the bottom operand at the first operator that is no call and no return: of an odd count at a stem or a
 * mask, of more than two at rmoveto, of more than one at hmoveto or vmoveto, and of any at endchar; else there is none.
 * Added to nominalWidthX of the glyph's Private DICT it is the advance width, which is defaultWidthX where there is none.
 */
uint32_t ighzamrel_flatten(const uint8_t *charstring, size_t charstring_len, const uint8_t *globals,
                           size_t globals_len, const uint8_t *locals, size_t locals_len, uint32_t profile,
                           uint32_t budget, uint8_t *out, size_t out_len, size_t *length, uint32_t *tokens,
                           uint32_t *entry, uint32_t *reason, uint32_t *width_kind, int32_t *width);

/* What ighzamrel_flatten and ighzamrel_flatten_marked answer and set. A later version may have more, behind these. */
typedef struct ighzamrel_flattening {
    uint32_t answer;
    size_t length;
    uint32_t tokens;
    uint32_t entry;
    uint32_t reason;
    uint32_t width_kind;
    int32_t width;
} ighzamrel_flattening;

/* Calls ighzamrel_flatten with the places of *result, and gives its answer; what that does not set is 0. */
static inline uint32_t ighzamrel_flatten_into(const uint8_t *charstring, size_t charstring_len,
                                              const uint8_t *globals, size_t globals_len, const uint8_t *locals,
                                              size_t locals_len, uint32_t profile, uint32_t budget, uint8_t *out,
                                              size_t out_len, ighzamrel_flattening *result)
{
    result->length = 0;
    result->tokens = 0;
    result->entry = 0;
    result->reason = 0;
    result->width_kind = 0;
    result->width = 0;
    result->answer = ighzamrel_flatten(charstring, charstring_len, globals, globals_len, locals, locals_len, profile,
                                       budget, out, out_len, &result->length, &result->tokens, &result->entry,
                                       &result->reason, &result->width_kind, &result->width);
    return result->answer;
}

/*
 * Flattens as ighzamrel_flatten does, with its answers and places, and marks which subroutines the charstring uses: in the
 * row of each list every entry that the run entered, through every call. A row has a bit for each entry: entry i is
 * marked where (row[i / 8] >> i % 8) & 1 is 1. A list of n entries needs (n + 7) / 8 bytes, at most 8192.
 * 0: besides the places, all bits of those bytes of each row, set or cleared, so a row need not be cleared before. Bytes
 * that are lent behind them stay. Every refusal leaves both rows as they were, whatever the run had entered.
 * 43, after 1 and 2 and before anything is run, where a row has fewer bytes than its list needs: no place.
 *
 * What the rows are for: where the lists are changed, but stay well formed with the same counts, and no marked entry has
 * changed, the same call gives the same answer, places, bytes and rows. So a change of one subroutine asks again for the
 * glyphs that have it marked, and for those that were refused, of which no row is told; and for no other.
 */
uint32_t ighzamrel_flatten_marked(const uint8_t *charstring, size_t charstring_len, const uint8_t *globals,
                                  size_t globals_len, const uint8_t *locals, size_t locals_len, uint32_t profile,
                                  uint32_t budget, uint8_t *out, size_t out_len, uint8_t *globals_row,
                                  size_t globals_row_len, uint8_t *locals_row, size_t locals_row_len, size_t *length,
                                  uint32_t *tokens, uint32_t *entry, uint32_t *reason, uint32_t *width_kind,
                                  int32_t *width);

/* Calls ighzamrel_flatten_marked with the places of *result, and gives its answer; what that does not set is 0. */
static inline uint32_t ighzamrel_flatten_marked_into(const uint8_t *charstring, size_t charstring_len,
                                                     const uint8_t *globals, size_t globals_len, const uint8_t *locals,
                                                     size_t locals_len, uint32_t profile, uint32_t budget, uint8_t *out,
                                                     size_t out_len, uint8_t *globals_row, size_t globals_row_len,
                                                     uint8_t *locals_row, size_t locals_row_len,
                                                     ighzamrel_flattening *result)
{
    result->length = 0;
    result->tokens = 0;
    result->entry = 0;
    result->reason = 0;
    result->width_kind = 0;
    result->width = 0;
    result->answer = ighzamrel_flatten_marked(charstring, charstring_len, globals, globals_len, locals, locals_len,
                                              profile, budget, out, out_len, globals_row, globals_row_len, locals_row,
                                              locals_row_len, &result->length, &result->tokens, &result->entry,
                                              &result->reason, &result->width_kind, &result->width);
    return result->answer;
}

/*
 * Writes the INDEX of the flat strings of all glyphs of a font, in their order, to the start of out, as
 * ighzamrel_write_index would. `charstrings` is the CharStrings INDEX. Each glyph of it is flattened as
 * ighzamrel_flatten would do it with enough room, under the whole budget. The answer is the first of these that holds.
 * 1, 2, 26, where `globals`, `locals`, `charstrings` is not well formed: *reason and *entry, as ighzamrel_flatten at 1
 * and 2. 3 to 12, 15 or 16, of the first glyph that is refused: *glyph, its number, counted from 0, and at 3 to 12 its
 * *tokens. 23, of the INDEX to be written: no place. 13: *length, how many bytes that needs. 0: *length, how many it has.
 */
uint32_t ighzamrel_flatten_font(const uint8_t *charstrings, size_t charstrings_len, const uint8_t *globals,
                                size_t globals_len, const uint8_t *locals, size_t locals_len, uint32_t profile,
                                uint32_t budget, uint8_t *out, size_t out_len, size_t *length, uint32_t *glyph,
                                uint32_t *tokens, uint32_t *entry, uint32_t *reason);

/* What ighzamrel_flatten_font and ighzamrel_flatten_glyphs answer and set. A later version may have more, behind these. */
typedef struct ighzamrel_font_flattening {
    uint32_t answer;
    size_t length;
    uint32_t glyph;
    uint32_t tokens;
    uint32_t entry;
    uint32_t reason;
} ighzamrel_font_flattening;

/* Calls ighzamrel_flatten_font with the places of *result, and gives its answer; what that does not set is 0. */
static inline uint32_t ighzamrel_flatten_font_into(const uint8_t *charstrings, size_t charstrings_len,
                                                   const uint8_t *globals, size_t globals_len, const uint8_t *locals,
                                                   size_t locals_len, uint32_t profile, uint32_t budget, uint8_t *out,
                                                   size_t out_len, ighzamrel_font_flattening *result)
{
    result->length = 0;
    result->glyph = 0;
    result->tokens = 0;
    result->entry = 0;
    result->reason = 0;
    result->answer = ighzamrel_flatten_font(charstrings, charstrings_len, globals, globals_len, locals, locals_len,
                                            profile, budget, out, out_len, &result->length, &result->glyph,
                                            &result->tokens, &result->entry, &result->reason);
    return result->answer;
}

/*
 * Writes the INDEX of the flat strings of those glyphs of a font that `numbers` has, in its order and as often as it has
 * them, to the start of out; so what is embedded of a font need not be all of it. All else is as ighzamrel_flatten_font
 * does it, and that is this with all numbers from 0 on. With no numbers the INDEX is 00 00.
 * The answer is the first of these that holds. 1, 2, 26: as there. 22, where there are over 65535 numbers: no place. Then
 * the places of `numbers` in their order, and the first that is refused decides: 25, where the font has no glyph of that
 * number: *glyph, the place, counted from 0; 3 to 12, 15 or 16, of the glyph of that number: *glyph, the place, and at 3
 * to 12 its *tokens. 23, 13, 0: as there. A glyph that `numbers` has not is not run, so it refuses nothing.
 */
uint32_t ighzamrel_flatten_glyphs(const uint8_t *charstrings, size_t charstrings_len, const uint32_t *numbers,
                                  size_t numbers_len, const uint8_t *globals, size_t globals_len, const uint8_t *locals,
                                  size_t locals_len, uint32_t profile, uint32_t budget, uint8_t *out, size_t out_len,
                                  size_t *length, uint32_t *glyph, uint32_t *tokens, uint32_t *entry,
                                  uint32_t *reason);

/* Calls ighzamrel_flatten_glyphs with the places of *result, and gives its answer; what that does not set is 0. */
static inline uint32_t ighzamrel_flatten_glyphs_into(const uint8_t *charstrings, size_t charstrings_len,
                                                     const uint32_t *numbers, size_t numbers_len,
                                                     const uint8_t *globals, size_t globals_len, const uint8_t *locals,
                                                     size_t locals_len, uint32_t profile, uint32_t budget, uint8_t *out,
                                                     size_t out_len, ighzamrel_font_flattening *result)
{
    result->length = 0;
    result->glyph = 0;
    result->tokens = 0;
    result->entry = 0;
    result->reason = 0;
    result->answer = ighzamrel_flatten_glyphs(charstrings, charstrings_len, numbers, numbers_len, globals, globals_len,
                                              locals, locals_len, profile, budget, out, out_len, &result->length,
                                              &result->glyph, &result->tokens, &result->entry, &result->reason);
    return result->answer;
}

/*
 * Says why a charstring is refused: answers as ighzamrel_flatten would with enough room, so never 13, writes no flat
 * string, and tells which calls were open where the run was refused: at the refused token, and at 3 before the next one.
 * 0: *length, how many bytes the flat string has, *tokens, *width_kind and *width as ighzamrel_flatten. 1 or 2: *reason
 * and *entry, as there. 3 to 12: *tokens. 15 or 16: none of these. *calls is always set: at 3 to 12 and 15 it is how many
 * calls were open, else 0. A call that came back is not open any more, and one that is itself refused never was.
 *
 * Three words tell a call: IGHZAMREL_LOCAL or IGHZAMREL_GLOBAL; the number of the subroutine, from 0, with the bias added;
 * and where the operator of the call stands, in bytes from the start of the string that has it. The outermost call comes
 * first, so that string is the charstring for the first call, and for each other the subroutine that the one before it
 * entered. The refused token stands in the subroutine of the last call, or in the charstring where there is none.
 *
 * 3 * IGHZAMREL_MOST_CALLS words are always enough. Where fewer are lent, the first words_len / 3 calls are told, each
 * whole, and *calls is larger than that. All words behind those of the calls stay, so all of them where *calls is 0.
 */
uint32_t ighzamrel_explain(const uint8_t *charstring, size_t charstring_len, const uint8_t *globals,
                           size_t globals_len, const uint8_t *locals, size_t locals_len, uint32_t profile,
                           uint32_t budget, uint64_t *words, size_t words_len, size_t *length, uint32_t *tokens,
                           uint32_t *entry, uint32_t *reason, uint32_t *width_kind, int32_t *width, size_t *calls);

/* What ighzamrel_explain answers and sets. A later version may have more, behind these. */
typedef struct ighzamrel_explanation {
    uint32_t answer;
    size_t length;
    uint32_t tokens;
    uint32_t entry;
    uint32_t reason;
    uint32_t width_kind;
    int32_t width;
    size_t calls;
} ighzamrel_explanation;

/* Calls ighzamrel_explain with the places of *result, and gives its answer; what that does not set is 0. */
static inline uint32_t ighzamrel_explain_into(const uint8_t *charstring, size_t charstring_len,
                                              const uint8_t *globals, size_t globals_len, const uint8_t *locals,
                                              size_t locals_len, uint32_t profile, uint32_t budget, uint64_t *words,
                                              size_t words_len, ighzamrel_explanation *result)
{
    result->length = 0;
    result->tokens = 0;
    result->entry = 0;
    result->reason = 0;
    result->width_kind = 0;
    result->width = 0;
    result->calls = 0;
    result->answer = ighzamrel_explain(charstring, charstring_len, globals, globals_len, locals, locals_len, profile,
                                       budget, words, words_len, &result->length, &result->tokens, &result->entry,
                                       &result->reason, &result->width_kind, &result->width, &result->calls);
    return result->answer;
}

#ifdef __cplusplus
}
#endif

#endif
