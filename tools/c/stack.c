/*
 * How much stack each function of include/ighzamrel.h uses: it is called on a thread whose stack was painted before,
 * and the lowest byte that lost its paint is counted from the caller's frame. Flattening goes as deep as its profile
 * lets it, each string with hints, a mask, a Fixed and a call by a Fixed index; a font has one such glyph, or so many
 * that their flat strings are more than it keeps, and all of them are asked for, the last one first. What is explained is
 * accepted, or refused in the deepest string.
 */
#define _DEFAULT_SOURCE
#include "ighzamrel.h"

#include <pthread.h>
#include <stdio.h>
#include <stdlib.h>
#include <string.h>
#include <sys/mman.h>

enum { STACK = 1 << 20, PAINT = 0xA5, ROOM = 1 << 20, MOST_GLYPHS = 700 };

static uint8_t *stack;
static void (*work)(void);
static long depth;
static uint32_t answer;

static uint8_t charstring[64], locals[4096], charstrings[64 * MOST_GLYPHS], out[ROOM], globals_row[1], locals_row[8];
static uint64_t words[3 * IGHZAMREL_MOST_CALLS];
static size_t charstring_len, locals_len, charstrings_len, numbers_len, place, length, calls;
static uint32_t kind, glyph, tokens, entry, reason, width_kind;
static int32_t value, width;
static const uint8_t globals[] = {0, 0};
static const uint32_t lengths[] = {3, 4};
static uint32_t numbers[MOST_GLYPHS];

static void fail(const char *what)
{
    fprintf(stderr, "stack: %s\n", what);
    exit(1);
}

/* One string of the chain, which calls entry `next`, or ends the glyph where next is negative. */
static size_t put_string(uint8_t *to, int next)
{
    static const uint8_t tokens_before[] = {0xFF, 0x00, 0x01, 0x00, 0x00, 0x8B, 0x12, 0x13, 0x80};
    size_t n = sizeof tokens_before;
    memcpy(to, tokens_before, n);
    if (next >= 0) {
        int index = next - 107; /* the bias of a list of fewer than 1240 */
        to[n++] = 0xFF;
        to[n++] = (uint8_t)((unsigned)index >> 8);
        to[n++] = (uint8_t)index;
        to[n++] = 0;
        to[n++] = 0;
        to[n++] = 0x0A;
    } else {
        to[n++] = 0x0E;
    }
    return n;
}

/* A charstring and a list of `entries`, each of which calls the next. */
static void chain(int entries)
{
    uint8_t *offset = locals + 3;
    uint8_t *data = offset + 2 * (entries + 1);
    size_t at = 0;
    int i;
    locals[0] = 0;
    locals[1] = (uint8_t)entries;
    locals[2] = 2;
    for (i = 0; i <= entries; i++) {
        *offset++ = (uint8_t)((at + 1) >> 8);
        *offset++ = (uint8_t)(at + 1);
        if (i < entries)
            at += put_string(data + at, i + 1 < entries ? i + 1 : -1);
    }
    locals_len = (size_t)(data - locals) + at;
    charstring_len = put_string(charstring, 0);
}

/* A font of so many glyphs, each of them the charstring, and their numbers, descending. */
static void font(int glyphs)
{
    static uint8_t joined[64 * MOST_GLYPHS];
    static uint32_t each[MOST_GLYPHS];
    size_t n = 0;
    int i;
    for (i = 0; i < glyphs; i++) {
        memcpy(joined + n, charstring, charstring_len);
        n += charstring_len;
        each[i] = (uint32_t)charstring_len;
        numbers[i] = (uint32_t)(glyphs - 1 - i);
    }
    numbers_len = (size_t)glyphs;
    if (ighzamrel_write_index(each, (size_t)glyphs, joined, n, charstrings, sizeof charstrings, &charstrings_len))
        fail("no font");
}

static void flatten(uint32_t profile)
{
    answer = ighzamrel_flatten(charstring, charstring_len, globals, sizeof globals, locals, locals_len, profile, 1000000,
                               out, ROOM, &length, &tokens, &entry, &reason, &width_kind, &width);
}

static void flatten_plain(void) { flatten(IGHZAMREL_PLAIN); }
static void flatten_strict(void) { flatten(IGHZAMREL_STRICT); }
static void flatten_marked(uint32_t profile)
{
    answer = ighzamrel_flatten_marked(charstring, charstring_len, globals, sizeof globals, locals, locals_len, profile, 1000000,
                                      out, ROOM, globals_row, sizeof globals_row, locals_row, sizeof locals_row, &length,
                                      &tokens, &entry, &reason, &width_kind, &width);
}

static void flatten_marked_plain(void) { flatten_marked(IGHZAMREL_PLAIN); }
static void flatten_marked_strict(void) { flatten_marked(IGHZAMREL_STRICT); }
static void flatten_font(uint32_t profile)
{
    answer = ighzamrel_flatten_font(charstrings, charstrings_len, globals, sizeof globals, locals, locals_len, profile,
                                    1000000, out, ROOM, &length, &glyph, &tokens, &entry, &reason);
}

static void flatten_font_plain(void) { flatten_font(IGHZAMREL_PLAIN); }
static void flatten_font_strict(void) { flatten_font(IGHZAMREL_STRICT); }
static void flatten_glyphs(uint32_t profile)
{
    answer = ighzamrel_flatten_glyphs(charstrings, charstrings_len, numbers, numbers_len, globals, sizeof globals, locals, locals_len,
                                      profile, 1000000, out, ROOM, &length, &glyph, &tokens, &entry, &reason);
}

static void flatten_glyphs_plain(void) { flatten_glyphs(IGHZAMREL_PLAIN); }
static void flatten_glyphs_strict(void) { flatten_glyphs(IGHZAMREL_STRICT); }
static void explain(uint32_t profile)
{
    answer = ighzamrel_explain(charstring, charstring_len, globals, sizeof globals, locals, locals_len, profile, 1000000,
                               words, 3 * IGHZAMREL_MOST_CALLS, &length, &tokens, &entry, &reason, &width_kind, &width, &calls);
}

static void explain_plain(void) { explain(IGHZAMREL_PLAIN); }
static void explain_strict(void) { explain(IGHZAMREL_STRICT); }
/* The chain ends in a byte that starts no token; what must come is the refusal, with every call of it. */
static void explain_refused(uint32_t profile)
{
    explain(profile);
    answer = answer != IGHZAMREL_UNKNOWN || calls != locals[1];
}

static void explain_refused_plain(void) { explain_refused(IGHZAMREL_PLAIN); }
static void explain_refused_strict(void) { explain_refused(IGHZAMREL_STRICT); }
static void read_charstring_number(void)
{
    answer = ighzamrel_read_charstring_number(charstring, charstring_len, &kind, &value, &length);
}
static void read_dict_integer(void) { answer = ighzamrel_read_dict_integer(charstring + 5, 1, &value, &length); }
static void write_charstring_number(void) { answer = ighzamrel_write_charstring_number(1, -70000, out, ROOM, &length); }
static void write_dict_integer(void) { answer = ighzamrel_write_dict_integer(-70000, out, ROOM, &length); }
static void call_index(void) { answer = ighzamrel_call_index(1, -0x7FFFFFFF, 0, &value); }
static void read_index(void) { answer = ighzamrel_read_index(locals, locals_len, &kind, &length); }
static void read_entry(void) { answer = ighzamrel_read_entry(locals, locals_len, 1, &place, &length); }
static void check_list(void) { answer = ighzamrel_check_list(locals, locals_len, &kind, &entry); }
static void write_index(void) { answer = ighzamrel_write_index(lengths, 2, charstring, 7, out, ROOM, &length); }

/* Looks before it returns: what ends a thread would leave traces of its own. */
static void *call(void *unused)
{
    volatile uint8_t mark = 0;
    const uint8_t *low = stack;
    (void)unused;
    work();
    while (*low == PAINT)
        low++;
    depth = (long)((const uint8_t *)&mark - low);
    return NULL;
}

/* Prints how deep the function touched the stack. A first call, on the main thread, has the linker's work behind it. */
static void measure(const char *name, void (*function)(void))
{
    pthread_attr_t attributes;
    pthread_t thread;
    work = function;
    work();
    answer = 99;
    memset(stack, PAINT, STACK);
    if (pthread_attr_init(&attributes) || pthread_attr_setstack(&attributes, stack, STACK)
        || pthread_create(&thread, &attributes, call, NULL) || pthread_join(thread, NULL))
        fail("no thread");
    pthread_attr_destroy(&attributes);
    if (answer != 0)
        fail(name);
    printf("%-40s %6ld bytes\n", name, depth);
}

/* A font of the chain, in few bytes and in more than a call keeps. */
static void measure_fonts(const char *few, const char *many, void (*function)(void))
{
    font(1);
    measure(few, function);
    font(MOST_GLYPHS);
    measure(many, function);
    if (length < 65536)
        fail("the flat strings are too few");
}

/* The chain as it is, and with its endchar replaced by a byte that starts no token. */
static void measure_explained(const char *accepted, void (*by)(void), const char *refused, void (*refused_by)(void))
{
    uint8_t *last = &locals[locals_len - 1];
    measure(accepted, by);
    *last = 0x00;
    measure(refused, refused_by);
    *last = 0x0E;
}

int main(void)
{
    stack = mmap(NULL, STACK, PROT_READ | PROT_WRITE, MAP_PRIVATE | MAP_ANONYMOUS, -1, 0);
    if (stack == MAP_FAILED)
        fail("no memory");
    chain(63);
    measure("flatten, plain, 64 strings deep", flatten_plain);
    if (tokens != 63 * 6 + 5)
        fail("the chain is not 64 deep");
    measure("flatten_marked, plain, 64 strings deep", flatten_marked_plain);
    if (locals_row[0] != 0xFF || locals_row[7] != 0x7F)
        fail("the chain's 63 entries are not marked");
    measure_explained("explain, plain, 64 strings deep", explain_plain, "explain, plain, refused there", explain_refused_plain);
    measure_fonts("flatten_font, plain, one glyph", "flatten_font, plain, 700 glyphs", flatten_font_plain);
    measure_fonts("flatten_glyphs, plain, one glyph", "flatten_glyphs, plain, 700 glyphs", flatten_glyphs_plain);
    chain(10);
    measure("flatten, plain, 11 strings deep", flatten_plain);
    measure("flatten, strict, 11 strings deep", flatten_strict);
    measure("flatten_marked, plain, 11 strings deep", flatten_marked_plain);
    measure("flatten_marked, strict, 11 strings deep", flatten_marked_strict);
    measure_explained("explain, strict, 11 strings deep", explain_strict, "explain, strict, refused there", explain_refused_strict);
    measure_fonts("flatten_font, strict, one glyph", "flatten_font, strict, 700 glyphs", flatten_font_strict);
    measure_fonts("flatten_glyphs, strict, one glyph", "flatten_glyphs, strict, 700 glyphs", flatten_glyphs_strict);
    measure("read_charstring_number", read_charstring_number);
    measure("read_dict_integer", read_dict_integer);
    measure("write_charstring_number", write_charstring_number);
    measure("write_dict_integer", write_dict_integer);
    measure("call_index", call_index);
    measure("read_index", read_index);
    measure("read_entry", read_entry);
    measure("check_list", check_list);
    measure("write_index", write_index);
    return 0;
}
