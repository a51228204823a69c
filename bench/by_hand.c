// The runner's loop written by hand in C, without a proof: what a token may cost on a machine at least.
// It takes the plain profile and lists that are well formed, and stores as it goes, so that a refusal has changed the room.
// It is no part of the product; bench/flatten.rs holds its bytes against ours and the Rust's.
#include <stddef.h>
#include <stdint.h>
#include <string.h>

#define INLINE static inline __attribute__((always_inline))

enum { OPERANDS = 48, LEVELS = 63, HINTS = 65535 };
enum kind { UNKNOWN, STEM, CLEAR, MASK, LOCAL, GLOBAL, RETURN, END };
enum { BACK = 0, REFUSED = 1, ENDED = 2 };

// By its byte; the escape byte, 12, is looked at before.
static const uint8_t kinds[32] = {
    [1] = STEM, [3] = STEM, [4] = CLEAR, [5] = CLEAR, [6] = CLEAR, [7] = CLEAR, [8] = CLEAR, [10] = LOCAL, [11] = RETURN, [14] = END,
    [18] = STEM, [19] = MASK, [20] = MASK, [21] = CLEAR, [22] = CLEAR, [23] = STEM, [24] = CLEAR, [25] = CLEAR, [26] = CLEAR, [27] = CLEAR,
    [29] = GLOBAL, [30] = CLEAR, [31] = CLEAR,
};

struct list {
    const uint8_t *bytes;
    size_t start; // of the data
    uint32_t count, bias, mask;
    unsigned size; // of an offset
};

struct run {
    struct list lists[2]; // local, global
    uint8_t *out;
    size_t room;
    uint32_t budget;
    int64_t stack[OPERANDS];
};

struct state {
    size_t count, kept; // operands, and how many of them stood before the last mask
    size_t hints, mask, length;
    uint32_t tokens;
};

static int run_string(struct run *r, const uint8_t *cs, size_t n, struct state *given, int levels);

INLINE void store(struct run *r, struct state *s, const uint8_t *bytes, size_t n)
{
    if (s->length + n <= r->room)
        memcpy(r->out + s->length, bytes, n);
    s->length += n;
}

INLINE int64_t short_value(unsigned b, unsigned x)
{
    if (b < 247)
        return (int64_t)b - 139;
    return b < 251 ? (b - 247) * 256 + x + 108 : -(int64_t)((b - 251) * 256 + x + 108);
}

// A word of the stack is the two bytes of a short number, or LONG and above it a number of three bytes; NO_INDEX is a Fixed.
enum { LONG = 65536, NO_INDEX = 2 * LONG };

INLINE int64_t value_of(int64_t word) { return word < LONG ? short_value(word & 255, word >> 8) : (int16_t)(word >> 32); }

INLINE size_t width_of(int64_t v) { return v >= -107 && v <= 107 ? 1 : v >= -1131 && v <= 1131 ? 2 : 3; }

// A number of one byte or two; both are stored, so that no branch hangs on its width. 0 where it has to go the long way.
INLINE size_t short_number(struct run *r, struct state *s, const uint8_t *cs, size_t left)
{
    if (left < 2 || s->count == OPERANDS || s->length + 2 > r->room)
        return 0;
    size_t width = 1 + (cs[0] > 246);
    r->out[s->length] = cs[0];
    r->out[s->length + 1] = cs[1];
    r->stack[s->count++] = cs[0] | cs[1] << 8;
    s->length += width;
    return width;
}

// Any number; 0 where bytes or a place lack, or where it would be spelled anew.
static size_t number(struct run *r, struct state *s, const uint8_t *cs, size_t left)
{
    size_t width = cs[0] == 28 ? 3 : cs[0] == 255 ? 5 : cs[0] < 247 ? 1 : 2;
    if (left < width || s->count == OPERANDS)
        return 0;
    int64_t v = cs[0] == 28 ? (int16_t)(cs[1] << 8 | cs[2]) : 0;
    if (width == 3 && width_of(v) < 3)
        return 0;
    store(r, s, cs, width);
    r->stack[s->count++] = width == 5 ? NO_INDEX : width == 3 ? (v << 32 | LONG) : cs[0] | (width == 2 ? cs[1] << 8 : 0);
    return width;
}

// The bytes behind a mask operator; -1 where they lack.
INLINE ptrdiff_t mask(struct state *s, size_t left)
{
    if (s->mask == 0) {
        s->hints += s->count / 2;
        s->mask = (s->hints + 7) / 8;
        s->count = 0;
    }
    s->kept = s->count;
    return s->hints > HINTS || left < s->mask ? -1 : (ptrdiff_t)s->mask;
}

INLINE uint32_t offset(const struct list *l, uint32_t i)
{
    const uint8_t *at = l->bytes + 3 + (size_t)(i + 1) * l->size - 4;
    return ((uint32_t)at[0] << 24 | at[1] << 16 | at[2] << 8 | at[3]) & l->mask;
}

INLINE int call(struct run *r, struct state *s, const struct list *l, int levels)
{
    if (s->count == 0)
        return REFUSED;
    int64_t word = r->stack[s->count - 1], v = value_of(word);
    if (word == NO_INDEX || v + l->bias < 0 || v + l->bias >= l->count || levels == 0 || s->count == s->kept)
        return REFUSED;
    uint32_t entry = (uint32_t)(v + l->bias), from = offset(l, entry), to = offset(l, entry + 1);
    struct state inner = *s;
    inner.count--;
    inner.length -= width_of(v);
    inner.tokens++;
    int how = run_string(r, l->bytes + l->start + from - 1, to - from, &inner, levels - 1);
    *s = inner;
    return how;
}

static int run_string(struct run *r, const uint8_t *cs, size_t n, struct state *given, int levels)
{
    struct state s = *given;
    int how = BACK;
    for (size_t i = 0; i < n;) {
        if (s.tokens == r->budget)
            return REFUSED;
        unsigned b = cs[i];
        if (b > 31 || b == 28) {
            size_t width = b > 31 && b < 255 ? short_number(r, &s, cs + i, n - i) : 0;
            if (width == 0 && (width = number(r, &s, cs + i, n - i)) == 0)
                return REFUSED;
            i += width;
            s.tokens++;
            continue;
        }
        if (b == 12) {
            if (n - i < 2 || cs[i + 1] < 34 || cs[i + 1] > 37)
                return REFUSED;
            store(r, &s, cs + i, 2);
            i += 2;
            s.count = s.kept = 0;
            s.tokens++;
            continue;
        }
        switch (kinds[b]) {
        case STEM:
            s.hints += s.count / 2;
            if (s.hints > HINTS)
                return REFUSED;
            /* fall through */
        case CLEAR:
            store(r, &s, cs + i, 1);
            s.count = s.kept = 0;
            break;
        case MASK: {
            ptrdiff_t m = mask(&s, n - i - 1);
            if (m < 0)
                return REFUSED;
            store(r, &s, cs + i, 1 + (size_t)m);
            i += (size_t)m;
            break;
        }
        case LOCAL:
        case GLOBAL:
            how = call(r, &s, &r->lists[kinds[b] == GLOBAL], levels);
            if (how != BACK)
                goto done;
            i++;
            continue;
        case RETURN:
            s.tokens++;
            goto done;
        case END:
            if (s.count > 3)
                return REFUSED;
            store(r, &s, cs + i, 1);
            s.tokens++;
            how = ENDED;
            goto done;
        default:
            return REFUSED;
        }
        i++;
        s.tokens++;
    }
done:
    *given = s;
    return how;
}

static struct list list_of(const uint8_t *bytes)
{
    struct list l = {bytes, 0, (uint32_t)bytes[0] << 8 | bytes[1], 0, 0, 0};
    l.bias = l.count < 1240 ? 107 : l.count < 33900 ? 1131 : 32768;
    if (l.count != 0) {
        l.size = bytes[2];
        l.mask = 0xFFFFFFFFu >> 8 * (4 - l.size);
        l.start = 3 + (size_t)(l.count + 1) * l.size;
    }
    return l;
}

// The flat string's length; 0, which no glyph's has, where it was refused.
size_t by_hand(const uint8_t *cs, size_t n, const uint8_t *globals, const uint8_t *locals, uint32_t budget, uint8_t *out, size_t room)
{
    struct run r = {{list_of(locals), list_of(globals)}, out, room, budget, {0}};
    struct state s = {0};
    if (run_string(&r, cs, n, &s, LEVELS) == REFUSED || s.length > room)
        return 0;
    return s.length;
}
