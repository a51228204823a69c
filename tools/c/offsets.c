/*
 * Has offsets of SIZE bytes, 1 to 4, read by each C function that reads any. All else is alike at every size: the four programs differ in
 * their data alone, and stand without a C library, so that tools/one-path can compare every instruction that they run.
 * With BRANCH one more offset is read here, by a branch for each size, which has to show.
 */
#include "ighzamrel.h"

#if SIZE == 1
#define OFFSET(v) v
#elif SIZE == 2
#define OFFSET(v) 0, v
#elif SIZE == 3
#define OFFSET(v) 0, 0, v
#else
#define OFFSET(v) 0, 0, 0, v
#endif
#define EIGHT(v) OFFSET(v), OFFSET(v), OFFSET(v), OFFSET(v), OFFSET(v), OFFSET(v), OFFSET(v), OFFSET(v)

enum { ENTRIES = 3 + 4 * 8, DATA = 4, ROOM = 16 };

/*
 * The entries 0B, 8B 0B and 0B, and so many empty ones that a loop for long lists would run. Data that may change stand behind the code, which is
 * then at the same place at every size.
 */
static volatile uint8_t list[3 + 4 * (ENTRIES + 1) + DATA] = {
    0, ENTRIES, SIZE, OFFSET(1), OFFSET(2), OFFSET(4), OFFSET(5), EIGHT(5), EIGHT(5), EIGHT(5), EIGHT(5), 0x0B, 0x8B, 0x0B, 0x0B};
static volatile size_t list_len = 3 + SIZE * (ENTRIES + 1) + DATA;
/* its entry 1 has offsets that descend */
static volatile uint8_t bad[3 + 4 * 4 + 1] = {0, 3, SIZE, OFFSET(1), OFFSET(2), OFFSET(1), OFFSET(2), 0x0B};
static volatile size_t bad_len = 3 + SIZE * 4 + 1;
/* local entry 0, global entry 1, local entry 2 */
static const uint8_t charstring[] = {0x20, 0x0A, 0x21, 0x1D, 0x22, 0x0A, 0x0E};

void *memcpy(void *to, const void *from, size_t n)
{
    size_t i;
    for (i = 0; i < n; i++)
        ((uint8_t *)to)[i] = ((const uint8_t *)from)[i];
    return to;
}

void *memset(void *to, int byte, size_t n)
{
    size_t i;
    for (i = 0; i < n; i++)
        ((uint8_t *)to)[i] = (uint8_t)byte;
    return to;
}

#ifdef BRANCH
static uint32_t by_branch(void)
{
    switch (list[2]) {
    case 1: return list[3];
    case 2: return list[3] * 256u + list[4];
    case 3: return (list[3] * 256u + list[4]) * 256u + list[5];
    default: return ((list[3] * 256u + list[4]) * 256u + list[5]) * 256u + list[6];
    }
}
#else
static uint32_t by_branch(void) { return 1; }
#endif

/* How many answers are wrong of what a list is refused with. */
static int wrongly_refused(void)
{
    const uint8_t *good = (const uint8_t *)list, *bytes = (const uint8_t *)bad;
    size_t start = 0, size = 0;
    uint32_t count = 0, entry = 0;
    uint8_t out[ROOM];
    ighzamrel_flattening flat;
    int faults = ighzamrel_read_entry(good, list_len, ENTRIES, &start, &size) != IGHZAMREL_PAST_COUNT;
    faults += ighzamrel_read_entry(bytes, bad_len, 1, &start, &size) != IGHZAMREL_DESCENDING;
    faults += ighzamrel_check_list(bytes, bad_len, &count, &entry) != IGHZAMREL_DESCENDING || entry != 1;
    faults += ighzamrel_flatten_into(charstring, sizeof charstring, good, list_len, bytes, bad_len, IGHZAMREL_PLAIN, 100, out, sizeof out, &flat)
        != IGHZAMREL_BAD_LOCALS || flat.entry != 1 || flat.reason != IGHZAMREL_DESCENDING;
    return faults;
}

/* How many answers are wrong. */
static int wrong(void)
{
    const uint8_t *bytes = (const uint8_t *)list;
    size_t taken = 0, start = 0, size = 0;
    uint32_t count = 0, entry = 0;
    uint8_t out[ROOM];
    ighzamrel_flattening flat;
    int faults = (by_branch() != 1) + wrongly_refused();
    faults += ighzamrel_read_index(bytes, list_len, &count, &taken) != IGHZAMREL_ACCEPTED || count != ENTRIES || taken != list_len;
    faults += ighzamrel_read_entry(bytes, list_len, 1, &start, &size) != IGHZAMREL_ACCEPTED || start != list_len - 3 || size != 2;
    faults += ighzamrel_check_list(bytes, list_len, &count, &entry) != IGHZAMREL_ACCEPTED || count != ENTRIES;
    faults += ighzamrel_flatten_into(charstring, sizeof charstring, bytes, list_len, bytes, list_len, IGHZAMREL_PLAIN, 100, out, sizeof out, &flat)
        != IGHZAMREL_ACCEPTED || flat.length != 2 || flat.tokens != 11;
    return faults;
}

static void leave(long status)
{
#if defined(__x86_64__)
    __asm__ volatile("syscall" : : "a"(60L), "D"(status));
#else
    register long call __asm__("x8") = 93;
    register long word __asm__("x0") = status;
    __asm__ volatile("svc 0" : : "r"(call), "r"(word));
#endif
}

#if defined(__x86_64__)
__attribute__((force_align_arg_pointer))
#endif
void _start(void);
void _start(void)
{
    leave(wrong());
}
