/* What the tests lend to a call: buffers and answers between guards, filled before the call, and compared entry by entry after it. */
#ifndef LENT_H
#define LENT_H
#include "sagebasket.h"

long read(int, void *, size_t);
long write(int, const void *, size_t);

enum { GUARD = 8, MOST = 256, NUMBERS = 12 };

typedef struct { uint8_t before[GUARD], at[MOST], after[GUARD]; } lent_octets;
typedef struct { uint32_t before[GUARD], at[MOST], after[GUARD]; } lent_codes;
typedef struct { uint32_t before[GUARD]; sagebasket_answer at; uint32_t after[GUARD]; } lent_answer;
typedef struct { uint32_t before[GUARD]; sagebasket_live at; uint32_t after[GUARD]; } lent_state;
typedef struct { uint32_t before[GUARD]; sagebasket_wishes at; uint32_t after[GUARD]; } lent_wishes;

static lent_octets octets;
static lent_codes codes;
static lent_answer told;
static lent_wishes wished;
static size_t line_number, faults;

static uint8_t output[1 << 16];
static size_t output_count;

static void flush(void) {
    for (size_t at = 0; at < output_count;) {
        long got = write(1, output + at, output_count - at);
        if (got <= 0) break;
        at += (size_t)got;
    }
    output_count = 0;
}

static void put(uint8_t c) {
    if (output_count == sizeof output) flush();
    output[output_count++] = c;
}

static void put_text(const char *s) {
    while (*s) put((uint8_t)*s++);
}

static void put_number(uint32_t n, uint32_t base) {
    if (n >= base) put_number(n / base, base);
    put((uint8_t)"0123456789abcdef"[n % base]);
}

/* Says what went wrong, at most twenty times, on standard error. */
static void fault(const char *call, const char *what) {
    if (++faults > 20) return;
    uint8_t kept[sizeof output];
    size_t count = output_count;
    for (size_t i = 0; i < count; i++) kept[i] = output[i];
    output_count = 0;
    put_text("border: line ");
    put_number((uint32_t)line_number, 10);
    put_text(": ");
    put_text(call);
    put_text(": ");
    put_text(what);
    put('\n');
    write(2, output, output_count);
    for (size_t i = 0; i < count; i++) output[i] = kept[i];
    output_count = count;
}

/* The fill of an entry, as the probe has it. */
static uint8_t octet_fill(size_t i) { return (uint8_t)(255 - i % 16); }
static uint32_t code_fill(size_t i) { return 0xAAAAAAAAu - (uint32_t)i; }

/* Fills all that may be lent. */
static void ready(void) {
    for (size_t i = 0; i < MOST; i++) {
        octets.at[i] = octet_fill(i);
        codes.at[i] = code_fill(i);
    }
    told.at.number = told.at.place = told.at.name_class = told.at.kinds = told.at.length = told.at.label_count = 0xDEADBEEFu;
    for (size_t i = 0; i < 3; i++) told.at.label_start[i] = told.at.label_length[i] = 0xDEADBEEFu;
    wished.at.won = wished.at.first_number = wished.at.first_place = 0xDEADBEEFu;
    wished.at.second_number = wished.at.second_place = wished.at.part_length = 0xDEADBEEFu;
    for (size_t i = 0; i < GUARD; i++) {
        octets.before[i] = octets.after[i] = 0xA5;
        codes.before[i] = codes.after[i] = told.before[i] = told.after[i] = 0xA5A5A5A5u;
        wished.before[i] = wished.after[i] = 0xA5A5A5A5u;
    }
}

/* The guards are as they were, on both sides of all that is lent. */
static void guarded(const char *call) {
    for (size_t i = 0; i < GUARD; i++) {
        if (octets.before[i] != 0xA5 || octets.after[i] != 0xA5) fault(call, "an octet outside the buffer was written");
        if (codes.before[i] != 0xA5A5A5A5u || codes.after[i] != 0xA5A5A5A5u) fault(call, "a number outside the buffer was written");
        if (told.before[i] != 0xA5A5A5A5u || told.after[i] != 0xA5A5A5A5u) fault(call, "a number outside the answer was written");
        if (wished.before[i] != 0xA5A5A5A5u || wished.after[i] != 0xA5A5A5A5u) fault(call, "a number outside the wishes was written");
    }
}

/* The answer has these twelve numbers, and the first was returned. */
static inline void answered(const char *call, uint32_t returned, const sagebasket_answer *want) {
    const sagebasket_answer *got = &told.at;
    guarded(call);
    if (returned != want->number) fault(call, "another number is returned");
    if (got->number != want->number) fault(call, "another number");
    if (got->place != want->place) fault(call, "another place");
    if (got->name_class != want->name_class) fault(call, "another class");
    if (got->kinds != want->kinds) fault(call, "other kinds");
    if (got->length != want->length) fault(call, "another length");
    if (got->label_count != want->label_count) fault(call, "another count of labels");
    for (size_t i = 0; i < 3; i++) {
        if (got->label_start[i] != want->label_start[i]) fault(call, "another start of a label");
        if (got->label_length[i] != want->label_length[i]) fault(call, "another length of a label");
    }
}

/* The buffer of octets begins with these, and the rest is as it was. */
static inline void wrote_octets(const char *call, const uint8_t *want, size_t count) {
    for (size_t i = 0; i < MOST; i++)
        if (octets.at[i] != (i < count ? want[i] : octet_fill(i))) {
            fault(call, i < count ? "other octets are written" : "an octet past the end, or of a refusal, is written");
            return;
        }
}

/* The same of a buffer of code points. */
static inline void wrote_codes(const char *call, const uint32_t *want, size_t count) {
    for (size_t i = 0; i < MOST; i++)
        if (codes.at[i] != (i < count ? want[i] : code_fill(i))) {
            fault(call, i < count ? "other code points are written" : "an entry past the end, or of a refusal, is written");
            return;
        }
}

/* A look wrote these code points, and zeros past them. */
static inline void showed(const char *call, const uint32_t *want, size_t count) {
    for (size_t i = 0; i < MOST; i++)
        if (codes.at[i] != (i < count ? want[i] : 0)) {
            fault(call, i < count ? "another text is shown" : "a stale entry is shown");
            return;
        }
}

/* The code points of UTF-8, by the table of RFC 3629; -1 where the octets are not UTF-8, -2 where there are more than `room`. */
static inline long code_points(const uint8_t *s, size_t n, uint32_t *out, size_t room) {
    size_t count = 0;
    for (size_t i = 0; i < n; count++) {
        uint32_t c = s[i++], more = c < 0x80 ? 0 : c < 0xC2 ? 9 : c < 0xE0 ? 1 : c < 0xF0 ? 2 : c < 0xF5 ? 3 : 9;
        if (more == 9 || more > n - i) return -1;
        uint32_t low = c == 0xE0 ? 0xA0 : c == 0xF0 ? 0x90 : 0x80, high = c == 0xED ? 0x9F : c == 0xF4 ? 0x8F : 0xBF;
        if (more) c &= 0x3Fu >> more;
        for (; more; more--, low = 0x80, high = 0xBF) {
            if (s[i] < low || s[i] > high) return -1;
            c = c << 6 | (s[i++] & 0x3Fu);
        }
        if (count == room) return -2;
        out[count] = c;
    }
    return (long)count;
}

/* All of standard input. */
static size_t read_all(uint8_t *in, size_t room) {
    size_t n = 0;
    for (long got; n < room && (got = read(0, in + n, room - n)) > 0;) n += (size_t)got;
    return n;
}
#endif
