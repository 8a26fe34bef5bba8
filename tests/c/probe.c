/* Answers probes by the C calls, in the format of reference/README.md: those of the letters O, Y and o, and C, A, H, E, D, L, J, V, G, M, I, N, W,
 * B, Z (and their lower case) that ask for full room. N, the normal form, is read off a look. Of U only the first word is answered. Every other probe is
 * answered by ~. As border.c it needs no header of the C library, and it says on standard error where a guard was written.
 *
 * usage: probe < PROBES > ANSWERS */
#include "lent.h"

static uint8_t input[1 << 27], line[4001];
static uint32_t numbers[4001];
static size_t count, room;
static uint32_t edition;
static sagebasket_live typed;

/* ---- Reading */

static uint32_t number_at(const uint8_t **at, const uint8_t *end, uint32_t base) {
    uint32_t n = 0;
    for (; *at < end && **at != ' '; ++*at) n = n * base + (uint32_t)(**at <= '9' ? **at - '0' : **at - 'a' + 10);
    return n;
}

/* The parts of a probe after its letter. */
static void read_probe(const uint8_t *at, const uint8_t *end) {
    edition = *at == ' ' ? SAGEBASKET_IN_FORCE : number_at(&at, end, 10);
    at++;
    room = number_at(&at, end, 10);
    for (count = 0; at < end; count++) {
        at++;
        numbers[count] = number_at(&at, end, 16);
        line[count] = (uint8_t)numbers[count];
    }
}

/* ---- Writing */

static void put_word(uint32_t n) {
    put_number(n, 10);
    put(' ');
}

static void put_labels(const sagebasket_answer *a) {
    uint32_t sum = a->label_count;
    for (size_t i = 0; i < 3; i++) sum |= a->label_start[i] | a->label_length[i];
    if (!sum) put('-');
    for (size_t i = 0; sum && i < 7; i++) {
        if (i) put(',');
        put_number(i == 0 ? a->label_count : i % 2 ? a->label_start[i / 2] : a->label_length[i / 2 - 1], 10);
    }
    put(' ');
}

static void put_kinds(uint32_t kinds) {
    for (size_t i = 0; i < 4; i++)
        if (kinds >> i & 1) put((uint8_t)"HKJS"[i]);
    put_text(kinds == 0 ? "- " : kinds < 16 ? " " : "? ");
}

static void put_class(uint32_t c) {
    put_text(c == 0 ? "- " : c == 1 ? "G " : c == 2 ? "P " : "? ");
}

/* The buffer part: each entry up to the last that changed. */
static void put_octets(void) {
    size_t last = 0;
    for (size_t i = 0; i < MOST; i++)
        if (octets.at[i] != octet_fill(i)) last = i + 1;
    for (size_t i = 0; i < last; i++) {
        put(' ');
        if (octets.at[i] == octet_fill(i)) put('-');
        else put_number(octets.at[i], 16);
    }
}

static void put_codes(void) {
    size_t last = 0;
    for (size_t i = 0; i < MOST; i++)
        if (codes.at[i] != code_fill(i)) last = i + 1;
    for (size_t i = 0; i < last; i++) {
        put(' ');
        if (codes.at[i] == code_fill(i)) put('-');
        else put_number(codes.at[i], 16);
    }
}

/* The entries shown, up to the last that is not zero. */
static void put_shown(void) {
    size_t last = 0;
    for (size_t i = 0; i < MOST; i++)
        if (codes.at[i]) last = i + 1;
    for (size_t i = 0; i < last; i++) {
        put(' ');
        put_number(codes.at[i], 16);
    }
}

/* What a call does not tell is 0. */
static void put_front(uint32_t returned, int classed, int kinds, int labels) {
    const sagebasket_answer *a = &told.at;
    guarded("probe");
    if (returned != a->number) fault("probe", "another number is returned");
    if (!classed && a->name_class) fault("probe", "a class is told");
    if (!kinds && a->kinds) fault("probe", "kinds are told");
    if (!labels && a->label_count) fault("probe", "labels are told");
    put_word(a->number);
    put_word(a->place);
    if (classed) put_class(a->name_class);
    if (kinds) put_kinds(a->kinds);
    if (labels) put_labels(a);
    put_number(a->length, 10);
}

/* ---- Calls */

static void type_numbers(void) {
    sagebasket_live_fresh(edition, &typed);
    for (size_t i = 0; i < count; i++) sagebasket_live_step(&typed, numbers[i]);
}

/* Yes or no and the count, into one number that is lent. */
static void put_searched(uint32_t base) {
    uint32_t lent[3] = {0xA5A5A5A5u, 0xA5A5A5A5u, 0xA5A5A5A5u};
    put_word(sagebasket_acceptable(numbers, count, &lent[1]));
    put_number(lent[1], base);
    if (lent[0] != 0xA5A5A5A5u || lent[2] != 0xA5A5A5A5u) fault("acceptable", "a number beside the count was written");
}

static int on_codes(char call) {
    switch (call) {
    case 'C':
        if (room < SAGEBASKET_FORM_ROOM) return 0;
        put_front(sagebasket_check(edition, numbers, count, codes.at, &told.at), 1, 0, 1);
        put_codes();
        return 1;
    case 'A':
        if (room < SAGEBASKET_ASCII_ROOM) return 0;
        put_front(sagebasket_to_ascii(edition, numbers, count, octets.at, &told.at), 1, 1, 0);
        put_octets();
        return 1;
    case 'H':
        if (room < SAGEBASKET_HOST_ROOM) return 0;
        put_front(sagebasket_host_to_ascii(numbers, count, octets.at, &told.at), 0, 0, 0);
        put_octets();
        return 1;
    case 'E':
        if (room < SAGEBASKET_LABEL_ROOM) return 0;
        put_front(sagebasket_encode(numbers, count, octets.at, &told.at), 0, 0, 0);
        put_octets();
        return 1;
    case 'I': put_number(sagebasket_is_edition(edition), 10); return 1;
    case 'Z': put_searched(10); return 1;
    default: return 0;
    }
}

static int on_typed(char call) {
    type_numbers();
    switch (call) {
    case 'L':
    case 'J': put_front(sagebasket_live_look(&typed, codes.at, &told.at), 1, 0, 1); break;
    case 'V':
    case 'G': put_front(sagebasket_live_look_host(&typed, codes.at, &told.at), 0, 0, 0); break;
    case 'N':
        if (room < SAGEBASKET_FORM_ROOM) return 0;
        sagebasket_live_look(&typed, codes.at, &told.at);
        if (told.at.number != 2 && told.at.number != 3) told.at.number = told.at.place = 0;
        put_word(told.at.number);
        put_word(told.at.place);
        put_number(told.at.length, 10);
        for (size_t i = 0; i < told.at.length; i++) {
            put(' ');
            if (codes.at[i] == code_fill(i)) put('-');
            else put_number(codes.at[i], 16);
        }
        return 1;
    default: return 0;
    }
    put_shown();
    return 1;
}

static int on_hope(void) {
    sagebasket_live_fresh(edition, &typed);
    put_number(sagebasket_live_may_become(&typed), 10);
    for (size_t i = 0; i < count; i++) {
        sagebasket_live_step(&typed, numbers[i]);
        put_number(sagebasket_live_may_become(&typed), 10);
    }
    uint32_t whole = sagebasket_may_become(edition, numbers, count);
    put(' ');
    put_number(whole, 10);
    put_number(whole, 10);
    put_number(sagebasket_live_may_become(&typed), 10);
    return 1;
}

/* A batch: the answer to each of its lines. */
static void answer_batch(void) {
    int first = 1;
    for (size_t at = 0, end; at < count; at = end + 1) {
        for (end = at; end < count && line[end] != '\n'; end++) {}
        uint32_t length = sagebasket_line(line + at, end - at, octets.at);
        for (size_t i = 0; i < length; i++, first = 0) {
            if (!first) put(' ');
            put_number(octets.at[i], 16);
        }
    }
}

static int on_octets(char call) {
    switch (call) {
    case 'D':
        if (room < SAGEBASKET_LABEL_ROOM) return 0;
        put_front(sagebasket_decode(line, count, codes.at, &told.at), 0, 0, 0);
        put_codes();
        return 1;
    case 'W':
        if (room < SAGEBASKET_LINE_ROOM) return 0;
        put_text("1 ");
        put_number(sagebasket_line(line, count, octets.at), 10);
        put_octets();
        return 1;
    case 'U': put(sagebasket_check_utf8(edition, line, count, codes.at, &told.at) == 16 ? '0' : '1'); return 1;
    case 'B': answer_batch(); return 1;
    default: return 0;
    }
}

/* ---- The probes of these very calls: what is returned, the twelve numbers, and the buffer. */

static void put_told(uint32_t returned) {
    const sagebasket_answer *a = &told.at;
    const uint32_t all[NUMBERS] = {a->number, a->place, a->name_class, a->kinds, a->length, a->label_count,
                                   a->label_start[0], a->label_start[1], a->label_start[2],
                                   a->label_length[0], a->label_length[1], a->label_length[2]};
    put_number(returned, 16);
    for (size_t i = 0; i < NUMBERS; i++) {
        put(' ');
        put_number(all[i], 16);
    }
}

static void put_state(void) {
    uint32_t all[258];
    size_t last = 0;
    for (size_t i = 0; i < 256; i++) all[i] = typed.text[i];
    all[256] = typed.count;
    all[257] = typed.edition;
    for (size_t i = 0; i < 258; i++)
        if (all[i]) last = i + 1;
    put_number(258, 10);
    for (size_t i = 0; i < last; i++) {
        put(' ');
        put_number(all[i], 16);
    }
}

static void told_octets(uint32_t returned) {
    put_told(returned);
    put_octets();
}

static void told_codes(uint32_t returned) {
    put_told(returned);
    put_codes();
}

static void told_shown(uint32_t returned) {
    put_told(returned);
    put_shown();
}

static int outside_codes(void) {
    type_numbers();
    switch (room) {
    case 0: told_codes(sagebasket_check(edition, numbers, count, codes.at, &told.at)); return 1;
    case 1: told_octets(sagebasket_to_ascii(edition, numbers, count, octets.at, &told.at)); return 1;
    case 2: put_number(sagebasket_may_become(edition, numbers, count), 16); return 1;
    case 3: told_octets(sagebasket_host_to_ascii(numbers, count, octets.at, &told.at)); return 1;
    case 4: told_octets(sagebasket_encode(numbers, count, octets.at, &told.at)); return 1;
    case 5: told_shown(sagebasket_live_look(&typed, codes.at, &told.at)); return 1;
    case 6: told_shown(sagebasket_live_look_host(&typed, codes.at, &told.at)); return 1;
    case 7: put_number(sagebasket_live_may_become(&typed), 16); return 1;
    case 8: told_octets(sagebasket_live_to_ascii(&typed, octets.at, &told.at)); return 1;
    case 9: told_octets(sagebasket_live_host_to_ascii(&typed, octets.at, &told.at)); return 1;
    case 10: put_state(); return 1;
    case 11: put_number(sagebasket_is_edition(edition), 16); return 1;
    case 12: put_searched(16); return 1;
    default: return 0;
    }
}

static int outside_octets(void) {
    switch (room) {
    case 0: told_codes(sagebasket_check_utf8(edition, line, count, codes.at, &told.at)); return 1;
    case 1: told_octets(sagebasket_to_ascii_utf8(edition, line, count, octets.at, &told.at)); return 1;
    case 2: told_octets(sagebasket_host_to_ascii_utf8(line, count, octets.at, &told.at)); return 1;
    case 3: told_codes(sagebasket_decode(line, count, codes.at, &told.at)); return 1;
    case 4:
        put_number(sagebasket_line(line, count, octets.at), 16);
        put_octets();
        return 1;
    default: return 0;
    }
}

/* Two texts: which wish won, and six numbers. */
static void wishes(void) {
    size_t first = room < count ? room : count;
    uint32_t won = sagebasket_wish(numbers, first, numbers + first, count - first, &wished.at);
    const sagebasket_wishes *w = &wished.at;
    const uint32_t all[6] = {w->won, w->first_number, w->first_place, w->second_number, w->second_place, w->part_length};
    put_number(won, 16);
    for (size_t i = 0; i < 6; i++) {
        put(' ');
        put_number(all[i], 16);
    }
}

static int outside(char call) { return call == 'O' ? outside_codes() : call == 'Y' && outside_octets(); }

/* Of a pair of letters the one in lower case asks the same; o and w are no such letters. */
static void answer_probe(const uint8_t *at, const uint8_t *end) {
    char call = (char)(*at >= 'a' && *at <= 'z' ? *at - 32 : *at);
    ready();
    read_probe(at + 1, end);
    if (*at == 'o') wishes();
    else if (*at == 'w') put('~');
    else if (call == 'M') on_hope();
    else if (!outside(call) && !on_codes(call) && !on_typed(call) && !on_octets(call)) put('~');
    guarded("probe");
    put('\n');
}

/* Is it a letter, perhaps an edition of this way of writing, a room and numbers? Malformed probes are not for the border. */
static int well_formed(const uint8_t *at, const uint8_t *end) {
    if (end - at < 3 || end - at > 4000) return 0;
    for (const uint8_t *c = at + 1; c < end; c++)
        if (!(*c == ' ' || (*c >= '0' && *c <= '9') || (*c >= 'a' && *c <= 'f'))) return 0;
    return 1;
}

int main(void) {
    size_t n = read_all(input, sizeof input);
    if (n == sizeof input) fault("input", "too long for this test");
    for (size_t at = 0, end; at < n; at = end + 1) {
        line_number++;
        for (end = at; end < n && input[end] != '\n'; end++) {}
        if (well_formed(input + at, input + end)) answer_probe(input + at, input + end);
        else put_text("~\n");
    }
    flush();
    return faults ? 1 : 0;
}
