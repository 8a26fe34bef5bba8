/* Every call across the border, on every line of a batch: writes what `desk` writes, and says on standard error where two calls do not agree,
 * where an answer is not what it must be, or where something was written that may not be. Exit status 1 where there was a fault. It needs
 * no header of the C library, so that the kit alone can compile it.
 *
 * usage: border < LINES > ANSWERS */
#include "lent.h"

static uint8_t input[1 << 26];
static uint32_t text[1 << 14], form[MOST];
static size_t text_count, form_count;
static const uint8_t *name;
static size_t name_count;
static lent_state typed;
static const uint8_t nothing[1];

static const sagebasket_answer zero;

/* ---- What is expected */

static uint32_t decimal(const uint8_t **at) {
    uint32_t n = 0;
    for (; **at >= '0' && **at <= '9'; ++*at) n = n * 10 + (uint32_t)(**at - '0');
    ++*at;
    return n;
}

/* What an answer line says, as the answer of the ASCII form; where the form stands is told. */
static sagebasket_answer read_answer(const uint8_t *line, const uint8_t **ascii) {
    sagebasket_answer a = zero;
    const uint8_t *at = line;
    while (*at++ != '\t') {}
    a.number = decimal(&at);
    a.place = decimal(&at);
    a.name_class = *at == 'G' ? SAGEBASKET_GENERAL_USE : *at == 'P' ? SAGEBASKET_PREFECTURE : SAGEBASKET_CLASS_NONE;
    *ascii = at += 2;
    while (*at != '\t') at++;
    if (a.number == 0) a.length = (uint32_t)(at - *ascii);
    for (at++; *at != '\n'; at++) {
        if (*at == 'H') a.kinds += SAGEBASKET_HIRAGANA;
        if (*at == 'K') a.kinds += SAGEBASKET_KATAKANA;
        if (*at == 'J') a.kinds += SAGEBASKET_KANJI;
        if (*at == 'S') a.kinds += SAGEBASKET_SIGN;
    }
    return a;
}

/* The answer of a check or a look to the text that was looked at: an accepted name has labels between the periods of its normal form. */
static sagebasket_answer with_labels(sagebasket_answer a, size_t length) {
    a.kinds = a.label_count = 0;
    a.length = (uint32_t)length;
    if (a.number) return a;
    for (size_t i = 0, from = 0; i <= form_count; i++)
        if (i == form_count || form[i] == '.') {
            if (a.label_count == 3) return fault("look", "an accepted name has four labels"), a;
            a.label_start[a.label_count] = (uint32_t)from;
            a.label_length[a.label_count++] = (uint32_t)(i - from);
            from = i + 1;
        }
    return a;
}

static sagebasket_answer refusal(uint32_t number) {
    sagebasket_answer a = zero;
    a.number = number;
    return a;
}

/* ---- The live check's state */

static void filled_state(void) {
    for (size_t i = 0; i < GUARD; i++) typed.before[i] = typed.after[i] = 0xA5A5A5A5u;
    for (size_t i = 0; i < MOST; i++) typed.at.text[i] = code_fill(i);
    typed.at.count = typed.at.edition = 0xDEADBEEFu;
}

/* The state is the text typed so far, and nothing around it was written. */
static void holds(const char *call, uint32_t edition) {
    size_t kept = text_count < MOST ? text_count : MOST;
    for (size_t i = 0; i < GUARD; i++)
        if (typed.before[i] != 0xA5A5A5A5u || typed.after[i] != 0xA5A5A5A5u) fault(call, "a number outside the state was written");
    for (size_t i = 0; i < MOST; i++)
        if (typed.at.text[i] != (i < kept ? text[i] : 0)) {
            fault(call, "the state holds another text");
            return;
        }
    if (typed.at.count != (text_count <= MOST ? text_count : 257)) fault(call, "the state has another count");
    if (typed.at.edition != edition) fault(call, "the state has another edition");
}

static void type_text(uint32_t edition) {
    filled_state();
    sagebasket_live_fresh(edition, &typed.at);
    for (size_t i = 0; i < text_count; i++) sagebasket_live_step(&typed.at, text[i]);
    holds("live_step", edition);
}

/* ---- The calls on a text */

/* The ASCII form of a name by three calls. */
static void ascii_calls(uint32_t edition, const sagebasket_answer *want, const uint8_t *ascii) {
    ready();
    answered("to_ascii", sagebasket_to_ascii(edition, text, text_count, octets.at, &told.at), want);
    wrote_octets("to_ascii", ascii, want->length);
    ready();
    answered("to_ascii_utf8", sagebasket_to_ascii_utf8(edition, name, name_count, octets.at, &told.at), want);
    wrote_octets("to_ascii_utf8", ascii, want->length);
    ready();
    answered("live_to_ascii", sagebasket_live_to_ascii(&typed.at, octets.at, &told.at), want);
    wrote_octets("live_to_ascii", ascii, want->length);
}

/* Check and look; the look's text is the normal form that the check must give. */
static void check_calls(uint32_t edition, sagebasket_answer want) {
    ready();
    uint32_t number = sagebasket_live_look(&typed.at, codes.at, &told.at);
    form_count = told.at.length <= MOST ? told.at.length : 0;
    for (size_t i = 0; i < form_count; i++) form[i] = codes.at[i];
    sagebasket_answer seen = with_labels(want, form_count), checked = with_labels(want, want.number ? 0 : form_count);
    answered("live_look", number, &seen);
    showed("live_look", form, form_count);
    ready();
    answered("check", sagebasket_check(edition, text, text_count, codes.at, &told.at), &checked);
    wrote_codes("check", form, checked.length);
    ready();
    answered("check_utf8", sagebasket_check_utf8(edition, name, name_count, codes.at, &told.at), &checked);
    wrote_codes("check_utf8", form, checked.length);
    uint32_t may = sagebasket_may_become(edition, text, text_count);
    if (may != sagebasket_live_may_become(&typed.at)) fault("may_become", "text and state do not agree");
    if (may > 1 || (number == 0 && may == 0)) fault("may_become", "an accepted name may not become one");
    if (may == 1 && (number == 3 || number == 4 || number == 25)) fault("may_become", "what is refused for good may become a name");
    holds("look", edition);
}

/* Yes or no for the search box, by number and place of the ASCII form. */
static void search_calls(const sagebasket_answer *want) {
    uint32_t lent[3] = {0xA5A5A5A5u, 0xA5A5A5A5u, 0xA5A5A5A5u};
    size_t count = want->number == 2 || want->number == 3 ? 0 : want->number == 4 ? want->place + 1 : text_count;
    uint32_t yes = sagebasket_acceptable(text, text_count, &lent[1]);
    if (yes != (want->number == 0)) fault("acceptable", "another answer than the ASCII form's");
    if (lent[1] != count) fault("acceptable", "another count");
    if (lent[0] != 0xA5A5A5A5u || lent[2] != 0xA5A5A5A5u) fault("acceptable", "a number beside the count was written");
}

/* How many code points stand before the first separator. */
static size_t before_separator(const uint32_t *at, size_t count) {
    size_t i = 0;
    while (i < count && at[i] != 0x2E && at[i] != 0xFF0E && at[i] != 0x3002 && at[i] != 0xFF61) i++;
    return i;
}

/* Two wishes, by number and place of the ASCII form of each. */
static void wish_asked(const uint32_t *one, size_t one_count, sagebasket_answer a, const uint32_t *two, size_t two_count, sagebasket_answer b) {
    uint32_t won = a.number == 0 ? 1 : b.number == 0 ? 2 : 0;
    size_t length = won == 0 ? 0 : won == 1 ? before_separator(one, one_count) : before_separator(two, two_count);
    ready();
    if (sagebasket_wish(one, one_count, two, two_count, &wished.at) != won || wished.at.won != won) fault("wish", "another wish won");
    if (wished.at.first_number != a.number || wished.at.first_place != a.place) fault("wish", "another answer of the first");
    if (wished.at.second_number != b.number || wished.at.second_place != b.place) fault("wish", "another answer of the second");
    if (wished.at.part_length != length) fault("wish", "another part");
    guarded("wish");
}

/* This text with itself, with none, and with the one before it, each in either order. */
static void wish_calls(sagebasket_answer want) {
    static const uint32_t none[1];
    static uint32_t other[MOST + 1];
    static size_t other_count;
    static sagebasket_answer other_said = {.number = 2};
    sagebasket_answer empty = refusal(SAGEBASKET_NO_TEXT);
    wish_asked(text, text_count, want, text, text_count, want);
    wish_asked(text, text_count, want, none, 0, empty);
    wish_asked(none, 0, empty, text, text_count, want);
    wish_asked(text, text_count, want, other, other_count, other_said);
    wish_asked(other, other_count, other_said, text, text_count, want);
    other_count = text_count <= MOST ? text_count : MOST + 1;
    for (size_t i = 0; i < other_count; i++) other[i] = text[i];
    other_said = want;
}

/* A host by its calls. What the first says is compared with the second implementation's answers elsewhere (probes). */
static void host_calls(void) {
    static uint8_t ascii[MOST];
    ready();
    uint32_t number = sagebasket_host_to_ascii(text, text_count, octets.at, &told.at);
    sagebasket_answer want = zero;
    want.number = number;
    want.place = told.at.place;
    want.length = number ? 0 : told.at.length;
    if (want.length > 253) fault("host_to_ascii", "the form is too long");
    for (size_t i = 0; i < MOST; i++) ascii[i] = octets.at[i];
    answered("host_to_ascii", number, &want);
    wrote_octets("host_to_ascii", ascii, want.length);
    ready();
    answered("host_to_ascii_utf8", sagebasket_host_to_ascii_utf8(name, name_count, octets.at, &told.at), &want);
    wrote_octets("host_to_ascii_utf8", ascii, want.length);
    ready();
    answered("live_host_to_ascii", sagebasket_live_host_to_ascii(&typed.at, octets.at, &told.at), &want);
    wrote_octets("live_host_to_ascii", ascii, want.length);
    ready();
    want.length = (uint32_t)form_count;
    answered("live_look_host", sagebasket_live_look_host(&typed.at, codes.at, &told.at), &want);
    showed("live_look_host", form, form_count);
}

/* ---- Coder and decoder */

/* A label there and back: what the coder gives the decoder takes, and the other way round. */
static void there_and_back(const uint32_t *label, size_t count) {
    uint8_t code[SAGEBASKET_LABEL_ROOM];
    ready();
    uint32_t number = sagebasket_encode(label, count, octets.at, &told.at);
    sagebasket_answer want = refusal(number);
    if (number == 0) want.length = told.at.length <= SAGEBASKET_LABEL_ROOM ? told.at.length : 0;
    for (size_t i = 0; i < want.length; i++) code[i] = octets.at[i];
    answered("encode", number, &want);
    wrote_octets("encode", code, want.length);
    if (number == 0) {
        size_t length = want.length;
        ready();
        want.length = (uint32_t)count;
        answered("decode", sagebasket_decode(code, length, codes.at, &told.at), &want);
        wrote_codes("decode", label, count);
    } else if (number != SAGEBASKET_NOT_ENCODABLE && number != SAGEBASKET_CODE_LONG) fault("encode", "a number that it has not");
}

/* Any octets to the decoder; what it takes the coder gives back, in lower case. */
static void decoded(const uint8_t *s, size_t count) {
    uint32_t label[SAGEBASKET_LABEL_ROOM];
    ready();
    uint32_t number = sagebasket_decode(s, count, codes.at, &told.at);
    sagebasket_answer want = refusal(number);
    if (number == 0) want.length = told.at.length <= SAGEBASKET_LABEL_ROOM ? told.at.length : 0;
    for (size_t i = 0; i < want.length; i++) label[i] = codes.at[i];
    answered("decode", number, &want);
    wrote_codes("decode", label, want.length);
    if (number != 0 && number != SAGEBASKET_NOT_ENCODED) fault("decode", "a number that it has not");
    if (number) return;
    size_t length = want.length;
    ready();
    sagebasket_encode(label, length, octets.at, &told.at);
    if (told.at.length != count) fault("encode", "another length than what was decoded");
    for (size_t i = 0; i < count && i < MOST; i++)
        if (octets.at[i] != (s[i] >= 'A' && s[i] <= 'Z' ? s[i] + 32 : s[i])) fault("encode", "other octets than what was decoded");
}

/* The labels of an accepted name: encoded in the ASCII form what the normal form has. */
static void same_labels(const uint8_t *ascii, size_t length) {
    size_t from = 0, start = 0;
    for (size_t i = 0; i <= length; i++) {
        if (i < length && ascii[i] != '.') continue;
        size_t end = start;
        while (end < form_count && form[end] != '.') end++;
        ready();
        int high = 0;
        for (size_t k = start; k < end; k++) high |= form[k] >= 0x80;
        if (high) {
            sagebasket_decode(ascii + from, i - from, codes.at, &told.at);
            wrote_codes("decode", form + start, end - start);
        } else
            for (size_t k = start; k < end; k++)
                if (ascii[from + k - start] != form[k]) fault("to_ascii", "an ASCII label is changed");
        from = i + 1;
        start = end + 1;
    }
    if (start != form_count + 1) fault("to_ascii", "there are fewer labels than in the normal form");
}

/* ---- A line */

/* The calls on the name of a line by an older edition and by a number that is none. */
static void other_editions(void) {
    static const uint32_t none[] = {0, 5, 0xFFFFFFFFu};
    uint32_t older = 1 + (uint32_t)(line_number % 3), other = none[line_number / 3 % 3];
    uint8_t ascii[SAGEBASKET_ASCII_ROOM];
    ready();
    sagebasket_to_ascii(older, text, text_count, octets.at, &told.at);
    sagebasket_answer want = told.at;
    for (size_t i = 0; i < sizeof ascii; i++) ascii[i] = octets.at[i];
    want.length = want.number ? 0 : want.length;
    type_text(older);
    ascii_calls(older, &want, ascii);
    check_calls(older, want);
    want = refusal(SAGEBASKET_NO_EDITION);
    type_text(other);
    ascii_calls(other, &want, nothing);
    check_calls(other, want);
}

/* What an answer line to this name alone says; the ASCII form itself where the name cannot stand in a line. */
static sagebasket_answer expected(const uint8_t **ascii) {
    static uint8_t line[1024], answer[SAGEBASKET_LINE_ROOM];
    int tab = 0;
    for (size_t i = 0; i < name_count; i++) tab |= name[i] == '\t';
    if (!tab && name_count <= sizeof line - 2) {
        line[0] = 'x';
        line[1] = '\t';
        for (size_t i = 0; i < name_count; i++) line[2 + i] = name[i];
        sagebasket_line(line, name_count + 2, answer);
        return read_answer(answer, ascii);
    }
    ready();
    sagebasket_to_ascii(SAGEBASKET_IN_FORCE, text, text_count, octets.at, &told.at);
    for (size_t i = 0; i < sizeof answer; i++) answer[i] = octets.at[i];
    *ascii = answer;
    return told.at;
}

static void not_utf8(void) {
    sagebasket_answer want = refusal(SAGEBASKET_NOT_UTF8);
    ready();
    answered("check_utf8", sagebasket_check_utf8((uint32_t)line_number % 6, name, name_count, codes.at, &told.at), &want);
    wrote_codes("check_utf8", form, 0);
    ready();
    answered("to_ascii_utf8", sagebasket_to_ascii_utf8((uint32_t)line_number % 6, name, name_count, octets.at, &told.at), &want);
    wrote_octets("to_ascii_utf8", nothing, 0);
    ready();
    answered("host_to_ascii_utf8", sagebasket_host_to_ascii_utf8(name, name_count, octets.at, &told.at), &want);
    wrote_octets("host_to_ascii_utf8", nothing, 0);
}

static void judge_name(void) {
    long count = code_points(name, name_count, text, sizeof text / sizeof *text);
    decoded(name, name_count);
    if (count == -1) not_utf8();
    if (count < 0) return;
    const uint8_t *ascii;
    text_count = (size_t)count;
    sagebasket_answer want = expected(&ascii);
    type_text(SAGEBASKET_IN_FORCE);
    ascii_calls(SAGEBASKET_IN_FORCE, &want, ascii);
    check_calls(SAGEBASKET_IN_FORCE, want);
    search_calls(&want);
    wish_calls(want);
    host_calls();
    if (want.number == 0) same_labels(ascii, want.length);
    there_and_back(text, text_count);
    want = with_labels(want, form_count);
    for (size_t i = 0; i < want.label_count; i++) there_and_back(form + want.label_start[i], want.label_length[i]);
    other_editions();
}

static void judge_line(const uint8_t *line, size_t count) {
    ready();
    uint32_t length = sagebasket_line(line, count, octets.at);
    guarded("line");
    wrote_octets("line", octets.at, length);
    if (length == 0 || length > MOST || octets.at[length - 1] != '\n') fault("line", "it has no end");
    for (size_t i = 0; i < length && i < MOST; i++) put(octets.at[i]);
    name = line;
    for (size_t i = 0; i < count; i++)
        if (line[i] == '\t') {
            name = line + i + 1;
            break;
        }
    name_count = (size_t)(line + count - name);
    judge_name();
}

/* What no line brings: editions by their number, and states that no steps make. */
static void fixed(void) {
    for (uint32_t e = 0; e < 9; e++)
        if (sagebasket_is_edition(e) != (e >= 1 && e <= 4)) fault("is_edition", "another answer");
    if (sagebasket_is_edition(0xFFFFFFFFu) || sagebasket_is_edition(260)) fault("is_edition", "another answer");
    static const uint32_t counts[] = {257, 258, 512, 0x80000000u, 0xFFFFFFFFu};
    for (size_t i = 0; i < sizeof counts / sizeof *counts; i++) {
        filled_state();
        typed.at.count = counts[i];
        typed.at.edition = SAGEBASKET_IN_FORCE;
        sagebasket_answer want = refusal(SAGEBASKET_TEXT_LONG);
        want.place = MOST;
        ready();
        answered("live_look of a long state", sagebasket_live_look(&typed.at, codes.at, &told.at), &want);
        showed("live_look of a long state", form, 0);
        if (sagebasket_live_may_become(&typed.at)) fault("live_may_become of a long state", "yes");
        sagebasket_live_step(&typed.at, 'a');
        if (typed.at.count != 257) fault("live_step of a long state", "the count is not 257");
        for (size_t k = 0; k < MOST; k++)
            if (typed.at.text[k] != code_fill(k)) fault("live_step of a long state", "the text is written");
    }
}

int main(void) {
    size_t n = read_all(input, sizeof input);
    if (n == sizeof input) fault("input", "too long for this test");
    fixed();
    for (size_t at = 0, end; at < n; at = end + 1) {
        line_number++;
        for (end = at; end < n && input[end] != '\n'; end++) {}
        judge_line(input + at, end - at);
    }
    flush();
    return faults ? 1 : 0;
}
