/* Sagebasket: the name rules of the .jp registry, proved, for C and C++.
 *
 * WHAT A CALL TAKES. A text is what an applicant typed, as code points: one to a uint32_t, with their count. Any
 * numbers are taken, also such as are no characters, and any count. The calls that end in _utf8 take octets instead.
 *
 * WHAT A CALL ANSWERS. A number: 0 is accepted, any other says why not (enum sagebasket_number). The number is
 * returned, and it stands in the lent answer too, with what else there is to tell (struct sagebasket_answer). Every
 * call that is lent an answer writes all twelve numbers of it; what a call does not tell is 0. The calls that ask for
 * yes or no (is_edition, may_become, acceptable, live_may_become) return 1 for yes and 0 for no instead;
 * sagebasket_wish returns which wish won, and writes all six numbers of an answer of its own.
 *
 * WHAT IS WRITTEN. With 0, what the call gives stands at the start of the lent buffer, answer->length says how many
 * entries it has, and the rest of the buffer is as it was. No NUL is put after it. With any other number the length is
 * 0 and the whole buffer is as it was. Only the two looks of the live check write their buffer whatever the number.
 *
 * WHAT THE CALLER MUST KEEP. None of this is checked:
 *   - a count is true: so many entries can be read;
 *   - a buffer has the room that is written in the call, and is aligned for its type, as is every pointer;
 *   - no pointer is NULL, not even with a count of 0;
 *   - the answer and the buffer of one call do not overlap, nor does either of them, or a count that is lent, overlap
 *     what the call reads;
 *   - no other thread writes meanwhile what a call was lent. Apart from that any threads may call at once: a call
 *     reads and writes only what it is lent, keeps nothing, allocates nothing and has no global state.
 *
 * WHAT IS PROVED. For everything that a caller may hand over under these conditions: each call ends, and its contract
 * decides what is returned, all numbers of the lent answer, every entry of the lent buffer and the lent count, as said
 * below.
 * WHAT IS NOT. The compiler and the linker, that this header says what the contracts say, how much time and stack a
 * call takes (12 KiB were the most that was seen, on Arm with an older compiler), and that the definitions are what the registry means. Tests
 * run every call across the border beside `desk` and beside a second implementation.
 *
 * 0 says that a name may be filed by its form. It does not say that the name is free.
 */
#ifndef SAGEBASKET_H
#define SAGEBASKET_H

#include <stddef.h>
#include <stdint.h>

#define SAGEBASKET_VERSION "0.1.0"

/* Room, in entries. No call asks for less, and none writes more; so 1, a buffer that is too short, never comes. */
#define SAGEBASKET_TEXT_MOST 256  /* code points of a text that is not refused for its length (3) */
#define SAGEBASKET_FORM_ROOM 256  /* code points of a normal form */
#define SAGEBASKET_ASCII_ROOM 192 /* octets of the ASCII form of a name */
#define SAGEBASKET_HOST_ROOM 255  /* octets of the ASCII form of a host */
#define SAGEBASKET_LABEL_ROOM 63  /* octets of an encoded label; code points of a decoded one */
#define SAGEBASKET_LINE_ROOM 256  /* octets of an answer line */
#define SAGEBASKET_LABELS_MOST 3  /* labels of an accepted name */

/* An array parameter: a C compiler may warn where a shorter one is lent. */
#ifdef __cplusplus
#define SAGEBASKET_ROOM(n) n
extern "C" {
#else
#define SAGEBASKET_ROOM(n) static n
#endif

/* The numbers of answers. The checks run in this order, and the first that applies is answered, with its place. A
 * place is 0 where none is named. Places and labels count from 0. The leftmost label is the one that the applicant
 * chooses. */
enum sagebasket_number {
    SAGEBASKET_ACCEPTED = 0,
    SAGEBASKET_NOT_UTF8 = 16,       /* _utf8 calls: the octets are not UTF-8; in an answer line: a bad line */
    SAGEBASKET_NO_EDITION = 25,     /* there is no edition of this number */
    SAGEBASKET_NO_TEXT = 2,         /* the text has no code point */
    SAGEBASKET_TEXT_LONG = 3,       /* the text has more than 256 code points; place 256 */
    SAGEBASKET_UNFIT = 4,           /* a character is neither period, letter, digit, hyphen nor Japanese; place: its
                                       index in the text as it was typed */
    SAGEBASKET_LABEL_COUNT = 5,     /* a name has not 2 or 3 labels (in editions 1 and 2: not 2); a host has under 3 */
    SAGEBASKET_LABEL_EMPTY = 6,     /* a label is empty; place: which */
    SAGEBASKET_HYPHEN_EDGE = 7,     /* the leftmost label begins or ends with a hyphen */
    SAGEBASKET_LABEL_SHORT = 8,     /* it is ASCII with fewer than 3 characters; never of a host */
    SAGEBASKET_LABEL_LONG = 9,      /* it is ASCII with more than 63 characters, or Japanese with more than 15 */
    SAGEBASKET_HYPHEN_PAIR = 17,    /* it is ASCII with hyphens in its third and fourth places, as xn--l8j has */
    SAGEBASKET_MIDDLE_DOT = 10,     /* it has a middle dot (30FB), and no Japanese character but 3006, 30FC, 30FB */
    SAGEBASKET_NOT_JP = 11,         /* the last label is not jp */
    SAGEBASKET_NOT_PREFECTURE = 12, /* of three labels the middle one is no prefecture label of the edition */
    SAGEBASKET_NOT_ENCODABLE = 13,  /* coder: the label cannot be encoded */
    SAGEBASKET_CODE_LONG = 14,      /* coder: the encoded label has more than 63 octets; proved never to come of a
                                       name or a host */
    SAGEBASKET_NOT_ENCODED = 15,    /* decoder: the octets are no encoded label */
    SAGEBASKET_HOST_LONG = 19       /* the ASCII form of a host has more than 253 octets */
};
/* Of a host 7, 9, 17 and 10 are asked of each label from the left, and the place says which label; 17 is asked of
 * Japanese labels too; 8, 11, 12 and 25 never come. */

/* The class of an accepted name. A refused one has none, and neither has a host. */
enum sagebasket_class {
    SAGEBASKET_CLASS_NONE = 0,
    SAGEBASKET_GENERAL_USE = 1, /* two labels */
    SAGEBASKET_PREFECTURE = 2   /* three labels */
};

/* The kinds of Japanese characters in the leftmost label of an accepted name, added up. No character has two kinds. */
enum sagebasket_kind {
    SAGEBASKET_HIRAGANA = 1,
    SAGEBASKET_KATAKANA = 2,
    SAGEBASKET_KANJI = 4,
    SAGEBASKET_SIGN = 8 /* 3005, 3006, 3007, 309D, 309E, 30FB, 30FC, 30FD, 30FE, 4EDD; in edition 1 also 3003 */
};

/* The editions of the rules, by which renewals are judged. Any other number is answered with 25. */
enum sagebasket_edition {
    SAGEBASKET_EDITION_2003 = 1, /* of 10 July 2003: no prefecture names; 3003 is a Japanese character */
    SAGEBASKET_EDITION_2005 = 2, /* of 30 August 2005: no prefecture names */
    SAGEBASKET_EDITION_2012 = 3, /* of 16 July 2012: prefecture labels in Latin letters alone */
    SAGEBASKET_EDITION_2014 = 4, /* of 3 November 2014 */
    SAGEBASKET_IN_FORCE = 4
};

/* An answer: twelve numbers. */
typedef struct sagebasket_answer {
    uint32_t number;          /* enum sagebasket_number */
    uint32_t place;           /* where a refusal points; see the numbers */
    uint32_t name_class;      /* enum sagebasket_class; check, ASCII form and look of a name tell it */
    uint32_t kinds;           /* enum sagebasket_kind, added up; only the ASCII form of a name tells them */
    uint32_t length;          /* entries written; of a look those of the normal form, the others being 0 */
    uint32_t label_count;     /* how many labels an accepted name has; only check and look of a name tell labels */
    uint32_t label_start[SAGEBASKET_LABELS_MOST];  /* where each begins in the normal form, in code points */
    uint32_t label_length[SAGEBASKET_LABELS_MOST]; /* and how many code points it has; 0 past the last label */
} sagebasket_answer;

/* Is there an edition of this number? 1 yes, 0 no. */
uint32_t sagebasket_is_edition(uint32_t edition);

/* ---- A whole text, as a name by an edition, or as a host, which stays with the edition in force. */

/* The check. 0, 2 to 12, 17 or 25. With 0 the normal form is written: what is judged and registered. Tells the class
 * and where the labels stand in the normal form. */
uint32_t sagebasket_check(uint32_t edition, const uint32_t *text, size_t count,
                          uint32_t form[SAGEBASKET_ROOM(SAGEBASKET_FORM_ROOM)], sagebasket_answer *answer);

/* The ASCII form of a name: each Japanese label encoded, lower-case letters, digits, hyphens and periods only. The
 * same number and place as the check's. Tells the class and the kinds. Two accepted names have the same ASCII form
 * exactly where they have the same normal form. */
uint32_t sagebasket_to_ascii(uint32_t edition, const uint32_t *text, size_t count,
                             uint8_t ascii[SAGEBASKET_ROOM(SAGEBASKET_ASCII_ROOM)], sagebasket_answer *answer);

/* May the text yet become a name? 1 where some continuation of it, the empty one included, is accepted; 0 where it is
 * refused for good, or there is no such edition. */
uint32_t sagebasket_may_become(uint32_t edition, const uint32_t *text, size_t count);

/* Is the text acceptable: would sagebasket_check answer 0 by the edition in force? 1 yes, 0 no. For a search box: no
 * buffer is lent. *read is how many code points were read: 0 where the length alone refuses (none, or more than 256),
 * the place of the first unfit character and one more where one stops it, else all. Of what was not read only the count
 * plays a part. */
uint32_t sagebasket_acceptable(const uint32_t *text, size_t count, uint32_t *read);

/* First and second wish: which of two texts won, number and place of the check of both, and how long the part before
 * the winner's first separator is: six numbers. */
typedef struct sagebasket_wishes {
    uint32_t won;           /* 1 the first, 2 the second, 0 neither */
    uint32_t first_number;  /* what sagebasket_check says of each text by the edition in force, as if it stood alone */
    uint32_t first_place;
    uint32_t second_number; /* told also where the first won */
    uint32_t second_place;
    uint32_t part_length;   /* code points, as they were typed; 0 exactly where neither won */
} sagebasket_wishes;

/* The first wish wins where it is accepted, the second where only that one is. Returned is which won, which stands in
 * the answer too. The part is no copy: it begins where the winner's text begins, (won == 2 ? second : first), as it was
 * typed. Normalised it is the leftmost label. Separators are 2E, FF0E, 3002 and FF61. The two texts may be one. */
uint32_t sagebasket_wish(const uint32_t *first, size_t first_count, const uint32_t *second, size_t second_count,
                         sagebasket_wishes *answer);

/* The ASCII form of a nameserver's host name, at most 253 octets. 0, 2 to 7, 9, 10, 17 or 19. Tells no class, kinds or
 * labels. Two accepted hosts have the same ASCII form exactly where they have the same normal form. */
uint32_t sagebasket_host_to_ascii(const uint32_t *text, size_t count,
                                  uint8_t ascii[SAGEBASKET_ROOM(SAGEBASKET_HOST_ROOM)], sagebasket_answer *answer);

/* ---- The same of a name in UTF-8. `count` counts octets, places still count code points. Where the octets are not
 * well-formed UTF-8 the answer is 16, before all others. A byte order mark is a character as any other. */

uint32_t sagebasket_check_utf8(uint32_t edition, const uint8_t *name, size_t count,
                               uint32_t form[SAGEBASKET_ROOM(SAGEBASKET_FORM_ROOM)], sagebasket_answer *answer);

uint32_t sagebasket_to_ascii_utf8(uint32_t edition, const uint8_t *name, size_t count,
                                  uint8_t ascii[SAGEBASKET_ROOM(SAGEBASKET_ASCII_ROOM)], sagebasket_answer *answer);

uint32_t sagebasket_host_to_ascii_utf8(const uint8_t *name, size_t count,
                                       uint8_t ascii[SAGEBASKET_ROOM(SAGEBASKET_HOST_ROOM)], sagebasket_answer *answer);

/* ---- One label, by RFC 3492 with the prefix xn--. These two know nothing of the rules of names. */

/* The coder. A label is encodable where it has 1 to 63 code points, each a lower-case ASCII letter, a digit, a hyphen
 * or a scalar value of 80 (hex) or more, and at least one of the last. 0; 13 where it is not encodable; 14. */
uint32_t sagebasket_encode(const uint32_t *label, size_t count,
                           uint8_t ascii[SAGEBASKET_ROOM(SAGEBASKET_LABEL_ROOM)], sagebasket_answer *answer);

/* The decoder. Letters may be of either case. 0 with the only label that the coder gives these octets for; 15 where
 * there is none. */
uint32_t sagebasket_decode(const uint8_t *ascii, size_t count,
                           uint32_t label[SAGEBASKET_ROOM(SAGEBASKET_LABEL_ROOM)], sagebasket_answer *answer);

/* ---- A line of a batch. */

/* The line that `desk` answers to a line, by the edition in force. `line` is an id, a tab and a name in UTF-8, without
 * its LF. Written are id, number, place, class (G, P or -), ASCII form (or -) and kinds (letters of HKJS, or -),
 * parted by tabs and ended by LF. Returned is how many octets that are, never 0. The number is 16 and the id - where
 * the line has more than 1,024 octets or not exactly one tab, its id is not 1 to 32 ASCII letters, digits or hyphens,
 * or its name is not UTF-8. An LF in the line is an octet as any other. */
uint32_t sagebasket_line(const uint8_t *line, size_t count, uint8_t out[SAGEBASKET_ROOM(SAGEBASKET_LINE_ROOM)]);

/* ---- The live check, for a form that judges while the applicant types. The caller holds the state: the code points
 * typed, how many (257 stands for more than 256), and the edition. Any numbers are a state; it may be copied, kept and
 * compared. Past 256 no step leads back: to take a code point away, begin afresh and type the others again. */
typedef struct sagebasket_live {
    uint32_t text[SAGEBASKET_TEXT_MOST];
    uint32_t count;
    uint32_t edition;
} sagebasket_live;

/* Nothing typed yet. The state is given its edition, any number, and keeps it. */
void sagebasket_live_fresh(uint32_t edition, sagebasket_live *state);

/* One code point more. */
void sagebasket_live_step(sagebasket_live *state, uint32_t c);

/* What the check says of all that was typed. All 256 entries of `form` are written, whatever the number: the normal
 * form, which may hold unfit characters, and zeros past it. Past 256 code points there is no text: the length is 0. */
uint32_t sagebasket_live_look(const sagebasket_live *state,
                              uint32_t form[SAGEBASKET_ROOM(SAGEBASKET_FORM_ROOM)], sagebasket_answer *answer);

/* What the rules of a host say of all that was typed, whatever the edition. `form` as above. */
uint32_t sagebasket_live_look_host(const sagebasket_live *state,
                                   uint32_t form[SAGEBASKET_ROOM(SAGEBASKET_FORM_ROOM)], sagebasket_answer *answer);

/* What the calls above say of all that was typed: sagebasket_may_become, sagebasket_to_ascii,
 * sagebasket_host_to_ascii. */
uint32_t sagebasket_live_may_become(const sagebasket_live *state);

uint32_t sagebasket_live_to_ascii(const sagebasket_live *state,
                                  uint8_t ascii[SAGEBASKET_ROOM(SAGEBASKET_ASCII_ROOM)], sagebasket_answer *answer);

uint32_t sagebasket_live_host_to_ascii(const sagebasket_live *state,
                                       uint8_t ascii[SAGEBASKET_ROOM(SAGEBASKET_HOST_ROOM)], sagebasket_answer *answer);

#ifdef __cplusplus
}
#endif
#endif
