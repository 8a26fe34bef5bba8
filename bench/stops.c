/* One text, by the search box, by the check or as both of two wishes, so many times; then what was answered: yes or no, and how many code points
 * were read, or of the check its number, or of the wishes how long the part is.
 * usage: stops list                   the names of the texts, a line each
 *        stops SHAPE acceptable|check|wish TIMES */
#include <stdio.h>
#include <stdlib.h>
#include <string.h>
#include <uchar.h>

#include "sagebasket.h"

#define MILLION 1000000

typedef struct shape {
    const char *name;
    const char32_t *begun; /* what it begins with */
    size_t letters, end;   /* how many letters a follow, and whether ! follows them */
} shape;

static const shape shapes[] = {
    {"usual", U"十勝毎日新聞社.jp", 0, 0},
    {"with ー", U"イシイコーポレーション.jp", 0, 0},
    {"full-width end", U"十勝毎日新聞社．ｊｐ", 0, 0},
    {"half-width kana", U"ﾊﾟﾚｽﾎﾃﾙ.jp", 0, 0},
    {"prefecture", U"十勝毎日新聞社.hokkaido.jp", 0, 0},
    {"ASCII", U"tokatimainitisinbunsya.jp", 0, 0},
    {"unfit first of 256", U"!", 255, 0},
    {"an emoji first of 256", U"😀", 255, 0},
    {"no kanji among the kanji, first of 256", U"丂", 255, 0},
    {"unfit last of 256", U"", 255, 1},
    {"256 letters", U"", 256, 0},
    {"257 letters", U"", 257, 0},
    {"a million letters", U"", MILLION, 0},
};

static uint32_t text[MILLION + 64], form[SAGEBASKET_FORM_ROOM];

static size_t made(const shape *s) {
    size_t n = 0;
    while (s->begun[n]) text[n] = s->begun[n], n++;
    for (size_t i = 0; i < s->letters; i++) text[n++] = 'a';
    if (s->end) text[n++] = '!';
    return n;
}

static void run(const shape *s, const char *call, long times) {
    size_t n = made(s);
    uint32_t yes = 0, read = 0;
    sagebasket_answer answer = {0};
    sagebasket_wishes wishes = {0};
    char which = *call;
    for (long i = 0; i < times; i++) {
        if (which == 'a') yes = sagebasket_acceptable(text, n, &read);
        else if (which == 'w') yes = sagebasket_wish(text, n, text, n, &wishes) != 0;
        else yes = !sagebasket_check(SAGEBASKET_IN_FORCE, text, n, form, &answer);
    }
    printf("%u %u\n", (unsigned)yes, (unsigned)(which == 'a' ? read : which == 'w' ? wishes.part_length : answer.number));
}

int main(int count, char **words) {
    for (size_t i = 0; i < sizeof shapes / sizeof *shapes; i++) {
        if (count == 2) puts(shapes[i].name);
        else if (count == 4 && !strcmp(words[1], shapes[i].name)) return run(&shapes[i], words[2], atol(words[3])), 0;
    }
    return count == 2 ? 0 : 2;
}
