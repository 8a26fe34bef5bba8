/* Judges names by the library. Reads lines `id TAB name` (UTF-8) on standard input and writes an answer line for each.
 *
 *   judge       what `desk` writes
 *   judge -l    the same, the name typed code point by code point into the live check
 *   judge -o    names of nameserver hosts: id, number, place, ASCII form
 *
 * cc -o judge judge.c $(pkg-config --cflags --libs sagebasket)
 */
#define _POSIX_C_SOURCE 200809L /* getline: a line may hold NUL, which fgets would hide */
#include <sagebasket.h>

#include <stdio.h>
#include <stdlib.h>
#include <string.h>
#include <sys/types.h>

/* The answer line to a line. */
static void judge_line(const uint8_t *line, size_t count) {
    uint8_t out[SAGEBASKET_LINE_ROOM];
    fwrite(out, 1, sagebasket_line(line, count, out), stdout);
}

/* Types the code points of well-formed UTF-8. */
static void type_name(sagebasket_live *state, const uint8_t *name, size_t count) {
    for (size_t i = 0; i < count;) {
        uint32_t c = name[i++];
        int more = c < 0x80 ? 0 : c < 0xE0 ? 1 : c < 0xF0 ? 2 : 3;
        if (more > 0) c &= 0x3Fu >> more;
        for (; more > 0; more--) c = c << 6 | (name[i++] & 0x3Fu);
        sagebasket_live_step(state, c);
    }
}

static void print_kinds(uint32_t kinds) {
    if (kinds & SAGEBASKET_HIRAGANA) putchar('H');
    if (kinds & SAGEBASKET_KATAKANA) putchar('K');
    if (kinds & SAGEBASKET_KANJI) putchar('J');
    if (kinds & SAGEBASKET_SIGN) putchar('S');
    if (!kinds) putchar('-');
}

/* An octet more than a call asks for, so that a form can be ended by NUL and printed. */
static const char *ended(uint8_t *ascii, const sagebasket_answer *answer) {
    ascii[answer->length] = 0;
    return answer->number == SAGEBASKET_ACCEPTED ? (const char *)ascii : "-";
}

/* The same answer by the live check. Which lines are bad the library says: they get 16, and only they. */
static void judge_typed(const uint8_t *line, size_t count) {
    uint8_t out[SAGEBASKET_LINE_ROOM], ascii[SAGEBASKET_ASCII_ROOM + 1];
    sagebasket_live state;
    sagebasket_answer answer;
    sagebasket_line(line, count, out);
    if (!memcmp(out, "-\t16\t", 5)) {
        judge_line(line, count);
        return;
    }
    const uint8_t *tab = memchr(line, '\t', count);
    size_t id = (size_t)(tab - line);
    sagebasket_live_fresh(SAGEBASKET_IN_FORCE, &state);
    type_name(&state, tab + 1, count - id - 1);
    sagebasket_live_to_ascii(&state, ascii, &answer);
    printf("%.*s\t%u\t%u\t%c\t%s\t", (int)id, (const char *)line, (unsigned)answer.number, (unsigned)answer.place,
           "-GP"[answer.name_class], ended(ascii, &answer));
    print_kinds(answer.kinds);
    putchar('\n');
}

/* A host: what stands before the first tab is the id, whatever it is; without a tab the id is empty. */
static void judge_host(const uint8_t *line, size_t count) {
    uint8_t ascii[SAGEBASKET_HOST_ROOM + 1];
    sagebasket_answer answer;
    const uint8_t *tab = memchr(line, '\t', count);
    size_t id = tab ? (size_t)(tab - line) : 0, name = tab ? id + 1 : 0;
    sagebasket_host_to_ascii_utf8(line + name, count - name, ascii, &answer);
    fwrite(line, 1, id, stdout);
    printf("\t%u\t%u\t%s\n", (unsigned)answer.number, (unsigned)answer.place, ended(ascii, &answer));
}

int main(int argc, char **argv) {
    void (*judge)(const uint8_t *, size_t) = judge_line;
    if (argc == 2 && !strcmp(argv[1], "-l")) judge = judge_typed;
    else if (argc == 2 && !strcmp(argv[1], "-o")) judge = judge_host;
    else if (argc != 1) return fputs("usage: judge [-l | -o] < lines\n", stderr), 2;
    char *line = NULL;
    size_t room = 0;
    for (ssize_t got; (got = getline(&line, &room, stdin)) >= 0;)
        judge((const uint8_t *)line, (size_t)got - (line[got - 1] == '\n'));
    free(line);
    if (ferror(stdin) || fflush(stdout) || ferror(stdout)) return perror("judge"), 1;
    return 0;
}
