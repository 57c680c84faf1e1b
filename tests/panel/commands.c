/* Answers test commands by the entries of the library, one line a command, as docs/COMMANDS.md has them, but for the last word of
   a run's answer: whether the tables were wiped cannot be seen from here. A run is lent no more than is built in of a table. An
   output that was changed where it should not be is answered `output changed`. */
#include "bedrafoly.h"

#include <stdio.h>
#include <stdlib.h>
#include <string.h>

enum { LINE = 400000, BYTES = 140000, WORDS = 9, BEHIND = 64, FILLED = 0xa5 };

static char line[LINE];
static uint8_t first[BYTES], second[BYTES], out[BYTES + BEHIND], answer[BEDRAFOLY_RUN_ANSWER];

static unsigned long word(int k)
{
    const uint8_t *b = answer + 4 * k;
    return b[0] | (unsigned long)b[1] << 8 | (unsigned long)b[2] << 16 | (unsigned long)b[3] << 24;
}

static uint8_t digit(char c)
{
    if ((c < '0' || c > '9') && (c < 'a' || c > 'f'))
        exit(1);
    return (uint8_t)(c <= '9' ? c - '0' : c - 'a' + 10);
}

/* Bytes from hexadecimal digits, `-` for none. */
static size_t bytes(const char *text, uint8_t *to)
{
    size_t n = strcmp(text, "-") == 0 ? 0 : strlen(text) / 2;
    if (n > BYTES)
        exit(1);
    for (size_t i = 0; i < n; i++)
        to[i] = (uint8_t)(16 * digit(text[2 * i]) + digit(text[2 * i + 1]));
    return n;
}

/* An output that is filled, so that it shows what was changed. */
static size_t lend_output(const char *word)
{
    size_t room = strtoul(word, NULL, 10);
    if (room > BYTES)
        exit(1);
    memset(out, FILLED, room + BEHIND);
    return room;
}

/* Whether all is filled behind the first n bytes of an output, and for some bytes behind its end. */
static int kept(size_t n, size_t room)
{
    for (size_t i = n; i < room + BEHIND; i++) {
        if (out[i] != FILLED)
            return 0;
    }
    return 1;
}

static void say_bytes(const char *kind, size_t n)
{
    printf("%s ", kind);
    for (size_t i = 0; i < n; i++)
        printf("%02x", out[i]);
    printf(n ? "" : "-");
}

static void say_refused(void)
{
    printf("refused %lu %lu %lu", word(0), word(1), word(2));
}

static void check(char **words)
{
    if (bedrafoly_check(first, bytes(words[1], first), answer, BEDRAFOLY_CHECK_ANSWER) == 0)
        printf("accepted %lu %lu %lu", word(1), word(2), word(3));
    else
        say_refused();
}

/* What was written to the output's front, or why nothing was. */
static void say_written(const char *kind, int done, size_t room)
{
    if (!kept(done ? word(3) : 0, room))
        printf("output changed");
    else if (done)
        say_bytes(kind, word(3));
    else
        say_refused();
}

static void convert(char **words, int packs)
{
    size_t n = bytes(words[1], first), room = lend_output(words[2]);
    int done = (packs ? bedrafoly_pack : bedrafoly_unpack)(first, n, out, room, answer, BEDRAFOLY_PACK_ANSWER) == 0;
    say_written(packs ? "packed" : "unpacked", done, room);
}

static void lines(char **words)
{
    size_t n = bytes(words[1], first), m = bytes(words[2], second), room = lend_output(words[5]);
    uint8_t cons = (uint8_t)strtoul(words[3], NULL, 10), nil = (uint8_t)strtoul(words[4], NULL, 10);
    int done = bedrafoly_lines(first, n, second, m, cons, nil, out, room, answer, BEDRAFOLY_LINES_ANSWER) == 0;
    say_written("lines", done, room);
}

static void run(char **words)
{
    size_t n = bytes(words[1], first), m = bytes(words[3], second), room = lend_output(words[8]);
    uint32_t number[WORDS];
    for (int k = 2; k < WORDS; k++)
        number[k] = (uint32_t)strtoul(words[k], NULL, 10);
    bedrafoly_run_within(first, n, number[2], second, m, number[4], number[5] / 5, number[6], number[7], out, room, answer,
                         BEDRAFOLY_RUN_ANSWER);
    if (!kept(word(4), room))
        printf("output changed");
    else if (word(0) == BEDRAFOLY_DONE)
        say_bytes("figure", word(4));
    else if (word(0) == BEDRAFOLY_GAVE_UP)
        printf("gaveup");
    else
        say_refused();
    printf(" %lu", word(3));
}

int main(void)
{
    while (fgets(line, LINE, stdin)) {
        char *words[WORDS] = {0};
        int n = 0;
        for (char *w = strtok(line, " \n"); w && n < WORDS; w = strtok(NULL, " \n"))
            words[n++] = w;
        if (n == 2 && strcmp(words[0], "check") == 0)
            check(words);
        else if (n == 3 && strcmp(words[0], "pack") == 0)
            convert(words, 1);
        else if (n == 3 && strcmp(words[0], "unpack") == 0)
            convert(words, 0);
        else if (n == 6 && strcmp(words[0], "lines") == 0)
            lines(words);
        else if (n == 9 && strcmp(words[0], "run") == 0)
            run(words);
        else
            return 1;
        putchar('\n');
    }
    return 0;
}
