/* Surveys: the logger's text and the codes of its letters, as files and as the library takes them, and why it refuses them. */
#include <stdio.h>
#include <stdlib.h>
#include <string.h>

#include "bedrafoly.h"
#include "panel.h"

#define LETTERS 3
#define ENTRY_BYTES 4
#define SHOWN 40 /* the most bytes of a line that are shown */
#define LOGGER "; the logger's text must be mended"

/* A walk over a text, line by line, with the line that it has come to. */
struct walk {
    const struct bytes *text;
    size_t next;          /* where the next line begins */
    unsigned long number; /* of the line, from 1 */
    const uint8_t *line;
    size_t length; /* of the line without its end */
    int ended;     /* whether byte 10 is behind it */
};

static struct walk walk_over(const struct bytes *text)
{
    struct walk walk = {text, 0, 0, NULL, 0, 0};

    return walk;
}

/* Goes on to the next line. Gives 0 where there is none. */
static int next_line(struct walk *walk)
{
    size_t rest = walk->text->length - walk->next;
    const uint8_t *end;

    if (rest == 0)
        return 0;
    walk->number++;
    walk->line = walk->text->at + walk->next;
    end = memchr(walk->line, '\n', rest);
    walk->ended = end != NULL;
    walk->length = end != NULL ? (size_t)(end - walk->line) : rest;
    walk->next += walk->length + (size_t)walk->ended;
    return 1;
}

static int blank(uint8_t byte)
{
    return byte == ' ' || byte == '\t';
}

/* Takes off what cannot be seen at a line's end, as the carriage return that some editors write. */
static void trim(struct walk *walk)
{
    while (walk->length > 0 && (blank(walk->line[walk->length - 1]) || walk->line[walk->length - 1] == '\r'))
        walk->length--;
}

/* Goes on to the next line of the codes that says something. */
static int next_entry(struct walk *walk)
{
    while (next_line(walk)) {
        trim(walk);
        if (walk->length > 0 && walk->line[0] != '#')
            return 1;
    }
    return 0;
}

/* Reads an entry of a line. Its letters may be any three bytes that are not blank: whether they are capitals is for the library to
 * say. Gives 0 where it is none. */
static int read_entry(const struct walk *walk, uint8_t *entry)
{
    const uint8_t *line = walk->line;
    size_t k = LETTERS;
    uint32_t number;

    while (k < walk->length && blank(line[k]))
        k++;
    if (k == LETTERS || blank(line[0]) || blank(line[1]) || blank(line[2]))
        return 0;
    if (!read_number((const char *)line + k, walk->length - k, 255, &number))
        return 0;
    memcpy(entry, line, LETTERS);
    entry[LETTERS] = (uint8_t)number;
    return 1;
}

static void show_byte(uint8_t byte)
{
    if (byte == '\r')
        fputs("\\r", stderr);
    else if (byte == '\t')
        fputs("\\t", stderr);
    else if (byte < 32 || byte > 126)
        fprintf(stderr, "\\x%02x", (unsigned)byte);
    else
        fprintf(stderr, byte == '\\' ? "\\%c" : "%c", byte);
}

/* Begins a sentence about a line: where it stands, and what it is, so that bytes that cannot be seen are. */
static void show_line(const char *path, const struct walk *walk)
{
    size_t shown = walk->length < SHOWN ? walk->length : SHOWN, k;

    fprintf(stderr, "panel: line %lu of '%s', '", walk->number, path);
    for (k = 0; k < shown; k++)
        show_byte(walk->line[k]);
    fputs("'", stderr);
    if (shown < walk->length)
        fprintf(stderr, " and %lu bytes more", (unsigned long)(walk->length - shown));
    fputs(": ", stderr);
}

/* Gets memory. Gives 0, or says that there is none and gives UNUSABLE. */
static int get_room(struct bytes *bytes, size_t room)
{
    bytes->at = malloc(room);
    if (bytes->at != NULL)
        return 0;
    fprintf(stderr, "panel: there is no memory for %lu bytes\n", (unsigned long)room);
    return UNUSABLE;
}

/* Makes the table of the codes. An entry's line is longer than the entry, so the table is no longer than the codes. */
static int make_table(struct survey *survey)
{
    struct bytes *table = &survey->table;
    struct walk walk = walk_over(&survey->codes);

    if (get_room(table, survey->codes.length + 1) != 0)
        return UNUSABLE;
    while (next_entry(&walk)) {
        if (!read_entry(&walk, table->at + table->length)) {
            show_line(survey->words.codes, &walk);
            fputs("an entry is three letters, spaces or tabs, and a number from 0 to 255\n", stderr);
            return UNUSABLE;
        }
        table->length += ENTRY_BYTES;
    }
    return 0;
}

/* Gets room for the list. Lines that can be taken have four bytes each, so that no text gives a longer one. */
static int make_room(struct survey *survey)
{
    survey->list.length = 2 * (survey->text.length / (LETTERS + 1)) + 1;
    return get_room(&survey->list, survey->list.length);
}

int read_survey(const struct survey_words *words, struct survey *survey)
{
    static const struct survey nothing;

    *survey = nothing;
    survey->words = *words;
    if (read_whole(words->text, &survey->text) != 0 || read_whole(words->codes, &survey->codes) != 0)
        return UNUSABLE;
    return make_table(survey) != 0 ? UNUSABLE : make_room(survey);
}

void give_back_survey(struct survey *survey)
{
    free(survey->text.at);
    free(survey->codes.at);
    free(survey->table.at);
    free(survey->list.at);
}

static int capitals(const uint8_t *letters)
{
    int k = 0;

    while (k < LETTERS && letters[k] >= 'A' && letters[k] <= 'Z')
        k++;
    return k == LETTERS;
}

/* What is wrong with the form of a line, the usual cause first; NULL where nothing is. */
static const char *malformed(const struct walk *walk)
{
    if (walk->length > 0 && walk->line[walk->length - 1] == '\r')
        return "it ends in a carriage return, and byte 10 alone must end it" LOGGER;
    if (!walk->ended)
        return "the text ends here, and byte 10 is missing" LOGGER;
    if (walk->length == 0)
        return "it is empty" LOGGER;
    if (walk->length != LETTERS || !capitals(walk->line))
        return "it is not three capital letters, A to Z" LOGGER;
    return NULL;
}

static void explain_line(uint32_t number, const struct survey *survey)
{
    struct walk walk = walk_over(&survey->text);
    const char *form;

    while (walk.number < number && next_line(&walk))
        continue;
    show_line(survey->words.text, &walk);
    form = malformed(&walk);
    if (form != NULL)
        fprintf(stderr, "%s.\n", form);
    else
        fprintf(stderr, "'%s' has no such letters; the operator must add them there, or the logger's text is wrong.\n",
                survey->words.codes);
}

/* The table is in whole entries, so that it is refused for its letters, or for the two numbers. */
static void explain_table(const struct survey *survey)
{
    struct walk walk = walk_over(&survey->codes);

    if (survey->words.cons == survey->words.nil) {
        fprintf(stderr, "panel: cons and nil are both %lu; the operator must give the numbers of two constructors.\n",
                (unsigned long)survey->words.cons);
        return;
    }
    while (next_entry(&walk) && capitals(walk.line))
        continue;
    show_line(survey->words.codes, &walk);
    fputs("its letters are not three capitals, A to Z; the operator must mend them.\n", stderr);
}

void explain_survey(uint32_t number, uint32_t first, const struct survey *survey)
{
    if (number == BEDRAFOLY_BAD_LINE)
        explain_line(first, survey);
    else if (number == BEDRAFOLY_BAD_TABLE)
        explain_table(survey);
    else
        explain(number, first, 0, NULL);
}
