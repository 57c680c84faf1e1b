/* The words behind `run` and `lines`. */
#include <stdio.h>
#include <string.h>

#include "bedrafoly.h"
#include "panel.h"

#define SPACES " \t\r\n"
#define MOST_32 4294967295u

const struct loan loans[LOANS] = {
    {"--budget", MOST_32, "steps", " that a run may take"},
    {"--cells", BEDRAFOLY_CELLS, "cells", ": one for each value with arguments, given or built"},
    {"--stack", BEDRAFOLY_STACK, "stack places", ": the heights of all frames, added up"},
    {"--frames", BEDRAFOLY_FRAMES, "frames", ": one for ENTRY and one for each call under way"},
};

const struct part parts[PARTS] = {
    {"TEXT", "--survey", "the survey, one find a line: three capital letters, then byte 10"},
    {"CODES", "--codes", "what the letters stand for, one entry a line, as in 'ROO 1'"},
    {"CONS", "--cons", "the constructor of a list that has a first find, 0 to 255"},
    {"NIL", "--nil", "the constructor of the empty list, 0 to 255"},
};

int read_number(const char *text, size_t length, uint32_t most, uint32_t *number)
{
    uint64_t sum = 0;
    size_t k;

    for (k = 0; k < length; k++) {
        if (text[k] < '0' || text[k] > '9')
            return 0;
        sum = 10 * sum + (uint64_t)(text[k] - '0');
        if (sum > most)
            return 0;
    }
    *number = (uint32_t)sum;
    return length > 0;
}

static int no_number(const char *what, const char *text, size_t length, uint32_t most)
{
    fprintf(stderr, "panel: %s is a number from 0 to %lu, not '%.*s'\n", what, (unsigned long)most, (int)length, text);
    return UNUSABLE;
}

static int read_word(const char *what, const char *word, uint32_t most, uint32_t *number)
{
    size_t length = strlen(word);

    return read_number(word, length, most, number) ? 0 : no_number(what, word, length, most);
}

/* Argument bytes as they are read from words. */
struct reading {
    uint8_t *bytes;
    size_t room;
    size_t length;
    int words; /* how many words were read */
    int whole; /* whether a file gave them */
    int comma; /* whether a comma waits for its number */
};

/* Keeps a byte. One that finds no room is dropped: there is room for one byte more than a run takes, so it is refused anyway. */
static void keep(struct reading *reading, uint32_t number)
{
    if (reading->length < reading->room)
        reading->bytes[reading->length++] = (uint8_t)number;
}

/* A comma that stands alone is not passed over: a number that got lost would change what the arguments mean. */
static int lone_comma(void)
{
    fputs("panel: a comma in the arguments must have a number on each side\n", stderr);
    return UNUSABLE;
}

/* Reads the numbers of one word. */
static int read_numbers(struct reading *reading, const char *word)
{
    for (word += strspn(word, SPACES); *word != '\0'; word += strspn(word, SPACES)) {
        size_t length = strcspn(word, "," SPACES);
        uint32_t number;

        if (length == 0) {
            if (reading->comma || reading->length == 0)
                return lone_comma();
            reading->comma = 1;
            word++;
            continue;
        }
        if (!read_number(word, length, 255, &number))
            return no_number("an argument", word, length, 255);
        keep(reading, number);
        reading->comma = 0;
        word += length;
    }
    return 0;
}

static int read_arguments(struct reading *reading, const char *word)
{
    if (reading->whole || (word[0] == '@' && reading->words > 0)) {
        fputs("panel: arguments are numbers or one @FILE, not both\n", stderr);
        return UNUSABLE;
    }
    reading->words++;
    if (word[0] != '@')
        return read_numbers(reading, word);
    reading->whole = 1;
    return read_file(word + 1, reading->bytes, reading->room, &reading->length);
}

/* The options of a run: those that lend, then those of a survey. */
enum { OPTIONS = LOANS + PARTS };

/* Options as they are read: what is lent, and the word behind each that was given. */
struct options {
    uint32_t *lent;
    char *given[OPTIONS];
};

static const char *option_of(int k)
{
    return k < LOANS ? loans[k].option : parts[k - LOANS].option;
}

/* Whether the word behind an option can be what it needs. An option behind one that needs a file shows that the file is missing. */
static int can_be(const char *word, int file)
{
    return word != NULL && !(file && strncmp(word, "--", 2) == 0);
}

/* Reads an option and the word behind it, which is NULL where there is none. */
static int read_option(struct options *options, const char *option, char *word)
{
    int k = 0, file;

    while (k < OPTIONS && strcmp(option, option_of(k)) != 0)
        k++;
    file = k == LOANS + SURVEY || k == LOANS + CODES;
    if (k == OPTIONS)
        fprintf(stderr, "panel: unknown option '%s'; 'panel --help' says more\n", option);
    else if (options->given[k] != NULL)
        fprintf(stderr, "panel: %s is given twice\n", option);
    else if (!can_be(word, file))
        fprintf(stderr, "panel: %s needs a %s behind it\n", option, file ? "file" : "number");
    else {
        options->given[k] = word;
        return k < LOANS ? read_word(option, word, loans[k].most, &options->lent[k]) : 0;
    }
    return UNUSABLE;
}

/* Reads the parts of a survey, the numbers under these names. */
static int read_parts(char *const *words, const char *cons, const char *nil, struct survey_words *survey)
{
    int wrong = read_word(cons, words[CONS], 255, &survey->cons);

    survey->text = words[SURVEY];
    survey->codes = words[CODES];
    return wrong ? wrong : read_word(nil, words[NIL], 255, &survey->nil);
}

int read_lines_words(char *const *words, struct survey_words *survey)
{
    return read_parts(words, parts[CONS].name, parts[NIL].name, survey);
}

static int some_missing(char *const *given)
{
    int k;

    fputs("panel: the options of a survey go together; missing:", stderr);
    for (k = 0; k < PARTS; k++) {
        if (given[k] == NULL)
            fprintf(stderr, " %s", parts[k].option);
    }
    fputs("\n", stderr);
    return UNUSABLE;
}

/* Reads the options of a survey, which are all given or none. */
static int read_survey_options(char *const *given, struct survey_words *survey)
{
    int k, count = 0;

    for (k = 0; k < PARTS; k++)
        count += given[k] != NULL;
    survey->text = NULL;
    if (count == 0)
        return 0;
    return count < PARTS ? some_missing(given) : read_parts(given, parts[CONS].option, parts[NIL].option, survey);
}

int read_run_words(int count, char **words, struct run_words *run, uint8_t *bytes, size_t room)
{
    struct reading reading = {bytes, room, 0, 0, 0, 0};
    struct options options = {run->lent, {NULL}};
    int k, plain = 0, wrong = 0;

    for (k = 0; k < LOANS; k++)
        run->lent[k] = loans[k].most;
    for (k = 0; k < count && !wrong; k++) {
        if (strncmp(words[k], "--", 2) == 0) {
            wrong = read_option(&options, words[k], k + 1 < count ? words[k + 1] : NULL);
            k++;
        } else if (plain == 0) {
            run->file = words[k];
            plain++;
        } else if (plain == 1) {
            wrong = read_word("ENTRY", words[k], MOST_32, &run->entry);
            plain++;
        } else {
            wrong = read_arguments(&reading, words[k]);
        }
    }
    if (!wrong && plain < 2) {
        fputs("panel: run needs FILE and ENTRY; 'panel --help' says more\n", stderr);
        wrong = UNUSABLE;
    }
    if (!wrong && reading.comma)
        wrong = lone_comma();
    if (!wrong)
        wrong = read_survey_options(options.given + LOANS, &run->survey);
    run->length = reading.length;
    return wrong;
}
