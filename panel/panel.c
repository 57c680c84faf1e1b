/* The panel program: checks, runs, packs and unpacks programs by the proved library, and makes arguments of surveys.
 *
 * Standard output has the answer and nothing else, so that other programs can read it. What it means stands on standard error. */
#define _XOPEN_SOURCE 700
#include <errno.h>
#include <fcntl.h>
#include <signal.h>
#include <stdarg.h>
#include <stdio.h>
#include <string.h>
#include <unistd.h>

#include "bedrafoly.h"
#include "panel.h"

/* What is read and what is written, each apart from the others, as the library asks. There is room for one byte more than it takes
 * of a file or of arguments, so that it sees what is too long and refuses it. */
static uint8_t input[BEDRAFOLY_LONGEST_FILE + 1];
static uint8_t arguments[BEDRAFOLY_LONGEST_ARGUMENTS + 1];
static uint8_t output[OUTPUT_ROOM];
static uint8_t answer[BEDRAFOLY_RUN_ANSWER];

/* Why standard output could not be written, or 0. */
static int unwritten;

static void say(const char *format, ...)
{
    va_list values;

    va_start(values, format);
    if (vprintf(format, values) < 0 && unwritten == 0)
        unwritten = errno;
    va_end(values);
}

static void flush(void)
{
    if (fflush(stdout) != 0 && unwritten == 0)
        unwritten = errno;
}

/* A word of the answer, which has its low byte first. */
static unsigned long word(int k)
{
    const uint8_t *at = answer + 4 * k;

    return at[0] | (unsigned long)at[1] << 8 | (unsigned long)at[2] << 16 | (unsigned long)at[3] << 24;
}

/* Says the number and places of a refusal or of a program that gave up. */
static void say_refused(uint32_t number)
{
    const char *how = number == BEDRAFOLY_GAVE_UP ? "gave up" : "refused";

    say("%s %lu %lu %lu\n", how, (unsigned long)number, word(1), word(2));
}

/* Ends a command by what its number means; only a run was lent something. */
static int end_refused(uint32_t number, const uint32_t *lent)
{
    flush(); /* the answer comes before its meaning */
    explain(number, (uint32_t)word(1), (uint32_t)word(2), lent);
    return REFUSED;
}

static int check(int count, char **words)
{
    size_t length;
    uint32_t number;

    (void)count;
    if (read_file(words[0], input, sizeof input, &length) != 0)
        return UNUSABLE;
    number = bedrafoly_check(input, length, answer, BEDRAFOLY_CHECK_ANSWER);
    if (number != BEDRAFOLY_DONE) {
        say_refused(number);
        return end_refused(number, NULL);
    }
    say("accepted %lu %lu %lu\n", word(1), word(2), word(3));
    return GOOD;
}

/* Says all bytes of a result or an argument, some numbers a line. */
static void say_bytes(const char *what, const uint8_t *bytes, unsigned long length)
{
    unsigned long k;

    say("%s", what);
    for (k = 0; k < length; k++) {
        if (k > 0 && k % 24 == 0)
            say("\n%*s", (int)strlen(what), "");
        say(" %u", (unsigned)bytes[k]);
    }
    say("\nlength %lu\n", length);
}

/* Reads a survey and has its list made. Gives 0 with the library's number, or UNUSABLE. */
static int make_list(const struct survey_words *words, struct survey *survey, uint32_t *number)
{
    if (read_survey(words, survey) != 0)
        return UNUSABLE;
    *number = bedrafoly_lines(survey->text.at, survey->text.length, survey->table.at, survey->table.length, (uint8_t)words->cons,
                              (uint8_t)words->nil, survey->list.at, survey->list.length, answer, BEDRAFOLY_LINES_ANSWER);
    return 0;
}

/* Ends a command by why its survey is refused. */
static int end_survey(uint32_t number, const struct survey *survey)
{
    flush(); /* the answer comes before its meaning */
    explain_survey(number, (uint32_t)word(1), survey);
    return REFUSED;
}

static int lines(int count, char **words)
{
    struct survey_words asked;
    struct survey survey;
    uint32_t number;
    int status;

    (void)count;
    if (read_lines_words(words, &asked) != 0)
        return UNUSABLE;
    status = make_list(&asked, &survey, &number);
    if (status == 0 && number == BEDRAFOLY_DONE) {
        say_bytes("argument", survey.list.at, word(3));
    } else if (status == 0) {
        say_refused(number);
        status = end_survey(number, &survey);
    }
    give_back_survey(&survey);
    return status;
}

/* Puts a survey's list behind the arguments. What finds no room is dropped: there is room for one byte more than a run takes. */
static void add_argument(const struct bytes *list, size_t *length)
{
    size_t room = sizeof arguments - *length;
    size_t added = list->length < room ? list->length : room;

    memcpy(arguments + *length, list->at, added);
    *length += added;
}

/* Adds the survey that a run names. Where it is refused nothing is run. */
static int add_survey(struct run_words *asked)
{
    struct survey survey;
    uint32_t number;
    int status = make_list(&asked->survey, &survey, &number);

    if (status == 0 && number == BEDRAFOLY_DONE) {
        add_argument(&survey.list, &asked->length);
    } else if (status == 0) {
        say_refused(number);
        say("steps 0\n");
        status = end_survey(number, &survey);
    }
    give_back_survey(&survey);
    return status;
}

static int run(int count, char **words)
{
    struct run_words asked;
    size_t length;
    uint32_t number;
    int status;

    if (read_run_words(count, words, &asked, arguments, sizeof arguments) != 0)
        return UNUSABLE;
    if (read_file(asked.file, input, sizeof input, &length) != 0)
        return UNUSABLE;
    status = asked.survey.text == NULL ? 0 : add_survey(&asked);
    if (status != 0)
        return status;
    number = bedrafoly_run_within(input, length, asked.entry, arguments, asked.length, asked.lent[BUDGET], asked.lent[CELLS],
                                  asked.lent[STACK], asked.lent[FRAMES], output, sizeof output, answer, BEDRAFOLY_RUN_ANSWER);
    if (number == BEDRAFOLY_DONE)
        say_bytes("result", output, word(4));
    else
        say_refused(number);
    say("steps %lu\n", word(3));
    return number == BEDRAFOLY_DONE ? GOOD : end_refused(number, asked.lent);
}

/* Ends pack or unpack: the output's front goes to a file. */
static int store(uint32_t number, const char *done, const char *path)
{
    if (number != BEDRAFOLY_DONE) {
        say_refused(number);
        return end_refused(number, NULL);
    }
    if (write_file(path, output, word(3)) != 0)
        return UNUSABLE;
    say("%s %lu\n", done, word(3));
    return GOOD;
}

static int pack(int count, char **words)
{
    size_t length;

    (void)count;
    if (read_file(words[0], input, sizeof input, &length) != 0)
        return UNUSABLE;
    return store(bedrafoly_pack(input, length, output, sizeof output, answer, BEDRAFOLY_PACK_ANSWER), "packed", words[1]);
}

static int unpack(int count, char **words)
{
    size_t length;

    (void)count;
    if (read_file(words[0], input, sizeof input, &length) != 0)
        return UNUSABLE;
    return store(bedrafoly_unpack(input, length, output, sizeof output, answer, BEDRAFOLY_UNPACK_ANSWER), "unpacked", words[1]);
}

static void help_lending(void)
{
    int k;

    say("These OPTIONS lend the run less than the most, to see how little a program needs or how\n"
        "it does in a smaller unit:\n");
    for (k = 0; k < LOANS; k++)
        say("  %-8s N  N of the %lu %s%s\n", loans[k].option, (unsigned long)loans[k].most, loans[k].name, loans[k].use);
    say("\n");
}

static void help_survey(void)
{
    int k;

    say("These go together. They put a survey behind ARGUMENTS as a list, as in 'panel run FILE 0\n"
        "--survey TEXT --codes CODES --cons 3 --nil 2'. lines takes the same, as words:\n");
    for (k = 0; k < PARTS; k++)
        say("  %-8s %-5s  %s\n", parts[k].option, parts[k].name, parts[k].use);
    say("An entry of CODES is three letters, spaces or tabs, and a constructor number, 0 to 255.\n"
        "Blank lines and lines that begin with # are passed over. Where letters stand twice the\n"
        "earlier entry counts.\n"
        "\n");
}

static int help(void)
{
    say("panel check FILE                              the verdict on a program\n"
        "panel run FILE ENTRY [ARGUMENTS..] [OPTIONS]  run its function number ENTRY\n"
        "panel lines TEXT CODES CONS NIL               a survey as an argument of a run\n"
        "panel pack PAYLOAD FILE                       store a payload in blocks\n"
        "panel unpack FILE PAYLOAD                     take the payload out of the blocks\n"
        "\n");
    say("ARGUMENTS are constructor numbers, 0 to 255, in prefix order: each value's constructor,\n"
        "then its arguments. Spaces or commas stand between them, as in 'panel run FILE 0 3 1 2';\n"
        "or they are one @FILE that holds them as bytes.\n"
        "\n");
    help_lending();
    help_survey();
    say("check says 'accepted' and how many types, constructors and functions there are. run\n"
        "says 'result' with its constructor numbers, its length and the steps taken, or 'gave\n"
        "up' where the program stopped by itself. lines says 'argument' with the list's numbers\n"
        "and its length. pack and unpack say how many bytes were written. All say 'refused', a\n"
        "number and two places where that is the answer, and on standard error what it means and\n"
        "who can mend it.\n"
        "\n");
    say("Exit status: 0 accepted, a result, an argument or written; 1 refused or gave up; 2 bad\n"
        "usage, no memory, or a file or standard output that cannot be read or written.\n");
    return GOOD;
}

static const struct command {
    const char *name;
    const char *takes; /* what stands behind it, where it is always as many words */
    int count;         /* how many, or -1 */
    int (*act)(int count, char **words);
} commands[] = {
    {"check", "FILE", 1, check},
    {"run", "", -1, run},
    {"lines", "TEXT, CODES, CONS and NIL", PARTS, lines},
    {"pack", "PAYLOAD and FILE", 2, pack},
    {"unpack", "FILE and PAYLOAD", 2, unpack},
};

static int act(int count, char **words)
{
    size_t k;

    for (k = 0; k < sizeof commands / sizeof commands[0]; k++) {
        const struct command *command = &commands[k];

        if (strcmp(words[0], command->name) != 0)
            continue;
        if (command->count < 0 || command->count == count - 1)
            return command->act(count - 1, words + 1);
        fprintf(stderr, "panel: %s takes %s, no less and no more; 'panel --help' says more\n", command->name, command->takes);
        return UNUSABLE;
    }
    fprintf(stderr, "panel: unknown command '%s'; 'panel --help' says more\n", words[0]);
    return UNUSABLE;
}

/* Gives a closed standard file a place that cannot be written. Else the next file to be opened would take it, and messages would go
 * into that file. */
static void keep_standard_files(void)
{
    int k;

    for (k = 0; k <= 2; k++) {
        if (fcntl(k, F_GETFD) == -1 && open("/dev/null", k == 0 ? O_WRONLY : O_RDONLY) != k)
            _exit(UNUSABLE);
    }
}

int main(int argc, char **argv)
{
    int k, status = -1;

    keep_standard_files();
    /* A write that cannot be done is to give a reason, not to end the program. */
    signal(SIGPIPE, SIG_IGN);
    signal(SIGXFSZ, SIG_IGN);
    for (k = 1; k < argc && status < 0; k++) {
        if (strcmp(argv[k], "--help") == 0)
            status = help();
    }
    if (argc < 2) {
        fputs("panel: a command is needed: check, run, lines, pack or unpack; 'panel --help' says more\n", stderr);
        status = UNUSABLE;
    }
    if (status < 0)
        status = act(argc - 1, argv + 1);
    flush();
    if (unwritten != 0) {
        fprintf(stderr, "panel: standard output: %s\n", strerror(unwritten));
        status = UNUSABLE;
    }
    return status;
}
