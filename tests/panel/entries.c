/* Calls the C entries and compares every word of the answer and every byte lent: entries FOLDER.
 *
 * FOLDER has the files that files.py writes. Each call of the tables is done with answers of four lengths, and each run also in all
 * tables by other numbers. The deepest result is written on a small stack too. */
#define _XOPEN_SOURCE 700
#include <pthread.h>
#include <stdio.h>
#include <stdlib.h>
#include <string.h>

#include "bedrafoly.h"

#define SMALL_STACK (512 * 1024) /* bytes, in which the deepest result has to fit */
#define FILLED 0xa5 /* every byte of a lent output or answer before a call */
#define MOST 0xffffffffu

/* Bytes: a unit so many times, then a tail. */
struct text {
    const char *unit;
    size_t unit_length, times;
    const char *tail;
    size_t tail_length;
};
#define TEXT(unit, times, tail) {unit, sizeof unit - 1, times, tail, sizeof tail - 1}
#define NOTHING TEXT("", 0, "")

enum entry { CHECK, RUN, PACK, UNPACK, LINES };

static const size_t answer_length[] = {
    BEDRAFOLY_CHECK_ANSWER, BEDRAFOLY_RUN_ANSWER, BEDRAFOLY_PACK_ANSWER, BEDRAFOLY_UNPACK_ANSWER, BEDRAFOLY_LINES_ANSWER};

/* A call, the answer's words, and what the output's front holds then: a text, or the bytes of a file. */
struct call {
    const char *name;
    enum entry entry;
    const char *file;
    uint32_t function;
    struct text arguments;
    uint32_t budget;
    size_t room;
    uint32_t answer[5];
    struct text output;
    const char *output_file;
};

/* K1 to K14 are those of document 01; K12 and K13, which lend smaller tables, stand below. The numbers 15 to 17 are tried here at
 * the ends of the built-in tables. A list of n roots takes 7n + 3 steps in ROOTS, and n + 1 frames. */
#define CHECKED(name, file, ...) {name, CHECK, file, 0, NOTHING, 0, 0, {__VA_ARGS__, 0}, NOTHING, NULL}

/* Survey lines: the table is the file, the text stands where a run has arguments, cons and nil where it has function and budget. */
#define LISTED(name, text, table, cons, nil, room, output, ...) \
    {name, LINES, table, cons, text, nil, room, {__VA_ARGS__, 0}, output, NULL}
#define BAD_TABLE(name, table, cons, nil) \
    LISTED(name, TEXT("", 0, "ROO\n"), table, cons, nil, 16, NOTHING, BEDRAFOLY_BAD_TABLE, 0, 0, 0)
/* A wrong line as the first one, and behind two that are right. */
#define BAD_LINE(name, line) \
    LISTED(name, TEXT("", 0, line), "roots.table", 3, 2, 16, NOTHING, BEDRAFOLY_BAD_LINE, 1, 0, 0), \
    LISTED(name " behind two", TEXT("ROO\n", 2, line), "roots.table", 3, 2, 16, NOTHING, BEDRAFOLY_BAD_LINE, 3, 0, 0)
static const struct call calls[] = {
    CHECKED("K2", "roots", 0, 3, 6, 1),
    CHECKED("K3", "k3", BEDRAFOLY_UNBOUNDED_ARGUMENT, 0, 1, 0),
    CHECKED("K4", "k4", BEDRAFOLY_NOT_COVERED, 0, 8, 0),
    CHECKED("K5", "k5", BEDRAFOLY_BAD_FLOW, 0, 2, 0),
    {"K6", RUN, "roots", 0, TEXT("\3\1", 1, "\2"), 1000, 16, {0, 0, 0, 10, 2}, TEXT("", 0, "\5\4"), NULL},
    {"K7", RUN, "roots", 0, TEXT("", 0, "\2"), 1000, 16, {0, 0, 0, 3, 1}, TEXT("", 0, "\4"), NULL},
    {"K8", RUN, "roots", 0, TEXT("\3\0", 1, "\2"), 1000, 16, {0, 0, 0, 10, 1}, TEXT("", 0, "\4"), NULL},
    {"K9 with 9", RUN, "roots", 0, TEXT("\3\1", 1, "\2"), 9, 16, {BEDRAFOLY_BUDGET_SPENT, 0, 6, 9, 0}, NOTHING, NULL},
    {"K9 with 10", RUN, "roots", 0, TEXT("\3\1", 1, "\2"), 10, 16, {0, 0, 0, 10, 2}, TEXT("", 0, "\5\4"), NULL},
    {"K10", RUN, "roots", 0, TEXT("\3\1", 1, ""), 1000, 16, {BEDRAFOLY_BAD_ARGUMENT, 2, 0, 0, 0}, NOTHING, NULL},
    {"K11", RUN, "roots", 0, TEXT("", 0, "\4"), 1000, 16, {BEDRAFOLY_BAD_ARGUMENT, 0, 0, 0, 0}, NOTHING, NULL},
    {"K14", RUN, "stop", 0, NOTHING, 1, 16, {BEDRAFOLY_GAVE_UP, 0, 0, 1, 0}, NOTHING, NULL},
    {"K14, no room", RUN, "stop", 0, NOTHING, 1, 0, {BEDRAFOLY_GAVE_UP, 0, 0, 1, 0}, NOTHING, NULL},

    CHECKED("no bytes", "empty", BEDRAFOLY_BAD_LENGTH, 0, 0, 0),
    CHECKED("511 bytes", "short", BEDRAFOLY_BAD_LENGTH, 0, 0, 0),
    CHECKED("32,769 bytes", "over", BEDRAFOLY_BAD_LENGTH, 0, 0, 0),
    CHECKED("a wrong checksum in the last block", "spoilt", BEDRAFOLY_BAD_CHECKSUM, 63, 0, 0),
    CHECKED("a block of zeros", "blank", BEDRAFOLY_BAD_BLOCK, 0, 0, 0),
    CHECKED("edition 2", "edition", BEDRAFOLY_BAD_RECORD, 0, 0, 0),
    CHECKED("a weight of 0", "weight", BEDRAFOLY_BAD_DECLARATION, 0, 3, 0),
    CHECKED("an unknown type", "signature", BEDRAFOLY_BAD_DECLARATION, 1, 0, 0),
    CHECKED("an unknown slot", "slot", BEDRAFOLY_BAD_TYPES, 0, 1, 0),
    CHECKED("16 alternatives", "nested4", 0, 1, 2, 1),
    CHECKED("32 alternatives", "nested5", BEDRAFOLY_TOO_MANY_FORMS, 0, 6, 0),

    {"run a damaged file", RUN, "spoilt", 0, NOTHING, 9, 9, {BEDRAFOLY_BAD_CHECKSUM, 63, 0, 0, 0}, NOTHING, NULL},
    {"run no file", RUN, "empty", 0, NOTHING, 9, 9, {BEDRAFOLY_BAD_LENGTH, 0, 0, 0, 0}, NOTHING, NULL},
    {"run K4", RUN, "k4", 0, TEXT("", 0, "\2"), 9, 9, {BEDRAFOLY_NOT_COVERED, 0, 8, 0, 0}, NOTHING, NULL},
    {"function 1 of 1", RUN, "roots", 1, NOTHING, 9, 9, {BEDRAFOLY_NO_ENTRY, 1, 0, 0, 0}, NOTHING, NULL},
    {"the last entry number", RUN, "roots", MOST, NOTHING, 9, 9, {BEDRAFOLY_NO_ENTRY, MOST, 0, 0, 0}, NOTHING, NULL},
    {"an argument too many", RUN, "stop", 0, TEXT("", 0, "\0"), 9, 9, {BEDRAFOLY_BAD_ARGUMENT, 0, 0, 0, 0}, NOTHING, NULL},
    {"65,536 arguments", RUN, "tables", 0, TEXT("\0", 65536, ""), 9, 9, {BEDRAFOLY_BAD_ARGUMENT, 65535, 0, 0, 0}, NOTHING, NULL},
    {"room for 1 of 2", RUN, "roots", 0, TEXT("\3\1", 1, "\2"), MOST, 1, {BEDRAFOLY_OUTPUT_TOO_SHORT, 2, 0, 10, 0}, NOTHING, NULL},
    {"room for none", RUN, "roots", 0, TEXT("", 0, "\2"), MOST, 0, {BEDRAFOLY_OUTPUT_TOO_SHORT, 1, 0, 3, 0}, NOTHING, NULL},
    {"room for just 2", RUN, "roots", 0, TEXT("\3\1", 1, "\2"), MOST, 2, {0, 0, 0, 10, 2}, TEXT("", 0, "\5\4"), NULL},
    {"budget 0", RUN, "roots", 0, TEXT("", 0, "\2"), 0, 9, {BEDRAFOLY_BUDGET_SPENT, 0, 1, 0, 0}, NOTHING, NULL},

    {"256 frames", RUN, "roots", 0, TEXT("\3\1", 255, "\2"), MOST, 256, {0, 0, 0, 1788, 256}, TEXT("\5", 255, "\4"), NULL},
    {"257 frames", RUN, "roots", 0, TEXT("\3\1", 256, "\2"), MOST, 256, {BEDRAFOLY_OUT_OF_FRAMES, 0, 5, 1279, 0}, NOTHING, NULL},
    {"2,049 stack places", RUN, "tables", 1, TEXT("", 0, "\0"), MOST, 9, {BEDRAFOLY_OUT_OF_STACK, 1, 16, 2047, 0}, NOTHING, NULL},
    {"4,096 cells", RUN, "tables", 0, TEXT("\1", 4095, "\0"), MOST, 4097, {0, 0, 0, 2, 4097}, TEXT("\1", 4096, "\0"), NULL},
    {"4,097 cells", RUN, "tables", 0, TEXT("\1", 4096, "\0"), MOST, 4098, {BEDRAFOLY_OUT_OF_CELLS, 0, 2, 1, 0}, NOTHING, NULL},
    {"4,097 in arguments", RUN, "tables", 0, TEXT("\1", 4097, "\0"), MOST, 9, {BEDRAFOLY_OUT_OF_CELLS, 0, 1, 0, 0}, NOTHING, NULL},
    {"4,096 levels", RUN, "deep", 0, NOTHING, MOST, 8193, {0, 0, 0, 8578, 8193}, NOTHING, "deep.result"},

    {"K1", PACK, "seven.payload", 0, NOTHING, 0, 512, {0, 0, 0, 512, 0}, TEXT("\0\0\1\0\7", 1, ""), NULL},
    {"pack ROOTS", PACK, "roots.payload", 0, NOTHING, 0, 600, {0, 0, 0, 512, 0}, NOTHING, "roots"},
    {"pack the longest", PACK, "all.payload", 0, NOTHING, 0, 32768, {0, 0, 0, 32768, 0}, NOTHING, "all"},
    {"pack too short", PACK, "seven.payload", 0, NOTHING, 0, 511, {BEDRAFOLY_OUTPUT_TOO_SHORT, 512, 0, 0, 0}, NOTHING, NULL},
    {"pack nothing", PACK, "empty", 0, NOTHING, 0, 512, {BEDRAFOLY_BAD_PAYLOAD, 0, 0, 0, 0}, NOTHING, NULL},
    {"pack too much", PACK, "more.payload", 0, NOTHING, 0, 40000, {BEDRAFOLY_BAD_PAYLOAD, 0, 0, 0, 0}, NOTHING, NULL},
    {"unpack ROOTS", UNPACK, "roots", 0, NOTHING, 0, 116, {0, 0, 0, 116, 0}, NOTHING, "roots.payload"},
    {"unpack the longest", UNPACK, "all", 0, NOTHING, 0, 40000, {0, 0, 0, 32256, 0}, NOTHING, "all.payload"},
    {"unpack too short", UNPACK, "roots", 0, NOTHING, 0, 115, {BEDRAFOLY_OUTPUT_TOO_SHORT, 116, 0, 0, 0}, NOTHING, NULL},
    {"unpack a damaged file", UNPACK, "spoilt", 0, NOTHING, 0, 40000, {BEDRAFOLY_BAD_CHECKSUM, 63, 0, 0, 0}, NOTHING, NULL},

    LISTED("two lines", TEXT("", 0, "ROO\nCRA\n"), "roots.table", 3, 2, 16, TEXT("", 0, "\3\1\3\0\2"), 0, 0, 0, 5),
    LISTED("no line", NOTHING, "roots.table", 3, 2, 16, TEXT("", 0, "\2"), 0, 0, 0, 1),
    LISTED("no line, no table", NOTHING, "empty", 3, 2, 16, TEXT("", 0, "\2"), 0, 0, 0, 1),
    LISTED("letters twice", TEXT("", 0, "ROO\nCRA\n"), "twice.table", 3, 2, 16, TEXT("", 0, "\3\1\3\0\2"), 0, 0, 0, 5),
    LISTED("the greatest numbers", TEXT("", 0, "ZZZ\nAAA\n"), "ends.table", 255, 0, 9, TEXT("", 0, "\377\377\377\0\0"), 0, 0, 0, 5),
    LISTED("the least numbers", TEXT("", 0, "AAA\nZZZ\n"), "ends.table", 0, 255, 9, TEXT("", 0, "\0\0\0\377\377"), 0, 0, 0, 5),
    LISTED("codes like cons and nil", TEXT("", 0, "ROO\nCRA\n"), "roots.table", 1, 0, 9, TEXT("", 0, "\1\1\1\0\0"), 0, 0, 0, 5),
    LISTED("40,000 lines", TEXT("ROO\n", 40000, ""), "roots.table", 3, 2, 80100, TEXT("\3\1", 40000, "\2"), 0, 0, 0, 80001),

    LISTED("room for just a list", TEXT("", 0, "ROO\nCRA\n"), "roots.table", 3, 2, 5, TEXT("", 0, "\3\1\3\0\2"), 0, 0, 0, 5),
    LISTED("room for 4 of 5", TEXT("", 0, "ROO\nCRA\n"), "roots.table", 3, 2, 4, NOTHING, BEDRAFOLY_OUTPUT_TOO_SHORT, 5, 0, 0),
    LISTED("no room for a list", TEXT("", 0, "ROO\nCRA\n"), "roots.table", 3, 2, 0, NOTHING, BEDRAFOLY_OUTPUT_TOO_SHORT, 5, 0, 0),
    LISTED("room for just nil", NOTHING, "roots.table", 3, 2, 1, TEXT("", 0, "\2"), 0, 0, 0, 1),
    LISTED("no room for nil", NOTHING, "empty", 3, 2, 0, NOTHING, BEDRAFOLY_OUTPUT_TOO_SHORT, 1, 0, 0),
    LISTED("room for 80,000 of 80,001", TEXT("ROO\n", 40000, ""), "roots.table", 3, 2, 80000, NOTHING, BEDRAFOLY_OUTPUT_TOO_SHORT,
           80001, 0, 0),

    BAD_TABLE("a table of 7 bytes", "cut7.table", 3, 2),
    BAD_TABLE("a table of 6 bytes", "cut6.table", 3, 2),
    BAD_TABLE("a table of 5 bytes", "cut5.table", 3, 2),
    BAD_TABLE("a table of 3 bytes", "cut3.table", 3, 2),
    BAD_TABLE("a first letter before A", "first.table", 3, 2),
    BAD_TABLE("a second letter behind Z", "second.table", 3, 2),
    BAD_TABLE("a third letter that is small", "third.table", 3, 2),
    BAD_TABLE("wrong letters in the last entry", "last.table", 3, 2),
    BAD_TABLE("cons is nil", "roots.table", 3, 3),
    BAD_TABLE("both are 0", "roots.table", 0, 0),
    BAD_TABLE("both are 255", "roots.table", 255, 255),
    LISTED("cons is nil of nothing", NOTHING, "empty", 2, 2, 16, NOTHING, BEDRAFOLY_BAD_TABLE, 0, 0, 0),
    LISTED("wrong letters that no line needs", NOTHING, "last.table", 3, 2, 16, NOTHING, BEDRAFOLY_BAD_TABLE, 0, 0, 0),

    BAD_LINE("no byte 10", "ROO"),
    BAD_LINE("no byte 10 and two letters", "RO"),
    BAD_LINE("an empty line", "\n"),
    BAD_LINE("an empty line before another", "\nROO\n"),
    BAD_LINE("two letters", "RO\n"),
    BAD_LINE("two letters before another line", "RO\nROO\n"),
    BAD_LINE("four letters", "ROOT\n"),
    BAD_LINE("two lines without an end", "ROOCRA\n"),
    BAD_LINE("a line's first letter before A", "@OO\n"),
    BAD_LINE("a line's second letter behind Z", "R[O\n"),
    BAD_LINE("a line's third letter that is small", "ROo\n"),
    BAD_LINE("a carriage return", "ROO\r\n"),
    BAD_LINE("a carriage return alone", "ROO\r"),
    BAD_LINE("a byte over 127", "RO\303\n"),
    BAD_LINE("letters that no entry has", "OOR\n"),
    BAD_LINE("letters that no entry has, and a worse line", "OOR\nR\n"),
    LISTED("no table for a line", TEXT("", 0, "ROO\n"), "empty", 3, 2, 16, NOTHING, BEDRAFOLY_BAD_LINE, 1, 0, 0),
    LISTED("line 40,001", TEXT("ROO\n", 40000, "ROT\n"), "roots.table", 3, 2, 80100, NOTHING, BEDRAFOLY_BAD_LINE, 40001, 0, 0),

    /* 19 comes before 20, and that before 13. */
    LISTED("a wrong table and line", TEXT("", 0, "ROT\n"), "last.table", 3, 2, 0, NOTHING, BEDRAFOLY_BAD_TABLE, 0, 0, 0),
    LISTED("cons is nil, and a wrong line", TEXT("", 0, "ROT\n"), "roots.table", 3, 3, 0, NOTHING, BEDRAFOLY_BAD_TABLE, 0, 0, 0),
    LISTED("a wrong line and no room", TEXT("", 0, "ROO\nROT\n"), "roots.table", 3, 2, 0, NOTHING, BEDRAFOLY_BAD_LINE, 2, 0, 0),
};
#define CALLS (sizeof calls / sizeof calls[0])

/* What is lent of the built-in tables. */
struct tables {
    uint32_t cells, stack, frames;
};
#define CELLS BEDRAFOLY_CELLS
#define STACK BEDRAFOLY_STACK
#define FRAMES BEDRAFOLY_FRAMES

/* All of them, said in three ways. */
static const struct tables all[] = {{CELLS, STACK, FRAMES}, {CELLS + 1, STACK + 1, FRAMES + 1}, {MOST, MOST, MOST}};
#define ALL (sizeof all / sizeof all[0])

/* Runs of the calls above in other tables. Where the answer is a result, the output is as there. */
static const struct other_run {
    const char *name;
    const char *of;
    struct tables tables;
    uint32_t answer[5];
} other_runs[] = {
    {"K12 with 5", "K6", {CELLS, 5, FRAMES}, {BEDRAFOLY_OUT_OF_STACK, 0, 11, 7, 0}},
    {"K12 with 6", "K6", {CELLS, 6, FRAMES}, {0, 0, 0, 10, 2}},
    {"K13 with 1", "K6", {1, STACK, FRAMES}, {BEDRAFOLY_OUT_OF_CELLS, 0, 6, 9, 0}},
    {"K13 with 2", "K6", {2, STACK, FRAMES}, {0, 0, 0, 10, 2}},
    {"K6 in one frame", "K6", {CELLS, STACK, 1}, {BEDRAFOLY_OUT_OF_FRAMES, 0, 5, 4, 0}},
    {"K6 in the least", "K6", {2, 6, 2}, {0, 0, 0, 10, 2}},
    {"K7 in no cell", "K7", {0, STACK, FRAMES}, {0, 0, 0, 3, 1}},
    {"K7 in the least", "K7", {0, 3, 1}, {0, 0, 0, 3, 1}},
    {"K8 in 1 cell", "K8", {1, STACK, FRAMES}, {0, 0, 0, 10, 1}},
    {"K9 with 9, in 1 cell", "K9 with 9", {1, STACK, FRAMES}, {BEDRAFOLY_BUDGET_SPENT, 0, 6, 9, 0}},
    {"room for 1 of 2, in the least", "room for 1 of 2", {2, 6, 2}, {BEDRAFOLY_OUTPUT_TOO_SHORT, 2, 0, 10, 0}},

    /* For loading 17 comes before 16 and that before 15; what is wrong with the call comes before all of them. */
    {"no cell", "K6", {0, STACK, FRAMES}, {BEDRAFOLY_OUT_OF_CELLS, 0, 1, 0, 0}},
    {"no stack place", "K6", {CELLS, 0, FRAMES}, {BEDRAFOLY_OUT_OF_STACK, 0, 1, 0, 0}},
    {"no frame", "K6", {CELLS, STACK, 0}, {BEDRAFOLY_OUT_OF_FRAMES, 0, 1, 0, 0}},
    {"no cell and no stack place", "K6", {0, 0, FRAMES}, {BEDRAFOLY_OUT_OF_STACK, 0, 1, 0, 0}},
    {"nothing", "K6", {0, 0, 0}, {BEDRAFOLY_OUT_OF_FRAMES, 0, 1, 0, 0}},
    {"K11 in nothing", "K11", {0, 0, 0}, {BEDRAFOLY_BAD_ARGUMENT, 0, 0, 0, 0}},
    {"K14 in one frame alone", "K14", {0, 0, 1}, {BEDRAFOLY_GAVE_UP, 0, 0, 1, 0}},
    {"K14 in nothing", "K14", {0, 0, 0}, {BEDRAFOLY_OUT_OF_FRAMES, 0, 1, 0, 0}},

    {"256 frames, 255 lent", "256 frames", {CELLS, STACK, 255}, {BEDRAFOLY_OUT_OF_FRAMES, 0, 5, 1274, 0}},
    {"4,096 cells, 4,095 lent", "4,096 cells", {4095, STACK, FRAMES}, {BEDRAFOLY_OUT_OF_CELLS, 0, 2, 1, 0}},
    {"2,049 stack places, 2,047 lent", "2,049 stack places", {CELLS, 2047, FRAMES}, {BEDRAFOLY_OUT_OF_STACK, 1, 15, 2046, 0}},

    /* Numbers that would be small if their upper bits got lost: 1 cell, 5 places, 1 frame, and 5 times 858,993,460 is 2^32 + 4. */
    {"65,537 cells", "K6", {65537, STACK, FRAMES}, {0, 0, 0, 10, 2}},
    {"858,993,460 cells", "K6", {858993460, STACK, FRAMES}, {0, 0, 0, 10, 2}},
    {"65,541 stack places", "K6", {CELLS, 65541, FRAMES}, {0, 0, 0, 10, 2}},
    {"65,537 frames", "K6", {CELLS, STACK, 65537}, {0, 0, 0, 10, 2}},
};
#define OTHER_RUNS (sizeof other_runs / sizeof other_runs[0])

static const char *folder;

/* Bytes in a piece of memory of just that length, so that valgrind sees any byte behind it being used. */
struct bytes {
    uint8_t *at;
    size_t length;
};

static struct bytes lend(size_t length)
{
    struct bytes bytes;

    bytes.at = malloc(length > 0 ? length : 1);
    bytes.length = length;
    if (bytes.at == NULL) {
        fputs("no memory\n", stderr);
        exit(1);
    }
    memset(bytes.at, FILLED, length);
    return bytes;
}

static struct bytes written(const struct text *text)
{
    struct bytes bytes = lend(text->times * text->unit_length + text->tail_length);
    size_t k;

    for (k = 0; k < text->times; k++)
        memcpy(bytes.at + k * text->unit_length, text->unit, text->unit_length);
    memcpy(bytes.at + text->times * text->unit_length, text->tail, text->tail_length);
    return bytes;
}

static struct bytes stored(const char *name)
{
    static uint8_t room[100000];
    char path[1000];
    struct bytes bytes;
    size_t length;
    FILE *in;

    snprintf(path, sizeof path, "%s/%s", folder, name);
    in = fopen(path, "rb");
    if (in == NULL) {
        perror(path);
        exit(1);
    }
    length = fread(room, 1, sizeof room, in);
    fclose(in);
    bytes = lend(length);
    memcpy(bytes.at, room, length);
    return bytes;
}

/* What is lent to a call. */
struct lent {
    struct bytes file, arguments, out, answer;
};

static struct lent lend_all(const struct call *call, size_t answer)
{
    struct lent lent;

    lent.file = stored(call->file);
    lent.arguments = written(&call->arguments);
    lent.out = lend(call->room);
    lent.answer = lend(answer);
    return lent;
}

static void give_back(struct lent *lent)
{
    free(lent->file.at);
    free(lent->arguments.at);
    free(lent->out.at);
    free(lent->answer.at);
}

/* Does a call: a run in the tables, or where there are none by the entry that has all of them. */
static uint32_t perform(const struct call *call, const struct tables *tables, struct lent *lent)
{
    struct bytes file = lent->file, arguments = lent->arguments, out = lent->out, answer = lent->answer;

    switch (call->entry) {
    case CHECK: return bedrafoly_check(file.at, file.length, answer.at, answer.length);
    case RUN:
        if (tables != NULL)
            return bedrafoly_run_within(file.at, file.length, call->function, arguments.at, arguments.length, call->budget,
                                        tables->cells, tables->stack, tables->frames, out.at, out.length, answer.at,
                                        answer.length);
        return bedrafoly_run(file.at, file.length, call->function, arguments.at, arguments.length, call->budget, out.at, out.length,
                             answer.at, answer.length);
    case PACK: return bedrafoly_pack(file.at, file.length, out.at, out.length, answer.at, answer.length);
    case UNPACK: return bedrafoly_unpack(file.at, file.length, out.at, out.length, answer.at, answer.length);
    case LINES:
        return bedrafoly_lines(arguments.at, arguments.length, file.at, file.length, (uint8_t)call->function, (uint8_t)call->budget,
                               out.at, out.length, answer.at, answer.length);
    }
    return MOST;
}

static int failures;

static void expect(const struct call *call, size_t answer, const char *what, unsigned long expected, unsigned long got)
{
    if (expected != got) {
        printf("FAILED: %s, answer of %lu bytes: %s: ", call->name, (unsigned long)answer, what);
        printf("expected %lu, got %lu\n", expected, got);
        failures++;
    }
}

static int still_filled(struct bytes bytes, size_t from)
{
    for (; from < bytes.length; from++) {
        if (bytes.at[from] != FILLED)
            return 0;
    }
    return 1;
}

static void expect_answer(const struct call *call, struct bytes answer)
{
    size_t words = answer_length[call->entry] / 4, k;

    if (answer.length < 4 * words)
        words = 0;
    for (k = 0; k < words; k++) {
        const uint8_t *at = answer.at + 4 * k;
        uint32_t got = at[0] | (uint32_t)at[1] << 8 | (uint32_t)at[2] << 16 | (uint32_t)at[3] << 24;
        char what[40];

        snprintf(what, sizeof what, "word %lu of the answer", (unsigned long)k);
        expect(call, answer.length, what, call->answer[k], got);
    }
    expect(call, answer.length, "the rest of the answer is as it was", 1, (unsigned long)still_filled(answer, 4 * words));
}

/* The block that packs the byte 7 is given by its front; the rest is zeros and the checksum 38. */
static void expect_k1(const struct call *call, struct bytes out)
{
    size_t k;

    for (k = 5; k < 512; k++)
        expect(call, 16, "a byte behind the payload", k == 508 ? 38 : 0, out.at[k]);
}

static void expect_output(const struct call *call, size_t answer, struct bytes out)
{
    struct bytes front = call->output_file != NULL ? stored(call->output_file) : written(&call->output);
    size_t length = front.length;
    int same = length <= out.length && memcmp(front.at, out.at, length) == 0;

    expect(call, answer, "the output is right", 1, (unsigned long)same);
    if (strcmp(call->name, "K1") == 0) {
        expect_k1(call, out);
        length = 512;
    }
    expect(call, answer, "the rest of the output is as it was", 1, (unsigned long)still_filled(out, length));
    free(front.at);
}

/* One call with an answer of the given length. */
static void try_call(const struct call *call, const struct tables *tables, size_t answer)
{
    struct lent lent = lend_all(call, answer), before = lend_all(call, answer);

    expect(call, answer, "returned", call->answer[0], perform(call, tables, &lent));
    expect_answer(call, lent.answer);
    expect_output(call, answer, lent.out);
    expect(call, answer, "the file differs", 0, memcmp(lent.file.at, before.file.at, lent.file.length) != 0);
    expect(call, answer, "the arguments differ", 0, memcmp(lent.arguments.at, before.arguments.at, lent.arguments.length) != 0);
    give_back(&lent);
    give_back(&before);
}

static void try_answers(const struct call *call, const struct tables *tables)
{
    size_t full = answer_length[call->entry];

    try_call(call, tables, full);
    try_call(call, tables, full - 1);
    try_call(call, tables, 0);
    try_call(call, tables, full + 3);
}

static const struct call *named(const char *name)
{
    size_t k;

    for (k = 0; k < CALLS; k++) {
        if (strcmp(calls[k].name, name) == 0)
            return &calls[k];
    }
    fprintf(stderr, "no call %s\n", name);
    exit(1);
}

static void try_other_run(const struct other_run *run)
{
    static const struct text nothing = NOTHING;
    struct call call = *named(run->of);

    call.name = run->name;
    memcpy(call.answer, run->answer, sizeof call.answer);
    if (call.answer[0] != BEDRAFOLY_DONE)
        call.output = nothing;
    try_answers(&call, &run->tables);
}

static void *try_deepest(void *unused)
{
    try_answers(named("4,096 levels"), NULL);
    return unused;
}

/* The deepest result on a small stack: where that does not suffice, the test ends by a signal. */
static void try_small_stack(void)
{
    pthread_attr_t attributes;
    pthread_t thread;

    if (pthread_attr_init(&attributes) != 0 || pthread_attr_setstacksize(&attributes, SMALL_STACK) != 0 ||
        pthread_create(&thread, &attributes, try_deepest, NULL) != 0 || pthread_join(thread, NULL) != 0) {
        fputs("no thread\n", stderr);
        exit(1);
    }
    pthread_attr_destroy(&attributes);
}

int main(int argc, char **argv)
{
    size_t k, n;

    if (argc != 2) {
        fputs("entries FOLDER\n", stderr);
        return 2;
    }
    folder = argv[1];
    for (k = 0; k < CALLS; k++) {
        try_answers(&calls[k], NULL);
        for (n = 0; n < ALL && calls[k].entry == RUN; n++)
            try_call(&calls[k], &all[n], BEDRAFOLY_RUN_ANSWER);
    }
    for (k = 0; k < OTHER_RUNS; k++)
        try_other_run(&other_runs[k]);
    try_small_stack();
    if (failures > 0)
        return 1;
    printf("%lu calls and %lu runs in other tables as expected, ", (unsigned long)CALLS, (unsigned long)OTHER_RUNS);
    printf("each with answers of 4 lengths; the deepest result on a stack of %d KiB\n", SMALL_STACK / 1024);
    return 0;
}
