/* The proved verifier and interpreter as a library for C99 and C++ on x86-64.
 *
 * A program ("sheet") is a file of 1 to 64 blocks of 512 bytes; the bytes stored in its blocks are its payload. An entry function
 * of an accepted program takes argument bytes and gives a result ("figure"), or it gives up: the program aborts by its own stop. A
 * survey is a text that a logger writes, one find a line; an entry turns it into argument bytes.
 *
 * What the caller must see to, since no entry can find it out:
 * - No pointer is NULL, also where the length is 0: then any valid address will do.
 * - Each pointer has as many bytes behind it as the length says; those of `out` and `answer` can be written.
 * - No two regions lent to one call overlap.
 *
 * Everything else is taken as it comes: any bytes, any lengths, any numbers. The entries keep nothing between calls and write
 * nothing but `out` and `answer`. How long they take and how much native stack they need is not promised. */
#ifndef BEDRAFOLY_H
#define BEDRAFOLY_H

#include <stddef.h>
#include <stdint.h>

#ifdef __cplusplus
extern "C" {
#endif

/* What every entry returns. Two place numbers belong to each; in brackets is what they are. A place that has no meaning is 0.
 * Functions, constructors, blocks and bytes are counted from 0; instructions, a function's arguments and a text's lines from 1. */
enum bedrafoly_number {
    /* Accepted, a result, or written. */
    BEDRAFOLY_DONE = 0,

    /* The card: the stored bytes got damaged, or they never were a program. A good copy, stored anew, mends it. */

    /* The length is 0, no multiple of 512, or over 32,768. [0, 0] */
    BEDRAFOLY_BAD_LENGTH = 1,
    /* A block's checksum is wrong. [block, 0] */
    BEDRAFOLY_BAD_CHECKSUM = 2,
    /* A block's number or used count is wrong, or its unused bytes are not zero. [block, 0] */
    BEDRAFOLY_BAD_BLOCK = 3,

    /* The program's author: no copy is better, and only the author can mend it. */

    /* A record is cut short or has a field out of its range, or bytes are left over.
     * [offset in the payload of the record or of the first extra byte, 0] */
    BEDRAFOLY_BAD_RECORD = 4,
    /* A type that is not declared, or a constructor's weight that is wrong: 0 goes with no arguments, 1 to 255 with some.
     * [0, constructor] or [1, function] */
    BEDRAFOLY_BAD_DECLARATION = 5,
    /* An argument has coefficient 0 in every alternative of its function's size bound. [function, argument] */
    BEDRAFOLY_UNBOUNDED_ARGUMENT = 6,
    /* A branch target out of range, a number of arrivals other than one, an end that is run into, or a branch behind a build or
     * call. [function, instruction] */
    BEDRAFOLY_BAD_FLOW = 7,
    /* Wrong types, a stack higher than 16, or a slot, constructor or function that is not there. [function, instruction] */
    BEDRAFOLY_BAD_TYPES = 8,
    /* More than 16 variables on a path, or more than 16 alternatives in a size form. [function, instruction] */
    BEDRAFOLY_TOO_MANY_FORMS = 9,
    /* A value on the stack may be larger than the function's size bound. [function, instruction] */
    BEDRAFOLY_NOT_COVERED = 10,

    /* The operator: another call of the same program mends it. */

    /* The program has no such entry function. [entry, 0] */
    BEDRAFOLY_NO_ENTRY = 11,
    /* More than 65,535 argument bytes: [65,535, 0]. Else the first byte that is an unknown constructor, of a wrong type, missing,
     * left over, or leaves more than 256 values still to be read: [its offset, 0]. */
    BEDRAFOLY_BAD_ARGUMENT = 12,
    /* The output is shorter than needed; it was left as it was. [bytes needed, 0] */
    BEDRAFOLY_OUTPUT_TOO_SHORT = 13,

    /* The tables and the budget lent to the run. [function, instruction] that was to be next; before the first step [entry, 1].
     * The operator can raise the budget, and tables that were lent smaller than they are built in; beyond that a smaller job or a
     * thriftier program is needed. */

    /* The budget's steps are taken. */
    BEDRAFOLY_BUDGET_SPENT = 14,
    /* The cells do not suffice: each argument byte and each build whose constructor has arguments takes one, and none is used
     * again. */
    BEDRAFOLY_OUT_OF_CELLS = 15,
    /* The stack does not suffice for all frames together. */
    BEDRAFOLY_OUT_OF_STACK = 16,
    /* The frames do not suffice: each call that waits takes one, and the running function another. */
    BEDRAFOLY_OUT_OF_FRAMES = 17,

    /* The operator again: the payload to pack is empty or over 32,256 bytes. [0, 0] */
    BEDRAFOLY_BAD_PAYLOAD = 18,

    /* The operator again: the length of a survey's table is no multiple of 4, one of its letters is no capital, or the numbers of
     * cons and nil are the same. [0, 0] */
    BEDRAFOLY_BAD_TABLE = 19,

    /* The logger's text, or the operator's table where it lacks an entry: the first line that is not three capital letters and byte
     * 10, or whose letters are not in the table. [line, 0] */
    BEDRAFOLY_BAD_LINE = 20,

    /* The program gave up: it aborted by its own stop, which is its author's answer to such arguments. [0, 0] */
    BEDRAFOLY_GAVE_UP = 100
};

/* How many bytes each entry writes to `answer`. They are words of 32 bits, low byte first. Bytes of `answer` behind them keep what
 * they hold. Where `answer` is shorter it is left as it was, and all else is as with a longer one. */
#define BEDRAFOLY_CHECK_ANSWER 16  /* number; then types, constructors, functions, or the two places and 0 */
#define BEDRAFOLY_RUN_ANSWER 20    /* number, two places, steps taken, length of the result (0 for none) */
#define BEDRAFOLY_PACK_ANSWER 16   /* number, two places, length written (0 for none) */
#define BEDRAFOLY_UNPACK_ANSWER 16 /* as for pack */
#define BEDRAFOLY_LINES_ANSWER 16  /* as for pack */

/* The tables of a run, which are built in. bedrafoly_run uses all of them; bedrafoly_run_within uses less where it is told so. */
#define BEDRAFOLY_CELLS 4096
#define BEDRAFOLY_STACK 2048
#define BEDRAFOLY_FRAMES 256

/* The most bytes of a file, of the payload stored in one, and of a run's arguments. What is longer is refused. */
#define BEDRAFOLY_LONGEST_FILE 32768
#define BEDRAFOLY_LONGEST_PAYLOAD 32256
#define BEDRAFOLY_LONGEST_ARGUMENTS 65535

/* The verdict on a file: 0, or 1 to 10. */
uint32_t bedrafoly_check(const uint8_t *file, size_t file_length, uint8_t *answer, size_t answer_length);

/* Checks a file and runs its function `entry` for at most `budget` steps. Arguments and result are constructor numbers in prefix
 * order, one byte each: a value's constructor, then its arguments, the first one first. Gives 0 with the result at the front of
 * `out`; else 100, or 1 to 17, with `out` left as it was. What is behind the result in `out` is left as it was too. */
uint32_t bedrafoly_run(const uint8_t *file, size_t file_length, uint32_t entry, const uint8_t *arguments, size_t arguments_length,
                       uint32_t budget, uint8_t *out, size_t out_length, uint8_t *answer, size_t answer_length);

/* Runs as bedrafoly_run does, in the first `cells` cells, `stack` stack places and `frames` frames of the built-in tables: to find
 * out how little a program needs, or to run it as a smaller unit would. 0 lends none of a table, and a number above the built-in
 * one all of it: with BEDRAFOLY_CELLS, BEDRAFOLY_STACK and BEDRAFOLY_FRAMES, or more, this is bedrafoly_run. */
uint32_t bedrafoly_run_within(const uint8_t *file, size_t file_length, uint32_t entry, const uint8_t *arguments,
                              size_t arguments_length, uint32_t budget, uint32_t cells, uint32_t stack, uint32_t frames,
                              uint8_t *out, size_t out_length, uint8_t *answer, size_t answer_length);

/* Stores a payload in blocks at the front of `out`: 0, 18 or 13. It does not check the program. */
uint32_t bedrafoly_pack(const uint8_t *payload, size_t payload_length, uint8_t *out, size_t out_length, uint8_t *answer,
                        size_t answer_length);

/* Writes the payload of a file to the front of `out`: 0, 1 to 3, or 13. It does not check the program. */
uint32_t bedrafoly_unpack(const uint8_t *file, size_t file_length, uint8_t *out, size_t out_length, uint8_t *answer,
                          size_t answer_length);

/* Writes a survey's text as a list to the front of `out`, to be an argument of a run: cons and the first line's code, cons and the
 * second one's, and so on, then nil; of an empty text nil alone. A line is three capital letters, A to Z, and byte 10. An entry of
 * the table is four bytes, three capital letters and the code that they stand for; where letters stand twice the earlier entry
 * counts. Gives 0; else 19, 20 or 13, the first of these that holds, with `out` left as it was. What is behind the list in `out` is
 * left as it was too. Text and table have any length, and whether the list is too long for an argument is for the run to say; but
 * of a text of 4,294,967,296 bytes or more, a place or the length may not fit its word of the answer. */
uint32_t bedrafoly_lines(const uint8_t *text, size_t text_length, const uint8_t *table, size_t table_length, uint8_t cons,
                         uint8_t nil, uint8_t *out, size_t out_length, uint8_t *answer, size_t answer_length);

#ifdef __cplusplus
}
#endif

#endif
