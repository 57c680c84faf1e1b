/* What the parts of the panel program share. */
#ifndef PANEL_H
#define PANEL_H

#include <stddef.h>
#include <stdint.h>

/* Exit statuses. */
enum { GOOD = 0, REFUSED = 1, UNUSABLE = 2 };

/* The bytes that a result has room in. */
#define OUTPUT_ROOM 1048576

/* Bytes in memory of their own, which is given back by free. */
struct bytes {
    uint8_t *at;
    size_t length;
};

/* files.c. Each gives 0, or says on standard error what is wrong and gives UNUSABLE. */

/* Reads a file until its end or until `room` is full. */
int read_file(const char *path, uint8_t *bytes, size_t room, size_t *length);
/* Reads all of a file into memory that grows with it, which is to be given back in any case. */
int read_whole(const char *path, struct bytes *bytes);
/* Writes a file whole or not at all. */
int write_file(const char *path, const uint8_t *bytes, size_t length);

/* words.c */

/* What a run is lent, in the order of the numbers 14 to 17, which say that one of them does not suffice. */
enum { BUDGET, CELLS, STACK, FRAMES, LOANS };

extern const struct loan {
    const char *option; /* by which the operator lends less than the most */
    uint32_t most;
    const char *name;
    const char *use; /* what the help says behind the name */
} loans[LOANS];

/* What a survey's list is made of, in the order of the words behind `lines`. */
enum { SURVEY, CODES, CONS, NIL, PARTS };

extern const struct part {
    const char *name;
    const char *option; /* by which a run takes it */
    const char *use;    /* what the help says of it */
} parts[PARTS];

/* What is asked of a survey. */
struct survey_words {
    const char *text; /* NULL where a run has no survey */
    const char *codes;
    uint32_t cons, nil;
};

/* What is asked of a run. */
struct run_words {
    const char *file;
    uint32_t entry;
    uint32_t lent[LOANS];
    size_t length; /* of the arguments that are given as such */
    struct survey_words survey;
};

/* Reads decimal digits and nothing else, no number above `most`. Gives 1 where that is what stands there. */
int read_number(const char *text, size_t length, uint32_t most, uint32_t *number);

/* Each gives 0, or says what is wrong and gives UNUSABLE. */

/* Reads the words behind `lines`. */
int read_lines_words(char *const *words, struct survey_words *survey);
/* Reads the words behind `run`, the argument bytes into `bytes`. */
int read_run_words(int count, char **words, struct run_words *run, uint8_t *bytes, size_t room);

/* survey.c */

/* A survey as the library takes it. */
struct survey {
    struct survey_words words;
    struct bytes text;
    struct bytes codes; /* as they are written, to show a line that is wrong */
    struct bytes table; /* what they say */
    struct bytes list;  /* to be written, with room for the longest that the text can give */
};

/* Reads the files that the words name. Gives 0, or says what is wrong and gives UNUSABLE. What it got is to be given back in any
 * case. */
int read_survey(const struct survey_words *words, struct survey *survey);
void give_back_survey(struct survey *survey);
/* One sentence on standard error of why the library refuses a survey, with the line that it is about. */
void explain_survey(uint32_t number, uint32_t first, const struct survey *survey);

/* explain.c: one sentence on standard error of what a number means, where, and who can mend it. Of a run it tells by what was lent
 * whether the operator can lend more; the other commands lend nothing, which is NULL. */
void explain(uint32_t number, uint32_t first, uint32_t second, const uint32_t *lent);

#endif
