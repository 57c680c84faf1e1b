/* What the numbers of the library mean to the people around it. */
#include <stdio.h>

#include "bedrafoly.h"
#include "panel.h"

#define TEXT_OF(number) #number
#define TEXT(number) TEXT_OF(number)

#define CARD "; the card is damaged or holds no program, and a good copy of the program stored anew mends it"
#define AUTHOR "; only the program's author can mend it"
#define LESS "so the operator must give smaller arguments, or the author a program that needs less"

/* What the two places of a number are. */
enum places { NONE, BLOCK, OFFSET, CONSTRUCTOR, SIGNATURE, ARGUMENT, INSTRUCTION, ENTRY, BYTE, NEEDED };

#define ANY 0xffffffffu

/* The first row that fits is taken: one of the number, and of this first place where it says one. */
static const struct meaning {
    uint32_t number;
    uint32_t first;
    enum places places;
    const char *text;
} meanings[] = {
    {BEDRAFOLY_BAD_LENGTH, ANY, NONE,
     "the file is empty, not in whole blocks of 512 bytes, or over " TEXT(BEDRAFOLY_LONGEST_FILE) " bytes" CARD},
    {BEDRAFOLY_BAD_CHECKSUM, ANY, BLOCK, "the checksum is wrong" CARD},
    {BEDRAFOLY_BAD_BLOCK, ANY, BLOCK, "the block's number, used count or unused bytes are wrong" CARD},
    {BEDRAFOLY_BAD_RECORD, ANY, OFFSET, "a record is cut short or has a field out of its range, or bytes are left over" AUTHOR},
    {BEDRAFOLY_BAD_DECLARATION, 0, CONSTRUCTOR, "it names a type that is not declared, or its weight is wrong" AUTHOR},
    {BEDRAFOLY_BAD_DECLARATION, ANY, SIGNATURE, "it names a type that is not declared" AUTHOR},
    {BEDRAFOLY_UNBOUNDED_ARGUMENT, ANY, ARGUMENT, "the argument is missing from the function's size bound" AUTHOR},
    {BEDRAFOLY_BAD_FLOW, ANY, INSTRUCTION, "the way from instruction to instruction breaks the rules" AUTHOR},
    {BEDRAFOLY_BAD_TYPES, ANY, INSTRUCTION,
     "the types or the height of the stack are wrong, or a slot, constructor or function is not there" AUTHOR},
    {BEDRAFOLY_TOO_MANY_FORMS, ANY, INSTRUCTION, "more than 16 variables or more than 16 alternatives of a size are made" AUTHOR},
    {BEDRAFOLY_NOT_COVERED, ANY, INSTRUCTION, "a value may be larger than the function's size bound" AUTHOR},
    {BEDRAFOLY_NO_ENTRY, ANY, ENTRY, "the program has no such function; the operator must name one that it has"},
    {BEDRAFOLY_BAD_ARGUMENT, BEDRAFOLY_LONGEST_ARGUMENTS, NONE,
     "there are over " TEXT(BEDRAFOLY_LONGEST_ARGUMENTS) " argument bytes, or just so many and a value is not complete; "
     "the operator must give fewer"},
    {BEDRAFOLY_BAD_ARGUMENT, ANY, BYTE,
     "it is an unknown constructor, of a wrong type, missing or left over, or leaves over 256 values to be read; "
     "the operator must give other arguments"},
    {BEDRAFOLY_OUTPUT_TOO_SHORT, ANY, NEEDED,
     "the panel has room for " TEXT(OUTPUT_ROOM) "; the operator must give smaller arguments, or use a panel with more room"},
    {BEDRAFOLY_BAD_PAYLOAD, ANY, NONE,
     "the payload is empty or over " TEXT(BEDRAFOLY_LONGEST_PAYLOAD) " bytes; the operator must give another one"},
    {BEDRAFOLY_GAVE_UP, ANY, NONE,
     "the program aborted by its own stop, as its author wrote it for such arguments; the operator can give others"},
};

static void print_places(enum places places, uint32_t first, uint32_t second)
{
    unsigned long one = first, two = second;

    switch (places) {
    case NONE: break;
    case BLOCK: fprintf(stderr, "block %lu: ", one); break;
    case OFFSET: fprintf(stderr, "payload byte %lu: ", one); break;
    case CONSTRUCTOR: fprintf(stderr, "constructor %lu: ", two); break;
    case SIGNATURE: fprintf(stderr, "function %lu: ", two); break;
    case ARGUMENT: fprintf(stderr, "function %lu, argument %lu: ", one, two); break;
    case INSTRUCTION: fprintf(stderr, "function %lu, instruction %lu: ", one, two); break;
    case ENTRY: fprintf(stderr, "function %lu: ", one); break;
    case BYTE: fprintf(stderr, "argument byte %lu, counted from 0: ", one); break;
    case NEEDED: fprintf(stderr, "%lu bytes are needed: ", one); break;
    }
}

/* A loan that was made smaller can be made larger again; of the largest there is no more. */
static void print_loan(const struct loan *loan, uint32_t lent)
{
    unsigned long given = lent, most = loan->most;
    const char *why = loan == &loans[BUDGET] ? "no budget is larger" : "the tables are built in";

    if (given < most)
        fprintf(stderr, "%s %lu does not suffice; the operator can lend more %s, up to %lu", loan->option, given, loan->name, most);
    else
        fprintf(stderr, "the %lu %s do not suffice; %s, " LESS, most, loan->name, why);
}

void explain(uint32_t number, uint32_t first, uint32_t second, const uint32_t *lent)
{
    size_t k;

    fputs("panel: ", stderr);
    if (lent != NULL && number >= BEDRAFOLY_BUDGET_SPENT && number <= BEDRAFOLY_OUT_OF_FRAMES) {
        k = number - BEDRAFOLY_BUDGET_SPENT;
        print_places(INSTRUCTION, first, second);
        print_loan(&loans[k], lent[k]);
        fputs(".\n", stderr);
        return;
    }
    for (k = 0; k < sizeof meanings / sizeof meanings[0]; k++) {
        const struct meaning *meaning = &meanings[k];

        if (meaning->number == number && (meaning->first == ANY || meaning->first == first)) {
            print_places(meaning->places, first, second);
            fprintf(stderr, "%s.\n", meaning->text);
            return;
        }
    }
    fprintf(stderr, "the library gave the number %lu, which this panel does not know.\n", (unsigned long)number);
}
