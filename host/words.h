/*
 * Events and answers in words, for people: `send 0 0 3` instead of 04 00 06 00 00 00 03 00.
 */
#ifndef WORDS_H
#define WORDS_H

#include "etzvanul.h"

enum command_sort { COMMAND_EVENT, COMMAND_DEPTH, COMMAND_CHECK };

struct command {
    enum command_sort sort;
    uint16_t kind; /* of an event */
    uint8_t operands[4];
    const char *words; /* how it was written, */
    int words_length;  /* and how long that is */
};

enum command_outcome { COMMAND_READ, COMMAND_NONE_LEFT, COMMAND_NOT_UNDERSTOOD };

/*
 * Reads the next command of a text and moves the text on past it. A command is a name with its operands, or an event as five numbers: kind
 * and all four operands. A comma or a line's end may follow it, and `#` begins a comment that goes on to the line's end. If it isn't
 * understood, its words go on to the next comma or line's end.
 */
enum command_outcome next_command(const char **text, struct command *command);

/* An answer's name, such as "SELF". */
const char *answer_word(unsigned int answer);

/* What an answer means, in a few words. */
const char *answer_meaning(unsigned int answer);

#endif
