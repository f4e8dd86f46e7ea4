#include "words.h"

#include <stdbool.h>
#include <string.h>

struct name {
    const char *word;
    enum command_sort sort;
    uint16_t kind;
    int operands;
};

static const struct name names[] = {
    {"new", COMMAND_EVENT, ETZVANUL_NEW, 2},         {"move", COMMAND_EVENT, ETZVANUL_MOVE, 3},
    {"clear", COMMAND_EVENT, ETZVANUL_CLEAR, 2},     {"load", COMMAND_EVENT, ETZVANUL_LOAD, 4},
    {"store", COMMAND_EVENT, ETZVANUL_STORE, 4},     {"send", COMMAND_EVENT, ETZVANUL_SEND, 3},
    {"receive", COMMAND_EVENT, ETZVANUL_RECEIVE, 2}, {"settle", COMMAND_EVENT, ETZVANUL_SETTLE, 1},
    {"collect", COMMAND_EVENT, ETZVANUL_COLLECT, 1}, {"drop", COMMAND_EVENT, ETZVANUL_DROP, 2},
    {"depth", COMMAND_DEPTH, 0, 2},                  {"check", COMMAND_CHECK, 0, 0},
};

static const struct {
    unsigned int answer;
    const char *word;
    const char *meaning;
} answers[] = {
    {ETZVANUL_OK, "OK", "nothing is wrong"},
    {ETZVANUL_SHAPE, "SHAPE", "the table holds numbers out of range"},
    {ETZVANUL_EVENT, "EVENT", "there is no such event, or an operand is out of its range"},
    {ETZVANUL_ENDED, "ENDED", "the field has had its last event"},
    {ETZVANUL_NOMSG, "NOMSG", "no message of that sort is in this place"},
    {ETZVANUL_SELF, "SELF", "a node can't send to itself"},
    {ETZVANUL_EMPTY, "EMPTY", "the root holds nothing"},
    {ETZVANUL_AWAY, "AWAY", "the object belongs to another node"},
    {ETZVANUL_ROOT, "ROOT", "the root already holds something"},
    {ETZVANUL_NOROOM, "NOROOM", "all eight objects of the node are live"},
    {ETZVANUL_NOENTRY, "NOENTRY", "the node has no entry of this object"},
    {ETZVANUL_BUSY, "BUSY", "the entry is still in use"},
    {ETZVANUL_TORN, "TORN", "the image contradicts itself"},
    {ETZVANUL_FULL, "FULL", "64 messages are in the air, none fits in"},
    {ETZVANUL_SHORT, "SHORT", "the image is cut off"},
    {ETZVANUL_KIND, "KIND", "a record is of no known kind"},
    {ETZVANUL_LENGTH, "LENGTH", "a record has the wrong length"},
    {ETZVANUL_ORDER, "ORDER", "a record is out of order"},
    {ETZVANUL_VALUE, "VALUE", "a record holds a number out of range"},
    {ETZVANUL_TRAIL, "TRAIL", "bytes follow the end of the image"},
    {ETZVANUL_ROOM, "ROOM", "the buffer is too short for the image"},
};

#define COUNT_OF(array) (sizeof(array) / sizeof((array)[0]))

/* Moves the text past blanks, and past a comment. */
static void skip_blanks(const char **text)
{
    *text += strspn(*text, " \t\r");
    if (**text == '#')
        *text += strcspn(*text, "\n");
}

/* Moves the text past all that may stand between commands. */
static void skip_to_command(const char **text)
{
    skip_blanks(text);
    while (**text == ',' || **text == '\n') {
        (*text)++;
        skip_blanks(text);
    }
}

/* Takes a number off the text if one stands there that is no larger than the largest. */
static bool take_number(const char **text, unsigned long largest, unsigned long *number)
{
    size_t digits;

    skip_blanks(text);
    digits = strspn(*text, "0123456789");
    if (digits == 0 || strchr(" \t\r\n,#", (*text)[digits]) == NULL)
        return false;
    for (*number = 0; digits > 0; digits--, (*text)++) {
        *number = *number * 10 + (unsigned long)(**text - '0');
        if (*number > largest)
            return false;
    }
    return true;
}

static bool take_operands(const char **text, int count, struct command *command)
{
    unsigned long number;

    memset(command->operands, 0, sizeof command->operands);
    for (int at = 0; at < count; at++) {
        if (!take_number(text, UINT8_MAX, &number))
            return false;
        command->operands[at] = (uint8_t)number;
    }
    return true;
}

/* A command that begins with a name. */
static bool take_named(const char **text, struct command *command)
{
    size_t length = strcspn(*text, " \t\r\n,#");

    for (size_t at = 0; at < COUNT_OF(names); at++) {
        if (strlen(names[at].word) == length && strncmp(names[at].word, *text, length) == 0) {
            command->sort = names[at].sort;
            command->kind = names[at].kind;
            *text += length;
            return take_operands(text, names[at].operands, command);
        }
    }
    return false;
}

/* An event that is written as five numbers. */
static bool take_numbered(const char **text, struct command *command)
{
    unsigned long kind;

    if (!take_number(text, UINT16_MAX, &kind))
        return false;
    command->sort = COMMAND_EVENT;
    command->kind = (uint16_t)kind;
    return take_operands(text, 4, command);
}

enum command_outcome next_command(const char **text, struct command *command)
{
    bool numbered, understood;

    skip_to_command(text);
    if (**text == '\0')
        return COMMAND_NONE_LEFT;
    command->words = *text;
    numbered = **text >= '0' && **text <= '9';
    understood = numbered ? take_numbered(text, command) : take_named(text, command);
    if (!understood)
        *text = command->words + strcspn(command->words, ",\n");
    command->words_length = (int)(*text - command->words);
    return understood ? COMMAND_READ : COMMAND_NOT_UNDERSTOOD;
}

const char *answer_word(unsigned int answer)
{
    for (size_t at = 0; at < COUNT_OF(answers); at++)
        if (answers[at].answer == answer)
            return answers[at].word;
    return "?";
}

const char *answer_meaning(unsigned int answer)
{
    for (size_t at = 0; at < COUNT_OF(answers); at++)
        if (answers[at].answer == answer)
            return answers[at].meaning;
    return "no such answer is known";
}
