/*
 * A small host: keeps a field in a file and applies events to it. `example` without arguments tells how to use it.
 *
 * Every accepted event is on the disk before it is reported, so what was once said to have happened has happened.
 */
#define _POSIX_C_SOURCE 200809L

#include "etzvanul.h"
#include "field_file.h"
#include "words.h"

#include <errno.h>
#include <stdbool.h>
#include <stdio.h>
#include <stdlib.h>
#include <string.h>

enum exit_status { ALL_DONE = 0, SOME_REFUSED = 1, NOT_UNDERSTOOD = 2, DAMAGED = 3, FILE_TROUBLE = 4 };

/* The lines of standard input may be this long. */
#define LINE_BYTES 1024

struct field {
    const char *path;
    uint8_t image[FIELD_FILE_MOST_BYTES];
    size_t length;
    bool refused_some;
};

static const char usage[] =
    "usage: example FILE [COMMAND ...]\n"
    "\n"
    "Applies events to the field that is kept in FILE; where there is no FILE yet, to a fresh field.\n"
    "Without commands on the command line they are read from standard input, one or more a line.\n"
    "Commands may be separated by commas; # begins a comment.\n"
    "\n"
    "  new NODE ROOT                     a new object of NODE, named by an empty root\n"
    "  move NODE ROOT FROM               ROOT takes what root FROM holds\n"
    "  clear NODE ROOT                   ROOT becomes empty\n"
    "  load NODE ROOT HOLDER FIELD       ROOT takes a field of the object in root HOLDER\n"
    "  store NODE HOLDER FIELD ROOT      a field of the object in root HOLDER takes what ROOT holds\n"
    "  send NODE ROOT TO                 the reference in ROOT goes to node TO\n"
    "  receive PLACE ROOT                the reference in a message place arrives, into an empty root\n"
    "  settle PLACE                      the decrement in a message place arrives\n"
    "  collect NODE                      NODE reclaims what nobody holds\n"
    "  drop NODE OBJECT                  NODE deletes its entry of an object\n"
    "  KIND A B C D                      an event as its five numbers\n"
    "  depth NODE OBJECT                 how far NODE's entry of an object is from the owner\n"
    "  check                             whether the image can be read, and its length\n"
    "\n"
    "Every accepted event is saved before it is reported; a refused one changes nothing, and the next is tried.\n"
    "Exit status: 0 all done, 1 an event was refused, 2 a command was not understood, 3 FILE is damaged\n"
    "(it is left as it is), 4 FILE could not be read or written. After 2 and 4 nothing more is tried.\n";

/* Fills the field from its file or freshly. */
static enum exit_status open_field(struct field *field)
{
    unsigned int answer;

    switch (field_file_load(field->path, field->image, &field->length)) {
    case FIELD_FILE_FAILED:
        fprintf(stderr, "%s: can't be read: %s\n", field->path, strerror(errno));
        return FILE_TROUBLE;
    case FIELD_FILE_ABSENT:
        printf("%s: no such file, starting fresh\n", field->path);
        field->length = etzvanul_length(etzvanul_fresh(field->image, sizeof field->image));
        return ALL_DONE;
    case FIELD_FILE_READ:
        break;
    }
    answer = etzvanul_answer(etzvanul_check(field->image, field->length));
    if (answer != ETZVANUL_OK) {
        fprintf(stderr, "%s: damaged, %u %s: %s; left as it is\n", field->path, answer, answer_word(answer), answer_meaning(answer));
        return DAMAGED;
    }
    return ALL_DONE;
}

/* What the value of an accepted event means. */
static void print_value(uint16_t kind, unsigned int value)
{
    switch (kind) {
    case ETZVANUL_NEW:
        printf(", object %u", value);
        break;
    case ETZVANUL_SEND:
        printf(", place %u", value);
        break;
    case ETZVANUL_COLLECT:
        printf(", %u reclaimed", value);
        break;
    case ETZVANUL_RECEIVE:
    case ETZVANUL_DROP:
        if (value == ETZVANUL_NOTHING)
            printf(", no decrement");
        else
            printf(", decrement in place %u", value);
        break;
    }
}

static enum exit_status apply_event(struct field *field, const struct command *command)
{
    uint8_t event[ETZVANUL_EVENT_BYTES], next[ETZVANUL_LARGEST_BYTES];
    const uint8_t *operands = command->operands;
    unsigned int answer;
    uint64_t result;

    etzvanul_make_event(event, command->kind, operands[0], operands[1], operands[2], operands[3]);
    result = etzvanul_step(field->image, field->length, event, sizeof event, next, sizeof next);
    answer = etzvanul_answer(result);
    if (answer != ETZVANUL_OK) {
        printf("refused, %u %s: %s\n", answer, answer_word(answer), answer_meaning(answer));
        field->refused_some = true;
        return ALL_DONE;
    }
    if (field_file_save(field->path, next, etzvanul_length(result)) != 0) {
        printf("not done, %s can't be saved: %s\n", field->path, strerror(errno));
        return FILE_TROUBLE;
    }
    field->length = etzvanul_length(result);
    memcpy(field->image, next, field->length);
    printf("accepted");
    print_value(command->kind, etzvanul_value(result));
    printf("\n");
    return ALL_DONE;
}

static void print_depth(const struct field *field, const struct command *command)
{
    unsigned int depth = etzvanul_value(etzvanul_depth(field->image, field->length, command->operands[0], command->operands[1]));

    if (depth == ETZVANUL_NOTHING)
        printf("no such entry, or no way from it to the owner\n");
    else
        printf("%u\n", depth);
}

static void print_check(const struct field *field)
{
    unsigned int answer = etzvanul_answer(etzvanul_check(field->image, field->length));

    printf("%u %s: %s, %lu bytes\n", answer, answer_word(answer), answer_meaning(answer), (unsigned long)field->length);
}

static enum exit_status obey(struct field *field, const struct command *command)
{
    printf("%.*s: ", command->words_length, command->words);
    switch (command->sort) {
    case COMMAND_EVENT:
        return apply_event(field, command);
    case COMMAND_DEPTH:
        print_depth(field, command);
        break;
    case COMMAND_CHECK:
        print_check(field);
        break;
    }
    return ALL_DONE;
}

static enum exit_status obey_text(struct field *field, const char *text)
{
    struct command command;
    enum command_outcome outcome;
    enum exit_status status = ALL_DONE;

    while (status == ALL_DONE && (outcome = next_command(&text, &command)) != COMMAND_NONE_LEFT) {
        if (outcome == COMMAND_NOT_UNDERSTOOD) {
            printf("%.*s: not understood\n", command.words_length, command.words);
            status = NOT_UNDERSTOOD;
        } else {
            status = obey(field, &command);
        }
    }
    return status;
}

static enum exit_status obey_input(struct field *field)
{
    char line[LINE_BYTES];
    enum exit_status status = ALL_DONE;

    while (status == ALL_DONE && fgets(line, sizeof line, stdin) != NULL) {
        if (strlen(line) + 1 == sizeof line && line[sizeof line - 2] != '\n') {
            printf("a line of input is longer than %d bytes\n", LINE_BYTES - 2);
            return NOT_UNDERSTOOD;
        }
        status = obey_text(field, line);
    }
    return status;
}

/* The words of the command line may be one command in many arguments or many commands in one. */
static char *joined(char *const *words, int count)
{
    size_t size = 1;
    char *text;

    for (int at = 0; at < count; at++)
        size += strlen(words[at]) + 1;
    text = calloc(size, 1);
    for (int at = 0; text != NULL && at < count; at++)
        strcat(strcat(text, at > 0 ? " " : ""), words[at]);
    return text;
}

int main(int argument_count, char **arguments)
{
    static struct field field;
    enum exit_status status;
    char *text;

    if (argument_count < 2 || arguments[1][0] == '-') {
        fputs(usage, stderr);
        return NOT_UNDERSTOOD;
    }
    field.path = arguments[1];
    status = open_field(&field);
    if (status != ALL_DONE)
        return status;
    if (argument_count == 2) {
        status = obey_input(&field);
    } else {
        text = joined(arguments + 2, argument_count - 2);
        status = text != NULL ? obey_text(&field, text) : FILE_TROUBLE;
        free(text);
    }
    return status == ALL_DONE && field.refused_some ? SOME_REFUSED : (int)status;
}
