/*
 * Measures how much stack the calls use: stack_use CASES, where CASES is the unpacked tests/host-data/host.cases.gz.
 *
 * All stored calls, and collections that walk as deep as a field allows, are made by a thread whose stack was filled with a pattern. The
 * lowest byte that no longer has the pattern tells how far the stack was used. Exit status 1 if that is more than the header states.
 */
#define _POSIX_C_SOURCE 200809L

#include "etzvanul.h"

#include <pthread.h>
#include <stdio.h>
#include <stdlib.h>
#include <string.h>

#define STACK_BYTES ((size_t)4 * 1024 * 1024)
#define PAGE_BYTES ((size_t)4096)
#define PATTERN 0xA5

/* Before the bytes of each case stand four numbers of 4 bytes and one of 8; host/cases/src/lib.rs says which. */
#define CASE_HEADER_BYTES 24

static uint8_t now[ETZVANUL_LARGEST_BYTES], next[ETZVANUL_LARGEST_BYTES];
static size_t length;
static unsigned long calls;

struct bytes {
    const uint8_t *first;
    size_t count;
};

static size_t number_at(const uint8_t *bytes)
{
    return (size_t)bytes[0] | (size_t)bytes[1] << 8 | (size_t)bytes[2] << 16 | (size_t)bytes[3] << 24;
}

static void all_calls_on(const uint8_t *image, size_t image_len, const uint8_t *event, size_t event_len)
{
    etzvanul_step(image, image_len, event, event_len, next, sizeof next);
    etzvanul_check(image, image_len);
    etzvanul_depth(image, image_len, 7, 0);
    etzvanul_fresh(next, sizeof next);
    calls += 4;
}

static void apply(uint16_t kind, uint8_t a, uint8_t b, uint8_t c, uint8_t d)
{
    uint8_t event[ETZVANUL_EVENT_BYTES];
    uint64_t result;

    etzvanul_make_event(event, kind, a, b, c, d);
    result = etzvanul_step(now, length, event, sizeof event, next, sizeof next);
    calls++;
    if (etzvanul_answer(result) == ETZVANUL_OK) {
        length = etzvanul_length(result);
        memcpy(now, next, length);
    }
}

/* Eight objects, each held by one field of the one before, and only the first by a root: the longest walk there is. */
static void collect_chain(uint8_t field)
{
    length = etzvanul_length(etzvanul_fresh(now, sizeof now));
    for (uint8_t root = 0; root < ETZVANUL_ROOTS; root++)
        apply(ETZVANUL_NEW, 0, root, 0, 0);
    for (uint8_t root = 0; root + 1 < ETZVANUL_ROOTS; root++)
        apply(ETZVANUL_STORE, 0, root, field, (uint8_t)(root + 1));
    for (uint8_t root = 1; root < ETZVANUL_ROOTS; root++)
        apply(ETZVANUL_CLEAR, 0, root, 0, 0);
    apply(ETZVANUL_COLLECT, 0, 0, 0, 0);
}

static void *make_calls(void *cases)
{
    const struct bytes *file = cases;
    const uint8_t *at = file->first + 8, *end = file->first + file->count;

    while (at + CASE_HEADER_BYTES <= end) {
        size_t image_len = number_at(at), event_len = number_at(at + 4), buffer_len = number_at(at + 8);

        at += CASE_HEADER_BYTES;
        all_calls_on(at, image_len, at + image_len, event_len);
        at += image_len + event_len + buffer_len;
    }
    for (uint8_t field = 0; field < ETZVANUL_FIELDS; field++)
        collect_chain(field);
    return NULL;
}

static void *make_no_calls(void *unused)
{
    return unused;
}

/* The bytes of stack that a thread uses for this work; 0 if no thread could be started. */
static size_t stack_used(void *(*work)(void *), void *argument)
{
    void *stack = NULL;
    size_t untouched = 0;
    pthread_attr_t attributes;
    pthread_t thread;

    if (posix_memalign(&stack, PAGE_BYTES, STACK_BYTES) != 0 || pthread_attr_init(&attributes) != 0)
        return 0;
    memset(stack, PATTERN, STACK_BYTES);
    if (pthread_attr_setstack(&attributes, stack, STACK_BYTES) != 0 || pthread_create(&thread, &attributes, work, argument) != 0)
        return 0;
    pthread_join(thread, NULL);
    while (untouched < STACK_BYTES && ((uint8_t *)stack)[untouched] == PATTERN)
        untouched++;
    free(stack);
    return STACK_BYTES - untouched;
}

static struct bytes whole_file(const char *path)
{
    static uint8_t bytes[16 * 1024 * 1024];
    struct bytes file = {bytes, 0};
    FILE *stream = fopen(path, "rb");

    if (stream != NULL) {
        file.count = fread(bytes, 1, sizeof bytes, stream);
        fclose(stream);
    }
    return file;
}

int main(int argument_count, char **arguments)
{
    struct bytes cases = whole_file(argument_count == 2 ? arguments[1] : "");
    size_t thread_alone = stack_used(make_no_calls, NULL);
    size_t used;

    if (cases.count < 8 || memcmp(cases.first, "FHC1", 4) != 0 || thread_alone == 0) {
        fputs("usage: stack_use CASES, where CASES is the unpacked tests/host-data/host.cases.gz\n", stderr);
        return 2;
    }
    used = stack_used(make_calls, &cases) - thread_alone;
    printf("the stack: %lu calls used at most %lu bytes, the header states %lu\n", calls, (unsigned long)used,
           (unsigned long)ETZVANUL_STACK_BYTES);
    return used > ETZVANUL_STACK_BYTES;
}
