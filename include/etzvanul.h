/*
 * etzvanul.h: the field table, called from C.
 *
 * Up to eight controllers (nodes) share a field. Each owns eight objects, its watering programs, and may hold references to the objects
 * of others. The field table keeps account of who holds what, so that an object's place is used again only when nobody holds it.
 *
 * The table lives in the host's memory or file as an image: a string of bytes, the same on every machine, that may be stored and sent as
 * it is. A call takes an image and one event and writes the image after the event. The archive libetzvanul.a is proved to do this as
 * document 01 lays down, for every image and every event, damaged ones included: there is no input that it fails on, only inputs that it
 * refuses.
 *
 *     uint8_t now[ETZVANUL_LARGEST_BYTES], next[ETZVANUL_LARGEST_BYTES], event[ETZVANUL_EVENT_BYTES];
 *     size_t length = etzvanul_length(etzvanul_fresh(now, sizeof now));
 *     uint64_t result;
 *
 *     etzvanul_make_event(event, ETZVANUL_NEW, 0, 0, 0, 0);
 *     result = etzvanul_step(now, length, event, sizeof event, next, sizeof next);
 *     if (etzvanul_answer(result) == ETZVANUL_OK) {
 *         object = etzvanul_value(result);
 *         length = etzvanul_length(result);
 *         memcpy(now, next, length);
 *     }
 *
 * What a caller owes, in every call:
 *   - each pointer is valid for as many bytes as the length beside it says: to be read for image and event, to be written for out;
 *   - no pointer is null, not even beside a length of 0;
 *   - out overlaps neither image nor event; image and event may overlap each other;
 *   - no other thread writes image or event, or touches out, while the call runs.
 * A call that breaks one of these is outside every promise made here.
 *
 * What a caller may rely on:
 *   - Every call returns, and the same bytes give the same result: nothing is kept between calls.
 *   - All functions are reentrant: threads and interrupt handlers may call them at the same time, each with a buffer of its own.
 *   - Refused, nothing is written. Accepted, only as many bytes of out are written as the result's length says; the rest stay.
 *   - A call uses at most ETZVANUL_STACK_BYTES of stack: measured, not proved.
 */
#ifndef ETZVANUL_H
#define ETZVANUL_H

#include <stddef.h>
#include <stdint.h>

#ifdef __cplusplus
extern "C" {
#endif

/* Sizes in bytes. A buffer of ETZVANUL_LARGEST_BYTES holds every image. */
#define ETZVANUL_EVENT_BYTES 8
#define ETZVANUL_FRESH_BYTES 116
#define ETZVANUL_LARGEST_BYTES 11508

/* The bytes of stack that a call uses at most, as host/stack_use.c measures it. */
#define ETZVANUL_STACK_BYTES 32768

/* The field. Nodes, objects, roots, fields and message places are numbered from 0; object o belongs to node o / 8. */
#define ETZVANUL_NODES 8
#define ETZVANUL_OBJECTS 64
#define ETZVANUL_ROOTS 8
#define ETZVANUL_FIELDS 4
#define ETZVANUL_PLACES 64

/* An image takes no more events once this many have been accepted. */
#define ETZVANUL_LAST_EVENT 1000000000

/* As a value: no decrement was sent, or no depth. */
#define ETZVANUL_NOTHING 255

/*
 * Event kinds. Operands are given in the order listed; those that aren't listed must be 0.
 * P and Q are nodes, r and q roots, f a field, s a message place, o an object.
 */
enum etzvanul_kind {
    ETZVANUL_NEW = 1,     /* P r      P's lowest object that isn't live becomes live, empty root r names it. Value: the object */
    ETZVANUL_MOVE = 2,    /* P r q    root r takes what root q holds, or becomes empty with it. Value: 0 */
    ETZVANUL_CLEAR = 3,   /* P r      root r becomes empty. Value: 0 */
    ETZVANUL_LOAD = 4,    /* P r q f  root r takes field f of the object in root q. Value: 0 */
    ETZVANUL_STORE = 5,   /* P q f r  field f of the object in root q takes what root r holds. Value: 0 */
    ETZVANUL_SEND = 6,    /* P r Q    the reference in root r goes to Q; root r keeps it. Value: the message place */
    ETZVANUL_RECEIVE = 7, /* s r      the reference in place s reaches its node, into empty root r. Value: s if a decrement
                                      was sent back from there, else ETZVANUL_NOTHING */
    ETZVANUL_SETTLE = 8,  /* s        the decrement in place s reaches its node. Value: 0 */
    ETZVANUL_COLLECT = 9, /* P        local collection at P. Value: the number of objects reclaimed */
    ETZVANUL_DROP = 10    /* P o      P's entry of object o is deleted. Value: the place of the decrement that it sends, or
                                      ETZVANUL_NOTHING for the owner's entry, which sends none */
};

/*
 * Answers. Anything but ETZVANUL_OK is a refusal: value and length are 0 and no byte was written. Where several refusals apply, the
 * image's (20 to 25) come first, then 2 for an event record that isn't one, then the lowest of 2 to 13, and 26 last.
 */
enum etzvanul_answer_number {
    ETZVANUL_OK = 0,

    /* The event is refused. */
    ETZVANUL_SHAPE = 1,    /* the table holds numbers out of range: never comes back from etzvanul_step, nor from
                              the other calls, since no such image is read */
    ETZVANUL_EVENT = 2,    /* not one record of 8 bytes, unknown kind, operand out of its range, or unused operand not 0 */
    ETZVANUL_ENDED = 3,    /* ETZVANUL_LAST_EVENT events have been accepted */
    ETZVANUL_NOMSG = 4,    /* RECEIVE: no reference in place s; SETTLE: no decrement in place s */
    ETZVANUL_SELF = 5,     /* SEND: from a node to itself */
    ETZVANUL_EMPTY = 6,    /* LOAD, STORE: root q is empty; SEND: root r is empty */
    ETZVANUL_AWAY = 7,     /* LOAD, STORE: the object in root q belongs to another node */
    ETZVANUL_ROOT = 8,     /* NEW, RECEIVE: root r isn't empty */
    ETZVANUL_NOROOM = 9,   /* NEW: all eight objects of the node are live */
    ETZVANUL_NOENTRY = 10, /* DROP: the node has no entry of that object */
    ETZVANUL_BUSY = 11,    /* DROP: the entry is still in use, or counts of it are still out */
    ETZVANUL_TORN = 12,    /* the image contradicts itself about what the event touches; never met in images grown from the fresh one */
    ETZVANUL_FULL = 13,    /* SEND, DROP of another node's object: no message place is empty */

    /* The image is refused: the first record that fails decides. */
    ETZVANUL_SHORT = 20,  /* the image ends in the middle of a record or without an end record */
    ETZVANUL_KIND = 21,   /* a record has an unknown kind */
    ETZVANUL_LENGTH = 22, /* a record states another length than its kind has */
    ETZVANUL_ORDER = 23,  /* a record may not stand where it stands, or stands there twice */
    ETZVANUL_VALUE = 24,  /* a record holds a number out of range */
    ETZVANUL_TRAIL = 25,  /* bytes follow the end record */

    /* The new image is refused. */
    ETZVANUL_ROOM = 26 /* the buffer is shorter than the image */
};

/*
 * Applies one event to an image and writes the image after it to out.
 *
 * image, image_len   the image before the event
 * event, event_len   one event record; see etzvanul_make_event
 * out, out_len       where the new image goes; ETZVANUL_LARGEST_BYTES are always enough
 *
 * Returns answer + 256 * value + 16777216 * length of the new image. Take it apart with etzvanul_answer, etzvanul_value and
 * etzvanul_length. Answers: 0, 2 to 13, 20 to 26.
 */
uint64_t etzvanul_step(const uint8_t *image, size_t image_len, const uint8_t *event, size_t event_len, uint8_t *out, size_t out_len);

/*
 * Writes the image of a fresh field to out: nothing live, nothing held, no event yet.
 *
 * Returns the same kind of number as etzvanul_step: answer 0 and length ETZVANUL_FRESH_BYTES, or ETZVANUL_ROOM if out is shorter.
 */
uint64_t etzvanul_fresh(uint8_t *out, size_t out_len);

/*
 * How many steps a node's entry of an object is away from the object's owner: from each node to the one that it first received the
 * object from, its Parent.
 *
 * Returns answer + 256 * depth; take it apart with etzvanul_answer and etzvanul_value. An image that is refused gives its answer, 20 to
 * 25, and depth 0. Otherwise the answer is 0 and the depth is 0 at the owner, 1 to 7 elsewhere, and ETZVANUL_NOTHING if the
 * node or object number is out of range, there is no such entry, or the way from it doesn't lead to the owner's entry.
 */
uint64_t etzvanul_depth(const uint8_t *image, size_t image_len, uint8_t node, uint8_t object);

/*
 * Whether an image can be read. Returns the answer alone: 0, or 20 to 25.
 */
uint64_t etzvanul_check(const uint8_t *image, size_t image_len);

/* The answer in a result: an etzvanul_answer_number. */
static inline unsigned int etzvanul_answer(uint64_t result)
{
    return (unsigned int)(result & 0xffu);
}

/* The value in a result: what the event's kind says, or the depth. */
static inline unsigned int etzvanul_value(uint64_t result)
{
    return (unsigned int)((result >> 8) & 0xffffu);
}

/* The length in a result: the bytes of the new image, at the start of out. */
static inline size_t etzvanul_length(uint64_t result)
{
    return (size_t)(result >> 24);
}

/*
 * Writes the event record of a kind and four operands: length 4 and the kind, two bytes each, low byte first, then the operands. Any
 * numbers may be given; whether they make an event is for etzvanul_step to say.
 */
static inline void etzvanul_make_event(uint8_t record[ETZVANUL_EVENT_BYTES], uint16_t kind, uint8_t a, uint8_t b, uint8_t c, uint8_t d)
{
    record[0] = 4;
    record[1] = 0;
    record[2] = (uint8_t)(kind & 0xffu);
    record[3] = (uint8_t)(kind >> 8);
    record[4] = a;
    record[5] = b;
    record[6] = c;
    record[7] = d;
}

#ifdef __cplusplus
}
#endif

#endif
