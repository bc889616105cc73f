/* How much stack the calls take. Each call runs on a painted stack of its own; what is counted are the bytes from the caller's frame down to
   the lowest one that changed, so the caller's few are in. Prints the most for each function over calls on full stores and full tombstones,
   accepted and refused, and exits 1 if one is over STACK_ENOUGH, the number that docs/INTEGRATION.md gives.

     cc -std=c99 -O2 -Wl,-z,now -Iinclude -o stack examples/stack.c target/staticlib/libcapi.a

   -z now: else the dynamic linker's search for memcpy, in the first call that needs it, would be counted. */
#define _XOPEN_SOURCE 700
#include <stdio.h>
#include <stdlib.h>
#include <string.h>
#include <ucontext.h>

#include "ptl.h"

#define STACK_ENOUGH 8192
#define PAINT 0xA5

/* ---- measuring */

static uint8_t stack[8 * STACK_ENOUGH];
static const volatile uint8_t *entered;
static void (*measured)(void);

/* Runs on the painted stack. */
static void enter(void)
{
    volatile uint8_t here = 0;
    entered = &here;
    measured();
}

/* The stack that a call takes. */
static size_t taken(void (*call)(void))
{
    ucontext_t back, there;
    memset(stack, PAINT, sizeof stack);
    if (getcontext(&there) != 0) {
        exit(1);
    }
    there.uc_stack.ss_sp = stack;
    there.uc_stack.ss_size = sizeof stack;
    there.uc_link = &back;
    measured = call;
    makecontext(&there, enter, 0);
    if (swapcontext(&back, &there) != 0) {
        exit(1);
    }
    size_t lowest = 0;
    while (stack[lowest] == PAINT) {
        lowest++;
    }
    return (size_t)(entered - (stack + lowest));
}

/* ---- the calls, on arguments that stand here */

static struct box {
    uint8_t state[PTL_STATE_SIZE], store[PTL_STORE_MAX];
} boxes[3], *box = boxes, *other = boxes;

static uint8_t set_name[PTL_NAME_MAX], label[PTL_LABEL_MAX], context[PTL_CONTEXT_MAX];
static uint8_t message[PTL_MESSAGE_MAX], key[PTL_KEY_MAX], listing[2 * PTL_STORE_MAX], image[PTL_IMAGE_MAX];
static size_t context_len, start_len, message_len, key_len, listing_room, image_room, image_len, written, labels, place, length;
static uint8_t actor, answer, byte;
static bool more;
static uint64_t counter;

static void nothing(void)
{
    answer = PTL_DONE;
}

static void version(void)
{
    counter = ptl_version();
}

static void set_up(void)
{
    answer = ptl_set_up(actor, set_name, sizeof set_name, box->state, sizeof box->state);
}

static void own_add(void)
{
    answer = ptl_own_add(box->state, sizeof box->state, box->store, sizeof box->store, label, sizeof label, context, context_len, message,
                         sizeof message, &message_len);
}

static void own_remove(void)
{
    answer = ptl_own_remove(box->state, sizeof box->state, box->store, sizeof box->store, context, context_len, message, sizeof message,
                            &message_len);
}

static void take_in(void)
{
    answer = ptl_take_in(box->state, sizeof box->state, box->store, sizeof box->store, message, message_len);
}

static void list(void)
{
    answer = ptl_list(box->state, sizeof box->state, box->store, sizeof box->store, listing, listing_room, &written, &labels);
}

static void page(void)
{
    answer = ptl_page(box->state, sizeof box->state, box->store, sizeof box->store, label, start_len, listing, listing_room, &written,
                      &labels, &more);
}

static void merge(void)
{
    answer = ptl_merge(box->state, sizeof box->state, box->store, sizeof box->store, other->state, sizeof other->state, other->store,
                       sizeof other->store, listing, listing_room, &written, &labels);
}

static void lookup(void)
{
    struct ptl_bytes found = {box->store, 0};
    bool listed;
    answer = ptl_lookup(box->state, sizeof box->state, box->store, sizeof box->store, label, sizeof label, &found, &listed);
}

static void compact(void)
{
    answer = ptl_compact(box->state, sizeof box->state, box->store, sizeof box->store);
}

static void write_image(void)
{
    answer = ptl_write_image(box->state, sizeof box->state, box->store, sizeof box->store, image, image_room, &image_len);
}

static void load_image(void)
{
    answer = ptl_load_image(actor, image, image_len, box->state, sizeof box->state, box->store, sizeof box->store);
}

static void write_key(void)
{
    answer = ptl_write_key('e', set_name, sizeof set_name, label, sizeof label, actor, counter, key, sizeof key, &key_len);
}

static void read_key(void)
{
    answer = ptl_read_key(key, key_len, &byte, &place, &length, &place, &length, &byte, &counter);
}

static void read_message(void)
{
    answer = ptl_read_message(message, message_len, &byte, &place, &length, &place, &length, &byte, &counter, &place, &length);
}

/* Each function, the most stack that its calls took, and how many of them were accepted and refused. */
static struct row {
    const char *name;
    void (*call)(void);
    size_t most, accepted, refused;
} rows[] = {
    {"no call", nothing, 0, 0, 0},
    {"ptl_version", version, 0, 0, 0},
    {"ptl_set_up", set_up, 0, 0, 0},
    {"ptl_own_add", own_add, 0, 0, 0},
    {"ptl_own_remove", own_remove, 0, 0, 0},
    {"ptl_take_in", take_in, 0, 0, 0},
    {"ptl_list", list, 0, 0, 0},
    {"ptl_page", page, 0, 0, 0},
    {"ptl_merge", merge, 0, 0, 0},
    {"ptl_lookup", lookup, 0, 0, 0},
    {"ptl_compact", compact, 0, 0, 0},
    {"ptl_write_image", write_image, 0, 0, 0},
    {"ptl_load_image", load_image, 0, 0, 0},
    {"ptl_write_key", write_key, 0, 0, 0},
    {"ptl_read_key", read_key, 0, 0, 0},
    {"ptl_read_message", read_message, 0, 0, 0},
};
#define ROWS (sizeof rows / sizeof rows[0])

/* Measures a call on a box into the call's row. Its answer. */
static uint8_t measure(size_t at, void (*call)(void))
{
    struct row *row = rows;
    while (row->call != call) {
        row++;
    }
    box = &boxes[at];
    size_t bytes = taken(call);
    row->most = bytes > row->most ? bytes : row->most;
    row->accepted += answer == PTL_DONE;
    row->refused += answer != PTL_DONE;
    return answer;
}

/* ---- the run: box 0 adds and removes, box 1 takes in, box 2 has seen nothing before */

/* Makes the context so many dots of an actor, the last of them given. */
static void dots_up_to(uint8_t of, unsigned last, unsigned dots)
{
    memset(context, 0, sizeof context);
    context_len = dots * PTL_DOT_SIZE;
    for (unsigned i = 0; i < dots; i++) {
        uint8_t *dot = context + i * PTL_DOT_SIZE;
        unsigned n = last - dots + 1 + i;
        dot[0] = of;
        dot[PTL_DOT_SIZE - 2] = (uint8_t)(n / 256);
        dot[PTL_DOT_SIZE - 1] = (uint8_t)(n % 256);
    }
}

/* Makes the label one of full length for a number, which ascends in another order than the numbers. */
static void label_for(unsigned number)
{
    memset(label, 'x', sizeof label);
    for (unsigned i = 0; i < 4; i++) {
        label[i] = (uint8_t)('a' + number % 16);
        number /= 16;
    }
}

/* Adds at box 0 until its store is full; each message goes to box 1. Every sixteenth removes the one before it. The number of adds. */
static unsigned adds(void)
{
    unsigned made = 0;
    for (;;) {
        label_for(made);
        dots_up_to(1, made, made % 16 == 15);
        if (measure(0, own_add) != PTL_DONE) {
            return made;
        }
        measure(0, read_message);
        measure(1, take_in);
        made++;
    }
}

/* Removes at box 0 until its tombstone is full, most dots at a time, then as many as still fit; each message goes to box 1. */
static void removes(unsigned made)
{
    unsigned last = made, dots = PTL_CONTEXT_DOTS_MAX;
    while (dots > 0 && dots < last) {
        dots_up_to(1, last, dots);
        if (measure(0, own_remove) == PTL_DONE) {
            measure(1, take_in);
            last -= dots;
        } else {
            dots /= 2;
        }
    }
}

/* Pages after the first so many bytes of the label; after none is from the front. */
static void pages(size_t at, size_t bytes)
{
    const size_t rooms[] = {sizeof listing, 512, 0};
    start_len = bytes;
    for (size_t i = 0; i < sizeof rooms / sizeof rooms[0]; i++) {
        listing_room = rooms[i];
        measure(at, page);
    }
}

/* Merged reads with each box, itself too: outputs with room for all, for what was listed and for nothing. */
static void merges(size_t at)
{
    for (other = boxes; other < boxes + 3; other++) {
        listing_room = sizeof listing;
        measure(at, merge);
        listing_room = written;
        measure(at, merge);
        listing_room = 0;
        measure(at, merge);
    }
}

/* Calls that read: outputs with room for all, for what was listed, for a few labels and for nothing; labels that are there, and one that is
   not. */
static void reads(size_t at)
{
    merges(at);
    listing_room = sizeof listing;
    measure(at, list);
    listing_room = written;
    measure(at, list);
    listing_room = 0;
    measure(at, list);
    label_for(7);
    pages(at, 0);
    pages(at, sizeof label);
    measure(at, lookup);
    label_for(5000);
    pages(at, sizeof label);
    measure(at, lookup);
}

/* An add with the longest message; box 2 has seen none of its dots, and takes the message in. */
static void longest(unsigned made)
{
    dots_up_to(2, PTL_WINDOW, PTL_CONTEXT_DOTS_MAX);
    measure(2, own_add);
    measure(2, compact);
    dots_up_to(1, made, PTL_CONTEXT_DOTS_MAX);
    measure(0, own_add);
    measure(0, read_message);
    measure(1, take_in);
    measure(2, take_in);
    counter = made;
    measure(0, write_key);
    measure(0, read_key);
    key_len--;
    measure(0, read_key);
}

/* Images of each box, with room for all and for nothing; loaded in box 2 as an actor that is free, as one that is not, and with a bit turned
   over. */
static void images(void)
{
    for (size_t at = 0; at < 3; at++) {
        image_room = 0;
        measure(at, write_image);
        image_room = sizeof image;
        measure(at, write_image);
        actor = PTL_ACTOR_MAX - (uint8_t)at;
        measure(2, load_image);
        measure(2, load_image);
        actor = (uint8_t)(at + 1);
        measure(2, load_image);
        image[image_len - 1] ^= 1;
        measure(2, load_image);
        image[image_len - 1] ^= 1;
        actor = PTL_ACTOR_MAX - (uint8_t)at;
        measure(2, load_image);
    }
}

/* Every call that takes a state, on damaged ones. */
static void damaged(void)
{
    for (size_t at = 0; at < 3; at++) {
        boxes[at].state[PTL_STATE_ACTOR_AT] = 0;
        measure(at, own_add);
        measure(at, own_remove);
        measure(at, take_in);
        measure(at, compact);
        measure(at, write_image);
        reads(at);
    }
}

int main(void)
{
    memset(set_name, 'n', sizeof set_name);
    measure(0, nothing);
    measure(0, version);
    measure(0, set_up);
    for (size_t at = 0; at < 3; at++) {
        actor = (uint8_t)(at + 1);
        measure(at, set_up);
    }
    unsigned made = adds();
    removes(made);
    for (size_t at = 0; at < 3; at++) {
        reads(at);
        measure(at, compact);
        reads(at);
    }
    longest(made);
    images();
    damaged();
    bool enough = true;
    for (const struct row *row = rows; row < rows + ROWS; row++) {
        printf("%-17s%5zu bytes (%zu accepted, %zu refused)\n", row->name, row->most, row->accepted, row->refused);
        enough = enough && row->most <= STACK_ENOUGH;
    }
    return enough ? 0 : 1;
}
