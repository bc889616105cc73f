/* The label set of a pick-to-light controller: C interface of the static library libcapi.a.

   Conventions, for every function:

   1. A slice of bytes is two parameters: a pointer and the number of bytes it points to. The caller owns all memory and lends it for the
      call; nothing is kept between calls, and nothing is allocated. The library needs memcpy and memset, and no other function.
   2. No pointer may be null, that of an empty slice included. What a call writes to (a pointer that is not const) may overlap no other
      argument of the call.
   3. A result is one of the numbers below. On a refusal (any but PTL_DONE) state, store and output buffer keep their bytes, and counts
      and decoded fields are 0. ptl_set_up and ptl_load_image alone are different: see there.
   4. Any argument values are answered: damaged states and stores, bytes of any kind, buffers of any length.
   5. A controller is its state block and its store. Calls on different controllers may run at the same time; calls on one may not. A merged
      read is a call on both of its controllers.
   6. Output past the bytes written, and store past the larger of the old and the new used length, keep their values.
   7. The library is machine code for x86-64 Linux and its calling convention alone (target x86_64-unknown-linux-gnu); size_t has 8 bytes.
*/
#ifndef PTL_H
#define PTL_H

#include <stdbool.h>
#include <stddef.h>
#include <stdint.h>

#ifdef __cplusplus
extern "C" {
#endif

/* Another size of size_t (see 7) does not compile. */
#if defined(__STDC_VERSION__) && __STDC_VERSION__ >= 201112L
_Static_assert(sizeof(size_t) == 8, "ptl.h: size_t must have 8 bytes");
#else
typedef char ptl_size_t_has_8_bytes[sizeof(size_t) == 8 ? 1 : -1];
#endif

/* ---- version */

/* The version of this interface: 100 * major + minor. A higher minor number adds functions and macros and keeps all that was there, the
   block too. Under another major number a function, a limit, a format or the block may be another: see docs/INTEGRATION.md, "Versions". */
#define PTL_VERSION 402

/* The version that the library has: PTL_VERSION of the header that goes with it. */
uint32_t ptl_version(void);

/* ---- limits of the rules */

/* Actors are 1 to PTL_ACTOR_MAX. Counters are 1 to the largest number of 8 bytes. A set name has 1 to PTL_NAME_MAX bytes, a label 1 to
   PTL_LABEL_MAX, none of them 0. A label prints if each of its bytes is PTL_PRINT_MIN to PTL_PRINT_MAX: adds take no other, but a store may
   hold others, which an older version took. A context has at most PTL_CONTEXT_DOTS_MAX dots, the tombstone at most PTL_TOMBSTONE_DOTS_MAX, a
   store at most PTL_STORE_MAX bytes. A row of the clock sees events up to PTL_WINDOW above its base. */
#define PTL_ACTOR_MAX 16
#define PTL_NAME_MAX 16
#define PTL_LABEL_MAX 32
#define PTL_PRINT_MIN 0x20
#define PTL_PRINT_MAX 0x7E
#define PTL_CONTEXT_DOTS_MAX 64
#define PTL_TOMBSTONE_DOTS_MAX 128
#define PTL_STORE_MAX 65536
#define PTL_WINDOW 64

/* ---- sizes in bytes */

/* Numbers (counters, lengths, counts) have 8 bytes, highest first. */
#define PTL_NUMBER_SIZE 8

/* A dot is an actor in 1 byte and a counter. A context is its dots end to end, strictly ascending. */
#define PTL_DOT_SIZE (1 + PTL_NUMBER_SIZE)
#define PTL_CONTEXT_MAX (PTL_CONTEXT_DOTS_MAX * PTL_DOT_SIZE)

/* A label key is magic and version, the set name, 00 and type, the label, 00, actor, 00, and the counter: PTL_KEY_FIXED bytes beside the
   name and the label. No key is longer. */
#define PTL_KEY_FIXED (2 + 2 + 3 + PTL_NUMBER_SIZE)
#define PTL_KEY_MAX (PTL_NAME_MAX + PTL_LABEL_MAX + PTL_KEY_FIXED)

/* A message is mark and version (5), kind (1), the length of the set name (1) and the name; in an add the length of the label (1), the label
   and the dot; then the number of dots (1) and the context. No message is longer than an add with all of them at their longest. */
#define PTL_MESSAGE_MAX (5 + 1 + (1 + PTL_NAME_MAX) + (1 + PTL_LABEL_MAX) + PTL_DOT_SIZE + (1 + PTL_CONTEXT_MAX))

/* A hand-off image is mark and version (5), kind (1), the length of the set name (1) and the name, the writer's actor (1), the clock, the
   number of dots in the tombstone (1) and the dots, the used length (4), the keys, and a CRC-32 of all of it (4). No image is longer than one
   with all of them at their longest; beside its keys it has at most PTL_IMAGE_MAX - PTL_STORE_MAX bytes. */
#define PTL_IMAGE_MAX (5 + 1 + (1 + PTL_NAME_MAX) + 1 + PTL_CLOCK_SIZE + (1 + PTL_TOMBSTONE_SIZE) + (4 + PTL_STORE_MAX) + 4)

/* ---- the state block */

/* The clock has a row for each actor, from actor 1 on: its base, then its window of PTL_WINDOW bits, highest byte first. The tombstone has
   room for its most dots. */
#define PTL_ROW_SIZE (PTL_NUMBER_SIZE + PTL_WINDOW / 8)
#define PTL_CLOCK_SIZE (PTL_ACTOR_MAX * PTL_ROW_SIZE)
#define PTL_TOMBSTONE_SIZE (PTL_TOMBSTONE_DOTS_MAX * PTL_DOT_SIZE)

/* A state crosses as a block of PTL_STATE_SIZE bytes, in which each field begins at its PTL_STATE_.._AT:

     ACTOR        1 byte
     NAME         PTL_NAME_MAX bytes: the set name; those past its length are 0
     NAME_LENGTH  a number
     CLOCK        PTL_CLOCK_SIZE bytes
     TOMBSTONE    PTL_TOMBSTONE_SIZE bytes: its dots in ascending order; those past them are 0
     COUNT        a number: the dots in the tombstone
     USED         a number, the used length: so many bytes at the store's front are its keys, end to end

   Every field has its full width: each state has one block, and each block of this size is one state, damaged or not. A block may be kept,
   copied and compared as bytes: two states are equal exactly if their blocks are. A block of another size is answered PTL_DAMAGED by every
   call that takes one; it is not changed. */
#define PTL_STATE_ACTOR_AT 0
#define PTL_STATE_NAME_AT (PTL_STATE_ACTOR_AT + 1)
#define PTL_STATE_NAME_LENGTH_AT (PTL_STATE_NAME_AT + PTL_NAME_MAX)
#define PTL_STATE_CLOCK_AT (PTL_STATE_NAME_LENGTH_AT + PTL_NUMBER_SIZE)
#define PTL_STATE_TOMBSTONE_AT (PTL_STATE_CLOCK_AT + PTL_CLOCK_SIZE)
#define PTL_STATE_COUNT_AT (PTL_STATE_TOMBSTONE_AT + PTL_TOMBSTONE_SIZE)
#define PTL_STATE_USED_AT (PTL_STATE_COUNT_AT + PTL_NUMBER_SIZE)
#define PTL_STATE_SIZE (PTL_STATE_USED_AT + PTL_NUMBER_SIZE)

/* The used length that stands in a block of PTL_STATE_SIZE bytes, damaged or not: in a damaged one it may be more than any store has. */
static inline uint64_t ptl_state_used(const uint8_t *state)
{
    uint64_t used = 0;
    for (size_t i = 0; i < PTL_NUMBER_SIZE; i++) {
        used = used * 256 + state[PTL_STATE_USED_AT + i];
    }
    return used;
}

/* ---- answers: the first that holds, in this order, where it applies to the call. Of an image 14 and 15 come after 4 and before 5 */

enum {
    PTL_DONE = 0,            /* done */
    PTL_DAMAGED = 1,         /* the state is damaged, or the store is longer than PTL_STORE_MAX */
    PTL_NO_MARK = 2,         /* message or image under 5 bytes or wrong mark */
    PTL_BAD_VERSION = 3,     /* version other than 1 */
    PTL_BAD_SHAPE = 4,       /* a message's or image's kind is unknown, its fields run past the end or bytes are left over; or bytes given as a key
                                are none */
    PTL_BAD_NAME = 5,        /* set name, label, or an actor given to set-up or to a key, breaks its rule; or the label of an add does not print;
                                or an image's set name or writer's actor breaks its rule */
    PTL_BAD_DOT = 6,         /* a dot, a context or a key's counter breaks its rule, or an add's context has its own dot; or what else is in an
                                image would be a damaged state */
    PTL_OTHER_SET = 7,       /* message is for another set, or two controllers are of different sets */
    PTL_OWN_AHEAD = 8,       /* an offered dot of this controller's own actor, but for the one an own add takes, is above its own base */
    PTL_COUNTER_END = 9,     /* own add with the own base at the largest counter */
    PTL_TOO_FAR = 10,        /* among all seen and offered dots together, one lies more than PTL_WINDOW above its actor's unbroken run from 1 */
    PTL_TOMBSTONE_FULL = 11, /* the tombstone would pass PTL_TOMBSTONE_DOTS_MAX dots */
    PTL_STORE_FULL = 12,     /* a key must be stored and used length + key length exceeds the store; or an image's used length does */
    PTL_OUTPUT_SHORT = 13,   /* the output buffer is shorter than what must be written */
    PTL_BAD_CHECKSUM = 14,   /* an image's CRC is wrong */
    PTL_ACTOR_TAKEN = 15     /* the actor that is to load an image is none, is the writer's, or has a row that is not empty */
};

/* The number of answers: each is below it. */
#define PTL_ANSWERS (PTL_ACTOR_TAKEN + 1)

/* ---- the calls of a controller */

/* Sets a controller up: writes to state, of PTL_STATE_SIZE bytes, what a controller holds that has seen nothing. Its store is any buffer
   of at most PTL_STORE_MAX bytes, with any content. Answers 1 if state has another size, and leaves it; then 5, and writes zeros
   throughout, which is a damaged state. */
uint8_t ptl_set_up(uint8_t actor, const uint8_t *name, size_t name_len, uint8_t *state, size_t state_len);

/* Adds a label that prints under a new dot of this controller, its own base + 1, and removes the dots of a context: puts the key in store
   and writes the add message, of *written bytes, to out. Answers 1, 5, 6, 8, 9, 10, 11, 12, 13. */
uint8_t ptl_own_add(uint8_t *state, size_t state_len, uint8_t *store, size_t store_len, const uint8_t *label, size_t label_len,
                    const uint8_t *context, size_t context_len, uint8_t *out, size_t out_len, size_t *written);

/* Removes the dots of a context: writes the remove message, of *written bytes, to out. Answers 1, 6, 8, 10, 11, 13. */
uint8_t ptl_own_remove(uint8_t *state, size_t state_len, const uint8_t *store, size_t store_len, const uint8_t *context,
                       size_t context_len, uint8_t *out, size_t out_len, size_t *written);

/* Takes a message in, one that ptl_own_add or ptl_own_remove wrote at any controller of the set; it may come late, twice or in any order.
   Answers 1, 2, 3, 4, 5, 6, 7, 8, 10, 11, 12; 5 for an add of a label that does not print too, as a box of an older version may send it. */
uint8_t ptl_take_in(uint8_t *state, size_t state_len, uint8_t *store, size_t store_len, const uint8_t *message, size_t message_len);

/* Lists *labels labels in *written bytes of out: for each label with a key whose dot is not in the tombstone, in ascending order, its
   length in 1 byte, the label, the number of such dots in 2 bytes, highest first, and the dots, ascending. Answers 1, 13. */
uint8_t ptl_list(const uint8_t *state, size_t state_len, const uint8_t *store, size_t store_len, uint8_t *out, size_t out_len,
                 size_t *written, size_t *labels);

/* Lists a page: of what ptl_list lists, the entries of the labels after start, as many whole ones as fit in out: *labels labels in *written
   bytes; *more becomes whether labels are left after them. start is the empty label, for the front of the listing, or any label; it need not
   be in the store. For a whole listing begin with the empty one, go on after the last label of the page before, and stop when *more is false.
   Every page speaks of the state that it finds. No label left is a page of no entry, accepted in an output of any length. Answers 1; 5 if
   start is not empty and breaks the rule of a label (it need not print); 13 if a label is left and the entry of the first one does not fit.
   On a refusal *more is false. */
uint8_t ptl_page(const uint8_t *state, size_t state_len, const uint8_t *store, size_t store_len, const uint8_t *start, size_t start_len,
                 uint8_t *out, size_t out_len, size_t *written, size_t *labels, bool *more);

/* Reads two controllers of one set as one: lists *labels labels in *written bytes of out, in the form of ptl_list. A label's dot is kept if
   both list it under that label, or if one lists it and the other's clock has not seen it; a label without such a dot is not listed. For
   a terminal that asks two racks which have not heard the same: it so shows what either alone does not know, and nothing that one of them
   knows to be removed. Which of the two is first makes no difference, and both may be the same controller, in the same memory. Nothing of
   either is changed. As many bytes as both have used are always enough for out. Answers 1 if either is damaged, or a store is longer than
   PTL_STORE_MAX; then 7 if they are of different sets; then 13. */
uint8_t ptl_merge(const uint8_t *first, size_t first_len, const uint8_t *first_store, size_t first_store_len, const uint8_t *second,
                  size_t second_len, const uint8_t *second_store, size_t second_store_len, uint8_t *out, size_t out_len, size_t *written,
                  size_t *labels);

/* A stretch of lent bytes. */
struct ptl_bytes {
    const uint8_t *at;
    size_t len;
};

/* Looks a label up: *found becomes the very stretch of store that holds the label's keys, dead ones included, or the empty stretch at the
   place where they would go; *listed becomes whether ptl_list lists the label. On a refusal *found is the empty stretch at the front of
   store, and *listed false. The stretch is good for as long as store is not changed. Before the call *found must be a stretch too:
   { store, 0 } will do. The label need not print. Answers 1, 5. */
uint8_t ptl_lookup(const uint8_t *state, size_t state_len, const uint8_t *store, size_t store_len, const uint8_t *label, size_t label_len,
                   struct ptl_bytes *found, bool *listed);

/* Drops each key whose dot is in the tombstone, and leaves the tombstone empty: the clock goes on keeping the removed dots out. Freed bytes
   of the store become 0. Answers 1. */
uint8_t ptl_compact(uint8_t *state, size_t state_len, uint8_t *store, size_t store_len);

/* ---- hand-off images */

/* Writes the hand-off image of a controller, of *written bytes, to out: all that it holds, for another box to load. Nothing of the controller is
   changed. As many bytes as are used, and PTL_IMAGE_MAX - PTL_STORE_MAX more, are always enough for out. Answers 1, 13. */
uint8_t ptl_write_image(const uint8_t *state, size_t state_len, const uint8_t *store, size_t store_len, uint8_t *out, size_t out_len,
                        size_t *written);

/* Loads a hand-off image in a box that is to take the writer's place: writes to state, of PTL_STATE_SIZE bytes, what the writer held, under
   this actor, and the keys to the front of store, which keeps its values past them. What state held before does not matter. The actor is 1 to
   PTL_ACTOR_MAX, is not the writer's, and the writer had seen no event of it; that no other box has it, no call can tell (docs/INTEGRATION.md,
   "Swapping a dead box"). Answers 1 if state has another size, and leaves it; then, in this order, 1 if store is longer than PTL_STORE_MAX, 2, 3,
   4, 14, 15, 5, 6, 12, and writes zeros throughout to state, which is a damaged state; store keeps its bytes then. */
uint8_t ptl_load_image(uint8_t actor, const uint8_t *image, size_t image_len, uint8_t *state, size_t state_len, uint8_t *store,
                       size_t store_len);

/* ---- keys and messages */

/* Writes a key, of *written bytes, to out. Its kind is one byte: 'c' (clock), 'd' (tombstone), 'e' (label) or 'z' (end). Of label, actor
   and counter those that the kind lacks are not looked at; a label need not print. Answers 4 for another kind, then 5, 6, 13. */
uint8_t ptl_write_key(uint8_t kind, const uint8_t *name, size_t name_len, const uint8_t *label, size_t label_len, uint8_t actor,
                      uint64_t counter, uint8_t *out, size_t out_len, size_t *written);

/* Reads a key: its kind byte, where in bytes its name and label stand (first place and length), its actor and counter. A field that the
   kind lacks is 0. Answers 4. */
uint8_t ptl_read_key(const uint8_t *bytes, size_t bytes_len, uint8_t *kind, size_t *name_at, size_t *name_len, size_t *label_at,
                     size_t *label_len, uint8_t *actor, uint64_t *counter);

/* Reads a message: its kind byte, 'a' (add) or 'r' (remove), where in bytes its set name, label and context stand (first place and
   length), and an add's dot. A field that the kind lacks is 0. Answers 2, 3, 4, 5, 6; an add's label must print. */
uint8_t ptl_read_message(const uint8_t *bytes, size_t bytes_len, uint8_t *kind, size_t *name_at, size_t *name_len, size_t *label_at,
                         size_t *label_len, uint8_t *actor, uint64_t *counter, size_t *context_at, size_t *context_len);

#ifdef __cplusplus
}
#endif

#endif
