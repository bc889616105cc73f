/* The first day of two controllers: cases A1, A2, R1 and C1 of document 01 through the C interface, every byte compared, with a remove that
   comes twice; a listing read in pages, and one of both controllers; a controller that takes the place of another. Exits 1 on the first
   difference.

     cc -std=c99 -Iinclude -o first_day examples/first_day.c target/staticlib/libcapi.a
*/
#include <stdio.h>
#include <stdlib.h>
#include <string.h>

#include "ptl.h"

/* A controller is its state block and its store. */
struct controller {
    uint8_t state[PTL_STATE_SIZE];
    uint8_t store[256];
};

/* What a call put out. */
struct output {
    uint8_t bytes[PTL_MESSAGE_MAX];
    size_t written;
};

static const uint8_t set_name[] = {'R', '1'};
static const uint8_t label[] = {'B', '7'};

/* Dots, each in PTL_DOT_SIZE bytes; the one of counter 1 of actor 1 is the context of A2, R1 and C1. */
#define DOT(actor, counter) actor, 0, 0, 0, 0, 0, 0, 0, counter
static const uint8_t dot_1_1[] = {DOT(1, 1)};

/* The messages, byte by byte: mark, version, kind, set name, for an add label and dot, then the context. */
static const uint8_t add_1_1[] = {0x50, 0x54, 0x4C, 0, 1, 0x61, 2, 0x52, 0x31, 2, 0x42, 0x37, DOT(1, 1), 0};
static const uint8_t add_1_2[] = {0x50, 0x54, 0x4C, 0, 1, 0x61, 2, 0x52, 0x31, 2, 0x42, 0x37, DOT(1, 2), 1, DOT(1, 1)};
static const uint8_t add_2_1[] = {0x50, 0x54, 0x4C, 0, 1, 0x61, 2, 0x52, 0x31, 2, 0x42, 0x37, DOT(2, 1), 0};
static const uint8_t remove_1_1[] = {0x50, 0x54, 0x4C, 0, 1, 0x72, 2, 0x52, 0x31, 1, DOT(1, 1)};

/* The listings: label length, label, number of dots, dots. */
static const uint8_t lists_1_1[] = {2, 0x42, 0x37, 0, 1, DOT(1, 1)};
static const uint8_t lists_1_2[] = {2, 0x42, 0x37, 0, 1, DOT(1, 2)};
static const uint8_t lists_both[] = {2, 0x42, 0x37, 0, 2, DOT(1, 1), DOT(2, 1)};
static const uint8_t lists_2_1[] = {2, 0x42, 0x37, 0, 1, DOT(2, 1)};

/* Adds of the labels A and C by actor 3, and the listing of these with the B7 of actor 2. */
static const uint8_t add_a[] = {0x50, 0x54, 0x4C, 0, 1, 0x61, 2, 0x52, 0x31, 1, 0x41, DOT(3, 1), 0};
static const uint8_t add_c[] = {0x50, 0x54, 0x4C, 0, 1, 0x61, 2, 0x52, 0x31, 1, 0x43, DOT(3, 2), 0};
static const uint8_t lists_three[] = {1, 0x41, 0, 1, DOT(3, 1), 2, 0x42, 0x37, 0, 1, DOT(2, 1), 1, 0x43, 0, 1, DOT(3, 2)};

/* The first add of actor 4, of B7, and the listing of A and both dots of B7. */
static const uint8_t add_4_1[] = {0x50, 0x54, 0x4C, 0, 1, 0x61, 2, 0x52, 0x31, 2, 0x42, 0x37, DOT(4, 1), 0};
static const uint8_t lists_new[] = {1, 0x41, 0, 1, DOT(3, 1), 2, 0x42, 0x37, 0, 2, DOT(2, 1), DOT(4, 1)};

/* The remove of C, and the listing without it. */
static const uint8_t remove_c[] = {0x50, 0x54, 0x4C, 0, 1, 0x72, 2, 0x52, 0x31, 1, DOT(3, 2)};
static const uint8_t lists_two[] = {1, 0x41, 0, 1, DOT(3, 1), 2, 0x42, 0x37, 0, 1, DOT(2, 1)};

static void expect_number(const char *what, uint64_t is, uint64_t must)
{
    if (is != must) {
        printf("%s: %llu, must be %llu\n", what, (unsigned long long)is, (unsigned long long)must);
        exit(1);
    }
}

static void expect_bytes(const char *what, const uint8_t *is, size_t is_len, const uint8_t *must, size_t must_len)
{
    expect_number(what, is_len, must_len);
    for (size_t i = 0; i < must_len; i++) {
        if (is[i] != must[i]) {
            printf("%s: byte %zu is %02X, must be %02X\n", what, i, is[i], must[i]);
            exit(1);
        }
    }
}

/* ---- calls that must be answered 0 */

static void set_up(struct controller *c, uint8_t actor)
{
    memset(c->store, 0, sizeof c->store);
    expect_number("set-up", ptl_set_up(actor, set_name, sizeof set_name, c->state, sizeof c->state), PTL_DONE);
}

static void add(struct controller *c, const uint8_t *context, size_t context_len, const uint8_t *message, size_t message_len)
{
    struct output out;
    uint8_t answer = ptl_own_add(c->state, sizeof c->state, c->store, sizeof c->store, label, sizeof label, context, context_len, out.bytes,
                                 sizeof out.bytes, &out.written);
    expect_number("own add", answer, PTL_DONE);
    expect_bytes("add message", out.bytes, out.written, message, message_len);
}

static void remove_dots(struct controller *c, const uint8_t *context, size_t context_len, const uint8_t *message, size_t message_len)
{
    struct output out;
    uint8_t answer = ptl_own_remove(c->state, sizeof c->state, c->store, sizeof c->store, context, context_len, out.bytes,
                                    sizeof out.bytes, &out.written);
    expect_number("own remove", answer, PTL_DONE);
    expect_bytes("remove message", out.bytes, out.written, message, message_len);
}

static void take_in(struct controller *c, const uint8_t *message, size_t message_len)
{
    expect_number("taking in", ptl_take_in(c->state, sizeof c->state, c->store, sizeof c->store, message, message_len), PTL_DONE);
}

static void compact(struct controller *c)
{
    expect_number("compaction", ptl_compact(c->state, sizeof c->state, c->store, sizeof c->store), PTL_DONE);
}

/* The listing, its number of labels, and what lookup says of B7. */
static void lists(const struct controller *c, const uint8_t *listing, size_t listing_len, size_t labels, size_t stretch)
{
    struct output out;
    size_t listed = 0;
    uint8_t answer = ptl_list(c->state, sizeof c->state, c->store, sizeof c->store, out.bytes, sizeof out.bytes, &out.written, &listed);
    expect_number("listing", answer, PTL_DONE);
    expect_bytes("listing", out.bytes, out.written, listing, listing_len);
    expect_number("number of labels", listed, labels);
    struct ptl_bytes found = {c->store, 0};
    bool yes = false;
    answer = ptl_lookup(c->state, sizeof c->state, c->store, sizeof c->store, label, sizeof label, &found, &yes);
    expect_number("lookup", answer, PTL_DONE);
    expect_number("lookup's yes", yes, labels);
    expect_number("stretch's place", (uint64_t)(found.at - c->store), 0);
    expect_number("stretch's length", found.len, stretch);
}

/* The length of an entry: label length, label, number of dots, dots. */
static size_t entry_length(const uint8_t *entry)
{
    const uint8_t *number = entry + 1 + entry[0];
    return 1 + entry[0] + 2 + (size_t)(number[0] * 256 + number[1]) * PTL_DOT_SIZE;
}

/* Copies the label of the last entry of a page to start. Its length, 0 if there is no entry. */
static size_t last_label(const uint8_t *page, size_t written, uint8_t *start)
{
    size_t last = 0;
    for (size_t at = 0; at < written; at += entry_length(page + at)) {
        last = at;
    }
    size_t length = written > 0 ? page[last] : 0;
    memcpy(start, page + last + 1, length);
    return length;
}

/* The listing in pages with room for a label or two: from the front, each after the last label of the one before, until none follows. */
static void lists_in_pages(const struct controller *c, const uint8_t *listing, size_t listing_len, size_t labels)
{
    uint8_t page[27], start[PTL_LABEL_MAX], joined[PTL_MESSAGE_MAX];
    size_t start_len = 0, joined_len = 0, listed = 0;
    bool more = true;
    while (more) {
        size_t written, of_page;
        uint8_t answer = ptl_page(c->state, sizeof c->state, c->store, sizeof c->store, start, start_len, page, sizeof page, &written,
                                  &of_page, &more);
        expect_number("page", answer, PTL_DONE);
        memcpy(joined + joined_len, page, written);
        joined_len += written;
        listed += of_page;
        start_len = last_label(page, written, start);
    }
    expect_bytes("pages joined", joined, joined_len, listing, listing_len);
    expect_number("labels of all pages", listed, labels);
}

/* One listing of two controllers, in an output as long as it; a byte less is too short. */
static void list_together(const struct controller *a, const struct controller *b, const uint8_t *listing, size_t listing_len, size_t labels)
{
    struct output out;
    size_t listed = 0;
    uint8_t answer = ptl_merge(a->state, sizeof a->state, a->store, sizeof a->store, b->state, sizeof b->state, b->store, sizeof b->store,
                               out.bytes, listing_len - 1, &out.written, &listed);
    expect_number("merged read, too short", answer, PTL_OUTPUT_SHORT);
    answer = ptl_merge(a->state, sizeof a->state, a->store, sizeof a->store, b->state, sizeof b->state, b->store, sizeof b->store, out.bytes,
                       listing_len, &out.written, &listed);
    expect_number("merged read", answer, PTL_DONE);
    expect_bytes("merged read", out.bytes, out.written, listing, listing_len);
    expect_number("labels of both", listed, labels);
}

/* A hand-off image: all that a controller holds. */
struct image {
    uint8_t bytes[PTL_IMAGE_MAX];
    size_t written;
};

/* Writes an image, in an output as long as it; a byte less is too short. */
static void write_image(const struct controller *c, struct image *image)
{
    uint8_t answer = ptl_write_image(c->state, sizeof c->state, c->store, sizeof c->store, image->bytes, sizeof image->bytes, &image->written);
    expect_number("image", answer, PTL_DONE);
    size_t length = image->written;
    answer = ptl_write_image(c->state, sizeof c->state, c->store, sizeof c->store, image->bytes, length - 1, &image->written);
    expect_number("image, too short", answer, PTL_OUTPUT_SHORT);
    answer = ptl_write_image(c->state, sizeof c->state, c->store, sizeof c->store, image->bytes, length, &image->written);
    expect_number("image", answer, PTL_DONE);
}

/* Loads an image as this actor. A refusal leaves zeros in the state and the store as it was. */
static void load_image(struct controller *c, uint8_t actor, const struct image *image, uint8_t must)
{
    struct controller before = *c;
    uint8_t answer = ptl_load_image(actor, image->bytes, image->written, c->state, sizeof c->state, c->store, sizeof c->store);
    expect_number("load", answer, must);
    if (answer != PTL_DONE) {
        memset(before.state, 0, sizeof before.state);
        expect_bytes("state of a refused load", c->state, sizeof c->state, before.state, sizeof before.state);
        expect_bytes("store of a refused load", c->store, sizeof c->store, before.store, sizeof before.store);
    }
}

/* The used length; the tombstone's dots, zeros to its end, and behind them their number, which its last byte has room for. */
static void holds(const struct controller *c, uint64_t used, const uint8_t *tombstone, size_t tombstone_len)
{
    uint8_t bytes[PTL_TOMBSTONE_SIZE + PTL_NUMBER_SIZE] = {0};
    if (tombstone_len > 0) {
        memcpy(bytes, tombstone, tombstone_len);
    }
    bytes[sizeof bytes - 1] = (uint8_t)(tombstone_len / PTL_DOT_SIZE);
    expect_number("used length", ptl_state_used(c->state), used);
    expect_bytes("tombstone", c->state + PTL_STATE_TOMBSTONE_AT, sizeof bytes, bytes, sizeof bytes);
}

int main(void)
{
    static struct controller one, two, three;
    static struct image image, again;
    static const uint8_t none[1];

    /* The library is the one that this header goes with. */
    expect_number("version", ptl_version(), PTL_VERSION);

    /* A1: fresh actor 1 adds B7, empty context. */
    set_up(&one, 1);
    add(&one, none, 0, add_1_1, sizeof add_1_1);
    lists(&one, lists_1_1, sizeof lists_1_1, 1, 19);

    /* A2: then adds B7 with {(1,1)}: dot (1,2), tombstone {(1,1)}, 38 bytes used; after compaction 19 used, tombstone empty. */
    add(&one, dot_1_1, sizeof dot_1_1, add_1_2, sizeof add_1_2);
    holds(&one, 38, dot_1_1, sizeof dot_1_1);
    lists(&one, lists_1_2, sizeof lists_1_2, 1, 38);
    compact(&one);
    holds(&one, 19, none, 0);
    lists(&one, lists_1_2, sizeof lists_1_2, 1, 19);

    /* R1: fresh actor 2 takes in remove {(1,1)}, then A1's message: both answer 0, nothing stored, listing empty. */
    set_up(&two, 2);
    take_in(&two, remove_1_1, sizeof remove_1_1);
    take_in(&two, add_1_1, sizeof add_1_1);
    holds(&two, 0, none, 0);
    lists(&two, none, 0, 0, 0);

    /* R1's remove comes again: tombstone {(1,1)}, a dot without a key; after compaction it is empty. */
    take_in(&two, remove_1_1, sizeof remove_1_1);
    holds(&two, 0, dot_1_1, sizeof dot_1_1);
    compact(&two);
    holds(&two, 0, none, 0);

    /* C1: B7 has dots (1,1) and (2,1); remove {(1,1)}: B7 stays with (2,1). */
    set_up(&one, 1);
    add(&one, none, 0, add_1_1, sizeof add_1_1);
    take_in(&one, add_2_1, sizeof add_2_1);
    lists(&one, lists_both, sizeof lists_both, 1, 38);
    remove_dots(&one, dot_1_1, sizeof dot_1_1, remove_1_1, sizeof remove_1_1);
    holds(&one, 38, dot_1_1, sizeof dot_1_1);
    lists(&one, lists_2_1, sizeof lists_2_1, 1, 38);

    /* Two more labels, and the listing in pages: A and B7 fill the first, C is on the second. */
    take_in(&one, add_a, sizeof add_a);
    take_in(&one, add_c, sizeof add_c);
    lists_in_pages(&one, lists_three, sizeof lists_three, 3);

    /* Asked together with another, which has not heard of A, has added B7 itself and has heard that C is removed: A and B7, which neither
       lists alone. Either may be first, and both may be one. */
    set_up(&two, 2);
    add(&two, none, 0, add_2_1, sizeof add_2_1);
    take_in(&two, remove_c, sizeof remove_c);
    lists(&two, lists_2_1, sizeof lists_2_1, 1, 19);
    list_together(&one, &two, lists_two, sizeof lists_two, 2);
    list_together(&two, &one, lists_two, sizeof lists_two, 2);
    list_together(&one, &one, lists_three, sizeof lists_three, 3);

    /* Controller one dies, and another takes its place from its image: not as actor 1, nor as one of which the writer has heard, nor with a bit
       turned over, but as actor 4. It lists what the dead one listed. */
    write_image(&one, &image);
    load_image(&three, 1, &image, PTL_ACTOR_TAKEN);
    load_image(&three, 3, &image, PTL_ACTOR_TAKEN);
    image.bytes[20] ^= 1;
    load_image(&three, 4, &image, PTL_BAD_CHECKSUM);
    image.bytes[20] ^= 1;
    load_image(&three, 4, &image, PTL_DONE);
    holds(&three, ptl_state_used(one.state), dot_1_1, sizeof dot_1_1);
    expect_bytes("keys", three.store, 74, one.store, 74);
    list_together(&three, &one, lists_three, sizeof lists_three, 3);

    /* Written again at once the image differs in its actor, the tenth byte, and in the CRC, the last four. */
    write_image(&three, &again);
    expect_number("actor of the image", again.bytes[9], 4);
    again.bytes[9] = 1;
    expect_bytes("image written again", again.bytes, again.written - 4, image.bytes, image.written - 4);

    /* Its own adds begin with 1, and what was sent meanwhile comes in as ever. */
    take_in(&three, remove_c, sizeof remove_c);
    add(&three, none, 0, add_4_1, sizeof add_4_1);
    take_in(&one, remove_c, sizeof remove_c);
    take_in(&one, add_4_1, sizeof add_4_1);
    list_together(&three, &one, lists_new, sizeof lists_new, 2);

    printf("A1, A2, R1 and C1 as in document 01, R1 with its remove twice; a listing in pages, and one of two controllers; one"
           " that takes another's place\n");
    return 0;
}
