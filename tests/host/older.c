/* older: memory of version 0.1 is carried over by include/starterbell_older.h. Its record slots, of 2,184 bytes with values of up to 2,048, are laid out here by hand, with
   the numbers of that version written out. What is taken has to be found and served byte for byte, what is refused has to be told, and the old memory may not change.
   Status 0 and a line, or 1 at the first difference. */
#include "starterbell_box.h"
#include "starterbell_older.h"

#include <stdio.h>
#include <stdlib.h>
#include <string.h>

enum { SLOT = 2184, SLOTS = 256, LONGEST = 2048 };

static uint8_t older[(SLOTS + 1) * SLOT], older_before[sizeof older];
static uint8_t records[SLOTS * STARTERBELL_RECORD_SLOT], records_before[sizeof records];
static uint8_t reply[STARTERBELL_REPLY_BUFFER], message[STARTERBELL_REPLY_BUFFER];
static struct starterbell_box box;
static struct starterbell_connection conn;
static unsigned compared;

static void expect(const char *what, uint64_t got, uint64_t want) {
    compared++;
    if (got == want) return;
    printf("older: %s: %llu, and it should be %llu\n", what, (unsigned long long)got, (unsigned long long)want);
    exit(1);
}

static void expect_bytes(const char *what, struct starterbell_bytes got, struct starterbell_bytes want) {
    expect(what, got.length, want.length);
    expect(what, (uint64_t)memcmp(got.at, want.at, want.length), 0);
}

/* ---- Memory of version 0.1 */

/* Trims 0 and 9,000: version 0.1 took it until leaps were ruled out. */
static const uint8_t leaper[] = {0, 0, 1, 0xd0, 0x8c, 1, 22, 0, 0, 0, 2, 0, 1, 0, 8, 0, 0, 0, 0, 0, 0, 0};

/* The key of number n: every second one has 128 bytes. */
static struct starterbell_bytes key_of(unsigned n) {
    static char room[160];
    snprintf(room, sizeof room, n % 2 ? "/wind/%03u" : "/wind/%0122u", n);
    return starterbell_text(room);
}

/* Its value, of so many bytes. */
static struct starterbell_bytes value_of(unsigned n, size_t length) {
    static uint8_t value[STARTERBELL_VALUE_MOST], note[STARTERBELL_VALUE_MOST];
    struct starterbell_recipe recipe = starterbell_recipe_of(STARTERBELL_RECIPE_FORMAT_ONE, n);
    memset(note, (int)(n % 200 + 1), sizeof note);
    recipe.note = starterbell_bytes_at(note, length - STARTERBELL_RECIPE_TRAILER_ONE);
    expect("a value", starterbell_value_write(value, sizeof value, &recipe).code, STARTERBELL_DONE);
    return starterbell_bytes_at(value, length);
}

static void lay_out(unsigned slot, struct starterbell_bytes key, struct starterbell_bytes value) {
    uint8_t *at = older + slot * (size_t)SLOT;
    memset(at, 0, SLOT);
    at[0] = (uint8_t)key.length;
    at[2] = (uint8_t)(value.length % 256);
    at[3] = (uint8_t)(value.length / 256);
    memcpy(at + 8, key.at, key.length);
    memcpy(at + 136, value.at, value.length);
}

/* So many records, each value of so many bytes, and records of this version that are cleared. */
static void begin(unsigned count, size_t length) {
    unsigned n;
    memset(older, 0, sizeof older);
    memset(records, 0, sizeof records);
    for (n = 0; n < count; n++) lay_out(n, key_of(n), value_of(n, length));
}

/* Carries over so many slots, into so many. */
static struct starterbell_carried_over carry(size_t slots, size_t into) {
    struct starterbell_carried_over carried;
    memcpy(older_before, older, sizeof older);
    carried = starterbell_carry_over(records, into * STARTERBELL_RECORD_SLOT, older, slots * SLOT);
    expect("old memory that changed", (uint64_t)memcmp(older, older_before, sizeof older), 0);
    return carried;
}

static void expect_carried(struct starterbell_carried_over got, size_t taken, size_t refused, size_t slot, uint32_t refusal) {
    expect("carrying over", got.code, STARTERBELL_DONE);
    expect("how many were taken", got.taken, taken);
    expect("how many were refused", got.refused, refused);
    expect("the first slot that was refused", got.slot, slot);
    expect("why it was refused", got.refusal, refusal);
}

/* ---- What a box has */

static void lend(size_t slots) {
    box.contacts = reply;
    box.contacts_length = 0;
    box.records = records;
    box.records_length = slots * STARTERBELL_RECORD_SLOT;
    box.reply = reply;
    box.reply_length = sizeof reply;
    expect("start", starterbell_box_start(&box, starterbell_text("our box"), starterbell_nothing()), STARTERBELL_DONE);
}

/* A GET_VALUE is answered with this record. */
static void expect_served(struct starterbell_bytes key, struct starterbell_bytes value) {
    struct starterbell_message get_value = starterbell_message_of(STARTERBELL_TYPE_GET_VALUE, key);
    struct starterbell_written written = starterbell_message_write(message, sizeof message, &get_value);
    struct starterbell_received got;
    struct starterbell_bytes body;
    uint64_t view[STARTERBELL_VIEW];
    size_t prefix = 1;
    expect("open", starterbell_box_open(&box, &conn, starterbell_text("a client"), 0, 0, starterbell_nothing()), STARTERBELL_DONE);
    got = starterbell_box_receive(&box, &conn, starterbell_bytes_at(message, written.length));
    expect("GET_VALUE", got.code, STARTERBELL_RECEIVE_REPLY);
    while (reply[prefix - 1] >= 128) prefix++;
    body = starterbell_bytes_at(reply + prefix, got.length - prefix);
    expect("reading the reply", starterbell_read(body.at, body.length, view, STARTERBELL_VIEW), STARTERBELL_DONE);
    expect_bytes("the key that is served", starterbell_part(body, view[STARTERBELL_VIEW_RECORD_KEY_START], view[STARTERBELL_VIEW_RECORD_KEY_END]), key);
    expect_bytes("the value that is served", starterbell_part(body, view[STARTERBELL_VIEW_VALUE_START], view[STARTERBELL_VIEW_VALUE_END]), value);
}

/* The record of number n is found and served, with a value of so many bytes. */
static void expect_held(unsigned n, size_t length) {
    struct starterbell_found held = starterbell_box_find(&box, key_of(n));
    expect("find", held.code, STARTERBELL_FIND_HELD);
    expect_bytes("the value that is found", held.value, value_of(n, length));
    expect_served(key_of(n), value_of(n, length));
}

/* ---- What is played */

static void play_full(void) {
    unsigned n;
    begin(SLOTS, LONGEST);
    expect_carried(carry(SLOTS, SLOTS), SLOTS, 0, 0, 0);
    lend(SLOTS);
    for (n = 0; n < SLOTS; n++) expect_held(n, LONGEST);
    expect_carried(carry(SLOTS, SLOTS), SLOTS, 0, 0, 0);
    expect("a longer value in its place", starterbell_box_put(&box, key_of(1), value_of(1001, STARTERBELL_VALUE_MOST)), STARTERBELL_DONE);
    expect_served(key_of(1), value_of(1001, STARTERBELL_VALUE_MOST));
    expect_carried(carry(SLOTS, SLOTS), SLOTS - 1, 1, 1, STARTERBELL_REFUSAL_OUTRANKED);
    lay_out(SLOTS, starterbell_text("/wind/the 257th"), value_of(1, 16));
    expect("the slots of too much memory", starterbell_older_slots(sizeof older), SLOTS);
    expect_carried(carry(SLOTS + 1, SLOTS), SLOTS - 1, 1, 1, STARTERBELL_REFUSAL_OUTRANKED);
}

/* Slot by slot, as a host does that shows each. */
static void play_slots(void) {
    struct starterbell_older_record record;
    begin(3, 100);
    older[SLOT] = 0;
    record = starterbell_older_at(older, 3 * SLOT, 0);
    expect("a record", record.code, STARTERBELL_FIND_HELD);
    expect_bytes("its key", record.key, key_of(0));
    expect_bytes("its value", record.value, value_of(0, 100));
    expect("a free slot", starterbell_older_at(older, 3 * SLOT, 1).code, STARTERBELL_FIND_NOT_HELD);
    expect("a slot that isn't whole", starterbell_older_at(older, 3 * SLOT - 1, 2).code, STARTERBELL_REFUSAL_OUT_OF_FORM);
    expect("a slot that isn't there", starterbell_older_at(older, 3 * SLOT, (size_t)-1).code, STARTERBELL_REFUSAL_OUT_OF_FORM);
    /* the shortest, in a slot by itself */
    lay_out(2, starterbell_text("/wind/a"), value_of(2, 16));
    record = starterbell_older_at(older + 2 * SLOT, SLOT, 0);
    expect_bytes("the shortest key", record.key, starterbell_text("/wind/a"));
    expect_bytes("the shortest value", record.value, value_of(2, 16));
    expect_carried(carry(3, 3), 2, 0, 0, 0);
    expect_carried(carry(0, 3), 0, 0, 0, 0);
    lend(3);
    expect("what a free slot had", starterbell_box_find(&box, key_of(1)).code, STARTERBELL_FIND_NOT_HELD);
    expect_served(starterbell_text("/wind/a"), value_of(2, 16));
}

/* What a put refuses is told, and the others are taken. */
static void play_refused(void) {
    begin(6, LONGEST);
    lay_out(2, key_of(2), starterbell_bytes_at(leaper, sizeof leaper));
    lay_out(4, key_of(4), starterbell_bytes_at(leaper, sizeof leaper));
    expect_carried(carry(6, 6), 4, 2, 2, STARTERBELL_REFUSAL_BROKEN_RECIPE);
    lend(6);
    expect("a leaper", starterbell_box_find(&box, key_of(2)).code, STARTERBELL_FIND_NOT_HELD);
    expect_held(5, LONGEST);
    begin(6, LONGEST);
    expect_carried(carry(6, 4), 4, 2, 4, STARTERBELL_REFUSAL_NO_RECORD_SLOT);
    lend(4);
    expect_held(3, LONGEST);
    expect("a record without a slot", starterbell_box_find(&box, key_of(4)).code, STARTERBELL_FIND_NOT_HELD);
    expect_carried(carry(6, 0), 0, 6, 0, STARTERBELL_REFUSAL_NO_RECORD_SLOT);
}

/* Bytes of the last of three slots that break its form. */
static void play_out_of_form(void) {
    static const struct { size_t at; uint8_t low, high; } broken[] = {{0, 6, 0}, {0, 129, 0}, {0, 255, 0}, {2, 1, 8}, {2, 15, 0}, {2, 255, 255}, {8, 'w', '/'}};
    struct starterbell_carried_over carried;
    size_t i;
    for (i = 0; i <= sizeof broken / sizeof *broken; i++) {
        begin(3, 300);
        lend(3);
        expect("a record that is held", starterbell_box_put(&box, key_of(2), value_of(1, 50)), STARTERBELL_DONE);
        if (i == sizeof broken / sizeof *broken) {
            /* a key that stands twice */
            memcpy(older + 2 * SLOT, older, SLOT);
        } else {
            older[2 * SLOT + broken[i].at] = broken[i].low;
            older[2 * SLOT + broken[i].at + 1] = broken[i].high;
        }
        memcpy(records_before, records, sizeof records);
        carried = carry(3, 3);
        expect("old memory that is out of form", carried.code, STARTERBELL_REFUSAL_OUT_OF_FORM);
        expect("what was taken of it", carried.taken + carried.refused, 0);
        expect("memory that changed", (uint64_t)memcmp(records, records_before, sizeof records), 0);
    }
    begin(3, 300);
    records[0] = 1;
    memcpy(records_before, records, sizeof records);
    expect("new memory that is out of form", carry(3, 3).code, STARTERBELL_REFUSAL_OUT_OF_FORM);
    expect("memory that changed", (uint64_t)memcmp(records, records_before, sizeof records), 0);
}

/* Old memory that is lent as it is: a full store is out of form, and one of short values has lost all but its first record. */
static void play_lent(void) {
    unsigned n;
    begin(SLOTS, LONGEST);
    lend(SLOTS);
    box.records = older;
    box.records_length = SLOTS * SLOT;
    for (n = 0; n < SLOTS; n++) expect("a full store", starterbell_box_find(&box, key_of(n)).code, STARTERBELL_REFUSAL_OUT_OF_FORM);
    begin(8, 16);
    box.records_length = 8 * SLOT;
    expect("the first of some short values", starterbell_box_find(&box, key_of(0)).code, STARTERBELL_FIND_HELD);
    for (n = 1; n < 8; n++) expect("another of some short values", starterbell_box_find(&box, key_of(n)).code, STARTERBELL_FIND_NOT_HELD);
}

int main(void) {
    play_full();
    play_slots();
    play_refused();
    play_out_of_form();
    play_lent();
    printf("records of version 0.1, up to %d of %d bytes, are carried over, found and served; what is refused is told: %u comparisons\n", SLOTS, LONGEST, compared);
    return 0;
}
