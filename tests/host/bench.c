/* bench: the examples of docs/RULES.md, Examples, a recipe that leaps and recipes for two spools (RULES, Recipes), played through include/starterbell.h and the structs of starterbell_box.h,
   as the host of a box would call them. It ends with status 0 and a line of what was played, or at the first difference with status 1 and a line that says it.

   It is example code too, in C99 that C++11 takes. A host lends a box all of its memory, so everything here is static: nothing is allocated, and the functions
   keep nothing. Read `struct box` for what is lent, `serve` for how bytes go in and replies come out, and `look_up` for the asking side.

   Not played here: the examples of prefixes of places (a place is the hash of an id, so a host can't choose one) and the SHA-256 vectors. */
#include "starterbell_box.h"

#include <stdio.h>
#include <stdlib.h>
#include <string.h>

/* ---- What is compared */

static unsigned compared;

static void expect(const char *what, uint64_t got, uint64_t want) {
    compared++;
    if (got == want) return;
    printf("bench: %s: %llu, and it should be %llu\n", what, (unsigned long long)got, (unsigned long long)want);
    exit(1);
}

static void expect_bytes(const char *what, const uint8_t *got, size_t got_length, const uint8_t *want, size_t want_length) {
    size_t i;
    for (i = 0; i < got_length && i < want_length; i++)
        if (got[i] != want[i]) {
            printf("bench: %s: byte %zu is %02x, and it should be %02x\n", what, i, got[i], want[i]);
            exit(1);
        }
    expect(what, got_length, want_length);
}

/* ---- A box and its connections */

enum { CONTACTS = 64, RECORDS = 4 };

/* What a host lends for as long as the box runs. Contacts and records are cleared once; static memory is. */
struct box {
    struct starterbell_box core;
    uint8_t contacts[CONTACTS * STARTERBELL_CONTACT_SLOT];
    uint8_t records[RECORDS * STARTERBELL_RECORD_SLOT];
};

/* Replies may share one buffer: a reply is sent before the next call. */
static uint8_t reply[STARTERBELL_REPLY_BUFFER];

/* Addresses as calls take them: here a list of one, its length in two bytes before it. */
struct addresses {
    uint8_t list[2 + STARTERBELL_ADDRESS_MOST];
};

static struct starterbell_bytes one_address(struct addresses *to, const char *address) {
    size_t length = strlen(address);
    to->list[0] = (uint8_t)length;
    to->list[1] = 0;
    memcpy(to->list + 2, address, length);
    return starterbell_bytes_at(to->list, 2 + length);
}

static void start(struct box *box, const char *id, const char *address) {
    struct addresses addresses;
    memset(box, 0, sizeof *box);
    box->core.contacts = box->contacts;
    box->core.contacts_length = sizeof box->contacts;
    box->core.records = box->records;
    box->core.records_length = sizeof box->records;
    box->core.reply = reply;
    box->core.reply_length = sizeof reply;
    expect("start", starterbell_box_start(&box->core, starterbell_text(id), one_address(&addresses, address)), STARTERBELL_DONE);
}

/* A connection to a peer without addresses: `server` is its mode, `asking` says that we are the side that asks. */
static void open_to(const struct box *box, struct starterbell_connection *conn, const char *id, uint32_t server, uint32_t asking) {
    expect("open", starterbell_box_open(&box->core, conn, starterbell_text(id), server, asking, starterbell_nothing()), STARTERBELL_DONE);
}

/* What was sent to a peer: here it is kept to be compared. */
struct sent {
    uint8_t bytes[4 * STARTERBELL_REPLY_BUFFER];
    size_t length;
};

/* Serves one connection: bytes come in pieces of `cut`, and a piece may hold several messages, or a part of one. What a call didn't take of a piece is handed in
   again. Answers the refusal that shut the connection, or MORE. */
static uint32_t serve(struct box *box, struct starterbell_connection *conn, const uint8_t *bytes, size_t length, size_t cut, struct sent *to) {
    size_t at = 0;
    to->length = 0;
    while (at < length) {
        size_t end = length - at < cut ? length : at + cut;
        while (at < end) {
            struct starterbell_received got = starterbell_box_receive(&box->core, conn, starterbell_bytes_at(bytes + at, end - at));
            if (STARTERBELL_REFUSED(got.code)) return got.code;
            at += got.taken;
            if (got.code == STARTERBELL_RECEIVE_REPLY) {
                memcpy(to->bytes + to->length, reply, got.length);
                to->length += got.length;
            }
        }
    }
    return STARTERBELL_RECEIVE_MORE;
}

/* ---- The program's example, and prefixes */

static struct box box;
static struct starterbell_connection client;
static struct sent sent;

/* Serves a client of a new box, that has no contacts and no records. */
static uint32_t serve_new(const uint8_t *bytes, size_t length, size_t cut) {
    start(&box, "our box", "here");
    open_to(&box, &client, "a client", 0, 0);
    return serve(&box, &client, bytes, length, cut, &sent);
}

/* "02 08 05 06 08 04 12 02 41 42 writes exactly 02 08 05 02 08 04": a PING and a FIND_NODE for AB. */
static void play_program(void) {
    static const uint8_t requests[] = {0x02, 0x08, 0x05, 0x06, 0x08, 0x04, 0x12, 0x02, 0x41, 0x42};
    static const uint8_t replies[] = {0x02, 0x08, 0x05, 0x02, 0x08, 0x04};
    static const size_t cuts[] = {1, 7, sizeof requests};
    size_t i;
    for (i = 0; i < sizeof cuts / sizeof *cuts; i++) {
        expect("PING and FIND_NODE", serve_new(requests, sizeof requests, cuts[i]), STARTERBELL_RECEIVE_MORE);
        expect_bytes("the replies to PING and FIND_NODE", sent.bytes, sent.length, replies, sizeof replies);
        expect("an end between messages", starterbell_box_end(&box.core, &client), STARTERBELL_DONE);
        expect("an end of a shut connection", starterbell_box_end(&box.core, &client), STARTERBELL_REFUSAL_SHUT);
    }
}

static void play_prefix(const char *what, const uint8_t *bytes, size_t length, uint32_t want) {
    expect(what, serve_new(bytes, length, 1), want);
    expect(what, serve_new(bytes, length, length), want);
    expect("bytes on a connection that is shut", serve(&box, &client, bytes, length, length, &sent), STARTERBELL_REFUSAL_SHUT);
}

/* A length prefix ends inside its message, so "taken" is that more bytes are wanted. */
static void play_prefixes(void) {
    static const uint8_t empty[] = {0x00}, padded[] = {0x80, 0x00}, most[] = {0x80, 0x80, 0x01}, over[] = {0x81, 0x80, 0x01}, third[] = {0x80, 0x80, 0x80},
                         two[] = {0xff, 0x7f};
    struct starterbell_received got;
    play_prefix("prefix 00, an empty message", empty, sizeof empty, STARTERBELL_REFUSAL_BREAKS_RULES);
    play_prefix("prefix 80 00", padded, sizeof padded, STARTERBELL_REFUSAL_PREFIX_NOT_MINIMAL);
    play_prefix("prefix 81 80 01", over, sizeof over, STARTERBELL_REFUSAL_TOO_LONG);
    play_prefix("prefix 80 80 80", third, sizeof third, STARTERBELL_REFUSAL_TOO_LONG);
    expect("prefix 80 80 01, 16,384 bytes", serve_new(most, sizeof most, 1), STARTERBELL_RECEIVE_MORE);
    expect("an end inside a message", starterbell_box_end(&box.core, &client), STARTERBELL_REFUSAL_ENDED_INSIDE);
    expect("prefix FF 7F, 16,383 bytes", serve_new(two, sizeof two, 1), STARTERBELL_RECEIVE_MORE);
    serve_new(NULL, 0, 1);
    got = starterbell_box_receive(&box.core, &client, starterbell_bytes_at(third, sizeof third));
    expect("prefix 80 80 80 in one piece", got.code, STARTERBELL_REFUSAL_TOO_LONG);
    expect("the bytes that it took", got.taken, sizeof third);
}

/* ---- Recipes: PUT_VALUE and GET_VALUE */

static const uint8_t key[] = {'/', 'w', 'i', 'n', 'd', '/', 'a'};

/* A GET_VALUE for it. */
static const uint8_t get_value[] = {0x0b, 0x08, 0x01, 0x12, 0x07, '/', 'w', 'i', 'n', 'd', '/', 'a'};

/* Turn 0, trim -1, sequence 7. */
static const uint8_t recipe[] = {0x00, 0x01, 0x12, 0x00, 0x00, 0x00, 0x01, 0x00, 0x01, 0x00, 0x07, 0x00, 0x00, 0x00, 0x00, 0x00, 0x00, 0x00};

#define KEY starterbell_bytes_at(key, sizeof key)

static uint32_t put(const uint8_t *value, size_t length) {
    return starterbell_box_put(&box.core, KEY, starterbell_bytes_at(value, length));
}

/* Writing a recipe gives these bytes, or says which rule would be broken; reading them gives the recipe. */
static void play_writer(void) {
    static const uint32_t turns[] = {0, 1};
    static const int32_t trims[] = {-1}, leap[] = {0, 9000};
    uint8_t value[STARTERBELL_VALUE_MOST];
    struct starterbell_recipe fields = starterbell_recipe_of(STARTERBELL_RECIPE_FORMAT_ONE, 7);
    struct starterbell_recipe_written written;
    struct starterbell_recipe_view view = starterbell_value_read(starterbell_bytes_at(recipe, sizeof recipe));
    fields.wrap = starterbell_setpoints_at(turns, trims, 1);
    written = starterbell_value_write(value, sizeof value, &fields);
    expect("writing a recipe", written.code, STARTERBELL_DONE);
    expect_bytes("the recipe that was written", value, written.length, recipe, sizeof recipe);
    fields.wrap = starterbell_setpoints_at(turns, leap, 2);
    written = starterbell_value_write(value, sizeof value, &fields);
    expect("writing a recipe that leaps", written.code, STARTERBELL_REFUSAL_BROKEN_RECIPE);
    expect("its rule", written.broken.rule, STARTERBELL_RECIPE_TRIM_LEAPS);
    expect("its part", written.broken.part, STARTERBELL_RECIPE_WRAP);
    expect("the setpoint that leaps", written.broken.setpoint, 1);
    expect("reading a recipe", view.code, STARTERBELL_DONE);
    expect("its format", view.format, STARTERBELL_RECIPE_FORMAT_ONE);
    expect("its note", view.note.length, 0);
    expect("its wrap", view.wrap_count, 1);
    expect("its core", view.core_count, 0);
    expect("its sequence", view.sequence, 7);
}

static void play_recipes(void) {
    static const uint8_t far[] = {0x00, 0x01, 0x13, 0x00, 0x00, 0x00, 0x01, 0x00, 0x01, 0x00, 0x07, 0x00, 0x00, 0x00, 0x00, 0x00, 0x00, 0x00};
    static const uint8_t bare[] = {0x10, 0x00, 0x00, 0x00, 0x00, 0x00, 0x01, 0x00, 0x07, 0x00, 0x00, 0x00, 0x00, 0x00, 0x00, 0x00};
    uint8_t trim[] = {0x00, 0xbf, 0xb8, 0x02, 0x14, 0x00, 0x00, 0x00, 0x01, 0x00, 0x01, 0x00, 0x08, 0x00, 0x00, 0x00, 0x00, 0x00, 0x00, 0x00};
    struct starterbell_found held;
    start(&box, "our box", "here");
    expect("a key that isn't held", starterbell_box_find(&box.core, KEY).code, STARTERBELL_FIND_NOT_HELD);
    expect("a recipe whose distance is 13 for 12", put(far, sizeof far), STARTERBELL_REFUSAL_BROKEN_RECIPE);
    expect("a recipe without setpoints", put(bare, sizeof bare), STARTERBELL_DONE);
    expect("the recipe with turn 0, trim -1", put(recipe, sizeof recipe), STARTERBELL_REFUSAL_OUTRANKED);
    expect("trim -20,000", put(trim, sizeof trim), STARTERBELL_DONE);
    trim[1] = 0xc0, trim[12]++;
    expect("trim 20,000", put(trim, sizeof trim), STARTERBELL_DONE);
    trim[1] = 0xc1, trim[12]++;
    expect("zigzag 40,001", put(trim, sizeof trim), STARTERBELL_REFUSAL_BROKEN_RECIPE);
    trim[1] = 0xc0, trim[12]--;
    held = starterbell_box_find(&box.core, KEY);
    expect("find", held.code, STARTERBELL_FIND_HELD);
    expect_bytes("the record that is held", held.value.at, held.value.length, trim, sizeof trim);
}

/* Writes a PUT_VALUE of a value under the key, and gives its length. */
static size_t write_put(uint8_t message[STARTERBELL_REPLY_BUFFER], const uint8_t *value, size_t length) {
    struct starterbell_message put_value = starterbell_message_of(STARTERBELL_TYPE_PUT_VALUE, KEY);
    struct starterbell_written written;
    put_value.held = 1;
    put_value.record_key = KEY;
    put_value.value = starterbell_bytes_at(value, length);
    written = starterbell_message_write(message, STARTERBELL_REPLY_BUFFER, &put_value);
    expect("writing a PUT_VALUE", written.code, STARTERBELL_DONE);
    return written.length;
}

/* The same over a connection: the echo of a PUT_VALUE is the request, and a GET_VALUE gives the record. */
static void play_values(void) {
    static const uint8_t put_value[] = {0x2a, 0x08, 0x00, 0x12, 0x07, '/', 'w', 'i', 'n', 'd', '/', 'a', 0x1a, 0x1d, 0x0a, 0x07, '/', 'w', 'i', 'n', 'd', '/', 'a', 0x12, 0x12,
        0x00, 0x01, 0x12, 0x00, 0x00, 0x00, 0x01, 0x00, 0x01, 0x00, 0x07, 0x00, 0x00, 0x00, 0x00, 0x00, 0x00, 0x00};
    static const uint8_t got_value[] = {0x21, 0x08, 0x01, 0x1a, 0x1d, 0x0a, 0x07, '/', 'w', 'i', 'n', 'd', '/', 'a', 0x12, 0x12,
        0x00, 0x01, 0x12, 0x00, 0x00, 0x00, 0x01, 0x00, 0x01, 0x00, 0x07, 0x00, 0x00, 0x00, 0x00, 0x00, 0x00, 0x00};
    static const size_t cuts[] = {1, 7, sizeof put_value};
    static uint8_t message[STARTERBELL_REPLY_BUFFER];
    size_t i;
    expect_bytes("the PUT_VALUE that was written", message, write_put(message, recipe, sizeof recipe), put_value, sizeof put_value);
    for (i = 0; i < sizeof cuts / sizeof *cuts; i++) {
        expect("PUT_VALUE", serve_new(put_value, sizeof put_value, cuts[i]), STARTERBELL_RECEIVE_MORE);
        expect_bytes("the echo of PUT_VALUE", sent.bytes, sent.length, put_value, sizeof put_value);
        expect("GET_VALUE", serve(&box, &client, get_value, sizeof get_value, cuts[i], &sent), STARTERBELL_RECEIVE_MORE);
        expect_bytes("the reply to GET_VALUE", sent.bytes, sent.length, got_value, sizeof got_value);
    }
}

/* ---- A recipe that jumps 9 newtons */

/* Trims 0 and 5,000, sequence 7; 0 and 5,001, sequence 8; 0 and 9,000, sequence 8. */
static const uint8_t level[] = {0x00, 0x00, 0x01, 0x90, 0x4e, 0x15, 0x00, 0x00, 0x00, 0x02, 0x00, 0x01, 0x00, 0x07, 0x00, 0x00, 0x00, 0x00, 0x00, 0x00, 0x00};
static const uint8_t over[] = {0x00, 0x00, 0x01, 0x92, 0x4e, 0x15, 0x00, 0x00, 0x00, 0x02, 0x00, 0x01, 0x00, 0x08, 0x00, 0x00, 0x00, 0x00, 0x00, 0x00, 0x00};
static const uint8_t leaper[] = {0x00, 0x00, 0x01, 0xd0, 0x8c, 0x01, 0x16, 0x00, 0x00, 0x00, 0x02, 0x00, 0x01, 0x00, 0x08, 0x00, 0x00, 0x00, 0x00, 0x00, 0x00, 0x00};

/* A peer's PUT_VALUE of a value under the key, on a new connection. */
static uint32_t send_put(const uint8_t *value, size_t length, size_t cut) {
    static uint8_t message[STARTERBELL_REPLY_BUFFER];
    size_t written = write_put(message, value, length);
    open_to(&box, &client, "a client", 0, 0);
    return serve(&box, &client, message, written, cut, &sent);
}

/* The value under the key is this one, as find and as a GET_VALUE on a new connection have it. */
static void expect_held(const char *what, const uint8_t *value, size_t length) {
    struct starterbell_found held = starterbell_box_find(&box.core, KEY);
    uint64_t view[STARTERBELL_VIEW];
    expect(what, held.code, STARTERBELL_FIND_HELD);
    expect_bytes(what, held.value.at, held.value.length, value, length);
    open_to(&box, &client, "a client", 0, 0);
    expect(what, serve(&box, &client, get_value, sizeof get_value, 5, &sent), STARTERBELL_RECEIVE_MORE);
    expect("the reply's length prefix", sent.bytes[0] + 1u, sent.length);
    expect(what, starterbell_read(sent.bytes + 1, sent.length - 1, view, STARTERBELL_VIEW), STARTERBELL_DONE);
    expect("whether the reply has a record", view[STARTERBELL_VIEW_RECORD], 1);
    expect_bytes(what, sent.bytes + 1 + view[STARTERBELL_VIEW_VALUE_START], (size_t)(view[STARTERBELL_VIEW_VALUE_END] - view[STARTERBELL_VIEW_VALUE_START]), value, length);
}

/* It is refused on the screen and from a peer, however its bytes are cut, and the recipe that was held stays the one found. */
static void play_leap(void) {
    size_t cut;
    start(&box, "our box", "here");
    expect("trims 0 and 5,000", put(level, sizeof level), STARTERBELL_DONE);
    expect("trims 0 and 5,001", put(over, sizeof over), STARTERBELL_REFUSAL_BROKEN_RECIPE);
    expect("trims 0 and 9,000", put(leaper, sizeof leaper), STARTERBELL_REFUSAL_BROKEN_RECIPE);
    expect_held("after a leap on the screen", level, sizeof level);
    for (cut = 1; cut < 64; cut++) {
        expect("a leap from a peer", send_put(leaper, sizeof leaper, cut), STARTERBELL_REFUSAL_BROKEN_RECIPE);
        expect("the reply to it", sent.length, 0);
        expect("its connection", starterbell_box_end(&box.core, &client), STARTERBELL_REFUSAL_SHUT);
        expect_held("after a leap from a peer", level, sizeof level);
    }
}

/* A leaper that is held from before the rule: found and served, ranked, and not taken again. Its slot is laid out by hand. */
static void play_held_leap(void) {
    uint8_t higher[sizeof level], higher_leaper[sizeof over];
    memcpy(higher, level, sizeof level);
    memcpy(higher_leaper, over, sizeof over);
    higher[13] = higher_leaper[13] = 9;
    start(&box, "our box", "here");
    box.records[STARTERBELL_RECORD_KEY_LENGTH_AT] = sizeof key;
    box.records[STARTERBELL_RECORD_VALUE_LENGTH_AT] = sizeof leaper;
    memcpy(box.records + STARTERBELL_RECORD_KEY_AT, key, sizeof key);
    memcpy(box.records + STARTERBELL_RECORD_VALUE_AT, leaper, sizeof leaper);
    expect_held("a leaper from before", leaper, sizeof leaper);
    expect("its own bytes on the screen", put(leaper, sizeof leaper), STARTERBELL_REFUSAL_BROKEN_RECIPE);
    expect("its own bytes from a peer", send_put(leaper, sizeof leaper, 7), STARTERBELL_REFUSAL_BROKEN_RECIPE);
    expect("a leaper that ranks higher", put(higher_leaper, sizeof higher_leaper), STARTERBELL_REFUSAL_BROKEN_RECIPE);
    expect("a recipe that ranks lower", put(level, sizeof level), STARTERBELL_REFUSAL_OUTRANKED);
    expect("a recipe that ranks lower, from a peer", send_put(level, sizeof level, 7), STARTERBELL_REFUSAL_OUTRANKED);
    expect_held("a leaper that was offered others", leaper, sizeof leaper);
    expect("a recipe that ranks higher", send_put(higher, sizeof higher, 7), STARTERBELL_RECEIVE_MORE);
    expect_held("after a recipe that ranks higher", higher, sizeof higher);
}

/* ---- A recipe for two spools */

/* Core: turn 0, trim 0; wrap: turn 0, trim -1; sequence 7. */
static const uint8_t two_spools[] = {0x00, 0x00, 0x00, 0x01, 0x1c, 0x00, 0x00, 0x00, 0x01, 0x00, 0x00, 0x00, 0x1a, 0x00, 0x00, 0x00, 0x01, 0x00, 0x02, 0x00, 0x07, 0x00, 0x00,
    0x00, 0x00, 0x00, 0x00, 0x00};

/* A value's core or its wrap is this one setpoint. */
static void expect_setpoint(const uint8_t *value, size_t length, uint32_t core, uint32_t turn, int32_t trim) {
    uint32_t turns[STARTERBELL_SETPOINTS_MOST];
    int32_t trims[STARTERBELL_SETPOINTS_MOST];
    expect("setpoints", starterbell_recipe_setpoints(value, length, core, turns, STARTERBELL_SETPOINTS_MOST, trims, STARTERBELL_SETPOINTS_MOST), STARTERBELL_DONE);
    expect("a turn", turns[0], turn);
    expect("a trim", (uint64_t)(int64_t)trims[0], (uint64_t)(int64_t)trim);
}

/* Written and read back; typed, sent in pieces of every size, found and served. */
static void play_two_spools(void) {
    static const uint32_t turn = 0;
    static const int32_t wrap = -1, core = 0;
    uint8_t value[STARTERBELL_VALUE_MOST];
    struct starterbell_recipe fields = starterbell_recipe_of(STARTERBELL_RECIPE_FORMAT_TWO, 7);
    struct starterbell_recipe_written written;
    struct starterbell_recipe_view view = starterbell_value_read(starterbell_bytes_at(two_spools, sizeof two_spools));
    size_t cut;
    fields.wrap = starterbell_setpoints_at(&turn, &wrap, 1);
    fields.core = starterbell_setpoints_at(&turn, &core, 1);
    written = starterbell_value_write(value, sizeof value, &fields);
    expect("writing a recipe for two spools", written.code, STARTERBELL_DONE);
    expect_bytes("the recipe for two spools", value, written.length, two_spools, sizeof two_spools);
    fields.format = STARTERBELL_RECIPE_FORMAT_ONE;
    written = starterbell_value_write(value, sizeof value, &fields);
    expect("the same in format 1", written.broken.rule, STARTERBELL_RECIPE_CORE_IN_FORMAT_ONE);
    expect("its part", written.broken.part, STARTERBELL_RECIPE_CORE);
    expect("reading a recipe for two spools", view.code, STARTERBELL_DONE);
    expect("its format", view.format, STARTERBELL_RECIPE_FORMAT_TWO);
    expect("its core", view.core_count, 1);
    expect("its wrap", view.wrap_count, 1);
    expect_setpoint(two_spools, sizeof two_spools, 0, 0, -1);
    expect_setpoint(two_spools, sizeof two_spools, 1, 0, 0);
    start(&box, "our box", "here");
    expect("a recipe for two spools", put(two_spools, sizeof two_spools), STARTERBELL_DONE);
    expect_held("a recipe for two spools", two_spools, sizeof two_spools);
    for (cut = 1; cut < 64; cut++) {
        start(&box, "our box", "here");
        expect("a recipe for two spools from a peer", send_put(two_spools, sizeof two_spools, cut), STARTERBELL_RECEIVE_MORE);
        expect_held("a recipe for two spools from a peer", two_spools, sizeof two_spools);
    }
}

/* The recipe for two spools with two of its bytes changed: refused on the screen, from a peer and by whoever reads it, and the rule is told. */
static void play_broken_spools(void) {
    static const struct { size_t at; uint8_t byte; size_t also; uint8_t other; uint32_t rule, part; } broken[] = {
        {10, 1, 20, 8, STARTERBELL_RECIPE_PAD_NOT_ZERO, STARTERBELL_RECIPE_WHOLE}, {11, 1, 20, 8, STARTERBELL_RECIPE_PAD_NOT_ZERO, STARTERBELL_RECIPE_WHOLE},
        {12, 0x17, 20, 8, STARTERBELL_RECIPE_BAD_DISTANCE, STARTERBELL_RECIPE_WRAP}, {4, 0x1d, 20, 8, STARTERBELL_RECIPE_BAD_DISTANCE, STARTERBELL_RECIPE_CORE},
        {4, 0x19, 20, 8, STARTERBELL_RECIPE_BAD_DISTANCE, STARTERBELL_RECIPE_CORE}, {4, 0x19, 8, 0, STARTERBELL_RECIPE_BAD_DISTANCE, STARTERBELL_RECIPE_CORE},
        {18, 3, 20, 8, STARTERBELL_RECIPE_UNKNOWN_FORMAT, STARTERBELL_RECIPE_WHOLE}};
    size_t i;
    start(&box, "our box", "here");
    expect("a recipe for two spools", put(two_spools, sizeof two_spools), STARTERBELL_DONE);
    for (i = 0; i < sizeof broken / sizeof *broken; i++) {
        uint8_t value[sizeof two_spools];
        struct starterbell_recipe_view view;
        memcpy(value, two_spools, sizeof value);
        value[broken[i].at] = broken[i].byte;
        value[broken[i].also] = broken[i].other;
        view = starterbell_value_read(starterbell_bytes_at(value, sizeof value));
        expect("reading broken spools", view.code, STARTERBELL_REFUSAL_BROKEN_RECIPE);
        expect("their rule", view.broken.rule, broken[i].rule);
        expect("their part", view.broken.part, broken[i].part);
        expect("broken spools on the screen", put(value, sizeof value), STARTERBELL_REFUSAL_BROKEN_RECIPE);
        expect("broken spools from a peer", send_put(value, sizeof value, 7), STARTERBELL_REFUSAL_BROKEN_RECIPE);
        expect_held("after broken spools", two_spools, sizeof two_spools);
    }
}

/* Sequence, then bytes, whatever the format: of the least values with sequence 5 the one of format 2 starts with 18, and that of format 1 with 10. */
static void play_rank_of_formats(void) {
    static const uint8_t one[16] = {0x10, 0, 0, 0, 0, 0, 1, 0, 5}, two[24] = {0x18, 0, 0, 0, 0, 0, 0, 0, 0x18, 0, 0, 0, 0, 0, 2, 0, 5}, newer[16] = {0x10, 0, 0, 0, 0, 0, 1, 0, 6};
    start(&box, "our box", "here");
    expect("the least recipe for one spool", put(one, sizeof one), STARTERBELL_DONE);
    expect("the least recipe for two", put(two, sizeof two), STARTERBELL_DONE);
    expect("the one for one spool again", put(one, sizeof one), STARTERBELL_REFUSAL_OUTRANKED);
    expect_held("the higher-ranking format", two, sizeof two);
    expect("a higher sequence", put(newer, sizeof newer), STARTERBELL_DONE);
    expect("two spools of a lower one", put(two, sizeof two), STARTERBELL_REFUSAL_OUTRANKED);
    expect_held("the higher sequence", newer, sizeof newer);
}

/* ---- Contacts */

static struct starterbell_sighted seen(struct box *who, const char *id, const char *address) {
    struct addresses addresses;
    return starterbell_box_seen(&who->core, starterbell_text(id), 0, one_address(&addresses, address));
}

/* How many bits the places of two slots, or of a slot and a box, share: the bucket. */
static unsigned bucket(const uint8_t *a, const uint8_t *b) {
    unsigned bit;
    for (bit = 0; bit < 256; bit++) {
        unsigned x = a[STARTERBELL_PEER_PLACE_AT + bit / 8] ^ b[STARTERBELL_PEER_PLACE_AT + bit / 8];
        if (x >> (7 - bit % 8) & 1) return bit;
    }
    return bit;
}

/* How many contacts are in the bucket of one. */
static unsigned bucket_holds(const uint8_t *slot) {
    unsigned i, among = 0;
    for (i = 0; i < CONTACTS; i++) {
        const uint8_t *other = starterbell_box_contact(&box.core, i);
        among += other[STARTERBELL_CONTACT_RANK_AT] != 0 && bucket(other, box.core.me) == bucket(slot, box.core.me);
    }
    return among;
}

/* "20 in a bucket: the 21st gives 13", and names the head, which the host probes and settles. */
static void play_bucket(void) {
    char id[32];
    struct starterbell_sighted got = {STARTERBELL_SEEN_JOINED, 0};
    struct starterbell_id silent;
    unsigned i;
    start(&box, "our box", "here");
    for (i = 0; got.code == STARTERBELL_SEEN_JOINED; i++) {
        sprintf(id, "workshop %u", i);
        got = seen(&box, id, "there");
    }
    expect("the 21st in a bucket", got.code, STARTERBELL_REFUSAL_BUCKET_FULL);
    expect("the contacts in the head's bucket", bucket_holds(starterbell_box_contact(&box.core, got.slot)), STARTERBELL_BUCKET_MOST);
    silent = starterbell_box_contact_id(&box.core, got.slot);
    expect("a head that is silent", starterbell_box_settle(&box.core, starterbell_id_bytes(&silent), starterbell_text(id), 0, starterbell_nothing(), 0),
        STARTERBELL_SETTLE_SWAPPED);
    expect("the newcomer, seen again", seen(&box, id, "there").code, STARTERBELL_SEEN_MOVED);
    expect("remove", starterbell_box_remove(&box.core, starterbell_text(id)), STARTERBELL_DONE);
    expect("remove again", starterbell_box_remove(&box.core, starterbell_text(id)), STARTERBELL_REFUSAL_NO_LONGER_FITS);
}

static uint32_t doubt(const char *id) {
    return starterbell_box_doubt(&box.core, starterbell_text(id));
}

/* How many contacts a query gives. */
static size_t near_to(const char *target) {
    struct starterbell_near got = starterbell_box_nearest(&box.core, starterbell_text(target));
    expect("nearest", got.code, STARTERBELL_DONE);
    return got.count;
}

/* "The host can mark a held contact as doubtful; being seen .. clears the mark." */
static void play_doubt(void) {
    start(&box, "our box", "here");
    expect("doubt of nobody", doubt("peer"), STARTERBELL_REFUSAL_NO_LONGER_FITS);
    expect("seen", seen(&box, "peer", "there").code, STARTERBELL_SEEN_JOINED);
    expect("seen", seen(&box, "other", "there").code, STARTERBELL_SEEN_JOINED);
    expect("doubt of ourselves", doubt("our box"), STARTERBELL_REFUSAL_BAD_PEER);
    expect("the contacts near peer", near_to("peer"), 2);
    expect("doubt", doubt("peer"), STARTERBELL_DONE);
    expect("doubt again", doubt("peer"), STARTERBELL_DONE);
    expect("the mark", box.contacts[STARTERBELL_CONTACT_DOUBT_AT], 1);
    expect("the other's", box.contacts[STARTERBELL_CONTACT_SLOT + STARTERBELL_CONTACT_DOUBT_AT], 0);
    expect("the contacts near peer, which is doubtful", near_to("peer"), 1);
    expect("seen", seen(&box, "peer", "there").code, STARTERBELL_SEEN_MOVED);
    expect("the mark of one that was seen", box.contacts[STARTERBELL_CONTACT_DOUBT_AT], 0);
    expect("the contacts near peer, which was seen", near_to("peer"), 2);
}

/* A FIND_NODE for AB to a box that has one contact, from a server, which then is a contact too. */
static void play_sighting(void) {
    static const uint8_t request[] = {0x06, 0x08, 0x04, 0x12, 0x02, 0x41, 0x42};
    static const uint8_t answer[] = {0x13, 0x08, 0x04, 0x42, 0x0f, 0x0a, 0x04, 'p', 'e', 'e', 'r', 0x12, 0x05, 't', 'h', 'e', 'r', 'e', 0x18, 0x00};
    struct starterbell_sighted known;
    struct starterbell_received got;
    start(&box, "our box", "here");
    known = seen(&box, "peer", "there");
    expect("seen", known.code, STARTERBELL_SEEN_JOINED);
    expect("its slot", known.slot, 0);
    open_to(&box, &client, "a server", 1, 0);
    got = starterbell_box_receive(&box.core, &client, starterbell_bytes_at(request, sizeof request));
    expect("FIND_NODE of a server", got.code, STARTERBELL_RECEIVE_REPLY);
    expect("the bytes that it took", got.taken, sizeof request);
    expect_bytes("the reply with a contact", reply, got.length, answer, sizeof answer);
    expect("the sighting of its sender", got.sighting, STARTERBELL_SIGHTING_JOINED);
    expect("the sender's slot", got.slot, 1);
}

/* ---- Peers of a message */

static void expect_peer(const struct starterbell_named *peer, const char *id, uint64_t connection, size_t count, const char *last) {
    struct starterbell_bytes want = starterbell_text(id), address = starterbell_text(last);
    expect("a peer", peer->code, STARTERBELL_PEER_AT);
    expect_bytes("a peer's id", peer->id.at, peer->id.length, want.at, want.length);
    expect("a peer's connection", peer->connection, connection);
    expect("how many addresses it has", peer->address_count, count);
    expect_bytes("its last address", peer->addresses[count - 1].at, peer->addresses[count - 1].length, address.at, address.length);
}

/* Two peers that are written and named again: for each the id and its length, its connection, and its addresses with the length of all of them and of each. */
static void play_peers(void) {
    static const uint8_t list[] = {1, 0, 'a', STARTERBELL_PEER_CAN_CONNECT, 9, 0, 2, 0, 'u', 'p', 3, 0, 'l', 'o', 'w', 3, 0, 'b', 'o', 'b',
        STARTERBELL_PEER_CONNECTED, 3, 0, 1, 0, 'x'};
    static uint8_t message[STARTERBELL_REPLY_BUFFER];
    struct starterbell_message reply_of = starterbell_message_of(STARTERBELL_TYPE_FIND_NODE, starterbell_nothing());
    struct starterbell_bytes body;
    struct starterbell_named peer;
    reply_of.closer = starterbell_bytes_at(list, sizeof list);
    body = starterbell_bytes_at(message + 1, starterbell_message_write(message, sizeof message, &reply_of).length - 1);
    peer = starterbell_message_peer(body, 0, 0);
    expect_peer(&peer, "a", STARTERBELL_PEER_CAN_CONNECT, 2, "low");
    /* after the type, and the entry's tag and length */
    expect("where the first entry starts", peer.start, 4);
    expect("where it ends", peer.end, 18);
    peer = starterbell_message_peer(body, 0, peer.end);
    expect_peer(&peer, "bob", STARTERBELL_PEER_CONNECTED, 1, "x");
    expect("where the last entry ends", peer.end, body.length);
    peer = starterbell_message_peer(body, 0, peer.end);
    expect("a third peer", peer.code, STARTERBELL_PEER_NOTHING);
    expect("its id's length", peer.id.length, 0);
    expect("its addresses", peer.address_count, 0);
}

/* ---- Lookups */

static struct starterbell_lookup lookup;

/* The network of this test is a loop of boxes in one program: the address of a box is its number. Box 0 looks up, and each box knows the next two. */
enum { WORKSHOPS = 8, SILENT = 5 };
static struct box workshop[WORKSHOPS];
static struct starterbell_connection served[WORKSHOPS], asked[WORKSHOPS];
static const char *const ids[WORKSHOPS] = {"box 0", "box 1", "box 2", "box 3", "box 4", "box 5", "box 6", "box 7"};
static const char *const addresses[WORKSHOPS] = {"0", "1", "2", "3", "4", "5", "6", "7"};

/* The address book, which is the host's: here an address for each of a few ids. */
static struct {
    struct starterbell_id id;
    unsigned where;
} book[WORKSHOPS];
static size_t books;

static size_t page_of(struct starterbell_bytes id) {
    size_t i;
    for (i = 0; i < books; i++)
        if (book[i].id.length == id.length && memcmp(book[i].id.bytes, id.at, id.length) == 0) break;
    return i;
}

static void remember(struct starterbell_bytes id, struct starterbell_bytes address) {
    if (page_of(id) < books || books == WORKSHOPS) return;
    book[books].id = starterbell_id_at(id.at, id.length);
    book[books++].where = (unsigned)(address.at[0] - '0');
}

/* Every peer that a reply names, with its first address. It has no more addresses than one call tells. */
static void remember_peers(struct starterbell_bytes body) {
    uint64_t address[STARTERBELL_PEER_ADDRESS_OUT];
    struct starterbell_named peer;
    for (peer = starterbell_message_peer(body, 0, 0); peer.code == STARTERBELL_PEER_AT; peer = starterbell_message_peer(body, 0, peer.end)) {
        size_t last = peer.address_count < STARTERBELL_PEER_FIRST ? peer.address_count : STARTERBELL_PEER_FIRST;
        size_t from = last > 0 ? (size_t)(peer.addresses[last - 1].at - body.at) + peer.addresses[last - 1].length : 0;
        if (last > 0) remember(peer.id, peer.addresses[0]);
        expect("the connection of a peer", peer.connection, STARTERBELL_PEER_NOT_CONNECTED);
        expect("an address that was not told", starterbell_peer_address(body.at, body.length, peer.start, peer.end, from, address, STARTERBELL_PEER_ADDRESS_OUT),
            STARTERBELL_PEER_NOTHING);
    }
    expect("a list of providers, which nobody sends", starterbell_message_peer(body, 1, 0).code, STARTERBELL_PEER_NOTHING);
}

/* Sends a FIND_NODE to a box of the loop, and hands its reply to the lookup; or reports that nothing came. */
static struct starterbell_step ask(struct starterbell_bytes id, unsigned where) {
    static uint8_t request[STARTERBELL_REPLY_BUFFER];
    struct starterbell_message find_node = starterbell_message_of(STARTERBELL_TYPE_FIND_NODE, KEY);
    struct starterbell_connection *back = &asked[where];
    struct starterbell_written written;
    struct starterbell_received got;
    struct starterbell_bytes body;
    if (where == SILENT) return starterbell_box_lookup_failure(&workshop[0].core, &lookup, id);
    written = starterbell_message_write(request, sizeof request, &find_node);
    expect("writing a FIND_NODE", written.code, STARTERBELL_DONE);
    open_to(&workshop[where], &served[where], ids[0], 0, 0);
    expect("a FIND_NODE", serve(&workshop[where], &served[where], request, written.length, 7, &sent), STARTERBELL_RECEIVE_MORE);
    open_to(&workshop[0], back, ids[where], 1, 1);
    got = starterbell_box_receive(&workshop[0].core, back, starterbell_bytes_at(sent.bytes, sent.length));
    expect("a reply on the asking side", got.code, STARTERBELL_RECEIVE_HEARD);
    expect("the reply's length without its prefix", got.length, sent.length - (got.length < 128 ? 1 : 2));
    expect("its type", got.view[STARTERBELL_VIEW_TYPE], STARTERBELL_TYPE_FIND_NODE);
    body = starterbell_bytes_at(back->buffer, got.length);
    remember_peers(body);
    return starterbell_box_lookup_reply(&workshop[0].core, &lookup, id, body, got.view);
}

/* A lookup as a host runs it: next until it is over. Here every answer comes at once, so there is no waiting. */
static struct starterbell_step look_up(void) {
    struct starterbell_step step = starterbell_box_lookup_start(&workshop[0].core, &lookup, KEY, 3);
    while (step.code == STARTERBELL_LOOKUP_GOING) {
        struct starterbell_id id;
        size_t page;
        step = starterbell_box_lookup_next(&lookup);
        if (step.code != STARTERBELL_LOOKUP_ASK) break;
        id = starterbell_lookup_id(&lookup, step.rank);
        page = page_of(starterbell_id_bytes(&id));
        expect("who is asked is in the address book", page < books, 1);
        step = ask(starterbell_id_bytes(&id), book[page].where);
    }
    return step;
}

/* A loop of boxes that each have seen the next two. */
static void make_loop(void) {
    unsigned i;
    for (i = 0; i < WORKSHOPS; i++) start(&workshop[i], ids[i], addresses[i]);
    for (i = 0; i < WORKSHOPS; i++) {
        expect("seen", seen(&workshop[i], ids[(i + 1) % WORKSHOPS], addresses[(i + 1) % WORKSHOPS]).code, STARTERBELL_SEEN_JOINED);
        expect("seen", seen(&workshop[i], ids[(i + 2) % WORKSHOPS], addresses[(i + 2) % WORKSHOPS]).code, STARTERBELL_SEEN_JOINED);
    }
    for (i = 1; i <= 2; i++) remember(starterbell_text(ids[i]), starterbell_text(addresses[i]));
}

/* The lookup finds what a box that has seen everybody calls nearest, but for the silent one. */
static void play_lookup(void) {
    struct starterbell_step over;
    struct starterbell_near nearest;
    unsigned i;
    make_loop();
    over = look_up();
    expect("the lookup over the loop", over.code, STARTERBELL_LOOKUP_COMPLETE);
    expect("the requests that it sent", over.requests, WORKSHOPS - 1);
    expect("the peers that it found", over.found, WORKSHOPS - 2);
    for (i = 1; i < WORKSHOPS; i++)
        if (i != SILENT) seen(&workshop[0], ids[i], addresses[i]);
    nearest = starterbell_box_nearest(&workshop[0].core, KEY);
    expect("nearest", nearest.code, STARTERBELL_DONE);
    expect("the contacts near the key", nearest.count, WORKSHOPS - 2);
    for (i = 0; i < WORKSHOPS - 2; i++) {
        struct starterbell_id near = starterbell_box_contact_id(&workshop[0].core, nearest.slots[i]), got = starterbell_lookup_id(&lookup, over.ranks[i]);
        expect_bytes("a peer that was found", got.bytes, got.length, near.bytes, near.length);
        expect("its mark", starterbell_lookup_mark(&lookup, over.ranks[i]), STARTERBELL_MARK_ANSWERED);
    }
    expect("next, once over", starterbell_box_lookup_next(&lookup).code, STARTERBELL_LOOKUP_COMPLETE);
    expect("a failure, once over", starterbell_box_lookup_failure(&workshop[0].core, &lookup, starterbell_text(ids[1])).code, STARTERBELL_REFUSAL_LOOKUP_OVER);
}

/* A reply that names some peers nobody has heard of, from number `first` on. */
static size_t make_reply(uint8_t message[STARTERBELL_REPLY_BUFFER], unsigned first, unsigned count) {
    struct starterbell_message answer = starterbell_message_of(STARTERBELL_TYPE_FIND_NODE, starterbell_nothing());
    struct starterbell_written written;
    uint8_t list[21 * 32];
    size_t length = 0;
    unsigned i;
    for (i = 0; i < count; i++) {
        /* the id's length, the id, not connected, no addresses */
        int id = sprintf((char *)list + length + 2, "stranger %u", first + i);
        list[length] = (uint8_t)id;
        list[length + 1] = 0;
        memset(list + length + 2 + id, 0, 3);
        length += 5 + (size_t)id;
    }
    answer.closer = starterbell_bytes_at(list, length);
    written = starterbell_message_write(message, STARTERBELL_REPLY_BUFFER, &answer);
    expect("writing a reply", written.code, STARTERBELL_DONE);
    return written.length;
}

/* Hands the lookup a reply of the one that it asks, that names so many. */
static struct starterbell_step crowd_reply(size_t rank, unsigned first, unsigned count) {
    static uint8_t message[STARTERBELL_REPLY_BUFFER];
    struct starterbell_id id = starterbell_lookup_id(&lookup, rank);
    size_t length = make_reply(message, first, count), head = message[0] < 128 ? 1 : 2;
    uint64_t view[STARTERBELL_VIEW];
    expect("reading a reply", starterbell_read(message + head, length - head, view, STARTERBELL_VIEW), STARTERBELL_DONE);
    return starterbell_box_lookup_reply(&box.core, &lookup, starterbell_id_bytes(&id), starterbell_bytes_at(message + head, length - head), view);
}

/* A lookup that hears of 20 contacts and as many others as it is told: the first replies name up to 21 each. */
static void play_crowd(unsigned others, uint32_t want) {
    struct starterbell_step step;
    unsigned i, told = 0, asks = 0;
    start(&box, "our box", "here");
    for (i = 0; i < 20; i++) {
        char id[32];
        sprintf(id, "contact %u", i);
        expect("seen", seen(&box, id, "there").code, STARTERBELL_SEEN_JOINED);
    }
    step = starterbell_box_lookup_start(&box.core, &lookup, KEY, STARTERBELL_CONCURRENCY_MOST);
    while (step.code == STARTERBELL_LOOKUP_GOING && (step = starterbell_box_lookup_next(&lookup)).code == STARTERBELL_LOOKUP_ASK) {
        unsigned count = others - told < 21 ? others - told : 21;
        step = crowd_reply(step.rank, told, count);
        told += count;
        asks++;
    }
    expect("a lookup with a crowd", step.code, want);
    expect("the others that it was told of", told, others);
    expect("its candidates", starterbell_lookup_candidates(&lookup), STARTERBELL_CANDIDATES_MOST);
    expect("the requests that it sent", step.requests, asks);
    expect("the peers that it found", step.found, STARTERBELL_NEAREST_MOST);
}

int main(void) {
    play_program();
    play_prefixes();
    play_writer();
    play_recipes();
    play_values();
    play_leap();
    play_held_leap();
    play_two_spools();
    play_broken_spools();
    play_rank_of_formats();
    play_bucket();
    play_doubt();
    play_sighting();
    play_peers();
    play_lookup();
    /* "256 candidates: a 257th marks" */
    play_crowd(236, STARTERBELL_LOOKUP_COMPLETE);
    play_crowd(237, STARTERBELL_LOOKUP_CUT_SHORT);
    printf("the examples of RULES and a lookup over a loop of %d boxes, through the C headers: %u comparisons\n", WORKSHOPS, compared);
    return 0;
}
