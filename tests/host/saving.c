/* saving: lent memory that is saved and lent again, as include/starterbell.h says under Saving. A script of calls runs in one process, or in two with a file between:

     saving whole N OUT          the whole script; after N steps its peers' connections break. Then memory goes to OUT.
     saving until N FILE         the first N steps. Then memory goes to FILE, and the process ends: a power cut.
     saving from N FILE OUT      the steps from N on, with the memory of FILE. Then memory goes to OUT.
     saving torn FILE            what calls say of that memory once it is torn, of another box, or cut short.

   Each step writes a line of what calls returned. tests/saving compares lines and files. Status 0; 1 where something differs; 3 where a file can't be used. */
#define _POSIX_C_SOURCE 200809L
#include "starterbell_box.h"

#include <stdio.h>
#include <stdlib.h>
#include <string.h>
#include <unistd.h>

enum { STEPS = 240, CONTACTS = 48, RECORDS = 6 };

/* What is saved together. */
struct memory {
    uint8_t contacts[CONTACTS * STARTERBELL_CONTACT_SLOT];
    uint8_t records[RECORDS * STARTERBELL_RECORD_SLOT];
    struct starterbell_lookup lookup;
};

static struct starterbell_box box;
static struct memory lent;
static struct starterbell_connection conn;
static uint8_t reply[STARTERBELL_REPLY_BUFFER], message[STARTERBELL_REPLY_BUFFER];

static void fail(int status, const char *what, const char *which) {
    printf("saving: %s%s\n", what, which);
    exit(status);
}

/* ---- Saving and coming back */

/* Writes a second file and then renames it: whenever the power goes, FILE has all of the old bytes or all of the new ones. */
static void save(const char *path) {
    static const char version[16] = STARTERBELL_VERSION;
    char beside[4096];
    FILE *file;
    if (snprintf(beside, sizeof beside, "%s.new", path) >= (int)sizeof beside) fail(3, "a path is too long: ", path);
    file = fopen(beside, "wb");
    if (!file || fwrite(version, sizeof version, 1, file) != 1 || fwrite(box.me, sizeof box.me, 1, file) != 1 || fwrite(&lent, sizeof lent, 1, file) != 1
        || fflush(file) != 0 || fsync(fileno(file)) != 0 || fclose(file) != 0 || rename(beside, path) != 0)
        fail(3, "this can't be written: ", path);
}

/* Reads it back, if all of it is there and of this version. The box was started anew from the same id and addresses, which has to give the same bytes. */
static void load(const char *path) {
    char version[16];
    uint8_t me[STARTERBELL_BOX];
    FILE *file = fopen(path, "rb");
    if (!file) fail(3, "this can't be read: ", path);
    if (fread(version, sizeof version, 1, file) != 1 || fread(me, sizeof me, 1, file) != 1 || fread(&lent, sizeof lent, 1, file) != 1 || fgetc(file) != EOF)
        fail(3, "this has fewer bytes or more than were saved: ", path);
    if (strncmp(version, STARTERBELL_VERSION, sizeof version) != 0) fail(3, "this is of another version: ", path);
    if (memcmp(me, box.me, sizeof me) != 0) fail(1, "start gives another box than the one that was saved in ", path);
    fclose(file);
}

/* ---- The script */

static void say(const char *what, uint32_t code) {
    printf(" %s %u", what, (unsigned)code);
}

static struct starterbell_bytes text_of(char room[64], const char *what, unsigned k) {
    snprintf(room, 64, "%s%u", what, k);
    return starterbell_text(room);
}

/* Every second one is for two spools. Some are as long as a value can be: two lists and a trailer have up to 34 bytes. */
static struct starterbell_bytes recipe_of(uint8_t value[STARTERBELL_VALUE_MOST], unsigned k) {
    static const uint32_t turns[2] = {0, 1};
    static uint8_t note[STARTERBELL_VALUE_MOST - 34];
    int32_t trims[2] = {0, 0};
    struct starterbell_recipe recipe = starterbell_recipe_of(1 + k / 6 % 2, k * 7 % 50);
    trims[1] = (int32_t)(k * 37 % 5000);
    memset(note, (int)(k % 256), sizeof note);
    recipe.note = starterbell_bytes_at(note, k % 5 == 0 ? sizeof note : 0);
    recipe.wrap = starterbell_setpoints_at(turns, trims, 2);
    if (recipe.format == STARTERBELL_RECIPE_FORMAT_TWO) recipe.core = recipe.wrap;
    return starterbell_bytes_at(value, starterbell_value_write(value, STARTERBELL_VALUE_MOST, &recipe).length);
}

static const uint8_t addresses[] = {4, 0, 'h', 'e', 'r', 'e'};
#define ADDRESSES starterbell_bytes_at(addresses, sizeof addresses)

static void put_own(unsigned k) {
    uint8_t value[STARTERBELL_VALUE_MOST];
    char key[64];
    say("put", starterbell_box_put(&box, text_of(key, "/wind/", k / 6 % 8), recipe_of(value, k)));
}

/* A server's request, on a connection of its own. */
static void hear(const char *who, unsigned k, const struct starterbell_message *what) {
    struct starterbell_written written = starterbell_message_write(message, sizeof message, what);
    struct starterbell_received got;
    char id[64];
    size_t at = 0;
    say("open", starterbell_box_open(&box, &conn, text_of(id, who, k), 1, 0, ADDRESSES));
    do {
        got = starterbell_box_receive(&box, &conn, starterbell_bytes_at(message + at, written.length - at < 7 ? written.length - at : 7));
        at += got.taken;
    } while (at < written.length && !STARTERBELL_REFUSED(got.code));
    say("receive", got.code);
    say("sighting", got.sighting);
}

static void hear_find(unsigned k) {
    char key[64];
    struct starterbell_message find_node = starterbell_message_of(STARTERBELL_TYPE_FIND_NODE, text_of(key, "somebody ", k));
    hear("server ", k, &find_node);
}

static void hear_put(unsigned k) {
    uint8_t value[STARTERBELL_VALUE_MOST];
    char key[64];
    struct starterbell_message put_value = starterbell_message_of(STARTERBELL_TYPE_PUT_VALUE, text_of(key, "/wind/", k / 6 % 7));
    put_value.held = 1;
    put_value.record_key = put_value.key;
    put_value.value = recipe_of(value, k);
    hear("winder ", k, &put_value);
}

/* Somebody is seen, and settled where the bucket is full; another is doubtful. */
static void see(unsigned k) {
    char id[64];
    struct starterbell_bytes newcomer = text_of(id, "newcomer ", k);
    struct starterbell_sighted seen = starterbell_box_seen(&box, newcomer, 0, ADDRESSES);
    say("seen", seen.code);
    if (seen.code == STARTERBELL_REFUSAL_BUCKET_FULL) {
        struct starterbell_id head = starterbell_box_contact_id(&box, seen.slot);
        say("settle", starterbell_box_settle(&box, starterbell_id_bytes(&head), newcomer, 0, ADDRESSES, k / 6 % 2));
    }
    say("doubt", starterbell_box_doubt(&box, text_of(id, "server ", k - 2)));
}

/* Asks on, or starts a lookup where none is going. A request stays in flight from one step to another. */
static void look(unsigned k) {
    struct starterbell_step step = starterbell_box_lookup_next(&lent.lookup);
    char key[64];
    if (step.code != STARTERBELL_LOOKUP_ASK && step.code != STARTERBELL_LOOKUP_WAIT)
        step = starterbell_box_lookup_start(&box, &lent.lookup, text_of(key, "key ", k), 3);
    say("next", step.code);
    say("next", starterbell_box_lookup_next(&lent.lookup).code);
}

/* Somebody whom the lookup has in flight, from a rank on; or the number of candidates. */
static size_t in_flight(size_t rank) {
    while (rank < starterbell_lookup_candidates(&lent.lookup) && starterbell_lookup_mark(&lent.lookup, rank) != STARTERBELL_MARK_IN_FLIGHT) rank++;
    return rank;
}

/* One of them replies, and names two strangers. */
static void reply_one(unsigned k) {
    static const uint8_t stranger[] = {10, 0, 's', 't', 'r', 'a', 'n', 'g', 'e', 'r', ' ', 'a', 0, 0, 0};
    struct starterbell_message answer = starterbell_message_of(STARTERBELL_TYPE_FIND_NODE, starterbell_nothing());
    uint8_t list[2 * sizeof stranger];
    uint64_t view[STARTERBELL_VIEW];
    struct starterbell_id id = starterbell_lookup_id(&lent.lookup, in_flight(0) % STARTERBELL_CANDIDATES_MOST);
    struct starterbell_bytes body;
    memcpy(list, stranger, sizeof stranger);
    memcpy(list + sizeof stranger, stranger, sizeof stranger);
    list[11] = (uint8_t)(k % 251);
    list[sizeof stranger + 11] = (uint8_t)(k % 241);
    answer.closer = starterbell_bytes_at(list, sizeof list);
    body = starterbell_bytes_at(message + 1, starterbell_message_write(message, sizeof message, &answer).length - 1);
    say("read", starterbell_read(body.at, body.length, view, STARTERBELL_VIEW));
    say("reply", starterbell_box_lookup_reply(&box, &lent.lookup, starterbell_id_bytes(&id), body, view).code);
}

/* Connections broke: everybody in flight has failed. */
static void report_broken(void) {
    size_t rank;
    for (rank = in_flight(0); rank < starterbell_lookup_candidates(&lent.lookup); rank = in_flight(rank + 1)) {
        struct starterbell_id id = starterbell_lookup_id(&lent.lookup, rank);
        say("failure", starterbell_box_lookup_failure(&box, &lent.lookup, starterbell_id_bytes(&id)).code);
    }
}

static void steps(unsigned from, unsigned to) {
    static void (*const kinds[])(unsigned) = {put_own, hear_find, hear_put, see, look, reply_one};
    unsigned k;
    for (k = from; k < to; k++) {
        printf("%u:", k);
        kinds[k % 6](k);
        printf("\n");
    }
}

/* ---- Torn memory */

static struct memory good, before;
static unsigned torn;

/* Calls that would go on from torn memory return 0, and no byte of it has changed, nor of a connection or a reply. */
static void expect_torn(const char *what, const uint32_t *codes, size_t count) {
    static uint8_t untouched[STARTERBELL_REPLY_BUFFER];
    size_t i;
    for (i = 0; i < count; i++)
        if (codes[i] != STARTERBELL_REFUSAL_OUT_OF_FORM) fail(1, "a call doesn't refuse ", what);
    if (memcmp(&lent, &before, sizeof lent) != 0) fail(1, "bytes changed of ", what);
    if (memcmp(reply, untouched, sizeof reply) != 0) fail(1, "a reply changed with ", what);
    torn++;
}

/* A PING of a server, whose sighting would change contacts. */
static uint32_t ping(void) {
    static const uint8_t bytes[] = {0x02, 0x08, 0x05};
    struct starterbell_connection was;
    uint32_t code;
    starterbell_box_open(&box, &conn, starterbell_text("pinger"), 1, 0, ADDRESSES);
    was = conn;
    code = starterbell_box_receive(&box, &conn, starterbell_bytes_at(bytes, sizeof bytes)).code;
    if (memcmp(&was, &conn, sizeof was) != 0) fail(1, "a connection changed", "");
    return code;
}

static void torn_contacts(const char *what) {
    static struct starterbell_lookup other;
    struct starterbell_bytes id = starterbell_text("server 1"), none = starterbell_nothing();
    uint32_t codes[7];
    before = lent;
    codes[0] = starterbell_box_nearest(&box, id).code;
    codes[1] = starterbell_box_seen(&box, id, 0, none).code;
    codes[2] = starterbell_box_settle(&box, id, starterbell_text("a newcomer"), 0, none, 0);
    codes[3] = starterbell_box_remove(&box, id);
    codes[4] = starterbell_box_doubt(&box, id);
    codes[5] = starterbell_box_lookup_start(&box, &other, id, 3).code;
    codes[6] = ping();
    expect_torn(what, codes, 7);
}

static void torn_records(const char *what) {
    uint8_t value[STARTERBELL_VALUE_MOST];
    struct starterbell_bytes key = starterbell_text("/wind/0");
    uint32_t codes[3];
    before = lent;
    codes[0] = starterbell_box_find(&box, key).code;
    codes[1] = starterbell_box_put(&box, key, recipe_of(value, 7));
    codes[2] = ping();
    expect_torn(what, codes, 3);
}

static void torn_lookup(const char *what) {
    static const uint8_t body[] = {0x08, 0x04};
    struct starterbell_id id = starterbell_lookup_id(&good.lookup, 0);
    uint64_t view[STARTERBELL_VIEW] = {STARTERBELL_TYPE_FIND_NODE};
    uint32_t codes[3];
    before = lent;
    codes[0] = starterbell_box_lookup_next(&lent.lookup).code;
    codes[1] = starterbell_box_lookup_failure(&box, &lent.lookup, starterbell_id_bytes(&id)).code;
    codes[2] = starterbell_box_lookup_reply(&box, &lent.lookup, starterbell_id_bytes(&id), starterbell_bytes_at(body, sizeof body), view).code;
    expect_torn(what, codes, 3);
}

/* One byte, in the first slot or candidate, that breaks the form. */
struct broken {
    const char *what;
    size_t at;
    uint8_t byte;
};

static void break_bytes(uint8_t *memory, const struct broken *bytes, size_t count, void (*look_at)(const char *)) {
    size_t i;
    for (i = 0; i < count; i++) {
        lent = good;
        memory[bytes[i].at] = bytes[i].byte;
        look_at(bytes[i].what);
    }
    lent = good;
}

static void break_contacts(void) {
    static const struct broken bytes[] = {{"a contact of no rank in a bucket", STARTERBELL_CONTACT_RANK_AT, 21}, {"a doubt of 2", STARTERBELL_CONTACT_DOUBT_AT, 2},
        {"an id of no bytes", STARTERBELL_PEER_ID_LENGTH_AT, 0}, {"an id of 65 bytes", STARTERBELL_PEER_ID_LENGTH_AT, 65},
        {"five addresses", STARTERBELL_PEER_ADDRESS_COUNT_AT, 5}, {"an address of no bytes", STARTERBELL_PEER_ADDRESS_LENGTHS_AT, 0},
        {"an address of 129 bytes", STARTERBELL_PEER_ADDRESS_LENGTHS_AT, 129}};
    break_bytes(lent.contacts, bytes, sizeof bytes / sizeof *bytes, torn_contacts);
    memcpy(lent.contacts + STARTERBELL_CONTACT_SLOT, lent.contacts, STARTERBELL_CONTACT_SLOT);
    torn_contacts("a contact that stands twice");
    lent = good;
    memcpy(lent.contacts + STARTERBELL_PEER_PLACE_AT, box.me + STARTERBELL_PEER_PLACE_AT, STARTERBELL_PLACE);
    torn_contacts("a contact of our place");
    lent = good;
}

static void break_value_length(const char *what, unsigned length) {
    lent.records[STARTERBELL_RECORD_VALUE_LENGTH_AT] = (uint8_t)(length % 256);
    lent.records[STARTERBELL_RECORD_VALUE_LENGTH_AT + 1] = (uint8_t)(length / 256);
    torn_records(what);
    lent = good;
}

static void break_records(void) {
    static const struct broken bytes[] = {{"a key of 6 bytes", STARTERBELL_RECORD_KEY_LENGTH_AT, 6}, {"a key of 129 bytes", STARTERBELL_RECORD_KEY_LENGTH_AT, 129},
        {"a key that doesn't open with /wind/", STARTERBELL_RECORD_KEY_AT + 1, 'b'}};
    break_bytes(lent.records, bytes, sizeof bytes / sizeof *bytes, torn_records);
    break_value_length("a value of 15 bytes", 15);
    break_value_length("a value that is a byte too long", STARTERBELL_VALUE_MOST + 1);
    memcpy(lent.records + STARTERBELL_RECORD_SLOT, lent.records, STARTERBELL_RECORD_SLOT);
    torn_records("a key that stands twice");
    lent = good;
}

static void break_lookup(void) {
    static const struct broken bytes[] = {{"more than 512 candidates", STARTERBELL_CANDIDATE_COUNT_AT + 1, 2},
        {"a candidate with no id", STARTERBELL_CANDIDATES_AT + STARTERBELL_CANDIDATE_ID_LENGTH_AT, 0},
        {"a candidate with an id of 65 bytes", STARTERBELL_CANDIDATES_AT + STARTERBELL_CANDIDATE_ID_LENGTH_AT, 65}};
    uint8_t *first = lent.lookup.memory + STARTERBELL_CANDIDATES_AT, aside[STARTERBELL_CANDIDATE];
    break_bytes(lent.lookup.memory, bytes, sizeof bytes / sizeof *bytes, torn_lookup);
    memcpy(aside, first, sizeof aside);
    memcpy(first, first + STARTERBELL_CANDIDATE, sizeof aside);
    memcpy(first + STARTERBELL_CANDIDATE, aside, sizeof aside);
    torn_lookup("a lookup whose second candidate is nearer than the first");
    lent = good;
}

/* The contacts of one box, lent to another whose id they have. */
static void other_box(void) {
    struct starterbell_id id = starterbell_box_contact_id(&box, 0);
    struct starterbell_box ours = box;
    starterbell_box_start(&box, starterbell_id_bytes(&id), ADDRESSES);
    torn_contacts("contacts of another box");
    box = ours;
}

/* Memory that lost what comes after some byte: it is refused and stays as it is, or is in form. Both happen, so form is no checksum. */
static void cut_short(uint8_t *memory, size_t size, uint32_t (*look_at)(void)) {
    size_t length, refused = 0, in_form = 0;
    for (length = 0; length < size; length += 17) {
        lent = good;
        memset(memory + length, 0, size - length);
        before = lent;
        if (look_at() == STARTERBELL_REFUSAL_OUT_OF_FORM) refused++;
        else in_form++;
        if (memcmp(&lent, &before, sizeof lent) != 0) fail(1, "a look changed memory that was cut short", "");
    }
    lent = good;
    printf("of what was cut short %lu are out of form, %lu in form\n", (unsigned long)refused, (unsigned long)in_form);
    if (refused == 0 || in_form == 0) fail(1, "all of what was cut short is alike", "");
}

static uint32_t look_near(void) { return starterbell_box_nearest(&box, starterbell_text("a key")).code; }
static uint32_t look_for(void) { return starterbell_box_find(&box, starterbell_text("/wind/0")).code; }

static void tear(void) {
    good = lent;
    memset(reply, 0, sizeof reply);
    if (look_near() != STARTERBELL_DONE || STARTERBELL_REFUSED(look_for()) || STARTERBELL_REFUSED(starterbell_box_lookup_next(&lent.lookup).code))
        fail(1, "memory that was saved is refused", "");
    lent = good;
    break_contacts();
    break_records();
    break_lookup();
    other_box();
    cut_short(lent.contacts, sizeof lent.contacts, look_near);
    cut_short(lent.records, sizeof lent.records, look_for);
    printf("%u kinds of torn memory are refused with 0 by every call, and no byte changes\n", torn);
}

/* ---- */

static void make_box(void) {
    box.contacts = lent.contacts;
    box.contacts_length = sizeof lent.contacts;
    box.records = lent.records;
    box.records_length = sizeof lent.records;
    box.reply = reply;
    box.reply_length = sizeof reply;
    if (starterbell_box_start(&box, starterbell_text("our box"), ADDRESSES) != STARTERBELL_DONE) fail(1, "start is refused", "");
}

int main(int argc, char **argv) {
    const char *mode = argc > 2 ? argv[1] : "";
    unsigned n = argc > 3 ? (unsigned)strtoul(argv[2], NULL, 10) : 0;
    int whole = strcmp(mode, "whole") == 0 && argc == 4, until = strcmp(mode, "until") == 0 && argc == 4, from = strcmp(mode, "from") == 0 && argc == 5;
    if (!(whole || until || from || (strcmp(mode, "torn") == 0 && argc == 3)) || n > STEPS) {
        fprintf(stderr, "usage: saving whole N OUT | until N FILE | from N FILE OUT | torn FILE (N up to %d)\n", STEPS);
        return 2;
    }
    make_box();
    if (argc == 3) {
        load(argv[2]);
        tear();
        return 0;
    }
    if (from) load(argv[3]);
    else steps(0, n);
    if (!until) {
        report_broken();
        printf("\n");
        steps(n, STEPS);
    }
    save(argv[argc - 1]);
    return 0;
}
