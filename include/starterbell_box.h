/* The calls of starterbell.h with structs for what they are lent and for the numbers that they give. C99 and C++11; it needs the library and nothing else.

   Nothing is added and nothing is hidden: each function here is one call there, whose comment says what it does. `code` is what that call returned, a refusal's
   number or an answer, and is to be looked at first. Other fields are 0, and bytes have no length, where the call gave nothing for them. Memory is the host's as
   there; a call's stack is as there, and what these structs take on top. */
#ifndef STARTERBELL_BOX_H
#define STARTERBELL_BOX_H

#include "starterbell.h"

/* ---- What is handed over */

/* Bytes of the host's. As everywhere the pointer isn't null, also where the length is 0. */
struct starterbell_bytes {
    const uint8_t *at;
    size_t length;
};

/* An id that was copied out of lent memory, so that it may be handed to a call that writes there. */
struct starterbell_id {
    uint8_t bytes[STARTERBELL_ID_MOST];
    size_t length;
};

/* A box and what it is lent. The host sets the pointers and lengths, with contacts and records cleared once; starterbell_box_start writes `me`. Boxes that don't
   run at the same time may share `reply`. */
struct starterbell_box {
    uint8_t me[STARTERBELL_BOX];
    uint8_t *contacts;
    size_t contacts_length;
    uint8_t *records;
    size_t records_length;
    uint8_t *reply;
    size_t reply_length;
};

struct starterbell_connection {
    uint8_t state[STARTERBELL_CONNECTION];
    uint8_t buffer[STARTERBELL_RECEIVE_BUFFER];
};

struct starterbell_lookup {
    uint8_t memory[STARTERBELL_LOOKUP];
};

/* A message to write. For its two lists of peers see starterbell_write. */
struct starterbell_message {
    uint64_t type;
    struct starterbell_bytes key;
    /* whether it has a record, and the record's key and value */
    uint32_t held;
    struct starterbell_bytes record_key;
    struct starterbell_bytes value;
    struct starterbell_bytes closer;
    struct starterbell_bytes providers;
};

/* Setpoints of a list: so many turns, and as many trims. The pointers aren't null, also where there are none. */
struct starterbell_setpoints {
    const uint32_t *turns;
    const int32_t *trims;
    size_t count;
};

/* A recipe to write. In format 1 its core is empty. */
struct starterbell_recipe {
    /* enum starterbell_recipe_format */
    size_t format;
    struct starterbell_bytes note;
    struct starterbell_setpoints wrap;
    struct starterbell_setpoints core;
    uint64_t sequence;
};

static inline struct starterbell_bytes starterbell_bytes_at(const uint8_t *at, size_t length) {
    struct starterbell_bytes bytes;
    bytes.at = at;
    bytes.length = length;
    return bytes;
}

static inline struct starterbell_bytes starterbell_id_bytes(const struct starterbell_id *id) {
    return starterbell_bytes_at(id->bytes, id->length);
}

/* Copies an id. One that says to have more bytes than an id has is in no memory that calls made, and is cut. */
static inline struct starterbell_id starterbell_id_at(const uint8_t *at, size_t length) {
    struct starterbell_id id;
    size_t i;
    id.length = length < STARTERBELL_ID_MOST ? length : STARTERBELL_ID_MOST;
    for (i = 0; i < STARTERBELL_ID_MOST; i++) id.bytes[i] = i < id.length ? at[i] : 0;
    return id;
}

/* No bytes. */
static inline struct starterbell_bytes starterbell_nothing(void) {
    return starterbell_bytes_at((const uint8_t *)"", 0);
}

/* The bytes of a string, without the zero that ends it. */
static inline struct starterbell_bytes starterbell_text(const char *text) {
    size_t length = 0;
    while (text[length] != 0) length++;
    return starterbell_bytes_at((const uint8_t *)text, length);
}

static inline struct starterbell_setpoints starterbell_setpoints_at(const uint32_t *turns, const int32_t *trims, size_t count) {
    struct starterbell_setpoints setpoints;
    setpoints.turns = turns;
    setpoints.trims = trims;
    setpoints.count = count;
    return setpoints;
}

/* No setpoints. */
static inline struct starterbell_setpoints starterbell_no_setpoints(void) {
    static const uint32_t turn = 0;
    static const int32_t trim = 0;
    return starterbell_setpoints_at(&turn, &trim, 0);
}

/* A recipe of a format with a sequence, that has no note and no setpoints. */
static inline struct starterbell_recipe starterbell_recipe_of(size_t format, uint64_t sequence) {
    struct starterbell_recipe recipe;
    recipe.format = format;
    recipe.note = starterbell_nothing();
    recipe.wrap = recipe.core = starterbell_no_setpoints();
    recipe.sequence = sequence;
    return recipe;
}

/* A message of a type with a key, that has no record and no peers. */
static inline struct starterbell_message starterbell_message_of(uint64_t type, struct starterbell_bytes key) {
    struct starterbell_message message;
    message.type = type;
    message.key = key;
    message.held = 0;
    message.record_key = message.value = message.closer = message.providers = starterbell_nothing();
    return message;
}

/* ---- What comes back */

struct starterbell_received {
    uint32_t code;
    size_t taken;
    /* of the reply, or of the message in the connection's buffer */
    size_t length;
    /* enum starterbell_sighting, and the contact's slot, or that of the bucket's head */
    uint32_t sighting;
    size_t slot;
    /* for HEARD; its numbers are at the places of enum starterbell_view */
    uint64_t view[STARTERBELL_VIEW];
};

/* The contact's slot, or that of the bucket's head for 13. */
struct starterbell_sighted {
    uint32_t code;
    size_t slot;
};

struct starterbell_near {
    uint32_t code;
    size_t count;
    size_t slots[STARTERBELL_NEAREST_MOST];
};

/* The value is in the box's records, and stays there until the next put or receive. */
struct starterbell_found {
    uint32_t code;
    struct starterbell_bytes value;
};

/* The rule that is broken (enum starterbell_recipe_rule), the part that breaks it (enum starterbell_recipe_part), and which of its setpoints, for a rule on these. */
struct starterbell_broken {
    uint32_t rule;
    uint32_t part;
    size_t setpoint;
};

/* The length of all of the value, of which a shorter buffer has the start. */
struct starterbell_recipe_written {
    uint32_t code;
    size_t length;
    /* for 9 */
    struct starterbell_broken broken;
};

/* The note is in the value. */
struct starterbell_recipe_view {
    uint32_t code;
    /* enum starterbell_recipe_format */
    size_t format;
    struct starterbell_bytes note;
    /* how many setpoints there are, which starterbell_recipe_setpoints gives */
    size_t wrap_count, core_count;
    uint64_t sequence;
    /* for 9 */
    struct starterbell_broken broken;
};

struct starterbell_written {
    uint32_t code;
    size_t length;
};

/* The entry ends at `end`, from which the next is found. The ids and addresses are in the body. */
struct starterbell_named {
    uint32_t code;
    size_t start, end;
    struct starterbell_bytes id;
    uint64_t connection;
    /* how many addresses it has, and the first of them; for further ones see starterbell_peer_address */
    size_t address_count;
    struct starterbell_bytes addresses[STARTERBELL_PEER_FIRST];
};

struct starterbell_step {
    uint32_t code;
    /* whom to ask, for ASK */
    size_t rank;
    /* how many requests were sent, for COMPLETE and CUT_SHORT */
    size_t requests;
    /* the peers that were found */
    size_t found;
    size_t ranks[STARTERBELL_NEAREST_MOST];
};

/* ---- The box and its connections */

static inline uint32_t starterbell_box_start(struct starterbell_box *box, struct starterbell_bytes id, struct starterbell_bytes addresses) {
    return starterbell_start(box->me, sizeof box->me, id.at, id.length, addresses.at, addresses.length);
}

static inline uint32_t starterbell_box_open(const struct starterbell_box *box, struct starterbell_connection *conn, struct starterbell_bytes id,
    uint32_t server, uint32_t asking, struct starterbell_bytes addresses) {
    return starterbell_open(box->me, sizeof box->me, conn->state, sizeof conn->state, id.at, id.length, server, asking, addresses.at, addresses.length);
}

static inline struct starterbell_received starterbell_box_receive(const struct starterbell_box *box, struct starterbell_connection *conn,
    struct starterbell_bytes piece) {
    struct starterbell_received received;
    uint64_t out[STARTERBELL_RECEIVE_OUT] = {0};
    size_t i;
    received.code = starterbell_receive(box->me, sizeof box->me, conn->state, sizeof conn->state, conn->buffer, sizeof conn->buffer, piece.at, piece.length,
        box->contacts, box->contacts_length, box->records, box->records_length, box->reply, box->reply_length, out, STARTERBELL_RECEIVE_OUT);
    received.taken = (size_t)out[STARTERBELL_RECEIVE_OUT_TAKEN];
    received.length = (size_t)out[STARTERBELL_RECEIVE_OUT_LENGTH];
    received.sighting = (uint32_t)out[STARTERBELL_RECEIVE_OUT_SIGHTING];
    received.slot = (size_t)out[STARTERBELL_RECEIVE_OUT_SLOT];
    for (i = 0; i < STARTERBELL_VIEW; i++) received.view[i] = out[STARTERBELL_RECEIVE_OUT_VIEW + i];
    return received;
}

static inline uint32_t starterbell_box_end(const struct starterbell_box *box, struct starterbell_connection *conn) {
    return starterbell_end(box->me, sizeof box->me, conn->state, sizeof conn->state);
}

/* ---- Contacts */

static inline struct starterbell_sighted starterbell_box_seen(const struct starterbell_box *box, struct starterbell_bytes id, uint32_t client,
    struct starterbell_bytes addresses) {
    struct starterbell_sighted sighted;
    uint64_t out[STARTERBELL_SEEN_OUT] = {0};
    sighted.code = starterbell_seen(box->me, sizeof box->me, box->contacts, box->contacts_length, id.at, id.length, client, addresses.at, addresses.length, out,
        STARTERBELL_SEEN_OUT);
    sighted.slot = (size_t)out[STARTERBELL_SEEN_OUT_SLOT];
    return sighted;
}

static inline uint32_t starterbell_box_settle(const struct starterbell_box *box, struct starterbell_bytes head, struct starterbell_bytes id, uint32_t client,
    struct starterbell_bytes addresses, uint32_t answered) {
    return starterbell_settle(box->me, sizeof box->me, box->contacts, box->contacts_length, head.at, head.length, id.at, id.length, client, addresses.at,
        addresses.length, answered);
}

static inline uint32_t starterbell_box_remove(const struct starterbell_box *box, struct starterbell_bytes id) {
    return starterbell_remove(box->me, sizeof box->me, box->contacts, box->contacts_length, id.at, id.length);
}

static inline uint32_t starterbell_box_doubt(const struct starterbell_box *box, struct starterbell_bytes id) {
    return starterbell_doubt(box->me, sizeof box->me, box->contacts, box->contacts_length, id.at, id.length);
}

static inline struct starterbell_near starterbell_box_nearest(const struct starterbell_box *box, struct starterbell_bytes key) {
    struct starterbell_near near;
    uint64_t out[STARTERBELL_NEAREST_OUT] = {0};
    size_t i;
    near.code = starterbell_nearest(box->me, sizeof box->me, box->contacts, box->contacts_length, key.at, key.length, out, STARTERBELL_NEAREST_OUT);
    near.count = (size_t)out[STARTERBELL_NEAREST_OUT_COUNT];
    for (i = 0; i < STARTERBELL_NEAREST_MOST; i++) near.slots[i] = (size_t)out[STARTERBELL_NEAREST_OUT_SLOTS + i];
    return near;
}

/* The bytes of a contact's slot, which has to be one of the box's. */
static inline const uint8_t *starterbell_box_contact(const struct starterbell_box *box, size_t slot) {
    return box->contacts + slot * STARTERBELL_CONTACT_SLOT;
}

/* Its id. */
static inline struct starterbell_id starterbell_box_contact_id(const struct starterbell_box *box, size_t slot) {
    const uint8_t *contact = starterbell_box_contact(box, slot);
    return starterbell_id_at(contact + STARTERBELL_PEER_ID_AT, contact[STARTERBELL_PEER_ID_LENGTH_AT]);
}

/* ---- Records */

static inline uint32_t starterbell_box_put(const struct starterbell_box *box, struct starterbell_bytes key, struct starterbell_bytes value) {
    return starterbell_put(box->records, box->records_length, key.at, key.length, value.at, value.length);
}

static inline struct starterbell_found starterbell_box_find(const struct starterbell_box *box, struct starterbell_bytes key) {
    struct starterbell_found found;
    uint64_t out[STARTERBELL_FIND_OUT] = {0};
    found.code = starterbell_find(box->records, box->records_length, key.at, key.length, out, STARTERBELL_FIND_OUT);
    found.value = starterbell_nothing();
    if (found.code == STARTERBELL_FIND_HELD)
        found.value = starterbell_bytes_at(box->records + out[STARTERBELL_FIND_OUT_START], (size_t)(out[STARTERBELL_FIND_OUT_END] - out[STARTERBELL_FIND_OUT_START]));
    return found;
}

/* ---- Recipes */

/* What a call that gave 9 tells. */
static inline struct starterbell_broken starterbell_broken_of(uint32_t code, const uint64_t *out) {
    struct starterbell_broken broken = {0, 0, 0};
    if (code != STARTERBELL_REFUSAL_BROKEN_RECIPE) return broken;
    broken.rule = (uint32_t)out[STARTERBELL_RECIPE_REFUSED_OUT_RULE];
    broken.part = (uint32_t)out[STARTERBELL_RECIPE_REFUSED_OUT_PART];
    broken.setpoint = (size_t)out[STARTERBELL_RECIPE_REFUSED_OUT_SETPOINT];
    return broken;
}

/* starterbell_recipe_write: at the start of a buffer, of which STARTERBELL_VALUE_MOST bytes are always enough. */
static inline struct starterbell_recipe_written starterbell_value_write(uint8_t *value, size_t value_length, const struct starterbell_recipe *recipe) {
    struct starterbell_recipe_written written;
    uint64_t out[STARTERBELL_RECIPE_WRITE_OUT] = {0};
    written.code = starterbell_recipe_write(value, value_length, recipe->format, recipe->note.at, recipe->note.length, recipe->wrap.turns, recipe->wrap.count,
        recipe->wrap.trims, recipe->wrap.count, recipe->core.turns, recipe->core.count, recipe->core.trims, recipe->core.count, recipe->sequence, out,
        STARTERBELL_RECIPE_WRITE_OUT);
    written.length = written.code == STARTERBELL_DONE ? (size_t)out[STARTERBELL_RECIPE_WRITE_OUT_LENGTH] : 0;
    written.broken = starterbell_broken_of(written.code, out);
    return written;
}

/* starterbell_recipe_read. Of a value that is no recipe nothing is shown. */
static inline struct starterbell_recipe_view starterbell_value_read(struct starterbell_bytes value) {
    struct starterbell_recipe_view view;
    uint64_t out[STARTERBELL_RECIPE_READ_OUT] = {0}, none[STARTERBELL_RECIPE_READ_OUT] = {0};
    const uint64_t *told;
    view.code = starterbell_recipe_read(value.at, value.length, out, STARTERBELL_RECIPE_READ_OUT);
    told = view.code == STARTERBELL_DONE ? out : none;
    view.format = (size_t)told[STARTERBELL_RECIPE_READ_OUT_FORMAT];
    view.note = starterbell_bytes_at(value.at, (size_t)told[STARTERBELL_RECIPE_READ_OUT_CORE_AT]);
    view.wrap_count = (size_t)told[STARTERBELL_RECIPE_READ_OUT_WRAP_COUNT];
    view.core_count = (size_t)told[STARTERBELL_RECIPE_READ_OUT_CORE_COUNT];
    view.sequence = told[STARTERBELL_RECIPE_READ_OUT_SEQUENCE];
    view.broken = starterbell_broken_of(view.code, out);
    return view;
}

/* ---- Messages */

/* starterbell_write: at the start of a buffer of at least STARTERBELL_REPLY_BUFFER bytes. */
static inline struct starterbell_written starterbell_message_write(uint8_t *buffer, size_t buffer_length, const struct starterbell_message *message) {
    struct starterbell_written written;
    uint64_t out[STARTERBELL_WRITE_OUT] = {0};
    written.code = starterbell_write(buffer, buffer_length, message->type, message->key.at, message->key.length, message->held, message->record_key.at,
        message->record_key.length, message->value.at, message->value.length, message->closer.at, message->closer.length, message->providers.at,
        message->providers.length, out, STARTERBELL_WRITE_OUT);
    written.length = (size_t)out[STARTERBELL_WRITE_OUT_LENGTH];
    return written;
}

/* The part of a body that starts and ends there, as starterbell_read and starterbell_peer tell: an absent one starts at 0. */
static inline struct starterbell_bytes starterbell_part(struct starterbell_bytes body, uint64_t start, uint64_t end) {
    return start == 0 ? starterbell_nothing() : starterbell_bytes_at(body.at + start, (size_t)(end - start));
}

/* starterbell_peer: the next entry, from a position on, of closerPeers (list 0) or providerPeers. */
static inline struct starterbell_named starterbell_message_peer(struct starterbell_bytes body, uint32_t list, size_t from) {
    struct starterbell_named named;
    uint64_t out[STARTERBELL_PEER_OUT] = {0};
    const uint64_t *places = out + STARTERBELL_PEER_OUT_ADDRESSES;
    size_t i;
    named.code = starterbell_peer(body.at, body.length, list, from, out, STARTERBELL_PEER_OUT);
    named.start = (size_t)out[STARTERBELL_PEER_OUT_START];
    named.end = (size_t)out[STARTERBELL_PEER_OUT_END];
    named.id = starterbell_part(body, out[STARTERBELL_PEER_OUT_ID_START], out[STARTERBELL_PEER_OUT_ID_END]);
    named.connection = out[STARTERBELL_PEER_OUT_CONNECTION];
    named.address_count = (size_t)out[STARTERBELL_PEER_OUT_ADDRESS_COUNT];
    for (i = 0; i < STARTERBELL_PEER_FIRST; i++) named.addresses[i] = starterbell_part(body, places[2 * i], places[2 * i + 1]);
    return named;
}

/* ---- Lookups */

/* The four calls' numbers. */
static inline struct starterbell_step starterbell_step_of(uint32_t code, const uint64_t *out) {
    struct starterbell_step step;
    size_t i;
    step.code = code;
    step.rank = code == STARTERBELL_LOOKUP_ASK ? (size_t)out[STARTERBELL_LOOKUP_OUT_RANK] : 0;
    step.requests = code == STARTERBELL_LOOKUP_COMPLETE || code == STARTERBELL_LOOKUP_CUT_SHORT ? (size_t)out[STARTERBELL_LOOKUP_OUT_REQUESTS] : 0;
    step.found = (size_t)out[STARTERBELL_LOOKUP_OUT_FOUND];
    for (i = 0; i < STARTERBELL_NEAREST_MOST; i++) step.ranks[i] = (size_t)out[STARTERBELL_LOOKUP_OUT_RANKS + i];
    return step;
}

static inline struct starterbell_step starterbell_box_lookup_start(const struct starterbell_box *box, struct starterbell_lookup *lookup, struct starterbell_bytes key,
    size_t limit) {
    uint64_t out[STARTERBELL_LOOKUP_OUT] = {0};
    uint32_t code = starterbell_lookup_start(box->me, sizeof box->me, lookup->memory, sizeof lookup->memory, box->contacts, box->contacts_length, key.at, key.length,
        limit, out, STARTERBELL_LOOKUP_OUT);
    return starterbell_step_of(code, out);
}

static inline struct starterbell_step starterbell_box_lookup_next(struct starterbell_lookup *lookup) {
    uint64_t out[STARTERBELL_LOOKUP_OUT] = {0};
    uint32_t code = starterbell_lookup_next(lookup->memory, sizeof lookup->memory, out, STARTERBELL_LOOKUP_OUT);
    return starterbell_step_of(code, out);
}

/* The view is of STARTERBELL_VIEW numbers, as starterbell_box_receive or starterbell_read gave it. */
static inline struct starterbell_step starterbell_box_lookup_reply(const struct starterbell_box *box, struct starterbell_lookup *lookup, struct starterbell_bytes id,
    struct starterbell_bytes body, const uint64_t *view) {
    uint64_t out[STARTERBELL_LOOKUP_OUT] = {0};
    uint32_t code = starterbell_lookup_reply(box->me, sizeof box->me, lookup->memory, sizeof lookup->memory, id.at, id.length, body.at, body.length, view,
        STARTERBELL_VIEW, out, STARTERBELL_LOOKUP_OUT);
    return starterbell_step_of(code, out);
}

static inline struct starterbell_step starterbell_box_lookup_failure(const struct starterbell_box *box, struct starterbell_lookup *lookup, struct starterbell_bytes id) {
    uint64_t out[STARTERBELL_LOOKUP_OUT] = {0};
    uint32_t code = starterbell_lookup_failure(box->me, sizeof box->me, lookup->memory, sizeof lookup->memory, id.at, id.length, out, STARTERBELL_LOOKUP_OUT);
    return starterbell_step_of(code, out);
}

/* How many candidates a lookup has. */
static inline size_t starterbell_lookup_candidates(const struct starterbell_lookup *lookup) {
    const uint8_t *count = lookup->memory + STARTERBELL_CANDIDATE_COUNT_AT;
    return count[0] + 256u * (size_t)count[1];
}

/* The mark of the candidate of a rank (enum starterbell_mark), and its id. The rank holds until the lookup's next call. */
static inline uint32_t starterbell_lookup_mark(const struct starterbell_lookup *lookup, size_t rank) {
    return lookup->memory[STARTERBELL_CANDIDATES_AT + rank * STARTERBELL_CANDIDATE + STARTERBELL_CANDIDATE_MARK_AT];
}

static inline struct starterbell_id starterbell_lookup_id(const struct starterbell_lookup *lookup, size_t rank) {
    const uint8_t *candidate = lookup->memory + STARTERBELL_CANDIDATES_AT + rank * STARTERBELL_CANDIDATE;
    return starterbell_id_at(candidate + STARTERBELL_CANDIDATE_ID_AT, candidate[STARTERBELL_CANDIDATE_ID_LENGTH_AT]);
}

#endif
