/* Starterbell for C and C++: the networking core of a box that winds violin strings. Link dist/starterbell-x86_64.s or dist/starterbell-aarch64.s, which `cc` takes
   like a source file, or the archive that `tools/native-lib host OUT.a` proves and writes.

   The core opens no socket, keeps no clock, takes no memory of its own and keeps nothing between calls. The host hands it bytes and lends it memory, sends what
   it writes, and does what it answers. Every call returns, on every input: what a call returns and every byte that it leaves in lent memory is fixed and proved.

   Memory
     All of it is the host's, before, during and after a call. What stands in `const` memory isn't written.
     A slice is a pointer and a length in elements. The pointer is never null, also where the length is 0.
     Memory that a call may write (not `const`) must not overlap any other memory handed to the same call. Memory that is only read may.
     Bytes need no alignment; `out` and `view` are arrays of uint64_t, turns of uint32_t and trims of int32_t.
     A box, a connection and a lookup are bytes that only these functions write. The host may copy them; there are no pointers in them.
     Contacts and records are lists of slots, cleared by the host once before their first use (all zeros), and then written by these functions alone.
     Calls that are lent none of the same memory may run at the same time.
     How much stack each call needs is below, in Stack.

   What a call returns
     A refusal's number, 0 to 21 (enum starterbell_refusal), or an answer from 64 up (enum starterbell_answer).
     Further numbers go to `out`, as many as fit: those past `out_length` are left out. Where a call is refused `out` stays as it was, unless its comment says more.
     A refused call changes nothing, unless its comment says more.

   What a host hands over
     An id is a peer's id, 1 to 64 bytes. A key of a lookup or request is 1 to 128 bytes.
     Addresses are one byte string: for each its length in two bytes, the lower first, and then its bytes. Those of 1 to 128 bytes are usable, and the first four
     usable ones are kept. One that runs past the end ends the list.
     A yes or no is a number: 0 is no, any other is yes.

   Saving
     Lent memory is plain bytes: a host may write it to a file, and lend it again after a power cut. It is then the memory that it was, and calls go on as if
     nothing had happened: what is promised of memory that was cleared once, and since then lent whole and changed by calls alone, still holds. So a record that
     was accepted stays the one found.
     What goes together: contacts with `me`, or with the id and the addresses from which starterbell_start makes the same bytes of it again; a lookup with the `me`
     that it was started for, and its candidates in flight are then reported by starterbell_lookup_failure. Records stand for themselves. A connection isn't worth
     saving, since its peer's stream is gone.
     Save between two calls, never during one, and whole: write a second file and then rename it. Half of an old table and half of a new one may be in form, and
     yet be nothing that calls made. Look that all of the bytes came back: form is no checksum, and a file that was cut short may be in form.
     What is out of form gets 0 from every call that would go on from it, and isn't written. What is in form but wasn't made by calls is dealt with safely, as any
     bytes are; but nothing is promised about its nearest contacts, since places that are stored aren't hashed again, nor about its values, which aren't judged
     again.
     Bytes are for the version that wrote them (STARTERBELL_VERSION), so save that with them: another may have other limits or another layout. Version 0.2 laid
     everything out as this one does, so what it wrote is lent as it is.
     Version 0.1 laid records out in slots of 2,184 bytes, which this one doesn't read: lent as they are, they are other bytes, and calls give 0, or find some and not
     others. Find each record in the old layout and put it into cleared memory, which starterbell_older.h does: a put judges it, so what is promised of memory that was
     cleared once and changed by calls alone holds of what comes out. What a put refuses, as a record from before a rule on recipes (9), is told, and stands in the old
     memory as before. The box, contacts and lookups of version 0.1 are laid out as they are here.

   Beside this header there are three, with functions in C over these: starterbell_box.h, which takes a box, a connection, a lookup and a recipe as structs and answers
   with structs; starterbell_names.h, which has the texts of refusals and of a recipe's rules; and starterbell_older.h, which carries records over from memory of
   version 0.1. */
#ifndef STARTERBELL_H
#define STARTERBELL_H

#include <stddef.h>
#include <stdint.h>

#ifdef __cplusplus
extern "C" {
#endif

/* ---- Version */

#define STARTERBELL_VERSION_MAJOR 0
#define STARTERBELL_VERSION_MINOR 3
#define STARTERBELL_VERSION_PATCH 0
#define STARTERBELL_VERSION "0.3.0"

/* ---- Sizes */

/* Bytes of a box, of a connection and of a lookup. In fewer a call gives 0; those past them aren't looked at. */
#define STARTERBELL_BOX 616
#define STARTERBELL_CONNECTION 640
#define STARTERBELL_LOOKUP 25256

/* Bytes of a contact's slot and of a record's, and the most slots that are looked at. A part of a slot at the end isn't touched. */
#define STARTERBELL_CONTACT_SLOT 616
#define STARTERBELL_CONTACT_SLOTS_MOST 5120
#define STARTERBELL_RECORD_SLOT 3208
#define STARTERBELL_RECORD_SLOTS_MOST 256

/* The least bytes of a receive buffer and of a reply buffer; in fewer a call gives 1. */
#define STARTERBELL_RECEIVE_BUFFER 16384
#define STARTERBELL_REPLY_BUFFER 16387

/* How many numbers go to `out` at most: enough for every call. Each call's own are in the enums starterbell_.._out below. */
#define STARTERBELL_OUT_MOST 22

/* The most bytes of an id, of an address, of a key and of a value, and the bytes of a place. */
#define STARTERBELL_ID_MOST 64
#define STARTERBELL_ADDRESS_MOST 128
#define STARTERBELL_KEY_MOST 128
#define STARTERBELL_VALUE_MOST 3072
#define STARTERBELL_PLACE 32

/* The most addresses that are kept of a peer, contacts in a bucket, contacts or peers that are nearest, and requests of a lookup at a time. */
#define STARTERBELL_ADDRESSES_MOST 4
#define STARTERBELL_BUCKET_MOST 20
#define STARTERBELL_NEAREST_MOST 20
#define STARTERBELL_CONCURRENCY_MOST 10

/* Of how many addresses starterbell_peer tells where they are. */
#define STARTERBELL_PEER_FIRST 8

/* ---- Stack

   Bytes of stack that are enough for each call, on Arm (aarch64) and on x86-64: the most that it used with all the memory that may be lent, rounded up to a multiple
   of 256. That is measured (tests/stack), not proved. STARTERBELL_STACK_MOST is enough for every call. */
#define STARTERBELL_STACK_START 2560
#define STARTERBELL_STACK_OPEN 3072
#define STARTERBELL_STACK_RECEIVE 15616
#define STARTERBELL_STACK_END 512
#define STARTERBELL_STACK_SEEN 11520
#define STARTERBELL_STACK_SETTLE 12800
#define STARTERBELL_STACK_REMOVE 11264
#define STARTERBELL_STACK_DOUBT 10752
#define STARTERBELL_STACK_NEAREST 12032
#define STARTERBELL_STACK_PUT 768
#define STARTERBELL_STACK_FIND 768
#define STARTERBELL_STACK_RECIPE_READ 512
#define STARTERBELL_STACK_RECIPE_SETPOINTS 512
#define STARTERBELL_STACK_RECIPE_WRITE 512
#define STARTERBELL_STACK_READ 768
#define STARTERBELL_STACK_PEER 768
#define STARTERBELL_STACK_PEER_ADDRESS 512
#define STARTERBELL_STACK_WRITE 768
#define STARTERBELL_STACK_LOOKUP_START 11264
#define STARTERBELL_STACK_LOOKUP_NEXT 1024
#define STARTERBELL_STACK_LOOKUP_REPLY 5120
#define STARTERBELL_STACK_LOOKUP_FAILURE 3072
#define STARTERBELL_STACK_MOST 15616

/* ---- What a host may read in lent memory */

/* In a box, a contact's slot and the start of a connection: the length of the id, how many addresses there are, their four lengths, the place (SHA-256 of the
   id), the id, and four rooms of 128 bytes for the addresses. A contact's slot has before them its rank in its bucket plus 1, which is 0 where the slot is free, and
   its doubt: 1 where the contact is doubtful, else 0. */
#define STARTERBELL_CONTACT_RANK_AT 0
#define STARTERBELL_CONTACT_DOUBT_AT 1
#define STARTERBELL_PEER_ID_LENGTH_AT 2
#define STARTERBELL_PEER_ADDRESS_COUNT_AT 3
#define STARTERBELL_PEER_ADDRESS_LENGTHS_AT 4
#define STARTERBELL_PEER_PLACE_AT 8
#define STARTERBELL_PEER_ID_AT 40
#define STARTERBELL_PEER_ADDRESSES_AT 104
#define STARTERBELL_PEER_ADDRESS_ROOM 128

/* In a record's slot: the length of the key, which is 0 where the slot is free, the length of the value in two bytes, the lower first, the key, and the value. */
#define STARTERBELL_RECORD_KEY_LENGTH_AT 0
#define STARTERBELL_RECORD_VALUE_LENGTH_AT 2
#define STARTERBELL_RECORD_KEY_AT 8
#define STARTERBELL_RECORD_VALUE_AT 136

/* A value is a recipe, for one spool or for two. Read it by starterbell_recipe_read, which judges it first, and write it by starterbell_recipe_write.
   Format 1 has a note, the wrap, and a trailer of 16 bytes; format 2 has a note, the core, the wrap, and a trailer of 24. Wrap and core are lists of setpoints, each
   by itself. A setpoint is its turn, at most STARTERBELL_TURN_MOST and higher than the one before, and its trim, at most STARTERBELL_TRIM_MOST millinewtons either way
   and at most STARTERBELL_LEAP_MOST from the one before; both as varints with no needless byte, the trim in zigzag form (0, -1, 1, -2 .. are 0, 1, 2, 3 ..). A list has
   at most STARTERBELL_SETPOINTS_MOST of them.
   The last 16 bytes are, the lowest byte first: in four bytes how far the wrap's start is from the value's end, in two the number of its setpoints, in two the
   format, and in eight the sequence. The 8 bytes before them, in format 2: in four bytes how far the core's start is from the value's end, in two the number of its
   setpoints, and two zeros. */
#define STARTERBELL_RECIPE_TRAILER_ONE 16
#define STARTERBELL_RECIPE_TRAILER_TWO 24
#define STARTERBELL_SETPOINTS_MOST 400
#define STARTERBELL_TURN_MOST 1000000
#define STARTERBELL_TRIM_MOST 20000
#define STARTERBELL_LEAP_MOST 5000

/* In a lookup: the number of candidates in two bytes, the lower first, and the candidates from the nearest on. The candidate of rank r is at
   STARTERBELL_CANDIDATES_AT + r * STARTERBELL_CANDIDATE; in it are its mark (enum starterbell_mark), the length of its id, and its id. */
#define STARTERBELL_CANDIDATE_COUNT_AT 0
#define STARTERBELL_CANDIDATES_AT 168
#define STARTERBELL_CANDIDATE 98
#define STARTERBELL_CANDIDATES_MOST 256
#define STARTERBELL_CANDIDATE_MARK_AT 0
#define STARTERBELL_CANDIDATE_ID_LENGTH_AT 1
#define STARTERBELL_CANDIDATE_ID_AT 2

/* ---- Numbers */

/* Where several refusals apply the lowest is given, except that 17 comes before 16 and 18 before 13 and 14, and a contact that is held is never refused with 13
   or 14. */
enum starterbell_refusal {
    /* lent contact or record memory, a lookup, a view or a connection is out of form */
    STARTERBELL_REFUSAL_OUT_OF_FORM = 0,
    /* receive buffer under 16,384 or reply buffer under 16,387 bytes */
    STARTERBELL_REFUSAL_SMALL_BUFFER = 1,
    /* connection is shut */
    STARTERBELL_REFUSAL_SHUT = 2,
    /* length prefix not minimal */
    STARTERBELL_REFUSAL_PREFIX_NOT_MINIMAL = 3,
    /* message over 16,384 bytes */
    STARTERBELL_REFUSAL_TOO_LONG = 4,
    /* body isn't well formed */
    STARTERBELL_REFUSAL_MALFORMED = 5,
    /* type not 0 to 5 */
    STARTERBELL_REFUSAL_UNKNOWN_TYPE = 6,
    /* type 2 or 3 (providers) */
    STARTERBELL_REFUSAL_PROVIDERS = 7,
    /* key or record breaks the request rules */
    STARTERBELL_REFUSAL_BREAKS_RULES = 8,
    /* recipe broken */
    STARTERBELL_REFUSAL_BROKEN_RECIPE = 9,
    /* held record ranks higher */
    STARTERBELL_REFUSAL_OUTRANKED = 10,
    /* key not held, every record slot holds another key */
    STARTERBELL_REFUSAL_NO_RECORD_SLOT = 11,
    /* peer id not 1 to 64 bytes, or of our place */
    STARTERBELL_REFUSAL_BAD_PEER = 12,
    /* bucket holds 20; its head is named for a probe */
    STARTERBELL_REFUSAL_BUCKET_FULL = 13,
    /* bucket has room, every contact slot is used */
    STARTERBELL_REFUSAL_NO_CONTACT_SLOT = 14,
    /* settle, remove or doubt no longer fits the table */
    STARTERBELL_REFUSAL_NO_LONGER_FITS = 15,
    /* peer isn't in flight in this lookup */
    STARTERBELL_REFUSAL_NOT_IN_FLIGHT = 16,
    /* lookup is over */
    STARTERBELL_REFUSAL_LOOKUP_OVER = 17,
    /* peer is a client */
    STARTERBELL_REFUSAL_CLIENT = 18,
    /* connection ended inside a prefix or body */
    STARTERBELL_REFUSAL_ENDED_INSIDE = 19,
    /* concurrency not 1 to 10 */
    STARTERBELL_REFUSAL_BAD_CONCURRENCY = 20,
    /* message can't be written: a part or the whole is over its limit, or type or connection out of range */
    STARTERBELL_REFUSAL_UNWRITABLE = 21
};

/* Whether what a call returned is a refusal. */
#define STARTERBELL_REFUSED(code) ((code) < 64u)

enum starterbell_answer {
    /* start, open, end, remove, doubt, nearest, put, recipe_read, recipe_setpoints, recipe_write, read, write */
    STARTERBELL_DONE = 64,
    /* seen */
    STARTERBELL_SEEN_MOVED = 64,
    STARTERBELL_SEEN_JOINED = 65,
    /* settle */
    STARTERBELL_SETTLE_KEPT = 64,
    STARTERBELL_SETTLE_SWAPPED = 65,
    /* find */
    STARTERBELL_FIND_HELD = 64,
    STARTERBELL_FIND_NOT_HELD = 65,
    /* peer, peer_address */
    STARTERBELL_PEER_AT = 64,
    STARTERBELL_PEER_NOTHING = 65,
    /* receive */
    STARTERBELL_RECEIVE_MORE = 64,
    STARTERBELL_RECEIVE_REPLY = 65,
    STARTERBELL_RECEIVE_HEARD = 66,
    /* lookup_start, lookup_next, lookup_reply, lookup_failure */
    STARTERBELL_LOOKUP_GOING = 64,
    STARTERBELL_LOOKUP_WAIT = 65,
    STARTERBELL_LOOKUP_ASK = 66,
    STARTERBELL_LOOKUP_COMPLETE = 67,
    STARTERBELL_LOOKUP_CUT_SHORT = 68
};

/* The types of messages. */
enum starterbell_type {
    STARTERBELL_TYPE_PUT_VALUE = 0,
    STARTERBELL_TYPE_GET_VALUE = 1,
    STARTERBELL_TYPE_ADD_PROVIDER = 2,
    STARTERBELL_TYPE_GET_PROVIDERS = 3,
    STARTERBELL_TYPE_FIND_NODE = 4,
    STARTERBELL_TYPE_PING = 5
};

/* The connection of a peer, as the one that names it in a message has it. */
enum starterbell_peer_connection {
    STARTERBELL_PEER_NOT_CONNECTED = 0,
    STARTERBELL_PEER_CONNECTED = 1,
    STARTERBELL_PEER_CAN_CONNECT = 2,
    STARTERBELL_PEER_CANNOT_CONNECT = 3
};

/* The mark of a lookup's candidate. */
enum starterbell_mark {
    STARTERBELL_MARK_IDLE = 0,
    STARTERBELL_MARK_IN_FLIGHT = 1,
    STARTERBELL_MARK_ANSWERED = 2,
    STARTERBELL_MARK_FAILED = 3
};

/* What came of a sender's sighting. */
enum starterbell_sighting {
    STARTERBELL_SIGHTING_NOT_SEEN = 0,
    STARTERBELL_SIGHTING_MOVED = 1,
    STARTERBELL_SIGHTING_JOINED = 2,
    STARTERBELL_SIGHTING_FULL = 3,
    STARTERBELL_SIGHTING_NO_SLOT = 4
};

/* The format of a recipe: for one spool, the wrap, or for two, the wrap and the core. */
enum starterbell_recipe_format {
    STARTERBELL_RECIPE_FORMAT_ONE = 1,
    STARTERBELL_RECIPE_FORMAT_TWO = 2
};

/* What breaks a rule of recipes, where a value or the fields of one are refused with 9. CORE_IN_FORMAT_ONE and UNPAIRED come in writing alone; TOO_SHORT, PAD_NOT_ZERO,
   BAD_DISTANCE, NO_SETPOINT and BYTES_LEFT in reading alone. */
enum starterbell_recipe_rule {
    /* fewer bytes than its trailer has */
    STARTERBELL_RECIPE_TOO_SHORT = 1,
    /* over 3,072 bytes */
    STARTERBELL_RECIPE_TOO_LONG = 2,
    /* format not 1 or 2 */
    STARTERBELL_RECIPE_UNKNOWN_FORMAT = 3,
    /* a core in format 1 */
    STARTERBELL_RECIPE_CORE_IN_FORMAT_ONE = 4,
    /* one of the two zero bytes of format 2 isn't zero */
    STARTERBELL_RECIPE_PAD_NOT_ZERO = 5,
    /* the list begins before the value, or past its own end */
    STARTERBELL_RECIPE_BAD_DISTANCE = 6,
    /* over 400 setpoints in a list */
    STARTERBELL_RECIPE_TOO_MANY_SETPOINTS = 7,
    /* not as many trims as turns */
    STARTERBELL_RECIPE_UNPAIRED = 8,
    /* its turn or its trim isn't a minimal varint of at most three bytes inside the list */
    STARTERBELL_RECIPE_NO_SETPOINT = 9,
    /* turn over 1,000,000 */
    STARTERBELL_RECIPE_TURN_TOO_HIGH = 10,
    /* turn not higher than the one before */
    STARTERBELL_RECIPE_TURN_NOT_RISING = 11,
    /* trim not from -20,000 to 20,000 */
    STARTERBELL_RECIPE_TRIM_OUT_OF_RANGE = 12,
    /* trim more than 5,000 from the one before */
    STARTERBELL_RECIPE_TRIM_LEAPS = 13,
    /* bytes between the last setpoint and the list's end */
    STARTERBELL_RECIPE_BYTES_LEFT = 14
};

/* The part of a recipe that breaks a rule. */
enum starterbell_recipe_part {
    /* the value as a whole */
    STARTERBELL_RECIPE_WHOLE = 0,
    /* wrap */
    STARTERBELL_RECIPE_WRAP = 1,
    /* core */
    STARTERBELL_RECIPE_CORE = 2
};

/* ---- Places in `out`, and after them how many numbers a call writes there at most */

/* The view of a message. A part that is absent starts and ends at 0. */
enum starterbell_view {
    STARTERBELL_VIEW_TYPE = 0,
    STARTERBELL_VIEW_KEY_START = 1,
    STARTERBELL_VIEW_KEY_END = 2,
    /* 1 if there is a record, else 0 */
    STARTERBELL_VIEW_RECORD = 3,
    STARTERBELL_VIEW_RECORD_KEY_START = 4,
    STARTERBELL_VIEW_RECORD_KEY_END = 5,
    STARTERBELL_VIEW_VALUE_START = 6,
    STARTERBELL_VIEW_VALUE_END = 7,
    STARTERBELL_VIEW = 8
};

enum starterbell_receive_out {
    STARTERBELL_RECEIVE_OUT_TAKEN = 0,
    STARTERBELL_RECEIVE_OUT_LENGTH = 1,
    STARTERBELL_RECEIVE_OUT_SIGHTING = 2,
    STARTERBELL_RECEIVE_OUT_SLOT = 3,
    /* for HEARD, the view of the message */
    STARTERBELL_RECEIVE_OUT_VIEW = 4,
    STARTERBELL_RECEIVE_OUT = 12
};

enum starterbell_seen_out {
    STARTERBELL_SEEN_OUT_SLOT = 0,
    STARTERBELL_SEEN_OUT = 1
};

enum starterbell_nearest_out {
    STARTERBELL_NEAREST_OUT_COUNT = 0,
    STARTERBELL_NEAREST_OUT_SLOTS = 1,
    STARTERBELL_NEAREST_OUT = 21
};

enum starterbell_find_out {
    STARTERBELL_FIND_OUT_START = 0,
    STARTERBELL_FIND_OUT_END = 1,
    STARTERBELL_FIND_OUT = 2
};

/* recipe_read, where the value is a recipe */
enum starterbell_recipe_read_out {
    STARTERBELL_RECIPE_READ_OUT_FORMAT = 0,
    /* where the core, the wrap and the trailer start, each of which ends what stands before it: the note, the core and the wrap */
    STARTERBELL_RECIPE_READ_OUT_CORE_AT = 1,
    STARTERBELL_RECIPE_READ_OUT_WRAP_AT = 2,
    STARTERBELL_RECIPE_READ_OUT_TRAILER_AT = 3,
    /* how many setpoints */
    STARTERBELL_RECIPE_READ_OUT_CORE_COUNT = 4,
    STARTERBELL_RECIPE_READ_OUT_WRAP_COUNT = 5,
    STARTERBELL_RECIPE_READ_OUT_SEQUENCE = 6,
    STARTERBELL_RECIPE_READ_OUT = 7
};

/* recipe_write, where the fields are a recipe's; where they aren't it tells more, and there is room for that too */
enum starterbell_recipe_write_out {
    STARTERBELL_RECIPE_WRITE_OUT_LENGTH = 0,
    STARTERBELL_RECIPE_WRITE_OUT = 3
};

/* recipe_read and recipe_write, where they give 9 */
enum starterbell_recipe_refused_out {
    /* enum starterbell_recipe_rule */
    STARTERBELL_RECIPE_REFUSED_OUT_RULE = 0,
    /* enum starterbell_recipe_part */
    STARTERBELL_RECIPE_REFUSED_OUT_PART = 1,
    /* which of the part's setpoints, from 0, for the rules from NO_SETPOINT to TRIM_LEAPS, else 0 */
    STARTERBELL_RECIPE_REFUSED_OUT_SETPOINT = 2,
    STARTERBELL_RECIPE_REFUSED_OUT = 3
};

enum starterbell_peer_out {
    STARTERBELL_PEER_OUT_START = 0,
    STARTERBELL_PEER_OUT_END = 1,
    STARTERBELL_PEER_OUT_ID_START = 2,
    STARTERBELL_PEER_OUT_ID_END = 3,
    STARTERBELL_PEER_OUT_CONNECTION = 4,
    STARTERBELL_PEER_OUT_ADDRESS_COUNT = 5,
    /* where each of the first STARTERBELL_PEER_FIRST addresses starts and ends */
    STARTERBELL_PEER_OUT_ADDRESSES = 6,
    STARTERBELL_PEER_OUT = 22
};

enum starterbell_peer_address_out {
    STARTERBELL_PEER_ADDRESS_OUT_START = 0,
    STARTERBELL_PEER_ADDRESS_OUT_END = 1,
    STARTERBELL_PEER_ADDRESS_OUT = 2
};

enum starterbell_write_out {
    STARTERBELL_WRITE_OUT_LENGTH = 0,
    STARTERBELL_WRITE_OUT = 1
};

/* lookup_start, lookup_next, lookup_reply, lookup_failure */
enum starterbell_lookup_out {
    /* for ASK */
    STARTERBELL_LOOKUP_OUT_RANK = 0,
    /* for COMPLETE and CUT_SHORT */
    STARTERBELL_LOOKUP_OUT_REQUESTS = 0,
    STARTERBELL_LOOKUP_OUT_FOUND = 1,
    STARTERBELL_LOOKUP_OUT_RANKS = 2,
    STARTERBELL_LOOKUP_OUT = 22
};

/* ---- The box and its connections */

/* Makes a box in `me` from its id and its addresses. DONE, or 12 for an id that isn't 1 to 64 bytes; 0 where `me` is short. */
uint32_t starterbell_start(uint8_t *me, size_t me_length, const uint8_t *id, size_t id_length, const uint8_t *addresses, size_t addresses_length);

/* Opens a connection to a peer in `conn`, with the peer's id and addresses. `server`: the peer is in server mode, so it is seen when it asks. `asking`: we ask on
   it, and its messages are for our lookups; else the peer asks, and we reply. Each connection has a receive buffer of its own, handed to every receive on it.
   DONE, or 12, and then `conn` has a connection that is shut; 0 where `me` or `conn` is short. */
uint32_t starterbell_open(const uint8_t *me, size_t me_length, uint8_t *conn, size_t conn_length, const uint8_t *id, size_t id_length,
    uint32_t server, uint32_t asking, const uint8_t *addresses, size_t addresses_length);

/* Takes bytes of a piece, up to the first event; the host hands in the rest of the piece with the next call, so that no byte is lost and none is taken twice.
     MORE: the piece is taken, and more bytes are wanted.
     REPLY: a request was answered; the reply, with its length prefix, is at the start of `reply`. Then its sender is seen, if it is a server.
     HEARD: a message for a lookup is at the start of `buffer`, and stays there until the next byte is taken.
   Or a refusal: 0, 1, 2 and 12 take and change nothing, 3 to 11 shut the connection, 3 and 4 also leave `buffer` alone. Four numbers always go to `out`: the
   bytes taken; the length of the reply or of the message, else 0; what came of the sighting (enum starterbell_sighting); and the contact's slot, or that of the
   bucket's head for FULL, else 0. For HEARD the eight numbers of the message's view follow (see starterbell_read). Only a REPLY writes in `reply`, and bytes
   after it stay. */
uint32_t starterbell_receive(const uint8_t *me, size_t me_length, uint8_t *conn, size_t conn_length, uint8_t *buffer, size_t buffer_length,
    const uint8_t *piece, size_t piece_length, uint8_t *contacts, size_t contacts_length, uint8_t *records, size_t records_length,
    uint8_t *reply, size_t reply_length, uint64_t *out, size_t out_length);

/* The peer's bytes are over: the connection is shut. DONE where they ended between messages, 19 where they ended inside one; 0 or 2 change nothing. */
uint32_t starterbell_end(const uint8_t *me, size_t me_length, uint8_t *conn, size_t conn_length);

/* ---- Contacts */

/* A peer was seen. MOVED or JOINED, and its slot goes to `out`. 13 where its bucket is full: then the slot of the bucket's head goes to `out`, which the host
   probes and settles. Or 0, 12, 14 or 18. */
uint32_t starterbell_seen(const uint8_t *me, size_t me_length, uint8_t *contacts, size_t contacts_length, const uint8_t *id, size_t id_length,
    uint32_t client, const uint8_t *addresses, size_t addresses_length, uint64_t *out, size_t out_length);

/* The probe of a bucket's head came back: `answered`, or it was silent. `head` is the head's id; the newcomer is given as for seen. KEPT: the head answered and
   moves to the tail, and the newcomer is dropped. SWAPPED: the head was silent and is out, and the newcomer is at the tail. Or 0, 12, 15 or 18. */
uint32_t starterbell_settle(const uint8_t *me, size_t me_length, uint8_t *contacts, size_t contacts_length, const uint8_t *head, size_t head_length,
    const uint8_t *id, size_t id_length, uint32_t client, const uint8_t *addresses, size_t addresses_length, uint32_t answered);

/* Takes a contact out. DONE, or 0, 12 or 15. */
uint32_t starterbell_remove(const uint8_t *me, size_t me_length, uint8_t *contacts, size_t contacts_length, const uint8_t *id, size_t id_length);

/* Marks a contact as doubtful: the nearest contacts pass over it until it is seen or answers a probe. DONE, or 0, 12 or 15. */
uint32_t starterbell_doubt(const uint8_t *me, size_t me_length, uint8_t *contacts, size_t contacts_length, const uint8_t *id, size_t id_length);

/* Of the contacts that aren't doubtful, those nearest to a key. DONE, or 0, 8 or 12. How many there are, up to 20, and twenty slots go to `out`, nearest first, with zeros after the last. */
uint32_t starterbell_nearest(const uint8_t *me, size_t me_length, const uint8_t *contacts, size_t contacts_length, const uint8_t *key, size_t key_length,
    uint64_t *out, size_t out_length);

/* ---- Records */

/* Puts a record of our own into the store, under the rules for a PUT_VALUE. DONE, or 0 or 8 to 11. A value is judged (9) before it is compared with what is held: one
   that is held from before a rule on recipes is found and sent as it is, but not taken again. Boxes that start with no records, are offered the same ones, typed here
   or sent by peers, in any order and with repeats, and never give 11 hold the same keys with identical values. */
uint32_t starterbell_put(uint8_t *records, size_t records_length, const uint8_t *key, size_t key_length, const uint8_t *value, size_t value_length);

/* Where a key's value stands in `records`. HELD, and where it starts and ends goes to `out`; NOT_HELD; or 0. */
uint32_t starterbell_find(const uint8_t *records, size_t records_length, const uint8_t *key, size_t key_length, uint64_t *out, size_t out_length);

/* ---- Recipes

   Both ways between a recipe's bytes and its fields: what is written reads back as the same fields, and the fields of a recipe are written as its bytes. Where a value is
   no recipe, as one may be that is held from before a rule, or no recipe has these fields, each call gives 9. Those that have an `out` then write there which rule is broken
   (enum starterbell_recipe_rule), by which part (enum starterbell_recipe_part), and at which of its setpoints (enum starterbell_recipe_refused_out), and nothing else of the
   value is shown. Where several rules are broken the first that is met is told, from the value as a whole to the wrap and then the core, each list from its first setpoint
   on; in writing, TOO_LONG comes last. */

/* The recipe that a value is. DONE, and seven numbers go to `out` (enum starterbell_recipe_read_out); in format 1 the core is empty. 9 for just those values for which
   starterbell_put gives 9, and then the rule that is broken goes to `out`. */
uint32_t starterbell_recipe_read(const uint8_t *value, size_t value_length, uint64_t *out, size_t out_length);

/* The setpoints of a recipe's wrap (`core` is 0) or of its core (any other number), from the first on: their turns go to `turns` and their trims, in millinewtons, to
   `trims`, as many as fit into each; what is past them stays. STARTERBELL_SETPOINTS_MOST are always enough, and starterbell_recipe_read tells how many there are. DONE;
   or 9 where the value is no recipe, and then nothing is written. */
uint32_t starterbell_recipe_setpoints(const uint8_t *value, size_t value_length, uint32_t core, uint32_t *turns, size_t turns_length,
    int32_t *trims, size_t trims_length);

/* Writes a recipe at the start of `value`: its format (enum starterbell_recipe_format), a note, which the box doesn't read, the turns and trims of its wrap and of its
   core, and its sequence. DONE, and the value's length goes to `out`; the bytes go as far as `value` does, so compare the two lengths where it has under
   STARTERBELL_VALUE_MOST. Bytes past the value stay. 9 where no recipe has these fields: then nothing of `value` is written, and the rule goes to `out`. */
uint32_t starterbell_recipe_write(uint8_t *value, size_t value_length, size_t format, const uint8_t *note, size_t note_length,
    const uint32_t *wrap_turns, size_t wrap_turns_length, const int32_t *wrap_trims, size_t wrap_trims_length,
    const uint32_t *core_turns, size_t core_turns_length, const int32_t *core_trims, size_t core_trims_length,
    uint64_t sequence, uint64_t *out, size_t out_length);

/* ---- Messages */

/* The message that a body is, without its length prefix. DONE, or 4, 5 or 6. Its view goes to `out`: its type (enum starterbell_type), where its key starts and
   ends, 1 if it has a record and else 0, and where the record's key and its value start and end. An absent part starts and ends at 0; one
   that is there never starts at 0, even if it is empty. A record may come in several fields: then these are the last key and the last value of all of them, in any
   order and maybe far apart. */
uint32_t starterbell_read(const uint8_t *body, size_t body_length, uint64_t *out, size_t out_length);

/* The next entry, from a position on, of a message's closerPeers (list 0) or of its providerPeers (any other list). From 0, and then from each entry's end, these
   are all of them. PEER_AT, and to `out` go where the entry starts and ends, where its id starts and ends, its connection (enum starterbell_peer_connection), how
   many addresses it has, and where the first STARTERBELL_PEER_FIRST of these start and end, one after another, with zeros after the last: the address k from
   STARTERBELL_PEER_OUT_ADDRESSES + 2 * k on. A shorter `out` gets what fits. Or PEER_NOTHING. */
uint32_t starterbell_peer(const uint8_t *body, size_t body_length, uint32_t list, size_t from, uint64_t *out, size_t out_length);

/* The next address, from a position on, of the peer whose entry starts and ends there. From 0, and then from each address's end, these are all of them.
   Where a peer has more than STARTERBELL_PEER_FIRST, those that starterbell_peer doesn't tell follow from the end of the last that it tells. PEER_AT, and where the
   address starts and ends goes to `out`; or PEER_NOTHING. */
uint32_t starterbell_peer_address(const uint8_t *body, size_t body_length, size_t start, size_t end, size_t from, uint64_t *out, size_t out_length);

/* Writes a message with its length prefix at the start of `message`: its type, its key, its record if `held` says that it has one, and its two lists of peers.
   A list is one byte string: for each peer the length of its id in two bytes, the lower first, its id, a byte for its connection, the length of its addresses in
   two bytes, and its addresses. DONE, and the length with the prefix goes to `out`; 1 where `message` has under 16,387 bytes; 21 where it can't be written. */
uint32_t starterbell_write(uint8_t *message, size_t message_length, uint64_t kind, const uint8_t *key, size_t key_length, uint32_t held,
    const uint8_t *record_key, size_t record_key_length, const uint8_t *value, size_t value_length,
    const uint8_t *closer, size_t closer_length, const uint8_t *providers, size_t providers_length, uint64_t *out, size_t out_length);

/* ---- Lookups

   A lookup finds the 20 peers nearest to a key. Start it, then call next until it is over: for ASK send a FIND_NODE for the key to the candidate of that rank,
   and go on; for WAIT, wait until a reply comes or a request fails, and report that. The rank holds until the lookup's next call, so take the id from the lookup
   at once. The host keeps addresses by id: those of contacts, and those that replies named (starterbell_peer, starterbell_peer_address).

   Each of the four calls writes to `out`, unless it is refused: the rank to ask for ASK, the number of requests sent for COMPLETE and CUT_SHORT, else 0; how many
   peers were found; and twenty ranks of those, nearest first, with zeros after the last. Peers are found once the lookup is over. CUT_SHORT is over too: there was
   no room for someone that was heard of. */

/* Starts a lookup in `memory` from the contacts that aren't doubtful, with up to `limit` requests at a time, 1 to 10. GOING, or COMPLETE where nobody is to be asked. Or 0, 8, 12 or 20,
   and then `memory` has an empty lookup for which every later call gives 0, unless `me` or `memory` is short. */
uint32_t starterbell_lookup_start(const uint8_t *me, size_t me_length, uint8_t *memory, size_t memory_length,
    const uint8_t *contacts, size_t contacts_length, const uint8_t *key, size_t key_length, size_t limit, uint64_t *out, size_t out_length);

/* What to do next. ASK, WAIT, COMPLETE or CUT_SHORT; or 0. */
uint32_t starterbell_lookup_next(uint8_t *memory, size_t memory_length, uint64_t *out, size_t out_length);

/* A message came from the peer with this id, which was asked: its body, and its view as receive or read gave it. GOING, COMPLETE or CUT_SHORT. A message of
   another type than FIND_NODE is a failure. Or 0, 12, 16 or 17. */
uint32_t starterbell_lookup_reply(const uint8_t *me, size_t me_length, uint8_t *memory, size_t memory_length, const uint8_t *id, size_t id_length,
    const uint8_t *body, size_t body_length, const uint64_t *view, size_t view_length, uint64_t *out, size_t out_length);

/* The peer with this id, which was asked, didn't answer, or its connection broke. GOING, COMPLETE or CUT_SHORT. Or 0, 12, 16 or 17. */
uint32_t starterbell_lookup_failure(const uint8_t *me, size_t me_length, uint8_t *memory, size_t memory_length, const uint8_t *id, size_t id_length,
    uint64_t *out, size_t out_length);

#ifdef __cplusplus
}
#endif

#endif
