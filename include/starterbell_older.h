/* Carries records over from memory that version 0.1 laid out. C99 and C++11; it needs the library and nothing else.

   Version 0.1 took values of up to 2,048 bytes, in record slots of 2,184. This version doesn't read such memory: lent to a call as it is, it is other bytes, and calls
   give 0, or find some of its records and not others. Form doesn't tell the two layouts apart; the version that was saved with the memory does. So each record is found
   here in the old layout, and put into memory of this version. A put judges it, so what comes out was cleared once and changed by calls alone, and all is promised of
   it that starterbell.h promises of such memory. What a put refuses is told, and stands in the old memory as it did: that isn't written.
   The box, contacts and lookups are laid out as they were, and are lent as they are.

   This is plain C, and not proved; tests/host/older.c plays it. */
#ifndef STARTERBELL_OLDER_H
#define STARTERBELL_OLDER_H

#include "starterbell_box.h"

/* ---- Version 0.1, whose numbers don't move any more: the bytes of a record's slot and the most slots, the most bytes of a key, the least and the most of a value, and
   where key, value and their lengths stand. */

#define STARTERBELL_OLDER_SLOT 2184
#define STARTERBELL_OLDER_SLOTS_MOST 256
#define STARTERBELL_OLDER_KEY_MOST 128
#define STARTERBELL_OLDER_VALUE_LEAST 16
#define STARTERBELL_OLDER_VALUE_MOST 2048
#define STARTERBELL_OLDER_KEY_LENGTH_AT 0
#define STARTERBELL_OLDER_VALUE_LENGTH_AT 2
#define STARTERBELL_OLDER_KEY_AT 8
#define STARTERBELL_OLDER_VALUE_AT 136

/* ---- What comes back */

/* What an old slot has. FIND_HELD: a record, whose key and value are in the old memory; FIND_NOT_HELD: none, the slot is free; 0: it is out of form, or there is no
   such slot. */
struct starterbell_older_record {
    uint32_t code;
    struct starterbell_bytes key;
    struct starterbell_bytes value;
};

/* What came of carrying over. DONE: each record was put, and was taken or refused; 0: the old memory or the new is out of form, and nothing was written. */
struct starterbell_carried_over {
    uint32_t code;
    size_t taken;
    size_t refused;
    /* the first old slot whose record was refused, and with which number; 0 where none was */
    size_t slot;
    uint32_t refusal;
};

/* ---- Records where they lie */

/* How many slots old memory of this length has: whole ones, at most 256. */
static inline size_t starterbell_older_slots(size_t older_length) {
    size_t slots = older_length / STARTERBELL_OLDER_SLOT;
    return slots < STARTERBELL_OLDER_SLOTS_MOST ? slots : STARTERBELL_OLDER_SLOTS_MOST;
}

/* Whether these bytes are a record's key: /wind/ and 1 to 122 more. */
static inline int starterbell_older_is_key(struct starterbell_bytes key) {
    static const uint8_t opening[] = {'/', 'w', 'i', 'n', 'd', '/'};
    size_t i;
    if (key.length <= sizeof opening || key.length > STARTERBELL_OLDER_KEY_MOST) return 0;
    for (i = 0; i < sizeof opening; i++)
        if (key.at[i] != opening[i]) return 0;
    return 1;
}

/* The record in a slot of old memory. A host that hasn't room for all of that reads a slot at a time, and hands it over as slot 0; that a
   key stands twice isn't noticed then, and its records are ranked. */
static inline struct starterbell_older_record starterbell_older_at(const uint8_t *older, size_t older_length, size_t slot) {
    struct starterbell_older_record record;
    struct starterbell_bytes key, value;
    const uint8_t *length;
    record.code = STARTERBELL_REFUSAL_OUT_OF_FORM;
    record.key = record.value = starterbell_nothing();
    if (slot >= starterbell_older_slots(older_length)) return record;
    older += slot * STARTERBELL_OLDER_SLOT;
    length = older + STARTERBELL_OLDER_VALUE_LENGTH_AT;
    key = starterbell_bytes_at(older + STARTERBELL_OLDER_KEY_AT, older[STARTERBELL_OLDER_KEY_LENGTH_AT]);
    value = starterbell_bytes_at(older + STARTERBELL_OLDER_VALUE_AT, length[0] + 256u * (size_t)length[1]);
    if (key.length == 0) {
        record.code = STARTERBELL_FIND_NOT_HELD;
        return record;
    }
    if (!starterbell_older_is_key(key) || value.length < STARTERBELL_OLDER_VALUE_LEAST || value.length > STARTERBELL_OLDER_VALUE_MOST) return record;
    record.code = STARTERBELL_FIND_HELD;
    record.key = key;
    record.value = value;
    return record;
}

static inline int starterbell_older_same(struct starterbell_bytes a, struct starterbell_bytes b) {
    size_t i;
    if (a.length != b.length) return 0;
    for (i = 0; i < a.length; i++)
        if (a.at[i] != b.at[i]) return 0;
    return 1;
}

/* Whether old memory is in form: each slot is free or has a record, and no key stands twice. */
static inline int starterbell_older_in_form(const uint8_t *older, size_t older_length) {
    size_t i, j;
    for (i = 0; i < starterbell_older_slots(older_length); i++) {
        struct starterbell_older_record record = starterbell_older_at(older, older_length, i);
        if (record.code == STARTERBELL_REFUSAL_OUT_OF_FORM) return 0;
        for (j = 0; j < i && record.code == STARTERBELL_FIND_HELD; j++)
            if (starterbell_older_same(record.key, starterbell_older_at(older, older_length, j).key)) return 0;
    }
    return 1;
}

/* ---- Carrying over */

/* Puts every record of old memory into `records`, from its first slot on. `records` is cleared memory, and as many slots as the old memory has are enough for all of its
   records; or it has records already, and then a put ranks (10). It must not overlap the old memory.
   Refused are a record from before a rule on recipes (9), as one whose trims leap, and one for which no slot is left (11). The old memory still has them: keep it until
   somebody has looked. A record that is held is taken again, so a host that wants to show all that are refused puts each slot's record by itself. */
static inline struct starterbell_carried_over starterbell_carry_over(uint8_t *records, size_t records_length, const uint8_t *older, size_t older_length) {
    struct starterbell_carried_over carried = {STARTERBELL_REFUSAL_OUT_OF_FORM, 0, 0, 0, 0};
    struct starterbell_bytes any = starterbell_text("any key");
    uint64_t out[STARTERBELL_FIND_OUT];
    size_t i;
    if (!starterbell_older_in_form(older, older_length)) return carried;
    /* changes nothing, and tests the form of what it is lent */
    if (STARTERBELL_REFUSED(starterbell_find(records, records_length, any.at, any.length, out, STARTERBELL_FIND_OUT))) return carried;
    carried.code = STARTERBELL_DONE;
    for (i = 0; i < starterbell_older_slots(older_length); i++) {
        struct starterbell_older_record record = starterbell_older_at(older, older_length, i);
        uint32_t code;
        if (record.code != STARTERBELL_FIND_HELD) continue;
        code = starterbell_put(records, records_length, record.key.at, record.key.length, record.value.at, record.value.length);
        if (code == STARTERBELL_DONE) {
            carried.taken++;
        } else if (carried.refused++ == 0) {
            carried.slot = i;
            carried.refusal = code;
        }
    }
    return carried;
}

#endif
