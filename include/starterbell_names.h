/* The refusals of starterbell.h, and the rules that recipes break, as texts for a screen or a log. C99 and C++11; it needs no library. */
#ifndef STARTERBELL_NAMES_H
#define STARTERBELL_NAMES_H

#include "starterbell.h"

/* When a refusal is given, in the words of enum starterbell_refusal. A number that is no refusal gives "no refusal", never null. */
static inline const char *starterbell_refusal_text(uint32_t code) {
    static const char *const texts[] = {
        "lent contact or record memory, a lookup, a view or a connection is out of form",
        "receive buffer under 16,384 or reply buffer under 16,387 bytes",
        "connection is shut",
        "length prefix not minimal",
        "message over 16,384 bytes",
        "body isn't well formed",
        "type not 0 to 5",
        "type 2 or 3 (providers)",
        "key or record breaks the request rules",
        "recipe broken",
        "held record ranks higher",
        "key not held, every record slot holds another key",
        "peer id not 1 to 64 bytes, or of our place",
        "bucket holds 20; its head is named for a probe",
        "bucket has room, every contact slot is used",
        "settle, remove or doubt no longer fits the table",
        "peer isn't in flight in this lookup",
        "lookup is over",
        "peer is a client",
        "connection ended inside a prefix or body",
        "concurrency not 1 to 10",
        "message can't be written: a part or the whole is over its limit, or type or connection out of range",
    };
    return code < sizeof texts / sizeof *texts ? texts[code] : "no refusal";
}

/* What breaks a rule of recipes, in the words of enum starterbell_recipe_rule. A number that is no rule gives "no rule", never null. */
static inline const char *starterbell_recipe_rule_text(uint32_t rule) {
    static const char *const texts[] = {
        "no rule",
        "fewer bytes than its trailer has",
        "over 3,072 bytes",
        "format not 1 or 2",
        "a core in format 1",
        "one of the two zero bytes of format 2 isn't zero",
        "the list begins before the value, or past its own end",
        "over 400 setpoints in a list",
        "not as many trims as turns",
        "its turn or its trim isn't a minimal varint of at most three bytes inside the list",
        "turn over 1,000,000",
        "turn not higher than the one before",
        "trim not from -20,000 to 20,000",
        "trim more than 5,000 from the one before",
        "bytes between the last setpoint and the list's end",
    };
    return rule < sizeof texts / sizeof *texts ? texts[rule] : "no rule";
}

/* The part of a recipe that breaks it, in the words of enum starterbell_recipe_part. Another number gives "no part". */
static inline const char *starterbell_recipe_part_text(uint32_t part) {
    static const char *const texts[] = {"the value as a whole", "wrap", "core"};
    return part < sizeof texts / sizeof *texts ? texts[part] : "no part";
}

/* What came of a sender's sighting, as enum starterbell_sighting names it. Another number gives "no sighting". */
static inline const char *starterbell_sighting_text(uint32_t sighting) {
    static const char *const texts[] = {"not seen", "moved", "joined", "full", "no slot"};
    return sighting < sizeof texts / sizeof *texts ? texts[sighting] : "no sighting";
}

#endif
