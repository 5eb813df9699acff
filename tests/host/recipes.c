/* recipes [SEED [ROUNDS]]: holds starterbell_recipe_write, starterbell_recipe_read and starterbell_recipe_setpoints against plain code here, and against starterbell_put.
   Recipes of both formats at every limit of every rule, and random ones, right and broken, are laid out by code that tests nothing, and judged by code that writes down
   the rules in their order. A recipe that is written has to be these bytes, is put, found, and read again with every field; one that breaks a rule has to be refused
   with that rule, part and setpoint. Values are read as they come, damaged ones too: refused with the rule that is told here, and only where put gives 9. No number and
   no byte may be written past what fits, nor anything but the rule where a call is refused. And values up to the largest are sent in pieces, found, served, and read by
   who asked for them, byte for byte. Status 0 and a line, or 1 at the first difference. */
#include "starterbell_box.h"

#include <stdio.h>
#include <stdlib.h>
#include <string.h>

/* A draft's note and its lists have room past their limits. No setpoint has more than ten bytes, and around a value there is room for bytes that have to stay. */
enum { NOTE = STARTERBELL_VALUE_MOST + 1024, POINTS = STARTERBELL_SETPOINTS_MOST + 60 };
enum { ROOM = NOTE + 20 * POINTS + STARTERBELL_RECIPE_TRAILER_TWO + 128, STAYS = 0xa5 };
enum { ONE = STARTERBELL_RECIPE_FORMAT_ONE, TWO = STARTERBELL_RECIPE_FORMAT_TWO };
enum { WHOLE = STARTERBELL_RECIPE_WHOLE, WRAP = STARTERBELL_RECIPE_WRAP, CORE = STARTERBELL_RECIPE_CORE, PARTS };
/* No rule is broken; and the number of rules. */
enum { FINE = 0, RULES = STARTERBELL_RECIPE_BYTES_LEFT };

struct list {
    uint32_t turns[POINTS];
    int32_t trims[POINTS];
    /* how many turns, and how many trims */
    size_t count, trim_count;
};

/* A recipe that may break any rule. */
struct draft {
    size_t format;
    uint8_t note[NOTE];
    size_t note_length;
    struct list wrap, core;
    uint64_t sequence;
};

/* The rule that is broken, or FINE; the part, and the setpoint. */
struct verdict {
    uint64_t rule, part, setpoint;
};

static unsigned compared, written_well, read_well, writing[RULES + 1][PARTS], reading[RULES + 1][PARTS];

static void expect(const char *what, uint64_t got, uint64_t want) {
    compared++;
    if (got == want) return;
    printf("recipes: %s: %llu, and it should be %llu\n", what, (unsigned long long)got, (unsigned long long)want);
    exit(1);
}

/* ---- The plain bytes */

static size_t plain_varint(uint8_t *to, uint64_t number) {
    size_t i = 0;
    do {
        to[i] = (uint8_t)(number & 127);
        number /= 128;
        if (number > 0) to[i] |= 128;
        i++;
    } while (number > 0);
    return i;
}

static size_t plain_number(uint8_t *to, uint64_t number, unsigned bytes) {
    unsigned i;
    for (i = 0; i < bytes; i++) to[i] = (uint8_t)(number >> 8 * i);
    return bytes;
}

static size_t plain_list(uint8_t *to, const struct list *list) {
    size_t at = 0, i;
    for (i = 0; i < list->count; i++) {
        int64_t trim = list->trims[i];
        at += plain_varint(to + at, list->turns[i]);
        at += plain_varint(to + at, (uint64_t)(trim < 0 ? -2 * trim - 1 : 2 * trim));
    }
    return at;
}

/* The value as the rules lay it out, whatever it has in it. */
static size_t plain_value(uint8_t *value, const struct draft *draft) {
    size_t core = draft->note_length, wrap, at, trailer = draft->format == TWO ? 24 : 16;
    memcpy(value, draft->note, draft->note_length);
    wrap = core + (draft->format == TWO ? plain_list(value + core, &draft->core) : 0);
    at = wrap + plain_list(value + wrap, &draft->wrap);
    trailer += at;
    if (draft->format == TWO) {
        at += plain_number(value + at, trailer - core, 4);
        at += plain_number(value + at, draft->core.count, 2);
        at += plain_number(value + at, 0, 2);
    }
    at += plain_number(value + at, trailer - wrap, 4);
    at += plain_number(value + at, draft->wrap.count, 2);
    at += plain_number(value + at, draft->format, 2);
    return at + plain_number(value + at, draft->sequence, 8);
}

/* ---- The rules in plain words, in their order */

static struct verdict verdict_of(uint64_t rule, uint64_t part, uint64_t setpoint) {
    struct verdict verdict;
    verdict.rule = rule;
    verdict.part = part;
    verdict.setpoint = setpoint;
    return verdict;
}

/* The rule that a setpoint breaks after those before it. */
static uint64_t setpoint_rule(const struct list *list, size_t i) {
    int64_t trim = list->trims[i], before = i > 0 ? list->trims[i - 1] : trim;
    if (list->turns[i] > 1000000) return STARTERBELL_RECIPE_TURN_TOO_HIGH;
    if (i > 0 && list->turns[i] <= list->turns[i - 1]) return STARTERBELL_RECIPE_TURN_NOT_RISING;
    if (trim < -20000 || trim > 20000) return STARTERBELL_RECIPE_TRIM_OUT_OF_RANGE;
    if (trim - before < -5000 || trim - before > 5000) return STARTERBELL_RECIPE_TRIM_LEAPS;
    return FINE;
}

static struct verdict judge_list(const struct list *list, uint64_t part) {
    size_t i;
    if (list->count != list->trim_count) return verdict_of(STARTERBELL_RECIPE_UNPAIRED, part, 0);
    if (list->count > 400) return verdict_of(STARTERBELL_RECIPE_TOO_MANY_SETPOINTS, part, 0);
    for (i = 0; i < list->count; i++)
        if (setpoint_rule(list, i) != FINE) return verdict_of(setpoint_rule(list, i), part, i);
    return verdict_of(FINE, WHOLE, 0);
}

/* What keeps these fields from being a recipe, and so many bytes. */
static struct verdict judge_fields(const struct draft *draft, size_t length) {
    struct verdict verdict;
    if (draft->format != ONE && draft->format != TWO) return verdict_of(STARTERBELL_RECIPE_UNKNOWN_FORMAT, WHOLE, 0);
    if (draft->format == ONE && draft->core.count + draft->core.trim_count > 0) return verdict_of(STARTERBELL_RECIPE_CORE_IN_FORMAT_ONE, CORE, 0);
    verdict = judge_list(&draft->wrap, WRAP);
    if (verdict.rule == FINE) verdict = judge_list(&draft->core, CORE);
    if (verdict.rule == FINE && length > 3072) return verdict_of(STARTERBELL_RECIPE_TOO_LONG, WHOLE, 0);
    return verdict;
}

static uint64_t number_at(const uint8_t *at, unsigned bytes) {
    uint64_t number = 0;
    while (bytes-- > 0) number = number * 256 + at[bytes];
    return number;
}

/* The bytes of a minimal varint of one to three, or 0. */
static size_t take_varint(const uint8_t *at, size_t room, uint32_t *number) {
    size_t i;
    *number = 0;
    for (i = 0; i < 3 && i < room; i++) {
        *number += (uint32_t)(at[i] % 128) << 7 * i;
        if (at[i] < 128) return i > 0 && at[i] == 0 ? 0 : i + 1;
    }
    return 0;
}

/* Reads so many setpoints, which have to fill the bytes. */
static struct verdict take_list(const uint8_t *at, size_t room, size_t count, struct list *list, uint64_t part) {
    size_t i;
    list->count = list->trim_count = 0;
    for (i = 0; i < count; i++) {
        uint32_t zigzag;
        size_t turn = take_varint(at, room, &list->turns[i]), trim = turn > 0 ? take_varint(at + turn, room - turn, &zigzag) : 0;
        if (trim == 0) return verdict_of(STARTERBELL_RECIPE_NO_SETPOINT, part, i);
        list->trims[i] = (int32_t)(zigzag / 2);
        if (zigzag % 2 == 1) list->trims[i] = -1 - list->trims[i];
        if (setpoint_rule(list, i) != FINE) return verdict_of(setpoint_rule(list, i), part, i);
        at += turn + trim;
        room -= turn + trim;
    }
    list->count = list->trim_count = count;
    return room > 0 ? verdict_of(STARTERBELL_RECIPE_BYTES_LEFT, part, 0) : verdict_of(FINE, WHOLE, 0);
}

/* A list that starts so far from the value's end, and ends so far from it. */
static struct verdict take_part(const uint8_t *end, size_t length, uint64_t from, uint64_t to, uint64_t count, struct list *list, uint64_t part) {
    if (from > length || from < to) return verdict_of(STARTERBELL_RECIPE_BAD_DISTANCE, part, 0);
    if (count > 400) return verdict_of(STARTERBELL_RECIPE_TOO_MANY_SETPOINTS, part, 0);
    return take_list(end - from, (size_t)(from - to), (size_t)count, list, part);
}

/* What keeps a value from being a recipe; else its fields. */
static struct verdict plain_read(const uint8_t *value, size_t length, struct draft *draft) {
    const uint8_t *end = value + length;
    struct verdict verdict;
    uint64_t wrap, core;
    if (length < 16) return verdict_of(STARTERBELL_RECIPE_TOO_SHORT, WHOLE, 0);
    if (length > 3072) return verdict_of(STARTERBELL_RECIPE_TOO_LONG, WHOLE, 0);
    draft->format = (size_t)number_at(end - 10, 2);
    draft->sequence = number_at(end - 8, 8);
    if (draft->format != ONE && draft->format != TWO) return verdict_of(STARTERBELL_RECIPE_UNKNOWN_FORMAT, WHOLE, 0);
    if (draft->format == TWO && length < 24) return verdict_of(STARTERBELL_RECIPE_TOO_SHORT, WHOLE, 0);
    if (draft->format == TWO && (end[-18] != 0 || end[-17] != 0)) return verdict_of(STARTERBELL_RECIPE_PAD_NOT_ZERO, WHOLE, 0);
    wrap = core = number_at(end - 16, 4);
    draft->core.count = draft->core.trim_count = 0;
    verdict = take_part(end, length, wrap, draft->format == TWO ? 24 : 16, number_at(end - 12, 2), &draft->wrap, WRAP);
    if (verdict.rule == FINE && draft->format == TWO) {
        core = number_at(end - 24, 4);
        verdict = take_part(end, length, core, wrap, number_at(end - 20, 2), &draft->core, CORE);
    }
    if (verdict.rule != FINE) return verdict;
    draft->note_length = length - (size_t)core;
    memcpy(draft->note, value, draft->note_length);
    return verdict;
}

/* ---- The calls, with memory around what they are lent that has to stay */

enum { NUMBERS = STARTERBELL_RECIPE_READ_OUT + 2 };
static uint64_t out[NUMBERS];
static const uint64_t kept = 0xa5a5a5a5a5a5a5a5;

static void clear_out(void) {
    size_t i;
    for (i = 0; i < NUMBERS; i++) out[i] = kept;
}

/* As many of these numbers as fit are in `out`, and nothing else. */
static void expect_out(const char *what, const uint64_t *want, size_t count, size_t fit) {
    size_t i;
    for (i = 0; i < NUMBERS; i++) expect(what, out[i], i < count && i < fit ? want[i] : kept);
}

static void expect_refused(struct verdict verdict, size_t fit) {
    uint64_t numbers[3];
    numbers[STARTERBELL_RECIPE_REFUSED_OUT_RULE] = verdict.rule;
    numbers[STARTERBELL_RECIPE_REFUSED_OUT_PART] = verdict.part;
    numbers[STARTERBELL_RECIPE_REFUSED_OUT_SETPOINT] = verdict.setpoint;
    expect_out("a rule, its part and its setpoint", numbers, 3, fit);
}

/* The writer with a buffer of so many bytes and an `out` of so many numbers: the plain bytes as far as they go; or none, and the verdict. */
static void expect_written(const struct draft *draft, const uint8_t *plain, uint64_t length, struct verdict verdict, size_t room, size_t fit) {
    static uint8_t memory[ROOM];
    size_t bytes = verdict.rule != FINE ? 0 : length < room ? (size_t)length : room, i, changed = 0;
    uint32_t code;
    memset(memory, STAYS, sizeof memory);
    clear_out();
    code = starterbell_recipe_write(memory + 64, room, draft->format, draft->note, draft->note_length, draft->wrap.turns, draft->wrap.count, draft->wrap.trims,
        draft->wrap.trim_count, draft->core.turns, draft->core.count, draft->core.trims, draft->core.trim_count, draft->sequence, out, fit);
    expect("writing", code, verdict.rule == FINE ? (uint32_t)STARTERBELL_DONE : (uint32_t)STARTERBELL_REFUSAL_BROKEN_RECIPE);
    if (verdict.rule == FINE) expect_out("the length that is written", &length, STARTERBELL_RECIPE_WRITE_OUT_LENGTH + 1, fit);
    else expect_refused(verdict, fit);
    expect("the bytes that are written", (uint64_t)memcmp(memory + 64, plain, bytes), 0);
    memset(memory + 64, STAYS, bytes);
    for (i = 0; i < sizeof memory; i++) changed += memory[i] != STAYS;
    expect("other bytes that changed", changed, 0);
}

/* The setpoints of one of a value's lists, in arrays of so many: this list as far as it goes, and what is past it stays. */
static void expect_setpoints(const uint8_t *value, size_t length, uint32_t core, const struct list *list, size_t turns, size_t trims) {
    static uint32_t got_turns[POINTS];
    static int32_t got_trims[POINTS];
    size_t i, wrong_turns = 0, wrong_trims = 0;
    for (i = 0; i < POINTS; i++) got_turns[i] = 77777777, got_trims[i] = -77777777;
    expect("setpoints", starterbell_recipe_setpoints(value, length, core, got_turns, turns, got_trims, trims),
        list ? (uint32_t)STARTERBELL_DONE : (uint32_t)STARTERBELL_REFUSAL_BROKEN_RECIPE);
    for (i = 0; i < POINTS; i++) {
        wrong_turns += got_turns[i] != (list && i < list->count && i < turns ? list->turns[i] : 77777777);
        wrong_trims += got_trims[i] != (list && i < list->count && i < trims ? list->trims[i] : -77777777);
    }
    expect("turns that differ", wrong_turns, 0);
    expect("trims that differ", wrong_trims, 0);
}

/* The seven numbers of a value with these fields. */
static void expect_view(const struct draft *fields, size_t length, size_t fit) {
    uint64_t numbers[STARTERBELL_RECIPE_READ_OUT];
    static uint8_t room[10 * POINTS];
    size_t core = plain_list(room, &fields->core);
    numbers[STARTERBELL_RECIPE_READ_OUT_FORMAT] = fields->format;
    numbers[STARTERBELL_RECIPE_READ_OUT_CORE_AT] = fields->note_length;
    numbers[STARTERBELL_RECIPE_READ_OUT_WRAP_AT] = fields->note_length + core;
    numbers[STARTERBELL_RECIPE_READ_OUT_TRAILER_AT] = length - (fields->format == TWO ? 24 : 16);
    numbers[STARTERBELL_RECIPE_READ_OUT_CORE_COUNT] = fields->core.count;
    numbers[STARTERBELL_RECIPE_READ_OUT_WRAP_COUNT] = fields->wrap.count;
    numbers[STARTERBELL_RECIPE_READ_OUT_SEQUENCE] = fields->sequence;
    expect_out("what is read", numbers, STARTERBELL_RECIPE_READ_OUT, fit);
}

static const struct starterbell_bytes key = {(const uint8_t *)"/wind/a", 7};

/* What put says of a value in an empty store; it is found again where it is taken. */
static uint32_t judged(const uint8_t *value, size_t length) {
    static uint8_t records[STARTERBELL_RECORD_SLOT];
    struct starterbell_box box;
    struct starterbell_found held;
    uint32_t code;
    memset(records, 0, sizeof records);
    memset(&box, 0, sizeof box);
    box.records = records;
    box.records_length = sizeof records;
    code = starterbell_box_put(&box, key, starterbell_bytes_at(value, length));
    held = starterbell_box_find(&box, key);
    expect("whether it is found", held.code, code == STARTERBELL_DONE ? STARTERBELL_FIND_HELD : STARTERBELL_FIND_NOT_HELD);
    if (code != STARTERBELL_DONE) return code;
    expect("the length that is found", held.value.length, length);
    expect("what is found", (uint64_t)memcmp(held.value.at, value, length), 0);
    return code;
}

/* The structs of starterbell_box.h say of a value what `out` says, and nothing of one that is refused. */
static void expect_structs(const uint8_t *value, size_t length, struct verdict verdict, const struct draft *fields) {
    struct starterbell_recipe_view view = starterbell_value_read(starterbell_bytes_at(value, length));
    int fine = verdict.rule == FINE;
    expect("a view's rule", view.broken.rule, verdict.rule);
    expect("a view's part", view.broken.part, verdict.part);
    expect("a view's setpoint", view.broken.setpoint, verdict.setpoint);
    expect("a view's format", view.format, fine ? fields->format : 0);
    expect("a view's note", view.note.length, fine ? fields->note_length : 0);
    expect("where a view's note is", view.note.at == value, 1);
    expect("a view's wrap", view.wrap_count, fine ? fields->wrap.count : 0);
    expect("a view's core", view.core_count, fine ? fields->core.count : 0);
    expect("a view's sequence", view.sequence, fine ? fields->sequence : 0);
}

static struct starterbell_setpoints setpoints_of(const struct list *list) {
    return starterbell_setpoints_at(list->turns, list->trims, list->count);
}

/* And of fields that are to be written, in lists that are paired: a struct has no others. */
static void expect_struct_written(const struct draft *draft, const uint8_t *plain, size_t length, struct verdict verdict) {
    static uint8_t value[STARTERBELL_VALUE_MOST];
    struct starterbell_recipe recipe = starterbell_recipe_of(draft->format, draft->sequence);
    struct starterbell_recipe_written written;
    recipe.note = starterbell_bytes_at(draft->note, draft->note_length);
    recipe.wrap = setpoints_of(&draft->wrap);
    recipe.core = setpoints_of(&draft->core);
    written = starterbell_value_write(value, sizeof value, &recipe);
    expect("the struct's length", written.length, verdict.rule == FINE ? length : 0);
    expect("the struct's bytes", (uint64_t)memcmp(value, plain, written.length), 0);
    expect("the struct's rule", written.broken.rule, verdict.rule);
    expect("the struct's part", written.broken.part, verdict.part);
    expect("the struct's setpoint", written.broken.setpoint, verdict.setpoint);
}

static uint64_t random_below(uint64_t bound);

/* A value, as plain code reads it and as the library does, whose put decides. */
static struct verdict compare_reading(const uint8_t *value, size_t length) {
    static struct draft fields;
    struct verdict verdict = plain_read(value, length, &fields);
    const struct list *wrap = verdict.rule == FINE ? &fields.wrap : NULL, *core = verdict.rule == FINE ? &fields.core : NULL;
    uint32_t want = wrap ? (uint32_t)STARTERBELL_DONE : (uint32_t)STARTERBELL_REFUSAL_BROKEN_RECIPE;
    size_t fits[2], i;
    expect("what put says", judged(value, length), want);
    fits[0] = NUMBERS;
    fits[1] = (size_t)random_below(NUMBERS);
    for (i = 0; i < 2; i++) {
        clear_out();
        expect("reading", starterbell_recipe_read(value, length, out, fits[i]), want);
        if (wrap) expect_view(&fields, length, fits[i]);
        else expect_refused(verdict, fits[i]);
    }
    expect_setpoints(value, length, 0, wrap, POINTS, POINTS);
    expect_setpoints(value, length, 1 + (uint32_t)random_below(UINT32_MAX), core, POINTS, POINTS);
    expect_setpoints(value, length, 0, wrap, (size_t)random_below(POINTS), (size_t)random_below(fields.wrap.count + 2));
    expect_setpoints(value, length, 1, core, (size_t)random_below(fields.core.count + 2), (size_t)random_below(POINTS));
    expect_structs(value, length, verdict, &fields);
    reading[verdict.rule][verdict.part]++;
    read_well += wrap != NULL;
    return verdict;
}

/* A recipe that is written, or what keeps it from that. What can be laid out in bytes is read too, and that has to come to the same, or to another broken rule. */
static struct verdict compare(const struct draft *draft) {
    static uint8_t plain[ROOM];
    size_t length = plain_value(plain, draft);
    struct verdict verdict = judge_fields(draft, length);
    int in_bytes = verdict.rule != STARTERBELL_RECIPE_UNPAIRED && verdict.rule != STARTERBELL_RECIPE_CORE_IN_FORMAT_ONE && draft->format < 65536;
    expect_written(draft, plain, length, verdict, STARTERBELL_VALUE_MOST, NUMBERS);
    expect_written(draft, plain, length, verdict, (size_t)random_below(length + 40), (size_t)random_below(NUMBERS));
    if (draft->wrap.count == draft->wrap.trim_count && draft->core.count == draft->core.trim_count) expect_struct_written(draft, plain, length, verdict);
    writing[verdict.rule][verdict.part]++;
    if (in_bytes) expect("whether it is read", compare_reading(plain, length).rule == FINE, verdict.rule == FINE);
    if (verdict.rule != FINE) return verdict;
    written_well++;
    expect_written(draft, plain, length, verdict, length, 1);
    expect_written(draft, plain, length, verdict, length - 1, 0);
    return verdict;
}

/* ---- Worked bytes */

/* 00 00 00 01 1C 00 00 00 01 00 00 00 1A 00 00 00 01 00 02 00 07 00 00 00 00 00 00 00: core (0, 0), wrap (0, -1), sequence 7, no note. */
static const uint8_t worked[28] = {0, 0, 0, 1, 0x1c, 0, 0, 0, 1, 0, 0, 0, 0x1a, 0, 0, 0, 1, 0, 2, 0, 7, 0, 0, 0, 0, 0, 0, 0};

static void expect_worked(const uint8_t *value, size_t length, const uint64_t *want, size_t count) {
    clear_out();
    expect("reading worked bytes", starterbell_recipe_read(value, length, out, NUMBERS), count == 3 ? (uint32_t)STARTERBELL_REFUSAL_BROKEN_RECIPE : (uint32_t)STARTERBELL_DONE);
    expect_out("what is told of worked bytes", want, count, NUMBERS);
    compare_reading(value, length);
}

/* The worked bytes with one or two of them changed are refused with this rule, part and setpoint. */
static void expect_changed(size_t at, uint8_t byte, size_t also, uint8_t other, uint64_t rule, uint64_t part) {
    uint64_t want[3] = {0, 0, 0};
    uint8_t value[sizeof worked];
    memcpy(value, worked, sizeof worked);
    value[at] = byte;
    value[also] = other;
    want[0] = rule;
    want[1] = part;
    expect_worked(value, sizeof value, want, 3);
}

static void play_worked(void) {
    static const uint64_t two_spools[7] = {2, 0, 2, 4, 1, 1, 7}, empty_core[7] = {2, 2, 2, 4, 0, 1, 7}, least[7] = {2, 0, 0, 0, 0, 0, 5}, one[7] = {1, 0, 0, 2, 0, 1, 7};
    static const uint8_t least_value[24] = {0x18, 0, 0, 0, 0, 0, 0, 0, 0x18, 0, 0, 0, 0, 0, 2, 0, 5}, one_value[18] = {0, 1, 0x12, 0, 0, 0, 1, 0, 1, 0, 7};
    static const uint32_t zero = 0;
    static const int32_t trims[2] = {-1, 0};
    uint8_t value[sizeof worked + 1];
    size_t i;
    expect_worked(worked, sizeof worked, two_spools, 7);
    expect_worked(least_value, sizeof least_value, least, 7);
    expect_worked(one_value, sizeof one_value, one, 7);
    clear_out();
    value[sizeof worked] = STAYS;
    expect("writing worked bytes", starterbell_recipe_write(value, sizeof value, 2, value, 0, &zero, 1, &trims[0], 1, &zero, 1, &trims[1], 1, 7, out, 1), STARTERBELL_DONE);
    expect("their length", out[0], sizeof worked);
    expect("worked bytes", (uint64_t)memcmp(value, worked, sizeof worked), 0);
    expect("the byte past them", value[sizeof worked], STAYS);
    /* an empty core: its bytes are the note's */
    value[4] = 0x1a;
    value[8] = 0;
    expect_worked(value, sizeof worked, empty_core, 7);
    expect_changed(10, 1, 0, 0, 5, 0);
    expect_changed(11, 1, 0, 0, 5, 0);
    expect_changed(12, 0x17, 0, 0, 6, 1);
    expect_changed(4, 0x1d, 0, 0, 6, 2);
    expect_changed(4, 0x19, 0, 0, 6, 2);
    expect_changed(4, 0x19, 8, 0, 6, 2);
    expect_changed(18, 3, 0, 0, 3, 0);
    expect_changed(19, 1, 0, 0, 3, 0);
    /* every start and every end of them, as values of their own */
    for (i = 0; i <= sizeof worked; i++) {
        compare_reading(worked, i);
        compare_reading(worked + i, sizeof worked - i);
    }
}

/* ---- Every rule, at its limits, in each list of each format */

static struct draft draft;

static const struct place {
    size_t format;
    uint64_t part;
} places[] = {{ONE, WRAP}, {TWO, WRAP}, {TWO, CORE}};
static struct place place;

static struct list *tried(void) {
    return place.part == CORE ? &draft.core : &draft.wrap;
}

/* So many setpoints, that keep every rule: turns one after another from the first, and trims that are alike. */
static void fill(struct list *list, size_t count, uint32_t first, int32_t trim) {
    size_t i;
    list->count = list->trim_count = count;
    for (i = 0; i < count; i++) {
        list->turns[i] = first + (uint32_t)i;
        list->trims[i] = trim;
    }
}

/* A recipe whose list has so many. The other list, where there is one, ends and begins where no setpoint of this one could follow it, or come before it. */
static void level(size_t count) {
    draft.format = place.format;
    draft.note_length = 0;
    draft.sequence = 7;
    fill(&draft.wrap, 0, 0, 0);
    fill(&draft.core, 0, 0, 0);
    if (place.format == TWO) fill(place.part == CORE ? &draft.wrap : &draft.core, 2, STARTERBELL_TURN_MOST - 1, -STARTERBELL_TRIM_MOST);
    fill(tried(), count, 0, 0);
}

/* Whether a rule is one on the value as a whole. */
static int is_on_whole(uint64_t rule) {
    return rule <= STARTERBELL_RECIPE_PAD_NOT_ZERO && rule != STARTERBELL_RECIPE_CORE_IN_FORMAT_ONE;
}

/* The recipe breaks this rule, at this setpoint of the list that is tried, or in whole. */
static void expect_rule(const char *what, uint64_t rule, size_t setpoint) {
    struct verdict got = compare(&draft);
    expect(what, got.rule, rule);
    expect(what, got.part, is_on_whole(rule) ? (uint64_t)WHOLE : place.part);
    expect(what, got.setpoint, setpoint);
}

static void play_counts(void) {
    size_t count;
    for (count = 0; count <= STARTERBELL_SETPOINTS_MOST; count++) {
        level(count);
        expect_rule("up to the most setpoints", FINE, 0);
    }
    level(STARTERBELL_SETPOINTS_MOST + 1);
    expect_rule("a setpoint too many", STARTERBELL_RECIPE_TOO_MANY_SETPOINTS, 0);
    level(POINTS);
    expect_rule("many setpoints too many", STARTERBELL_RECIPE_TOO_MANY_SETPOINTS, 0);
    level(2);
    tried()->trim_count = 1;
    expect_rule("a turn without a trim", STARTERBELL_RECIPE_UNPAIRED, 0);
    tried()->trim_count = 3;
    expect_rule("a trim without a turn", STARTERBELL_RECIPE_UNPAIRED, 0);
}

/* Two setpoints, the second with this turn. */
static void play_turn(uint32_t before, uint32_t turn, uint64_t want) {
    level(2);
    tried()->turns[0] = before;
    tried()->turns[1] = turn;
    expect_rule("a turn", want, want == FINE ? 0 : 1);
}

static void play_turns(void) {
    static const uint32_t edges[] = {0, 1, 127, 128, 16383, 16384, STARTERBELL_TURN_MOST - 1, STARTERBELL_TURN_MOST};
    size_t i;
    for (i = 1; i < sizeof edges / sizeof *edges; i++) {
        play_turn(edges[i - 1], edges[i], FINE);
        play_turn(edges[i], edges[i], STARTERBELL_RECIPE_TURN_NOT_RISING);
        play_turn(edges[i], edges[i - 1], STARTERBELL_RECIPE_TURN_NOT_RISING);
    }
    play_turn(0, STARTERBELL_TURN_MOST + 1, STARTERBELL_RECIPE_TURN_TOO_HIGH);
    play_turn(0, 2097151, STARTERBELL_RECIPE_TURN_TOO_HIGH);
    play_turn(0, 2097152, STARTERBELL_RECIPE_TURN_TOO_HIGH);
    play_turn(0, UINT32_MAX, STARTERBELL_RECIPE_TURN_TOO_HIGH);
}

/* One setpoint with this trim. */
static void play_trim(int32_t trim, uint64_t want) {
    level(1);
    tried()->trims[0] = trim;
    expect_rule("a trim", want, 0);
}

/* Two setpoints with these trims. */
static void play_leap(int32_t from, int32_t to, uint64_t want) {
    level(2);
    tried()->trims[0] = from;
    tried()->trims[1] = to;
    expect_rule("a leap", want, want == FINE ? 0 : 1);
    tried()->turns[1] = STARTERBELL_TURN_MOST;
    expect_rule("a leap over many turns", want, want == FINE ? 0 : 1);
}

static void play_trims(void) {
    static const int32_t inside[] = {0, -1, 1, 63, -64, 64, -65, 8191, -8192, 8192, -8193, STARTERBELL_TRIM_MOST, -STARTERBELL_TRIM_MOST};
    static const int32_t outside[] = {STARTERBELL_TRIM_MOST + 1, -STARTERBELL_TRIM_MOST - 1, 1048575, -1048576, 1048576, INT32_MAX, INT32_MIN};
    size_t i;
    for (i = 0; i < sizeof inside / sizeof *inside; i++) {
        play_trim(inside[i], FINE);
        play_leap(inside[i], inside[i] + (inside[i] < 0 ? 5000 : -5000), FINE);
        play_leap(inside[i], inside[i] + (inside[i] < 0 ? 5001 : -5001), STARTERBELL_RECIPE_TRIM_LEAPS);
    }
    for (i = 0; i < sizeof outside / sizeof *outside; i++) {
        play_trim(outside[i], STARTERBELL_RECIPE_TRIM_OUT_OF_RANGE);
        play_leap(0, outside[i], STARTERBELL_RECIPE_TRIM_OUT_OF_RANGE);
    }
    play_leap(STARTERBELL_TRIM_MOST, -STARTERBELL_TRIM_MOST, STARTERBELL_RECIPE_TRIM_LEAPS);
}

/* Notes up to the longest value and past it, with few setpoints and with many. */
static void play_lengths(void) {
    static uint8_t plain[ROOM];
    size_t count, over;
    for (count = 0; count <= STARTERBELL_SETPOINTS_MOST; count += 50) {
        size_t bytes;
        level(count);
        bytes = plain_value(plain, &draft);
        for (over = 0; over <= 3; over++) {
            draft.note_length = STARTERBELL_VALUE_MOST - bytes - 1 + over;
            expect_rule("the longest value", over < 2 ? (uint64_t)FINE : (uint64_t)STARTERBELL_RECIPE_TOO_LONG, 0);
        }
        draft.note_length = sizeof draft.note;
        expect_rule("a long note", STARTERBELL_RECIPE_TOO_LONG, 0);
    }
    /* a sum of lengths that goes past all memory */
    level(1);
    clear_out();
    expect("a note of all memory", starterbell_recipe_write(plain, 0, draft.format, draft.note, SIZE_MAX, draft.wrap.turns, draft.wrap.count, draft.wrap.trims, draft.wrap.count,
        draft.core.turns, draft.core.count, draft.core.trims, draft.core.count, 0, out, NUMBERS), STARTERBELL_REFUSAL_BROKEN_RECIPE);
    expect_refused(verdict_of(STARTERBELL_RECIPE_TOO_LONG, WHOLE, 0), NUMBERS);
}

/* The first in the order of the rules. */
static void play_several(void) {
    level(3);
    tried()->turns[1] = 0;
    tried()->trims[1] = 30000;
    tried()->turns[2] = UINT32_MAX;
    draft.note_length = sizeof draft.note;
    expect_rule("several rules", STARTERBELL_RECIPE_TURN_NOT_RISING, 1);
    tried()->turns[1] = 1;
    expect_rule("several rules", STARTERBELL_RECIPE_TRIM_OUT_OF_RANGE, 1);
    tried()->trims[1] = 0;
    expect_rule("several rules", STARTERBELL_RECIPE_TURN_TOO_HIGH, 2);
    tried()->turns[2] = 2;
    expect_rule("several rules", STARTERBELL_RECIPE_TOO_LONG, 0);
    /* what is wrong of the wrap comes before what is wrong of the core, and the format before both */
    if (place.part == CORE) {
        tried()->turns[2] = 1;
        draft.wrap.trims[0] = 20001;
        expect("both lists", compare(&draft).part, WRAP);
        draft.format = ONE;
        expect_rule("a core in format 1", STARTERBELL_RECIPE_CORE_IN_FORMAT_ONE, 0);
        draft.core.count = 0;
        expect_rule("trims of a core in format 1", STARTERBELL_RECIPE_CORE_IN_FORMAT_ONE, 0);
        draft.format = 3;
        expect_rule("format 3", STARTERBELL_RECIPE_UNKNOWN_FORMAT, 0);
    }
}

/* Numbers that are no format. */
static void play_formats(void) {
    static const size_t formats[] = {0, 3, 255, 256, 257, 258, 65536 + 1, 65536 + 2, SIZE_MAX};
    size_t i;
    for (i = 0; i < sizeof formats / sizeof *formats; i++) {
        level(2);
        draft.format = formats[i];
        expect_rule("a format", STARTERBELL_RECIPE_UNKNOWN_FORMAT, 0);
    }
}

static void play_rules(void) {
    size_t i;
    for (i = 0; i < sizeof places / sizeof *places; i++) {
        place = places[i];
        play_counts();
        play_turns();
        play_trims();
        play_lengths();
        play_several();
        play_formats();
    }
}

/* ---- The limits in numbers, and what a box does with values at them */

/* A format, so many setpoints in the core and in the wrap, a value of so many bytes, and the rule that it breaks. Version 0.1 took up to 200, and up to 2,048. */
static const struct stated {
    size_t format, core, wrap, bytes;
    uint64_t rule;
} stated[] = {{ONE, 0, 0, 16, FINE}, {ONE, 0, 0, 2048, FINE}, {ONE, 0, 0, 2049, FINE}, {ONE, 0, 0, 3072, FINE}, {ONE, 0, 200, 2048, FINE}, {ONE, 0, 201, 2048, FINE},
    {ONE, 0, 201, 2049, FINE}, {ONE, 0, 400, 2416, FINE}, {ONE, 0, 400, 3072, FINE}, {ONE, 0, 0, 3073, STARTERBELL_RECIPE_TOO_LONG},
    {ONE, 0, 400, 3073, STARTERBELL_RECIPE_TOO_LONG}, {ONE, 0, 401, 3072, STARTERBELL_RECIPE_TOO_MANY_SETPOINTS}, {TWO, 0, 0, 24, FINE}, {TWO, 0, 0, 3072, FINE},
    {TWO, 400, 0, 2424, FINE}, {TWO, 0, 400, 2424, FINE}, {TWO, 254, 254, 3072, FINE}, {TWO, 108, 400, 3072, FINE}, {TWO, 400, 108, 3072, FINE},
    {TWO, 254, 254, 3073, STARTERBELL_RECIPE_TOO_LONG}, {TWO, 401, 0, 3072, STARTERBELL_RECIPE_TOO_MANY_SETPOINTS},
    {TWO, 0, 401, 3072, STARTERBELL_RECIPE_TOO_MANY_SETPOINTS}};
enum { STATED = sizeof stated / sizeof *stated };

/* A draft with setpoints of six bytes each, which no setpoint exceeds, and a note whose bytes are unlike their neighbours. */
static size_t draft_stated(const struct stated *limits, uint8_t *value) {
    size_t i;
    draft.format = limits->format;
    draft.note_length = 0;
    draft.sequence = 7;
    fill(&draft.core, limits->core, 900000, 20000);
    fill(&draft.wrap, limits->wrap, 990000, -20000);
    for (i = 0; i < NOTE; i++) draft.note[i] = (uint8_t)(i % 251);
    draft.note_length = limits->bytes - plain_value(value, &draft);
    return plain_value(value, &draft);
}

static struct starterbell_box server, asker;
static struct starterbell_connection serving, asking;
static uint8_t contacts[STARTERBELL_NEAREST_MOST * STARTERBELL_CONTACT_SLOT], records[STARTERBELL_RECORD_SLOT];
static uint8_t reply[STARTERBELL_REPLY_BUFFER], sent[STARTERBELL_REPLY_BUFFER];
static uint8_t long_key[STARTERBELL_KEY_MOST];
#define LONG_KEY starterbell_bytes_at(long_key, sizeof long_key)

/* One box knows twenty peers with all that a contact can have; the other asks it. */
static void make_boxes(void) {
    uint8_t id[STARTERBELL_ID_MOST], addresses[STARTERBELL_ADDRESSES_MOST * (2 + STARTERBELL_ADDRESS_MOST)];
    size_t i;
    memset(long_key, 'k', sizeof long_key);
    memcpy(long_key, "/wind/", 6);
    server.contacts = asker.contacts = contacts;
    server.contacts_length = sizeof contacts;
    server.records = asker.records = records;
    server.records_length = sizeof records;
    server.reply = asker.reply = reply;
    server.reply_length = asker.reply_length = sizeof reply;
    expect("start", starterbell_box_start(&server, starterbell_text("server"), starterbell_nothing()), STARTERBELL_DONE);
    expect("start", starterbell_box_start(&asker, starterbell_text("asker"), starterbell_nothing()), STARTERBELL_DONE);
    memset(addresses, 'a', sizeof addresses);
    for (i = 0; i < STARTERBELL_ADDRESSES_MOST; i++) plain_number(addresses + i * (2 + STARTERBELL_ADDRESS_MOST), STARTERBELL_ADDRESS_MOST, 2);
    for (i = 0; i < STARTERBELL_NEAREST_MOST; i++) {
        memset(id, 'a' + (int)i, sizeof id);
        expect("seen", starterbell_box_seen(&server, starterbell_bytes_at(id, sizeof id), 0, starterbell_bytes_at(addresses, sizeof addresses)).code,
            STARTERBELL_SEEN_JOINED);
    }
}

/* What comes of bytes that reach a connection in pieces of a size: of all of them, or up to a refusal. */
static struct starterbell_received deliver(const struct starterbell_box *box, struct starterbell_connection *conn, const uint8_t *bytes, size_t length, size_t cut) {
    struct starterbell_received got;
    size_t at = 0;
    do {
        got = starterbell_box_receive(box, conn, starterbell_bytes_at(bytes + at, length - at < cut ? length - at : cut));
        at += got.taken;
    } while (at < length && !STARTERBELL_REFUSED(got.code));
    return got;
}

/* A field of a message: its tag, its length, its bytes. */
static size_t plain_field(uint8_t *to, uint8_t tag, const uint8_t *bytes, size_t length) {
    size_t at = 1 + plain_varint(to + 1, length);
    to[0] = tag;
    memcpy(to + at, bytes, length);
    return at + length;
}

/* A PUT_VALUE with its length before it, by hand: the writer of messages takes no value over the limit. */
static size_t plain_put(uint8_t *to, const uint8_t *value, size_t length) {
    static uint8_t record[ROOM], body[ROOM];
    size_t record_length = plain_field(record, 10, long_key, sizeof long_key), at = 2, prefix;
    record_length += plain_field(record + record_length, 18, value, length);
    body[0] = 8;
    body[1] = STARTERBELL_TYPE_PUT_VALUE;
    at += plain_field(body + at, 18, long_key, sizeof long_key);
    at += plain_field(body + at, 26, record, record_length);
    prefix = plain_varint(to, at);
    memcpy(to + prefix, body, at);
    return prefix + at;
}

/* The writer of messages writes the same PUT_VALUE, or refuses a value that is too long. */
static void expect_writer(const uint8_t *value, size_t length, const uint8_t *plain, size_t plain_length) {
    struct starterbell_message put_value = starterbell_message_of(STARTERBELL_TYPE_PUT_VALUE, LONG_KEY);
    struct starterbell_written written;
    put_value.held = 1;
    put_value.record_key = LONG_KEY;
    put_value.value = starterbell_bytes_at(value, length);
    written = starterbell_message_write(sent, sizeof sent, &put_value);
    expect("writing a PUT_VALUE", written.code, length > 3072 ? (uint32_t)STARTERBELL_REFUSAL_UNWRITABLE : (uint32_t)STARTERBELL_DONE);
    if (written.code != STARTERBELL_DONE) return;
    expect("the length of a PUT_VALUE", written.length, plain_length);
    expect("the bytes of a PUT_VALUE", (uint64_t)memcmp(sent, plain, plain_length), 0);
}

/* The box finds this value under the long key, and who asks for it reads all of it in the reply. */
static void expect_read(const uint8_t *value, size_t length, size_t cut) {
    struct starterbell_message get_value = starterbell_message_of(STARTERBELL_TYPE_GET_VALUE, LONG_KEY);
    struct starterbell_found held = starterbell_box_find(&server, LONG_KEY);
    struct starterbell_received got;
    struct starterbell_bytes read;
    expect("the length that is found", held.value.length, length);
    expect("what is found", (uint64_t)memcmp(held.value.at, value, length), 0);
    got = deliver(&server, &serving, sent, starterbell_message_write(sent, sizeof sent, &get_value).length, cut);
    expect("GET_VALUE", got.code, STARTERBELL_RECEIVE_REPLY);
    memcpy(sent, reply, got.length);
    expect("open", starterbell_box_open(&asker, &asking, starterbell_text("server"), 1, 1, starterbell_nothing()), STARTERBELL_DONE);
    got = deliver(&asker, &asking, sent, got.length, cut);
    expect("the reply to GET_VALUE", got.code, STARTERBELL_RECEIVE_HEARD);
    if (length == 3072) expect("the body of the largest reply to GET_VALUE", got.length, 15111);
    read = starterbell_part(starterbell_bytes_at(asking.buffer, got.length), got.view[STARTERBELL_VIEW_VALUE_START], got.view[STARTERBELL_VIEW_VALUE_END]);
    expect("the length that is read", read.length, length);
    expect("what is read", (uint64_t)memcmp(read.at, value, length), 0);
}

/* A value at a limit: written, put, and sent in pieces of a size; past it, refused by all of them. */
static void expect_stated(const struct stated *limits, size_t cut) {
    static uint8_t value[ROOM], message[ROOM];
    size_t length = draft_stated(limits, value), request = plain_put(message, value, length);
    struct starterbell_received got;
    expect("the length of a value at a limit", length, limits->bytes);
    expect("a value at a limit", compare(&draft).rule, limits->rule);
    expect_writer(value, length, message, request);
    memset(records, 0, sizeof records);
    expect("open", starterbell_box_open(&server, &serving, starterbell_text("asker"), 0, 0, starterbell_nothing()), STARTERBELL_DONE);
    got = deliver(&server, &serving, message, request, cut);
    if (limits->rule != FINE) {
        expect("a PUT_VALUE past a limit", got.code, STARTERBELL_REFUSAL_BROKEN_RECIPE);
        expect("what it leaves", starterbell_box_find(&server, LONG_KEY).code, STARTERBELL_FIND_NOT_HELD);
        return;
    }
    expect("a PUT_VALUE", got.code, STARTERBELL_RECEIVE_REPLY);
    expect("the length of its echo", got.length, request);
    expect("its echo", (uint64_t)memcmp(reply, message, request), 0);
    if (length == 3072) expect("the body of the longest echo, after a length of two bytes", got.length - 2, 3342);
    expect_read(value, length, cut);
}

static void play_stated(void) {
    static const size_t cuts[] = {1, 7, 1000, 2048, STARTERBELL_REPLY_BUFFER};
    size_t i, cut;
    make_boxes();
    for (i = 0; i < STATED; i++)
        for (cut = 0; cut < sizeof cuts / sizeof *cuts; cut++) expect_stated(&stated[i], cuts[cut]);
}

/* ---- Random recipes and values */

static uint64_t state;

static uint64_t random_below(uint64_t bound) {
    state ^= state << 13;
    state ^= state >> 7;
    state ^= state << 17;
    return state % bound;
}

/* One in so many. */
static int seldom(uint64_t odds) {
    return random_below(odds) == 0;
}

/* The setpoint after those before it: mostly one that keeps the rules, else at or past a limit. */
static void random_setpoint(struct list *list, size_t i, uint64_t odds) {
    uint32_t turn = i > 0 ? list->turns[i - 1] : 0;
    int32_t trim = i > 0 ? list->trims[i - 1] : 0, step = seldom(8) ? STARTERBELL_LEAP_MOST : (int32_t)random_below(STARTERBELL_LEAP_MOST + 1);
    turn += (uint32_t)(seldom(odds) ? random_below(2) * 1000000 : 1 + random_below(4000));
    if (seldom(odds)) step += (int32_t)random_below(3);
    if (seldom(2) ? trim - step >= -STARTERBELL_TRIM_MOST : trim + step > STARTERBELL_TRIM_MOST) step = -step;
    trim += step;
    if (seldom(odds)) trim = (seldom(2) ? 1 : -1) * (int32_t)(STARTERBELL_TRIM_MOST - 1 + random_below(3));
    list->turns[i] = turn;
    list->trims[i] = trim;
}

static void random_list(struct list *list, uint64_t odds) {
    size_t i;
    list->count = list->trim_count = (size_t)(seldom(8) ? random_below(POINTS) : random_below(30));
    for (i = 0; i < list->count; i++) random_setpoint(list, i, odds);
    if (seldom(200)) list->trim_count = (size_t)random_below(POINTS);
}

static void random_draft(void) {
    uint64_t odds = 20 + random_below(2000);
    size_t i;
    draft.format = (size_t)(seldom(100) ? random_below(4) : 1 + random_below(2));
    draft.note_length = (size_t)(seldom(3) ? random_below(STARTERBELL_VALUE_MOST) : random_below(64));
    for (i = 0; i < draft.note_length; i++) draft.note[i] = (uint8_t)random_below(256);
    draft.sequence = seldom(4) ? UINT64_MAX - random_below(3) : random_below(1 << 20);
    random_list(&draft.wrap, odds);
    random_list(&draft.core, odds);
    if (draft.format == ONE && !seldom(50)) draft.core.count = draft.core.trim_count = 0;
}

/* A byte of the value's last ones is changed, taken out or put in; or the start is cut off. */
static size_t damage(uint8_t *value, size_t length) {
    size_t at = length - 1 - (size_t)random_below(length < 60 ? length : 60);
    switch (random_below(6)) {
    case 0:
        value[at] = (uint8_t)(value[at] ^ 1u << random_below(8));
        return length;
    case 1:
        value[at] = (uint8_t)(value[at] + (seldom(2) ? 1 : 255));
        return length;
    case 2:
        value[at] |= 128;
        return length;
    case 3:
        memmove(value + at, value + at + 1, length - at - 1);
        return length - 1;
    case 4:
        memmove(value + at + 1, value + at, length - at);
        value[at] = (uint8_t)(seldom(2) ? 0 : random_below(256));
        return length + 1;
    default:
        memmove(value, value + at, length - at);
        return length - at;
    }
}

static void play_random(unsigned long rounds) {
    static uint8_t value[ROOM];
    unsigned long i;
    for (i = 0; i < rounds; i++) {
        size_t length;
        random_draft();
        if (seldom(2)) {
            compare(&draft);
            continue;
        }
        length = damage(value, plain_value(value, &draft));
        if (seldom(3) && length > 0) length = damage(value, length);
        compare_reading(value, length);
    }
}

/* What was random is worth something only where it met every rule, in each part that can break it, and never one that can't. */
static void expect_met(void) {
    unsigned rule, part;
    for (rule = STARTERBELL_RECIPE_TOO_SHORT; rule <= RULES; rule++)
        for (part = WHOLE; part < PARTS; part++) {
            int fits = is_on_whole(rule) == (part == WHOLE) && !(rule == STARTERBELL_RECIPE_CORE_IN_FORMAT_ONE && part == WRAP);
            int unread = rule == STARTERBELL_RECIPE_CORE_IN_FORMAT_ONE || rule == STARTERBELL_RECIPE_UNPAIRED;
            int unwritten = rule == STARTERBELL_RECIPE_TOO_SHORT || rule == STARTERBELL_RECIPE_PAD_NOT_ZERO || rule == STARTERBELL_RECIPE_BAD_DISTANCE
                || rule == STARTERBELL_RECIPE_NO_SETPOINT || rule == STARTERBELL_RECIPE_BYTES_LEFT;
            expect("a rule that random recipes broke", writing[rule][part] > 10, fits && !unwritten);
            expect("a rule that random values broke", reading[rule][part] > 10, fits && !unread);
        }
}

int main(int argc, char **argv) {
    unsigned long rounds = argc > 2 ? strtoul(argv[2], NULL, 10) : 100000;
    state = argc > 1 ? strtoull(argv[1], NULL, 10) * 2 + 1 : 0x9e3779b97f4a7c15;
    play_worked();
    play_rules();
    play_stated();
    memset(writing, 0, sizeof writing);
    memset(reading, 0, sizeof reading);
    play_random(rounds);
    expect_met();
    printf("recipes of both formats are written and read as the rules say, and refused with the first that is broken: every rule at its limits and %lu random ones, %u of all "
           "written and %u values read, just those that put takes; values of up to %d bytes are sent, served and read whole; %u comparisons\n",
        rounds, written_well, read_well, STARTERBELL_VALUE_MOST, compared);
    return 0;
}
