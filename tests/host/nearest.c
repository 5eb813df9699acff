/* nearest [SEED]: holds starterbell_contacts_nearest (crates/contacts_c) against a plain search, which sorts all slots that are shown by how far they are, and of
   equally far ones by their number. First come examples whose answer is written out here. Then tables are drawn, from SEED, 1 if it isn't said: of each size around
   those at which the search goes another way, with each choice of which slots are shown, how their places differ and in which order they stand. All that
   show anybody are out of form. A slot that isn't shown, and what stands past the last that counts, is often nearer than all that are shown, so that nobody can count it unnoticed.
   Status 0 and a line, or 1 at the first difference. */
#include <stdint.h>
#include <stdio.h>
#include <stdlib.h>
#include <string.h>

size_t starterbell_contacts_nearest(const uint8_t *table, size_t length, const uint8_t target[32], size_t out[20]);

/* So many slots past the last that counts hold contacts too. */
enum { BEHIND = 40 };
enum { SLOT = 616, MOST = 5120, NEAREST = 20, PLACE_AT = 8, PLACE = 32 };

static const size_t sizes[] = {0, 1, 2, 19, 20, 21, 40, 79, 80, 81, 99, 100, 159, 160, 161, 399, 400, 401, 799, 800, 801, 1199, 1200, 1201, 1600, 5119, 5120, 5121};

/* Which slots are shown; by groups too, since the search is by groups of slots. */
enum holding { ALL, HALF, TENTH, ABOUT_TWENTY, NONE, LAST_SLOT, LAST_GROUP, ONE_OF_EACH, ONE_OF_ABOUT_TWENTY, ABOUT_TWENTY_GROUPS, HOLDINGS };
static const char *const holding_names[HOLDINGS] = {"all", "half", "a tenth", "19 to 21", "none", "the last slot", "the last group", "one of each group",
    "one of each of 19 to 21 groups", "all of 19 to 21 groups"};

/* How the places differ. */
enum places { ANY, BUCKETS, SAME, FEW, LAST_BYTE, LAST_WORD, ONE_BYTE, ONE_BIT, EDGES, PLACES };
static const char *const places_names[PLACES] = {"any", "as in buckets", "all the same", "eight", "differ in the last byte", "differ in the last word",
    "differ in a byte", "differ in a bit", "differ at edges of words"};

/* In which order the contacts stand. */
enum order { RANDOM, FALLING, RISING, EDGE, MIDDLE, MIXED, ORDERS };
static const char *const order_names[ORDERS] = {"random", "falling", "rising", "edge", "middle", "mixed"};

/* Where the target is. */
enum aim { FAR, NEAR, EQUAL, AIMS };
static const char *const aim_names[AIMS] = {"any", "beside a contact's place", "a contact's place"};

/* What a table is like. */
struct plan {
    size_t slots;
    enum holding holding;
    enum places places;
    enum order order;
    enum aim aim;
};

struct contact {
    uint8_t distance[PLACE];
    size_t slot;
};

/* The table stands at any address, since words are read from it. */
static uint8_t memory[(MOST + BEHIND + 1) * SLOT + 8], *table = memory, target[PLACE];
static size_t length;
static unsigned compared;

/* ---- The plain search */

static int by_distance(const void *a, const void *b) {
    const struct contact *one = a, *other = b;
    int order = memcmp(one->distance, other->distance, PLACE);
    return order != 0 ? order : (one->slot > other->slot) - (one->slot < other->slot);
}

static size_t plain_nearest(size_t out[NEAREST]) {
    static struct contact all[MOST];
    size_t slots = length / SLOT < MOST ? length / SLOT : MOST, count = 0, i, b;
    for (i = 0; i < slots; i++) {
        const uint8_t *slot = table + i * SLOT;
        if (slot[0] == 0 || slot[1] != 0) continue;
        for (b = 0; b < PLACE; b++) all[count].distance[b] = slot[PLACE_AT + b] ^ target[b];
        all[count++].slot = i;
    }
    qsort(all, count, sizeof all[0], by_distance);
    if (count > NEAREST) count = NEAREST;
    for (i = 0; i < NEAREST; i++) out[i] = i < count ? all[i].slot : 0;
    return count;
}

/* ---- Comparing */

static void fail(const char *what, size_t got, size_t want) {
    printf(": %s %lu, and it should be %lu\n", what, (unsigned long)got, (unsigned long)want);
    exit(1);
}

static void say_plan(const struct plan *plan) {
    printf("nearest: %lu slots in %lu bytes; shown: %s; places: %s; order: %s; target: %s", (unsigned long)plan->slots, (unsigned long)length,
        holding_names[plan->holding], places_names[plan->places], order_names[plan->order], aim_names[plan->aim]);
}

static void compare(const struct plan *plan) {
    size_t want[NEAREST], got[NEAREST], count = plain_nearest(want), n, i;
    memset(got, 0xa5, sizeof got);
    n = starterbell_contacts_nearest(table, length, target, got);
    compared++;
    if (n == count && memcmp(got, want, sizeof got) == 0) return;
    say_plan(plan);
    if (n != count) fail("there are", n, count);
    for (i = 0; got[i] == want[i]; i++) continue;
    printf("; by rank %lu", (unsigned long)i);
    fail("the slot is", got[i], want[i]);
}

/* ---- Chance */

static uint64_t state;

static uint64_t chance(void) {
    state ^= state << 13;
    state ^= state >> 7;
    state ^= state << 17;
    return state * UINT64_C(0x2545f4914f6cdd1d);
}

static size_t below(size_t n) {
    return (size_t)((chance() >> 32) % n);
}

static void fill(uint8_t *bytes, size_t n) {
    size_t i;
    for (i = 0; i < n; i++) bytes[i] = (uint8_t)below(256);
}

static void shuffle(size_t *numbers, size_t n) {
    for (; n > 1; n--) {
        size_t i = below(n), last = numbers[n - 1];
        numbers[n - 1] = numbers[i];
        numbers[i] = last;
    }
}

/* ---- Which slots are shown */

static uint8_t shown[MOST];

/* Any `count` of the slots from a up to z; all where there are fewer. */
static void show(size_t a, size_t z, size_t count) {
    for (; a < z; a++)
        if (below(z - a) < count) {
            shown[a] = 1;
            count--;
        }
}

/* The same in each of any `groups` groups. */
static void show_groups(size_t slots, size_t size, size_t groups, size_t count) {
    size_t left = (slots + size - 1) / size, a;
    for (a = 0; a < slots; a += size, left--)
        if (below(left) < groups) {
            show(a, slots - a < size ? slots : a + size, count);
            groups--;
        }
}

static void choose_shown(enum holding holding, size_t slots) {
    size_t size = slots / 400 + 4, about = 19 + below(3);
    memset(shown, 0, sizeof shown);
    if (slots == 0) return;
    switch (holding) {
    case ALL: show(0, slots, slots); break;
    case HALF: show(0, slots, slots / 2); break;
    case TENTH: show(0, slots, slots / 10); break;
    case ABOUT_TWENTY: show(0, slots, about); break;
    case LAST_SLOT: show(slots - 1, slots, 1); break;
    case LAST_GROUP: show((slots - 1) / size * size, slots, size); break;
    case ONE_OF_EACH: show_groups(slots, size, slots, 1); break;
    case ONE_OF_ABOUT_TWENTY: show_groups(slots, size, about, 1); break;
    case ABOUT_TWENTY_GROUPS: show_groups(slots, size, about, size); break;
    default: break;
    }
}

/* ---- How far they are */

/* A word in which one byte, half or bit decides, for who takes it in another order or with a sign. */
static void draw_edge(uint8_t word[8]) {
    static const uint64_t edges[] = {0, 1, 2, UINT64_C(0x100000000000000), UINT64_C(0x7fffffffffffffff), UINT64_C(0x8000000000000000), UINT64_C(0xffffffffffffffff),
        UINT64_C(0x7fffffff), UINT64_C(0x80000000), UINT64_C(0xffffffff), UINT64_C(0x100000000)};
    uint64_t edge = edges[below(sizeof edges / sizeof edges[0])];
    size_t b;
    for (b = 0; b < 8; b++) word[b] = (uint8_t)(edge >> (56 - 8 * b));
}

/* `distance` has what all of a table have in common. */
static void draw_distance(uint8_t distance[PLACE], enum places places) {
    size_t bit = below(256), i;
    switch (places) {
    case ANY: fill(distance, PLACE); break;
    case BUCKETS:
        memset(distance, 0, PLACE);
        fill(distance + bit / 8, PLACE - bit / 8);
        distance[bit / 8] = (uint8_t)(distance[bit / 8] >> bit % 8 | 0x80 >> bit % 8);
        break;
    case FEW: distance[bit / 32 * 4] ^= 1; break;
    case LAST_BYTE: fill(distance + 31, 1); break;
    case LAST_WORD: fill(distance + 24, 8); break;
    case ONE_BYTE: fill(distance + bit / 8, 1); break;
    case ONE_BIT: distance[bit / 8] ^= (uint8_t)(1 << bit % 8); break;
    case EDGES:
        for (i = 0; i < PLACE; i += 8) draw_edge(distance + i);
        break;
    default: break;
    }
}

/* For each contact in the order of the slots its rank by distance. In `edge` and `middle` the nearest 19 or 10 come first, and each that follows is nearer than those
   before it but them. In `mixed` each twenty are nearer than those before, and in any order. */
static void arrange(size_t rank[], size_t count, enum order order) {
    size_t first = order == EDGE ? 19 : order == MIDDLE ? 10 : 0, p;
    if (first > count) first = count;
    for (p = 0; p < count; p++) rank[p] = order == RISING ? p : p < first ? first - 1 - p : count - 1 - (p - first);
    if (order == RANDOM) shuffle(rank, count);
    for (p = 0; order == MIXED && p < count; p += 20) shuffle(rank + p, count - p < 20 ? count - p : 20);
}

/* ---- The table */

static void write_slot(size_t i, size_t mark, size_t doubt, const uint8_t distance[PLACE]) {
    uint8_t *slot = table + i * SLOT;
    size_t b;
    slot[0] = (uint8_t)mark;
    slot[1] = (uint8_t)doubt;
    for (b = 0; b < PLACE; b++) slot[PLACE_AT + b] = distance[b] ^ target[b];
}

/* A slot that is free or doubtful, or both, and is where the target is or at any other distance of the table. */
static void write_hidden(size_t i, const uint8_t common[PLACE], enum places places) {
    uint8_t distance[PLACE] = {0};
    size_t mark = below(2) * (1 + below(255)), doubt = below(2) == 0 ? 1 : 1 + below(255);
    if (below(2) == 0) {
        memcpy(distance, common, PLACE);
        draw_distance(distance, places);
    }
    write_slot(i, mark, mark == 0 ? below(2) : doubt, distance);
}

/* The distances of the contacts that are shown, nearest first. */
static void draw_contacts(struct contact all[], size_t count, const uint8_t common[PLACE], const struct plan *plan) {
    size_t i;
    for (i = 0; i < count; i++) {
        memcpy(all[i].distance, common, PLACE);
        draw_distance(all[i].distance, plan->places);
        all[i].slot = i;
    }
    qsort(all, count, sizeof all[0], by_distance);
    if (count == 0 || plan->aim == FAR) return;
    memset(all[0].distance, 0, PLACE);
    all[0].distance[PLACE - 1] = plan->aim == NEAR;
}

static void draw_table(const struct plan *plan) {
    static const uint8_t none[PLACE];
    static const size_t parts[] = {0, 0, 1, PLACE_AT + PLACE, SLOT - 1};
    static struct contact all[MOST];
    static size_t rank[MOST];
    size_t slots = plan->slots < MOST ? plan->slots : MOST, count = 0, next = 0, i;
    uint8_t common[PLACE];
    table = memory + below(8);
    length = plan->slots * SLOT + parts[below(5)];
    fill(target, PLACE);
    fill(common, PLACE);
    choose_shown(plan->holding, slots);
    for (i = 0; i < slots; i++) count += shown[i];
    draw_contacts(all, count, common, plan);
    arrange(rank, count, plan->order);
    for (i = 0; i < slots; i++) {
        if (shown[i]) write_slot(i, 1 + below(255), 0, all[rank[next++]].distance);
        else write_hidden(i, common, plan->places);
    }
    for (i = slots; i < slots + BEHIND; i++) write_slot(i, 1, 0, none);
}

static void try_tables(size_t slots) {
    struct plan plan;
    unsigned all = HOLDINGS * PLACES * ORDERS * AIMS, k;
    plan.slots = slots;
    for (k = 0; k < all; k++) {
        plan.holding = (enum holding)(k % HOLDINGS);
        plan.places = (enum places)(k / HOLDINGS % PLACES);
        plan.order = (enum order)(k / HOLDINGS / PLACES % ORDERS);
        plan.aim = (enum aim)(k / HOLDINGS / PLACES / ORDERS);
        draw_table(&plan);
        compare(&plan);
    }
}

/* ---- Examples */

/* Two contacts, each at a distance in which one byte alone may be other than 0. */
struct example {
    const char *what;
    size_t at, value, other_at, other_value;
    int other_first;
};

static const struct example examples[] = {
    {"01 00 .. 00 is farther than 00 00 00 00 00 00 00 02 00 .. 00", 0, 1, 7, 2, 1},
    {"the first word counts more than the last", 7, 1, 24, 255, 1},
    {"the highest bit of a word counts most", 0, 0x80, 0, 0x7f, 1},
    {"the highest bit of a word's second half counts most in it", 4, 0x80, 4, 0x7f, 1},
    {"the highest bit of the second word counts most in it", 8, 0x80, 8, 0x7f, 1},
    {"the last byte counts", 31, 2, 31, 1, 1},
    {"nobody is nearer than who is at the target", 31, 1, 31, 0, 1},
    {"of two as far the lower slot comes first", 9, 5, 9, 5, 0},
};

/* The two are the last of so many slots. */
static void try_example(const struct example *example, size_t slots) {
    uint8_t one[PLACE] = {0}, other[PLACE] = {0};
    size_t a = slots - 2, out[NEAREST], n, want = a + (size_t)example->other_first;
    memset(memory, 0, sizeof memory);
    length = slots * SLOT;
    fill(target, PLACE);
    one[example->at] = (uint8_t)example->value;
    other[example->other_at] = (uint8_t)example->other_value;
    write_slot(a, 1, 0, one);
    write_slot(a + 1, 2, 0, other);
    n = starterbell_contacts_nearest(table, length, target, out);
    if (n == 2 && out[0] == want && out[1] == 2 * a + 1 - want) return;
    printf("nearest: %s; in %lu slots", example->what, (unsigned long)slots);
    if (n != 2) fail("there are", n, 2);
    fail("the first is slot", out[0], want);
}

int main(int argc, char **argv) {
    unsigned long seed = argc > 1 ? strtoul(argv[1], NULL, 10) : 1;
    size_t count = sizeof examples / sizeof examples[0], i;
    state = (seed + 1) * UINT64_C(0x9e3779b97f4a7c15);
    if (argc > 2 || state == 0) return 2;
    for (i = 0; i < count; i++) {
        try_example(&examples[i], 2);
        try_example(&examples[i], 200);
    }
    fill(memory, sizeof memory);
    for (i = 0; i < sizeof sizes / sizeof sizes[0]; i++) try_tables(sizes[i]);
    printf("%lu examples and %u tables of up to 5,121 slots have the twenty nearest that a plain search finds (seed %lu)\n", (unsigned long)count, compared, seed);
    return 0;
}
