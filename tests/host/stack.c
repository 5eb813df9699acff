/* stack BYTES: calls every function that include/starterbell.h declares on a thread whose stack has BYTES, with the most memory that a host may lend, and writes for
   each call how many bytes of stack it used and how many the header says are enough. The stack is filled with a pattern before each call, and afterwards is looked
   through for the deepest byte that changed. Where a call needs more than the header says, or than there is, a line says so and the status is 1. */
#define _DEFAULT_SOURCE
#include "starterbell.h"

#include <limits.h>
#include <pthread.h>
#include <signal.h>
#include <stdio.h>
#include <stdlib.h>
#include <string.h>
#include <sys/mman.h>
#include <unistd.h>

/* Less than LEAST isn't told apart. */
enum { PATTERN = 0xa5, GUARD = 1 << 24, LEAST = 512 };

/* ---- What is lent, the most of it */

static uint8_t me[STARTERBELL_BOX], fresh_box[STARTERBELL_BOX];
static uint8_t conn[STARTERBELL_CONNECTION], fresh_conn[STARTERBELL_CONNECTION];
static uint8_t buffer[STARTERBELL_RECEIVE_BUFFER], reply[STARTERBELL_REPLY_BUFFER], message[STARTERBELL_REPLY_BUFFER];
static uint8_t contacts[STARTERBELL_CONTACT_SLOTS_MOST * STARTERBELL_CONTACT_SLOT];
static uint8_t records[STARTERBELL_RECORD_SLOTS_MOST * STARTERBELL_RECORD_SLOT];
static uint8_t lookup[STARTERBELL_LOOKUP];
static uint64_t out[STARTERBELL_OUT_MOST], view[STARTERBELL_VIEW];
static size_t length;
static const uint8_t none[1], id[] = "somebody", key[] = "/wind/somebody's recipe";
static uint8_t recipe[STARTERBELL_VALUE_MOST], higher[STARTERBELL_VALUE_MOST];
static uint8_t addresses[4 * (2 + 128)];
static uint8_t newcomer[16], head[64];
static size_t newcomer_length, head_length;
static uint32_t code;

#define ID id, sizeof id - 1
#define KEY key, sizeof key - 1
#define LENT(memory) memory, sizeof memory
#define OUT out, STARTERBELL_OUT_MOST

/* A step that has to succeed for the calls that follow. */
static void must(const char *what, uint32_t got, uint32_t want) {
    if (got == want) return;
    printf("stack: %s gives %u, and it should give %u\n", what, (unsigned)got, (unsigned)want);
    exit(2);
}

/* Four addresses of 128 bytes. */
static void make_addresses(void) {
    unsigned k;
    for (k = 0; k < 4; k++) {
        addresses[k * 130] = 128;
        memset(addresses + k * 130 + 2, 'a', 128);
    }
}

/* Setpoints of six bytes, which is the most: all that a wrap can have, and in the core as many as a value then has room for. */
enum { IN_WRAP = STARTERBELL_SETPOINTS_MOST, IN_CORE = (STARTERBELL_VALUE_MOST - STARTERBELL_RECIPE_TRAILER_TWO) / 6 - IN_WRAP };
static uint32_t turns[IN_WRAP];
static int32_t trims[IN_WRAP];

/* A value that is as long as it can be, with as many setpoints. */
static uint32_t write_recipe(uint8_t value[STARTERBELL_VALUE_MOST], uint64_t sequence) {
    return starterbell_recipe_write(value, STARTERBELL_VALUE_MOST, STARTERBELL_RECIPE_FORMAT_TWO, none, 0, turns, IN_WRAP, trims, IN_WRAP, turns, IN_CORE, trims, IN_CORE, sequence,
        OUT);
}

static void make_recipe(uint8_t value[STARTERBELL_VALUE_MOST], uint64_t sequence) {
    unsigned i;
    for (i = 0; i < IN_WRAP; i++) {
        turns[i] = STARTERBELL_TURN_MOST - IN_WRAP + i;
        trims[i] = STARTERBELL_TRIM_MOST;
    }
    must("a recipe", write_recipe(value, sequence), STARTERBELL_DONE);
    must("the length of a recipe", (uint32_t)out[STARTERBELL_RECIPE_WRITE_OUT_LENGTH], STARTERBELL_VALUE_MOST);
}

/* Twenty contacts in each bucket, as long as a bucket has as many places: the first differing bit from our place says the bucket, the last bits say who. */
static void make_contacts(void) {
    unsigned bucket, who;
    uint8_t *slot = contacts;
    memset(contacts, 0, sizeof contacts);
    for (bucket = 0; bucket <= 250; bucket++)
        for (who = 0; who < 20; who++, slot += STARTERBELL_CONTACT_SLOT) {
            memcpy(slot, me, STARTERBELL_BOX);
            slot[STARTERBELL_CONTACT_RANK_AT] = (uint8_t)(who + 1);
            slot[STARTERBELL_PEER_PLACE_AT + bucket / 8] ^= (uint8_t)(0x80 >> bucket % 8);
            slot[STARTERBELL_PEER_PLACE_AT + 31] ^= (uint8_t)who;
            slot[STARTERBELL_PEER_ID_AT] = (uint8_t)bucket;
            slot[STARTERBELL_PEER_ID_AT + 1] = (uint8_t)who;
        }
}

/* Every slot holds a key of its own. */
static void make_records(void) {
    unsigned i;
    make_recipe(recipe, 7);
    make_recipe(higher, 8);
    memset(records, 0, sizeof records);
    for (i = 0; i < STARTERBELL_RECORD_SLOTS_MOST - 1; i++) {
        char name[32];
        int n = sprintf(name, "/wind/%u", i);
        must("put", starterbell_put(LENT(records), (const uint8_t *)name, (size_t)n, LENT(recipe)), STARTERBELL_DONE);
    }
    must("put", starterbell_put(LENT(records), KEY, LENT(recipe)), STARTERBELL_DONE);
}

static void make_box(void) {
    must("start", starterbell_start(LENT(me), (const uint8_t *)"our box", 7, LENT(addresses)), STARTERBELL_DONE);
    make_contacts();
    make_records();
}

static void open_conn(uint32_t server, uint32_t asking) {
    must("open", starterbell_open(LENT(me), LENT(conn), ID, server, asking, LENT(addresses)), STARTERBELL_DONE);
}

static void write_message(uint64_t kind, const uint8_t *list, size_t list_length) {
    must("write", starterbell_write(LENT(message), kind, KEY, kind == STARTERBELL_TYPE_PUT_VALUE, KEY, LENT(higher), list, list_length, none, 0, OUT), STARTERBELL_DONE);
    length = (size_t)out[STARTERBELL_WRITE_OUT_LENGTH];
}

/* Twenty-one peers to write, nobody has heard of. */
static size_t strangers(uint8_t *list, unsigned first) {
    size_t at = 0;
    unsigned i;
    for (i = first; i < first + 21; i++) {
        int n = sprintf((char *)list + at + 2, "stranger %u", i);
        list[at] = (uint8_t)n;
        list[at + 1] = 0;
        memset(list + at + 2 + n, 0, 3);
        at += 5 + (size_t)n;
    }
    return at;
}

static const uint8_t *asked(void) {
    return lookup + STARTERBELL_CANDIDATES_AT + out[STARTERBELL_LOOKUP_OUT_RANK] * STARTERBELL_CANDIDATE;
}

static void make_reply(unsigned first) {
    uint8_t list[21 * 32];
    write_message(STARTERBELL_TYPE_FIND_NODE, list, strangers(list, first));
    must("read", starterbell_read(message + 2, length - 2, view, STARTERBELL_VIEW), STARTERBELL_DONE);
}

static void reply_with(unsigned first) {
    uint8_t who[64];
    size_t n = asked()[STARTERBELL_CANDIDATE_ID_LENGTH_AT];
    memcpy(who, asked() + STARTERBELL_CANDIDATE_ID_AT, n);
    make_reply(first);
    must("reply", starterbell_lookup_reply(LENT(me), LENT(lookup), who, n, message + 2, length - 2, view, STARTERBELL_VIEW, OUT), STARTERBELL_LOOKUP_GOING);
}

/* A lookup that has heard of 256 peers, in which one is asked. It starts from contacts that calls made: a reply's sender is found by the hash of its id. */
static void make_lookup(void) {
    static uint8_t few[20 * STARTERBELL_CONTACT_SLOT];
    unsigned i;
    for (i = 0; i < 20; i++) {
        char name[32];
        int n = sprintf(name, "contact %u", i);
        starterbell_seen(LENT(me), LENT(few), (const uint8_t *)name, (size_t)n, 0, none, 0, OUT);
    }
    must("lookup_start", starterbell_lookup_start(LENT(me), LENT(lookup), LENT(few), KEY, 10, OUT), STARTERBELL_LOOKUP_GOING);
    for (i = 0; lookup[STARTERBELL_CANDIDATE_COUNT_AT + 1] == 0; i++) {
        must("next", starterbell_lookup_next(LENT(lookup), OUT), STARTERBELL_LOOKUP_ASK);
        reply_with(21 * i);
    }
    must("next", starterbell_lookup_next(LENT(lookup), OUT), STARTERBELL_LOOKUP_ASK);
    newcomer_length = asked()[STARTERBELL_CANDIDATE_ID_LENGTH_AT];
    memcpy(newcomer, asked() + STARTERBELL_CANDIDATE_ID_AT, newcomer_length);
    make_reply(10000);
}

/* ---- The calls */

static void nothing(void) {}
static void start(void) { code = starterbell_start(LENT(fresh_box), ID, LENT(addresses)); }
static void open_(void) { code = starterbell_open(LENT(me), LENT(fresh_conn), ID, 1, 0, LENT(addresses)); }
static void end(void) { code = starterbell_end(LENT(me), LENT(conn)); }

static void receive(void) {
    code = starterbell_receive(LENT(me), LENT(conn), LENT(buffer), message, length, LENT(contacts), LENT(records), LENT(reply), OUT);
}

static void for_ping(void) { open_conn(1, 0); write_message(STARTERBELL_TYPE_PING, none, 0); }
static void for_find_node(void) { open_conn(1, 0); write_message(STARTERBELL_TYPE_FIND_NODE, none, 0); }
static void for_get_value(void) { open_conn(1, 0); write_message(STARTERBELL_TYPE_GET_VALUE, none, 0); }
static void for_put_value(void) { open_conn(1, 0); write_message(STARTERBELL_TYPE_PUT_VALUE, none, 0); }
static void for_heard(void) { open_conn(1, 1); make_reply(0); }
static void for_end(void) { open_conn(1, 0); }

static void seen(void) { code = starterbell_seen(LENT(me), LENT(contacts), newcomer, newcomer_length, 0, LENT(addresses), OUT); }
static void settle(void) {
    code = starterbell_settle(LENT(me), LENT(contacts), head, head_length, newcomer, newcomer_length, 0, LENT(addresses), 0);
}
static void remove_(void) { code = starterbell_remove(LENT(me), LENT(contacts), newcomer, newcomer_length); }
static void doubt(void) { code = starterbell_doubt(LENT(me), LENT(contacts), newcomer, newcomer_length); }
static void nearest(void) { code = starterbell_nearest(LENT(me), LENT(contacts), KEY, OUT); }

/* Contacts that calls made, since the places of those of make_contacts are of no id. */
static void for_settle(void) {
    uint32_t got = STARTERBELL_SEEN_JOINED;
    const uint8_t *slot;
    unsigned i;
    memset(contacts, 0, sizeof contacts);
    for (i = 0; got == STARTERBELL_SEEN_JOINED; i++) {
        newcomer_length = (size_t)sprintf((char *)newcomer, "new %u", i);
        got = starterbell_seen(LENT(me), LENT(contacts), newcomer, newcomer_length, 0, LENT(addresses), OUT);
    }
    must("seen", got, STARTERBELL_REFUSAL_BUCKET_FULL);
    slot = contacts + out[STARTERBELL_SEEN_OUT_SLOT] * STARTERBELL_CONTACT_SLOT;
    head_length = slot[STARTERBELL_PEER_ID_LENGTH_AT];
    memcpy(head, slot + STARTERBELL_PEER_ID_AT, head_length);
}
static void for_joining(void) {
    memset(contacts, 0, sizeof contacts);
    newcomer_length = (size_t)sprintf((char *)newcomer, "new");
}

static void put(void) { code = starterbell_put(LENT(records), KEY, LENT(higher)); }
static void find(void) { code = starterbell_find(LENT(records), KEY, OUT); }
static uint8_t fresh_value[STARTERBELL_VALUE_MOST];
static void recipe_read(void) { code = starterbell_recipe_read(LENT(recipe), OUT); }
static void recipe_wrap(void) { code = starterbell_recipe_setpoints(LENT(recipe), 0, turns, IN_WRAP, trims, IN_WRAP); }
static void recipe_core(void) { code = starterbell_recipe_setpoints(LENT(recipe), 1, turns, IN_WRAP, trims, IN_WRAP); }
static void recipe_write(void) { code = write_recipe(fresh_value, 7); }
static void for_reading(void) {
    /* a peer with addresses */
    uint8_t list[5 + 4 + sizeof addresses] = {4, 0, 'p', 'e', 'e', 'r', 0, (uint8_t)sizeof addresses, sizeof addresses / 256};
    memcpy(list + 9, addresses, sizeof addresses);
    write_message(STARTERBELL_TYPE_FIND_NODE, list, sizeof list);
}
static void read_(void) { code = starterbell_read(message + 2, length - 2, OUT); }
static void peer(void) { code = starterbell_peer(message + 2, length - 2, 0, 0, OUT); }
static void peer_address(void) { code = starterbell_peer_address(message + 2, length - 2, (size_t)view[STARTERBELL_PEER_OUT_START], (size_t)view[STARTERBELL_PEER_OUT_END], 0, OUT); }
static void for_address(void) {
    for_reading();
    must("peer", starterbell_peer(message + 2, length - 2, 0, 0, view, STARTERBELL_VIEW), STARTERBELL_PEER_AT);
}
static uint8_t peers[21 * 32];
static size_t peers_length;
static void for_write(void) { peers_length = strangers(peers, 0); }
static void write_(void) {
    code = starterbell_write(LENT(message), STARTERBELL_TYPE_FIND_NODE, KEY, 1, KEY, LENT(recipe), peers, peers_length, peers, peers_length, OUT);
}

static void lookup_start(void) { code = starterbell_lookup_start(LENT(me), LENT(lookup), LENT(contacts), KEY, 3, OUT); }
static void lookup_next(void) { code = starterbell_lookup_next(LENT(lookup), OUT); }
static void lookup_reply(void) {
    code = starterbell_lookup_reply(LENT(me), LENT(lookup), newcomer, newcomer_length, message + 2, length - 2, view, STARTERBELL_VIEW, OUT);
}
static void lookup_failure(void) { code = starterbell_lookup_failure(LENT(me), LENT(lookup), newcomer, newcomer_length, OUT); }

/* What is called, what has to stand before, the call, what it has to return, so that it went all the way, and the stack that the header says is enough. */
static const struct {
    const char *name;
    void (*before)(void), (*call)(void);
    uint32_t want;
    size_t enough;
} calls[] = {
    {"starterbell_start", nothing, start, STARTERBELL_DONE, STARTERBELL_STACK_START},
    {"starterbell_open", nothing, open_, STARTERBELL_DONE, STARTERBELL_STACK_OPEN},
    {"starterbell_receive, PING", for_ping, receive, STARTERBELL_RECEIVE_REPLY, STARTERBELL_STACK_RECEIVE},
    {"starterbell_receive, FIND_NODE", for_find_node, receive, STARTERBELL_RECEIVE_REPLY, STARTERBELL_STACK_RECEIVE},
    {"starterbell_receive, GET_VALUE", for_get_value, receive, STARTERBELL_RECEIVE_REPLY, STARTERBELL_STACK_RECEIVE},
    {"starterbell_receive, PUT_VALUE", for_put_value, receive, STARTERBELL_RECEIVE_REPLY, STARTERBELL_STACK_RECEIVE},
    {"starterbell_receive, a message for a lookup", for_heard, receive, STARTERBELL_RECEIVE_HEARD, STARTERBELL_STACK_RECEIVE},
    {"starterbell_end", for_end, end, STARTERBELL_DONE, STARTERBELL_STACK_END},
    {"starterbell_nearest", nothing, nearest, STARTERBELL_DONE, STARTERBELL_STACK_NEAREST},
    {"starterbell_put", nothing, put, STARTERBELL_DONE, STARTERBELL_STACK_PUT},
    {"starterbell_find", nothing, find, STARTERBELL_FIND_HELD, STARTERBELL_STACK_FIND},
    {"starterbell_recipe_read", nothing, recipe_read, STARTERBELL_DONE, STARTERBELL_STACK_RECIPE_READ},
    {"starterbell_recipe_setpoints, the wrap", nothing, recipe_wrap, STARTERBELL_DONE, STARTERBELL_STACK_RECIPE_SETPOINTS},
    {"starterbell_recipe_setpoints, the core", nothing, recipe_core, STARTERBELL_DONE, STARTERBELL_STACK_RECIPE_SETPOINTS},
    {"starterbell_recipe_write", nothing, recipe_write, STARTERBELL_DONE, STARTERBELL_STACK_RECIPE_WRITE},
    {"starterbell_read", for_reading, read_, STARTERBELL_DONE, STARTERBELL_STACK_READ},
    {"starterbell_peer", for_reading, peer, STARTERBELL_PEER_AT, STARTERBELL_STACK_PEER},
    {"starterbell_peer_address", for_address, peer_address, STARTERBELL_PEER_AT, STARTERBELL_STACK_PEER_ADDRESS},
    {"starterbell_write", for_write, write_, STARTERBELL_DONE, STARTERBELL_STACK_WRITE},
    {"starterbell_lookup_start", nothing, lookup_start, STARTERBELL_LOOKUP_GOING, STARTERBELL_STACK_LOOKUP_START},
    {"starterbell_lookup_next", make_lookup, lookup_next, STARTERBELL_LOOKUP_ASK, STARTERBELL_STACK_LOOKUP_NEXT},
    {"starterbell_lookup_reply", make_lookup, lookup_reply, STARTERBELL_LOOKUP_GOING, STARTERBELL_STACK_LOOKUP_REPLY},
    {"starterbell_lookup_failure", make_lookup, lookup_failure, STARTERBELL_LOOKUP_GOING, STARTERBELL_STACK_LOOKUP_FAILURE},
    {"starterbell_seen, joined", for_joining, seen, STARTERBELL_SEEN_JOINED, STARTERBELL_STACK_SEEN},
    {"starterbell_seen, moved", nothing, seen, STARTERBELL_SEEN_MOVED, STARTERBELL_STACK_SEEN},
    {"starterbell_settle", for_settle, settle, STARTERBELL_SETTLE_SWAPPED, STARTERBELL_STACK_SETTLE},
    {"starterbell_doubt", nothing, doubt, STARTERBELL_DONE, STARTERBELL_STACK_DOUBT},
    {"starterbell_remove", nothing, remove_, STARTERBELL_DONE, STARTERBELL_STACK_REMOVE},
};

/* ---- The stack that is measured */

static uint8_t *stack;
static size_t stack_size;
static const char *running;
static void (*to_call)(void);
static size_t used;

/* Runs on its own stack. */
static void overflowed(int signal) {
    static char line[160];
    int n = snprintf(line, sizeof line, "stack: %s needs more than %zu bytes of stack\n", running, stack_size);
    (void)signal;
    if (write(1, line, (size_t)n) != n) _exit(2);
    _exit(1);
}

/* The thread: the call, and then the look at the pattern, before anything else uses the stack. */
static void *on_stack(void *unused) {
    static uint8_t aside[1 << 16];
    stack_t other;
    uint8_t here;
    uintptr_t top = (uintptr_t)&here;
    size_t i = 0;
    memset(&other, 0, sizeof other);
    other.ss_sp = aside;
    other.ss_size = sizeof aside;
    if (sigaltstack(&other, NULL) != 0) _exit(2);
    (void)unused;
    /* what the lines above left below this frame is painted over; the nearest bytes may be this frame's */
    {
        volatile uint8_t *p;
        for (p = stack; (uintptr_t)p < top - LEAST; p++) *p = PATTERN;
    }
    to_call();
    while (stack[i] == PATTERN) i++;
    used = top - (uintptr_t)(stack + i);
    return NULL;
}

static void measure(const char *name, void (*call)(void)) {
    pthread_attr_t attributes;
    pthread_t thread;
    /* a thread's stack may have to have more bytes than are measured with: its lowest then lie where nothing may touch them */
    size_t least = (size_t)PTHREAD_STACK_MIN, lent = stack_size < least ? least : stack_size;
    running = name;
    to_call = call;
    if (pthread_attr_init(&attributes) != 0 || pthread_attr_setstack(&attributes, stack + stack_size - lent, lent) != 0
        || pthread_create(&thread, &attributes, on_stack, NULL) != 0 || pthread_join(thread, NULL) != 0) {
        printf("stack: no thread with a stack of %zu bytes\n", stack_size);
        exit(2);
    }
    pthread_attr_destroy(&attributes);
}

/* Makes the stack, below which lies memory that nothing may touch, more than any one function's frame. */
static void make_stack(void) {
    struct sigaction action;
    stack = mmap(NULL, GUARD + stack_size, PROT_NONE, MAP_PRIVATE | MAP_ANONYMOUS, -1, 0);
    if (stack == MAP_FAILED || mprotect(stack + GUARD, stack_size, PROT_READ | PROT_WRITE) != 0) {
        printf("stack: no memory for a stack of %zu bytes\n", stack_size);
        exit(2);
    }
    stack += GUARD;
    memset(&action, 0, sizeof action);
    action.sa_handler = overflowed;
    action.sa_flags = SA_ONSTACK;
    sigaction(SIGSEGV, &action, NULL);
}

int main(int argc, char **argv) {
    size_t i, most = 0, over = 0;
    stack_size = argc == 2 ? strtoul(argv[1], NULL, 10) : 0;
    if (stack_size < 32768 || stack_size % 4096 != 0) {
        fprintf(stderr, "usage: stack BYTES (a multiple of 4096, from 32768 up)\n");
        return 2;
    }
    make_stack();
    make_addresses();
    make_box();
    for (i = 0; i < sizeof calls / sizeof *calls; i++) {
        calls[i].before();
        measure(calls[i].name, calls[i].call);
        must(calls[i].name, code, calls[i].want);
        printf("%-44s %7zu bytes%s, of %zu%s\n", calls[i].name, used, used <= LEAST ? " at most" : "", calls[i].enough,
            used > calls[i].enough ? ", which the header says are enough, and aren't" : "");
        if (used > most) most = used;
        over += used > calls[i].enough;
    }
    if (over > 0) {
        printf("stack: for %zu of these calls the header says too little\n", over);
        return 1;
    }
    printf("no function uses more stack than the header says, nor more than %zu bytes; a stack of %zu is enough for all of them\n", most, stack_size);
    return 0;
}
