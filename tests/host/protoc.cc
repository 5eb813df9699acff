/* protoc SEED COUNT: holds reading and writing of messages against Google's protobuf library.

   Ours and the library are held against one small model of the wire format, `Model`. It has a switch for each rule in which RULES, Messages, and the
   library differ: with all switches at our rules' side it has to give what ours gives, to the byte, and with all at the library's side what
   the library gives. So a difference between the two is either one of these rules, and is counted by its kind, or the test fails. It fails too
   where a rule made no difference in the whole run: then the test would not know the rule. docs/DECISIONS.md lists them. */
#include <cstdint>
#include <cstdio>
#include <cstdlib>
#include <cstring>
#include <random>
#include <string>
#include <vector>
#include <google/protobuf/io/coded_stream.h>
#include "dht.pb.h"

extern "C" {
uint8_t starterbell_message_read(const uint8_t *body, size_t length, size_t out[8]);
bool starterbell_message_closer_peer(const uint8_t *body, size_t length, size_t from, size_t out[2]);
bool starterbell_message_provider_peer(const uint8_t *body, size_t length, size_t from, size_t out[2]);
void starterbell_message_peer(const uint8_t *body, size_t length, size_t at, size_t end, size_t out[20]);
bool starterbell_message_peer_address(const uint8_t *body, size_t length, size_t at, size_t end, size_t from, size_t out[2]);
size_t starterbell_message_write(uint8_t *out, size_t room, uint64_t kind, const uint8_t *key, size_t key_length, bool held,
    const uint8_t *record_key, size_t record_key_length, const uint8_t *value, size_t value_length, const uint8_t *closer, size_t closer_length,
    const uint8_t *providers, size_t providers_length);
}

using std::string;
using std::vector;

/* ---- what a message says, and what reading a body gives */

struct PeerSaid {
    string id;
    vector<string> addrs;
    int64_t connection = 0;
    bool operator==(const PeerSaid &o) const { return id == o.id && addrs == o.addrs && connection == o.connection; }
};

struct Said {
    int64_t kind = 0;
    string key;
    bool held = false;
    string record_key, value;
    vector<PeerSaid> closer, providers;
    bool operator==(const Said &o) const {
        return kind == o.kind && key == o.key && held == o.held && record_key == o.record_key && value == o.value && closer == o.closer && providers == o.providers;
    }
};

enum { TAKEN = 255, TOO_LONG = 4, MALFORMED = 5, UNKNOWN_TYPE = 6, MOST_BODY = 16384, LEAST_REPLY = 16387 };

static const size_t MOST_VALUE = 3072;

/* TAKEN, or the refusal's number; what was said, if it was taken. */
struct Outcome {
    int code = TAKEN;
    Said said;
    bool operator==(const Outcome &o) const { return code == o.code && said == o.said; }
};

static Outcome refused(int code) {
    Outcome out;
    out.code = code;
    return out;
}

static string hex(const string &s) {
    static const char digits[] = "0123456789abcdef";
    string out;
    for (unsigned char c : s) out += digits[c >> 4], out += digits[c & 15];
    return out;
}

static string told(const PeerSaid &p) {
    string out = "id " + hex(p.id) + " connection " + std::to_string(p.connection);
    for (const string &a : p.addrs) out += " address " + hex(a);
    return out;
}

static string told(const Outcome &o) {
    if (o.code != TAKEN) return "refused " + std::to_string(o.code);
    string out = "type " + std::to_string(o.said.kind) + " key " + hex(o.said.key);
    if (o.said.held) out += " record " + hex(o.said.record_key) + ":" + hex(o.said.value);
    for (const PeerSaid &p : o.said.closer) out += "; closer " + told(p);
    for (const PeerSaid &p : o.said.providers) out += "; provider " + told(p);
    return out;
}

static void fail(const string &what, const string &body) {
    printf("%s\n  body %s\n", what.c_str(), hex(body).c_str());
    exit(1);
}

/* ---- ours */

/* How many addresses of a peer one call tells. */
static const size_t FIRST = 8;

static const uint8_t *bytes_of(const string &s) { return reinterpret_cast<const uint8_t *>(s.data()); }

static string part(const string &body, const size_t ends[2]) {
    if (ends[1] < ends[0] || body.size() < ends[1]) fail("ours gives a part that is not in the body", body);
    return body.substr(ends[0], ends[1] - ends[0]);
}

/* The addresses of a peer from a position on, one by one. */
static vector<string> ours_addresses(const string &body, const size_t peer[2], size_t from) {
    vector<string> addrs;
    size_t ends[2];
    for (; starterbell_message_peer_address(bytes_of(body), body.size(), peer[0], peer[1], from, ends); from = ends[1]) addrs.push_back(part(body, ends));
    return addrs;
}

/* One call tells the first eight addresses; those after them come one by one, and so do all, which have to be the same. */
static PeerSaid ours_peer(const string &body, const size_t peer[2]) {
    PeerSaid p;
    size_t out[20];
    starterbell_message_peer(bytes_of(body), body.size(), peer[0], peer[1], out);
    p.id = part(body, out);
    p.connection = static_cast<int64_t>(out[2]);
    for (size_t k = 0; k < FIRST; k++) {
        const size_t *place = out + 4 + 2 * k;
        if (k < out[3]) p.addrs.push_back(part(body, place));
        else if (place[0] || place[1]) fail("ours tells an address after the last", body);
    }
    if (out[3] > FIRST)
        for (const string &a : ours_addresses(body, peer, out[19])) p.addrs.push_back(a);
    if (p.addrs.size() != out[3]) fail("ours counts other addresses than there are", body);
    if (p.addrs != ours_addresses(body, peer, peer[0])) fail("ours tells other addresses in one call than one by one", body);
    return p;
}

static vector<PeerSaid> ours_peers(const string &body, bool (*next)(const uint8_t *, size_t, size_t, size_t[2])) {
    vector<PeerSaid> peers;
    size_t ends[2], from = 0;
    while (next(bytes_of(body), body.size(), from, ends)) {
        part(body, ends);
        peers.push_back(ours_peer(body, ends));
        from = ends[1];
    }
    return peers;
}

static Outcome ours(const string &body) {
    size_t out[8], before[8];
    memset(before, 0xa5, sizeof before);
    memcpy(out, before, sizeof out);
    Outcome o;
    o.code = starterbell_message_read(bytes_of(body), body.size(), out);
    if (o.code != TAKEN) {
        if (memcmp(out, before, sizeof out)) fail("ours refuses and stores numbers", body);
        return o;
    }
    o.said.kind = static_cast<int64_t>(out[0]);
    o.said.key = part(body, out + 1);
    o.said.held = out[3] == 1;
    if (out[3] > 1) fail("ours says neither that there is a record nor that there is none", body);
    o.said.record_key = part(body, out + 4);
    o.said.value = part(body, out + 6);
    o.said.closer = ours_peers(body, starterbell_message_closer_peer);
    o.said.providers = ours_peers(body, starterbell_message_provider_peer);
    return o;
}

/* ---- the library */

static PeerSaid library_peer(const dht::Peer &m) {
    PeerSaid p;
    p.id = m.id();
    p.addrs.assign(m.addrs().begin(), m.addrs().end());
    p.connection = m.connection();
    return p;
}

static Said library_said(const dht::Message &m) {
    Said said;
    said.kind = m.type();
    said.key = m.key();
    said.held = m.has_record();
    said.record_key = m.record().key();
    said.value = m.record().value();
    for (const dht::Peer &p : m.closerpeers()) said.closer.push_back(library_peer(p));
    for (const dht::Peer &p : m.providerpeers()) said.providers.push_back(library_peer(p));
    return said;
}

static Outcome library(const string &body) {
    dht::Message m;
    if (!m.ParseFromArray(body.data(), static_cast<int>(body.size()))) return refused(MALFORMED);
    Outcome o;
    o.said = library_said(m);
    return o;
}

/* ---- the model */

/* The rules in which RULES, Messages, and the library differ. */
enum Rule { GROUPS, WIDE_TAG, LONG_LENGTH, WIDE_VARINT, UTF8, CONNECTION, TYPE, LONG_BODY, RULES };

static const char *const rule_names[RULES] = {
    "a group (wire type 3)",
    "a tag of five bytes above 2^32 - 1",
    "a length of six to ten bytes",
    "a varint above 64 bits",
    "timeReceived that is not UTF-8",
    "a connection above 3",
    "a type above 5",
    "a body above 16,384 bytes",
};

static bool is_utf8(const string &s) {
    for (size_t i = 0; i < s.size();) {
        unsigned char b = static_cast<unsigned char>(s[i++]);
        int more = b < 0x80 ? 0 : b >= 0xc2 && b < 0xe0 ? 1 : b >= 0xe0 && b < 0xf0 ? 2 : b >= 0xf0 && b < 0xf5 ? 3 : -1;
        if (more < 0) return false;
        uint32_t v = more == 0 ? b : b & (0x3f >> more);
        for (int k = 0; k < more; k++, i++) {
            if (i >= s.size() || (static_cast<unsigned char>(s[i]) & 0xc0) != 0x80) return false;
            v = v << 6 | (static_cast<unsigned char>(s[i]) & 0x3f);
        }
        if ((more == 2 && v < 0x800) || (more == 3 && (v < 0x10000 || v > 0x10ffff)) || (v >= 0xd800 && v < 0xe000)) return false;
    }
    return true;
}

/* A body read by rules, each ours (false) or the library's (true). */
class Model {
public:
    Model(const string &body, unsigned library_rules) : s(body), rules(library_rules) {}

    Outcome read() {
        if (!by(LONG_BODY) && s.size() > MOST_BODY) return refused(TOO_LONG);
        Outcome o;
        if (!message(o.said)) return refused(MALFORMED);
        if (by(TYPE)) o.said.kind = static_cast<int32_t>(o.said.kind);
        else if (static_cast<uint64_t>(o.said.kind) > 5) return refused(UNKNOWN_TYPE);
        return o;
    }

private:
    struct Field {
        uint64_t number = 0, wire = 0, value = 0;
        size_t at = 0, end = 0; /* of a bytes field, what is in it */
    };
    enum { DEEPEST = 100 };
    const string &s;
    unsigned rules;

    bool by(Rule r) const { return rules >> r & 1; }

    /* A varint of at most `most` bytes; `wide` says that bits above 64 were dropped. */
    bool varint(size_t &at, size_t end, size_t most, uint64_t &v, bool &wide) const {
        v = 0, wide = false;
        for (size_t i = 0; i < most && at < end; i++) {
            uint64_t b = static_cast<unsigned char>(s[at++]);
            if (i == 9 && (b & 0x7f) > 1) wide = true;
            v |= (b & 0x7f) << (7 * i);
            if (b < 0x80) return true;
        }
        return false;
    }

    bool tag(size_t &at, size_t end, Field &f) const {
        uint64_t t;
        bool wide;
        if (!varint(at, end, 5, t, wide)) return false;
        if (t >> 32 && !by(WIDE_TAG)) return false;
        t &= 0xffffffff;
        f.number = t >> 3, f.wire = t & 7;
        return f.number != 0;
    }

    /* The field at a place, which is moved behind it. */
    bool field(size_t &at, size_t end, int depth, Field &f) const {
        bool wide;
        if (!tag(at, end, f)) return false;
        switch (f.wire) {
        case 0: return varint(at, end, 10, f.value, wide) && (!wide || by(WIDE_VARINT));
        case 1: return skip(at, end, 8);
        case 2:
            if (!varint(at, end, by(LONG_LENGTH) ? 5 : 10, f.value, wide) || wide) return false;
            f.at = at;
            f.end = at + f.value;
            return skip(at, end, f.value);
        case 3: return by(GROUPS) && group(at, end, depth, f.number);
        case 5: return skip(at, end, 4);
        default: return false;
        }
    }

    bool skip(size_t &at, size_t end, uint64_t n) const {
        if (n > end - at) return false;
        at += n;
        return true;
    }

    /* What stands in a group, and the tag that ends it. */
    bool group(size_t &at, size_t end, int depth, uint64_t number) const {
        if (depth == 0) return false;
        while (at < end) {
            size_t next = at;
            Field f;
            if (!tag(next, end, f)) return false;
            if (f.wire == 4) {
                at = next;
                return f.number == number;
            }
            if (!field(at, end, depth - 1, f)) return false;
        }
        return false;
    }

    string content(const Field &f) const { return s.substr(f.at, f.end - f.at); }

    bool record(const Field &whole, Said &said) const {
        said.held = true;
        for (size_t at = whole.at; at < whole.end;) {
            Field f;
            if (!field(at, whole.end, DEEPEST - 1, f)) return false;
            if (f.wire != 2) continue;
            if (f.number == 1) said.record_key = content(f);
            if (f.number == 2) said.value = content(f);
            if (f.number == 5 && by(UTF8) && !is_utf8(content(f))) return false;
        }
        return true;
    }

    bool peer(const Field &whole, vector<PeerSaid> &peers) const {
        PeerSaid p;
        uint64_t connection = 0;
        for (size_t at = whole.at; at < whole.end;) {
            Field f;
            if (!field(at, whole.end, DEEPEST - 1, f)) return false;
            if (f.wire == 2 && f.number == 1) p.id = content(f);
            if (f.wire == 2 && f.number == 2) p.addrs.push_back(content(f));
            if (f.wire == 0 && f.number == 3) connection = f.value;
        }
        p.connection = by(CONNECTION) ? static_cast<int32_t>(connection) : connection > 3 ? 0 : static_cast<int64_t>(connection);
        peers.push_back(p);
        return true;
    }

    bool message(Said &said) const {
        for (size_t at = 0; at < s.size();) {
            Field f;
            if (!field(at, s.size(), DEEPEST, f)) return false;
            if (f.wire == 0 && f.number == 1) said.kind = static_cast<int64_t>(f.value);
            if (f.wire != 2) continue;
            if (f.number == 2) said.key = content(f);
            if (f.number == 3 && !record(f, said)) return false;
            if (f.number == 8 && !peer(f, said.closer)) return false;
            if (f.number == 9 && !peer(f, said.providers)) return false;
        }
        return true;
    }
};

static const unsigned LIBRARY = (1u << RULES) - 1;

/* ---- comparing */

struct Counts {
    size_t bodies = 0, both_taken = 0, both_refused = 0, ours_alone = 0, library_alone = 0, read_otherwise = 0, together = 0;
    size_t by_rule[RULES] = {0};
};

/* Counts the rules but for which the two would have agreed, or at least agreed more. */
static void count_rules(const string &body, const Outcome &mine, const Outcome &theirs, Counts &counts) {
    bool any = false;
    for (unsigned r = 0; r < RULES; r++) {
        if (Model(body, 1u << r).read() == mine && Model(body, LIBRARY & ~(1u << r)).read() == theirs) continue;
        counts.by_rule[r]++;
        any = true;
    }
    if (!any) counts.together++;
}

/* Reads a body by all four. */
static Outcome compare(const string &body, Counts &counts) {
    Outcome mine = ours(body), theirs = library(body);
    Outcome rules = Model(body, 0).read(), googles = Model(body, LIBRARY).read();
    if (!(mine == rules)) fail("ours is not what our rules give\n  ours  " + told(mine) + "\n  rules " + told(rules), body);
    if (!(theirs == googles)) fail("the library differs by no rule that is known\n  library " + told(theirs) + "\n  rules   " + told(googles), body);
    counts.bodies++;
    if (mine.code == TAKEN && theirs.code == TAKEN) {
        counts.both_taken++;
        if (!(mine == theirs)) counts.read_otherwise++;
    } else if (mine.code != TAKEN && theirs.code != TAKEN) counts.both_refused++;
    else if (mine.code == TAKEN) counts.ours_alone++;
    else counts.library_alone++;
    bool refuse_both = mine.code != TAKEN && theirs.code != TAKEN;
    if (!refuse_both && !(mine == theirs)) count_rules(body, mine, theirs, counts);
    return mine;
}

/* ---- chance */

static std::mt19937_64 source;

static uint64_t below(uint64_t n) { return source() % n; }

static bool one_in(uint64_t n) { return below(n) == 0; }

static string any_bytes(size_t n) {
    string s(n, 0);
    for (char &c : s) c = static_cast<char>(below(256));
    return s;
}

/* A length: mostly of the usual size, at times at the limit or around it. */
static size_t any_length(size_t limit) {
    switch (below(10)) {
    case 0: return 0;
    case 1: return limit;
    case 2: return limit + 1;
    case 3: return below(limit + limit / 2 + 2);
    default: return below(limit / 2 + 1);
    }
}

static string any_text() {
    static const char *const pieces[] = {"2026-11-15T08:30:00Z", "\xc3\xa9", "\xe2\x82\xac", "\xf0\x9f\x8e\xbb", "\xff", "\xed\xa0\x80", "\xc0\x80", "a", ""};
    string s;
    for (uint64_t n = below(4); n > 0; n--) s += pieces[below(one_in(4) ? 9 : 4)];
    return s;
}

/* ---- messages made by the library */

static void fill(dht::Peer *p) {
    if (!one_in(8)) p->set_id(any_bytes(any_length(64)));
    for (uint64_t n = below(one_in(6) ? 20 : 3); n > 0; n--) p->add_addrs(any_bytes(any_length(one_in(8) ? 128 : 30)));
    p->set_connection(static_cast<dht::Peer::Connection>(one_in(20) ? static_cast<int>(below(40)) - 20 : static_cast<int>(below(4))));
}

static string made_by_library() {
    dht::Message m;
    m.set_type(static_cast<dht::Message::Type>(one_in(30) ? static_cast<int>(below(20)) - 10 : static_cast<int>(below(6))));
    if (one_in(50)) m.set_key(any_bytes(MOST_BODY - 5 + below(4)));
    else if (!one_in(4)) m.set_key(any_bytes(any_length(128)));
    if (one_in(2)) {
        dht::Record *r = m.mutable_record();
        if (!one_in(6)) r->set_key(any_bytes(any_length(128)));
        if (!one_in(6)) r->set_value(any_bytes(any_length(one_in(4) ? MOST_VALUE : 100)));
        if (one_in(3)) r->set_timereceived(any_text());
    }
    for (uint64_t n = below(one_in(3) ? 22 : 4); n > 0; n--) fill(m.add_closerpeers());
    for (uint64_t n = below(one_in(6) ? 22 : 2); n > 0; n--) fill(m.add_providerpeers());
    if (one_in(4)) m.set_clusterlevelraw(static_cast<int>(below(1u << 31)));
    return m.SerializeAsString();
}

/* ---- messages in every form that the wire format allows, and some that it doesn't */

static void put_varint(string &s, uint64_t v, size_t least) {
    size_t n = 1;
    for (uint64_t rest = v >> 7; rest; rest >>= 7) n++;
    if (n < least) n = least;
    for (size_t i = 0; i < n; i++, v >>= 7) s += static_cast<char>((v & 0x7f) | (i + 1 < n ? 0x80 : 0));
}

static size_t padding(size_t usual) { return one_in(4) ? 1 + below(one_in(8) ? 11 : usual) : 1; }

static void put_tag(string &s, uint64_t number, uint64_t wire) {
    uint64_t wide = one_in(150) ? (1 + below(7)) << 32 : 0;
    put_varint(s, wide | number << 3 | wire, padding(5));
}

static void put_part(string &s, uint64_t number, const string &content) {
    put_tag(s, number, 2);
    put_varint(s, content.size(), one_in(60) ? 6 + below(6) : padding(5));
    s += content;
}

static void put_number(string &s, uint64_t number, uint64_t v) {
    put_tag(s, number, 0);
    if (one_in(60)) put_varint(s, v, 10), s.back() = static_cast<char>(below(128));
    else put_varint(s, v, padding(10));
}

static void put_other(string &s, int depth);

static void put_group(string &s, int depth) {
    uint64_t number = 1 + below(20);
    put_tag(s, number, 3);
    for (uint64_t n = below(3); n > 0 && depth > 0; n--) put_other(s, depth - 1);
    if (!one_in(8)) put_tag(s, one_in(8) ? number + 1 : number, 4);
}

/* Groups in groups, about as many as the library follows. */
static void put_deep(string &s) {
    size_t n = 95 + below(10);
    for (size_t i = 0; i < n; i++) s += static_cast<char>(7 << 3 | 3);
    for (size_t i = 0; i < n; i++) s += static_cast<char>(7 << 3 | 4);
}

/* A field that is not known, or known with another wire type. */
static void put_other(string &s, int depth) {
    static const uint64_t numbers[] = {1, 2, 3, 4, 5, 6, 7, 8, 9, 10, 11, 15, 16, 17, 1000, 100000, (1u << 29) - 1};
    uint64_t number = one_in(100) ? 0 : numbers[below(sizeof numbers / sizeof *numbers)];
    switch (below(9)) {
    case 0:
    case 1: put_number(s, number == 1 || number == 3 ? 4 : number, source() >> below(64)); break;
    case 2:
    case 3: put_tag(s, number, 1), s += any_bytes(8); break;
    case 4:
    case 5: put_tag(s, number, 5), s += any_bytes(4); break;
    case 6:
    case 7: put_part(s, number == 3 || number == 8 || number == 9 ? 7 : number, any_bytes(below(12))); break;
    default:
        if (one_in(12)) put_tag(s, number, 4 + below(4));
        else if (one_in(3)) put_group(s, depth);
        else if (one_in(20)) put_deep(s);
    }
}

static uint64_t any_number(uint64_t most) {
    if (!one_in(12)) return below(most + 1);
    switch (below(4)) {
    case 0: return most + 1;
    case 1: return (1ull << 32) + below(most + 1);
    case 2: return ~0ull;
    default: return source() >> below(64);
    }
}

static string wild_record() {
    string s;
    for (uint64_t n = below(5); n > 0; n--) switch (below(5)) {
        case 0: put_part(s, 1, any_bytes(below(20))); break;
        case 1: put_part(s, 2, any_bytes(below(60))); break;
        case 2: put_part(s, 5, any_text()); break;
        case 3: put_other(s, 3); break;
        default: put_part(s, 1 + below(2), ""); break;
        }
    return s;
}

static string wild_peer() {
    string s;
    for (uint64_t n = below(one_in(8) ? 40 : 6); n > 0; n--) switch (below(5)) {
        case 0: put_part(s, 1, any_bytes(below(40))); break;
        case 1:
        case 2: put_part(s, 2, any_bytes(below(30))); break;
        case 3: put_number(s, 3, any_number(3)); break;
        default: put_other(s, 3); break;
        }
    return s;
}

static string made_wild() {
    string s;
    for (uint64_t n = below(9); n > 0; n--) switch (below(7)) {
        case 0: put_number(s, 1, any_number(5)); break;
        case 1: put_part(s, 2, any_bytes(below(40))); break;
        case 2: put_part(s, 3, wild_record()); break;
        case 3: put_part(s, 8, wild_peer()); break;
        case 4: put_part(s, 9, wild_peer()); break;
        case 5: put_number(s, 10, source() >> below(64)); break;
        default: put_other(s, 3); break;
        }
    return s;
}

static string damaged(string s) {
    for (uint64_t n = 1 + below(3); n > 0; n--) {
        size_t at = s.empty() ? 0 : below(s.size());
        switch (below(6)) {
        case 0:
        case 1:
            if (!s.empty()) s[at] = static_cast<char>(s[at] ^ 1 << below(8));
            break;
        case 2: s.resize(at); break;
        case 3: s.insert(at, any_bytes(1 + below(3))); break;
        case 4: s.erase(at, 1 + below(3)); break;
        default:
            if (!s.empty()) s[below(s.size() < 12 ? s.size() : 12)] = static_cast<char>(below(256));
        }
    }
    return s;
}

/* ---- records in several fields: on these the two have to agree */

static string plain(uint64_t number, const string &content) {
    string s;
    put_varint(s, number << 3 | 2, 1), put_varint(s, content.size(), 1);
    return s + content;
}

struct Shape {
    const char *name;
    bool taken;
    string body;
};

static vector<Shape> split_records() {
    auto record = [](const string &content) { return plain(3, content); };
    string key = plain(1, any_bytes(1 + below(20))), value = plain(2, any_bytes(1 + below(60))), number = "\x18\x07", fixed = "\x1d" + any_bytes(4) + "\x19" + any_bytes(8);
    string other_key = plain(1, any_bytes(1 + below(20))), other_value = plain(2, any_bytes(1 + below(60))), unknown = plain(7, any_bytes(below(9)));
    string peer = plain(8, plain(1, any_bytes(1 + below(20))));
    size_t inside = 1 + below(key.size() - 1);
    return {
        {"key first", true, record(key) + record(value)},
        {"value first", true, record(value) + record(key)},
        {"three occurrences", true, record(key + value) + record(other_value) + record(other_key)},
        {"two whole records", true, record(key + value) + record(other_key + other_value)},
        {"empty ones", true, record("") + record(key) + record("") + record(value) + record("")},
        {"only empty ones", true, record("") + record("")},
        {"an empty key last", true, record(key + value) + record(plain(1, ""))},
        {"an empty value last", true, record(key + value) + record(plain(2, ""))},
        {"unknown fields between", true, record(key + unknown) + unknown + record(unknown + value)},
        {"other fields between", true, record(key) + plain(2, any_bytes(below(20))) + peer + record(value)},
        {"a number as field 3 between", true, record(key) + number + record(value)},
        {"fixed fields 3 between", true, record(key) + fixed + record(value)},
        {"well formed only if joined", false, record(key.substr(0, inside)) + record(key.substr(inside) + value)},
        {"the second malformed", false, record(key + value) + record(value.substr(0, value.size() - 1))},
    };
}

/* How many there are; each is read, or refused, by both alike. */
static size_t compare_split(Counts &counts) {
    vector<Shape> shapes = split_records();
    for (const Shape &shape : shapes) {
        Outcome mine = compare(shape.body, counts), theirs = library(shape.body);
        if (!(mine == theirs) || (mine.code == TAKEN) != shape.taken)
            fail(string("a record in several fields, ") + shape.name + "\n  ours    " + told(mine) + "\n  library " + told(theirs), shape.body);
    }
    return shapes.size();
}

/* ---- messages written by ours */

static Said to_write() {
    Said m;
    bool sound = !one_in(3);
    m.kind = static_cast<int64_t>(sound ? below(6) : any_number(5));
    auto length = [&](size_t limit) { size_t n = any_length(limit); return sound && n > limit ? limit : n; };
    auto peers = [&](size_t most) {
        vector<PeerSaid> l;
        for (uint64_t n = below(most); n > 0; n--) {
            PeerSaid p;
            p.id = any_bytes(length(64));
            p.connection = static_cast<int64_t>(sound || !one_in(40) ? below(4) : below(256));
            for (uint64_t k = sound || !one_in(20) ? below(5) : below(8); k > 0; k--) p.addrs.push_back(any_bytes(length(one_in(2) ? 128 : 20)));
            l.push_back(p);
        }
        return l;
    };
    m.key = any_bytes(one_in(3) ? 0 : length(128));
    m.held = one_in(2);
    if (m.held) m.record_key = any_bytes(length(128)), m.value = any_bytes(length(one_in(3) ? MOST_VALUE : 100));
    m.closer = peers(one_in(3) ? 22 : 4);
    m.providers = peers(one_in(5) ? 22 : 2);
    return m;
}

static void put_two(string &s, size_t n) { s += static_cast<char>(n & 255), s += static_cast<char>(n >> 8); }

static string as_list(const vector<PeerSaid> &peers) {
    string s;
    for (const PeerSaid &p : peers) {
        string list;
        for (const string &a : p.addrs) put_two(list, a.size()), list += a;
        put_two(s, p.id.size()), s += p.id, s += static_cast<char>(p.connection);
        put_two(s, list.size()), s += list;
    }
    return s;
}

/* The limits of RULES, Messages, but for that of the whole body. */
static bool within_limits(const Said &m) {
    if (static_cast<uint64_t>(m.kind) > 5 || m.key.size() > 128 || m.record_key.size() > 128 || m.value.size() > MOST_VALUE) return false;
    for (const vector<PeerSaid> *l : {&m.closer, &m.providers})
        for (const PeerSaid &p : *l) {
            if (p.id.size() > 64 || p.connection > 3 || p.addrs.size() > 4) return false;
            for (const string &a : p.addrs) if (a.size() > 128) return false;
        }
    return true;
}

static void fill_as(dht::Peer *p, const PeerSaid &said) {
    p->set_id(said.id);
    for (const string &a : said.addrs) p->add_addrs(a);
    p->set_connection(static_cast<dht::Peer::Connection>(said.connection));
}

/* The bytes that the library writes for the same message. */
static string library_bytes(const Said &said) {
    dht::Message m;
    m.set_type(static_cast<dht::Message::Type>(said.kind));
    m.set_key(said.key);
    if (said.held) m.mutable_record()->set_key(said.record_key), m.mutable_record()->set_value(said.value);
    for (const PeerSaid &p : said.closer) fill_as(m.add_closerpeers(), p);
    for (const PeerSaid &p : said.providers) fill_as(m.add_providerpeers(), p);
    return m.SerializeAsString();
}

/* The frame that ours writes; an empty one where it refuses. No other byte of the buffer may change. */
static string ours_written(const Said &m, size_t room) {
    static uint8_t out[LEAST_REPLY + 64], before[LEAST_REPLY + 64];
    string closer = as_list(m.closer), providers = as_list(m.providers);
    memset(before, 0xa5, sizeof before);
    memset(out, 0xa5, sizeof out);
    size_t n = starterbell_message_write(out, room, static_cast<uint64_t>(m.kind), bytes_of(m.key), m.key.size(), m.held, bytes_of(m.record_key), m.record_key.size(),
        bytes_of(m.value), m.value.size(), bytes_of(closer), closer.size(), bytes_of(providers), providers.size());
    string frame(reinterpret_cast<char *>(out), n <= sizeof out ? n : 0);
    if (n > sizeof out || memcmp(out + n, before, sizeof out - n)) fail("ours wrote beside the message", frame);
    return frame;
}

/* The body of a frame, its prefix read by the library. */
static string unframed(const string &frame) {
    google::protobuf::io::CodedInputStream in(bytes_of(frame), static_cast<int>(frame.size()));
    uint32_t n = 0;
    string body;
    if (!in.ReadVarint32(&n) || !in.ReadString(&body, static_cast<int>(n)) || in.CurrentPosition() != static_cast<int>(frame.size())) fail("the prefix is not the body's length", frame);
    return body;
}

/* Whether it was written: then the bytes are those of the library, and are read as what was to be written by both. */
static bool write_and_compare(const Said &m, Counts &counts) {
    string want = library_bytes(m), frame = ours_written(m, LEAST_REPLY + below(2) * 17);
    bool writable = within_limits(m) && want.size() <= MOST_BODY;
    if (frame.empty() == writable) fail(writable ? "ours refuses a message within its limits" : "ours writes a message over its limits", want);
    if (!ours_written(m, LEAST_REPLY - 1).empty()) fail("ours writes into a buffer that is too small", want);
    if (!writable) return false;
    string body = unframed(frame);
    if (body != want) fail("ours writes other bytes than the library, whose are " + hex(want), body);
    Outcome o;
    o.said = m;
    if (!(library(body) == o)) fail("the library reads otherwise what ours wrote", body);
    if (!(compare(body, counts) == o)) fail("ours reads otherwise what it wrote", body);
    return true;
}

/* ---- the run */

static void report(const char *what, const Counts &c) {
    printf("%s: %zu bodies; both read %zu (%zu of them otherwise), both refuse %zu, ours alone reads %zu, the library alone %zu\n", what, c.bodies, c.both_taken, c.read_otherwise,
        c.both_refused, c.ours_alone, c.library_alone);
    for (int r = 0; r < RULES; r++) if (c.by_rule[r]) printf("  %6zu by: %s\n", c.by_rule[r], rule_names[r]);
    if (c.together) printf("  %6zu by several of these together\n", c.together);
}

static void add(Counts &sum, const Counts &c) {
    for (int r = 0; r < RULES; r++) sum.by_rule[r] += c.by_rule[r];
    sum.bodies += c.bodies;
}

int main(int argc, char **argv) {
    if (argc != 3) return 2;
    source.seed(strtoull(argv[1], nullptr, 10));
    size_t count = strtoull(argv[2], nullptr, 10), written = 0;
    google::protobuf::SetLogHandler(nullptr);
    Counts made, wild, hurt, split, own, all;
    size_t shapes = 0, longest = 0;
    for (size_t i = 0; i < count; i++) {
        string a = made_by_library(), b = made_wild();
        compare(a, made);
        compare(b, wild);
        for (int k = 0; k < 3; k++) compare(damaged(a), hurt), compare(damaged(b), hurt);
        shapes = compare_split(split);
        Said m = to_write();
        bool wrote = write_and_compare(m, own);
        written += wrote;
        if (wrote && m.value.size() == MOST_VALUE) {
            longest++;
            m.value += 'v';
            if (write_and_compare(m, own)) fail("a value one byte too long is within the limits", library_bytes(m));
        }
    }
    report("made by the library", made);
    report("in every form of the wire format", wild);
    report("damaged", hurt);
    report("a record in several fields", split);
    printf("  in %zu shapes, each read or refused by both alike\n", shapes);
    report("written by ours", own);
    printf("  %zu of them have a value of %zu bytes, and ours refused to write them with one byte more\n", longest, MOST_VALUE);
    printf("  %zu more were over a limit, and ours refused to write them\n", count - written);
    for (const Counts *c : {&made, &wild, &hurt, &split, &own}) add(all, *c);
    for (int r = 0; r < RULES; r++)
        if (!all.by_rule[r]) {
            printf("no body met the rule: %s\n", rule_names[r]);
            return 1;
        }
    if (!longest) {
        printf("no message had a value of %zu bytes\n", MOST_VALUE);
        return 1;
    }
    printf("%zu bodies are read as by the library, but for the %d rules that are known, and %zu messages are written to the byte as by the library (seed %s)\n", all.bodies, static_cast<int>(RULES),
        written, argv[1]);
    return 0;
}
