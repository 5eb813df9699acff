/* messages ours|plain|nanopb|protoc|fresh CASE MILLISECONDS: reads the message of CASE for that time, and writes the nanoseconds of one, a sum of what
   was read, and the body's length. Each looks at every field: the type, the key, the record, and of each peer the id, the connection and each address.
   `plain` has the same steps as ours in ordinary C++; `protoc` reads into one message again and again, `fresh` into a new one each time. */
#include <cstdint>
#include <cstdio>
#include <cstdlib>
#include <cstring>
#include <string>
#include <time.h>
#include <pb_decode.h>
#include "dht.nano.h"
#include "dht.pb.h"

extern "C" {
uint8_t starterbell_message_read(const uint8_t *body, size_t length, size_t out[8]);
bool starterbell_message_closer_peer(const uint8_t *body, size_t length, size_t from, size_t out[2]);
bool starterbell_message_provider_peer(const uint8_t *body, size_t length, size_t from, size_t out[2]);
void starterbell_message_peer(const uint8_t *body, size_t length, size_t at, size_t end, size_t out[20]);
bool starterbell_message_peer_address(const uint8_t *body, size_t length, size_t at, size_t end, size_t from, size_t out[2]);
}

using std::string;

/* ---- what is looked at: a length, and the bytes at both ends */

static uint64_t part(uint64_t sum, const uint8_t *s, size_t n) {
    sum = sum * 31 + n;
    return n == 0 ? sum : (sum * 31 + s[0]) * 31 + s[n - 1];
}

static uint64_t number(uint64_t sum, uint64_t n) { return sum * 31 + n; }

static uint64_t text(uint64_t sum, const string &s) { return part(sum, reinterpret_cast<const uint8_t *>(s.data()), s.size()); }

/* ---- ours */

/* How many addresses of a peer one call tells. */
static const size_t FIRST = 8;

typedef bool (*Walk)(const uint8_t *, size_t, size_t, size_t[2]);

static uint64_t ours_peers(const uint8_t *s, size_t n, uint64_t sum, Walk next) {
    size_t peer[2], m[20], p[2];
    for (size_t from = 0; next(s, n, from, peer); from = peer[1]) {
        starterbell_message_peer(s, n, peer[0], peer[1], m);
        sum = part(sum, s + m[0], m[1] - m[0]);
        for (size_t k = 0; k < m[3] && k < FIRST; k++) sum = part(sum, s + m[4 + 2 * k], m[5 + 2 * k] - m[4 + 2 * k]);
        if (m[3] > FIRST)
            for (size_t at = m[19]; starterbell_message_peer_address(s, n, peer[0], peer[1], at, p); at = p[1]) sum = part(sum, s + p[0], p[1] - p[0]);
        sum = number(sum, m[2]);
    }
    return sum;
}

static uint64_t by_ours(const uint8_t *s, size_t n) {
    size_t m[8];
    if (starterbell_message_read(s, n, m) != 255) exit(1);
    uint64_t sum = part(number(0, m[0]), s + m[1], m[2] - m[1]);
    if (m[3]) sum = part(part(sum, s + m[4], m[5] - m[4]), s + m[6], m[7] - m[6]);
    return ours_peers(s, n, ours_peers(s, n, sum, starterbell_message_closer_peer), starterbell_message_provider_peer);
}

/* ---- plain: the same steps, with the same tests of bounds */

struct Span {
    size_t at = 0, end = 0;
};

struct Field {
    enum { END, BAD, NUMBER, BYTES, OTHER } kind = BAD;
    uint64_t number = 0, value = 0;
    Span part;
    size_t next = 0;
};

static bool plain_varint(const uint8_t *s, size_t n, size_t &at, uint64_t &v) {
    v = 0;
    for (int shift = 0; shift < 64 && at < n; shift += 7) {
        uint64_t b = s[at++];
        if (shift == 63 && b > 1) return false;
        v |= (b & 127) << shift;
        if (b < 128) return true;
    }
    return false;
}

static Field plain_field(const uint8_t *s, size_t n, size_t at) {
    Field f;
    uint64_t tag, size;
    if (n <= at) return f.kind = Field::END, f;
    size_t next = at;
    if (!plain_varint(s, n, next, tag) || next - at > 5 || tag >> 32 || tag < 8) return f;
    f.number = tag >> 3;
    switch (tag & 7) {
    case 0:
        if (plain_varint(s, n, next, f.value)) f.kind = Field::NUMBER, f.next = next;
        return f;
    case 2:
        if (plain_varint(s, n, next, size) && size <= n - next) f.kind = Field::BYTES, f.part.at = next, f.part.end = f.next = next + size;
        return f;
    case 1:
    case 5:
        size = (tag & 7) == 1 ? 8 : 4;
        if (size <= n - next) f.kind = Field::OTHER, f.next = next + size;
        return f;
    default: return f;
    }
}

static bool plain_well(const uint8_t *s, size_t n, size_t at) {
    for (;;) {
        Field f = plain_field(s, n, at);
        if (f.kind == Field::END || f.kind == Field::BAD) return f.kind == Field::END;
        at = f.next;
    }
}

static bool plain_next(const uint8_t *s, size_t n, size_t at, uint64_t number, Span &p) {
    for (;;) {
        Field f = plain_field(s, n, at);
        if (f.kind == Field::END || f.kind == Field::BAD) return false;
        if (f.kind == Field::BYTES && f.number == number) return p = f.part, true;
        at = f.next;
    }
}

static Span plain_last(const uint8_t *s, size_t n, size_t at, uint64_t number) {
    Span last, p;
    for (; plain_next(s, n, at, number, p); at = p.end) last = p;
    return last;
}

struct PlainPeer {
    Span id, places[FIRST];
    uint64_t connection = 0;
    size_t count = 0;
};

static PlainPeer plain_peer(const uint8_t *s, size_t n, size_t at) {
    PlainPeer w;
    for (;;) {
        Field f = plain_field(s, n, at);
        if (f.kind == Field::END || f.kind == Field::BAD) break;
        if (f.kind == Field::BYTES && f.number == 1) w.id = f.part;
        if (f.kind == Field::BYTES && f.number == 2) {
            if (w.count < FIRST) w.places[w.count] = f.part;
            w.count++;
        }
        if (f.kind == Field::NUMBER && f.number == 3) w.connection = f.value;
        at = f.next;
    }
    if (w.connection > 3) w.connection = 0;
    return w;
}

static uint64_t plain_peers(const uint8_t *s, size_t n, uint64_t sum, uint64_t number_of_list) {
    Span peer, p;
    for (size_t from = 0; plain_next(s, n, from, number_of_list, peer); from = peer.end) {
        PlainPeer w = plain_peer(s, peer.end, peer.at);
        sum = part(sum, s + w.id.at, w.id.end - w.id.at);
        for (size_t k = 0; k < w.count && k < FIRST; k++) sum = part(sum, s + w.places[k].at, w.places[k].end - w.places[k].at);
        if (w.count > FIRST)
            for (size_t at = w.places[FIRST - 1].end; plain_next(s, peer.end, at, 2, p); at = p.end) sum = part(sum, s + p.at, p.end - p.at);
        sum = number(sum, w.connection);
    }
    return sum;
}

static uint64_t by_plain(const uint8_t *s, size_t n) {
    uint64_t kind = 0;
    bool held = false;
    Span key, record_key, value;
    if (n > 16384) exit(1);
    for (size_t at = 0;;) {
        Field f = plain_field(s, n, at);
        if (f.kind == Field::END) break;
        if (f.kind == Field::BAD) exit(1);
        if (f.kind == Field::NUMBER && f.number == 1) kind = f.value;
        if (f.kind == Field::BYTES && f.number == 2) key = f.part;
        if (f.kind == Field::BYTES && (f.number == 3 || f.number == 8 || f.number == 9) && !plain_well(s, f.part.end, f.part.at)) exit(1);
        if (f.kind == Field::BYTES && f.number == 3) held = true, record_key = plain_last(s, f.part.end, f.part.at, 1), value = plain_last(s, f.part.end, f.part.at, 2);
        at = f.next;
    }
    if (kind > 5) exit(1);
    uint64_t sum = part(number(0, kind), s + key.at, key.end - key.at);
    if (held) sum = part(part(sum, s + record_key.at, record_key.end - record_key.at), s + value.at, value.end - value.at);
    return plain_peers(s, n, plain_peers(s, n, sum, 8), 9);
}

/* ---- nanopb */

static uint64_t nanopb_peers(const dht_Peer *peers, size_t n, uint64_t sum) {
    for (size_t i = 0; i < n; i++) {
        sum = part(sum, peers[i].id.bytes, peers[i].id.size);
        for (size_t k = 0; k < peers[i].addrs_count; k++) sum = part(sum, peers[i].addrs[k].bytes, peers[i].addrs[k].size);
        sum = number(sum, peers[i].connection);
    }
    return sum;
}

static uint64_t by_nanopb(const uint8_t *s, size_t n) {
    static dht_Message m;
    pb_istream_t in = pb_istream_from_buffer(s, n);
    if (!pb_decode(&in, dht_Message_fields, &m)) exit(1);
    uint64_t sum = part(number(0, m.type), m.key.bytes, m.key.size);
    if (m.has_record) sum = part(part(sum, m.record.key.bytes, m.record.key.size), m.record.value.bytes, m.record.value.size);
    return nanopb_peers(m.providerPeers, m.providerPeers_count, nanopb_peers(m.closerPeers, m.closerPeers_count, sum));
}

/* ---- protoc's C++ */

static uint64_t protoc_peers(const google::protobuf::RepeatedPtrField<dht::Peer> &peers, uint64_t sum) {
    for (const dht::Peer &p : peers) {
        sum = text(sum, p.id());
        for (const string &a : p.addrs()) sum = text(sum, a);
        sum = number(sum, p.connection());
    }
    return sum;
}

static uint64_t by_protoc(dht::Message &m, const uint8_t *s, size_t n) {
    if (!m.ParseFromArray(s, static_cast<int>(n))) exit(1);
    uint64_t sum = text(number(0, m.type()), m.key());
    if (m.has_record()) sum = text(text(sum, m.record().key()), m.record().value());
    return protoc_peers(m.providerpeers(), protoc_peers(m.closerpeers(), sum));
}

static uint64_t once(const string &way, const uint8_t *s, size_t n) {
    static dht::Message kept;
    if (way == "ours") return by_ours(s, n);
    if (way == "plain") return by_plain(s, n);
    if (way == "nanopb") return by_nanopb(s, n);
    if (way == "protoc") return by_protoc(kept, s, n);
    dht::Message fresh;
    return by_protoc(fresh, s, n);
}

/* ---- the messages */

static string some_bytes(size_t n) {
    static uint64_t seed = 88172645463325252u;
    string s(n, 0);
    for (char &c : s) seed ^= seed << 13, seed ^= seed >> 7, seed ^= seed << 17, c = static_cast<char>(seed >> 32);
    return s;
}

static string body_of(const string &name) {
    dht::Message m;
    if (name == "put") {
        m.set_type(dht::Message::PUT_VALUE);
        m.set_key("/wind/" + some_bytes(34));
        m.mutable_record()->set_key(m.key());
        m.mutable_record()->set_value(some_bytes(3072));
        return m.SerializeAsString();
    }
    bool full = name == "reply-full";
    m.set_type(dht::Message::FIND_NODE);
    for (int i = 0; i < 20; i++) {
        dht::Peer *p = m.add_closerpeers();
        p->set_id(some_bytes(full ? 64 : 38));
        for (int k = full ? 4 : 1 + i % 2; k > 0; k--) p->add_addrs(some_bytes(full ? 128 : k == 2 ? 20 : 8));
        p->set_connection(dht::Peer::NOT_CONNECTED);
    }
    return m.SerializeAsString();
}

static double now_ns() {
    struct timespec t;
    clock_gettime(CLOCK_PROCESS_CPUTIME_ID, &t);
    return static_cast<double>(t.tv_sec) * 1e9 + static_cast<double>(t.tv_nsec);
}

static double time_of(const string &way, const string &body, size_t times, uint64_t sum) {
    double began = now_ns();
    for (size_t i = 0; i < times; i++)
        if (once(way, reinterpret_cast<const uint8_t *>(body.data()), body.size()) != sum) exit(1);
    return now_ns() - began;
}

int main(int argc, char **argv) {
    if (argc != 4) return 2;
    string way = argv[1], body = body_of(argv[2]);
    size_t times = 1;
    double wanted = strtod(argv[3], nullptr) * 1e6, best = 1e300;
    uint64_t sum = once(way, reinterpret_cast<const uint8_t *>(body.data()), body.size());
    while (time_of(way, body, times, sum) < wanted / 8) times *= 2;
    /* the least of some stretches: what disturbs a run only ever makes it longer */
    for (int i = 0; i < 4; i++) {
        double t = time_of(way, body, times, sum) / static_cast<double>(times);
        if (t < best) best = t;
    }
    printf("%.2f %llu %zu\n", best, static_cast<unsigned long long>(sum), body.size());
    return 0;
}
