#!/usr/bin/env python3
"""contacts_model: what crates/contacts_examples has to write, from a plain model of the contact table (RULES, Places and contacts).

Each bucket is a list of places, the head first; each contact has a slot, its id and its addresses. The table's bytes are written out
from that whenever their hash is asked for.
"""
import hashlib

SLOT = 616
OURS = hashlib.sha256(b'ours').digest()


def place_of(name):
    return hashlib.sha256(name).digest()


def bucket_of(place):
    return 256 - (int.from_bytes(place, 'big') ^ int.from_bytes(OURS, 'big')).bit_length()


class Contact:
    def __init__(self, slot, name, addresses):
        self.slot, self.name, self.addresses = slot, name, addresses


class Table:
    def __init__(self, slots):
        self.slots = slots
        self.buckets = {}
        self.contacts = {}

    def order(self, place):
        return self.buckets.setdefault(bucket_of(place), [])

    def free(self):
        used = {c.slot for c in self.contacts.values()}
        return min((i for i in range(self.slots) if i not in used), default=None)

    def join(self, name, addresses):
        place = place_of(name)
        self.contacts[place] = Contact(self.free(), name, addresses)
        self.order(place).append(place)
        return self.contacts[place].slot

    def drop(self, place):
        self.order(place).remove(place)
        del self.contacts[place]

    def to_tail(self, place):
        self.order(place).remove(place)
        self.order(place).append(place)

    def bad(self, name):
        return not 1 <= len(name) <= 64 or place_of(name) == OURS

    def seen(self, name, client, addresses):
        if self.bad(name):
            return 'M', 0
        if client:
            return 'S', 0
        place = place_of(name)
        if place in self.contacts:
            self.to_tail(place)
            if addresses:
                self.contacts[place].addresses = addresses
            return 'm', self.contacts[place].slot
        if len(self.order(place)) >= 20:
            return 'N', self.contacts[self.order(place)[0]].slot
        if self.free() is None:
            return 'O', 0
        return 'j', self.join(name, addresses)

    def settle(self, head, name, client, addresses, answered):
        if self.bad(head) or self.bad(name):
            return 'M'
        old, new = place_of(head), place_of(name)
        order = self.order(old)
        if old not in self.contacts or order[0] != old or len(order) != 20 or bucket_of(new) != bucket_of(old) or new in self.contacts:
            return 'P'
        if client:
            return 'S'
        if answered:
            self.to_tail(old)
            return 'k'
        self.drop(old)
        self.join(name, addresses)
        return 'w'

    def remove(self, name):
        if self.bad(name):
            return 'M'
        if place_of(name) not in self.contacts:
            return 'P'
        self.drop(place_of(name))
        return 'g'

    def name_in(self, slot):
        return next((c.name for c in self.contacts.values() if c.slot == slot), b'')

    def bytes(self):
        table = bytearray(self.slots * SLOT)
        for order in self.buckets.values():
            for rank, place in enumerate(order):
                c = self.contacts[place]
                lengths = [len(a) for a in c.addresses] + [0] * (4 - len(c.addresses))
                slot = bytes([rank + 1, 0, len(c.name), len(c.addresses)] + lengths) + place + c.name.ljust(64, b'\0')
                slot += b''.join(a.ljust(128, b'\0') for a in c.addresses)
                table[c.slot * SLOT:c.slot * SLOT + len(slot)] = slot
        return bytes(table)


def kept(x):
    """The first four usable addresses of the list that a number stands for."""
    addresses = [bytes([(x + k) % 256]) * ((x * 7 + k * 31) % 140) for k in range(x % 6)]
    return [a for a in addresses if 1 <= len(a) <= 128][:4]


def draw(seed):
    seed ^= seed << 13 & 0xFFFFFFFF
    seed ^= seed >> 17
    return seed ^ (seed << 5 & 0xFFFFFFFF)


def tell(table):
    print('table', int.from_bytes(hashlib.sha256(table.bytes()).digest()[:8], 'big'))


def crowd():
    """6,000 calls with 5,000 peers, on a table of 192 slots."""
    table, tally, seed = Table(192), dict.fromkeys('mjNOkwPgM', 0), 88172645
    for call in range(1, 6001):
        before = draw(seed)
        seed = draw(before)
        if before % 16 < 14:
            n, x = (seed >> 3) % 5000, (before >> 16) % 256
            name = bytes([n % 256, n // 256, 1, 2])
            letter, slot = table.seen(name, False, kept(x))
            tally[letter] += 1
            if letter == 'N' and (before >> 8) % 2 == 1:
                tally[table.settle(table.name_in(slot), name, False, kept(x), (before >> 9) % 4 == 0)] += 1
        else:
            tally[table.remove(table.name_in((seed >> 3) % 256).ljust(4, b'\0'))] += 1
        if call % 1000 == 0:
            print('crowd: ' + ' '.join('%s %d' % (letter, tally[letter]) for letter in 'mjNOkwPg'))
            tell(table)


def main():
    table = Table(64)
    joined = 0
    for id in range(200):
        name = bytes([id])
        if bucket_of(place_of(name)) == 0:
            letter, slot = table.seen(name, False, kept(1))
            if letter == 'N':
                print('bucket 0:', joined, 'joined, and the next is refused with 13; the head is in slot', slot)
                break
            joined += 1
    tell(table)
    seed, head, new = 2463534242, b'\0', b'\0'
    for line in range(1, 31):
        letters = ''
        for _ in range(100):
            seed = draw(seed)
            kind, name, client, x = seed % 16, bytes([(seed >> 4) % 200]), (seed >> 12) % 16 == 0, (seed >> 16) % 256
            if kind < 10:
                letter, slot = table.seen(name, client, kept(x))
                if letter == 'N':
                    head, new = table.name_in(slot), name
            elif kind < 13:
                letter = table.remove(name)
            elif kind < 15:
                letter = table.settle(head, new, client, kept(x), kind == 13)
            else:
                letter = table.settle(name, bytes([x]), client, kept(x), False)
            letters += letter
        print(letters)
        if line % 5 == 0:
            tell(table)
    crowd()


main()
