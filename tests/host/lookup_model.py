#!/usr/bin/env python3
"""lookup_model: what crates/lookup_examples has to write, from a plain model of the lookup (RULES, Lookup) and of the networks in that program.

A lookup is a dictionary of marks by peer id, sorted by distance whenever an order is asked for.
"""
import hashlib

HONEST, SILENT, LYING, CHATTY = range(4)
REAL, INVENTED, NEW = 1, 2, 3


def place(name):
    return int.from_bytes(hashlib.sha256(name).digest(), 'big')


def id_of(k, sort):
    return bytes([k // 256 % 256, k % 256, sort])


class Lookup:
    def __init__(self, key, first, limit):
        self.target, self.limit, self.turned = place(key), limit, False
        self.marks = {first: 'idle'}

    def near(self):
        return sorted(self.marks, key=lambda i: place(i) ^ self.target)

    def twenty(self):
        return [i for i in self.near() if self.marks[i] != 'failed'][:20]

    def over(self):
        return all(self.marks[i] == 'answered' for i in self.twenty())

    def flying(self):
        return [i for i in self.near() if self.marks[i] == 'flying']

    def ask(self):
        idle = [i for i in self.twenty() if self.marks[i] == 'idle']
        if len(self.flying()) >= self.limit or not idle:
            return False
        self.marks[idle[0]] = 'flying'
        return True

    def hear(self, ids):
        for i in ids[:21]:
            if i in self.marks or place(i) == place(b'\xff\xff\xff'):
                continue
            if len(self.marks) == 256:
                self.turned = True
            else:
                self.marks[i] = 'idle'


def known(n, k, target):
    buckets, all_known = {}, []
    for j in range(n):
        b = (place(id_of(j, REAL)) ^ place(id_of(k, REAL))).bit_length()
        if j != k and buckets.get(b, 0) < 20:
            buckets[b] = buckets.get(b, 0) + 1
            all_known.append(j)
    return sorted(all_known, key=lambda j: place(id_of(j, REAL)) ^ target)[:20]


def behaviour(network, k, sort):
    if sort != REAL or network == SILENT and k % 4 == 1:
        return SILENT
    if network == LYING and k % 5 == 3:
        return LYING
    return CHATTY if network == CHATTY and k % 3 == 0 else HONEST


def look_up(n, key, network):
    l = Lookup(bytes([key]), id_of(7, REAL), 3)
    for turn in range(2000):
        if l.over():
            break
        if l.ask():
            continue
        i = l.flying()[-1]
        k = i[0] * 256 + i[1]
        how = behaviour(network, k, i[2])
        l.marks[i] = 'failed' if how in (SILENT, LYING) else 'answered'
        if how == HONEST:
            l.hear([id_of(j, REAL) for j in known(n, k, l.target)])
        if how == CHATTY:
            l.hear([id_of(k * 21 + j, INVENTED) for j in range(20)])
    found = l.twenty() if l.over() else []
    nearest = sorted((id_of(j, REAL) for j in range(n)), key=lambda i: place(i) ^ l.target)[:20]
    state = 'not over' if not l.over() else 'cut short' if l.turned else 'complete'
    sent = sum(m != 'idle' for m in l.marks.values()) if l.over() else 0
    print('%d peers: %s, found %d, of the true twenty %d, requests %d, candidates %d' % (n, state, len(found), len(set(found) & set(nearest)), sent, len(l.marks)))


def fill():
    l = Lookup(bytes([9]), id_of(7, REAL), 3)

    def fill_up(n):
        l.ask()
        i = l.flying()[-1]
        l.marks[i] = 'answered'
        l.hear([id_of(n + j, NEW) for j in range(20)])

    def say():
        print('candidates %d, %s turned away' % (len(l.marks), 'someone' if l.turned else 'nobody'))

    for n in list(range(0, 240, 20)) + [235]:
        fill_up(n)
    say()
    fill_up(236)
    say()


look_up(40, 0, HONEST)
look_up(200, 1, HONEST)
look_up(1000, 2, HONEST)
look_up(1000, 3, HONEST)
look_up(40, 4, SILENT)
look_up(1000, 5, SILENT)
look_up(40, 6, LYING)
look_up(1000, 7, LYING)
look_up(40, 8, CHATTY)
look_up(1000, 9, CHATTY)
fill()
