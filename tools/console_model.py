#!/usr/bin/env python3
"""A test tool, no part of the station: an independent model of the program `console`.

It is written from the pages in docs/, not from the code: happened-before is worked out as sets of events, and no
vector is kept.

    console_model.py < SCRIPT       print what the console should print for SCRIPT
    console_model.py --orders       write a script that feeds 60 records to two stations in two orders
    console_model.py --long TURNS   write a script of so many turns on two stations, for measuring
"""
import random
import re
import sys

LOCAL, SEND, RECEIVE = 0, 1, 2


class Refused(Exception):
    """Carries the words that are printed after `refused`."""


class Wrong(Exception):
    """A line that cannot be read."""


class Pile:
    """Space alone: what a keeper with layers over it leaves each post to use."""

    def __init__(self, posts, keeper, size, layers):
        self.shared = keeper == 'pool'
        whole = size if self.shared else (size // 2 // posts if posts else 0)
        self.left = [whole] * posts
        self.allowances = [number for layer, number in layers if layer == 'quota']

    def space(self, post):
        return min([self.left[post]] + self.allowances)

    def pay(self, post, price):
        for p in range(len(self.left)):
            if self.shared or p == post:
                self.left[p] -= price
        self.allowances = [left - price for left in self.allowances]


class Station:
    def __init__(self, posts, policy, pile):
        self.posts = posts
        self.limit = max(1, min(policy[0], 64))
        self.rate = policy[1]
        self.pile = pile
        self.kinds = [[] for _ in range(posts)]  # kinds[p][k - 1] is the kind of (p,k)
        self.past = {}                           # each event's predecessors and itself
        self.received = set()
        self.cluster = [{p} for p in range(posts)]
        self.exchanges = []                      # receiver's and sender's post of each receive taken
        self.prices = 0

    def holds(self, event):
        return event in self.past

    def take(self, record):
        if len(record) != 8:
            raise Refused('3')
        post, kind, number = record[0], record[1], record[2] << 8 | record[3]
        partner, spare, partner_number = record[4], record[5], record[6] << 8 | record[7]
        send = (partner, partner_number)
        if kind > RECEIVE:
            raise Refused('4')
        if post >= self.posts:
            raise Refused('5')
        if spare != 0 or (kind != RECEIVE and send != (0, 0)):
            raise Refused('6')
        if kind == RECEIVE and (partner >= self.posts or partner == post):
            raise Refused('7')
        if number != len(self.kinds[post]) + 1:
            raise Refused('8')
        if kind == RECEIVE:
            if not self.holds(send):
                raise Refused('9')
            if self.kinds[partner][partner_number - 1] != SEND:
                raise Refused('10')
            if send in self.received:
                raise Refused('11')
        outcome, cover = 'plain', self.cluster[post]
        if kind == RECEIVE and partner not in cover:
            own, other = cover, self.cluster[partner]
            between = sum(1 for a, b in self.exchanges if a in own and b in other or a in other and b in own)
            size = len(own) + len(other)
            if size <= self.limit and between >= self.rate * size:
                outcome, cover = 'merged', own | other
            else:
                outcome, cover = 'across', set(range(self.posts))
        price = len(cover) + 8
        if price > self.pile.space(post):
            raise Refused('12 wanted %d left %d' % (price, self.pile.space(post)))
        # Nothing is changed above this line.
        self.pile.pay(post, price)
        self.prices += price
        self.kinds[post].append(kind)
        past = {(post, number)} | self.past.get((post, number - 1), set())
        if kind == RECEIVE:
            past |= self.past[send]
            self.received.add(send)
            self.exchanges.append((post, partner))
        self.past[(post, number)] = past
        if outcome == 'merged':
            for p in cover:
                self.cluster[p] = cover
        return '%s %d' % (outcome, len(cover))

    def feed(self, data):
        if len(data) % 8 != 0:
            raise Refused('2 at 0')
        for place in range(0, len(data), 8):
            try:
                self.take(data[place:place + 8])
            except Refused as refusal:
                ground, _, rest = refusal.args[0].partition(' ')
                raise Refused(('%s at %d %s' % (ground, place, rest)).strip())
        return 'took %d' % (len(data) // 8)

    def named(self, events):
        for place, event in enumerate(events):
            if not self.holds(event):
                raise Refused('15 place %d' % place)

    def relation(self, e, f):
        if e == f:
            return 'concurrent'
        return 'before' if e in self.past[f] else 'after' if f in self.past[e] else 'concurrent'

    def entry(self, event, post):
        return sum(1 for p, _ in self.past[event] if p == post)

    def known(self, post):
        if post >= self.posts:
            raise Refused('16')

    def relate(self, e, f):
        self.named([e, f])
        return self.relation(e, f)

    def reach(self, event, post):
        self.named([event])
        self.known(post)
        return str(self.entry(event, post))

    def horizon(self, length, events):
        if length != self.posts:
            raise Refused('13')
        return self.listed(events)

    def listed(self, events):
        if not events:
            raise Refused('14')
        self.named(events)
        return ' '.join(str(max(self.entry(e, p) for e in events)) for p in range(self.posts))

    def heard(self, events):
        numbers = self.listed(events).split()
        return ' '.join(str(p) for p, number in enumerate(numbers) if number != '0')

    def clustered(self, post):
        self.known(post)
        return ' '.join(str(p) for p in sorted(self.cluster[post]))


def number(word, most):
    if not re.fullmatch('[0-9]+', word) or int(word) > most:
        raise Wrong('number')
    return int(word)


def event(word):
    match = re.fullmatch('([0-9]+),([0-9]+)', word)
    if not match:
        raise Wrong('event')
    return number(match[1], 255), number(match[2], 65535)


def hexed(words):
    if any(not re.fullmatch('([0-9a-fA-F]{2})+', word) for word in words):
        raise Wrong('hex')
    return bytes.fromhex(''.join(words))


def opening(words):
    words = list(words)
    posts = number(words.pop(0), 255)
    kind = words.pop(0)
    if kind not in ('first', 'traffic'):
        raise Wrong('policy')
    limit = number(words.pop(0), 255)
    rate = number(words.pop(0), 65535) if kind == 'traffic' else 0
    keeper = words.pop(0)
    if keeper not in ('pool', 'columns'):
        raise Wrong('keeper')
    size, layers = number(words.pop(0), 2**32 - 1), []
    while words:
        layer = words.pop(0)
        if layer not in ('quota', 'shelf'):
            raise Wrong('layer')
        layers.append((layer, number(words.pop(0), 2**32 - 1) if layer == 'quota' else 0))
    if len(layers) > 8:
        raise Wrong('layers')
    posts = posts if posts <= 64 else 0
    return Station(posts, (limit, rate), Pile(posts, keeper, size, layers))


def turn(station, call, words):
    if call == 'take':
        return station.take(hexed(words))
    if call == 'feed':
        return station.feed(hexed(words))
    if call == 'relate':
        e, f = words
        return station.relate(event(e), event(f))
    if call == 'reach':
        e, post = words
        return station.reach(event(e), number(post, 255))
    if call == 'horizon':
        return station.horizon(number(words[0], 65535), [event(word) for word in words[1:]])
    if call == 'heard':
        return station.heard([event(word) for word in words])
    if call == 'cluster':
        post, = words
        return station.clustered(number(post, 255))
    raise Wrong('call')


def run(text):
    """What the console prints for a script that can be read."""
    stations, out = {}, []
    for line in text.split('\n'):
        words = line.split(' ')
        words = [word for word in words if word]
        if not words or line.startswith('#'):
            continue
        if words[0] == 'open':
            if words[1] in stations or words[1] not in ('A', 'B'):
                raise Wrong('open')
            stations[words[1]] = opening(words[2:])
            continue
        try:
            answer = turn(stations[words[0]], words[1], words[2:])
        except Refused as refusal:
            answer = 'refused ' + refusal.args[0]
        out.append(('%s %s %s' % (words[0], words[1], answer)).rstrip())
    for name in sorted(stations):
        out.append('end %s %d %d' % (name, len(stations[name].past), stations[name].prices))
    if len(stations) == 2 and stations['A'].posts == stations['B'].posts:
        a, b = stations['A'], stations['B']
        both = sorted(set(a.past) & set(b.past))
        alike = sum(1 for e in both for f in both if a.relation(e, f) == b.relation(e, f))
        out.append('alike %d of %d' % (alike, len(both) ** 2))
    return out


def record(post, kind, number, send=(0, 0)):
    return (bytes([post, kind]) + number.to_bytes(2, 'big') + bytes([send[0], 0]) + send[1].to_bytes(2, 'big'))


def history(draw, posts, count, few=8):
    """Records of a made-up shift in one valid order, each with the events that must come before it."""
    held, pending, records = [0] * posts, [], []
    while len(records) < count:
        post = draw.randrange(posts)
        held[post] += 1
        sends = [send for send in pending if send[0] != post][-few:]
        before = [(post, held[post] - 1)] if held[post] > 1 else []
        choice = draw.randrange(8)
        if choice == 0 or choice > 3 and not sends:
            kind, send = LOCAL, (0, 0)
        elif choice <= 3:
            kind, send = SEND, (0, 0)
            pending.append((post, held[post]))
        else:
            kind, send = RECEIVE, draw.choice(sends)
            pending.remove(send)
            before.append(send)
        records.append(((post, held[post]), before, record(post, kind, held[post], send)))
    return records


def another_order(draw, records):
    """The same records in another order in which each comes after those that it needs."""
    done, left, order = set(), list(records), []
    while left:
        ready = [r for r in left if all(e in done for e in r[1])]
        chosen = draw.choice(ready)
        left.remove(chosen)
        done.add(chosen[0])
        order.append(chosen)
    return order


def orders():
    draw = random.Random(7)
    records = history(draw, 5, 60)
    lines = ['# The same sixty records in two orders, under two policies and over two piles.',
             'open A 5 first 3 pool 2000 quota 900 shelf',
             'open B 5 traffic 4 1 columns 4000']
    for name, order in (('A', records), ('B', another_order(draw, records))):
        lines += ['%s take %s' % (name, r[2].hex(' ')) for r in order]
    return lines


def long(turns):
    draw = random.Random(11)
    posts, takes = 8, turns // 2
    records = history(draw, posts, takes // 2)
    names = [r[0] for r in records]
    lines = ['open A %d first 4 pool 4000000 shelf' % posts, 'open B %d traffic 4 2 pool 4000000 quota 100000000' % posts]
    for name in 'AB':
        lines += ['%s take %s' % (name, r[2].hex()) for r in records]
        for _ in range(turns // 2 - len(records)):
            e, f = draw.choice(names), draw.choice(names)
            lines.append('%s relate %d,%d %d,%d' % ((name,) + e + f))
    return lines


if __name__ == '__main__':
    if sys.argv[1:] == ['--orders']:
        print('\n'.join(orders()))
    elif sys.argv[1:2] == ['--long'] and len(sys.argv) == 3:
        print('\n'.join(long(int(sys.argv[2]))))
    elif not sys.argv[1:]:
        print('\n'.join(run(sys.stdin.read())))
    else:
        sys.exit('usage: console_model.py [--orders | --long TURNS]')
