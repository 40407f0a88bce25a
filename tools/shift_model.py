#!/usr/bin/env python3
"""A test tool, no part of the station: an independent model of the program `shift`.

It is written from docs/STATION.md, REFUSALS.md and SHIFT.md, not from the code.

    shift_model.py < FEED      print the lines the program should print for FEED
    shift_model.py --make      write the long test feed, always the same, as raw bytes
"""
import sys

POSTS = 4
LIMIT = 2           # of the policy, first contact
CELLS = 4096        # of the pool; all posts share it
MOST_INPUT = 65536  # bytes; input past that is not read
LOCAL, SEND, RECEIVE = 0, 1, 2


class Refused(Exception):
    """Carries the ground."""


class Station:
    def __init__(self):
        self.kinds = [[] for _ in range(POSTS)]  # kinds[p][k - 1] is the kind of (p,k)
        self.received = set()                    # sends already received, as (post, number)
        self.cluster = [{p} for p in range(POSTS)]
        self.used = 0                            # cells

    def held(self, post):
        return len(self.kinds[post])

    def take(self, record):
        """Take eight bytes; answer post, number, outcome and number of entries."""
        post, kind, number = record[0], record[1], record[2] << 8 | record[3]
        partner, spare, partner_number = record[4], record[5], record[6] << 8 | record[7]
        send = (partner, partner_number)

        if kind > RECEIVE:
            raise Refused(4)
        if post >= POSTS:
            raise Refused(5)
        if spare != 0 or (kind != RECEIVE and send != (0, 0)):
            raise Refused(6)
        if kind == RECEIVE and (partner >= POSTS or partner == post):
            raise Refused(7)
        if number != self.held(post) + 1:
            raise Refused(8)
        if kind == RECEIVE:
            if not 1 <= partner_number <= self.held(partner):
                raise Refused(9)
            if self.kinds[partner][partner_number - 1] != SEND:
                raise Refused(10)
            if send in self.received:
                raise Refused(11)

        outcome, cover = 'plain', self.cluster[post]
        if kind == RECEIVE and partner not in cover:
            both = cover | self.cluster[partner]
            if len(both) <= LIMIT:
                outcome, cover = 'merged', both
            else:
                outcome, cover = 'across', set(range(POSTS))
        price = len(cover) + 8
        if price > CELLS - self.used:
            raise Refused(12)

        # Nothing is changed above this line.
        self.used += price
        self.kinds[post].append(kind)
        if kind == RECEIVE:
            self.received.add(send)
        if outcome == 'merged':
            for p in cover:
                self.cluster[p] = cover
        return post, number, outcome, len(cover)


def run(feed):
    """The lines the program prints for the feed."""
    station, lines, events = Station(), [], 0
    try:
        if len(feed) % 8 != 0:
            raise Refused(2)
        for place in range(0, len(feed), 8):
            lines.append('%d %d %s %d' % station.take(feed[place:place + 8]))
            events += 1
    except Refused as refusal:
        lines.append('refused %d %d' % (refusal.args[0], 8 * events))
    lines.append('end %d %d' % (events, station.used))
    return lines


def make(records=330, bad=310):
    """A feed of so many records. Record `bad`, counted from 1, has a number out of turn,
    one too high; the records after it would be good ones if it were not there."""
    state = 1

    def below(n):  # a fixed generator, so that the feed never changes
        nonlocal state
        state = (state * 1103515245 + 12345) % 2**31
        return (state >> 16) % n

    def record(post, kind, number, partner=0, partner_number=0):
        return (bytes([post, kind]) + number.to_bytes(2, 'big')
                + bytes([partner, 0]) + partner_number.to_bytes(2, 'big'))

    feed, held, pending = [], [0] * POSTS, []
    while len(feed) < records:
        post = below(POSTS)
        if len(feed) == bad - 1:
            feed.append(record(post, LOCAL, held[post] + 2))
            continue
        held[post] += 1
        sends = [send for send in pending if send[0] != post]
        choice = below(8)  # 1 in 8 local, 3 send, 4 receive if there is what to receive
        if choice == 0:
            feed.append(record(post, LOCAL, held[post]))
        elif choice <= 3 or not sends:
            feed.append(record(post, SEND, held[post]))
            pending.append((post, held[post]))
        else:
            send = sends[below(len(sends))]
            pending.remove(send)
            feed.append(record(post, RECEIVE, held[post], *send))
    return b''.join(feed)


if __name__ == '__main__':
    if sys.argv[1:] == ['--make']:
        sys.stdout.buffer.write(make())
    elif not sys.argv[1:]:
        for line in run(sys.stdin.buffer.read(MOST_INPUT)):
            print(line)
    else:
        sys.exit('usage: shift_model.py [--make]')
