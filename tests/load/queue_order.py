#!/usr/bin/env python3
"""Tells who is best served first where clients wait for receivers, and give up: `python3 tests/load/queue_order.py`.

Events alone, no clock and no program. Receivers serve a connection to its end. A client connects, posts, and waits ten
seconds for its reply. Where none comes it closes, rests, and posts the same over another connection, six times at
most; once it is answered it posts on until its time is over, and then goes, for good or for a while. A connection that
waits stands in the system's queue, which has room for 129; beyond that it isn't taken, and tries again after 1, 2, 4
and 8 seconds. Of one that was given up the post stands in the queue: whoever takes it serves it in vain.

It prints tables of Markdown: posts that were served in vain, clients that gave up a try, and posts that were given up
for good, means of five runs each. Ends with 1 where none of the three is more for another order than for the first
one, at any load: then that order would be better.
"""

import heapq
import itertools
import random
import statistics
import sys
from types import SimpleNamespace

RECEIVERS, ROOM, PATIENCE, TRIES, SERVED, RUNS = 64, 129, 10.0, 6, 0.002, 5
AGAIN = (1, 2, 4, 8)
ORDERS = {"first first": lambda chance, queue: 0, "newest first": lambda chance, queue: -1,
          "any": lambda chance, queue: chance.randrange(len(queue))}
# how many clients, how long each posts, how often, how long it is away then (None: for good), until when all is
# watched, and within how long they come at first
LOADS = {
    "200 at once, each for 15 s": (200, 15.0, 0.5, None, 120.0, 0.1),
    "100 for an hour, a minute each and a minute away": (100, 60.0, 5.0, 60.0, 3600.0, 60.0),
    "200 so": (200, 60.0, 5.0, 60.0, 3600.0, 60.0),
    "400 so": (400, 60.0, 5.0, 60.0, 3600.0, 60.0),
}
COUNTS = ("in vain", "gave up", "for good")


class Queue:
    """The receivers, and who waits for them."""

    def __init__(self, order, load, seed):
        self.pick = ORDERS[order]
        self.clients, self.life, self.every, self.away, self.until, self.spread = load
        self.chance = random.Random(seed)
        self.free, self.waiting, self.now = RECEIVERS, [], 0.0
        self.events, self.number = [], itertools.count()
        self.counts = dict.fromkeys(COUNTS, 0)

    def at(self, moment, what, *of):
        heapq.heappush(self.events, (moment, next(self.number), what, of))

    def run(self):
        for _ in range(self.clients):
            self.at(self.chance.uniform(0, self.spread), self.comes)
        while self.events and self.events[0][0] < self.until:
            self.now, _, what, of = heapq.heappop(self.events)
            what(*of)
        return self.counts

    def comes(self, tries=0):
        """A client connects, with a post that was tried so often."""
        line = SimpleNamespace(tries=tries, gone=False, taken=False, end=None)
        self.at(self.now + PATIENCE, self.gives_up, line)
        self.connects(line, 0)

    def connects(self, line, times):
        if line.gone:
            return
        if self.free:
            self.free -= 1
            self.served(line)
        elif len(self.waiting) < ROOM:
            self.waiting.append(line)
        else:
            self.at(self.now + AGAIN[min(times, len(AGAIN) - 1)], self.connects, line, times + 1)

    def gives_up(self, line):
        if line.taken or line.gone:
            return
        line.gone = True
        self.counts["gave up"] += 1
        if line.tries + 1 >= TRIES:
            self.counts["for good"] += 1
            self.goes()
        else:
            rest = 2.0 ** line.tries * self.chance.uniform(0.8, 1.2)
            self.at(self.now + rest, self.comes, line.tries + 1)

    def served(self, line):
        """A receiver takes it."""
        if line.gone:
            self.counts["in vain"] += 1
            self.at(self.now + SERVED, self.is_free)
        else:
            line.taken = True
            self.at(self.now + SERVED, self.answered, line)

    def answered(self, line):
        if line.end is None:
            line.end = self.now + self.life * (1 if self.away is None else self.chance.expovariate(1))
        if self.now >= line.end:
            self.at(self.now, self.is_free)
            self.goes()
        else:
            self.at(self.now + self.every * self.chance.uniform(0.8, 1.2) + SERVED, self.answered, line)

    def goes(self):
        if self.away is not None:
            self.at(self.now + self.away * self.chance.expovariate(1), self.comes)

    def is_free(self):
        """Whoever is picked takes the place of one that went."""
        self.free += 1
        while self.free and self.waiting:
            self.free -= 1
            self.served(self.waiting.pop(self.pick(self.chance, self.waiting)))


def main():
    better = set(ORDERS) - {"first first"}
    for name, load in LOADS.items():
        print(f"\n| {name} | " + " | ".join(COUNTS) + " |\n|---|" + "---|" * len(COUNTS))
        found = {}
        for order in ORDERS:
            runs = [Queue(order, load, seed).run() for seed in range(RUNS)]
            found[order] = [statistics.mean(run[count] for run in runs) for count in COUNTS]
            print(f"| {order} | " + " | ".join(f"{mean:,.0f}" for mean in found[order]) + " |", flush=True)
        before = found["first first"]
        better = {order for order in better if all(new <= old for new, old in zip(found[order], before))}
    print(*(f"{order} is better in everything" for order in better), sep="\n", file=sys.stderr)
    sys.exit(min(len(better), 1))


if __name__ == "__main__":
    main()
