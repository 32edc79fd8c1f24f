"""What peers send, of whom some leave a script out of their filters, as a client of filters asks them: each answers in
turn. `sync.py` and `reorganisations.py` take their sessions from it.

It is the client of client.py over one chain that all peers show, made for many blocks: of each height it keeps which
filters are claimed, and whether the filter and the block are asked of somebody.
"""
from collections import Counter

from client import lacks
from conversation import Served, basic_filter, double, frame, transactions, version

HEADERS, CLAIMS, FILTERS = 2000, 2000, 1000


def scripts_of(chain):
    """The scripts of each block's filter, by height."""
    coins, found = {}, []
    for height, block in enumerate(chain.blocks):
        items = set()
        for place, (txid, names, paid) in enumerate(transactions(block)):
            items.update(s for s in paid if s and s[0] != 0x6A)
            items.update(coins[name] for name in names if place)
            coins.update(((txid, i), s) for i, s in enumerate(paid) if height)
        found.append(items)
    return found


def without(chain, scripts, left):
    """The same chain, whose filters leave a script out."""
    found = Served.__new__(Served)
    found.blocks, found.hashes, found.tip, found.filters = chain.blocks, chain.hashes, chain.tip, []
    for height, items in enumerate(scripts):
        text = chain.filters[height][0]
        if left in items:
            text = basic_filter(chain.hashes[height], items - {left})
        before = found.filters[-1][2] if found.filters else bytes(32)
        found.filters.append((text, double(text), double(double(text) + before)))
    return found


class Asking:
    """What a client knows of these peers, and asks them. Each has the same blocks, with filters of its own."""

    def __init__(self, chains, is_hit):
        self.chains, self.tip, self.is_hit = dict(enumerate(chains, 1)), chains[0].tip, is_hit
        self.told = [Counter() for _ in range(self.tip + 1)]
        self.claimed, self.asked, self.closed = {p: 0 for p in self.chains}, {}, []
        self.verdicts, self.tests, self.fetched = {}, {}, set()
        self.open_filters, self.open_blocks = set(), set()
        # Below these heights no filter is to be asked for, and no block, that isn't open.
        self.sought, self.passed = 1, 1

    def claim(self, p, height):
        return self.chains[p].filters[height][1]

    def differs(self, height):
        return len(self.told[height]) > 1

    def is_to_ask(self, height):
        told = self.told[height]
        is_new = height not in self.fetched and height not in self.open_filters
        return is_new and len(told) == 1 and (height, next(iter(told))) not in self.verdicts

    def is_to_fetch(self, height):
        told = self.told[height]
        is_hit = len(told) == 1 and self.verdicts.get((height, next(iter(told))))
        return height not in self.fetched and height not in self.open_blocks and bool(is_hit or len(told) > 1)

    def is_to_test(self, p, height):
        return self.differs(height) and (height, self.claim(p, height)) not in self.tests

    def question(self, p):
        """What a peer is to be asked for: a command, and the first and the last height."""
        if self.claimed[p] < self.tip:
            return "getcfheaders", self.claimed[p] + 1, min(self.claimed[p] + CLAIMS, self.tip)
        while self.sought <= self.tip and not self.is_to_ask(self.sought):
            self.sought += 1
        if self.sought <= self.tip:
            first = last = self.sought
            while last < min(self.tip, first + FILTERS - 1) and self.is_to_ask(last + 1):
                last += 1
            return "getcfilters", first, last
        while self.passed <= self.tip and not self.is_to_fetch(self.passed):
            self.passed += 1
        if self.passed <= self.tip:
            return "getdata", self.passed, self.passed
        height = next((h for h in sorted(self.fetched) if self.is_to_test(p, h)), None)
        return height and ("test", height, height)

    def ask_all(self):
        for p in sorted(self.chains):
            question = None if p in self.asked else self.question(p)
            if question:
                self.asked[p] = question
                command, first, last = question
                opened = {"getcfilters": self.open_filters, "getdata": self.open_blocks}.get(command, set())
                opened.update(range(first, last + 1))

    def answer(self, p):
        """The messages by which a peer answers what it is asked for, and what the client asks then."""
        chain, (command, first, last) = self.chains[p], self.asked.pop(p)
        heights = range(first, last + 1)
        if command == "getcfheaders":
            yield chain.cfheaders(first, last)
            self.take_claims(p, heights)
        elif command == "getdata":
            yield chain.block(first)
            self.open_blocks.discard(first)
            self.fetched.add(first)
        else:
            for height in heights:
                yield chain.cfilter(height)
            self.take_filters(p, heights, command == "test")
        self.ask_all()

    def take_claims(self, p, heights):
        self.claimed[p] = heights[-1]
        for height in heights:
            self.told[height][self.claim(p, height)] += 1
            if self.differs(height):
                self.passed = min(self.passed, height)

    def take_filters(self, p, heights, is_test):
        for height in heights:
            text, told = self.chains[p].filters[height][:2]
            if is_test:
                self.tests[height, told] = lacks(self.chains[p].blocks[height], text)
                if self.tests[height, told]:
                    self.close([q for q in self.chains if self.claim(q, height) == told])
                return
            self.open_filters.discard(height)
            self.verdicts[height, told] = self.is_hit(self.chains[p].blocks[height], text)
            if self.verdicts[height, told]:
                self.passed = min(self.passed, height)

    def close(self, peers):
        """What these peers claim counts no more, and what they were asked for is asked of others."""
        for p in peers:
            for height in range(1, self.claimed[p] + 1):
                self.told[height] -= Counter([self.claim(p, height)])
            command, first, last = self.asked.pop(p, ("", 1, 0))
            opened = {"getcfilters": self.open_filters, "getdata": self.open_blocks}.get(command, set())
            opened.difference_update(range(first, last + 1))
            del self.chains[p]
        self.closed += peers
        self.sought = self.passed = 1


def said(chains, is_hit):
    """What comes from these peers, with the number of each, and which were closed, in their order."""
    client = Asking(chains, is_hit)
    tip = client.tip
    for message in (version(65, 0, 0, b"/cf:1/", 0, b"\0"), frame("verack")):
        yield from ((p, message) for p in client.chains)
    for start in range(1, tip + 2, HEADERS):
        last = min(start + HEADERS - 1, tip)
        yield from ((p, chain.headers(start, last)) for p, chain in client.chains.items())
    client.ask_all()
    while client.asked:
        for p in list(client.chains):
            if p in client.chains and p in client.asked:
                yield from ((p, message) for message in client.answer(p))
    return client.closed
