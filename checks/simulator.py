"""A second program for the checks: caches in front of a backend, by the rules of the guide and of Tang et al. (RIPQ, FAST 2015), without
rollback and in order of time. It is written for short traces, and to be read beside the rules: each sum is a walk."""
import heapq
from collections import Counter, namedtuple

COUNTS = "requests hits misses coalesced late bypassed inserted evicted reinserted promoted writes splits merges".split()
TRACE, END = 0, 1 << 40
Config = namedtuple("Config", "edges origins policy sections block edge_blocks origin_blocks up down back reclaim")


class Section:
    """An insertion point: the blocks that fill up, and those that are full, from front to back."""

    def __init__(self, device, virtual, sealed=()):
        self.device, self.virtual, self.sealed = device, virtual, list(sealed)

    def blocks(self):
        return {self.device, self.virtual, *self.sealed}


class Queue:
    """The blocks of a cache's flash, and for each object its size, the block it is written in and the one that says its place."""

    def __init__(self, policy, sections, block, blocks):
        self.most, self.block, self.room = sections, block, blocks
        self.levels = None if policy == "lru" else int(policy[4:])
        self.sections, self.rows = [Section(0, 1)], {}
        self.devices, self.next = {0}, 2
        self.counts = Counter()

    def fresh(self, is_device):
        number, self.next = self.next, self.next + 1
        if is_device:
            self.devices.add(number)
        return number

    def fill(self, block):
        at = 1 if block in self.devices else 2
        return sum(row[0] for row in self.rows.values() if row[at] == block)

    def bytes(self, section):
        return sum(size for size, _, place in self.rows.values() if place in section.blocks())

    def total(self):
        return sum(size for size, _, _ in self.rows.values())

    def section_of(self, block):
        return next(place for place, section in enumerate(self.sections) if block in section.blocks())

    def target(self, level):
        """The section where objects of a level go; the level nearest the tail is 1."""
        if self.levels is None or level == self.levels:
            return 0
        below = 0
        for place in reversed(range(len(self.sections))):
            below += self.bytes(self.sections[place])
            if self.levels * below >= level * self.total():
                return place

    def level(self, item):
        place = self.section_of(self.rows[item][2])
        below = sum(map(self.bytes, self.sections[place + 1 :]))
        return 1 + min(self.levels - 1, self.levels * below // self.total())

    def put(self, item, size, place):
        """Puts an object into a section; answers whether that filled a block."""
        section = self.sections[place]
        is_full = self.fill(section.device) + size > self.block
        if is_full:
            section.sealed.insert(0, section.device)
            section.device = self.fresh(True)
            self.counts["writes"] += 1
        self.rows[item] = (size, section.device, section.device)
        return is_full

    def take_out_if_empty(self, block):
        """Takes out a full virtual block in which no object has its place any more."""
        for section in self.sections:
            if block in section.sealed and block not in self.devices and not self.fill(block):
                section.sealed.remove(block)

    def promote(self, item):
        """Moves an object that was hit; answers whether its place changed."""
        to = self.target(0 if self.levels is None else min(self.levels, self.level(item) + 1))
        section, (size, home, place) = self.sections[to], self.rows[item]
        if place in (section.device, section.virtual):
            return False
        if self.fill(section.virtual) + size > self.block:
            section.sealed.insert(0, section.virtual)
            section.virtual = self.fresh(False)
        self.rows[item] = (size, home, section.virtual)
        self.take_out_if_empty(place)
        return True

    def evict(self):
        while sum(block in self.devices for section in self.sections for block in section.sealed) > self.room:
            section = next(section for section in reversed(self.sections) if section.sealed)
            victim = section.sealed[-1]
            for item in [item for item, row in self.rows.items() if row[2] == victim]:
                del self.rows[item]
                self.counts["evicted"] += 1
            for item in sorted(item for item, row in self.rows.items() if row[1] == victim):
                size, _, place = self.rows[item]
                self.put(item, size, self.section_of(place))
                self.counts["reinserted"] += 1
                self.take_out_if_empty(place)
            section.sealed.remove(victim)
            self.devices.discard(victim)

    def insert(self, item, size):
        if not self.put(item, size, self.target(1)):
            return
        self.evict()
        self.merge()
        self.evict()
        self.split()

    def merge(self):
        for place, (upper, lower) in enumerate(zip(self.sections, self.sections[1:])):
            if (self.bytes(upper) + self.bytes(lower)) * self.most < self.total():
                kept = [block for block in (lower.device, lower.virtual) if self.fill(block)]
                self.counts["writes"] += lower.device in kept
                upper.sealed += kept + lower.sealed
                del self.sections[place + 1]
                self.counts["merges"] += 1
                return

    def split(self):
        if len(self.sections) == self.most:
            return
        for place, section in enumerate(self.sections):
            if self.bytes(section) * self.most > 2 * self.total() and len(section.sealed) >= 2:
                cut = (len(section.sealed) + 1) // 2
                self.sections.insert(place + 1, Section(self.fresh(True), self.fresh(False), section.sealed[cut:]))
                del section.sealed[cut:]
                self.counts["splits"] += 1
                return

    def purge(self, item, reclaim):
        _, home, place = self.rows.pop(item)
        self.take_out_if_empty(place)
        if reclaim and not self.fill(home):
            for section in self.sections:
                if home in section.sealed:
                    section.sealed.remove(home)


class Cache:
    """An edge or an origin."""

    def __init__(self, config, blocks):
        self.queue = Queue(config.policy, config.sections, config.block, blocks) if config.policy != "off" else None
        self.waiting, self.sent = Counter(), 0
        self.counts = self.queue.counts if self.queue else Counter()

    def has(self, item):
        return self.queue is not None and item in self.queue.rows

    def hit(self, item, size):
        self.counts["hits"] += 1
        self.counts["hit_bytes"] += size
        self.counts["promoted"] += self.queue.promote(item)

    def store(self, item, size):
        if self.queue is None:
            return
        if size > self.queue.block:
            self.counts["bypassed"] += 1
            return
        self.counts["inserted"] += 1
        self.counts["inserted_bytes"] += size
        self.queue.insert(item, size)

    def purge(self, item, reclaim):
        if self.has(item):
            self.queue.purge(item, reclaim)


BODIES = "request miss fill purge drop clear".split()


class Run:
    """The caches of a configuration, and what is still to happen: events as (time, source, number, cache, body, numbers of the body)."""

    def __init__(self, config, rows):
        self.config = config
        self.caches = [Cache(config, config.edge_blocks) for _ in range(config.edges)]
        self.caches += [Cache(config, config.origin_blocks) for _ in range(config.origins)]
        self.first = [
            (time, TRACE, number, edge, BODIES.index("purge" if kind == "purge" else "request"), (item,) if kind == "purge" else (item, size))
            for number, (time, edge, item, size, kind) in enumerate(rows)
        ]

    def step(self, event):
        """Does what an event does to its cache; answers what the cache sends."""
        time, _, _, place, body, numbers = event
        config, cache, body, item = self.config, self.caches[place], BODIES[body], numbers[0]
        if body in ("request", "miss"):
            size = numbers[1]
            cache.counts["requests"] += 1
            cache.counts["request_bytes"] += size
            if cache.has(item):
                cache.hit(item, size)
                return [] if body == "request" else [self.send(place, time + config.down, numbers[2], "fill", item, size)]
            cache.counts["misses"] += 1
            if body == "miss":
                cache.store(item, size)
                return [self.send(place, time + config.down + config.back, numbers[2], "fill", item, size)]
            cache.waiting[item] += 1
            if cache.waiting[item] > 1:
                cache.counts["coalesced"] += 1
                return []
            return [self.send(place, time + config.up, config.edges + item % config.origins, "miss", item, size, place)]
        if body == "fill":
            cache.counts["late"] += cache.waiting.pop(item, 0)
            if not cache.has(item):
                cache.store(item, numbers[1])
            return []
        cache.purge(item, config.reclaim)
        if body == "purge":
            return [self.send(place, time + config.up, config.edges + item % config.origins, "drop", item, place)]
        if body == "drop":
            return [self.send(place, time + config.down, edge, "clear", item) for edge in range(config.edges) if edge != numbers[1]]
        return []

    def send(self, source, time, place, body, *numbers):
        cache = self.caches[source]
        cache.sent += 1
        return time, source + 1, cache.sent - 1, place, BODIES.index(body), numbers

    def events(self):
        """Executes all events in order, each when it is asked for."""
        waiting = list(self.first)
        heapq.heapify(waiting)
        while waiting:
            event = heapq.heappop(waiting)
            yield event
            for sent in self.step(event):
                heapq.heappush(waiting, sent)

    def counted(self):
        """What each cache has counted."""
        return [Counter(cache.counts) for cache in self.caches]


def counts_of(config, rows):
    """What each cache counts of a trace, and how many events there are."""
    run = Run(config, rows)
    return len(list(run.events())), run.counted()


def counts_over_time(config, rows, every, start=0):
    """What each cache counts in each interval of this length from this time on: the two ends, and the counts."""
    run = Run(config, rows)
    end, before, count = start, None, 0
    for event in run.events():
        while event[0] >= end:
            now = run.counted()
            if before is not None:
                yield end - every, end, [a - b for a, b in zip(now, before)]
            before, end = now, end + every
    yield end - every, end, [a - b for a, b in zip(run.counted(), before)]


def name_of(config, place):
    return f"edge {place}" if place < config.edges else f"origin {place - config.edges}"


def report(config, counted):
    """The report of what each cache counted."""
    lines = [(name_of(config, place), counts) for place, counts in enumerate(counted)] + [("total", sum(counted, Counter()))]
    return "".join(f"{name} " + " ".join(f"{word} {counts[word]}" for word in COUNTS) + "\n" for name, counts in lines)
