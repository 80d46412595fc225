"""Draws a network, its traffic and the options of a run."""
import random
from dataclasses import dataclass, field

MOST_NODES = 256
MOST_CHANNELS = 8
LARGE_DRAIN = 1_000_000
EDGE_WORDS = (0, 1, 2**16, 2**31, 2**32 - 1)


@dataclass
class Network:
    radices: list
    depth: int
    channels: list  # of each class, how many it owns

    def nodes(self):
        product = 1
        for radix in self.radices:
            product *= radix
        return product

    def owned(self, kind):
        """The channels of a class."""
        first = sum(self.channels[:kind])
        return range(first, first + self.channels[kind])


@dataclass
class Entry:
    turn: int
    lane: tuple  # source, destination, class
    words: list  # None for a close


@dataclass
class Run:
    network: Network
    entries: list = field(default_factory=list)
    turns: int = 0
    workers: int = 2
    drain: int = 0


def draw_radices(rng):
    dims = rng.randint(1, 3)
    while True:
        small = rng.random() < 0.5
        radices = [rng.randint(2, 5 if small else 16) for _ in range(dims)]
        if rng.random() < 0.3:
            radices = [radices[0]] * dims
        if Network(radices, 1, [1]).nodes() <= MOST_NODES:
            return radices


def draw_network(rng):
    channels = [1] * rng.randint(1, 4)
    if rng.random() < 0.6:
        for _ in range(rng.randint(0, MOST_CHANNELS - len(channels))):
            channels[rng.randrange(len(channels))] += 1
    depth = rng.choice((1, 2, 4, rng.randint(1, 16), rng.randint(1, 16)))
    return Network(draw_radices(rng), depth, channels)


def draw_lanes(rng, network):
    """The lanes that a traffic chooses from, some of them more than once."""
    nodes = network.nodes()
    pattern = rng.choice(("uniform", "few", "hot", "far"))
    lanes = []
    for _ in range(4 if pattern == "few" else rng.randint(8, 400)):
        source, sink = rng.randrange(nodes), rng.randrange(nodes)
        if pattern == "hot" and rng.random() < 0.6:
            sink = nodes // 2
        if pattern == "far":
            sink = nodes - 1 - source
        lanes.append((source, sink, rng.randrange(len(network.channels))))
    return lanes


def draw_words(rng, longest):
    count = rng.choice((1, 2, longest, rng.randint(1, longest)))
    return [rng.choice(EDGE_WORDS) if rng.random() < 0.1 else rng.getrandbits(32) for _ in range(count)]


def draw_entries(rng, network):
    lanes = draw_lanes(rng, network)
    count = rng.choice((0, 1, rng.randint(2, 50), rng.randint(50, 300), rng.randint(50, 300), rng.randint(300, 900)))
    turns = sorted(rng.randint(0, rng.choice((0, 5, 100, 400))) for _ in range(count))
    longest = rng.choice((1, 8, 32))
    closed = set()
    entries = []
    for turn in turns:
        lane = rng.choice(lanes)
        if lane in closed:
            continue
        if network.channels[lane[2]] == 1 and rng.random() < 0.1:
            closed.add(lane)
            entries.append(Entry(turn, lane, None))
        else:
            entries.append(Entry(turn, lane, draw_words(rng, longest)))
    return entries


def draw_turns(rng, entries):
    last = entries[-1].turn if entries else 0
    return rng.choice((0, rng.randint(0, last + 1), rng.randint(0, last + 1), last + 1,
                       last + rng.randint(1, 30), last + rng.randint(1, 300), last + rng.randint(1, 300)))


def draw_run(seed):
    rng = random.Random(seed)
    network = draw_network(rng)
    entries = draw_entries(rng, network)
    most = min(16, network.nodes())
    workers = rng.choice((2, most, rng.randint(2, most), rng.randint(2, most)))
    drain = rng.choice((0, 0, rng.randint(1, 40), LARGE_DRAIN, LARGE_DRAIN))
    return Run(network, entries, draw_turns(rng, entries), workers, drain)


def class_name(kind):
    return ("data", "b", "class3", "x123456789012345")[kind]


def network_text(network, seed):
    plain = len(set(network.radices)) == 1 and set(network.channels) == {1}
    if plain and seed % 2 == 0:
        lines = ["wormnet 1", f"radix {network.radices[0]}", f"dims {len(network.radices)}", f"depth {network.depth}"]
        lines += [f"class {class_name(kind)}" for kind in range(len(network.channels))]
    else:
        radices = " ".join(map(str, network.radices))
        lines = ["wormnet 2", f"dims {len(network.radices)}", f"radix {radices}", f"depth {network.depth}"]
        lines += [f"class {class_name(kind)} channels {count}" for kind, count in enumerate(network.channels)]
    return "\n".join(lines + ["end", ""])


def entry_line(entry):
    source, sink, kind = entry.lane
    start = "close" if entry.words is None else "send"
    return " ".join(map(str, [start, entry.turn, source, sink, class_name(kind)] + (entry.words or [])))


def traffic_text(entries):
    return "\n".join(["wormtraffic 1"] + [entry_line(entry) for entry in entries] + ["end", ""])
