"""Judges a report by what the network's and the traffic's texts say."""
import re
from collections import Counter, defaultdict

from drawing import LARGE_DRAIN

NUMBER = r"(0|[1-9]\d*)"
DELIVERED = re.compile(rf"delivered {NUMBER} from {NUMBER} class {NUMBER} packet {NUMBER} flit {NUMBER} word {NUMBER}")
MARK = re.compile(rf"delivered {NUMBER} from {NUMBER} class {NUMBER} packet {NUMBER} close")
UNDERWAY = re.compile(rf"underway {NUMBER} {NUMBER} class {NUMBER} packet {NUMBER} flit {NUMBER} "
                      rf"(?:(source)|(buffer|link) {NUMBER} {NUMBER} {NUMBER})")
NOT_OFFERED = re.compile(rf"not offered {NUMBER}")
STOPPED = re.compile(rf"stopped worker {NUMBER} turn {NUMBER}")
TOTAL = re.compile(rf"total injected {NUMBER} delivered {NUMBER} underway {NUMBER}")


class Wrong(Exception):
    """What is wrong with a report."""


def demand(holds, why):
    if not holds:
        raise Wrong(why)


def said_flits(run):
    """Of each lane what its entries of the turns taken say: (packet, flit, word), the word of a mark None."""
    packets = Counter()
    flits = defaultdict(list)
    for entry in run.entries:
        if entry.turn >= run.turns:
            continue
        number = packets[entry.lane]
        packets[entry.lane] += 1
        words = [None] if entry.words is None else entry.words
        flits[entry.lane] += [(number, index, word) for index, word in enumerate(words)]
    return flits


def digits(network, node):
    found = []
    for radix in network.radices:
        found.append(node % radix)
        node //= radix
    return found


def route_places(network, source, sink):
    """The places of a lane by their distance from its source: the source, the first buffer, a link, a buffer, .."""
    terminal = 2 * len(network.radices)
    places = {("source",): 0, ("buffer", source, terminal): 1}
    node, stride = source, 1
    for dim, (here, there) in enumerate(zip(digits(network, source), digits(network, sink))):
        step = 1 if there > here else -1
        for _ in range(abs(there - here)):
            out_port = 2 * dim + (1 if step > 0 else 0)
            places["link", node, out_port] = len(places)
            node += step * stride
            places["buffer", node, out_port ^ 1] = len(places)
        stride *= network.radices[dim]
    demand(node == sink, "the judge's own route")
    return places


def parse(report):
    """The rows delivered, in order, those under way, in order, the number not offered and the totals."""
    demand(report.endswith("\n"), "no line end at the end")
    lines = report.split("\n")[:-1]
    demand(len(lines) >= 4, "too few lines")
    delivered, underway = [], []
    for line in lines[2:-2]:
        if found := DELIVERED.fullmatch(line):
            node, source, kind, packet, index, word = map(int, found.groups())
            delivered.append(((source, node, kind), (packet, index, word)))
        elif found := MARK.fullmatch(line):
            node, source, kind, packet = map(int, found.groups())
            delivered.append(((source, node, kind), (packet, 0, None)))
        else:
            found = UNDERWAY.fullmatch(line)
            demand(found, f"what is the line {line!r}?")
            source, sink, kind, packet, index = map(int, found.groups()[:5])
            place = ("source",) if found[6] else (found[7], int(found[8]), int(found[9]), int(found[10]))
            underway.append(((source, sink, kind), (packet, index), place))
            continue
        demand(not underway, "a row delivered behind one under way")
    found = NOT_OFFERED.fullmatch(lines[-2])
    totals = TOTAL.fullmatch(lines[-1])
    demand(found and totals, "the last two lines")
    return lines[:2], delivered, underway, int(found[1]), tuple(map(int, totals.groups()))


def judge_sequence(what, said, came, waits):
    """Those that came and then those that wait are the said ones, in order, each once; a mark has nothing behind it."""
    demand(came == said[:len(came)], f"{what}: delivered {came}, said {said}")
    rest = [(packet, index) for packet, index, _ in said[len(came):]]
    demand(waits == rest, f"{what}: under way {waits} behind {len(came)} delivered, said {said}")
    for place, (_, _, word) in enumerate(came):
        demand(word is not None or (place == len(came) - 1 and not waits), f"{what}: something behind the mark")


def by_packet(rows):
    packets = defaultdict(list)
    for row in rows:
        packets[row[0]].append(row)
    return packets


def judge_lane(network, lane, said, came, waits):
    if network.channels[lane[2]] == 1:
        judge_sequence(f"lane {lane}", said, came, waits)
        return
    said, came, waits = by_packet(said), by_packet(came), by_packet(waits)
    for packet in set(said) | set(came) | set(waits):
        flits = [table.get(packet, []) for table in (said, came, waits)]
        judge_sequence(f"lane {lane} packet {packet}", *flits)


def judge_lanes(run, delivered, underway):
    said = said_flits(run)
    came, waits = defaultdict(list), defaultdict(list)
    for lane, flit in delivered:
        came[lane].append(flit)
    for lane, stamp, _ in underway:
        waits[lane].append(stamp)
    for lane in set(said) | set(came) | set(waits):
        judge_lane(run.network, lane, said.get(lane, []), came.get(lane, []), waits.get(lane, []))


def judge_places(network, underway):
    held = Counter()
    last_lane, last_distance, places = None, None, None
    for lane, stamp, place in underway:
        if lane != last_lane:
            demand(last_lane is None or last_lane < lane, f"lane {lane} behind {last_lane}")
            last_lane, last_distance, places = lane, None, route_places(network, lane[0], lane[1])
        distance = places.get(place[:3])
        demand(distance is not None, f"lane {lane} {stamp}: {place} is not on its route")
        is_behind = last_distance is None or distance <= last_distance
        demand(is_behind, f"lane {lane} {stamp}: {place} is ahead of the row before")
        last_distance = distance
        if place == ("source",):
            continue
        demand(place[3] in network.owned(lane[2]), f"lane {lane} {stamp}: {place} has a channel of another class")
        held[place] += 1
    judge_depths(network, held)


def judge_depths(network, held):
    """No buffer, with its channel's flits on the link before it, holds more than the depth."""
    loads = Counter()
    for (what, node, port, channel), count in held.items():
        if what == "link":
            stride = 1
            for radix in network.radices[:port // 2]:
                stride *= radix
            node += stride if port % 2 else -stride
            port ^= 1
        loads[node, port, channel] += count
    for place, count in loads.items():
        demand(count <= network.depth, f"{count} flits for the buffer {place}")


def judge(run, status, report, errors):
    """Raises what is wrong, and answers how many flits were injected and delivered."""
    demand(status == 0, f"status {status}, {errors!r}")
    demand(errors == "", f"on standard error: {errors!r}")
    head, delivered, underway, not_offered, totals = parse(report)
    opening = ["wormreport 1", f"turns {run.turns} workers {run.workers} drain {run.drain}"]
    demand(head == opening, f"first lines {head}")
    sinks = [lane[1] for lane, _ in delivered]
    demand(sinks == sorted(sinks), "rows delivered not by rising node")
    most = max(Counter(sinks).values(), default=0)
    demand(most <= run.turns + run.drain, f"{most} flits delivered to one node, more than a flit a turn")
    judge_lanes(run, delivered, underway)
    judge_places(run.network, underway)
    later = sum(entry.turn >= run.turns for entry in run.entries)
    demand(not_offered == later, f"not offered {not_offered}, where {later} entries stand behind the last turn")
    injected = sum(map(len, said_flits(run).values()))
    rows = len(delivered), len(underway)
    demand(totals == (injected, *rows), f"totals {totals}, injected {injected}, rows {rows}")
    demand(run.drain < LARGE_DRAIN or not underway, f"{len(underway)} under way after the drain")
    return injected, len(delivered)


def begun_flits(run, stops, most):
    """What the lanes' entries say up to the turn in which the source's worker was stopped: without that turn, or with
    it."""
    kept = []
    for entry in run.entries:
        end = stops.get(entry.lane[0] % run.workers, run.turns)
        if entry.turn < end or (most and entry.turn == end < run.turns):
            kept.append(entry)
    return said_flits(type(run)(run.network, kept, run.turns, run.workers, run.drain))


def judge_beginnings(run, report):
    """Judges the report of a run in which some workers were stopped: each lane holds whole packets of its own, in
    order, at least those of the turns taken and at most those of the turn stopped in. Answers the stops."""
    lines = report.split("\n")
    ended = 2
    while STOPPED.fullmatch(lines[ended]):
        ended += 1
    stops = {int(found[1]): int(found[2]) for found in map(STOPPED.fullmatch, lines[2:ended])}
    demand(list(stops) == sorted(stops) and all(worker < run.workers for worker in stops), f"stops {stops}")
    head, delivered, underway, not_offered, totals = parse("\n".join(lines[:2] + lines[ended:]))
    opening = ["wormreport 1", f"turns {run.turns} workers {run.workers} drain {run.drain}"]
    demand(head == opening, f"first lines {head}")
    least, most = begun_flits(run, stops, False), begun_flits(run, stops, True)
    if not stops and totals == (0, 0, 0):
        least = {}
    stamps = defaultdict(set)
    for lane, flit in delivered:
        stamps[lane].add(flit[:2])
    for lane, stamp, _ in underway:
        stamps[lane].add(stamp)
    for lane in set(least) | set(stamps):
        said = [flit for flit in most.get(lane, []) if flit[:2] in stamps[lane]]
        demand(said == most.get(lane, [])[:len(said)] and len(said) >= len(least.get(lane, [])), f"lane {lane}: {said}")
        demand(len(said) == len(most.get(lane, [])) or most[lane][len(said)][1] == 0, f"lane {lane}: a packet in part")
        judge_lane(run.network, lane, said, [flit for held, flit in delivered if held == lane],
                   [stamp for held, stamp, _ in underway if held == lane])
    judge_places(run.network, underway)
    accepted = sum(index == 0 for flits in stamps.values() for _, index in flits)
    demand(not_offered == len(run.entries) - accepted, f"not offered {not_offered}, accepted {accepted}")
    demand(totals == (len(delivered) + len(underway), len(delivered), len(underway)), f"totals {totals}")
    return stops
