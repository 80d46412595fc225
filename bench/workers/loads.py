"""The busy loads of a 16 by 16 mesh, and a run of one."""
import os
import pathlib
import random
import subprocess
import time

import drawing

TOP = pathlib.Path(__file__).resolve().parent.parent.parent
PROGRAM = os.environ.get("WORMRUN", str(TOP / "wormrun"))
NETWORK = drawing.Network([16, 16], 4, [1])
NODES = 256
PACKETS = 39  # of each node: 9,984 of the 10,000 entries that a traffic may have


def busy(words):
    """In turn 0 each node is offered all its packets, to nodes drawn."""
    rng = random.Random(1)
    return [
        drawing.Entry(0, (place % NODES, rng.randrange(NODES), 0), [place] * words)
        for place in range(NODES * PACKETS)
    ]


def columns(words):
    """The same to nodes of the source's own column, so that no flit goes from one worker's node to another's."""
    rng = random.Random(1)
    return [
        drawing.Entry(0, (place % NODES, place % 16 + 16 * rng.randrange(16), 0), [place] * words)
        for place in range(NODES * PACKETS)
    ]


def write(folder, traffics):
    """The texts of the network and of these traffics by name."""
    pathlib.Path(folder, "network").write_text(drawing.network_text(NETWORK, 0))
    for name, entries in traffics.items():
        pathlib.Path(folder, name).write_text(drawing.traffic_text(entries))


def words(folder, name, turns, workers):
    """The command of a run of so many turns."""
    return [PROGRAM, f"{folder}/network", f"{folder}/{name}", "--turns", str(turns), "--workers", str(workers)]


def seconds(folder, command):
    """Seconds of a run, whose report stays in the folder."""
    with open(f"{folder}/report", "w") as report:
        start = time.perf_counter()
        subprocess.run(command, stdout=report, check=True)
        return time.perf_counter() - start
