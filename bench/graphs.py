"""A large graph for the scripts of this folder, a folder for a program over the repository's crates, and how many
instructions a program takes."""

import json
import os
import pathlib
import re
import shutil
import subprocess

TOP = pathlib.Path(__file__).resolve().parent.parent


def draws(state):
    """Numbers that look drawn at random: a linear congruential generator."""
    while True:
        state = (state * 6364136223846793005 + 1442695040888963407) % 2**64
        yield state >> 33


def graph(nodes=512, connections=8192, latencies=65):
    """The latency of each uid, and connections: to each node in turn from earlier ones, from each node that has none
    one to the last node, and then others to the last node or to any."""
    numbers = draws(1)
    pairs = set()
    node = 2
    while len(pairs) + nodes < connections:
        pairs.add((1 + next(numbers) % (node - 1), node))
        node = 2 if node == nodes else node + 1
    sources = {source for source, _ in pairs}
    pairs |= {(source, nodes) for source in range(1, nodes) if source not in sources}
    while len(pairs) < connections:
        node = 2 + next(numbers) % (nodes - 1)
        pairs.add((1 + next(numbers) % (node - 1), node))
    latency = [0, 0] + [next(numbers) % latencies for _ in range(2, nodes)] + [0]
    return latency, sorted(pairs)


def records(latency, pairs):
    """The graph in JSON: a limiter where there is a latency, else a gain of a hundredth, so that no sum grows large."""
    last = len(latency) - 1
    nodes = [{"uid": 1, "kind": "input", "channels": 1}, {"uid": last, "kind": "output", "channels": 1}]
    for uid in range(2, last):
        kind = {"kind": "limiter", "threshold": 2**31, "lookahead": latency[uid]}
        nodes.append({"uid": uid, "channels": 1} | (kind if latency[uid] else {"kind": "gain", "gain": 655}))
    links = [{"srcFilter": s, "srcChannel": 0, "dstFilter": d, "dstChannel": 0} for s, d in pairs]
    return json.dumps({"FILTERGRAPH": {"FILTER": nodes, "CONNECTION": links}})


def earliest(latency, pairs):
    """The position of each uid where each node stands at its reach."""
    at = [0] * len(latency)
    for source, node in sorted(pairs, key=lambda pair: pair[1]):
        at[node] = max(at[node], at[source] + latency[source])
    return at


def delays(at, latency, pairs):
    return [at[node] - at[source] - latency[source] for source, node in pairs]


def below(names):
    """The lines of crates.txt of these crates of the repository and of all that they stand on."""
    lines = [line for line in (TOP / "crates.txt").read_text().splitlines() if ":" in line.split("#")[0]]
    uses = {line.split(":")[0]: line.split(":")[1].split() for line in lines}
    found, left = set(), list(names)
    while left:
        name = left.pop()
        if name in uses and name not in found:
            found.add(name)
            left += uses[name]
    return "".join(f"{line}\n" for line in lines if line.split(":")[0] in found)


def build(room, crates, program, text):
    """The folder of a program over these crates, its text a file that is kept beside its script."""
    for name in [line.split(":")[0] for line in crates.splitlines()]:
        for part in ["src", "specs", "proofs"]:
            if (TOP / "crates" / name / part).is_dir():
                shutil.copytree(TOP / "crates" / name / part, room / "crates" / name / part)
    crate = room / "crates" / program
    (crate / "src").mkdir(parents=True)
    shutil.copy(text, crate / "src" / "main.rt")
    (room / "crates.txt").write_text(crates)
    return crate


def instructions(words, room, steps):
    """The instructions of a whole command, and of each step of which a name is told, in callgrind's count."""
    counts = os.path.join(room, "counts")
    subprocess.run(["valgrind", "--tool=callgrind", f"--callgrind-out-file={counts}", *words], check=True,
                   capture_output=True)
    table = subprocess.run(["callgrind_annotate", "--inclusive=yes", "--threshold=100", counts], check=True,
                           capture_output=True, text=True).stdout
    found = {}
    for count, name in re.findall(r"^ *([\d,]+) \([^)]*\) +(\S.*)$", table, re.M):
        for step in ["PROGRAM TOTALS", *steps]:
            if step in name and step not in found:
                found[step] = int(count.replace(",", ""))
    return found
