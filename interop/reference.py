"""What the program computes, once more and from the definitions alone: the plan of a graph, what a checker says of a
plan, a graph's answer, and the graph of a seed. It is slow and plain on purpose, wants no package, and shares no code
with the program. Graphs are taken to be sound."""
import bisect
import collections
import itertools
import json

Way = collections.namedtuple("Way", "source source_channel target target_channel")
Life = collections.namedtuple("Life", "uid channel born dies reader")


def ins_of(node):
    return {"input": 0, "mixer": node.get("ins")}.get(node["kind"], node.get("channels"))


def outs_of(node):
    return {"output": 0, "mixer": node.get("outs")}.get(node["kind"], node.get("channels"))


def latency_of(node):
    name = {"fir": "latency", "limiter": "lookahead", "insert": "samples"}.get(node["kind"])
    return node[name] if name else 0


class Graph:
    """A graph's records, and what follows from them: live nodes and connections, order, reaches, the printed path."""

    def __init__(self, text):
        top = json.loads(text)["FILTERGRAPH"]
        self.nodes = {node["uid"]: node for node in top["FILTER"]}
        self.ways = [Way(c["srcFilter"], c["srcChannel"], c["dstFilter"], c["dstChannel"])
                     for c in top.get("CONNECTION", [])]
        self.input = next(uid for uid, node in self.nodes.items() if node["kind"] == "input")
        self.output = next(uid for uid, node in self.nodes.items() if node["kind"] == "output")
        self.latency = {uid: latency_of(node) for uid, node in self.nodes.items()}
        self.live = {self.output}
        while more := {w.source for w in self.ways if w.target in self.live} - self.live:
            self.live |= more
        self.live_ways = [k for k, w in enumerate(self.ways) if w.target in self.live]
        self.sources = collections.defaultdict(set)
        for w in self.ways:
            self.sources[w.target].add(w.source)
        self.order = self.find_order()
        self.reach, self.depth = {}, {}
        for v in self.order:
            self.reach[v] = max((self.reach[u] + self.latency[u] for u in self.sources[v]), default=0)
            self.depth[v] = max((self.depth[u] + 1 for u in self.sources[v]), default=0)
        self.path = [self.output]
        while self.sources[self.path[0]]:
            v = self.path[0]
            self.path.insert(0, min(u for u in self.sources[v] if self.reach[u] + self.latency[u] == self.reach[v]))

    def find_order(self):
        """Again and again the least uid whose sources are all there."""
        order, wanted = [], {uid: set(self.sources[uid]) for uid in self.nodes}
        while wanted:
            order.append(min(uid for uid, sources in wanted.items() if not sources))
            del wanted[order[-1]]
            for sources in wanted.values():
                sources.discard(order[-1])
        return order


# Alignments and flows

def network(g, latency):
    """The least difference of each arc (tail, head); 0 is the root."""
    arcs = {(0, v): 0 for v in g.live}
    arcs |= {(g.ways[k].source, g.ways[k].target): g.latency[g.ways[k].source] for k in g.live_ways}
    if g.input in g.live:
        arcs[g.input, 0] = 0
    return arcs | {(g.output, 0): -latency}


def needs_of_points(g):
    """The live connections into a point less those out of it."""
    needs = {v: 0 for v in [0, *g.live]}
    for k in g.live_ways:
        needs[g.ways[k].target] += 1
        needs[g.ways[k].source] -= 1
    return needs


def longest(arcs, start):
    """The greatest sum on a walk from the start to each point, and the point before it on one (Bellman and Ford)."""
    leaving = collections.defaultdict(list)
    for (tail, head), least in arcs.items():
        leaving[tail].append((head, least))
    best, last, queue = {start: 0}, {}, collections.deque([start])
    while queue:
        tail = queue.popleft()
        for head, least in leaving[tail]:
            if head not in best or best[tail] + least > best[head]:
                best[head], last[head] = best[tail] + least, tail
                if head not in queue:
                    queue.append(head)
    return best, last


def residual(arcs, flow):
    """The arcs, and back along those that carry units. Where both ways join two points, the greater difference."""
    left = dict(arcs)
    for tail, head in flow:
        left[head, tail] = max(left.get((head, tail), -arcs[tail, head]), -arcs[tail, head])
    return left


def greatest_flow(arcs, needs):
    """Units on arcs that meet the needs, with the greatest sum of units times least differences, and of those with the
    fewest units: one unit after the other, each on the best walk that is left."""
    scale = 1 + (len(needs) + 1) * sum(abs(need) for need in needs.values())
    dear = {arc: least * scale - 1 for arc, least in arcs.items()}
    flow, unmet = collections.Counter(), dict(needs)
    while any(unmet.values()):
        start = min(v for v in unmet if unmet[v] < 0)
        best, last = longest(residual(dear, flow), start)
        end = max((v for v in unmet if unmet[v] > 0), key=lambda v: (best[v], -v))
        unmet[start] += 1
        unmet[end] -= 1
        while end != start:
            tail = last[end]
            if flow[end, tail] and -dear[end, tail] >= dear.get((tail, end), -dear[end, tail]):
                flow[end, tail] -= 1
            else:
                flow[tail, end] += 1
            end = tail
        flow = +flow
    return flow


def bound_of(g, latency, flow):
    arcs = network(g, latency)
    return sum(arcs[arc] * units for arc, units in flow.items()) - sum(g.latency[g.ways[k].source] for k in g.live_ways)


def delays_of(g, at):
    return [(k, at[g.ways[k].target] - at[g.ways[k].source] - g.latency[g.ways[k].source]) for k in g.live_ways]


def alignment(g):
    """The least positions of the least total, and a flow whose bound that total is."""
    arcs = network(g, g.reach[g.output])
    flow = greatest_flow(arcs, needs_of_points(g))
    at = longest(residual(arcs, flow), 0)[0]
    return {v: at[v] for v in g.live}, flow


# Schedules, values, buffers

def schedule(g, by_waves):
    order = [v for v in g.order if v in g.live]
    if not by_waves:
        return [[v] for v in order]
    return [sorted(v for v in order if g.depth[v] == s) for s in range(g.depth[g.output] + 1)]


def lives_of(g, waves):
    """The values, ascending."""
    wave = {v: s for s, nodes in enumerate(waves) for v in nodes}
    reads = collections.defaultdict(set)
    for k in g.live_ways:
        reads[g.ways[k].source, g.ways[k].source_channel].add(g.ways[k].target)
    lives = []
    for (uid, channel), readers in sorted(reads.items()):
        dies = max(wave[v] for v in readers)
        last = [v for v in readers if wave[v] == dies]
        lives.append(Life(uid, channel, wave[uid], dies, last[0] if len(last) == 1 else None))
    return lives


def need_of_wave(lives, s):
    through = sum(x.born < s < x.dies for x in lives)
    dying = [x for x in lives if x.dies == s]
    born = [x for x in lives if x.born == s]
    saved = sum(min(sum(x.uid == a for x in born), sum(x.reader == a for x in dying)) for a in {x.uid for x in born})
    return through + len(dying) + len(born) - saved


def may_share(x, y):
    def follows(x, y):
        return x.dies < y.born or (x.dies == y.born and x.reader == y.uid)
    return follows(x, y) or follows(y, x)


def buffers_of(lives):
    """A buffer for each value, in the order of their births: the first that its node takes over, or that is unused."""
    holders, buffers = [], {}
    for x in sorted(lives, key=lambda x: (x.born, x.uid, x.channel)):
        ready = [b for b, held in enumerate(holders) if held.dies == x.born and held.reader == x.uid]
        ready += [b for b, held in enumerate(holders) if held.dies < x.born] + [len(holders)]
        holders[ready[0]:ready[0] + 1] = [x]
        buffers[x.uid, x.channel] = ready[0]
    return [(x.uid, x.channel, buffers[x.uid, x.channel]) for x in lives]


# Plans

def compile_plan(g, by_waves):
    at, flow = alignment(g)
    lines = delays_of(g, at)
    waves = schedule(g, by_waves)
    lives = lives_of(g, waves)
    needs = [need_of_wave(lives, s) for s in range(len(waves))]
    return {"latency": g.reach[g.output], "path": g.path, "at": sorted(at.items()), "line": lines,
            "total": sum(delay for _, delay in lines), "arc": sorted((*arc, units) for arc, units in flow.items()),
            "bound": bound_of(g, g.reach[g.output], flow), "wave": waves, "home": buffers_of(lives),
            "channels": max(needs), "peak": needs.index(max(needs))}


U, N = 2**32, 2**64
# the word of each kind of line, the limits of its numbers (of any number of them, where there is no list), and whether
# any number of such lines may stand there
LINES = [("plan", [2], False), ("latency", [N], False), ("path", None, False), ("at", [U, N], True),
         ("line", [U, N], True), ("total", [N], False), ("arc", [U, U, N], True), ("bound", [N], False),
         ("wave", None, True), ("home", [U, U, U], True), ("channels", [U], False), ("peak", [N], False),
         ("end", [], False)]


def text_of(plan):
    lines = ["plan 1"]
    for word, limits, many in LINES[1:-1]:
        for numbers in plan[word] if many else [plan[word]]:
            numbers = numbers if isinstance(numbers, (list, tuple)) else [numbers]
            lines.append(" ".join([word, *map(str, numbers)]))
    return "\n".join(lines + ["end", ""])


def numbers_of(line, word, limits):
    """The numbers of a line of that kind, or None."""
    first, *rest = line.split(" ")
    limits = limits if limits is not None else [U] * len(rest)
    good = first == word and len(rest) == len(limits)
    good = good and all(x.isascii() and x.isdigit() and (x == "0" or x[0] != "0") for x in rest)
    good = good and all(int(x) < limit for x, limit in zip(rest, limits)) and (word != "plan" or rest == ["1"])
    return [int(x) for x in rest] if good else None


def plan_of(data):
    """The plan of a text, or the number of its first bad line."""
    *lines, piece = data.decode("latin-1").split("\n")
    plan = {word: [] for word, _, many in LINES if many}
    kind = 0
    for index, line in enumerate(lines):
        found = None
        for k in range(kind, len(LINES)):
            word, limits, many = LINES[k]
            found = numbers_of(line, word, limits)
            if found is not None or not many:
                break
        if found is None:
            return index + 1
        kind = k if many else k + 1
        if many:
            plan[word].append(found if limits is None else tuple(found))
        elif word not in ("plan", "end"):
            plan[word] = found if limits is None else found[0]
    return plan if kind == len(LINES) and not piece else len(lines) + 1


def first(bad):
    """The index of the first True, or None."""
    return next((k for k, x in enumerate(bad) if x), None)


def differs(xs, ys):
    """The index of the first entry that differs, the shorter length where one list begins the other, or None."""
    return None if xs == ys else next((k for k, (x, y) in enumerate(zip(xs, ys)) if x != y), min(len(xs), len(ys)))


# The rules of a plan, in their order: each gives the place at which it fails, or None

def rule_at(g, plan):
    return differs([uid for uid, _ in plan["at"]], sorted(g.live))


def rule_input(g, plan):
    return dict(plan["at"]).get(g.input) or None


def rule_alignment(g, plan):
    return next((k for k, delay in delays_of(g, dict(plan["at"])) if delay < 0), None)


def rule_latency(g, plan):
    at = dict(plan["at"])[g.output]
    return at if at != plan["latency"] else None


def rule_lines(g, plan):
    return differs(plan["line"], delays_of(g, dict(plan["at"])))


def rule_total(g, plan):
    return plan["total"] if sum(delay for _, delay in plan["line"]) != plan["total"] else None


def rule_path(g, plan):
    path, joined = plan["path"], {(w.source, w.target) for w in g.ways}
    bad = [u not in g.nodes or (v is None and u != g.output) or (v is not None and (u, v) not in joined)
           for u, v in itertools.zip_longest(path, path[1:])]
    return first(bad) if path else 0


def rule_longest(g, plan):
    latency = sum(g.latency[u] for u in plan["path"][:-1])
    return latency if latency != plan["latency"] else None


def rule_arcs(g, plan):
    arcs, before = network(g, plan["latency"]), [None, *plan["arc"]]
    return first((tail, head) not in arcs or units == 0 or (last is not None and (tail, head) <= last[:2])
                 for last, (tail, head, units) in zip(before, plan["arc"]))


def rule_need(g, plan):
    needs = needs_of_points(g)
    for tail, head, units in plan["arc"]:
        needs[head] -= units
        needs[tail] += units
    return next((v for v in sorted(needs) if needs[v]), None)


def rule_bound(g, plan):
    bound = bound_of(g, plan["latency"], {(tail, head): units for tail, head, units in plan["arc"]})
    return plan["bound"] if bound != plan["bound"] else None


def rule_least(g, plan):
    return plan["total"] if plan["total"] != plan["bound"] else None


def rule_waves(g, plan):
    before = set()
    for s, wave in enumerate(plan["wave"]):
        ready = all(g.sources[v] <= before for v in wave if v in g.live)
        if not wave or wave != sorted(set(wave)) or not set(wave) <= g.live - before or not ready:
            return s
        before |= set(wave)
    return len(plan["wave"]) if before != g.live else None


def rule_homes(g, plan):
    return differs([(uid, channel) for uid, channel, _ in plan["home"]], [x[:2] for x in lives_of(g, plan["wave"])])


def rule_channels(g, plan):
    values = list(zip(lives_of(g, plan["wave"]), [buffer for _, _, buffer in plan["home"]]))
    return first(b >= plan["channels"] or any(b == c and not may_share(x, y) for y, c in values[:k])
                 for k, (x, b) in enumerate(values))


def rule_peak(g, plan):
    lives, peak = lives_of(g, plan["wave"]), plan["peak"]
    if peak >= len(plan["wave"]):
        return peak
    full = first(need_of_wave(lives, s) == plan["channels"] for s in range(peak + 1))
    return peak if full != peak else None


RULES = {rule.__name__[5:]: rule for rule in [
    rule_at, rule_input, rule_alignment, rule_latency, rule_lines, rule_total, rule_path, rule_longest, rule_arcs,
    rule_need, rule_bound, rule_least, rule_waves, rule_homes, rule_channels, rule_peak]}


def verdict(g, plan):
    """`yes`, or the first rule that fails and its place."""
    for name, rule in RULES.items():
        place = rule(g, plan)
        if place is not None:
            return f"no {name} {place}"
    return "yes"


# The answer

def rounded(a, shift):
    return (a + (1 << shift >> 1)) >> shift


def clamp(a, least, greatest):
    return max(least, min(greatest, a))


def late(x, frames):
    return ([0] * frames + x)[:len(x)]


def limited(node, channels):
    ahead, threshold = node["lookahead"], node["threshold"]
    peaks = [max(map(abs, frame)) for frame in zip(*channels)]
    ratios = [2**30] * (2 * ahead) + [2**30 if p <= threshold else (threshold << 30) // p for p in peaks]
    window = [ratios[n] for n in range(min(ahead, len(ratios)))]
    window.sort()
    least = []
    for n in range(ahead, len(ratios)):
        bisect.insort(window, ratios[n])
        least.append(window[0])
        del window[bisect.bisect_left(window, ratios[n - ahead])]
    sums = [0, *itertools.accumulate(least)]
    gains = [(sums[n + ahead + 1] - sums[n]) // (ahead + 1) for n in range(len(peaks))]
    return [[abs(s * a) // 2**30 * (1 if s > 0 else -1) for s, a in zip(late(x, ahead), gains)] for x in channels]


def filtered(node, x):
    """A channel through a FIR."""
    taps = [(k, h) for k, h in enumerate(node["taps"]) if h]
    return [rounded(sum(h * x[n - k] for k, h in taps if k <= n), node["shift"]) for n in range(len(x))]


def fed_back(node, x):
    """A channel through a biquad."""
    y, most = [0, 0], 2**node["bits"] - 1
    past = [0, 0] + x
    for n in range(len(x)):
        a = node["b0"] * past[n + 2] + node["b1"] * past[n + 1] + node["b2"] * past[n]
        a -= node["a1"] * y[n + 1] + node["a2"] * y[n]
        y.append(clamp(rounded(a, node["shift"]), -most, most))
    return y[2:]


def stream(node, channels, frames):
    """What comes out of a node, a list of samples for each channel."""
    kind = node["kind"]
    if kind == "gain":
        return [[rounded(node["gain"] * s, 16) for s in x] for x in channels]
    if kind == "mixer":
        rows = [node["gains"][o * node["ins"]:(o + 1) * node["ins"]] for o in range(node["outs"])]
        return [[rounded(sum(h * x[n] for h, x in zip(row, channels)), 16) for n in range(frames)] for row in rows]
    if kind == "fir":
        return [filtered(node, x) for x in channels]
    if kind == "biquad":
        return [fed_back(node, x) for x in channels]
    if kind == "limiter":
        return limited(node, channels)
    return [late(x, node["samples"]) for x in channels]


def answer(g, channels):
    """The channels that come into the output node, each node at its reach."""
    frames = len(channels[0])
    out = {g.input: channels}
    for v in (v for v in g.order if v in g.live):
        into = [[0] * frames for _ in range(ins_of(g.nodes[v]))]
        for w in g.ways:
            if w.target == v:
                wait = g.reach[v] - g.reach[w.source] - g.latency[w.source]
                late_one = late(out[w.source][w.source_channel], wait)
                into[w.target_channel] = [a + b for a, b in zip(into[w.target_channel], late_one)]
        if v == g.output:
            return into
        if v != g.input:
            out[v] = stream(g.nodes[v], into, frames)


def data_of(channels, bits):
    """Samples of 32 bits as the data of a WAV file."""
    top = 1 << (bits - 1)
    samples = (clamp(rounded(s, 32 - bits), -top, top - 1) + (128 if bits == 8 else 0)
               for frame in zip(*channels) for s in frame)
    return b"".join(s.to_bytes(bits // 8, "little", signed=bits > 8) for s in samples)


def rendered(g, channels, tail=0, compensate=False):
    """What `render` writes of the input's channels: samples of 32 bits."""
    latency = g.reach[g.output]
    out = answer(g, [x + [0] * (latency + tail) for x in channels])
    return [x[latency:] if compensate else x for x in out]


# The graph of a seed

class Draws:
    def __init__(self, seed):
        self.state = seed

    def step(self):
        self.state = (self.state * 6364136223846793005 + 1442695040888963407) % 2**64
        return self.state

    def draw(self, k):
        return (self.step() >> 33) % k

    def sample(self):
        s = self.step() >> 48
        return (s - 2**16 if s >= 2**15 else s) * 65536


def graph_of(seed, nodes):
    """The records of the graph of a seed."""
    draws, links = Draws(seed), []
    records = [{"uid": 1, "kind": "input", "channels": 2}, {"uid": 2, "kind": "output", "channels": 2}]

    def link(source, channel, target, into):
        links.append({"srcFilter": source, "srcChannel": channel, "dstFilter": target, "dstChannel": into})

    for uid in range(3, nodes + 1):
        kind = ["gain", "insert", "fir", "limiter", "biquad", "delay"][draws.draw(6)]
        node = {"uid": uid, "kind": kind, "channels": 1}
        if kind == "gain":
            node["gain"] = draws.draw(32769)
        elif kind == "insert":
            node["samples"] = draws.draw(64)
        elif kind == "fir":
            node |= {"taps": [1, 2, 1], "shift": 2, "latency": 1}
        elif kind == "limiter":
            node["threshold"] = 1048576 + draws.draw(16777216)
            node["lookahead"] = 1 + draws.draw(8)
        elif kind == "biquad":
            node |= {"b0": 4096, "b1": 8192, "b2": 4096, "a1": 0, "a2": 2048, "shift": 14, "bits": 32}
        else:
            node["samples"] = 1 + draws.draw(100)
        records.append(node)
        sources = [draws.draw(uid - 1)]
        if kind == "gain":
            sources.append(draws.draw(uid - 1))
        for n in sorted(set(sources), key=sources.index):
            link(*((1, n) if n < 2 else (n + 1, 0)), uid, 0)
    read = {c["srcFilter"] for c in links}
    for uid in range(3, nodes + 1):
        if uid not in read:
            link(uid, 0, 2, uid % 2)
    return json.dumps({"FILTERGRAPH": {"FILTER": records, "CONNECTION": links}})


def demo(seed, nodes):
    """The lines that `demo` prints."""
    g, draws = Graph(graph_of(seed, nodes)), Draws(seed)
    plan = compile_plan(g, False)
    samples = [draws.sample() for _ in range(2 * 4800)]
    out = rendered(g, [samples[0::2], samples[1::2]])
    return [f"nodes {nodes}", f"connections {len(g.ways)}", f"latency {plan['latency']}", f"total {plan['total']}",
            f"channels {plan['channels']}", f"frames {len(out[0])} sum {sum(data_of(out, 16))}"]
