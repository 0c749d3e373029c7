"""What the rules of the files say of a text: a network, streams, a certificate or a script, each as its value or the first
fault, as (rank, words of the status). Written from the rules alone, apart from the program."""
import re
import tomllib

TRILLION = 10 ** 12
MILLION = 10 ** 6
NAME = re.compile(r"[A-Za-z0-9_.-]{1,32}\Z")
PLAIN = re.compile(r"(0|[1-9][0-9]{0,19})\Z")

TIMING = {"interval": (1, TRILLION, 30 * 10 ** 9), "ttl": (1, 65535, 120), "unit": (1, 10 ** 9, 10 ** 9), "verify": (1, TRILLION, 10 ** 7)}


class Refused(Exception):
    """The status that the program is to have, and its text."""

    def __init__(self, status, text):
        super().__init__(text)
        self.status = status
        self.text = text


def is_number(value):
    return isinstance(value, int) and not isinstance(value, bool)


def is_text(value):
    return isinstance(value, str)


def is_list(test, count=None):
    return lambda value: isinstance(value, list) and all(map(test, value)) and (count is None or len(value) == count)


def document(text):
    """The TOML document, or None."""
    try:
        found = tomllib.loads(text)
    except (tomllib.TOMLDecodeError, ValueError):
        return None
    return found if all(-2 ** 63 <= n < 2 ** 63 for n in numbers_in(found)) else None


def numbers_in(value):
    if isinstance(value, dict):
        return [n for v in value.values() for n in numbers_in(v)]
    if isinstance(value, list):
        return [n for v in value for n in numbers_in(v)]
    return [value] if is_number(value) else []


def has_fields(table, due, optional):
    """Whether a table has the keys that are due, others only of the optional ones, and each of its kind."""
    kinds = {**due, **optional}
    return all(key in table for key in due) and all(key in kinds and kinds[key](value) for key, value in table.items())


def first(faults):
    """The first fault of a file: by the number of its rule, then by the place of its row."""
    return min(faults, key=lambda fault: (fault[0], fault[1])) if faults else None


class Arc:
    def __init__(self, link, source, target, top):
        self.source = source
        self.target = target
        self.cost = link["cost"]
        self.delay = link.get("delay", 0)
        self.mode = link.get("mode", "off")
        self.policy = link.get("policy", "quiet")
        self.add_frag = link.get("add_frag", 0)
        self.rings = link.get("rings", [16] * 8)
        self.express_from = link.get("express_from", top)
        self.largest = link.get("largest", 1522)


class Network:
    def __init__(self, found):
        self.express_from = found.get("express_from", 4)
        timing = found.get("timing", {})
        for key, (_, _, default) in TIMING.items():
            setattr(self, key, timing.get(key, default))
        self.names = [node["name"] for node in found["node"]]
        self.stations = [node["kind"] == "station" for node in found["node"]]
        self.latencies = [node.get("latency", 0) for node in found["node"]]
        self.arcs = []
        for link in found["link"]:
            a, b = map(self.names.index, link["ends"])
            self.arcs += [Arc(link, a, b, self.express_from), Arc(link, b, a, self.express_from)]

    def arc_name(self, number):
        arc = self.arcs[number]
        return f"{self.names[arc.source]}>{self.names[arc.target]}"

    def arc_between(self, source, target):
        for number, arc in enumerate(self.arcs):
            if (arc.source, arc.target) == (source, target):
                return number
        return None

    def arc_named(self, name):
        names = [self.arc_name(number) for number in range(len(self.arcs))]
        return names.index(name) if name in names else None

    def slots(self):
        inside = [0 if self.stations[arc.target] else self.latencies[arc.target] // (84 * arc.cost) for arc in self.arcs]
        return sum(sum(arc.rings) + 3 + more for arc, more in zip(self.arcs, inside))

    def wires(self):
        return sum(arc.delay // arc.cost + 2008 for arc in self.arcs)


LINK_KEYS = {"delay": is_number, "mode": is_text, "policy": is_text, "add_frag": is_number, "rings": is_list(is_number, 8), "express_from": is_number, "largest": is_number}


def network_fields(found):
    """Faults of rule 2."""
    tables = is_list(lambda value: isinstance(value, dict))
    top = {"express_from": is_number, "timing": lambda value: isinstance(value, dict)}
    if not has_fields(found, {"node": tables, "link": tables}, top):
        return [(2, 0, "top")]
    faults = []
    if not has_fields(found.get("timing", {}), {}, dict.fromkeys(TIMING, is_number)):
        faults.append((2, 1, "timing"))
    for place, node in enumerate(found["node"]):
        if not has_fields(node, {"name": is_text, "kind": is_text}, {"latency": is_number}):
            faults.append((2, 2 + place, f"node {place}"))
    for place, link in enumerate(found["link"]):
        if not has_fields(link, {"ends": is_list(is_text, 2), "cost": is_number}, LINK_KEYS):
            faults.append((2, 2 + len(found["node"]) + place, f"link {place}"))
    return faults


def network_names(found):
    """Faults of rules 3 and 4."""
    faults = []
    known = {}
    for place, node in enumerate(found["node"]):
        if not NAME.match(node["name"]) or node["name"] in known:
            faults.append((3, 2 + place, f"node {place}"))
        known.setdefault(node["name"], place)
    pairs = set()
    for place, link in enumerate(found["link"]):
        pair = frozenset(link["ends"])
        if not pair <= set(known) or len(pair) < 2 or pair in pairs:
            faults.append((4, 2 + len(found["node"]) + place, f"link {place}"))
        pairs.add(pair)
    return faults


def network_ranges(found):
    """Faults of rule 5."""
    faults = []
    if not 1 <= found.get("express_from", 4) <= 7:
        faults.append((5, 0, "top"))
    if not all(TIMING[key][0] <= value <= TIMING[key][1] for key, value in found.get("timing", {}).items()):
        faults.append((5, 1, "timing"))
    for place, node in enumerate(found["node"]):
        most = 10 ** 9 if node["kind"] == "bridge" else 0
        if node["kind"] not in ("station", "bridge") or not 0 <= node.get("latency", 0) <= most:
            faults.append((5, 2 + place, f"node {place}"))
    for place, link in enumerate(found["link"]):
        fits = 1 <= link["cost"] <= 1000 and 0 <= link.get("delay", 0) <= 10 ** 9
        fits = fits and link.get("mode", "off") in ("off", "on", "negotiate") and link.get("policy", "quiet") in ("pass", "quiet")
        fits = fits and 0 <= link.get("add_frag", 0) <= 3 and all(1 <= ring <= 4096 for ring in link.get("rings", []))
        fits = fits and 1 <= link.get("express_from", 1) <= 7 and 64 <= link.get("largest", 64) <= 2000
        if not fits:
            faults.append((5, 2 + len(found["node"]) + place, f"link {place}"))
    return faults


def read_network(text):
    found = document(text)
    if found is None:
        raise Refused(4, "form net 0 1")
    for rules in (network_fields, network_names, network_ranges):
        fault = first(rules(found))
        if fault:
            raise Refused(5, f"rules net {fault[2]} {fault[0]}")
    if not 2 <= len(found["node"]) <= 128 or not 1 <= len(found["link"]) <= 128:
        raise Refused(5, "rules net top 6")
    net = Network(found)
    if net.slots() > 60000:
        raise Refused(5, "rules net top 7")
    if net.wires() > 67108864:
        raise Refused(5, "rules net top 8")
    return net


class Row:
    def __init__(self, net, table):
        self.name = table["name"]
        self.vid = table["vid"]
        self.prio = table["prio"]
        self.nodes = [net.names.index(name) for name in table["route"]]
        self.route = [net.arc_between(a, b) for a, b in zip(self.nodes, self.nodes[1:])]
        self.max = table["max"]
        self.burst = table.get("burst")
        self.rate = table.get("rate")

    def is_stream(self):
        return self.burst is not None


ROW_KEYS = {"name": is_text, "vid": is_number, "prio": is_number, "route": is_list(is_text), "max": is_number}


def row_place(found, kind, place):
    return place + (len(found.get("stream", [])) if kind == "flow" else 0)


def rows_of(found):
    return [(kind, place, table) for kind in ("stream", "flow") for place, table in enumerate(found.get(kind, []))]


def stream_fields(found):
    tables = is_list(lambda value: isinstance(value, dict))
    if not has_fields(found, {}, {"stream": tables, "flow": tables}):
        return [(2, -1, "top")]
    more = {"burst": is_number, "rate": is_number}
    return [
        (2, row_place(found, kind, place), f"{kind} {place}")
        for kind, place, table in rows_of(found)
        if not has_fields(table, {**ROW_KEYS, **(more if kind == "stream" else {})}, {})
    ]


def stream_names(found):
    faults = []
    known = set()
    for kind, place, table in rows_of(found):
        if not NAME.match(table["name"]) or table["name"] in known:
            faults.append((3, row_place(found, kind, place), f"{kind} {place}"))
        known.add(table["name"])
    return faults


def first_bad_hop(net, route, routes):
    """The first entry of a route that doesn't pass, or the first place at which it leaves an earlier route of its VID."""
    nodes = []
    for hop, name in enumerate(route):
        node = net.names.index(name) if name in net.names else None
        ends = hop in (0, len(route) - 1)
        if node is None or node in nodes or net.stations[node] != ends:
            return hop
        if nodes and net.arc_between(nodes[-1], node) is None:
            return hop
        nodes.append(node)
    for other in routes:
        if other != route:
            return next((hop for hop, pair in enumerate(zip(other, route)) if pair[0] != pair[1]), min(len(other), len(route)))
    return None


def stream_routes(net, found):
    faults = []
    by_vid = {}
    for kind, place, table in rows_of(found):
        hop = first_bad_hop(net, table["route"], by_vid.get(table["vid"], []))
        if hop is not None:
            faults.append((4, row_place(found, kind, place), f"{kind} {place}"))
        by_vid.setdefault(table["vid"], []).append(table["route"])
    return faults


def stream_classes(net, found):
    faults = []
    for kind, place, table in rows_of(found):
        arcs = [net.arcs[net.arc_between(*map(net.names.index, pair))] for pair in zip(table["route"], table["route"][1:])]
        express = [table["prio"] >= arc.express_from for arc in arcs]
        if not all(express) if kind == "stream" else any(express):
            faults.append((5, row_place(found, kind, place), f"{kind} {place}"))
    return faults


def stream_ranges(net, found):
    faults = []
    for kind, place, table in rows_of(found):
        arcs = [net.arcs[net.arc_between(*map(net.names.index, pair))] for pair in zip(table["route"], table["route"][1:])]
        fits = 1 <= table["vid"] <= 4094 and 0 <= table["prio"] <= 7 and 2 <= len(table["route"]) <= 17 and 64 <= table["max"] <= 2000
        if kind == "stream":
            fits = fits and 84 <= table["burst"] <= 10 ** 9 and 1 <= table["rate"] <= MILLION
        else:
            fits = fits and all(table["max"] <= arc.largest for arc in arcs)
        if not fits:
            faults.append((6, row_place(found, kind, place), f"{kind} {place}"))
    return faults


def stream_bursts(found):
    return [(7, place, f"stream {place}") for place, table in enumerate(found.get("stream", [])) if table["burst"] < table["max"] + 20]


def read_streams(net, text, word="streams", most_flows=256):
    """The rows of a stream file; the word names the kind of file in the texts of its faults."""
    found = document(text)
    if found is None:
        raise Refused(4, f"form {word} 0 1")
    tests = (
        stream_fields,
        stream_names,
        lambda f: stream_routes(net, f),
        lambda f: stream_classes(net, f),
        lambda f: stream_ranges(net, f),
        stream_bursts,
    )
    for rules in tests:
        fault = first(rules(found))
        if fault:
            raise Refused(5, f"rules {word} {fault[2]} {fault[0]}")
    if len(found.get("stream", [])) > 256 or len(found.get("flow", [])) > most_flows:
        raise Refused(5, f"rules {word} top 8")
    return [Row(net, table) for _, _, table in rows_of(found)]


def lines_of(text):
    """The lines as lists of words, with their numbers from 1."""
    pieces = text.split("\n")
    if pieces[-1] == "":
        pieces.pop()
    pieces = [piece[:-1] if piece.endswith("\r") else piece for piece in pieces]
    return [(number, [word for word in piece.split(" ") if word]) for number, piece in enumerate(pieces, 1)]


def is_said(words):
    return bool(words) and not words[0].startswith("#")


def plain(word):
    """The number that a word spells, or None."""
    return int(word) if PLAIN.match(word) and int(word) < 2 ** 64 else None


def rows_due(net, rows, version):
    """The rows of a certificate that are due: what each begins with, and how many numbers follow."""
    used = sorted({arc for row in rows if row.is_stream() for arc in row.route})
    numbers = 1 if version in (1, 3) else 2
    due = [(["arc", net.arc_name(arc)], numbers) for arc in used]
    for arc in used:
        for prio in sorted({row.prio for row in rows if row.is_stream() and arc in row.route}):
            due.append((["port", net.arc_name(arc), str(prio)], 5))
    for row in rows:
        if row.is_stream():
            due += [(["hop", row.name, str(hop)], 1) for hop in range(len(row.route))]
    due += [(["bound", row.name], 1) for row in rows if row.is_stream()]
    return due + [(["end"], 0)]


def counts_of(version):
    return {"certificate": 2, "arc": 3 if version in (1, 3) else 4, "port": 8, "hop": 4, "bound": 3, "end": 1}


def certificate_line(words, due, version):
    """The first rule that a line breaks, and where none, whether it is a version line that is due."""
    counts = counts_of(version)
    if counts.get(words[0]) != len(words) or words[0] == "certificate" and words[1] not in ("1", "2", "3"):
        return 1
    if words[0] in ("certificate", "end"):
        return None if words == due[0] else 3
    numbers = words[2:]
    if any(plain(word) is None for word in numbers):
        return 2
    if words[: len(due[0])] != due[0]:
        return 3
    return 6 if any(plain(word) > TRILLION for word in numbers) else None


def read_certificate(net, rows, text):
    version = None
    due = None
    ended = False
    lines = lines_of(text)
    for number, words in lines:
        if not is_said(words):
            continue
        if ended:
            raise Refused(4, f"form cert {number} 5")
        if version is None:
            known = len(words) == 2 and words[0] == "certificate" and words[1] in ("1", "2", "3")
            rule = None if known else certificate_line(words, (["certificate"], 1), 2)
            if rule:
                raise Refused(4, f"form cert {number} {rule}")
            version = int(words[1])
            due = rows_due(net, rows, version)
            continue
        rule = certificate_line(words, due[0], version)
        if rule:
            raise Refused(4, f"form cert {number} {rule}")
        ended = due.pop(0)[0] == ["end"]
    if not ended:
        raise Refused(4, f"form cert {len(lines) + 1} 4")


class Script:
    def __init__(self):
        self.sends = []
        self.sets = []
        self.losses = set()
        self.damages = {}
        self.until = None


LIMITS = {"send": 100_000, "set": 10_000, "lose": 10_000, "damage": 10_000}
WORDS = {"send": 4, "set": 4, "lose": 3, "damage": 5, "until": 2}
NUMBERS = {"send": (1, 3), "set": (1,), "lose": (2,), "damage": (2, 3), "until": (1,)}
HEX = re.compile(r"([0-9a-fA-F]{2}){1,32}\Z")


def script_line(net, rows, script, latest, words):
    """The first rule that a line of a script breaks."""
    kind = words[0]
    if WORDS.get(kind) != len(words):
        return 1
    if any(plain(words[place]) is None for place in NUMBERS[kind]) or kind == "damage" and not HEX.match(words[4]):
        return 2
    if kind == "until":
        most = min([4 * TRILLION] + [10_000 * net.interval for arc in net.arcs if arc.mode == "negotiate"])
        return 10 if plain(words[1]) > most else None
    row = next((row for row in rows if row.name == words[2]), None) if kind == "send" else None
    arc = net.arc_named(words[2 if kind == "set" else 1]) if kind != "send" else None
    if row is None and arc is None:
        return 3
    if kind in ("send", "set") and plain(words[1]) < latest:
        return 4
    if kind == "send" and not 64 <= plain(words[3]) <= row.max:
        return 5
    if kind == "set" and (words[3] not in ("on", "off", "gone") or net.arcs[arc].mode != "negotiate"):
        return 6
    held = {"send": len(script.sends), "set": len(script.sets), "lose": script.lose, "damage": script.damage}
    return 9 if held[kind] >= LIMITS[kind] else None


def add_line(net, rows, script, words):
    kind = words[0]
    if kind == "send":
        row = next(number for number, row in enumerate(rows) if row.name == words[2])
        script.sends.append((int(words[1]), row, int(words[3])))
    elif kind == "set":
        script.sets.append((int(words[1]), net.arc_named(words[2]), words[3]))
    elif kind == "lose":
        script.lose += 1
        script.losses.add((net.arc_named(words[1]), int(words[2])))
    elif kind == "damage":
        script.damage += 1
        script.damages.setdefault((net.arc_named(words[1]), int(words[2])), []).append((int(words[3]), bytes.fromhex(words[4])))
    else:
        script.until = int(words[1])


def read_script(net, rows, text):
    script = Script()
    script.lose = script.damage = 0
    latest = 0
    lines = lines_of(text)
    for number, words in lines:
        if not is_said(words):
            continue
        rule = 8 if script.until is not None else script_line(net, rows, script, latest, words)
        if rule:
            raise Refused(4, f"form script {number} {rule}")
        add_line(net, rows, script, words)
        if words[0] in ("send", "set"):
            latest = int(words[1])
    if script.until is None:
        raise Refused(4, f"form script {len(lines) + 1} 7")
    return script
