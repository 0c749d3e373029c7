"""Random small plants: a network, streams and flows, and a script whose streams keep to their curves."""

MILLION = 10 ** 6


def table(kind, fields):
    def said(value):
        if isinstance(value, list):
            return "[" + ", ".join(map(said, value)) + "]"
        return f'"{value}"' if isinstance(value, str) else str(value)

    return f"[[{kind}]]\n" + "".join(f"{key} = {said(value)}\n" for key, value in fields.items())


def shape(chance):
    """Nodes with their latencies, None for a station; the ends of the links; the routes that a row may have."""
    kind = chance.choice(["pair", "pair", "line", "star", "chain"])
    if kind == "pair":
        return {"a": None, "b": None}, [("a", "b")], [["a", "b"], ["b", "a"]]
    if kind == "line":
        nodes = {"a": None, "m": chance.choice([0, 1, 100, 700]), "b": None}
        return nodes, [("a", "m"), ("m", "b")], [["a", "m", "b"], ["b", "m", "a"]]
    if kind == "star":
        nodes = {"a": None, "b": None, "m": chance.choice([0, 1, 50, 300]), "c": None}
        routes = [[x, "m", y] for x in "abc" for y in "abc" if x != y]
        return nodes, [("m", "a"), ("b", "m"), ("c", "m")], routes
    nodes = {"a": None, "m": chance.choice([0, 3, 90]), "n": chance.choice([0, 2, 90]), "b": None, "c": None}
    routes = [["a", "m", "n", "b"], ["c", "m", "n", "b"], ["b", "n", "m", "a"], ["a", "m", "c"], ["b", "n", "m", "c"]]
    return nodes, [("a", "m"), ("n", "m"), ("n", "b"), ("c", "m")], routes


def link(chance, ends, top, modes):
    fields = {"ends": list(ends), "cost": chance.choice([1, 1, 2, 3, 8]), "mode": chance.choice(modes), "largest": 2000}
    if chance.random() < 0.6:
        fields["delay"] = chance.choice([0, 1, 5, 71, 72, 84, 300, 2000])
    if chance.random() < 0.4:
        fields["policy"] = chance.choice(["pass", "quiet"])
    if chance.random() < 0.4:
        fields["add_frag"] = chance.randrange(4)
    if chance.random() < 0.3:
        fields["express_from"] = chance.randrange(1, 8)
    least = fields.get("express_from", top)
    fields["rings"] = [chance.choice([1, 1, 2, 3, 16]) if prio < least else chance.choice([300, 400]) for prio in range(8)]
    return fields


def row(chance, number, routes, express_from):
    """A row whose class fits every arc of its route, or None."""
    route = chance.choice(routes)
    tops = [express_from[pair] for pair in zip(route, route[1:])]
    fields = {"name": f"r{number}", "vid": 10 + number}
    largest = chance.choice([64, 100, 200, 1522, 2000])
    if chance.random() < 0.5:
        fields |= {"prio": chance.randrange(max(tops), 8), "route": route, "max": largest}
        return "stream", fields | {"burst": largest + 20 + chance.choice([0, 100, 2000]), "rate": chance.choice([1000, 20000, 50000])}
    return "flow", fields | {"prio": chance.randrange(0, min(tops)), "route": route, "max": largest}


class Meter:
    """What a curve leaves for the next send, in millionths of an octet."""

    def __init__(self, burst, rate):
        self.burst, self.rate = burst * MILLION, rate
        self.left, self.tick = self.burst, 0

    def takes(self, tick, size):
        left = min(self.burst, self.left + self.rate * (tick - self.tick))
        if left < (size + 20) * MILLION:
            return False
        self.left, self.tick = left - (size + 20) * MILLION, tick
        return True


def sends(chance, rows, negotiating):
    """Lines of sends and of settings, in order."""
    meters = {fields["name"]: Meter(fields["burst"], fields["rate"]) for kind, fields in rows if kind == "stream"}
    lines = []
    tick = 0
    for _ in range(chance.randrange(0, 60)):
        tick += chance.choice([0, 0, 1, 5, 30, 60, 68, 84, 200, 500])
        if negotiating and chance.random() < 0.12:
            lines.append(f"set {tick} {chance.choice(negotiating)} {chance.choice(['on', 'on', 'off', 'gone'])}")
            continue
        _, fields = chance.choice(rows)
        size = chance.choice([64, fields["max"], chance.randrange(64, fields["max"] + 1)])
        if fields["name"] not in meters or meters[fields["name"]].takes(tick, size):
            lines.append(f"send {tick} {fields['name']} {size}")
    return lines


def damage(chance):
    """An offset and a change: of the delimiter, of the fragment count, of what leaves a check right, or of anything."""
    kind = chance.random()
    if kind < 0.45:
        return 0, chance.choice(["33", "1e", "aa", "34", "f9", "01", "d2", "30", "cc"])
    if kind < 0.6:
        return 1, chance.choice(["aa", "99", "01", "55"])
    if kind < 0.75:
        return chance.choice([1, 5, 20, 55, 59]), "410671db01"
    return chance.choice([0, 1, 2, 30, 61, 64, 65, 70, 200]), chance.choice(["00", "01", "ff", "0000", "ff00ff"])


def faults(chance, arcs):
    losses = [f"lose {chance.choice(arcs)} {chance.randrange(14)}" for _ in range(chance.choice([0, 0, 1, 3, 6]))]
    damages = [(chance.choice(arcs), chance.randrange(14), *damage(chance)) for _ in range(chance.choice([0, 0, 1, 2, 5]))]
    return losses + [f"damage {arc} {order} {offset} {change}" for arc, order, offset, change in damages]


def plant(chance):
    """The texts of a network, streams and a script."""
    nodes, ends, routes = shape(chance)
    top = chance.choice([1, 2, 4, 4, 4, 6, 7])
    modes = chance.choice([["on"], ["negotiate"], ["off", "on", "negotiate"]])
    links = [link(chance, pair, top, modes) for pair in ends]
    express_from = {}
    for fields in links:
        for pair in (tuple(fields["ends"]), tuple(reversed(fields["ends"]))):
            express_from[pair] = fields.get("express_from", top)
    rows = [row(chance, number, routes, express_from) for number in range(chance.randrange(2, 7))]
    rows.sort(key=lambda kept: kept[0] == "flow")
    timing = {
        "interval": chance.choice([100, 700, 1000, 3000, 100000]),
        "ttl": chance.choice([1, 2, 4, 9]),
        "unit": chance.choice([1, 50, 400, 1000, 5000]),
        "verify": chance.choice([1, 10, 300, 1000]),
    }
    net = f"express_from = {top}\n[timing]\n" + "".join(f"{key} = {value}\n" for key, value in timing.items())
    for name, latency in nodes.items():
        kind = {"kind": "station"} if latency is None else {"kind": "bridge", "latency": latency}
        net += table("node", {"name": name, **kind})
    net += "".join(table("link", fields) for fields in links)
    arcs = [f"{a}>{b}" for a, b in express_from]
    negotiating = [f"{a}>{b}" for fields in links if fields["mode"] == "negotiate" for a, b in (fields["ends"], fields["ends"][::-1])]
    lines = sends(chance, rows, negotiating) + faults(chance, arcs) + [f"until {chance.choice([1500, 4000, 9000, 20000])}"]
    return net, "".join(table(kind, fields) for kind, fields in rows), "\n".join(lines) + "\n"
