"""The plant of a number: the texts of its network, streams and script, from the rules of the generator alone."""

LATENCY = 1000


class Draws:
    def __init__(self, number):
        self.state = number

    def below(self, most):
        self.state = (self.state * 6364136223846793005 + 1442695040888963407) % 2 ** 64
        return self.state // 2 ** 33 % most


def route(source, target):
    first, last = source % 12, target % 12
    chain = range(first, last + 1) if first <= last else range(first, last - 1, -1)
    return [f"s{source}", *(f"b{bridge}" for bridge in chain), f"s{target}"]


def rows_of(draws):
    """Kind, name, VID, priority, route and greatest frame of each row."""
    rows = []
    for number in range(60):
        source = number % 40
        way = route(source, (source + 1 + draws.below(39)) % 40)
        rows.append(("stream", f"e{number}", 100 + number, 4 + number % 4, way, 64 + draws.below(64)))
    for number in range(30):
        source = number % 40
        rows.append(("flow", f"f{number}", 200 + number, number % 4, route(source, (source + 1 + draws.below(39)) % 40), 1522))
    return rows


def sends_of(draws, rows):
    sends = []
    for place, (kind, name, _, _, _, size) in enumerate(rows):
        first, period = (draws.below(100000), 5000 * (size + 20)) if kind == "stream" else (draws.below(24000), 24000)
        sends += [(tick, place, name, size) for tick in range(first, 9000000, period)]
    return sorted(sends)


def ends():
    chain = [(f"b{bridge}", f"b{bridge + 1}") for bridge in range(11)]
    return chain + [(f"s{station}", f"b{station % 12}") for station in range(40)]


def network_text():
    text = "express_from = 4\ntiming = {interval = 1000000, ttl = 4, unit = 1000000, verify = 50000}\n"
    text += "".join(f'[[node]]\nname = "b{bridge}"\nkind = "bridge"\nlatency = {LATENCY}\n' for bridge in range(12))
    text += "".join(f'[[node]]\nname = "s{station}"\nkind = "station"\n' for station in range(40))
    for source, target in ends():
        text += f'[[link]]\nends = ["{source}", "{target}"]\ncost = 8\ndelay = 40\nmode = "negotiate"\nrings = {[8] * 4 + [112] * 4}\n'
    return text


def streams_text(rows):
    text = ""
    for kind, name, vid, prio, way, size in rows:
        said = ", ".join(f'"{node}"' for node in way)
        text += f'[[{kind}]]\nname = "{name}"\nvid = {vid}\nprio = {prio}\nroute = [{said}]\nmax = {size}\n'
        text += f"burst = {size + 20}\nrate = 200\n" if kind == "stream" else ""
    return text


def script_text(draws, rows):
    text = "".join(f"send {tick} {name} {size}\n" for tick, _, name, size in sends_of(draws, rows))
    arcs = [arc for source, target in ends() for arc in (f"{source}>{target}", f"{target}>{source}")]
    for _ in range(20):
        arc, order = draws.below(102), draws.below(100)
        text += f"lose {arcs[arc]} {order}\n"
    for _ in range(20):
        arc, order, offset, change = draws.below(102), 8 + draws.below(100), 8 + draws.below(32), 1 + draws.below(255)
        text += f"damage {arcs[arc]} {order} {offset} {change:02x}\n"
    return f"{text}until 10000000\n"


def plant(number):
    draws = Draws(number)
    rows = rows_of(draws)
    return network_text(), streams_text(rows), script_text(draws, rows)
