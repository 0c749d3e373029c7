"""A run of a script over a network and streams, tick by tick, worked out from the definitions alone, apart from the program."""
import zlib

EXPRESS, VERIFY, RESPOND, START, CONTINUATION = "E", "V", "R", "S", "C"
DELIMITERS = {0xD5: EXPRESS, 0x07: VERIFY, 0x19: RESPOND}
STARTS = [0xE6, 0x4C, 0x7F, 0xB3]
CONTINUATIONS = [0x61, 0x52, 0x9E, 0x2A]
FRAGMENTS = STARTS
TIMES_OF_A_VERIFY = 3


def fcs(octets):
    return zlib.crc32(bytes(octets)).to_bytes(4, "little")


def mcrc(octets):
    check = fcs(octets)
    return bytes([check[0], check[1], check[2] ^ 255, check[3] ^ 255])


def address(node):
    return bytes([2, 0, 0, 0]) + node.to_bytes(2, "big")


def user_frame(row, number, size):
    head = address(row.nodes[-1]) + address(row.nodes[0]) + b"\x81\x00" + (row.prio << 13 | row.vid).to_bytes(2, "big") + b"\x88\xb5"
    payload = size - len(head) - 4
    octets = head + number.to_bytes(4, "big") + bytes((number + place) % 256 for place in range(4, payload))
    return octets + fcs(octets)


def lldp_frame(node, arc, ttl, capabilities):
    digits = str(arc).encode()
    pdu = bytes([2, 7, 4]) + address(node) + bytes([4, 1 + len(digits), 7]) + digits + bytes([6, 2]) + ttl.to_bytes(2, "big")
    pdu += bytes([0xFE, 6, 0, 0x12, 0x0F, 7]) + capabilities.to_bytes(2, "big") + bytes(2)
    octets = bytes.fromhex("0180c200000e") + address(node) + b"\x88\xcc" + pdu
    octets += bytes(60 - len(octets))
    return octets + fcs(octets)


def spelled(octets):
    """The kind, frame count, fragment count, mData and check that octets spell, or None."""
    if len(octets) < 72 or octets[:6] != b"\x55" * 6:
        return None
    data, check = octets[8:-4], octets[-4:]
    if octets[6] == 0x55:
        if octets[7] in STARTS:
            return START, STARTS.index(octets[7]), None, data, check
        kind = DELIMITERS.get(octets[7])
        return kind and (kind, None, None, data, check)
    if octets[6] not in CONTINUATIONS or octets[7] not in FRAGMENTS:
        return None
    return CONTINUATION, CONTINUATIONS.index(octets[6]), FRAGMENTS.index(octets[7]), data, check


class Alias(Exception):
    """An arrival gives a frame that isn't the one that was sent."""


class MPacket:
    def __init__(self, order, begin, kind, what, frame, place):
        self.order, self.begin, self.kind, self.what, self.frame, self.place = order, begin, kind, what, frame, place
        self.frame_count = self.fragment_count = self.size = self.end = None
        self.is_last = True

    def is_whole(self):
        return self.kind in (EXPRESS, VERIFY, RESPOND)

    def ends_with(self, size, cost, is_last):
        self.size, self.is_last = size, is_last
        self.end = self.begin + cost * (size + 8)

    def check(self):
        if self.kind in (VERIFY, RESPOND):
            return mcrc(bytes(60))
        behind = self.place + self.size
        return self.frame[-4:] if behind == len(self.frame) else mcrc(self.frame[: behind - 4])

    def octets(self):
        data = self.frame[self.place : self.place + self.size - 4]
        if self.kind == CONTINUATION:
            head = b"\x55" * 6 + bytes([CONTINUATIONS[self.frame_count], FRAGMENTS[self.fragment_count]])
        else:
            smd = STARTS[self.frame_count] if self.kind == START else {kind: octet for octet, kind in DELIMITERS.items()}[self.kind]
            head = b"\x55" * 7 + bytes([smd])
        return head + data + self.check()

    def name(self):
        counts = {START: f"{self.frame_count}", CONTINUATION: f"{self.frame_count}.{self.fragment_count}"}
        return self.kind + counts.get(self.kind, "")


class Receiver:
    """What the arrivals of an arc give, looking back over the list of its fragments."""

    def __init__(self):
        self.fragments = []
        self.assembly_errors = self.smd_errors = self.assembled = self.continued = 0

    def chain_from(self, place):
        """The place of the start with which a fragment hangs together, or None."""
        first = place
        while first >= 0 and self.fragments[first][0] != START:
            first -= 1
        if first < 0:
            return None
        joined = b""
        for number, (_, frame_count, fragment_count, data, check) in enumerate(self.fragments[first : place + 1]):
            joined += data
            if number and (frame_count != self.fragments[first][1] or fragment_count != (number - 1) % 4):
                return None
            if first + number < place and check != mcrc(joined):
                return None
        return first if len(joined) <= 1996 else None

    def joined(self, place):
        first = self.chain_from(place)
        return None if first is None else b"".join(fragment[3] for fragment in self.fragments[first : place + 1])

    def is_open(self):
        if not self.fragments:
            return False
        joined = self.joined(len(self.fragments) - 1)
        return joined is not None and self.fragments[-1][4] == mcrc(joined)

    def take(self, octets):
        """What octets give: a word of a trace, and the frame where it is one."""
        spells = spelled(octets)
        if spells is None:
            self.smd_errors += 1
            return "nothing", None
        kind, _, _, data, check = spells
        if kind in (VERIFY, RESPOND):
            word = "verify" if kind == VERIFY else "respond"
            return (word if data == bytes(60) and check == mcrc(data) else "nothing"), None
        if kind == EXPRESS:
            is_frame = len(data) <= 1996 and check == fcs(data)
            return ("frame", data + check) if is_frame else ("nothing", None)
        return self.take_fragment(spells)

    def take_fragment(self, spells):
        kind, _, _, _, check = spells
        was_open = self.is_open()
        self.fragments.append(spells)
        joined = self.joined(len(self.fragments) - 1)
        given = "nothing"
        if joined is not None:
            given = "frame" if check == fcs(joined) else "part" if check == mcrc(joined) else "nothing"
        if kind == START:
            self.assembly_errors += was_open or given == "nothing"
        else:
            self.assembly_errors += was_open and given == "nothing"
            self.smd_errors += not was_open
            self.continued += given != "nothing"
        self.assembled += given == "frame"
        return given, joined + check if given == "frame" else None


class Lane:
    """An arc in a run: its rings, what was sent on it, and what both of its ends know."""

    def __init__(self, arc):
        self.arc = arc
        self.rings = [[] for _ in range(8)]
        self.sent = []
        self.arrived = 0
        self.receiver = Receiver()
        self.frames = 0
        self.continuations = 0
        self.setting = self.setting_before = "on"
        self.heard = None
        self.good_since = None
        self.active = False
        self.wants_lldp = False
        self.owes_respond = False
        self.responds = []

    def is_fragmented(self):
        return self.arc.mode == "on" or self.arc.mode == "negotiate" and self.active

    def express_waits(self):
        return any(self.rings[self.arc.express_from :])

    def is_free(self, tick):
        return not self.sent or self.sent[-1].end is not None and tick >= self.sent[-1].end + 12 * self.arc.cost

    def interrupted(self):
        fragments = [packet for packet in self.sent if packet.kind in (START, CONTINUATION)]
        return fragments[-1] if fragments and not fragments[-1].is_last else None

    def due(self, tick, net):
        """Ticks behind this one at which something may happen on the arc, among them the first one."""
        cost = self.arc.cost
        for packet in self.sent[self.arrived :]:
            if packet.end is not None:
                yield packet.end
                yield packet.end + self.arc.delay
        if self.sent and self.sent[-1].end is None:
            packet = self.sent[-1]
            last = packet.begin + cost * (8 + len(packet.frame) - packet.place) - cost
            yield packet.begin + ((tick - packet.begin) // cost + 1) * cost if self.express_waits() else last
        elif self.sent:
            yield self.sent[-1].end + 12 * cost
        if self.arc.mode == "negotiate":
            yield (tick // net.interval + 1) * net.interval
            if self.heard:
                yield self.heard[0] + self.heard[1] * net.unit
            if self.good_since is not None and not self.active:
                yield from (packet.end + net.verify for packet in self.verifies()[-1:])

    def verifies(self):
        return [packet for packet in self.sent if packet.kind == VERIFY and packet.begin >= self.good_since]


class Run:
    def __init__(self, net, rows, script):
        self.net, self.rows, self.script = net, rows, script
        self.lanes = [Lane(arc) for arc in net.arcs]
        self.frames = [user_frame(rows[row], number, size) for number, (_, row, size) in enumerate(script.sends)]
        self.inside = []
        self.lines = []
        self.set = self.sent = self.delivered = self.dropped = 0

    def tell(self, *words):
        self.lines.append(" ".join(map(str, words)))

    def row(self, frame):
        return self.rows[self.script.sends[frame][1]]

    def name(self, arc):
        return self.net.arc_name(arc)

    def sets(self, tick):
        sets = self.script.sets
        while self.set < len(sets) and sets[self.set][0] == tick:
            _, arc, value = sets[self.set]
            self.set += 1
            self.lanes[arc].setting = value
            self.tell(tick, "set", self.name(arc), value)

    def ends(self, tick):
        for arc, lane in enumerate(self.lanes):
            for packet in lane.sent[-2:]:
                if packet.end == tick:
                    self.tell(tick, "ended", self.name(arc), packet.order, packet.size, packet.check().hex())

    def damaged(self, arc, packet):
        octets = bytearray(packet.octets())
        first = 6 if packet.kind == CONTINUATION else 7
        for offset, changes in self.script.damages.get((arc, packet.order), []):
            for number, change in enumerate(changes):
                if first + offset + number < len(octets):
                    octets[first + offset + number] ^= change
        return bytes(octets)

    def arrivals(self, tick):
        for arc, lane in enumerate(self.lanes):
            for packet in lane.sent[lane.arrived :]:
                if packet.end is not None and packet.end + lane.arc.delay == tick:
                    lane.arrived += 1
                    self.arrival(tick, arc, lane, packet)

    def arrival(self, tick, arc, lane, packet):
        if (arc, packet.order) in self.script.losses:
            self.tell(tick, "arrive", self.name(arc), packet.order, "lost")
            return
        given, frame = lane.receiver.take(self.damaged(arc, packet))
        if given in ("verify", "respond") and packet.kind != given[0].upper():
            raise Alias(f"alias {arc} {packet.order}")
        if given == "frame":
            if packet.kind in (VERIFY, RESPOND) or not packet.is_last or packet.frame != frame:
                raise Alias(f"alias {arc} {packet.order}")
            given = "lldp" if packet.what == "lldp" else given
        self.tell(tick, "arrive", self.name(arc), packet.order, given)
        self.hear(tick, arc, given, frame)
        if given == "frame":
            self.hand_on(tick, arc, packet.what, frame)

    def hear(self, tick, arc, given, frame):
        """What an arrival tells the sender of the other direction."""
        other = self.lanes[arc ^ 1]
        if given == "respond":
            other.responds.append(tick)
        elif given == "verify":
            other.owes_respond = True
        elif given == "lldp":
            place = frame.index(b"\x06\x02", 20) + 2
            capabilities = frame[frame.index(b"\x00\x12\x0f\x07") + 5]
            other.heard = (tick, int.from_bytes(frame[place : place + 2], "big"), capabilities & 3 == 3)

    def hand_on(self, tick, arc, number, frame):
        route = self.row(number).route
        hop = route.index(arc)
        target = self.net.arcs[arc].target
        if hop + 1 == len(route):
            self.tell(tick, "deliver", self.net.names[target], number, frame.hex())
            self.delivered += 1
        else:
            self.inside.append((tick + self.net.latencies[target], arc, number))

    def settle(self, tick):
        for arc, lane in enumerate(self.lanes):
            if lane.arc.mode == "negotiate":
                self.settle_arc(tick, arc, lane)

    def settle_arc(self, tick, arc, lane):
        heard = lane.heard
        is_good = lane.setting == "on" and heard is not None and tick < heard[0] + heard[1] * self.net.unit and heard[2]
        lane.good_since = None if not is_good else tick if lane.good_since is None else lane.good_since
        was_active = lane.active
        lane.active = is_good and any(respond > packet.begin for packet in lane.verifies() for respond in lane.responds)
        if was_active != lane.active:
            self.tell(tick, "active", self.name(arc), "yes" if lane.active else "no")
        is_due = tick % self.net.interval == 0 or was_active != lane.active
        if lane.setting != lane.setting_before or lane.setting != "gone" and is_due:
            lane.wants_lldp = True
        lane.setting_before = lane.setting

    def entries(self, tick):
        due = sorted(entry for entry in self.inside if entry[0] == tick)
        self.inside = [entry for entry in self.inside if entry[0] != tick]
        for _, arc, number in due:
            route = self.row(number).route
            self.enter(tick, route[route.index(arc) + 1], number)
        sends = self.script.sends
        while self.sent < len(sends) and sends[self.sent][0] == tick:
            number = self.sent
            self.sent += 1
            self.enter(tick, self.rows[sends[number][1]].route[0], number)

    def enter(self, tick, arc, number):
        prio = self.row(number).prio
        ring = self.lanes[arc].rings[prio]
        has_room = len(ring) < self.net.arcs[arc].rings[prio]
        self.tell(tick, "enter" if has_room else "dropped", self.name(arc), prio, number)
        if has_room:
            ring.append(number)
        else:
            self.dropped += 1

    def cuts(self, tick):
        for lane in self.lanes:
            packet = lane.sent[-1] if lane.sent else None
            if packet and packet.end is None and tick > packet.begin:
                self.cut(tick, lane, packet)

    def cut(self, tick, lane, packet):
        """Ends a fragment at an octet where it may be cut, and else with its frame."""
        cost = lane.arc.cost
        unsent = len(packet.frame) - packet.place
        if (tick - packet.begin) % cost == 0:
            data = (tick - packet.begin) // cost - 8
            least = 64 * (1 + lane.arc.add_frag) - 4
            if data >= least and unsent - data >= 64 and lane.express_waits():
                packet.ends_with(data + 4, cost, False)
                return
        if tick + cost >= packet.begin + cost * (8 + unsent):
            packet.ends_with(unsent, cost, True)

    def begin(self, tick, arc, kind, what, frame, place=0):
        lane = self.lanes[arc]
        packet = MPacket(len(lane.sent), tick, kind, what, frame, place)
        before = lane.interrupted()
        if kind == START:
            packet.frame_count = lane.frames % 4
            lane.frames += 1
        if kind == CONTINUATION:
            packet.frame_count = before.frame_count
            packet.fragment_count = 0 if before.kind == START else (before.fragment_count + 1) % 4
            lane.continuations += 1
        if packet.is_whole():
            packet.ends_with(len(frame), lane.arc.cost, True)
        lane.sent.append(packet)
        self.tell(tick, "begin", self.name(arc), packet.order, packet.name(), what, place)

    def starts(self, tick):
        for arc, lane in enumerate(self.lanes):
            if lane.is_free(tick):
                self.start(tick, arc, lane)

    def start(self, tick, arc, lane):
        """The first that may begin: an express frame, what negotiates, what was interrupted, a preemptable frame."""
        for prio in range(7, lane.arc.express_from - 1, -1):
            if lane.rings[prio]:
                number = lane.rings[prio].pop(0)
                return self.begin(tick, arc, EXPRESS, number, self.frames[number])
        if lane.arc.mode == "negotiate" and self.negotiates(tick, arc, lane):
            return None
        before = lane.interrupted()
        if before:
            return self.begin(tick, arc, CONTINUATION, before.what, before.frame, before.place + before.size - 4)
        if lane.arc.mode == "negotiate" and not lane.active and lane.arc.policy == "quiet":
            return None
        for prio in range(lane.arc.express_from - 1, -1, -1):
            if lane.rings[prio]:
                number = lane.rings[prio].pop(0)
                return self.begin(tick, arc, START if lane.is_fragmented() else EXPRESS, number, self.frames[number])
        return None

    def negotiates(self, tick, arc, lane):
        """Begins a respond, a verify or an LLDP frame, where one is due: whether one was."""
        if lane.owes_respond:
            lane.owes_respond = False
            self.begin(tick, arc, RESPOND, "-", bytes(64))
            return True
        if lane.good_since is not None and not lane.active:
            begun = lane.verifies()
            if len(begun) < TIMES_OF_A_VERIFY and (not begun or tick >= begun[-1].end + self.net.verify):
                self.begin(tick, arc, VERIFY, "-", bytes(64))
                return True
        if lane.wants_lldp:
            lane.wants_lldp = False
            ttl = 0 if lane.setting == "gone" else self.net.ttl
            capabilities = 1 + 2 * (lane.setting == "on") + 4 * lane.active + 8 * lane.arc.add_frag
            self.begin(tick, arc, EXPRESS, "lldp", lldp_frame(lane.arc.source, arc, ttl, capabilities))
            return True
        return False

    def closing(self):
        for arc, lane in enumerate(self.lanes):
            taken = lane.receiver
            counters = (taken.assembly_errors, taken.smd_errors, taken.assembled, taken.continued, lane.continuations)
            if any(counters):
                self.tell("count", self.name(arc), *map(int, counters))
        until = self.script.until
        self.tell(until, "end", sum(at <= until for at, _, _ in self.script.sends), self.delivered, self.dropped)

    def tick(self, tick):
        self.sets(tick)
        self.ends(tick)
        self.arrivals(tick)
        self.settle(tick)
        self.entries(tick)
        self.cuts(tick)
        self.starts(tick)


    def next_tick(self, tick):
        """The first tick behind this one at which something may happen, up to the last one."""
        due = [self.script.until]
        due += [line[0] for line in self.script.sets[self.set : self.set + 1]]
        due += [line[0] for line in self.script.sends[self.sent : self.sent + 1]]
        due += [entry[0] for entry in self.inside]
        due += [at for lane in self.lanes for at in lane.due(tick, self.net)]
        return min(at for at in due if at > tick)


def run_over(net, rows, script):
    """The run, and the alias before which it stopped, if one did."""
    going = Run(net, rows, script)
    tick = 0
    try:
        going.tick(tick)
        while tick < script.until:
            tick = going.next_tick(tick)
            going.tick(tick)
        going.closing()
    except Alias as alias:
        return going, str(alias)
    return going, None


def run(net, rows, script):
    """The status of a run, its text, and the trace."""
    going, alias = run_over(net, rows, script)
    return (9 if alias else 0, alias or ""), "".join(line + "\n" for line in going.lines)
