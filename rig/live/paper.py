"""Packets, and what a panel may hold, from document 01 and requests A1, A6 and A11 of 02: what a host sends and expects."""

ACK, NACK, NAV = 0x06, 0x15, 0x18
PROFILES = GENERAL, PHOENIX = range(2)
KINDS = FIVE_BY_FIVE, FIFTEEN_BY_TEN = range(2)
LARGEST = {FIVE_BY_FIVE: (5, 5), FIFTEEN_BY_TEN: (15, 10)}  # wide, high

TILING, VIDEO, FAN, COLD_START = (0x22, 0x23), (0x32, 0x33), (0x61, 0x62), (0xA3, 0xA4)
SETTINGS = (0x18, 0x19), TILING, VIDEO, (0x34, 0x35), (0x42, 0x43), FAN, COLD_START, (0xD0, 0xD1), (0xDD, 0xDE)
PLAIN = {  # each value's allowed bytes
    0x18: [(1, 2)],
    0x34: [(0, 1, 3, 4, 5, 6, 9, 10, 13)],
    0x42: [range(101)] * 2,
    0x61: [range(5)],
    0xA3: [range(3)],
    0xD0: [range(4)],
    0xDD: [range(4)],
}
PERCENT, GAMMA = range(101), range(1, 6)
VIDEOS = {
    GENERAL: [PERCENT] * 6 + [GAMMA],
    PHOENIX: [PERCENT] * 3 + [range(11), [t & 0xFF for t in range(-50, 51)], PERCENT, GAMMA],
}


EDITIONS = OLD, NEW = "1.85", "2.01"


def packet(monitor, group, *data, sicp=NEW):
    """In 1.85 it has no byte for the group, which is 0."""
    inside = [monitor, group, *data] if sicp == NEW else [monitor, *data]
    front = bytes([len(inside) + 2, *inside])
    checksum = 0
    for byte in front:
        checksum ^= byte
    return front + bytes([checksum])


def control(panel, word, sicp=NEW):
    return packet(panel, 0, 0x00, word, sicp=sicp)


def fan_set(panel, value):
    return packet(panel, 0, FAN[0], value)


def fan_get(panel):
    return packet(panel, 0, FAN[1])


def fan_report(panel, value):
    return packet(panel, 0, FAN[1], value)


class Panel:
    def __init__(self, number, group, profile, kind):
        self.number, self.group, self.profile, self.kind = number, group, profile, kind

    def argument(self):
        """As `rig new` takes it."""
        return f"{self.number}:{self.group}" + ":phoenix" * self.profile + ":15x10" * self.kind

    def allowed(self, code, random):
        """Values that the panel takes, any of them."""
        if code == TILING[0]:
            width, height = LARGEST[self.kind]
            wide, high = random.randint(1, width), random.randint(1, height)
            return [random.randint(0, 1), random.randint(0, 1), random.randint(1, wide * high), (high - 1) * width + wide]
        ranges = VIDEOS[self.profile] if code == VIDEO[0] else PLAIN[code]
        return [random.choice(values) for values in ranges]


TWO = [Panel(1, 9, GENERAL, FIVE_BY_FIVE), Panel(2, 9, PHOENIX, FIVE_BY_FIVE)]


def all_models():
    """A panel of each profile and each kind."""
    return [Panel(1 + profile + 2 * kind, 9, profile, kind) for kind in KINDS for profile in PROFILES]


def random_packet(panels, random, sicp=NEW):
    """Sets, most of them allowed, and gets; to a panel, a group, all, none; and codes and lengths of no setting."""
    panel = random.choice(panels)
    set_code, get_code = random.choice(SETTINGS)
    monitor, group = random.choice([(panel.number, 0)] * 12 + [(0, 0), (panel.number, panel.group), (0, 8), (200, 0), (1, 255)])
    data = [set_code, *panel.allowed(set_code, random)]
    what = random.random()
    if what < 0.3:
        data = [get_code]
    elif what < 0.4:
        data[random.randrange(1, len(data))] = random.randrange(256)
    elif what < 0.45:
        data = [random.randrange(256) for _ in range(random.randrange(8))]
    return packet(monitor, group, *data, sicp=sicp)


def spoiled(burst, random):
    """By one byte: changed, lost, or one added at any place."""
    how, at = random.randrange(3), random.randrange(len(burst))
    if how == 0:
        return burst[:at] + bytes([burst[at] ^ random.randint(1, 255)]) + burst[at + 1:]
    if how == 1:
        return burst[:at] + burst[at + 1:]
    at = random.randint(0, len(burst))
    return burst[:at] + bytes([random.randrange(256)]) + burst[at:]
