"""A line that speaks 1.85, and hosts that speak the other edition than their box."""
import os

from line import QUIET, Box, Host, Line, Missed, same
from paper import ACK, EDITIONS, NACK, NAV, NEW, OLD, TWO, control, fan_get, fan_report, fan_set, packet

POWER_GET, POWER_REPORT = bytes.fromhex("0401191C"), bytes.fromhex("050119021F")  # of 1.85, on a fresh panel


def an_older_host(site, _):
    """02's A11 byte for byte."""
    host = Host(site, site.new("w", TWO), "--sicp", OLD)
    for burst, answer, words in (
            ("0401191C", "050119021F", "ID 1, get power: report from panel 1, power on"),
            ("0501610461", "0501000602", "ID 1, set fan 4: ACK from panel 1"),
            ("030102", "050100181C", "ID 1, no data: NAV from panel 1"),
            ("0501", "0501001511", "too short, 2 bytes and a packet has at least 3: NACK from panel 1"),
            ("05", "", "too short, 1 byte and a packet has at least 3: silence"),
            ("0401191D", "0501001511", "checksum wrong, the last byte is 1D and the others give 1C: NACK from panel 1"),
            ("0403191E", "", "ID 3, get power: silence"),
            ("0500610266", "", "ID 0, set fan 2: silence"),
            ("04026264", "0502620267", "ID 2, get fan: report from panel 2, fan 2")):
        same(f"the answer to {burst}", host.ask(bytes.fromhex(burst)).hex(), answer.lower())
        same(f"the line of {burst}", host.last_line.split(": ", 2)[2], f"SICP 1.85, {words}")
    host.end()


def the_edition_is_told(site, _):
    for sicp in (None, *EDITIONS):
        image = site.new(f"w{sicp}", TWO)
        host = Host(site, image, *(["--sicp", sicp] if sicp else []))
        same("its first word", host.box.said, f"serving {image} on {host.line.path} at 9600 baud, SICP {sicp or NEW}, a burst ends "
             f"after {QUIET} ms of quiet\n")
        host.end()


def hosts_of_the_other_edition(site, _):
    """No packet of theirs is damaged, none is taken for what they mean, and the box does not change over."""
    for box, meant in ((NEW, OLD), (OLD, NEW)):
        host = Host(site, site.new(f"w{box}", TWO), "--sicp", box)
        for data in ([0x19], [0x62], [0x61, 4]):
            burst = packet(1, 0, *data, sicp=meant)
            same(f"the answer of {box} to {burst.hex()}", host.ask(burst), b"" if box == NEW else control(1, NAV, OLD))
            if not host.last_line.split(": ")[2].removeprefix("SICP 1.85, ").startswith("ID 1, "):
                raise Missed(f"a damage was told: {host.last_line}")
        same("its own packets", host.ask(packet(1, 0, 0x62, sicp=box)), packet(1, 0, 0x62, 1, sicp=box))
        host.end()


def long_bursts(site, _):
    """The second byte decides over the NACK, and the third has no part in it."""
    host = Host(site, site.new("w", TWO), "--sicp", OLD, quiet=200)
    for front, answer in ((b"\x05\x01\x00", control(1, NACK, OLD)), (b"\x05\x02\x09", control(2, NACK, OLD)), (b"\x05\x03\x00", b""),
                          (b"\x05\x00\x00", b"")):
        for length in (41, 257):
            same(f"the answer to {front.hex()} and {length - 3} bytes", host.ask(front + bytes(length - 3)), answer)
    same("a packet of 40 bytes", host.ask(packet(1, 0, *[0x19] * 37, sicp=OLD)), control(1, NAV, OLD))
    host.end()


def after_the_device_came_back(site, _):
    """A line keeps its edition."""
    image, line, device = site.new("w", TWO), Line(), f"{site.folder}/device"
    os.symlink(line.path, device)
    box = Box(site, device, image, "--sicp", OLD, "--quiet", QUIET)
    line.close()
    os.unlink(device)
    box.await_message("went away")
    line = Line()
    os.symlink(line.path, device)
    box.await_message("is back")
    line.send(POWER_GET)
    same("the answer", line.answer(), POWER_REPORT)
    same("status", box.end(), 0)


def two_lines_for_one_program_after_another(site, _):
    """A setup has no edition: what one line has set, the other reports."""
    image = site.new("w", TWO)
    older = Host(site, image, "--sicp", OLD)
    same("a set on a 1.85 line", older.ask(packet(1, 0, 0x61, 4, sicp=OLD)), control(1, ACK, OLD))
    older.end()
    newer = Host(site, image, log="newer")
    same("the report on a 2.01 line", newer.ask(fan_get(1)), fan_report(1, 4))
    same("a set there", newer.ask(fan_set(2, 3)), control(2, ACK))
    newer.end()
    same("by rig play", site.play(image, packet(2, 0, 0x62, sicp=OLD), options=("--sicp", OLD)), [packet(2, 0, 0x62, 3, sicp=OLD)])


TESTS = [
    ("an older host on a 1.85 line", an_older_host),
    ("the edition in the first word of serve", the_edition_is_told),
    ("hosts that speak the other edition", hosts_of_the_other_edition),
    ("long bursts on a 1.85 line", long_bursts),
    ("a 1.85 line whose device went away and came back", after_the_device_came_back),
    ("one setup on a line of each edition", two_lines_for_one_program_after_another),
]
