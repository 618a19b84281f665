"""The box as a program that keeps running: its line, its quiet, its log, its end."""
import calendar
import os
import re
import signal
import subprocess
import termios
import time

from line import PATIENCE, QUIET, Box, Host, Line, Missed, same, text_of, wait_for
from paper import ACK, FAN, NACK, TWO, control, fan_get, fan_report, fan_set, packet

RATES = [1200, 2400, 4800, 9600, 19200, 38400, 57600]


def refused(site, words, *arguments, status=2, **more):
    site.fails(words, "serve", *arguments, status=status, **more)


def one_server_each(site, _):
    """A second one on the same device or setup, by whatever name, is told which is taken; the first goes on."""
    image, other, line, other_line = site.new("w", TWO), site.new("v", TWO), Line(), Line()
    for link, to in (("device", line.path), ("setup", image)):
        os.symlink(to, f"{site.folder}/{link}")
    host = Host(site, image, line=line)
    for _ in range(2):
        for device in (line.path, f"{site.folder}/device"):
            refused(site, f"rig: {device} is taken: another rig is at work on it; end that one first", device, other)
        for setup in (image, f"{site.folder}/setup"):
            refused(site, f"rig: {setup} is taken: another rig is at work on it; end that one first", other_line.path, setup)
        same("the first server", host.ask(fan_set(1, 4)), control(1, ACK))     # from here on the setup is another file
    play = subprocess.run([*site.rig, "play", image], input=fan_set(1, 2).hex(), capture_output=True, text=True)
    same("a set by rig play", (play.returncode, play.stdout), (2, ""))
    same("a get by rig play", site.play(image, fan_get(1)), [fan_report(1, 4)])
    beside = Host(site, other, line=other_line)
    same("a server on another line and setup", beside.ask(fan_get(1)), fan_report(1, 1))
    beside.end()
    host.box.process.kill()
    host.box.wait()
    Box(site, line.path, image).end()


def looked_for_again(box):
    """The box has looked for its device more than once: behind each look it is switched away from."""
    def switches():
        return sum(int(count) for thread in box.switches() for count in thread)
    before = switches()
    wait_for(lambda: switches() > before + 2, "a further look for the device")


def a_device_that_goes_away(site, _):
    image, line, device = site.new("w", TWO), Line(), f"{site.folder}/device"
    os.symlink(line.path, device)
    box = Box(site, device, image, "--quiet", QUIET)
    for times in (1, 2):
        line.send(fan_set(1, 1 + times))
        same("the answer to a set", line.answer(), control(1, ACK))
        line.close()
        os.unlink(device)
        box.await_message("went away", times)
        looked_for_again(box)
        line = Line()
        os.symlink(line.path, f"{device}.new")
        os.rename(f"{device}.new", device)
        box.await_message("is back", times)
        line.send(fan_get(1))
        same("the report after it came back", line.answer(), fan_report(1, 1 + times))
    line.close()
    os.unlink(device)
    box.await_message("went away", 3)
    looked_for_again(box)
    same("status without a device", box.end(), 0)
    same("what was told", box.messages(), f"rig: {device} went away; it is opened again when it comes back\n"
         f"rig: {device} is back\n" * 2 + f"rig: {device} went away; it is opened again when it comes back\n")


def ends_between_two_bursts(site, _):
    """Half a packet, the signal, the other half: it is answered, and then the program ends."""
    for number in (signal.SIGTERM, signal.SIGINT):
        image, line = site.new(f"w{number}", TWO), Line()
        same("status while the line is quiet", Box(site, line.path, image).end(number), 0)
        box = Box(site, line.path, image, "--quiet", 1000)
        box.begin_burst(line, fan_set(1, 4)[:3])
        box.process.send_signal(number)
        line.send(fan_set(1, 4)[3:])
        same("the answer to a packet that had begun", line.answer(), control(1, ACK))
        same("status", box.wait(), 0)
        same("kept", site.play(image, fan_get(1)), [fan_report(1, 4)])


def ends_on_a_line_that_is_never_quiet(site, _):
    image, line = site.new("w", TWO), Line()
    box = Box(site, line.path, image, "--quiet", 60000)
    box.begin_burst(line, bytes(100))
    same("status", box.end(), 0)
    same("what went out", line.pending(), b"")


def bursts_by_their_quiet(site, _):
    """A pause shorter than the quiet is none; what follows without a quiet is the same burst."""
    image = site.new("w", TWO)
    host = Host(site, image, quiet=1000)
    for part in (fan_get(1)[:1], fan_get(1)[1:4]):
        host.line.send(part)
        time.sleep(0.05)
    same("a packet in three parts", host.ask(fan_get(1)[4:]), fan_report(1, 1))
    same("a packet cut in two by a quiet", (host.ask(fan_get(1)[:2]), host.ask(fan_get(1)[2:])), (b"", b""))
    same("two packets without a quiet", host.ask(fan_get(1) + fan_get(2)), control(1, NACK))
    host.end()


def a_burst_of_any_length(site, _):
    """Its front is in the log, and all of it is counted."""
    image = site.new("w", TWO)
    host = Host(site, image, quiet=200)
    for front, answer in ((b"\x05\x01\x00", control(1, NACK)), (b"\x05\x03\x00", b""), (b"\x05\x01\x01", b"")):
        for length in (41, 256, 257, 100000):
            same(f"the answer to {length} bytes", host.ask(front + bytes(length - 3)), answer)
            shown = " ".join(["%02X" % b for b in front] + ["00"] * (min(length, 256) - 3)) + " ..." * (length > 256)
            same("its line", host.last_line.split(": ")[1:3], [shown, f"too long, {length} bytes and a packet has at most 40"])
    same("a packet behind it", host.ask(fan_get(1)), fan_report(1, 1))
    host.end()


def quiet_counts_while_a_setup_is_kept(site, _):
    """Sets to all, which have no answer to wait for, one behind the other while the first is still being written."""
    image = site.new("w", TWO)
    host = Host(site, image, stop_at="slow-sync")
    for value in (2, 3, 4):
        host.line.send(packet(0, 0, FAN[0], value))
        time.sleep(0.2)
    same("each a burst of its own", [host.heard() for _ in range(3)], [b""] * 3)
    same("the report after them", host.ask(fan_get(1)), fan_report(1, 4))
    host.end()


def a_line_of_the_log_for_each_burst(site, _):
    """With the time in front, behind what the file has, and there before the answer is."""
    image, line, log = site.new("w", TWO), Line(), f"{site.folder}/w.log"
    with open(log, "w") as file:
        file.write("cabinet 7")
    box = Box(site, line.path, image, "--log", log)
    before = time.time()
    wanted = ["cabinet 7"]
    for burst, words in ((fan_set(1, 4), "ID 1, group 0, set fan 4: ACK from panel 1"),
                         (fan_get(1), "ID 1, group 0, get fan: report from panel 1, fan 4"),
                         (fan_get(1)[:-1] + b"\0", "checksum wrong, the last byte is 00 and the others give 66: NACK from panel 1")):
        line.send(burst)
        line.answer()
        wanted.append(f"TIME {len(wanted)}: {' '.join('%02X' % b for b in burst)}: {words}")
        lines = text_of(log).split("\n")
        times = re.findall(r"^(\S+Z) ", "\n".join(lines), re.M)
        same("the log", [re.sub(r"^\S+Z ", "TIME ", l) for l in lines], wanted + [""])
    moments = [calendar.timegm(time.strptime(t[:19], "%Y-%m-%dT%H:%M:%S")) + float(t[19:-1]) for t in times]
    in_order = [before - 0.001, *moments, time.time()]
    same("times", in_order, sorted(in_order))
    same("status", box.end(), 0)
    same("messages", box.messages(), "")


def a_log_that_cannot_be_written(site, _):
    """It stops nothing, is told once, and is written again when it can be."""
    image, line = site.new("w", TWO), Line()
    for log, why in (("/dev/full", "No space left on device"), (f"{site.folder}/none/log", "No such file or directory"),
                     (site.folder, "Is a directory")):
        box = Box(site, line.path, image, "--quiet", QUIET, "--log", log)
        told = f"rig: cannot write to the log {log}: {why}; the box goes on, and tries again at each burst\n"
        same("what was told at the start", box.messages(), told if log != "/dev/full" else "")
        for _ in range(3):
            line.send(fan_get(1))
            same(f"the report with the log {log}", line.answer(), fan_report(1, 1))
        same("what was told", box.messages(), told)
        if log.endswith("none/log"):
            os.mkdir(os.path.dirname(log))
            line.send(fan_get(1))
            line.answer()
            same("what was told", box.messages(), told + f"rig: the log {log} is written again, from burst 4 on\n")
            same("lines", [l.split()[1] for l in text_of(log).splitlines()], ["4:"])
        same("status", box.end(), 0)


def waiting_costs_nothing(site, _):
    """While nothing comes no thread of the box runs: none was switched to."""
    image, line = site.new("w", TWO), Line()
    box = Box(site, line.path, image, "--quiet", QUIET)
    line.send(fan_get(1))
    line.answer()
    time.sleep(0.2)
    before = box.switches()
    time.sleep(1)
    same("switches to its threads in a second of quiet", box.switches(), before)
    same("status", box.end(), 0)


def memory_is_fixed(site, _):
    """Five hundred bursts, and one of a million bytes, leave the program as large as it was."""
    image, line = site.new("w", TWO), Line()
    box = Box(site, line.path, image, "--quiet", QUIET, "--log", "/dev/null")

    def size():
        return re.findall(r"VmData:\s+(\d+)", text_of(f"/proc/{box.process.pid}/status"))

    def bursts(count):
        for k in range(count):
            line.send(fan_set(1, k % 5))
            line.answer()
    bursts(20)
    before = size()
    bursts(500)
    line.send(b"\x05\x01\x00" + bytes(1000000))
    same("the answer to a million bytes", line.answer(), control(1, NACK))
    same("size of its data", size(), before)
    same("status", box.end(), 0)


def baud_rates(site, _):
    """000's rates, raw and 8N1, whatever the line was before; 9600 and the rate's own quiet where nothing is said."""
    for rate in [None, *RATES]:
        image, line = site.new(f"w{rate}", TWO), Line()
        cooked = termios.tcgetattr(line.box)
        cooked[0:4] = (termios.ICRNL | termios.IXON | termios.ISTRIP, termios.OPOST | termios.ONLCR,
                       termios.CS7 | termios.PARENB | termios.CSTOPB, termios.ECHO | termios.ICANON | termios.ISIG)
        termios.tcsetattr(line.box, termios.TCSANOW, cooked)
        host = Host(site, image, *(["--baud", rate] if rate else []), line=line, quiet=None)
        rate = rate or 9600
        quiet = "29.2" if rate == 1200 else "20"
        same("its first word", host.box.said,
             f"serving {image} on {line.path} at {rate} baud, SICP 2.01, a burst ends after {quiet} ms of quiet\n")
        iflag, oflag, cflag, lflag, ispeed, ospeed, _ = termios.tcgetattr(line.box)
        speed = getattr(termios, f"B{rate}")
        same(f"the line at {rate}", (iflag, oflag, lflag, ispeed, ospeed), (0, 0, 0, speed, speed))
        frame = termios.CSIZE | termios.PARENB | termios.CSTOPB | termios.CREAD | termios.CLOCAL
        same("its frame", cflag & frame, termios.CS8 | termios.CREAD | termios.CLOCAL)
        same("the answer to every byte", host.ask(bytes(range(256))), b"")
        same("every byte as it came", host.last_line.split(": ")[1], " ".join("%02X" % byte for byte in range(256)))
        host.end()
    for rate in ("300", "115200", "9601", "0", "-9600", "9600x", "", "99999999999999999999"):
        refused(site, f"rig: {rate} is no baud rate of SICP; these are {', '.join(map(str, RATES))}\n", line.path, image, "--baud",
                rate)


def arguments_that_are_refused(site, _):
    image, line = site.new("w", TWO), Line()
    for quiet in ("0", "-1", "60001", "20ms", "1.5", ""):
        refused(site, f"rig: {quiet} is no quiet; give whole milliseconds from 1 to 60000\n", line.path, image, "--quiet", quiet)
    for sicp in ("1.86", "185", "2.010", ""):
        refused(site, f"rig: {sicp} is no edition of SICP that the box speaks; give 1.85 or 2.01\n", line.path, image, "--sicp", sicp)
    for more in (["--baud"], ["--log"], ["--lag", "x"], ["x"], ["--baud", 9600, "--baud", 9600], ["--log", "a", "--log", "b"],
                 ["--quiet", 20, "--quiet", 20], ["--sicp"], ["--sicp", "1.85", "--sicp", "1.85"]):
        refused(site, "rig: serve takes a DEVICE and an IMAGE, and then", line.path, image, *more)
    refused(site, "rig: serve takes a DEVICE and an IMAGE, and then", line.path)
    refused(site, f"rig: there is no {site.folder}/none; make it with", line.path, f"{site.folder}/none")
    refused(site, f"rig: cannot open {site.folder}/none: No such file or directory", f"{site.folder}/none", image)
    refused(site, f"rig: {image} is no serial device", image, site.new("v", TWO))
    refused(site, "rig: /dev/null is no serial device", "/dev/null", image)
    refused(site, f"rig: the log {image} is the setup {image} itself", line.path, image, "--log", image)
    refused(site, f"rig: the log {line.path} is the device {line.path} itself", line.path, image, "--log", line.path)
    with open(f"{site.folder}/bad", "wb") as bad:
        bad.write(b"\0\0")
    refused(site, f"rig: {site.folder}/bad: refusal 12: image: last byte is neither 1 nor 2\n", line.path, f"{site.folder}/bad",
            status=1)


TESTS = [
    ("one server for a device and for a setup", one_server_each),
    ("a device that goes away and comes back", a_device_that_goes_away),
    ("SIGTERM and SIGINT end it between two bursts", ends_between_two_bursts),
    ("SIGTERM ends it on a line that is never quiet", ends_on_a_line_that_is_never_quiet),
    ("bursts by their quiet", bursts_by_their_quiet),
    ("a burst of any length", a_burst_of_any_length),
    ("quiet counts while a setup is kept", quiet_counts_while_a_setup_is_kept),
    ("a line of the log for each burst, with its time", a_line_of_the_log_for_each_burst),
    ("a log that cannot be written stops nothing", a_log_that_cannot_be_written),
    ("waiting costs no processor time", waiting_costs_nothing),
    ("memory is fixed", memory_is_fixed),
    ("baud rates, raw and 8N1", baud_rates),
    ("arguments of serve that are refused", arguments_that_are_refused),
]
