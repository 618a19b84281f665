"""A line that stops or lies: more bursts than can wait, a host that does not read, a terminal that comes back as another's."""
import glob
import os
import re
import subprocess
import termios
import time

from line import PATIENCE, QUIET, Box, Host, Line, Missed, let_go_on, names, same, text_of, wait_for
from paper import ACK, FAN, TWO, control, fan_get, fan_report, fan_set, packet
from test_running import looked_for_again

WAITING = 1024  # bursts, behind the one that is being played


class Reader:
    """The thread of a box that reads the line."""

    def __init__(self, box):
        tasks = [int(os.path.basename(path)) for path in glob.glob(f"/proc/{box.process.pid}/task/*")]
        self.path = f"/proc/{box.process.pid}/task/{max(tasks)}"

    def waits(self):
        """How often it has begun to wait: at least twice for a burst, for its quiet and for the next."""
        return int(re.search(r"^voluntary_ctxt_switches:\t(\d+)", text_of(f"{self.path}/status"), re.M)[1])

    def waits_without_end(self):
        """It is in ppoll, whose third argument is the time; while it runs it is in no call."""
        return text_of(f"{self.path}/syscall").split()[3:4] == ["0x0"]

    def take(self, line, burst):
        """A burst of its own: its quiet is over, and the next is waited for."""
        before = self.waits()
        line.send(burst)
        wait_for(lambda: self.waits() >= before + 2 and self.waits_without_end(), "a burst taken by the reader")


def more_bursts_than_can_wait(site, _):
    """While a setup is being synced: those that wait are whole, the others are counted, told and said in the log."""
    image, line, log, until, more = site.new("w", TWO), Line(), f"{site.folder}/log", f"{site.folder}/until", 7
    os.mkfifo(until)
    box = Box(site, line.path, image, "--quiet", 1, "--log", log, stop_at="long-sync", stop_until=until)
    reader = Reader(box)
    # a set that is synced, and then sets to a group that no panel is in
    bursts = [packet(0, 0, FAN[0], 2), *(packet(0, 8, FAN[0], k % 5) for k in range(WAITING + more))]
    for burst in bursts:
        reader.take(line, burst)
    let_go_on(until)
    wait_for(lambda: ": lost\n" in text_of(log), "the line of those that are lost")
    line.send(fan_get(1))
    same("the report after them", line.answer(), fan_report(1, 2))
    lines = [l.split("Z ")[1] for l in text_of(log).splitlines()]
    same("each a burst of its own", [l.split(": ")[:2] for l in lines[:-2]],
         [[str(1 + k), " ".join("%02X" % byte for byte in burst)] for k, burst in enumerate(bursts[:-more])])
    first, last = 1 + WAITING + 1, 1 + WAITING + more
    same("the others, and the number of what comes behind", [lines[-2], lines[-1].split(":")[0]],
         [f"{first} to {last}: -: {more} bursts for which there was no room, since {WAITING} were waiting: lost", str(last + 1)])
    same("what was told", box.messages(), f"rig: {line.path}: {more} bursts were lost: {WAITING} were waiting already; what comes "
         "behind is whole again\n")
    same("status", box.end(), 0)


def fill(line):
    """What goes out to the host finds no room, also when the system has moved what is there."""
    os.set_blocking(line.box, False)
    refused = 0
    while refused < 10:
        try:
            os.write(line.box, bytes(4096))
            refused = 0
        except BlockingIOError:
            refused += 1
            time.sleep(0.005)


def a_host_that_does_not_read(site, _):
    """Its answers are dropped, told once and said in the log; the box goes on, and so do answers when they are read again."""
    image = site.new("w", TWO)
    host = Host(site, image)
    fill(host.line)
    report = " ".join("%02X" % byte for byte in fan_report(1, 1))
    for k in range(5):
        host.line.send(fan_get(1))
        same("the answer", host.log.line().split(": ")[3], "report from panel 1, fan 1")
        same("what became of it", host.log.line().split("Z ")[1],
             f"{1 + k}: {report}: the answer, which the line did not take in time: dropped")
    host.line.send(packet(0, 0, FAN[0], 4))
    same("a set to all", host.log.line().split(": ")[2], "ID 0, group 0, set fan 4")
    same("kept", site.play(image, fan_get(1), fan_get(2)), [fan_report(1, 4), fan_report(2, 4)])
    same("times that it was told", host.box.messages().count("nobody takes the answers"), 1)
    wait_for(lambda: not host.line.pending() , "the end of what was on the line")
    same("the answer to a host that reads", host.ask(fan_get(1)), fan_report(1, 4))
    host.box.await_message(f"rig: {host.line.path}: the answers are taken again, from burst 7 on\n")
    fill(host.line)
    host.line.send(fan_get(1))
    host.log.line()
    same("status while nobody reads", host.box.end(), 0)


def a_host_that_never_reads(site, _):
    """None of its answers is waited for when one was, so that all are dropped long before PATIENCE is over."""
    image, line, log, answers = site.new("w", TWO), Line(), f"{site.folder}/log", 3 * PATIENCE
    box = Box(site, line.path, image, "--quiet", 1, "--log", log)
    reader = Reader(box)
    fill(line)
    for _ in range(answers):
        reader.take(line, fan_get(1))
    wait_for(lambda: text_of(log).count(": dropped\n") == answers, "the last answer's end")
    same("times that it was told", box.messages().count("nobody takes the answers"), 1)
    same("status", box.end(), 0)


def a_device_that_is_gone(site, _):
    """A set that was being kept is kept, and its answer is said to be dropped."""
    image, until = site.new("w", TWO), f"{site.folder}/until"
    os.mkfifo(until)
    host = Host(site, image, stop_at="long-sync", stop_until=until)
    host.line.send(fan_set(1, 4))
    wait_for(lambda: os.path.exists(f"{image}.{host.box.process.pid}.new"), "the file beside")
    host.line.close()
    let_go_on(until)
    same("its line", host.log.line().split(": ")[3], "ACK from panel 1")
    same("what became of the answer", host.log.line().split(": ")[2:],
         ["the answer, which went to a device that is gone", "dropped"])
    same("status", host.box.wait(), 3)
    same("kept", site.play(image, fan_get(1)), [fan_report(1, 4)])


def only_whole_packets(site, _):
    """An answer that had begun is brought to its end in front of the next."""
    host = Host(site, site.new("w", TWO), stop_at="half-an-answer")
    host.line.send(fan_get(1))
    host.log.line()
    same("what became of it", host.log.line().split(": ", 2)[2],
         "the answer, of which the line took a part in time: the rest goes out in front of the next")
    same("what went out", host.line.pending(), fan_report(1, 1)[:3])
    host.line.send(fan_get(2))
    same("the rest, and the next", host.line.receive(9), fan_report(1, 1)[3:] + fan_report(2, 1))
    host.box.await_message("the answers are taken again, from burst 2 on\n")
    host.end()


def comes_back(box, line):
    """The line goes away, and the next pseudo-terminal of its name is one that somebody uses."""
    with names:
        line.close()
        box.await_message("went away")
        lines = [Line()]                # those in front of it are in the way
        while lines[-1].path != line.path:
            if len(lines) > 200:
                raise Missed(f"no terminal got the name {line.path} again")
            lines.append(Line())
    for other in lines[:-1]:
        other.close()
    cooked = termios.tcgetattr(lines[-1].box)
    cooked[3] = termios.ECHO | termios.ICANON | termios.ISIG
    termios.tcsetattr(lines[-1].box, termios.TCSANOW, cooked)
    return lines[-1]


def untouched(line, before):
    """Its settings are as they were, and what was typed is still there."""
    same("the settings of another's terminal", termios.tcgetattr(line.box), before)
    same("bytes that were typed there", line.unread(), 7)


def a_name_that_comes_back_as_anothers(site, _):
    """A pseudo-terminal that was named itself ends the server; one behind a link is opened when the link is made anew."""
    image, line, link = site.new("w", TWO), Line(), f"{site.folder}/device"
    box = Box(site, line.path, image, "--quiet", QUIET)
    line.close()
    same("status", box.wait(), 3)
    same("what was told", box.messages(), f"rig: {line.path} went away; a pseudo-terminal that has this name next may be somebody "
         "else's, so it is not opened again; name a link that is made anew with it, as socat's link= is\n")
    line = Line()
    os.symlink(line.path, link)
    box = Box(site, link, image, "--quiet", QUIET)
    another = comes_back(box, line)
    before = termios.tcgetattr(another.box)
    another.send(b"secret\n")
    wait_for(lambda: another.unread() == 7, "what was typed")
    os.utime(link, follow_symlinks=False)       # another time of change is no new link
    looked_for_again(box)
    untouched(another, before)
    line = Line()
    line.send(fan_set(1, 4))            # before it is opened, so it is not played
    os.symlink(line.path, f"{link}.new")
    os.rename(f"{link}.new", link)
    box.await_message(f"rig: {link} is back\nrig: {link}: 6 bytes from before it was opened are dropped\n")
    line.send(fan_get(1))
    same("the report", line.answer(), fan_report(1, 1))
    untouched(another, before)
    same("status", box.end(), 0)


def links_behind_links(site, _):
    """The last of them is the one that counts."""
    image, line, link, last = site.new("w", TWO), Line(), f"{site.folder}/device", f"{site.folder}/last"
    os.symlink(line.path, last)
    os.symlink("last", link)
    box = Box(site, link, image, "--quiet", QUIET)
    another = comes_back(box, line)
    before = termios.tcgetattr(another.box)
    os.unlink(link)
    os.symlink("last", link)
    looked_for_again(box)
    same("the settings of another's terminal", termios.tcgetattr(another.box), before)
    same("times that it came back", box.messages().count("is back"), 0)
    os.unlink(last)
    os.symlink(another.path, last)
    box.await_message("is back")
    same("status", box.end(), 0)


def an_adapter_comes_back_by_its_name(site, _):
    """A pseudo-terminal stands for it, by its own name and by a link that stays."""
    for by_link in (False, True):
        image, line, link = site.new(f"w{by_link}", TWO), Line(), f"{site.folder}/device"
        os.symlink(line.path, link)
        box = Box(site, link if by_link else line.path, image, "--quiet", QUIET, stop_at="adapter")
        line = comes_back(box, line)
        box.await_message("is back")
        line.send(fan_get(1))
        same("the report", line.answer(), fan_report(1, 1))
        same("status", box.end(), 0)
        os.unlink(link)


def old_bytes(site, _):
    """A set that was in the line before it was opened is not played."""
    image, line = site.new("w", TWO), Line()
    for old in (fan_set(1, 4), fan_set(1, 4) * 1000):
        line.send(old)
        host = Host(site, image, line=line, log=len(old))
        same("what was told", host.box.messages(), f"rig: {line.path}: {len(old)} bytes from before it was opened are dropped\n")
        same("the first answer", host.ask(fan_get(1)), fan_report(1, 1))
        same("its number", host.last_line.split()[1], "1:")
        host.end()


def settings_put_back(site, _):
    """At the end, and where the server cannot begin."""
    image, line = site.new("w", TWO), Line()
    cooked = termios.tcgetattr(line.box)
    cooked[0:4] = (termios.ICRNL, termios.OPOST, termios.CS7 | termios.CREAD | termios.PARENB, termios.ECHO | termios.ICANON)
    cooked[4:6] = [termios.B19200] * 2
    termios.tcsetattr(line.box, termios.TCSANOW, cooked)
    before = termios.tcgetattr(line.box)
    host = Host(site, image, line=line)
    same("an answer", host.ask(fan_set(1, 4)), control(1, ACK))
    same("changed", termios.tcgetattr(line.box) != before, True)
    host.end()
    same("the settings at the end", termios.tcgetattr(line.box), before)
    site.fails(f"rig: cannot make a thread to read {line.path}: Resource temporarily unavailable\n", "serve", line.path, image,
               stop_at="no-thread")
    same("the settings where it cannot begin", termios.tcgetattr(line.box), before)


def its_own_terminal(site, _):
    """/dev/tty is a second name of another device, which its lock would not hold."""
    image, line = site.new("w", TWO), Line()
    run = subprocess.run(["setsid", "--ctty", *site.rig, "serve", "/dev/tty", image], stdin=line.box, capture_output=True,
                         text=True, timeout=PATIENCE)
    same("status and message", (run.returncode, run.stderr), (2, "rig: /dev/tty is no serial device\n"))


TESTS = [
    (f"more than {WAITING} bursts wait: those that do are whole, the others are told", more_bursts_than_can_wait),
    ("a host that does not read its answers stops nothing", a_host_that_does_not_read),
    ("a host that never reads its answers does not hold them up", a_host_that_never_reads),
    ("an answer to a device that is gone", a_device_that_is_gone),
    ("an answer that had begun is brought to its end", only_whole_packets),
    ("a name that comes back as somebody else's terminal", a_name_that_comes_back_as_anothers),
    ("a link to a link to a terminal that went away", links_behind_links),
    ("an adapter comes back by its name", an_adapter_comes_back_by_its_name),
    ("bytes from before the start are dropped", old_bytes),
    ("the program's own terminal is no device", its_own_terminal),
    ("the line's settings are put back", settings_put_back),
]
