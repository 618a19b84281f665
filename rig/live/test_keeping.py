"""The setup of a box on a line: what is acknowledged is kept, whatever happens."""
import os
import resource
import select
import signal
import subprocess
import sys
import threading
from contextlib import contextmanager

from line import PATIENCE, QUIET, Box, Host, Line, Missed, bytes_of, same
from paper import ACK, COLD_START, FAN, TWO, all_models, control, fan_get, fan_report, fan_set, packet

KILLS = 60
PAGE = os.sysconf("SC_PAGESIZE")


class Sets:
    """A host that sends one set after the other, until the box is killed, and knows which were acknowledged."""

    def __init__(self, panels):
        self.line = None
        self.held = {(p.number, c): [v] for p in panels for c, v in ((FAN, 1), (COLD_START, 2))}  # what may be in the setup

    def send(self, random):
        (number, code), may_hold = random.choice(list(self.held.items()))
        value = random.choice([v for v in range(3) if v not in may_hold[-1:]])
        may_hold.append(value)
        self.line.send(packet(number, 0, code[0], value))
        return number, code

    def acknowledged(self, number, code):
        self.held[number, code] = self.held[number, code][-1:]

    def check(self, report_to):
        """Each setting has the value that was acknowledged last, or that of a set on its way; how many were on their way."""
        on_their_way = 0
        for (number, code), may_hold in self.held.items():
            report = report_to(packet(number, 0, code[1]))
            if report not in [packet(number, 0, code[1], value) for value in may_hold]:
                raise Missed(f"panel {number} reports {report.hex()}, and {may_hold} were set, the first acknowledged")
            on_their_way += len(may_hold) - 1
            self.held[number, code] = [report[4]]
        return on_their_way

    def answer_or_death(self, process):
        """The end of what the box prints is its own."""
        got = b""
        while len(got) < 6:
            ready = select.select([self.line.host, process.stdout], [], [], PATIENCE)[0]
            if self.line.host in ready:
                got += os.read(self.line.host, 6 - len(got))
            elif ready:
                break
            else:
                raise Missed("neither an answer nor the end came")
        return got

    def until_killed(self, process, random):
        """An answer that was out before counts."""
        while True:
            last = self.send(random)
            answer = self.answer_or_death(process)
            if not answer:
                return
            same("the answer to a set", answer, control(last[0], ACK))
            self.acknowledged(*last)


def killed_at_random_moments(site, random):
    panels = all_models()
    image, sets, on_its_way = site.new("w", panels), Sets(panels), 0
    for _ in range(KILLS):
        sets.line = Line()
        box = Box(site, sets.line.path, image, "--quiet", QUIET)
        threading.Timer(random.uniform(0, 0.1), box.process.kill).start()
        sets.until_killed(box.process, random)
        same("status", box.wait(), -signal.SIGKILL)
        sets.line.close()
        on_its_way += sets.check(lambda get: site.play(image, get)[0])
    if on_its_way == 0:
        raise Missed(f"no kill of {KILLS} came while a set was on its way")


@contextmanager
def small_disk(folder):
    """A disk of its own, of eight pages."""
    disk = f"{folder}/disk"
    os.mkdir(disk)
    subprocess.run(["mount", "-t", "tmpfs", "-o", f"size={8 * PAGE},mode=777", "tmpfs", disk], check=True)
    try:
        yield disk
    finally:
        subprocess.run(["umount", "-l", disk], check=True)


def fill(disk):
    """Nothing more fits."""
    with open(f"{disk}/filler", "wb", buffering=0) as filler:
        try:
            while filler.write(bytes(PAGE)):
                pass
        except OSError:
            pass


def not_kept(host, image, why):
    """Sets are met by silence and change nothing, gets are answered; the log says why, and it is said once."""
    before, told = bytes_of(image), host.box.messages().count("sets are not taken")
    for _ in range(3):
        same("the answer to a set", host.ask(fan_set(1, 4)), b"")
        same("its line", host.last_line.split(": ", 2)[2],
             f"ID 1, group 0, set fan 4: silence, since the setup is not kept ({why})")
        same("the report after it", host.ask(fan_get(1)), fan_report(1, 2))
    same("the answer to a set to all", host.ask(packet(0, 0, FAN[0], 3)), b"")
    same("the report after it", host.ask(fan_get(2)), fan_report(2, 1))
    same("a set to what is there", host.ask(fan_set(1, 2)), control(1, ACK))
    same("the setup", bytes_of(image), before)
    same("beside the setup", [n for n in os.listdir(os.path.dirname(image)) if n.endswith(".new")], [])
    same("times that it was told", host.box.messages().count("sets are not taken"), told + 1)


def kept_again(host, image, site):
    same("the answer to a set", host.ask(fan_set(1, 3)), control(1, ACK))
    same("kept", site.play(image, fan_get(1)), [fan_report(1, 3)])
    host.box.await_message("is kept again")
    same("back to 2", host.ask(fan_set(1, 2)), control(1, ACK))


def fan_at_2(site, image, *options, **more):
    host = Host(site, image, *options, **more)
    same("the answer to a set", host.ask(fan_set(1, 2)), control(1, ACK))
    return host


def mounts(*space):
    """Whether a disk can be mounted, in a name space of its own."""
    return subprocess.run(["unshare", *space, "mount", "-t", "tmpfs", "tmpfs", "/mnt"], capture_output=True).returncode == 0


def a_full_disk_and_a_read_only_one(site, _):
    if os.geteuid() == 0 and mounts("-m"):
        on_a_small_disk(site)
    elif mounts("-rm"):                 # as the root of a name space
        again = subprocess.run(["unshare", "-rm", sys.executable, *sys.argv[:3], "a full disk"], capture_output=True, text=True)
        same("in a name space", again.stdout.splitlines()[-1:], ["1 passed, 0 failed"])
    else:
        without_a_disk(site)


def without_a_disk(site):
    """Where nobody may mount one: the program itself meets what the system would say (rig/stops.c)."""
    image = site.new("w", TWO)
    before, host = bytes_of(image), Host(site, image, stop_at="no-space")
    for _ in range(3):
        same("the answer to a set", host.ask(fan_set(1, 4)), b"")
        same("its line", host.last_line.endswith("(cannot write the new setup beside it, No space left on device)"), True)
        same("the report after it", host.ask(fan_get(1)), fan_report(1, 1))
    same("the setup", bytes_of(image), before)
    host.end()


def on_a_small_disk(site):
    with small_disk(site.folder) as disk:
        image = site.new(f"{disk}/w", TWO)
        host = fan_at_2(site, image)
        fill(disk)
        not_kept(host, image, "cannot write the new setup beside it, No space left on device")
        os.unlink(f"{disk}/filler")
        kept_again(host, image, site)
        subprocess.run(["mount", "-o", "remount,bind,ro", disk], check=True)
        same("the answer to a set", host.ask(fan_set(1, 4)), b"")
        same("the report after it", host.ask(fan_get(1)), fan_report(1, 2))
        subprocess.run(["mount", "-o", "remount,bind,rw", disk], check=True)
        kept_again(host, image, site)
        host.end()


def a_folder_that_may_not_be_written_to(site, _):
    """Permissions do not bind root, so root's box runs as nobody, in a folder and on a line that are nobody's."""
    root = os.geteuid() == 0
    within = f"{site.folder}/within"
    os.mkdir(within)
    image, line = site.new(f"{within}/w", TWO), Line()
    if root:
        for path in (within, image, line.path):
            os.chown(path, 65534, 65534)
    nobody = ["setpriv", "--reuid=65534", "--regid=65534", "--clear-groups"] if root else []
    host = fan_at_2(site, image, line=line, prefix=nobody)
    os.chmod(within, 0o555)
    try:
        not_kept(host, image, "cannot create a file beside it, Permission denied")
    finally:
        os.chmod(within, 0o755)
    kept_again(host, image, site)
    host.end()


def no_file_may_grow(site, _):
    """A limit that comes while the box runs. The log is a pipe, which no such limit holds for."""
    image = site.new("w", TWO)
    host = fan_at_2(site, image)
    most = resource.prlimit(host.box.process.pid, resource.RLIMIT_FSIZE)
    resource.prlimit(host.box.process.pid, resource.RLIMIT_FSIZE, (0, most[1]))
    same("the answer to a set", host.ask(fan_set(1, 4)), b"")
    same("the report after it", host.ask(fan_get(1)), fan_report(1, 2))
    same("kept", site.play(image, fan_get(1)), [fan_report(1, 2)])
    resource.prlimit(host.box.process.pid, resource.RLIMIT_FSIZE, most)
    kept_again(host, image, site)
    host.end()


def stopped_while_it_keeps(site, _):
    """Killed at the moments of a keep: no ACK goes out before the setup is kept."""
    for moment, value in (("killed-before-sync", 1), ("killed-before-rename", 1), ("killed-after-rename", 4)):
        image, line = site.new(moment, TWO), Line()
        box = Box(site, line.path, image, "--quiet", QUIET, stop_at=moment)
        line.send(fan_set(1, 4))
        same(f"status when {moment}", box.wait(), -signal.SIGKILL)
        same("what went out", line.pending(), b"")
        same("kept", site.play(image, fan_get(1)), [fan_report(1, value)])


def a_folder_that_does_not_sync(site, _):
    """A setup that a power cut may take away is not kept: the old one is put back."""
    image = site.new("w", TWO)
    before = bytes_of(image)
    host = Host(site, image, stop_at="folder-sync-fails")
    same("the answer to a set", host.ask(fan_set(1, 4)), b"")
    same("its line", host.last_line.endswith("not kept (cannot sync its folder, Input/output error)"), True)
    same("the setup", bytes_of(image), before)
    same("the report after it", host.ask(fan_get(1)), fan_report(1, 1))
    same("the same set later", host.ask(fan_set(1, 4)), control(1, ACK))
    same("kept", site.play(image, fan_get(1)), [fan_report(1, 4)])
    host.end()


def kept_as_play_keeps_it(site, _):
    """Written at a change and at no other time, through a link, with its permissions."""
    image = site.new("w", TWO)
    os.chmod(image, 0o640)
    os.symlink(image, f"{site.folder}/link")
    host = Host(site, f"{site.folder}/link")
    before = os.stat(image)
    for burst in (fan_get(1), fan_set(1, 1), fan_set(1, 5), fan_set(1, 2)[:-1], packet(0, 8, FAN[0], 3), b"\x05"):
        host.ask(burst)
    same("the file after bursts that change nothing", os.stat(image)[:9], before[:9])
    same("the answer to a set", host.ask(fan_set(1, 4)), control(1, ACK))
    same("its permissions", os.stat(image).st_mode & 0o777, 0o640)
    same("still a link", os.path.islink(f"{site.folder}/link"), True)
    same("kept", site.play(image, fan_get(1)), [fan_report(1, 4)])
    host.end()


TESTS = [
    (f"killed {KILLS} times at random moments: a whole setup with every acknowledged set", killed_at_random_moments),
    ("a full disk and a read-only one: no ACK, the old setup, and the next get is answered", a_full_disk_and_a_read_only_one),
    ("a folder that may not be written to: the same", a_folder_that_may_not_be_written_to),
    ("no file may grow: the same", no_file_may_grow),
    ("killed while it keeps a setup: no ACK", stopped_while_it_keeps),
    ("a folder that does not sync: no ACK, and the old setup is put back", a_folder_that_does_not_sync),
    ("kept as rig play keeps it", kept_as_play_keeps_it),
]
