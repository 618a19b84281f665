"""A `rig serve` at work on a pseudo-terminal, and the host at the other end of it.

Everything waits for an event: a byte on the line, a line in the log, the end of a process. PATIENCE only ends a test that
would wait for ever."""
import fcntl
import glob
import os
import re
import select
import signal
import subprocess
import sys
import termios
import threading
import time
import tty

PATIENCE = 60  # seconds
QUIET = 10  # milliseconds, for the tests that need no other


class Missed(Exception):
    """An event that did not come, or a result that is not the one wanted."""


def same(what, got, wanted):
    if got != wanted:
        raise Missed(f"{what}:\n got     {got}\n wanted  {wanted}")


def wait_until(fd, what):
    if not select.select([fd], [], [], PATIENCE)[0]:
        raise Missed(f"{what} did not come")


def wait_for(happened, what):
    """For what has no descriptor to wait on: looks again and again."""
    end = time.monotonic() + PATIENCE
    while not happened():
        if time.monotonic() > end:
            raise Missed(f"{what} did not come")
        time.sleep(0.002)


def text_of(path):
    with open(path) as file:
        return file.read()


def bytes_of(path):
    with open(path, "rb") as file:
        return file.read()


names = threading.RLock()  # of pseudo-terminals: while it is held, one that was given back stays free


class Line:
    """A pseudo-terminal. The box opens it by its path; the host is here."""

    def __init__(self):
        with names:
            self.host, self.box = os.openpty()
        tty.setraw(self.box)
        self.path = os.ttyname(self.box)

    def send(self, burst):
        while burst:
            burst = burst[os.write(self.host, burst):]

    def receive(self, count):
        got = b""
        while len(got) < count:
            wait_until(self.host, f"byte {len(got) + 1} of {count}")
            got += os.read(self.host, count - len(got))
        return got

    def answer(self):
        """The packet that comes next, by its size."""
        size = self.receive(1)
        return size + self.receive(size[0] - 1)

    def pending(self):
        """What is there now."""
        got = b""
        while select.select([self.host], [], [], 0)[0]:
            got += os.read(self.host, 4096)
        return got

    def unread(self):
        """How many bytes the box has not taken yet."""
        count = fcntl.ioctl(self.box, termios.FIONREAD, bytes(4))
        return int.from_bytes(count, sys.byteorder)

    def close(self):
        """The device goes away."""
        for fd in (self.host, self.box):
            os.close(fd)


def let_go_on(pipe):
    """What waits for somebody who writes to the pipe (STOP_UNTIL of rig/stops.c)."""
    def opened():
        try:
            os.close(os.open(pipe, os.O_WRONLY | os.O_NONBLOCK))
        except OSError:
            return False
        return True
    wait_for(opened, "a program that waits for the pipe")


class LogPipe:
    """A log that is read line by line as it is written."""

    def __init__(self, path):
        self.path = path
        os.mkfifo(path)
        os.chmod(path, 0o666)
        self.fd = os.open(path, os.O_RDONLY | os.O_NONBLOCK)
        self.rest = b""

    def line(self):
        while b"\n" not in self.rest:
            wait_until(self.fd, "a line of the log")
            got = os.read(self.fd, 65536)
            if not got:
                raise Missed("the log has ended")
            self.rest += got
        line, self.rest = self.rest.split(b"\n", 1)
        return line.decode()


class Site:
    """The rig's programs, and a folder of its own for one test."""

    def __init__(self, programs, folder):
        emulator = os.environ.get("RUN", "").split()
        self.rig, self.stopped = [*emulator, f"{programs}/rig"], [*emulator, f"{programs}/rig-stopped"]
        self.folder, self.boxes = folder, []

    def new(self, name, panels):
        """The path of a new setup; one that is not a path lies in the folder."""
        image = os.path.join(self.folder, name)
        subprocess.run([*self.rig, "new", image, *[p.argument() for p in panels]], check=True)
        return image

    def run(self, *arguments, stop_at=None, stop_until="", prefix=(), bursts=()):
        """The rig to its end, stopped at a moment if it is named (rig/stops.c)."""
        program = self.stopped if stop_at else self.rig
        return subprocess.run([*prefix, *program, *map(str, arguments)], text=True, capture_output=True, timeout=PATIENCE,
                              env=dict(os.environ, STOP_AT=stop_at or "never", STOP_UNTIL=stop_until),
                              input="".join(b.hex() + "\n" for b in bursts))

    def play(self, image, *bursts, options=()):
        """The answers to bursts played on a setup, which so has to be a whole one."""
        run = self.run("play", image, *options, bursts=bursts)
        run.check_returncode()
        return [bytes.fromhex(line.replace("-", "")) for line in run.stdout.splitlines()]

    def fails(self, words, *arguments, status=2, **more):
        """Prints nothing, and says why."""
        run = self.run(*arguments, **more)
        same(f"status and output of {arguments}", (run.returncode, run.stdout), (status, ""))
        if words not in run.stderr:
            raise Missed(f"no '{words}' in: {run.stderr}")

    def close(self):
        for box in self.boxes:
            box.process.kill()
            box.process.wait()


class Box:
    """`rig serve`, ready: it has said that it serves."""

    def __init__(self, site, device, image, *options, stop_at=None, stop_until="", prefix=(), errors=None):
        """Stopped at a moment of a keep, if it is named (rig/stops.c). Its messages go to a file, or to errors."""
        program = site.stopped if stop_at else site.rig
        self.messages_path = f"{site.folder}/messages-{len(site.boxes)}"
        with open(self.messages_path, "wb") as messages:
            self.process = subprocess.Popen([*prefix, *program, "serve", device, image, *map(str, options)],
                                            env=dict(os.environ, STOP_AT=stop_at or "never", STOP_UNTIL=stop_until),
                                            stdin=subprocess.DEVNULL, stdout=subprocess.PIPE, stderr=errors or messages)
        site.boxes.append(self)
        wait_until(self.process.stdout.fileno(), "the word that it serves")
        self.said = self.process.stdout.readline().decode()
        if not self.said:
            raise Missed(f"status {self.process.wait()}: {self.messages()}")

    def messages(self):
        return text_of(self.messages_path)

    def await_message(self, words, times=1):
        wait_for(lambda: self.messages().count(words) >= times, f"'{words}' from the box")

    def switches(self):
        """How often each of its threads was switched away from: none, if it did not run."""
        paths = sorted(glob.glob(f"/proc/{self.process.pid}/task/*/status"))
        return [re.findall(r"ctxt_switches:\t(\d+)", text_of(path)) for path in paths]

    def begin_burst(self, line, front):
        """The front of a burst is sent, and the box has taken it and waits for more."""
        before = self.switches()
        line.send(front)
        wait_for(lambda: self.switches() != before and line.unread() == 0, "bytes taken by the box")

    def end(self, number=signal.SIGTERM):
        self.process.send_signal(number)
        return self.wait()

    def wait(self):
        status = self.process.wait(PATIENCE)
        self.process.stdout.close()
        return status


class Play:
    """`rig play`, open."""

    def __init__(self, site, image, stop_at=None):
        self.process = subprocess.Popen([*(site.stopped if stop_at else site.rig), "play", image], stdin=subprocess.PIPE,
                                        env=dict(os.environ, STOP_AT=stop_at or "never"), stdout=subprocess.PIPE,
                                        stderr=subprocess.PIPE, text=True)
        site.boxes.append(self)

    def ask(self, burst):
        """The answer, empty for silence; where the program has ended without one, nothing."""
        self.process.stdin.write(burst.hex() + "\n")
        self.process.stdin.flush()
        wait_until(self.process.stdout.fileno(), "an answer of rig play")
        line = self.process.stdout.readline()
        return bytes.fromhex(line.strip().replace("-", "")) if line else None

    def ended(self):
        """Waits until it has ended: its output is closed before that. Its status is left to be asked for."""
        wait_for(lambda: os.waitid(os.P_PID, self.process.pid, os.WEXITED | os.WNOHANG | os.WNOWAIT), "the end of rig play")

    def end(self):
        """Its status and what it has said."""
        errors = self.process.communicate(timeout=PATIENCE)[1]
        return self.process.returncode, errors


class Host:
    """A host that knows from the log when its burst was played, and so also that it was met by silence."""

    def __init__(self, site, image, *options, quiet=QUIET, line=None, log=None, **more):
        self.line = line or Line()
        self.log = LogPipe(f"{site.folder}/log-{log or os.path.basename(image)}")
        options = (*options, "--log", self.log.path, *(["--quiet", quiet] if quiet else []))
        self.box = Box(site, self.line.path, image, *options, **more)
        self.last_line = ""

    def ask(self, burst):
        """The answer, empty for silence."""
        self.line.send(burst)
        return self.heard()

    def heard(self):
        """What came of the burst that was sent."""
        self.last_line = self.log.line()
        return b"" if self.last_line.split(": ")[3].startswith("silence") else self.line.answer()

    def end(self):
        same("status", self.box.end(), 0)
        same("bytes that nobody asked for", self.line.pending(), b"")
