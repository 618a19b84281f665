"""What a box on a line meets beside its line: a log that is rotated, signals, messages that nobody reads, closed descriptors."""
import os
import re
import signal
import subprocess

from line import PATIENCE, QUIET, Box, Line, bytes_of, let_go_on, same, text_of, wait_for
from paper import TWO, fan_get, fan_report, fan_set
from test_line import Reader, fill

RIG_PAGE = os.path.join(os.path.dirname(__file__), "../../docs/RIG.md")


def numbers_in(log):
    return [int(line.split()[1].rstrip(":")) for line in text_of(log).splitlines()]


def asked(line, count):
    for _ in range(count):
        line.send(fan_get(1))
        same("the report", line.answer(), fan_report(1, 1))


def a_log_that_is_rotated(site, _):
    """SIGHUP opens the log anew, also while nothing comes and while the device is away; without a log it changes nothing."""
    image, line, log, link = site.new("w", TWO), Line(), f"{site.folder}/log", f"{site.folder}/device"
    os.symlink(line.path, link)
    box = Box(site, link, image, "--quiet", QUIET, "--log", log)
    for k in range(3):
        asked(line, 2)
        if k == 2:
            line.close()
            box.await_message("went away")
        os.rename(log, f"{log}.{k}")
        box.process.send_signal(signal.SIGHUP)
        wait_for(lambda: os.path.exists(log), "a new log")
        same("the old one's lines", numbers_in(f"{log}.{k}"), [2 * k + 1, 2 * k + 2])
        same("the new one's", numbers_in(log), [])
    same("status", box.end(), 0)
    same("messages", box.messages(), f"rig: {link} went away; it is opened again when it comes back\n")
    line = Line()
    box = Box(site, line.path, image, "--quiet", QUIET)
    box.process.send_signal(signal.SIGHUP)
    asked(line, 1)
    same("status without a log", box.end(), 0)


def a_new_log_that_cannot_be_opened(site, _):
    """Lines go where they went until it can be, which is told once."""
    image, line, log, gone = site.new("w", TWO), Line(), f"{site.folder}/logs/log", f"{site.folder}/gone"
    os.mkdir(os.path.dirname(log))
    box = Box(site, line.path, image, "--quiet", QUIET, "--log", log)
    asked(line, 1)
    os.rename(os.path.dirname(log), gone)
    box.process.send_signal(signal.SIGHUP)
    told = (f"rig: cannot open the log {log} anew: No such file or directory; it goes on where it was, and tries again at each "
            "burst\n")
    box.await_message(told)
    asked(line, 2)
    os.mkdir(os.path.dirname(log))
    asked(line, 1)
    wait_for(lambda: os.path.exists(log), "the new log")
    asked(line, 1)
    old, new = numbers_in(f"{gone}/log"), numbers_in(log)
    same("the lines of both", old + new, [1, 2, 3, 4, 5])
    same("those before it could be opened, and the last", (old[:3], new[-1:]), ([1, 2, 3], [5]))
    same("status", box.end(), 0)
    same("messages", box.messages(), told)


def a_log_that_becomes_the_setup(site, _):
    """Or the device, by a link: no line goes there."""
    image, line, log = site.new("w", TWO), Line(), f"{site.folder}/log"
    before = bytes_of(image)
    for to in (image, line.path):
        box = Box(site, line.path, image, "--quiet", QUIET, "--log", log)
        asked(line, 1)
        os.unlink(log)
        os.symlink(to, log)
        box.process.send_signal(signal.SIGHUP)
        box.await_message(f"rig: cannot open the log {log} anew: it is the setup or the device itself; it goes on")
        asked(line, 2)
        same("status", box.end(), 0)
        same("the setup", bytes_of(image), before)
        same("what went out", line.pending(), b"")
        os.unlink(log)


def signals_while_bursts_wait(site, _):
    """They are met between two bursts, and not when none waits any more."""
    image, line, log, until = site.new("w", TWO), Line(), f"{site.folder}/log", f"{site.folder}/until"
    os.mkfifo(until)
    box = Box(site, line.path, image, "--quiet", 1, "--log", log, stop_at="long-sync", stop_until=until)
    reader = Reader(box)
    for k in range(20):
        reader.take(line, fan_set(1, 2 + k % 2))
    os.rename(log, f"{log}.1")
    box.process.send_signal(signal.SIGHUP)
    let_go_on(until)
    for _ in range(20):
        line.answer()
    same("the lines of both logs", numbers_in(f"{log}.1") + numbers_in(log), list(range(1, 21)))
    same("the lines of the old one", numbers_in(f"{log}.1"), [1])
    same("status", box.end(), 0)


def the_page_s_example_for_logrotate(site, _):
    """docs/RIG.md's, with the paths of this test."""
    image, line, log = site.new("wall.img", TWO), Line(), f"{site.folder}/wall.log"
    example = re.search(r"^    (/var/log/wall\.log \{\n.*?\n    \})\n", text_of(RIG_PAGE), re.M | re.S)[1]
    for name, own in (("/var/log/wall.log", log), ("/var/lib/rig/wall.img", image)):
        same(f"{name} in the example", name in example, True)
        example = example.replace(name, own)
    config, state = f"{site.folder}/logrotate.conf", f"{site.folder}/state"
    with open(config, "w") as file:
        file.write(example + "\n")
    os.chmod(config, 0o644)
    box = Box(site, line.path, image, "--quiet", QUIET, "--log", log)
    for k in range(3):
        asked(line, 2)
        rotation = subprocess.run(["logrotate", "--force", "--state", state, config], capture_output=True, text=True,
                                  env=dict(os.environ, PATH=os.environ["PATH"] + ":/usr/sbin"), timeout=PATIENCE)
        same("logrotate", (rotation.returncode, rotation.stderr), (0, ""))
        wait_for(lambda: os.path.exists(log), "a new log")
        same("the old log", numbers_in(f"{log}.1"), [2 * k + 1, 2 * k + 2])
    asked(line, 1)
    same("the new log", numbers_in(log), [7])
    same("status", box.end(), 0)
    same("messages", box.messages(), "")


def full_pipe():
    """A pipe that nobody reads and that takes no more."""
    _read, write = os.pipe()
    os.set_blocking(write, False)
    try:
        while True:
            os.write(write, bytes(4096))
    except BlockingIOError:
        os.set_blocking(write, True)
    return write


def messages_that_nobody_reads(site, _):
    """At the start, while it runs and at the end."""
    image, line, no_log = site.new("w", TWO), Line(), f"{site.folder}/none/log"
    terminal = Line()
    fill(terminal)
    os.set_blocking(terminal.box, True)
    for messages in (full_pipe(), terminal.box):
        box = Box(site, line.path, image, "--quiet", QUIET, "--log", no_log, errors=messages)
        asked(line, 2)
        same("status", box.end(), 0)
        for wrong in ([f"{site.folder}/none"], [image, "--baud", "1"], [image, "--bad"]):
            same(f"status with {wrong}", subprocess.run([*site.rig, "serve", line.path, *wrong], stderr=messages,
                                                        timeout=PATIENCE).returncode, 2)
    same("status where nothing may be written without a look for room",
         subprocess.run([*site.stopped, "serve", line.path, image, "--bad"], stderr=full_pipe(), timeout=PATIENCE,
                        env=dict(os.environ, STOP_AT="killed-without-room")).returncode, 2)
    _nobody, messages = os.pipe()       # where somebody else takes the room that was there
    box = Box(site, line.path, image, "--quiet", QUIET, "--log", no_log, errors=messages, stop_at="room-taken")
    asked(line, 2)
    same("status", box.end(), 0)


def a_first_line_that_nobody_reads(site, _):
    image, line, log = site.new("w", TWO), Line(), f"{site.folder}/log"
    process = subprocess.Popen([*site.rig, "serve", line.path, image, "--quiet", str(QUIET), "--log", log],
                               stdin=subprocess.DEVNULL, stdout=full_pipe())
    try:
        wait_for(lambda: os.path.exists(log), "the log")
        asked(line, 1)
        process.terminate()
        same("status", process.wait(PATIENCE), 0)
    finally:
        process.kill()


def closed_descriptors(site, _):
    """What is printed never goes to a file that was opened in its place."""
    image, log = site.new("w", TWO), f"{site.folder}/log"
    for k, closed in enumerate((">&-", "2>&-", "<&-", ">&- 2>&-", "<&- >&-", "<&- >&- 2>&-")):
        line = Line()
        process = subprocess.Popen(["sh", "-c", f'exec "$@" {closed}', "sh", *site.rig, "serve", line.path, image, "--quiet",
                                    str(QUIET), "--log", log], stdout=subprocess.DEVNULL, stderr=subprocess.DEVNULL)
        try:
            wait_for(lambda: os.path.exists(log), "the log")
            asked(line, 1)
            process.terminate()
            same(f"status with {closed}", process.wait(PATIENCE), 0)
        finally:
            process.kill()
        same(f"lines with {closed}", numbers_in(log), [1])
        same("what went out", line.pending(), b"")
        os.unlink(log)


def an_ignored_signal_stays_ignored(site, _):
    """As for a program that a shell runs in the background."""
    image, line = site.new("w", TWO), Line()
    box = Box(site, line.path, image, "--quiet", QUIET, prefix=["sh", "-c", "trap '' INT; exec \"$@\"", "sh"])
    box.process.send_signal(signal.SIGINT)
    asked(line, 2)
    same("status", box.end(), 0)


TESTS = [
    ("SIGHUP opens the log anew", a_log_that_is_rotated),
    ("a new log that cannot be opened", a_new_log_that_cannot_be_opened),
    ("a log that becomes the setup or the device", a_log_that_becomes_the_setup),
    ("signals while bursts wait", signals_while_bursts_wait),
    ("the example for logrotate of docs/RIG.md", the_page_s_example_for_logrotate),
    ("messages that nobody reads", messages_that_nobody_reads),
    ("a first line that nobody reads", a_first_line_that_nobody_reads),
    ("descriptors that are closed", closed_descriptors),
    ("SIGINT that the caller ignores", an_ignored_signal_stays_ignored),
]
