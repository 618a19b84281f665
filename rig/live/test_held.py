"""A setup belongs to one program at a time, and that program to the file that it holds."""
import fcntl
import os
import stat
import struct
import subprocess

from line import PATIENCE, Box, Host, Line, Play, bytes_of, let_go_on, same, wait_for
from paper import ACK, TWO, control, fan_get, fan_report, fan_set

PAIRS = 20
NOBODY = 65534
AS_NOBODY = ["setpriv", f"--reuid={NOBODY}", f"--regid={NOBODY}", "--clear-groups"]


def taken(image, process):
    return f"rig: {image} is taken: another rig is at work on it; end that one first (process {process.pid})\n"


LOOKED_AT = "rig: until then {} is looked at: a burst that would change it ends this program\n"


def an_open_play_and_another(site, _):
    """What the first has acknowledged is there at its end, and nobody else was told that a set of his was taken."""
    image, line = site.new("w", TWO), Line()
    first = Play(site, image)
    same("a get", first.ask(fan_get(1)), fan_report(1, 1))
    second = site.run("play", image, bursts=[fan_set(1, 4)])
    same("a second, and all that it said", (second.returncode, second.stdout, second.stderr),
         (2, "", taken(image, first.process) + LOOKED_AT.format(image) + taken(image, first.process)))
    site.fails(taken(image, first.process), "serve", line.path, image)
    same("a set", first.ask(fan_set(2, 3)), control(2, ACK))
    site.fails(taken(image, first.process), "play", image, bursts=[fan_set(1, 4)])      # the file is another by now
    same("a get by another", site.play(image, fan_get(2)), [fan_report(2, 3)])
    same("the end of the first", first.end(), (0, ""))
    same("both fans", site.play(image, fan_get(1), fan_get(2)), [fan_report(1, 1), fan_report(2, 3)])
    same("a set after it", site.play(image, fan_set(1, 4)), [control(1, ACK)])


def started(site, image):
    """What a server says that ends at once."""
    box = Box(site, Line().path, image)
    same("status", box.end(), 0)
    return box.messages()


def a_play_that_was_opened_before(site, _):
    """Beside a server it looks at the setup as that is, and has it to itself when the server has ended."""
    image = site.new("w", TWO)
    host = Host(site, image)
    play = Play(site, image)
    for value in (4, 3):
        same("the server's set", host.ask(fan_set(1, value)), control(1, ACK))
        same("the report by play", play.ask(fan_get(1)), fan_report(1, value))
    site.fails(taken(image, host.box.process), "play", image, bursts=[fan_set(1, 2)])
    host.end()
    same("the report when the server has ended", play.ask(fan_get(1)), fan_report(1, 3))
    same("what a server says that starts anew", started(site, image), "")       # it is not kept off by one that looks
    same("a set", play.ask(fan_set(2, 2)), control(2, ACK))
    site.fails(taken(image, play.process), "serve", Line().path, image)
    same("the report", play.ask(fan_get(1)), fan_report(1, 3))
    same("its status and what it said", play.end(), (0, taken(image, host.box.process) + LOOKED_AT.format(image)))


def not_replaced(host, why):
    """A set is not kept, not answered and does not count, and the log says why."""
    same("the answer to a set", host.ask(fan_set(1, 4)), b"")
    same("its line", host.last_line.split(": ")[3], f"silence, since the setup is not kept ({why})")
    same("the report after it", host.ask(fan_get(1)), fan_report(1, 1))


ANOTHER = "cannot replace it, another file stands in its place"
NO_LONGER = "cannot find it, No such file or directory"


def another_file_in_its_place(site, _):
    """Moved there, with a server of its own; taken away; and put back."""
    image, other, aside = site.new("w", TWO), site.new("v", TWO), f"{site.folder}/aside"
    site.play(other, fan_set(2, 3))
    first = Host(site, image)
    os.rename(image, aside)
    os.rename(other, image)
    not_replaced(first, ANOTHER)
    second = Host(site, image, log="second")
    same("the second server", second.ask(fan_set(2, 4)), control(2, ACK))
    not_replaced(first, ANOTHER)
    second.end()
    same("the second's setup", site.play(image, fan_get(1), fan_get(2)), [fan_report(1, 1), fan_report(2, 4)])
    os.unlink(image)
    not_replaced(first, NO_LONGER)
    same("times that it was told", first.box.messages().count("sets are not taken"), 1)
    os.rename(aside, image)
    same("a set when it is back", first.ask(fan_set(1, 4)), control(1, ACK))
    first.end()
    same("kept", site.play(image, fan_get(1)), [fan_report(1, 4)])


def a_link_that_changes(site, _):
    """Pointed at a setup that another server holds, and at nothing."""
    image, other, link = site.new("w", TWO), site.new("v", TWO), f"{site.folder}/link"
    os.symlink(image, link)
    first, second = Host(site, link), Host(site, other)
    os.symlink(other, f"{link}.new")
    os.rename(f"{link}.new", link)
    not_replaced(first, ANOTHER)
    same("the second server", second.ask(fan_set(2, 4)), control(2, ACK))
    same("the other setup", site.play(other, fan_get(1), fan_get(2)), [fan_report(1, 1), fan_report(2, 4)])
    second.end()
    os.unlink(other)
    not_replaced(first, NO_LONGER)
    same("the link", (os.path.islink(link), os.path.exists(link)), (True, False))
    first.end()


def replaced_while_it_is_synced(site, _):
    """The look at what stands there comes after the sync."""
    image, other, until = site.new("w", TWO), site.new("v", TWO), f"{site.folder}/until"
    os.mkfifo(until)
    host = Host(site, image, stop_at="long-sync", stop_until=until)
    host.line.send(fan_set(1, 4))
    wait_for(lambda: os.path.exists(f"{image}.{host.box.process.pid}.new"), "the file beside")
    before = bytes_of(other)
    os.rename(other, image)
    let_go_on(until)
    same("the answer", host.heard(), b"")
    same("its line", host.last_line.endswith(f"not kept ({ANOTHER})"), True)
    same("the other file", bytes_of(image), before)
    host.end()


def pointed_elsewhere_while_it_is_synced(site, _):
    image, other, link, until = site.new("w", TWO), site.new("v", TWO), f"{site.folder}/link", f"{site.folder}/until"
    os.mkfifo(until)
    os.symlink(image, link)
    host = Host(site, link, stop_at="long-sync", stop_until=until)
    before = bytes_of(image), bytes_of(other)
    host.line.send(fan_set(1, 4))
    wait_for(lambda: os.path.exists(f"{image}.{host.box.process.pid}.new"), "the file beside")
    os.symlink(other, f"{link}.new")
    os.rename(f"{link}.new", link)
    let_go_on(until)
    same("the answer", host.heard(), b"")
    same("its line", host.last_line.endswith(f"not kept ({ANOTHER})"), True)
    same("both files", (bytes_of(image), bytes_of(other)), before)
    host.end()


def where_files_cannot_be_exchanged(site, _):
    """The look before the rename has to do."""
    image, other = site.new("w", TWO), site.new("v", TWO)
    host = Host(site, image, stop_at="no-flags")
    same("a set", host.ask(fan_set(2, 3)), control(2, ACK))
    before = bytes_of(other)
    os.rename(other, image)
    not_replaced(host, ANOTHER)
    same("the other file", bytes_of(image), before)
    host.end()


def moved_there_at_the_last_moment(site, _):
    """Between the last look and the rename."""
    image, other = site.new("w", TWO), site.new("v", TWO)
    before = bytes_of(other)
    host = Host(site, image, stop_at="moved-before", stop_until=other)
    not_replaced(host, ANOTHER)
    same("the other file", bytes_of(image), before)
    same("the folder", sorted(n for n in os.listdir(site.folder) if n[0] in "vw"), ["w"])
    host.end()


def moved_there_before_it_is_held(site, _):
    """Between its opening and its lock: the file that is there then is read, held and kept."""
    image, other = site.new("w", TWO), site.new("v", TWO)
    site.play(other, fan_set(1, 3))
    run = site.run("play", image, bursts=[fan_get(1), fan_set(2, 4)], stop_at="moved-before-hold", stop_until=other)
    same("the answers", run.stdout, f"{fan_report(1, 3).hex()}\n{control(2, ACK).hex()}\n".upper())
    same("kept", site.play(image, fan_get(1), fan_get(2)), [fan_report(1, 3), fan_report(2, 4)])


def a_play_whose_setup_was_replaced(site, _):
    image, other = site.new("w", TWO), site.new("v", TWO)
    play = Play(site, image)
    same("a get", play.ask(fan_get(1)), fan_report(1, 1))
    before = bytes_of(other)
    os.rename(other, image)
    same("a set", play.ask(fan_set(1, 4)), None)
    same("its end", play.end(), (2, f"rig: {image}: cannot replace it: another file stands in its place; it is as it was\n"))
    same("the other file", bytes_of(image), before)


def a_pair(site, name, panels):
    """Two programs at once that make one new setup: the status and the messages of each."""
    pair = [subprocess.Popen([*site.rig, "new", name, panel], stderr=subprocess.PIPE, text=True) for panel in panels]
    return [(process.communicate(timeout=PATIENCE)[1], process.returncode) for process in pair]


def pairs_of_new(site, _):
    """One of the two has made it, and the other knows."""
    for k in range(PAIRS):
        name, panels = f"{site.folder}/{k}", ["1:9", "2:9"]
        ends = a_pair(site, name, panels)
        there = (f"rig: {name} is there already; remove it first, or give another name\n", 2)
        same("their ends", sorted(ends), sorted([("", 0), there]))
        done = ends.index(("", 0))
        same("the first ID in the file", bytes_of(name)[0], 1 + done)
    same("what is there", sorted(os.listdir(site.folder)), sorted(str(k) for k in range(PAIRS)))


def a_name_that_is_given_meanwhile(site, _):
    """At the last moment; with a rename that does not replace, and where the file system has none."""
    image, new = site.new("w", TWO[:1]), f"{site.folder}/n"
    for moment in ("named-before", "linked-before"):
        for command in (("new", new, "1:9"), ("back", image, new), ("salvage", image, new)):
            run = site.run(*command, stop_at=moment)
            same(f"{command[0]} {moment}", (run.returncode, run.stderr),
                 (2, f"rig: {new} is there already; remove it first, or give another name\n"))
            same("the file that was there", bytes_of(new), b"")
            same("the folder", sorted(os.listdir(site.folder)), ["n", "w"])
            os.unlink(new)
    site.fails(f"rig: {image} is there already; remove it first, or give another name\n", "new", image, "1:9",
               prefix=["sh", "-c", 'ulimit -f 0; exec "$@"', "sh"])         # it is told also where no file can be written
    same("new by a link", site.run("new", new, "1:9", stop_at="no-flags").returncode, 0)
    same("its file", (bytes_of(new)[0], os.stat(new).st_nlink), (1, 1))
    same("the folder", sorted(os.listdir(site.folder)), ["n", "w"])


def owner_of(path):
    is_now = os.stat(path)
    return is_now.st_uid, is_now.st_gid, stat.S_IMODE(is_now.st_mode)


def owner_and_group_stay(site, _):
    """Root plays a set on the service's setup. Who may not give a file away does not keep it."""
    if os.geteuid() != 0:
        return                          # nobody else can have a setup of another's
    image, mode = site.new("w", TWO), 0o640
    os.chown(image, NOBODY, NOBODY)
    os.chmod(image, mode)
    host = Host(site, image)
    same("a set", host.ask(fan_set(1, 4)), control(1, ACK))
    host.end()
    same("a set by play", site.play(image, fan_set(1, 3)), [control(1, ACK)])
    same("owner, group and mode", owner_of(image), (NOBODY, NOBODY, mode))
    os.chmod(site.folder, 0o777)
    os.chmod(image, 0o6750)
    site.run("play", image, bursts=[fan_set(1, 4), fan_set(1, 3)], prefix=AS_NOBODY).check_returncode()
    same("owner, group and mode by its owner", owner_of(image), (NOBODY, NOBODY, 0o6750))
    same("a set by root", site.play(image, fan_set(1, 4), fan_set(1, 3)), [control(1, ACK)] * 2)
    same("owner, group and mode by root", owner_of(image), (NOBODY, NOBODY, 0o6750))
    os.chown(image, 0, NOBODY)
    os.chmod(image, 0o664)
    site.fails(f"rig: {image}: cannot give the new setup the owner and the group of the old one: Operation not permitted; it "
               "is as it was\n", "play", image, bursts=[fan_set(1, 2)], prefix=AS_NOBODY)
    same("kept", site.play(image, fan_get(1)), [fan_report(1, 3)])
    same("beside it", [n for n in os.listdir(site.folder) if n.endswith(".new")], [])


def planted_beside(site, _):
    """A link and a file that have the name of the file beside stay as they are, and the set is kept."""
    image, victim = site.new("w", TWO), f"{site.folder}/victim"
    with open(victim, "w") as file:
        file.write("mine")
    host = Host(site, image)
    for k, plant in enumerate((os.symlink, os.link)):
        plant(victim, f"{image}.{host.box.process.pid + k}.new")
    same("the answer to a set", host.ask(fan_set(1, 4)), control(1, ACK))
    same("the file behind the link", bytes_of(victim), b"mine")
    same("kept", site.play(image, fan_get(1)), [fan_report(1, 4)])
    host.end()


def leftovers(site, _):
    """Of programs that are gone they go with the next start; what is a living program's, or has another name, stays."""
    image, new, until = site.new("w", TWO), f"{site.folder}/n", f"{site.folder}/until"
    os.mkfifo(until)
    others = ["w.7.old", "w.07.new", "w.x.new", "wx.7.new", "w.20261116.new", "w.-7.new", "w.7.new.new"]
    for name in others:
        with open(f"{site.folder}/{name}", "w") as file:
            file.write(name)
    os.symlink("victim", f"{site.folder}/w.8.new")
    os.mkdir(f"{site.folder}/w.9.new")
    os.link(f"{site.folder}/wx.7.new", f"{site.folder}/w.10.new")
    with open(f"{site.folder}/w.11.new", "wb") as file:
        file.write(bytes(1443))         # a setup has at most 1,442
    living = open(f"{site.folder}/w.{os.getpid()}.new", "w")    # not held yet
    held = open(f"{site.folder}/w.4194302.new", "w")            # by one that is not this machine's to see
    fcntl.flock(held, fcntl.LOCK_EX)
    if os.geteuid() == 0:
        others.append("w.12.new")       # a third user's
        with open(f"{site.folder}/w.12.new", "w"):
            os.chown(f"{site.folder}/w.12.new", NOBODY, NOBODY)
    stay = sorted([*others, *(os.path.basename(f.name) for f in (living, held)), "w.8.new", "w.9.new", "w.10.new", "w.11.new"])

    def beside(of):
        return sorted(n for n in os.listdir(site.folder) if n.startswith(of) and n not in ("w", "n", "until"))
    for start in (lambda: site.run("play", image).stderr, lambda: started(site, image)):
        killed = Play(site, image, stop_at="killed-before-rename")      # its status is not asked for before the next start
        same("the answer of one that is killed", killed.ask(fan_set(1, 4)), None)
        killed.ended()
        left = [n for n in beside("w") if n not in stay]
        same("files beside", len(left), 1)
        same("what was told", start(), f"rig: removed {left[0]}, which a program that is gone left beside w\n")
        same("files beside after the next start", beside("w"), stay)
        same("killed", killed.end()[0], -9)
    same("killed", site.run("new", new, "1:9", stop_at="killed-before-rename").returncode, -9)
    left = beside("n.")
    same("files beside", len(left), 1)
    slow = subprocess.Popen([*site.stopped, "new", new, "1:9"], stderr=subprocess.PIPE, text=True,
                            env=dict(os.environ, STOP_AT="long-sync", STOP_UNTIL=until))
    try:
        wait_for(lambda: beside("n.") == [f"n.{slow.pid}.new"], "the file beside of one that is slow, and of no other")
        same("another, which is quicker", site.run("new", new, "2:9").returncode, 0)
        same("the file beside of the slow one", beside("n."), [f"n.{slow.pid}.new"])
        let_go_on(until)
        same("the end of the slow one", (slow.communicate(timeout=PATIENCE)[1], slow.returncode),
             (f"rig: removed {left[0]}, which a program that is gone left beside n\n"
              f"rig: {new} is there already; remove it first, or give another name\n", 2))
    finally:
        slow.kill()
    same("files beside", beside("n."), [])


def names_of_our_own(site, _):
    """A setup that somebody wants to keep does not get the name of a file that is cleaned up."""
    image = site.new("w", TWO[:1])
    for new in ("w.8.new", "x.4194303.new", "w.1.2.new"):
        path = f"{site.folder}/{new}"
        for command in (("new", path, "1:9"), ("back", image, path), ("salvage", image, path)):
            run = site.run(*command)
            same(f"{command[0]} {new}", (run.returncode, run.stderr), (2, f"rig: {path}: cannot make it: names with .NUMBER.new "
                 "at their end are of files that the rig writes beside a setup; no file is made\n"))
    same("the folder", os.listdir(site.folder), ["w"])
    site.new("w.new", TWO)
    site.new("w.8.newer", TWO)


def access_list(*entries):
    """As the system keeps it: its version, then tag, permissions and whose."""
    return struct.pack("<I", 2) + b"".join(struct.pack("<HHI", *entry) for entry in entries)


def who_else_may_write_it(site, _):
    """The setup's access list stays, and the folder's own gives it none."""
    image, plain, name = site.new("w", TWO), site.new("v", TWO), "system.posix_acl_access"
    none = 0xFFFFFFFF
    listed = access_list((1, 6, none), (2, 6, NOBODY), (4, 4, none), (16, 6, none), (32, 0, none))
    try:
        os.setxattr(image, name, listed)
    except OSError:
        return                          # the file system has no such lists
    of_the_folder = access_list((1, 7, none), (2, 7, NOBODY), (4, 5, none), (16, 7, none), (32, 5, none))
    os.setxattr(site.folder, "system.posix_acl_default", of_the_folder)
    for setup in (image, plain):
        same("a set", site.play(setup, fan_set(1, 4)), [control(1, ACK)])
    same("the list", os.getxattr(image, name), listed)
    same("the lists of the other", [n for n in os.listxattr(plain) if n == name], [])


def no_regular_file(site, _):
    """Nothing is waited for."""
    fifo, line = f"{site.folder}/fifo", Line()
    os.mkfifo(fifo)
    for image in (fifo, "/dev/null", line.path):
        words = f"rig: {image} is no regular file, and a setup that is to be changed is kept in one\n"
        site.fails(words, "serve", line.path, image)
        site.fails(words, "play", image)


TESTS = [
    ("an open play and another: none loses the other's set", an_open_play_and_another),
    ("a play that was opened before reports what is there", a_play_that_was_opened_before),
    ("another file in the setup's place is never replaced", another_file_in_its_place),
    ("a link that is pointed elsewhere or at nothing", a_link_that_changes),
    ("another file that comes while the new setup is synced", replaced_while_it_is_synced),
    ("a link that is pointed elsewhere while the new setup is synced", pointed_elsewhere_while_it_is_synced),
    ("another file where files cannot be exchanged", where_files_cannot_be_exchanged),
    ("another file that comes at the last moment", moved_there_at_the_last_moment),
    ("a play whose setup was replaced", a_play_whose_setup_was_replaced),
    ("another file that comes before the setup is held", moved_there_before_it_is_held),
    (f"{PAIRS} pairs of new side by side: one makes the file", pairs_of_new),
    ("a name that is given at the last moment", a_name_that_is_given_meanwhile),
    ("owner and group stay", owner_and_group_stay),
    ("what is planted beside a setup is not written to", planted_beside),
    ("what killed programs left beside goes with the next start", leftovers),
    ("names of files beside are no names of setups", names_of_our_own),
    ("the list of who else may write a setup stays", who_else_may_write_it),
    ("a setup that is no regular file is refused at once", no_regular_file),
]
