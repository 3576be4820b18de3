#!/usr/bin/env python3
"""Proves and compiles the program and every crate that it stands on; `./dcr` calls this where the program isn't built.

    tools/build.py LOG PROGRAM

What rattle says goes to the file LOG, and how far the build is to standard error: in one line that is written anew on a
terminal, else in a line for each crate. The program is written to the file PROGRAM where all is proved, and the status
is 0; else it is 1, and the log ends with what was refused, or 128 and the number of a signal that ended it. The
libraries are kept in crates/dcr/out/libraries, from where a later call goes on: a crate is proved again where its
files, a crate below it or the kit changed.

Libraries are kept as statements: what the crates above can cite of them, without their proofs, so that little is read
again above. Of the crates that are ready, the one with the most seconds of proving left on its way up to the program goes
first and has a process for each processor, the one behind it has two, and the others have one each, and mostly what those
leave of the processors. The seconds are those of tools/seconds, as they were measured; what each crate took in a build
stands in crates/dcr/out/libraries/seconds, in the same form.
"""

import hashlib
import os
import re
import shutil
import signal
import subprocess
import sys
import tempfile
import time

TOP = os.path.dirname(os.path.dirname(os.path.realpath(__file__)))
OUT = os.path.join(TOP, "crates/dcr/out")
LIBRARIES = os.path.join(OUT, "libraries")
PARTS = ("src", "specs", "proofs")
# What a crate that is proved takes of memory, in bytes; and how far the crate that goes first, the one behind it and the
# others stand back from the processors.
MEMORY, NICE = 2_500_000_000, ("0", "5", "12")
# The processor seconds that crates take to prove, as they were measured, and for one that isn't there the seconds that a
# byte of its code takes, near enough.
SECONDS, OF_A_BYTE = os.path.join(TOP, "tools/seconds"), 0.004


class Crate:
    """A crate of the repository: the crates that it uses, lowest first, and the libraries of the kit."""

    def __init__(self, name, uses, of_kit):
        self.name, self.uses, self.of_kit = name, uses, of_kit
        self.folder = os.path.join(TOP, "crates", name)
        self.is_program = os.path.isfile(os.path.join(self.folder, "src/main.rt"))
        self.made = os.path.join(LIBRARIES, name + (".o" if self.is_program else ".rlib"))
        self.stamp = os.path.join(LIBRARIES, name + ".stamp")

    def files(self):
        walked = [os.walk(os.path.join(self.folder, part)) for part in PARTS]
        return sorted(os.path.join(at, name) for walk in walked for at, _, names in walk for name in names if name.endswith((".rt", ".antt")))

    def seconds(self, measured):
        """The processor seconds that it takes to prove, near enough."""
        return measured.get(self.name) or OF_A_BYTE * sum(os.path.getsize(file) for file in self.files() if file.endswith(".rt"))

    def sum(self, kit):
        """A checksum of all that the crate is made from. Of a crate below it is that of the one build that made it."""
        found = hashlib.sha256(kit.version)
        for file in self.files():
            found.update(b"%d %s\n" % (os.path.getsize(file), os.path.relpath(file, TOP).encode()))
            with open(file, "rb") as it:
                found.update(it.read())
        for used in self.uses:
            with open(used.stamp, "rb") as it:
                found.update(it.read())
        return found.hexdigest()

    def is_built(self, kit):
        try:
            with open(self.stamp) as it:
                return os.path.exists(self.made) and it.read().split()[0] == self.sum(kit)
        except (OSError, IndexError):
            return False

    def words(self, kit, jobs):
        """The words by which rattle proves and compiles it."""
        words = [kit.rattle, "build", "--crate-name", self.name, "src/main.rt" if self.is_program else "src/lib.rt"]
        for name in self.of_kit:
            words += ["--extern", "%s=%s" % (name, kit.path("rlibs", name + ".rlib"))]
        for used in self.uses:
            words += ["--extern", "%s=%s" % (used.name, used.made)]
        words += ["-L", "dependency=" + kit.path("rlibs"), "-L", "dependency=" + LIBRARIES]
        words += ["--antt-project", kit.path("rattle/logic/antt-project.json"), "--logic-built", kit.path("logic_built")]
        words += ["--links", self.name + "=", "--toolchain", kit.path("toolchain"), "--jobs", str(jobs)]
        words += [] if self.is_program else ["--statements"]
        return [*words, "-o", self.made]


class Kit:
    """Rattle's kit, found by its command `rt`."""

    def __init__(self):
        self.top = os.path.dirname(os.path.dirname(os.path.realpath(shutil.which("rt"))))
        self.rattle = self.path("bin/rattle")
        self.version = subprocess.run(["rt", "version"], stdin=subprocess.DEVNULL, stdout=subprocess.PIPE, check=False).stdout

    def path(self, *parts):
        return os.path.join(self.top, *parts)


def crates_of_the_program():
    """The program's crate and all below it, lowest first, by the list in crates.txt."""
    uses = {}
    with open(os.path.join(TOP, "crates.txt")) as file:
        for line in file:
            name, colon, used = line.partition("#")[0].partition(":")
            if colon:
                uses[name.split()[0]] = used.split()
    found = {}

    def add(name):
        if name not in found:
            own = [add(it) for it in uses[name] if it in uses]
            found[name] = Crate(name, own, ["std", *[it for it in uses[name] if it not in uses]])
        return found[name]

    add("dcr")
    return [*found.values()]


def measured_seconds(path=SECONDS):
    """The processor seconds that each crate took when they were measured; none where nobody did."""
    if not os.path.exists(path):
        return {}
    with open(path) as file:
        return {name: float(seconds) for name, seconds in (line.split() for line in file if line[:1] != "#")}


def used_seconds(group):
    """The processor seconds that a group of processes has used so far."""
    used = 0
    for name in os.listdir("/proc"):
        if name.isdigit():
            try:
                with open("/proc/%s/stat" % name, "rb") as file:
                    # (behind the name in brackets, whose bytes may be any: the state, the parent, the group, .., the ticks of
                    # it and of its children)
                    words = file.read().rpartition(b")")[2].split()
            except OSError:
                continue
            used += sum(map(int, words[11:15])) if int(words[2]) == group else 0
    return used / os.sysconf("SC_CLK_TCK")


def remove(path):
    """Removes a file or a folder, where it is there."""
    if os.path.isdir(path):
        shutil.rmtree(path)
    elif os.path.exists(path):
        os.remove(path)


class Build:
    """The build of some crates: those that are built, and those that are proved now, each with its process."""

    def __init__(self, kit, crates, log):
        self.kit, self.crates, self.log = kit, crates, log
        self.begun, self.built, self.running, self.told = time.monotonic(), [], {}, None
        self.signal, self.took = 0, {}
        above, measured = {it: [user for user in crates if it in user.uses] for it in crates}, measured_seconds()
        # The seconds on the way from each crate up to the program: its own, and those of the longest way above it.
        self.own, self.above = {it: it.seconds(measured) for it in crates}, {}
        for it in reversed(crates):
            self.above[it] = max([self.own[user] + self.above[user] for user in above[it]], default=0)

    def tell(self):
        """Tells how far the build is."""
        now = "proved and compiled %d of %d crates" % (len(self.built), len(self.crates))
        now += ", last %s" % self.built[-1].name if self.built else ""
        seconds = time.monotonic() - self.begun
        line = "%s; %d:%02d so far" % (now, seconds // 60, seconds % 60)
        if sys.stderr.isatty():
            print("\rdcr: %s \033[K" % line, end="", file=sys.stderr, flush=True)
        elif now != self.told:
            print("dcr: " + line, file=sys.stderr, flush=True)
        self.told = now

    def most(self):
        """How many crates are proved at a time: two for each processor at most, where memory lasts for as many."""
        with open("/proc/meminfo", "rb") as file:
            available = int(re.search(rb"MemAvailable: +(\d+)", file.read()).group(1)) * 1024
        return max(1, min(2 * len(os.sched_getaffinity(0)), len(self.running) + available // MEMORY))

    def left(self, crate):
        """The seconds that are left on the way from this crate up to the program."""
        used = used_seconds(self.running[crate][0].pid) if crate in self.running else 0
        return max(self.own[crate] - used, 0) + self.above[crate]

    def begin(self):
        """Begins with the crates that are ready, the one with the longest way up to the program first."""
        waiting = [it for it in self.crates if it not in self.built and it not in self.running]
        ready = sorted([it for it in waiting if {*it.uses} <= {*self.built}], key=self.left, reverse=True)
        for crate in ready:
            if len(self.running) >= self.most():
                break
            if crate.is_built(self.kit):
                self.built.append(crate)
                continue
            ahead, processors = sum(self.left(it) >= self.left(crate) for it in self.running), len(os.sched_getaffinity(0))
            words = crate.words(self.kit, processors if not ahead else min(2, processors) if ahead == 1 else 1)
            remove(crate.stamp)
            remove(crate.made)
            said, was = tempfile.TemporaryFile(), crate.sum(self.kit)
            how = {"cwd": crate.folder, "stdin": subprocess.DEVNULL, "stdout": said, "stderr": subprocess.STDOUT}
            # (a group of its own, and no session, since the sessions of a machine may have equal shares of it)
            ran = subprocess.Popen(["nice", "-n", NICE[min(ahead, 2)], *words], preexec_fn=os.setpgrp, **how)
            self.running[crate] = ran, said, was

    def is_running(self, crate, ran):
        """Whether the crate is still proved. Where it has ended, what it took of the processors is noted."""
        if ran.returncode is None:
            pid, status, used = os.wait4(ran.pid, os.WNOHANG)
            if pid:
                ran.returncode = os.WEXITSTATUS(status) if os.WIFEXITED(status) else -os.WTERMSIG(status)
                self.took[crate.name] = used.ru_utime + used.ru_stime
        return ran.returncode is None

    def end(self):
        """Takes in the crates that have ended. False where one was refused."""
        for crate, (ran, said, was) in [*self.running.items()]:
            if self.is_running(crate, ran):
                continue
            del self.running[crate]
            said.seek(0)
            self.log.write(b"== %s\n%s" % (crate.name.encode(), said.read()))
            self.log.flush()
            said.close()
            if ran.returncode:
                return False
            if crate.sum(self.kit) != was:
                self.log.write(b"%s was changed while it was proved\n" % crate.name.encode())
                return False
            # (with the build's own mark, since a library fits only those that it was built over)
            with open(crate.stamp, "w") as it:
                it.write("%s %s\n" % (was, os.urandom(8).hex()))
            self.built.append(crate)
        return True

    def note(self):
        """Notes what each crate took of the processors, those of earlier builds too."""
        path = os.path.join(LIBRARIES, "seconds")
        took = {**measured_seconds(path), **self.took}
        # (in one step, since a line that was cut off would be read by every later build)
        with open(path + ".new", "w") as file:
            file.writelines("%s %.0f\n" % (it.name, took[it.name]) for it in self.crates if it.name in took)
        os.replace(path + ".new", path)

    def interrupt(self, number, _):
        """Notes a signal. It ends the build where all that was begun is known, so that nothing is left behind."""
        self.signal = number

    def stop(self):
        """Ends all that was begun and hasn't ended."""
        for ran, said, _ in self.running.values():
            os.killpg(ran.pid, signal.SIGKILL)
            ran.wait()
            said.close()
        self.running = {}

    def run(self):
        """Builds all. False where a crate was refused, or a signal came."""
        try:
            while len(self.built) < len(self.crates):
                if self.signal or not self.end():
                    return False
                self.begin()
                self.tell()
                time.sleep(0.1 if self.running else 0)
            self.note()
            return True
        finally:
            self.stop()
            if sys.stderr.isatty():
                print(file=sys.stderr)


def main(log_file, program):
    os.makedirs(LIBRARIES, exist_ok=True)
    kit, crates = Kit(), crates_of_the_program()
    with open(log_file, "wb") as log:
        build = Build(kit, crates, log)
        for number in (signal.SIGINT, signal.SIGTERM, signal.SIGHUP):
            signal.signal(number, build.interrupt)
        is_built = build.run()
        if build.signal or not is_built:
            return 128 + build.signal if build.signal else 1
        words = [kit.path("bin/rattle-link"), "--target", "x86_64-unknown-linux-gnu", "--toolchain", kit.path("toolchain")]
        words += ["-o", program, crates[-1].made, kit.path("c/libos_c.a"), kit.path("c/liblibc_c.a")]
        return subprocess.run(words, stdin=subprocess.DEVNULL, stdout=log, stderr=log, check=False).returncode and 1


if __name__ == "__main__":
    if len(sys.argv) != 3:
        sys.exit(__doc__)
    sys.exit(main(*sys.argv[1:]))
