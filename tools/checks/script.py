"""`./dcr` and `.ci/run` over a small checkout of four crates and a stand-in for the kit, which is slow, fails, or is missing."""

import contextlib
import os
import pty
import shutil
import signal
import subprocess
import tempfile
import time

from checks import TOP, NotTried, run, want

# The stand-in proves nothing: it waits, in a process of its own, and makes a program of the shell that tells its words. A
# library that a crate is built over must be there.
KIT = {
    "rt": """#!/bin/sh
echo a kit
""",
    "rattle": """#!/bin/sh
while [ $# -gt 0 ]; do
    case $1 in
    --crate-name) crate=$2 ;;
    --extern)
        case $2 in */libraries/*) [ -d "${2#*=}" ] || missing=${2#*=} ;; esac
        ;;
    src/*) file=$1 ;;
    -o) made=$2 ;;
    esac
    shift
done
echo "$crate" >>"$STAND_IN/calls"
[ -z "${missing:-}" ] || { echo "$missing: is missing"; exit 2; }
(
    sleep "${SLOW:-0}"
    [ "${FAILS:-}" != "$crate" ] || { echo "$crate: not proved"; exit 1; }
    case $made in
    *.o) cp "$file" "$made" ;;
    *) mkdir "$made" ;;
    esac
) &
wait $!
""",
    "rattle-link": """#!/bin/sh
while [ $# -gt 0 ]; do
    case $1 in
    -o) program=$2 ;;
    *.o) object=$1 ;;
    esac
    shift
done
[ "${FAILS:-}" != link ] || { echo "dcr: not linked"; exit 3; }
printf '#!/bin/sh\n[ "$1" = run ] || exit 2\n[ "${2:-}" != status ] || exit 8\n[ "${FAILS:-}" != report ] || echo "another line"\necho "%s $*"\ncat\n' "$(cat "$object")" >"$program"
chmod +x "$program"
""",
}
ALL = ["dcr", "dcr_app", "dcr_base", "dcr_set"]
USAGE, NO_KIT, FAILED, NOT_WRITABLE = 2, 69, 70, 73


class Checkout:
    """A checkout of four crates in a folder of its own, with the stand-in on the path."""

    def __init__(self, folder):
        self.top, self.bin = os.path.join(folder, "the check out"), os.path.join(folder, "the kit/bin")
        for crate, file in [("dcr_set", "lib.rt"), ("dcr_base", "lib.rt"), ("dcr_app", "lib.rt"), ("dcr", "main.rt")]:
            os.makedirs("%s/crates/%s/src" % (self.top, crate))
            self.write("crates/%s/src/%s" % (crate, file), "first")
        self.write("crates.txt", "# values\ndcr_set:\ndcr_base:\n\n# the program\ndcr_app: dcr_set dcr_base\ndcr: dcr_app\nother: dcr_set\n")
        os.mkdir(self.top + "/examples")
        self.write("examples/first.json", "a case")
        self.write("examples/first.report", "first run\na case")
        shutil.copy(TOP + "/dcr", self.top + "/dcr")
        os.mkdir(self.top + "/tools")
        for tool in ("built.sh", "build.py", "seconds"):
            shutil.copy("%s/tools/%s" % (TOP, tool), "%s/tools/%s" % (self.top, tool))
        os.makedirs(self.bin)
        for name, text in KIT.items():
            with open("%s/%s" % (self.bin, name), "w") as file:
                file.write(text)
            os.chmod("%s/%s" % (self.bin, name), 0o755)
        self.environment = {"PATH": self.bin + ":/usr/bin:/bin", "STAND_IN": folder}
        self.calls_file = folder + "/calls"

    def write(self, name, text):
        with open(os.path.join(self.top, name), "w") as file:
            file.write(text)

    def change(self, text):
        """Another program, whose report of the example is another one too."""
        self.write("crates/dcr/src/main.rt", text)
        self.write("examples/first.report", "%s run\na case" % text)

    def calls(self):
        """The crates that were taken up so far, in order."""
        with contextlib.suppress(FileNotFoundError), open(self.calls_file) as file:
            return file.read().split()
        return []

    def proved(self, call):
        """The crates that are taken up while something is done, in order."""
        before = len(self.calls())
        call()
        return self.calls()[before:]

    def dcr(self, *words, by=None, given=b"input", cwd=None, **more):
        return run([by or self.top + "/dcr", *words], given, env={**self.environment, **more}, cwd=cwd)

    def begin(self, *words, **more):
        how = {"stdin": subprocess.PIPE, "stdout": subprocess.PIPE, "stderr": subprocess.PIPE}
        return subprocess.Popen([self.top + "/dcr", *words], env={**self.environment, **more}, start_new_session=True, **how)


@contextlib.contextmanager
def checkout():
    with tempfile.TemporaryDirectory() as folder:
        yield Checkout(folder)


def want_ran(told, text=b"first run\ninput"):
    want(told[:2] == (0, text), str(told))


def check_the_first_call_builds_and_later_ones_run():
    with checkout() as it:
        told = it.dcr("run", SLOW="0.3")
        want_ran(told)
        want(b"of 4 crates, last dcr_" in told[2] and b"so far" in told[2], "it tells too little: %s" % told[2])
        want(all(line.startswith(b"dcr: ") for line in told[2].splitlines()), "another program speaks: %s" % told[2])
        want(sorted(it.calls()) == ALL and it.calls()[2:] == ["dcr_app", "dcr"], str(it.calls()))
        want(it.dcr("run") == (0, b"first run\ninput", b""), "the second call isn't silent")
        want(len(it.calls()) == 4, str(it.calls()))


def check_what_did_not_change_is_not_proved_again():
    def again():
        os.remove(it.top + "/crates/dcr/out/dcr.built")
        want_ran(it.dcr("run"))

    with checkout() as it:
        it.dcr("run")
        want(it.proved(again) == [], "nothing changed")
        it.write("crates/dcr_base/src/lib.rt", "changed")
        want(it.proved(again) == ["dcr_base", "dcr_app", "dcr"], "a library that changed, and what stands on it")
        # A library fits only those that it was built over.
        os.rmdir(it.top + "/crates/dcr/out/libraries/dcr_set.rlib")
        want(it.proved(again) == ["dcr_set", "dcr_app", "dcr"], "a library that went, and what stands on it")
        with open(it.bin + "/rt", "w") as file:
            file.write("#!/bin/sh\necho another kit\n")
        want(sorted(it.proved(again)) == ALL, "another kit")


def check_on_a_terminal_one_line_is_written_anew():
    try:
        ours, theirs = pty.openpty()
    except OSError as error:
        raise NotTried("no terminal can be made: %s" % error) from None
    with checkout() as it:
        ran = subprocess.run([it.top + "/dcr", "run"], input=b"input", env=it.environment, stdout=subprocess.PIPE, stderr=theirs, timeout=300)
    os.close(theirs)
    said = os.read(ours, 65536)
    os.close(ours)
    want_ran((ran.returncode, ran.stdout, said))
    want(b"\rdcr: proved and compiled" in said and said.count(b"\n") == 3 and said.endswith(b"\n"), str(said))


def check_words_input_and_status_are_handed_on():
    with checkout() as it:
        it.dcr("run")
        want_ran(it.dcr("run", "two words", "*", ""), b"first run two words * \ninput")
        want(it.dcr("run", "status")[0] == 8 and it.dcr()[0] == USAGE, "the statuses")


def check_a_change_is_built():
    with checkout() as it:
        it.dcr("run")
        it.change("second")
        want_ran(it.dcr("run"), b"second run\ninput")
        # Neither an older time nor a file that went hides a change.
        it.change("third")
        os.utime(it.top + "/crates/dcr/src/main.rt", (1, 1))
        want_ran(it.dcr("run"), b"third run\ninput")
        os.remove(it.top + "/crates/dcr_set/src/lib.rt")
        want(it.proved(lambda: it.dcr("run")) == ["dcr_set", "dcr_app", "dcr"], "a file that went is not built")


def check_from_anywhere():
    with checkout() as it, tempfile.TemporaryDirectory() as other:
        it.dcr("run")
        os.makedirs(other + "/the check out/crates")
        os.symlink(it.top + "/dcr", other + "/link")
        os.symlink(other + "/link", other + "/dcr")
        want_ran(it.dcr("run", by=other + "/dcr", cwd="/"))
        want_ran(it.dcr("run", by="./dcr", cwd=other))
        want_ran(it.dcr("run", by="./dcr", cwd=it.top, CDPATH="%s:/" % other))
        want_ran(it.dcr("run", by="the check out/dcr", cwd=os.path.dirname(it.top), CDPATH=other))
        path = "%s:%s" % (other, it.environment["PATH"])
        want_ran(run(["env", "dcr", "run"], b"input", env={**it.environment, "PATH": path}))
        want_ran(run(["sh", "dcr", "run"], b"input", env=it.environment, cwd=it.top))


def check_a_failed_build_runs_nothing():
    with checkout() as it:
        for fails, log in [("dcr_set", b"dcr_set: not proved"), ("link", b"dcr: not linked"), ("report", b"first.report")]:
            status, wrote, said = it.dcr("run", FAILS=fails)
            want((status, wrote) == (FAILED, b"") and log in said, "%s: %s" % (fails, (status, wrote, said)))
            want(fails != "dcr_set" or "dcr_app" not in it.calls(), "what stands on a crate that failed is taken up")
        want(it.dcr("run", FAILS="link")[0] == FAILED, "the second time")
        want_ran(it.dcr("run"))


def check_the_old_program_stays_and_is_not_run():
    with checkout() as it:
        it.dcr("run")
        it.change("second")
        for fails in ("dcr", "link"):
            status, wrote, said = it.dcr("run", FAILS=fails)
            want((status, wrote) == (FAILED, b""), str((status, wrote, said)))
            want(run([it.top + "/crates/dcr/out/dcr", "run"])[1] == b"first run\n", "the program that worked went")
        it.change("first")
        want_ran(it.dcr("run", FAILS="dcr"))


def check_a_missing_kit_is_told():
    with checkout() as it:
        status, wrote, said = it.dcr("run", PATH="/usr/bin:/bin")
        want((status, wrote) == (NO_KIT, b"") and b"rt, the command" in said and b"PATH" in said and said.count(b"\n") == 1, str((status, wrote, said)))
        want(not shutil.which("python3", path="/usr/bin:/bin") or b"python3" not in said, "it says that what is there is missing: %s" % said)
        # All that stands there but Python.
        others = os.path.join(os.path.dirname(it.top), "others")
        os.mkdir(others)
        for name in {*os.listdir("/usr/bin"), *os.listdir("/bin")}:
            if not name.startswith("python"):
                os.symlink(shutil.which(name, path="/usr/bin:/bin") or "/usr/bin/" + name, os.path.join(others, name))
        status, wrote, said = it.dcr("run", PATH=it.bin + ":" + others)
        want((status, wrote) == (NO_KIT, b"") and b"PATH: python3\n" in said, str((status, wrote, said)))
        it.dcr("run")
        want_ran(it.dcr("run", PATH="/usr/bin:/bin"))


def check_what_an_editor_leaves_builds_nothing():
    with checkout() as it:
        it.dcr("run")
        for name in ("main.rt~", ".main.rt.swp", "#main.rt#"):
            it.write("crates/dcr/src/" + name, "half")
        want(it.proved(lambda: want_ran(it.dcr("run"))) == [], "it builds anew")


def check_a_checkout_that_can_t_be_written():
    def locked(is_locked):
        for folder in ["/crates/dcr/out", "/crates/dcr", "/crates", ""]:
            with contextlib.suppress(FileNotFoundError):
                os.chmod(it.top + folder, 0o555 if is_locked else 0o755)

    # As root every folder can be written, so the script runs as nobody there.
    if not os.geteuid() and not shutil.which("setpriv"):
        raise NotTried("setpriv is not on the path")
    own = [] if os.geteuid() else ["setpriv", "--reuid=65534", "--regid=65534", "--clear-groups"]
    with checkout() as it:
        os.chmod(os.path.dirname(it.top), 0o755)
        locked(True)
        told = run([*own, it.top + "/dcr", "run"], b"input", env=it.environment)
        want(told[:2] == (NOT_WRITABLE, b"") and b"can't be written" in told[2], str(told))
        locked(False)
        it.dcr("run")
        locked(True)
        told = run([*own, it.top + "/dcr", "run"], b"input", env=it.environment)
        locked(False)
        want_ran(told)


def check_two_calls_at_once_build_once():
    with checkout() as it:
        both = [it.begin("run", SLOW="0.5") for _ in range(2)]
        for ran in both:
            wrote, said = ran.communicate(b"input", timeout=300)
            want_ran((ran.returncode, wrote, said))
        want(sorted(it.calls()) == ALL, str(it.calls()))


def check_a_copy_runs_what_it_has():
    with checkout() as it, tempfile.TemporaryDirectory() as other:
        it.dcr("run")
        shutil.copytree(it.top, other + "/copy", copy_function=shutil.copyfile)
        os.chmod(other + "/copy/dcr", 0o755)
        os.chmod(other + "/copy/crates/dcr/out/dcr", 0o755)
        want_ran(it.dcr("run", by=other + "/copy/dcr"))
        want(len(it.calls()) == 4, "a copy is built again")
        # Copied after a change, with times that say nothing of it.
        it.change("second")
        shutil.copytree(it.top, other + "/second", copy_function=shutil.copyfile)
        os.chmod(other + "/second/dcr", 0o755)
        os.chmod(other + "/second/crates/dcr/out/dcr", 0o755)
        want_ran(it.dcr("run", by=other + "/second/dcr"), b"second run\ninput")


def ended(number, process_group):
    """Begins a slow build, sends a signal to the script or to its whole group, and gives how it ended and what it wrote."""
    with checkout() as it:
        ran = it.begin("run", SLOW="2")
        deadline = time.monotonic() + 60
        while not it.calls() and time.monotonic() < deadline:
            time.sleep(0.05)
        (os.killpg if process_group else os.kill)(ran.pid, number)
        wrote, said = ran.communicate(b"input", timeout=300)
        want(ran.returncode == -number and wrote == b"" and b"interrupted" in said, str((ran.returncode, wrote, said)))
        # What it had started has ended too: else it would have made a library by now.
        time.sleep(2.5)
        made = os.listdir(it.top + "/crates/dcr/out/libraries")
        want(not any(name.endswith(".rlib") for name in made), str(made))
        want_ran(it.dcr("run"))


def check_a_build_that_is_interrupted():
    ended(signal.SIGINT, True)


def check_a_build_that_is_ended():
    ended(signal.SIGTERM, False)


def check_a_build_whose_script_is_killed_is_waited_for():
    with checkout() as it:
        ran = it.begin("run", SLOW="1")
        while not it.calls():
            time.sleep(0.05)
        ran.kill()
        ran.wait()
        told = it.dcr("run")
        want_ran(told)
        want(b"waiting for it" in told[2] and sorted(it.calls()) == ALL, str((told, it.calls())))


def check_a_change_during_the_build_is_seen():
    with checkout() as it:
        ran = it.begin("run", SLOW="0.5")
        while not it.calls():
            time.sleep(0.05)
        it.write("crates/dcr_set/src/lib.rt", "changed")
        wrote, said = ran.communicate(b"input", timeout=300)
        want((ran.returncode, wrote) == (FAILED, b"") and b"changed" in said, str((ran.returncode, wrote, said)))
        want_ran(it.dcr("run"))


def check_another_program_in_its_place_is_not_run():
    with checkout() as it:
        it.dcr("run")
        with open(it.top + "/crates/dcr/out/dcr", "w") as file:
            file.write("#!/bin/sh\necho another\n")
        want_ran(it.dcr("run"))


# ---- the gate, over a stand-in that tells where it is called


def check_the_gate_is_called_in_its_own_folder_and_hands_its_status_on():
    with checkout() as it, tempfile.TemporaryDirectory() as other:
        for folder in (it.top + "/.ci", it.top + "/crates/dcr/out", other + "/.ci"):
            os.makedirs(folder)
        shutil.copy(TOP + "/.ci/run", it.top + "/.ci/run")
        it.write("crates/dcr/out/dcr", "a program")
        for path, text in ((it.bin + "/rt", '#!/bin/sh\necho "first, $*"\npwd -P\n[ -z "${MAKES:-}" ] || { echo "$MAKES" >crates/dcr/out/dcr && chmod +x crates/dcr/out/dcr; }\nexit "${GATE:-0}"\n'), (it.top + "/tools/check", '#!/bin/sh\necho checked\nexit "${CHECKS:-0}"\n')):
            with open(path, "w") as file:
                file.write(text)
            os.chmod(path, 0o755)

        def gate(**more):
            status, said, _ = run([".ci/run"], env={**it.environment, "CDPATH": other, **more}, cwd=it.top)
            return status, said.decode().splitlines()

        here = os.path.realpath(it.top)
        want(gate() == (0, ["first, ci", "checked", here]), str(gate()))
        want(gate(CHECKS="1") == (1, ["first, ci", "checked", here]), "a check that fails")
        want(gate(GATE="3") == (3, ["first, ci", here]), "a gate that fails")
        # A program that stood there and that the gate didn't make isn't taken for that of these sources, and stays.
        program = it.top + "/crates/dcr/out/dcr"

        def stands(text):
            with open(program) as file:
                want(file.read() == text and not os.path.exists(program + ".aside"), "another program stands there")

        want(not os.path.exists(program + ".built"), "an old program is taken for a new one")
        stands("a program")
        want(gate(GATE="3", MAKES="half a program")[0] == 3 and not os.path.exists(program + ".built"), "the program of a gate that failed is taken")
        stands("a program")
        want(gate(MAKES="another program")[0] == 0 and os.path.exists(program + ".built"), "the gate's own program isn't known")
        stands("another program\n")
