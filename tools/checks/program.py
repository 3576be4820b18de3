"""The program as a process: what it is asked, what it reads and writes, and the status that it ends with."""

import functools
import hashlib
import json
import os
import pty
import re
import select
import subprocess
import sys
import tempfile
import time

from checks import EXAMPLES, TOP, NotTried, examples, read, run, want

PROGRAM = os.path.join(TOP, "crates/dcr/out/dcr")
DONE, USAGE, REFUSED, READ_FAULT, WRITE_FAULT, NO_MEMORY, DISK_FAULT, INVALID, TAPE_REFUSED, DOOR_FAULT = 0, 2, 3, 4, 5, 6, 7, 8, 10, 11


@functools.lru_cache(maxsize=None)
def prepare():
    """Builds the program where `./dcr` finds that it isn't built. Where that fails nothing is tried, since an older one may be there."""
    status = subprocess.run([os.path.join(TOP, "dcr"), "run"], input=read("examples/first.json"), stdout=subprocess.DEVNULL).returncode
    if status:
        sys.exit("tools/check: ./dcr, which builds the program, ended with status %d" % status)


def dcr(*words, given=b"", **how):
    return run([PROGRAM, *words], given, **how)


def in_shell(text, *words, given=b"", **how):
    """The program as the last command of a line of the shell, which calls it "$@"."""
    return run(["sh", "-c", text, "sh", PROGRAM, *words], given, **how)


def wrong_report():
    return read("examples/medication.report").replace(b"exec nurse gm condition s", b"exec nurse gm done")


# A case with a report of some MB.
def large_case(calls=1_000, atoms=200):
    events = [{"name": "event-with-a-name-%d" % k} for k in range(atoms)]
    owned = [event["name"] for event in events]
    file = {"graph": {"events": events}, "cover": [{"site": "s", "events": owned}], "sessions": [["look s"] * calls]}
    return json.dumps(file).encode()


# ---- what is asked, and the statuses


def check_each_example_makes_its_report():
    for name in examples():
        told = dcr("run", given=read("examples/%s.json" % name))
        want(told == (DONE, read("examples/%s.report" % name), b""), "%s gives status %d and another report" % (name, told[0]))


def check_each_report_is_valid():
    for name in examples(".report"):
        report = read("examples/%s.report" % name)
        count = report.rsplit(b"\nend ", 1)[1]
        want(dcr("replay", given=report) == (DONE, b"valid " + count, b""), name)


def check_words_that_are_no_command_are_usage():
    lines = [[], ["RUN"], ["run "], [""], ["-h"], ["--help"], ["ru"], ["run", "run"], ["run", "replay"], ["replay", "run"], ["run", ""], ["x", "run"], ["run", "x", "y"]]
    lines += [["replay", "replay"], [b"\xff"], [b"run\xff"], [b"\xffrun"], ["run", b"\xff"], [b"\xff", "run"], ["replay", b"\xc3"]]
    lines += [["run", "--workers", it] for it in ("0", "02", "65", "-1", "+2", "2 ", "", "4294967297", "two", "--store")]
    lines += [["run", "--workers"], ["run", "--workers=2"], ["run", "--store", "--workers", "2"], ["run", "--store", "--store"], ["run", "--workers", "2", "--workers", "2"]]
    lines += [["run", "--workers", "2", "store"], ["run", "--workers", "2", "--store", "x"], ["--store", "run"], ["replay", "--store"], ["load"], ["load", "-1"], ["load", "07"], ["load", "4294967296"], ["load", "7", "7"], ["serve"], ["adapt", "adapt"], ["adapt", ""], ["adapt", "--store"], ["adapt", "--workers", "1"]]
    lines += [["conform", ""], ["conform", "x"], ["conform", "--store"], ["conform", "conform"], ["Conform"], ["run", "conform"], ["conform "], ["conform", b"\xff"]]
    lines += [["part"], ["part", "doctor", "nurse"], ["part", "doctor", "--store"], ["part", "doctor", ""], ["part", b"\xff"], ["Part", "doctor"], ["part "], ["doctor", "part"]]
    for words in lines:
        told = dcr(*words, given=read("examples/first.json"))
        want(told == (USAGE, b"usage\n", b""), "%s gives %s" % (words, told))


def check_nothing_is_read_for_wrong_words():
    with open(os.path.join(EXAMPLES, "first.json"), "rb") as file:
        for words in [[], ["run", "x"]]:
            want(dcr(*words, stdin=file)[0] == USAGE and os.lseek(file.fileno(), 0, os.SEEK_CUR) == 0, "%s: the input was read" % words)


def check_a_number_is_answered_by_the_line_of_its_case():
    sys.path.insert(0, os.path.join(TOP, "bench"))
    import load

    numbers = ("7", "8", "4294967295")
    lines = []
    with open(os.path.join(EXAMPLES, "first.json"), "rb") as file:
        for number in numbers:
            lines.append(load.line_of(int(number)).encode())
            told = dcr("load", number, stdin=file)
            want(told == (DONE, lines[-1], b""), "load %s gives %s" % (number, told))
        want(os.lseek(file.fileno(), 0, os.SEEK_CUR) == 0, "the input was read")
    want(len({line.split(b" ", 2)[2] for line in lines}) == len(numbers), "two numbers give one line")


def check_the_case_of_a_number_runs_as_its_line_says():
    sys.path.insert(0, os.path.join(TOP, "bench"))
    import load

    report = dcr("run", given=json.dumps(load.case_of(7)).encode())
    entries = [line for line in report[1].split(b"\n") if line[:1].isdigit()]
    done = sum(line.endswith(b" done") for line in entries)
    verdict = report[1].split(b"\nverdict ")[1].split(b"\n")[0].decode()
    line = "load 7 entries %d done %d other %d verdict %s\n" % (len(entries), done, len(entries) - done, verdict)
    want(dcr("load", "7") == (DONE, line.encode(), b""), "`run` and `load` tell two runs")


def check_each_refusal_has_its_line():
    table = re.findall(rb"^\| `([^`]*\.json)` \| `([^`]*)` \|$", read("examples/refused/README.md"), re.M)
    files = sorted(it for it in os.listdir(os.path.join(EXAMPLES, "refused")) if it.endswith(".json"))
    want(sorted(name.decode() for name, _ in table) == files, "the table and the files of examples/refused differ")
    for name, line in table:
        told = dcr("run", given=read("examples/refused/" + name.decode()))
        want(told == (REFUSED, line + b"\n", b""), "%s gives %s" % (name.decode(), told))


def check_what_is_too_long_is_refused():
    told = dcr("run", given=b" " * 16_777_217)
    want(told == (REFUSED, b"refused 1 too-long\n", b""), str(told))
    told = dcr("run", given=b" " * 16_777_216)
    want(told == (REFUSED, b"refused 2 not-json\n", b""), str(told))


def check_no_bytes_are_refused_or_invalid():
    want(dcr("run") == (REFUSED, b"refused 2 not-json\n", b""), "run")
    want(dcr("adapt") == (REFUSED, b"refused 14 cases 0\n", b""), "adapt")
    want(dcr("replay") == (INVALID, b"invalid 1 head\n", b""), "replay")


def check_a_wrong_report_is_invalid():
    told = dcr("replay", given=wrong_report())
    want(told == (INVALID, b"invalid 6 outcome\n", b""), str(told))
    told = dcr("replay", given=read("examples/first.json"))
    want(told == (INVALID, b"invalid 1 head\n", b""), str(told))


# ---- workers and the tape


def check_one_session_is_one_report_by_any_number_of_workers():
    for workers in ("1", "2", "4", "63", "64"):
        told = dcr("run", "--workers", workers, given=read("examples/medication.json"))
        want(told == (DONE, read("examples/medication.report"), b""), "%s workers give %s" % (workers, told))


def check_several_workers_make_valid_reports():
    for name in examples():
        for workers in ("2", "4"):
            status, report, _ = dcr("run", "--workers", workers, given=read("examples/%s.json" % name))
            count = report.rsplit(b"\nend ", 1)[1]
            want(status == DONE, "%s by %s workers gives status %d" % (name, workers, status))
            want(dcr("replay", given=report) == (DONE, b"valid " + count, b""), "%s by %s workers" % (name, workers))


def check_a_long_report_is_the_same_by_any_number_of_processors():
    given = large_case(3_000)
    status, report, _ = dcr("run", given=given)
    one = min(os.sched_getaffinity(0))
    alone = dcr("run", given=given, preexec_fn=lambda: os.sched_setaffinity(0, {one}))
    want(status == DONE and alone == (DONE, report, b""), "statuses %d and %d, or another report" % (status, alone[0]))
    want(dcr("replay", given=report) == (DONE, b"valid 3000\n", b""), "the report is not valid")


# The tape of examples/medication.json: pm, s and s at the doctor, dt and gm at the nurse.
def medication_tape():
    head = b"".join(read("examples/medication.report").splitlines(True)[1:4])
    records = [bytes([1, 0, event, 0, site, 0, 0, 0, number, 0, 0, 0]) for number, (event, site) in enumerate([(0, 0), (1, 0), (3, 1), (1, 0), (2, 1)])]
    return b"DCRTAPE\x02" + hashlib.sha256(head).digest() + bytes(24) + b"".join(records) + b"\x00"


def with_calls(*calls):
    """The case of examples/medication.json, where these are the calls of the one session."""
    return json.dumps({**json.loads(read("examples/medication.json")), "sessions": [[*calls]]}).encode()


def stored(folder, given, *words):
    return dcr("run", *words, "--store", given=given, cwd=folder)


def tape_of(folder):
    with open(os.path.join(folder, "dcr.tape"), "rb") as file:
        return file.read()


def check_a_stored_run_leaves_a_tape():
    for words in [(), ("--workers", "4")]:
        with tempfile.TemporaryDirectory() as folder:
            told = stored(folder, read("examples/medication.json"), *words)
            want(told == (DONE, read("examples/medication.report"), b""), str(told))
            want(os.listdir(folder) == ["dcr.tape"], "the folder has %s" % os.listdir(folder))
            tape = tape_of(folder)
            want(len(tape) == 125 and tape == medication_tape(), "the tape is %s" % tape.hex(" "))


def check_a_second_stored_run_goes_on():
    with tempfile.TemporaryDirectory() as folder:
        want(stored(folder, with_calls("exec doctor pm"))[0] == DONE, "the first run")
        status, report, _ = stored(folder, with_calls("exec doctor s"))
        lines = report.decode().splitlines()
        want(status == DONE and lines[3] == "open executed pm pending s,gm included pm,s,gm,dt", report.decode())
        want(lines[4] == "0 0 0 exec doctor s done", report.decode())
        want(tape_of(folder) == medication_tape()[:88] + b"\x00", "the tape is %s" % tape_of(folder).hex(" "))


def check_a_case_over_two_days_goes_on():
    with tempfile.TemporaryDirectory() as folder:
        for day in ("monday", "tuesday"):
            told = stored(folder, read("examples/stored/%s.json" % day))
            want(told == (DONE, read("examples/stored/%s.report" % day), b""), "%s gives status %d and another report" % (day, told[0]))
        # Made by several workers it is another run, and a valid one.
        for day in ("monday", "tuesday"):
            with tempfile.TemporaryDirectory() as other:
                status, report, _ = stored(other, read("examples/stored/%s.json" % day), "--workers", "4")
                count = report.rsplit(b"\nend ", 1)[1]
                want(status == DONE and dcr("replay", given=report) == (DONE, b"valid " + count, b""), "%s by four workers" % day)


def check_a_run_without_a_store_leaves_the_folder_alone():
    with tempfile.TemporaryDirectory() as folder:
        for words in [(), ("--workers", "4")]:
            want(dcr("run", *words, given=read("examples/medication.json"), cwd=folder)[0] == DONE, "status")
        want(not os.listdir(folder), "the folder has %s" % os.listdir(folder))
        with open(os.path.join(folder, "dcr.tape"), "wb") as file:
            file.write(b"anything")
        want(dcr("run", given=read("examples/medication.json"), cwd=folder)[0] == DONE and tape_of(folder) == b"anything", "dcr.tape was read or written")


def check_a_refused_case_makes_no_tape():
    with tempfile.TemporaryDirectory() as folder:
        for given, line in [(b"{", b"refused 2 not-json\n"), (read("examples/refused/9-clash.json"), b"refused 9 clash v w\n")]:
            told = stored(folder, given)
            want(told == (REFUSED, line, b"") and not os.listdir(folder), str(told))


def check_a_file_that_is_no_tape_of_the_case_is_refused():
    tape = medication_tape()
    other = read("examples/first.json")
    rows = [
        (other, tape, b"tape other-case\n"),
        (read("examples/medication.json"), bytes(10), b"tape not-tape\n"),
        (read("examples/medication.json"), tape[:67] + b"\x09" + tape[68:], b"tape bad 0\n"),
        (read("examples/medication.json"), tape[:124], b"tape bad 5\n"),
    ]
    for given, content, line in rows:
        with tempfile.TemporaryDirectory() as folder:
            with open(os.path.join(folder, "dcr.tape"), "wb") as file:
                file.write(content)
            told = stored(folder, given)
            want(told == (TAPE_REFUSED, line, b""), "%s: %s" % (line, told))
            want(tape_of(folder) == content, "%s: the file was written" % line)


def check_an_empty_file_is_made_a_tape():
    with tempfile.TemporaryDirectory() as folder:
        with open(os.path.join(folder, "dcr.tape"), "wb"):
            pass
        want(stored(folder, read("examples/medication.json"))[0] == DONE and tape_of(folder) == medication_tape(), "the tape")


def check_a_tape_that_can_not_be_opened_is_a_disk_fault():
    with tempfile.TemporaryDirectory() as folder:
        os.mkdir(os.path.join(folder, "dcr.tape"))
        told = stored(folder, read("examples/medication.json"))
        want(told == (DISK_FAULT, b"", b"dcr: the file dcr.tape could not be opened, read or written\n"), str(told))
    with tempfile.TemporaryDirectory() as folder:
        os.symlink("/nowhere/dcr.tape", os.path.join(folder, "dcr.tape"))
        told = stored(folder, read("examples/medication.json"))
        want(told == (DISK_FAULT, b"", b"dcr: the file dcr.tape could not be opened, read or written\n"), str(told))


def check_a_tape_that_may_not_grow_ends_the_run():
    with tempfile.TemporaryDirectory() as folder:
        # (blocks of 512 bytes: one holds the header and 37 executions)
        told = in_shell("ulimit -f 1; trap '' XFSZ; exec \"$@\"", "run", "--store", given=with_calls(*["exec doctor pm"] * 100), cwd=folder)
        lines = told[1].decode().splitlines()
        want(told[0] == DISK_FAULT and len(lines) < 100 and lines[-4].startswith("site doctor") and lines[-5].endswith("exec doctor pm faulted"), "\n".join(lines[-6:]))
        want(dcr("replay", given=told[1])[0] == DONE, "the report is not valid")
        status, report, _ = stored(folder, with_calls("exec doctor pm"))
        want(status == DONE and b"open executed pm pending s,gm included" in report, "the tape can't be gone on from")


# ---- inputs


def check_a_folder_as_input_is_a_read_fault():
    for words in [["run"], ["replay"], ["conform"], ["adapt"], ["part", "doctor"]]:
        told = in_shell('"$@" <"%s"' % EXAMPLES, *words, stdin=subprocess.DEVNULL)
        want(told == (READ_FAULT, b"", b"dcr: the input failed as it was read; nothing was written\n"), "%s gives %s" % (words, told))


def check_an_input_that_can_only_be_written_is_a_read_fault():
    with tempfile.NamedTemporaryFile() as file:
        for word in ["run", "replay", "conform", "adapt"]:
            told = in_shell('"$@" 0>"%s"' % file.name, word, stdin=subprocess.DEVNULL)
            want(told[:2] == (READ_FAULT, b""), "%s gives %s" % (word, told))


def check_a_read_that_would_block_is_a_read_fault():
    for word in ["run", "replay", "conform", "adapt"]:
        ends = os.pipe()
        os.set_blocking(ends[0], False)
        told = dcr(word, stdin=ends[0], seconds=60)
        os.close(ends[0])
        os.close(ends[1])
        want(told[:2] == (READ_FAULT, b""), "%s gives %s" % (word, told))


def check_a_closed_input_is_no_case():
    for word, lines in [("run", (READ_FAULT, b"")), ("replay", (READ_FAULT, b"")), ("conform", (READ_FAULT, b"")), ("adapt", (READ_FAULT, b""))]:
        told = in_shell('exec "$@" <&-', word, stdin=subprocess.DEVNULL)
        want(told[:2] == lines, "%s gives %s" % (word, told))


def check_an_input_that_comes_in_pieces():
    ran = subprocess.Popen([PROGRAM, "run"], stdin=subprocess.PIPE, stdout=subprocess.PIPE)
    text = read("examples/first.json")
    for at in range(0, len(text), 50):
        ran.stdin.write(text[at : at + 50])
        ran.stdin.flush()
        time.sleep(0.01)
    want(ran.communicate(timeout=60)[0] == read("examples/first.report") and ran.returncode == DONE, "another report")


def typed(keys, *words):
    """What the program comes to at a terminal where these keys are pressed: its status and what it wrote."""
    try:
        ours, theirs = pty.openpty()
    except OSError as error:
        raise NotTried("no terminal can be made: %s" % error) from None
    try:
        ran = subprocess.Popen([PROGRAM, *words], stdin=theirs, stdout=subprocess.PIPE, stderr=subprocess.PIPE, start_new_session=True)
        for key in keys:
            os.write(ours, key)
            time.sleep(0.05)
            while select.select([ours], [], [], 0)[0]:
                os.read(ours, 65536)
        try:
            wrote = ran.communicate(timeout=30)[0]
        except subprocess.TimeoutExpired:
            ran.kill()
            wrote = ran.communicate()[0] + b" (it still waited, and was killed)"
        return ran.returncode, wrote
    finally:
        os.close(ours)
        os.close(theirs)


END_OF_FILE = b"\x04"


def check_a_case_that_is_typed():
    told = typed([read("examples/first.json"), b"\n", END_OF_FILE], "run")
    want(told == (DONE, read("examples/first.report")), str(told))


def check_nothing_is_read_behind_the_end_of_what_is_typed():
    told = typed([read("examples/first.json"), b"\n", END_OF_FILE, b"\n", END_OF_FILE], "run")
    want(told == (DONE, read("examples/first.report")), str(told))
    lines = read("examples/first.report").splitlines(True)
    told = typed([*lines, END_OF_FILE, b"\n", END_OF_FILE], "replay")
    want(told == (DONE, b"valid 4\n"), str(told))


# ---- outputs


def check_a_full_device_as_output_is_a_write_fault():
    if not os.path.exists("/dev/full"):
        raise NotTried("there is no /dev/full")
    inputs = [(["run"], read("examples/first.json")), (["run"], large_case()), (["run"], b"{"), (["replay"], read("examples/first.report"))]
    inputs += [(["adapt"], read("examples/laboratory.stages")), (["adapt"], b""), (["replay"], wrong_report()), ([], b""), (["run", "x"], b""), ([b"\xff"], b"")]
    inputs += [(["part", "nurse"], read("examples/medication.json")), (["part", "nobody"], read("examples/medication.json")), (["part", "nurse"], b"{")]
    inputs += [(["conform"], read("examples/medication.log")), (["conform"], read("examples/refused/15-log.csv")), (["conform"], b"{")]
    for words, given in inputs:
        with open("/dev/full", "wb") as full:
            told = dcr(*words, given=given, stdout=full)
        want(told[0] == WRITE_FAULT, "%s gives status %d" % (words, told[0]))


def check_an_output_that_can_only_be_read_is_a_write_fault():
    for words, given in [(["run"], read("examples/first.json")), (["replay"], read("examples/first.report")), (["conform"], read("examples/medication.log")), ([], b"")]:
        told = in_shell('exec "$@" 1</dev/null', *words, given=given)
        want(told[0] == WRITE_FAULT, "%s gives status %d" % (words, told[0]))


def check_a_closed_output_is_a_write_fault():
    for words, given in [(["run"], read("examples/first.json")), (["replay"], read("examples/first.report")), (["conform"], read("examples/medication.log")), ([], b"")]:
        told = in_shell('exec "$@" >&-', *words, given=given)
        want(told[0] == WRITE_FAULT, "%s gives status %d" % (words, told[0]))


def check_nothing_is_begun_where_no_file_can_be_opened():
    # (with four numbers for open files the program has one or two left, also where its output is closed)
    said = b"dcr: the folder / can't be opened\n"
    with tempfile.TemporaryDirectory() as folder:
        dcr("run", "--store", given=read("examples/first.json"), cwd=folder)
        tape = read(os.path.join(folder, "dcr.tape"))
        for words in (("run",), ("run", "--store")):
            for text in ('ulimit -n 4; exec "$@"', 'exec >&-; ulimit -n 4; exec "$@"'):
                told = in_shell(text, *words, given=read("examples/first.json"), cwd=folder)
                want(told == (DISK_FAULT, b"", said), "it ends with %s" % (told,))
        want(read(os.path.join(folder, "dcr.tape")) == tape, "the tape has changed")


def check_a_closed_output_leaves_the_tape_alone():
    with tempfile.TemporaryDirectory() as folder:
        told = in_shell('exec "$@" >&-', "run", "--store", given=read("examples/medication.json"), cwd=folder)
        want(told[0] == WRITE_FAULT and tape_of(folder) == medication_tape(), "status %d, and the tape is %s" % (told[0], tape_of(folder).hex(" ")))


def check_a_reader_that_goes_away_is_a_write_fault():
    ends = os.pipe()
    os.close(ends[0])
    told = dcr("run", given=read("examples/first.json"), stdout=ends[1])
    os.close(ends[1])
    want(told[0] == WRITE_FAULT, "status %d" % told[0])


def check_a_file_that_may_not_grow_gets_a_front():
    with tempfile.NamedTemporaryFile() as file:
        told = in_shell("ulimit -f 100; trap '' XFSZ; exec \"$@\" >'%s'" % file.name, "run", given=large_case())
        report = dcr("run", given=large_case())[1]
        wrote = file.read()
    want(told[0] == WRITE_FAULT and 0 < len(wrote) < len(report) and report.startswith(wrote), "status %d, %d bytes" % (told[0], len(wrote)))


def check_a_report_that_replay_would_not_read_is_told():
    names = ["n%03d%s" % (k, "x" * 60) for k in range(1000)]
    events = [{"name": name, "executed": True, "pending": True} for name in names]
    file = {"graph": {"events": events}, "cover": [{"site": "s", "events": names}], "sessions": [["look s"] * 1450]}
    with open(os.devnull, "wb") as nothing:
        told = dcr("run", given=json.dumps(file).encode(), stdout=nothing)
        file["sessions"][0] = file["sessions"][0][:1300]
        less = dcr("run", given=json.dumps(file).encode(), stdout=nothing)
    said = b"dcr: more than 268435456 bytes are written: replay reads no report that is longer\n"
    want((told[0], told[2]) == (DONE, said), "status %d, and it says %s" % (told[0], told[2]))
    want((less[0], less[2]) == (DONE, b""), "of a report that isn't as long it says %s" % less[2])


# ---- memory


def with_memory(kib, *words, given=b""):
    return in_shell('ulimit -v %d; exec "$@"' % kib, *words, given=given)


def check_want_of_memory_is_told_by_its_status():
    given, whole = large_case(50_000, 1), None
    found = []
    for kib in range(4_000, 100_000, 4_000):
        status, wrote, _ = with_memory(kib, "run", given=given)
        whole = whole or dcr("run", given=given)[1]
        want(status in (NO_MEMORY, DONE) or not wrote, "%d KiB give status %d" % (kib, status))
        want(whole.startswith(wrote) and (status == DONE) == (wrote == whole), "%d KiB give status %d and %d bytes" % (kib, status, len(wrote)))
        found.append(status)
        if status == DONE:
            break
    want(NO_MEMORY in found and found[-1] == DONE, "the statuses were %s" % found)


def check_want_of_memory_for_the_words():
    words, found = ["x" * 100_000] * 15, set()
    for kib in range(4_000, 16_000, 100):
        status, wrote, complained = with_memory(kib, *words)
        if complained or status < 0 or status > 125:
            # It was not started: the shell, the loader or the kernel wanted more.
            want(not wrote, "%d KiB give status %d and %s" % (kib, status, wrote))
            continue
        want((status, wrote) in [(NO_MEMORY, b""), (USAGE, b"usage\n")], "%d KiB give status %d and %s" % (kib, status, wrote))
        found.add(status)
        if status == USAGE:
            break
    want(found == {NO_MEMORY, USAGE}, "the statuses were %s" % sorted(found))
