"""What hostile.py gives: case files, reports, tapes, links and event logs, mostly changed, and such as stand at a limit."""

import json

import second  # noqa: F401
import mutate
import reader
import replay
import stored
from model import KINDS, Case, give_roles, random_case

# ---- case files


def with_more(draw, file):
    """The case with something more, or something else, that the format has a rule on."""
    graph, events = file["graph"], file["graph"]["events"]
    names, way = [event["name"] for event in events] + ["zz"], draw.randrange(13)
    event, site = draw.choice(events), draw.choice(file["cover"])
    if way == 0:
        event[draw.choice(reader.MARKS)] = draw.random() < 0.5
    elif way == 1:
        event["parent"] = draw.choice(names)
    elif way == 2:
        kind = draw.choice([*KINDS, "include", "exclude", "cancel"])
        graph["relations"].append([kind, draw.choice(names), draw.choice(names)])
    elif way == 3:
        site["events"] = draw.sample(names, draw.randint(0, len(names) - 1))
    elif way == 4:
        site["site"] = draw.choice(["s0", "1s", "s" * 64, "s" * 65, "s.-_9", ""])
    elif way == 5:
        event["name"] = draw.choice([*names, "x" * 64, "x" * 65, "", "1", "x y", "-"])
    elif way == 6:
        event["label"] = draw.choice(["x" * 200, "x" * 201, "é" * 100, "é" * 100 + "x", ""])
    elif way == 7:
        file["version"] = draw.choice(["1", "2", "3", "3", "4", "", "03", 3, None])
    elif way == 8:
        event["roles"] = draw.choice(ROLES)
    elif way == 9:
        file["users"] = draw.choice([None, {}, "u0", [*file.get("users", []), draw.choice(USERS)], [draw.choice(USERS) for _ in range(3)]])
    elif way == 10:
        file["by"] = draw.choice([None, {}, "u0", [*file.get("by", []), draw.choice(["u0", "u1", "zz", None, 1])], ["u1", "u0"], []])
    elif way == 11:
        file["version"] = "3"
        give_roles(draw, file)
    else:
        calls = ["look s0", "exec s0 e0", "exec s0 e1", "enabled s9", "accepting", "accepting ", "", "exec s0 e0 e0"]
        file["sessions"].append([draw.choice(calls)])
    return file


# Roles as an event or a user may have them, or nearly; and users.
ROLES = [["r0"], ["r1", "r0", "r1"], [], ["r" * 64], ["r" * 65], ["1r"], [""], [1], [None], [["r0"]], "r0", {}, None, True]
USERS = [{"user": "u0", "roles": ["r0", "r1"]}, {"user": "u1", "roles": []}, {"user": "u" * 64, "roles": ["r1"]}, {"user": "u" * 65, "roles": []}]
USERS += [{"user": "u0"}, {"roles": ["r0"]}, {"user": 1, "roles": []}, {"user": "1u", "roles": []}, *[{"user": "u2", "roles": it} for it in ROLES], "u0", None, [], {}]


def nest_of(k):
    """The parent of node k, so that every other one is a nest with an atom in it."""
    return "x%d" % (k - 1) if k % 2 else "e0"


# Parts of which a file may have no more than so many: how they are put in, and the limit.
LIMITS = {
    "nodes": (2048, lambda file, k: file["graph"]["events"].append({"name": "x%d" % k, "parent": nest_of(k)})),
    "atoms": (1024, lambda file, k: file["graph"]["events"].append({"name": "x%d" % k})),
    "relations": (4096, lambda file, k: file["graph"]["relations"].append(["condition", "e0", "e0"])),
    "sites": (64, lambda file, k: file["cover"].append({"site": "x%d" % k, "events": []})),
    "sessions": (1024, lambda file, k: file["sessions"].append([])),
    "calls": (200_000, lambda file, k: file["sessions"][0].append("accepting")),
}


def at_limit(kind, count):
    """A case with so many of these."""
    graph = {"events": [{"name": "e0"}], "relations": []}
    file = {"graph": graph, "cover": [{"site": "s0", "events": ["e0"]}], "sessions": [[]]}
    had = {"nodes": 1, "atoms": 1, "relations": 0, "sites": 1, "sessions": 1, "calls": 0}[kind]
    for k in range(count - had):
        LIMITS[kind][1](file, k)
    if kind == "atoms":
        file["cover"][0]["events"] = [event["name"] for event in file["graph"]["events"]]
    return json.dumps(file).encode()


def changed_case(draw):
    """A case, mostly changed in one way or several."""
    text = random_case(draw).encode()
    for _ in range(draw.choice((0, 1, 1, 1, 1, 2, 2, 3))):
        way = draw.randrange(11)
        if way < 3:
            text = mutate.change_bytes(draw, text)
        elif way == 3:
            text = mutate.change_words(draw, text)
        elif way < 8:
            text = mutate.change_json(draw, text)
        else:
            text = more_of(draw, text)
    return text


def more_of(draw, text):
    try:
        return json.dumps(with_more(draw, json.loads(text))).encode()
    except (ValueError, TypeError, LookupError, AttributeError, RecursionError):
        return text


def many_roles(count, calls):
    """A nest with so many roles above 1,000 atoms, a user with as many others, and behind them the one role that both have:
    so many calls, of which each is allowed for want of nothing but the last."""
    nest = {"name": "n", "roles": [*["r%d" % k for k in range(count)], "last"]}
    events = [nest, *[{"name": "e%d" % k, "parent": "n"} for k in range(1_000)]]
    users = [{"user": "u", "roles": [*["s%d" % k for k in range(count)], "last"]}]
    sessions = [["exec x e%d" % (k % 1_000) for k in range(calls - 1)], ["exec x e0"]]
    file = {"version": "3", "graph": {"events": events}, "cover": [{"site": "x", "events": ["n"]}], "users": users, "by": ["u"], "sessions": sessions}
    return json.dumps(file, separators=(",", ":")).encode()


def edges_of_policies():
    """Files of version 3 that stand at a limit, or are sent to do harm; and most of them in version 2."""
    yield many_roles(620_000, 200_000)
    small = {"version": "3", "graph": {"events": [{"name": "e0", "roles": ["r" * 64]}]}, "cover": [{"site": "s0", "events": ["e0"]}], "sessions": [["exec s0 e0"]]}
    files = []
    for users, by in (([], []), ([{"user": "u", "roles": ["r" * 64]}], ["u"] * 1_000_000), ([{"user": "u%d" % k, "roles": []} for k in range(300_000)], ["u299999", "u0", "zz"])):
        files.append(json.dumps({**small, "users": users, "by": by}).encode())
    nests = [{"name": "e%d" % k, **({"parent": "e%d" % (k - 1)} if k else {"roles": ["r"]})} for k in range(2048)]
    for roles in (["r"], ["q"]):
        deep = {"events": nests}, [{"site": "s0", "events": ["e0"]}], [{"user": "u", "roles": roles}], [["look s0", "exec s0 e2047"]]
        files.append(json.dumps(dict(zip(("graph", "cover", "users", "sessions"), deep), version="3", by=["u"])).encode())
    for text in files:
        yield text
        yield text.replace(b'"version":"3"', b'"version":"2"', 1).replace(b'"version": "3"', b'"version": "2"', 1)


def edges_of_run():
    yield from edges_of_policies()
    yield b" " * reader.MOST_BYTES
    yield b" " * (reader.MOST_BYTES + 1)
    small = at_limit("calls", 3)
    yield small + b"\n" * (reader.MOST_BYTES - len(small))
    yield small + b"\n" * (reader.MOST_BYTES + 1 - len(small))
    for kind, (most, _) in LIMITS.items():
        yield at_limit(kind, most)
        yield at_limit(kind, most + 1)
    for deep in (126, 127, 128):
        yield b"[" * deep + b"]" * deep
        yield small[:-1] + b',"x":' + b"[" * (deep - 1) + b"]" * (deep - 1) + b"}"


# ---- reports


def faulted(draw, file):
    """A report whose last call is faulted, or a whole one."""
    return stored.run(Case(file), draw.randint(0, 3))[0]


def report_of(draw):
    while True:
        file = random_case(draw)
        case = Case(file)
        if not case.pairs["include"] & case.pairs["exclude"]:
            return faulted(draw, file) if draw.random() < 0.2 else case.report().encode()


def change_outcome(draw, text):
    """An entry has another outcome of its call's kind."""
    lines = text.split(b"\n")
    entries = [k for k, line in enumerate(lines) if line[:1].isdigit()]
    if not entries:
        return text
    k, name = draw.choice(entries), b"e%d" % draw.randrange(10)
    words = lines[k].split(b" ")
    kind = words[3] if len(words) > 3 else b""
    outcomes = {b"exec": [b"done", b"not-here", b"excluded", b"faulted", b"condition " + name, b"milestone " + name]}
    outcomes.update({b"enabled": [b"can -", b"can " + name], b"accepting": [b"yes", b"waits " + name]})
    outcomes[b"look"] = [b"executed - pending - included " + name, b"executed - pending - included -"]
    if kind in outcomes:
        count = reader.LENGTHS[kind.decode()] + 3
        lines[k] = b" ".join([*words[:count], draw.choice(outcomes[kind])])
    return b"\n".join(lines)


def change_head(draw, text):
    """The JSON of line 2 or 3 is changed, and mostly written anew in the one spelling."""
    lines = text.split(b"\n")
    at = draw.choice((1, 2))
    word, _, value = lines[at].partition(b" ") if len(lines) > at else (b"", b"", b"")
    changed = mutate.change_json(draw, value)
    if draw.random() < 0.7:
        try:
            changed = json.dumps(json.loads(changed), separators=(",", ":"), ensure_ascii=False).encode()
        except (ValueError, RecursionError):
            pass
    if value:
        lines[at] = word + b" " + changed
    return b"\n".join(lines)


def changed_report(draw):
    text = report_of(draw)
    ways = [mutate.change_bytes, mutate.change_lines, mutate.change_words, replay.changed, change_outcome, change_head]
    for _ in range(draw.choice((0, 1, 1, 1, 1, 2, 2, 3))):
        text = draw.choice(ways)(draw, text)
    return text


def edges_of_replay():
    yield bytes(268_435_456)
    yield bytes(268_435_457)
    report = Case(at_limit("calls", 200_000).decode()).report().encode()
    yield report
    site = report.index(b"\nsite ")
    yield report[:site] + b"\n200000 0 200000 accepting yes" + report[site:-7] + b"200001\n"


# ---- tapes


def accepted_case(draw):
    """The file of a case without a clash, and its case."""
    while True:
        file = random_case(draw)
        case = Case(file)
        if not case.pairs["include"] & case.pairs["exclude"]:
            return file, case


def executed(draw, case, count):
    """Up to so many executions that may be done one after the other; the case is stepped by them."""
    done = []
    for _ in range(count):
        owners = [(atom, site) for site, (_, owned) in enumerate(case.sites) for atom in sorted(owned)]
        ways = [(case.number[atom], site) for atom, site in owners if case.cause(atom) is None]
        if not ways:
            break
        done.append(draw.choice(ways))
        case.step(case.atoms[done[-1][0]])
    return done


def spoilt(draw, executions):
    """The executions, of which one may be another one."""
    executions, numbers = list(executions), (0, 1, 2, 9, 255, 256, 65535)
    if executions and draw.random() < 0.25:
        executions[draw.randrange(len(executions))] = (draw.choice(numbers), draw.choice(numbers))
    return executions


def tape_of(draw, file):
    """A tape of the case, of version 1 or 2, or of version 1 and renewed."""
    case, digest = Case(file), stored.digest_of(Case(file))
    executions = spoilt(draw, executed(draw, case, draw.choice((0, 1, 2, 3, 5, 8))))
    way = draw.randrange(3)
    if way == 0:
        return stored.part(digest, executions)
    tape = bytearray(stored.part(digest, executions, 8))
    if draw.random() < 0.3:
        tape[40:49] = draw.choice((b"\x00", b"\x02")) + draw.randbytes(8)
    if way == 2:
        begin, old = stored.renewed(tape, digest, executions), len(executions)
        for number, execution in enumerate(executed(draw, case, draw.randint(0, 3)), old):
            stored.append(tape, begin, number, execution)
    return bytes(tape) + draw.choice((b"", b"", b"\x00", b"\x01" * 13, draw.randbytes(20)))


def change_records(draw, tape):
    """Records of a tape are dropped, repeated, exchanged, or have another gate or number."""
    width = 12 if tape[7:8] == b"\x02" else 8
    records = [tape[at : at + width] for at in range(64, len(tape), width)]
    if not records:
        return tape
    k, j, way = draw.randrange(len(records)), draw.randrange(len(records)), draw.randrange(5)
    if way == 0:
        del records[k]
    elif way == 1:
        records.insert(j, records[k])
    elif way == 2:
        records[k], records[j] = records[j], records[k]
    elif way == 3:
        records[k] = draw.choice((b"\x00", b"\x01", b"\x02", b"\xff")) + records[k][1:]
    else:
        at = draw.randrange(len(records[k]))
        records[k] = records[k][:at] + draw.choice((b"\x00", b"\x01", b"\x02", b"\x80")) + records[k][at + 1 :]
    return tape[:64] + b"".join(records)


def change_header(draw, tape):
    """A byte of the header is another one, or the part in force begins elsewhere."""
    tape = bytearray(tape)
    if len(tape) < 65 or draw.random() < 0.5:
        at = draw.randrange(min(len(tape), 65)) if tape else 0
        tape[at : at + 1] = draw.choice((b"\x00", b"\x01", b"\x02", b"\xff"))
    else:
        places = (0, 1, 64, 65, 73, len(tape) - 65, len(tape) - 64, len(tape), 2**62, 2**62 + 1, 2**64 - 65, 2**64 - 1)
        stored.put(tape, 40, draw.choice((b"\x01", b"\x01", b"\x00")) + draw.choice(places).to_bytes(8, "big"))
        tape[7] = draw.choice((1, 1, 2))
    return bytes(tape)


def changed_tape(draw):
    """A case, and a tape of it or of another one, mostly changed; or none."""
    file, _ = accepted_case(draw)
    text = mutate.change_json(draw, file.encode()) if draw.random() < 0.1 else file.encode()
    if draw.random() < 0.06:
        return text, draw.choice((None, b"", b"\x00", b"DCRTAPE", bytes(65)))
    tape = tape_of(draw, accepted_case(draw)[0] if draw.random() < 0.05 else file)
    for _ in range(draw.choice((0, 0, 1, 1, 1, 2))):
        tape = draw.choice((change_records, change_records, change_header, mutate.change_bytes))(draw, tape)
    return text, tape


def edges_of_store():
    file = at_limit("calls", 0)[:-4] + b'["exec s0 e0"]]}'
    digest = stored.digest_of(Case(file.decode()))
    for width in (8, 12):
        executions = [(0, 0)] * 1_000_001
        yield file, stored.part(digest, executions, width)
        yield file, stored.part(digest, executions, width)[:-2]
        yield file, stored.part(digest, executions[:-1], width)
        yield file, stored.part(digest, executions[:-1], width)[:-1]
    for text in (b"{", file[:-1]):
        yield text, None
        yield text, b"anything"


# ---- links


def line_of(draw, case):
    """A line that is a call, or nearly one."""
    site, atom = draw.choice(case.sites)[0], draw.choice(case.atoms)
    line = draw.choice(["exec %s %s" % (site, atom)] * 5 + ["look " + site, "enabled " + site, "accepting"]).encode()
    way = draw.randrange(12)
    if way == 0:
        line = mutate.change_words(draw, line)
    elif way == 1:
        line = mutate.change_bytes(draw, line)
    elif way == 2:
        longest = (b"x" * 199, b"x" * 200, b"\xff" * 200, b"x" * 199 + b"\r", b"accepting" + b" " * 191)
        line = draw.choice((b"", b"\r", b"\r\r", line + b"\r\r", *longest))
    elif way == 3 and draw.random() < 0.3:
        line = draw.choice((b"x" * 201, b"x" * 200 + b"\r", b"x" * 300, b"accepting" + b" " * 192))
    return line


def link_of(draw, case):
    lines = [line_of(draw, case) for _ in range(draw.randint(0, 8))]
    data = b"".join(line + draw.choice((b"\n", b"\n", b"\n", b"\r\n")) for line in lines)
    if draw.random() < 0.3:
        data = draw.choice((mutate.change_bytes, mutate.change_lines, mutate.change_words))(draw, data)
    return data + draw.choice((b"", b"", b"accepting", b"x" * 200, b"x" * 201, b"\r"))


def changed_links(draw):
    """A case, and what one to three links send."""
    file, case = accepted_case(draw)
    text = mutate.change_json(draw, file.encode()) if draw.random() < 0.05 else file.encode()
    return text, [link_of(draw, case) for _ in range(draw.choice((1, 1, 1, 2, 3)))]


def edges_of_serve():
    text = at_limit("calls", 0)
    yield text, [b"accepting\n" * 200_000]
    yield text, [b"accepting\n" * 200_000 + b"\n"]
    yield text, [b"x\n" * 200_000]
    yield text, [b"x\n" * 200_000 + b"x"]
    yield text, [b"accepting\n" * 199_999, b"accepting\nx\naccepting\naccepting\n", b"accepting\n", b"x\n"]
    # (what is denied is an answered line, and is denied in a full history too)
    text = text.replace(b'"name": "e0"', b'"name": "e0", "roles": ["r"]').replace(b"{", b'{"version": "3", ', 1)
    yield text, [b"exec s0 e0\n" * 200_000 + b"x"]
    yield text, [b"accepting\n" * 199_999, b"accepting\nexec s0 e0\nx\naccepting\n", b"exec s0 e0\naccepting\n"]


# ---- event logs

TRACE_NAMES = [b"c1", b"c2", b"c3", b"1", b"A.b-_", b"-", b"traces", b"x" * 64]
NO_NAMES = [b"", b"c 1", b"c\xc3\xa9", b"x" * 65, b"c1 ", b'"', b"\xef\xbb\xbfc1", b"c,1"]
NO_EVENTS = [b"", b"zz", b"E0", b" e0", b"e0 ", b"e0,e1", b'e"0', b"e\n0", b"\xff", b"e0\xc3", b"\xc3\xa9"]
FURTHER = [b"", b"x", b"\xff", b'a "b", c', b"a\r\nb", b"\xef\xbb\xbf"]


def events_of(draw, file):
    """The events of a trace: executions that can be done one after the other, of which some are others."""
    case = Case(file)
    names = [case.atoms[event].encode() for event, _ in executed(draw, case, draw.choice((0, 1, 2, 3, 5, 8)))]
    for _ in range(draw.choice((0, 0, 1, 1, 2))):
        other = draw.choice(case.events)["name"].encode() if draw.random() < 0.7 else draw.choice(NO_EVENTS)
        names.insert(draw.randint(0, len(names)), other)
    return names


def spelt(draw, field):
    """A field, in quotes where it must be, and else sometimes."""
    if any(byte in b',"\r\n' for byte in field) or draw.random() < 0.1:
        return b'"' + field.replace(b'"', b'""') + b'"'
    return field


def log_of(draw, file):
    """A log whose traces are runs of the case, or nearly: the one behind the other, or mixed."""
    names = draw.sample(TRACE_NAMES, draw.randint(0, 5))
    if draw.random() < 0.1:
        names.append(draw.choice(NO_NAMES))
    rows = [[name, event] for name in names for event in events_of(draw, file)]
    if draw.random() < 0.5:
        draw.shuffle(rows)
    more = [b"note"] * draw.choice((0, 0, 0, 1, 2))
    rows = [[b"case", b"event", *more], *[[*row, *[draw.choice(FURTHER) for _ in more]] for row in rows]]
    ends = draw.choice(([b"\n"], [b"\n"], [b"\r\n"], [b"\r"], [b"\n", b"\r\n", b"\r", b"\n\n", b"\n\r"]))
    text = b"".join(b",".join(spelt(draw, field) for field in row) + draw.choice(ends) for row in rows)
    return draw.choice((b"", b"", b"", b"\xef\xbb\xbf", b"\n")) + (text if draw.random() < 0.8 else text.rstrip(b"\r\n"))


def change_fields(draw, log):
    """Of one line a field is dropped, doubled, exchanged with one of another line, or another separator stands before it."""
    lines = log.split(b"\n")
    at = draw.randrange(len(lines))
    fields, others = lines[at].split(b","), draw.choice(lines).split(b",")
    k, way = draw.randrange(len(fields)), draw.randrange(5)
    if way == 0:
        del fields[k]
    elif way == 1:
        fields.insert(k, fields[k])
    elif way == 2:
        fields[k] = draw.choice(others)
    elif way == 3:
        fields[k] = draw.choice([*NO_NAMES, *NO_EVENTS, *FURTHER, b'"' + fields[k], fields[k] + b'"'])
    else:
        fields[k : k + 2] = [draw.choice((b";", b"\t", b", ", b",,", b'","')).join(fields[k : k + 2])]
    lines[at] = b",".join(fields)
    return b"\n".join(lines)


def changed_log(draw):
    """An input of `conform`: a case on one line and a log, mostly changed."""
    file, _ = accepted_case(draw)
    text, log = file.encode(), log_of(draw, file)
    for _ in range(draw.choice((0, 0, 1, 1, 1, 2))):
        log = draw.choice((mutate.change_bytes, mutate.change_lines, change_fields, change_fields))(draw, log)
    if draw.random() < 0.06:
        text = draw.choice((mutate.change_bytes, mutate.change_json))(draw, text)
    return text + draw.choice((b"\n",) * 40 + (b"", b"\r\n", b"\n\n", b"\r")) + log


def edges_of_conform():
    front = at_limit("calls", 3) + b"\ncase,event"
    for more in (0, 1):
        yield front + b"\n" * (reader.MOST_BYTES - len(front) + more)
        yield front + b"\nc,e0" * ((reader.MOST_BYTES - len(front)) // 5) + b"\n" * more
    yield b"\n".join([front, *[b"%d,e0" % k for k in range(1_200_000)]])
    yield front[:-11] + b"\n" * 2 + front[-10:]
    yield b" " * (reader.MOST_BYTES + 1)
    yield b""
