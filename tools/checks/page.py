"""The page that `tools/draw.py page` makes: what it knows of a run, and what a browser shows of it."""

import html
import json
import os
import re
import shutil
import subprocess
import sys
import tempfile

from checks import EXAMPLES, TOP, NotTried, examples, read, want
from checks.program import prepare  # noqa: F401
from checks.files import tool
from checks.tools import path_of

sys.path.insert(0, os.path.join(TOP, "tools"))
from draw import Run  # noqa: E402
from model import Case  # noqa: E402

MARKS = ("executed", "pending", "included")


def page_of(name):
    status, wrote, said = tool("draw.py", "page", path_of(name + ".json"), path_of(name + ".report"))
    want(status == 0 and not said, "%s: %d %s" % (name, status, said))
    return wrote


def data_of(page):
    return json.loads(re.search(r'<script id="data" type="application/json">(.*?)</script>', page, re.S)[1])


def case_after(name, count):
    """The case of an example after so many calls, by the plain model."""
    run = Run(read("examples/%s.report" % name).decode())
    calls = run.entries()
    for _ in range(count):
        next(calls)
    return run.case


def marks_after(name, count):
    """Of each site the marks that it has after so many calls, and what it may execute."""
    case, found = case_after(name, count), {}
    for site, owned in case.sites:
        words = case.projected(owned).split(" ")
        found[site] = [*words[1::2], case.listed({it for it in owned if case.cause(it) is None})]
    return found


def check_the_page_knows_the_run_and_needs_no_network():
    for name in examples():
        page, report = page_of(name), read("examples/%s.report" % name).decode()
        others = re.findall(r"https?:|//[a-z]|\bsrc=|\bhref=|@import|url\(|fetch\(|XMLHttp", page.replace('xmlns="http://www.w3.org/2000/svg"', ""))
        want(not others, "%s: the page has %s" % (name, others))
        data = data_of(page)
        now = {mark: {*data["open"][mark]} for mark in (*MARKS, "enabled")}
        number = {atom: k for k, atom in enumerate(data["atoms"])}

        def shown(site, mark):
            tracked = site["owned"] if mark == "enabled" else site["tracked"][mark]
            return ",".join(sorted(now[mark] & {*tracked}, key=number.get)) or "-"

        for count in range(len(data["calls"]) + 1):
            wanted = marks_after(name, count)
            for site in data["sites"]:
                told = [shown(site, mark) for mark in (*MARKS, "enabled")]
                want(told == wanted[site["name"]], "%s after %d calls at %s: %s, and not %s" % (name, count, site["name"], told, wanted[site["name"]]))
            if count < len(data["calls"]):
                for mark, flips in data["calls"][count]["flips"].items():
                    now[mark] ^= {*flips}
        for site in data["sites"]:
            line = "site %s executed %s pending %s included %s" % (site["name"], *[shown(site, mark) for mark in MARKS])
            want(line in report.split("\n"), "%s: the page ends with %s" % (name, line))


def check_texts_of_a_case_are_no_part_of_the_page():
    label = "</script><script>document.title='taken'</script><!--NAME--><img src=x onerror=alert(1)>"
    case = {"graph": {"events": [{"name": "a", "label": label}]}, "cover": [{"site": "s", "events": ["a"]}], "sessions": [["exec s a"]]}
    with tempfile.TemporaryDirectory() as folder:
        path = os.path.join(folder, "own.json")
        with open(path, "w") as file:
            json.dump(case, file)
        report = os.path.join(folder, "own.report")
        with open(report, "w") as file:
            file.write(Case(json.dumps(case)).report())
        status, page, said = tool("draw.py", "page", path, report)
        want(status == 0 and data_of(page)["labels"] == {"a": label}, "%d %s" % (status, said))
        want("<script>document.title" not in page and "<img" not in page and page.count("</script>") == 2, "the label is a part of the page")


def check_a_report_of_another_case_is_no_page():
    status, wrote, said = tool("draw.py", "page", path_of("first.json"), path_of("grant.report"))
    want(status == 2 and not wrote and "another case" in said, "%d %s" % (status, said))
    status, wrote, said = tool("draw.py", "page", path_of("first.json"), path_of("first.json"))
    want(status == 2 and not wrote and "invalid 1 head" in said, "%d %s" % (status, said))


# ---- in a browser


def browser():
    for name in ("chromium", "chromium-browser", "google-chrome"):
        if shutil.which(name):
            return name
    raise NotTried("no browser is on the path: chromium")


def browsed(folder, page, *words, place=0):
    """What a browser without a screen makes of a page, opened at a place."""
    path = os.path.join(folder, "page.html")
    with open(path, "w", encoding="utf-8") as file:
        file.write(page)
    own = ["--headless", "--no-sandbox", "--disable-gpu", "--hide-scrollbars", "--virtual-time-budget=2000", "--user-data-dir=" + os.path.join(folder, "profile")]
    command = [browser(), *own, "--window-size=1200,720", *words, "file://%s#%d" % (path, place)]
    for _ in range(3):
        # (a browser under load may end before it has drawn)
        ran = subprocess.run(command, stdout=subprocess.PIPE, stderr=subprocess.PIPE, timeout=240, cwd=folder)
        if ran.returncode == 0:
            break
    want(ran.returncode == 0, "the browser ends with %d: %s" % (ran.returncode, ran.stderr[-300:]))
    return ran.stdout.decode()


SEEN = """<script>
function key(name) { document.dispatchEvent(new KeyboardEvent("keydown", { key: name })); }
const found = [];
for (const way of WAYS) {
  key("Home");
  way();
  const sites = [...document.querySelectorAll(".site")];
  const told = sites.map(it => [it.querySelector("h2").textContent, [...it.querySelectorAll("td[class]")].map(cell => cell.textContent)]);
  const marks = [...document.querySelectorAll("#left .event")].map(it => [it.dataset.event, it.lastElementChild.textContent, it.classList.contains("enabled"), it.classList.contains("out")]);
  found.push([document.getElementById("place").textContent, told, marks, document.getElementById("now").textContent]);
}
document.body.appendChild(document.createElement("pre")).textContent = JSON.stringify(found);
</script></body>"""


def seen_by(folder, name, ways):
    """What the browser shows of a page after each of these ways over it, each from the opening: the place, the marks of each
    site and what it may execute, each event's marks and looks, and the line of what happened."""
    page = page_of(name).replace("</body>", SEEN.replace("WAYS", "[%s]" % ", ".join("() => { %s }" % it for it in ways)))
    return json.loads(html.unescape(re.search(r"<pre>(.*?)</pre>", browsed(folder, page, "--dump-dom"), re.S)[1]))


def check_a_browser_shows_each_place():
    with tempfile.TemporaryDirectory() as folder:
        for name in ("medication", "claim"):
            count = len(Run(read("examples/%s.report" % name).decode()).lines)
            seen = seen_by(folder, name, ["go(%d)" % place for place in range(count + 1)])
            for place, (where, sites, marks, now) in enumerate(seen):
                want(where == "%d of %d calls" % (place, count), where)
                want(dict(map(tuple, sites)) == marks_after(name, place), "%s at %d: %s, and not %s" % (name, place, sites, marks_after(name, place)))
                case = case_after(name, place)
                wanted = {atom: ("✓" * (atom in case.executed) + "!" * (atom in case.pending), case.cause(atom) is None, atom not in case.included) for atom in case.atoms}
                want({it[0]: tuple(it[1:]) for it in marks} == wanted, "%s at %d: %s, and not %s" % (name, place, marks, wanted))
                owed = case.waits()
                want(("waits for %s" % owed if owed else "nothing is owed") in now, "%s at %d: %s" % (name, place, now))


def check_keys_and_slider_go_over_the_calls():
    # Each: what is done on the page, and where that comes to.
    ways = [
        ("key('ArrowRight'); key('ArrowRight'); key('ArrowLeft')", 1),
        ("key('End'); key('ArrowRight')", 9),
        ("key('End'); key('Home')", 0),
        ("key('PageDown'); key('PageUp')", 0),
        ("key('PageDown')", 9),
        ("const it = document.getElementById('slider'); it.value = 5; it.dispatchEvent(new Event('input'))", 5),
        ("document.getElementById('on').click()", 1),
        ("document.querySelectorAll('.row')[4].click(); document.getElementById('back').click()", 3),
    ]
    with tempfile.TemporaryDirectory() as folder:
        for (done, place), (where, sites, _, _) in zip(ways, seen_by(folder, "medication", [it for it, _ in ways])):
            want(where == "%d of 9 calls" % place, "`%s` comes to %s" % (done, where))
            want(dict(map(tuple, sites)) == marks_after("medication", place), "`%s` shows %s" % (done, sites))


def check_a_browser_draws_the_page():
    sizes = []
    with tempfile.TemporaryDirectory() as folder:
        for place in (0, 4):
            picture = os.path.join(folder, "%d.png" % place)
            browsed(folder, page_of("medication"), "--screenshot=" + picture, place=place)
            with open(picture, "rb") as file:
                data = file.read()
            width, height = (int.from_bytes(data[at : at + 4], "big") for at in (16, 20))
            want(data[:8] == b"\x89PNG\r\n\x1a\n" and (width, height) == (1200, 720), "it is no picture of the window: %d by %d" % (width, height))
            sizes.append(len(data))
    # (an empty page takes some 5 kB)
    want(min(sizes) > 25_000 and sizes[0] != sizes[1], "the pictures have %s bytes" % sizes)
