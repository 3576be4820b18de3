"""Changes bytes, lines, words and JSON at random, each so that what comes out may be near to what is taken.

A JSON text is changed as a tree whose nodes are lists, so that a key can stand twice and a numeral can be any bytes:
["object", [[KEY, NODE], ..]], ["array", [NODE, ..]], ["text", TEXT] and ["raw", BYTES].
"""

import json
import sys

MEMBERS = """version graph events relations name parent label executed pending included roles cover site sessions users
user by""".split()
NUMERALS = """0 -0 00 01 -01 1. .5 1.5 -1.5 - + +1 1e 1e+ 1e5 1E-5 1e400 -1e400 1e-400 0e400 1e308 1e1.5 0.e1 1e--1
1.7976931348623157e308 1.7976931348623158e308 1.7976931348623159e308 -0.0 -0e-0 4.9e-324 2.4e-324 2.5e-324
179769313486231570814527423731704356798070567525844996598917476803e243 18446744073709551615 18446744073709551616
-9223372036854775808 -9223372036854775809 1e99999999999999999999 0e99999999999999999999 1e-99999999999999999999
12345678901234567890123456789012345678901234567890 0.0000000000000000000000000000000001 NaN Infinity -Infinity nan
inf 0x10 1_000 tru true1 nulll none None True ' undefined""".split()
# Insides of a text between two quotes: escapes, bytes as they are, and texts of some length.
TEXTS = [
    *rb"""\ud800 \udc00 \ud83d\ude00 \ud83d\u0041 \ude00\ud83d \uD83D \ud83d\ud83d\ude00 \ud83dx \u0000 \u00e9
    \u0061 \u006 \u00g1 \x41 \a \/ \b\f\n\r\t\"\\ \u2028 \U0041 \u+041 \ \"
    1a a,b - a-._9 _a e0 s0 r0 u0 1 2 3 4 accepting cancel""".split(),
    *(b"", b"\x00", b"\x1f", b"\x7f", b"\n", b"\t", b"\r", b"\xff", b"\xc3", b"\xc3\xa9", b"\xc0\x80", b"\xc1\xbf"),
    *(b"\xe0\x80\x80", b"\xed\xa0\x80", b"\xed\x9f\xbf", b"\xee\x80\x80", b"\xef\xbf\xbf", b"\xf0\x9f\x98\x80"),
    *(b"\xf0\x80\x80\x80", b"\xf4\x8f\xbf\xbf", b"\xf4\x90\x80\x80", b"\xf5\x80\x80\x80", b"\xef\xbb\xbf", b"\xe2\x80"),
    *(b"\xe2\x80\xa8", rb"\u 041", b"a b"),
    *(b"a" * 64, b"a" * 65, b"x" * 200, b"x" * 201, b"\xc3\xa9" * 100, b"\xc3\xa9" * 101, rb"\u00e9" * 101),
]
BYTES = b'{}[]":,\\ \t\n\r0129-+.eE truefalsn_\x00\x1f\x7f\x80\xc3\xef\xff'
# A text in which no more arrays and objects begin is changed as a tree, by calls within calls; each change may put it
# into itself.
MOST_NESTED = 100
sys.setrecursionlimit(5_000)
SEPARATORS = [b"  ", b"\t", b"", b",", b"\xc2\xa0", b"\n", b"\r", b" \n", b"\x00"]


# ---- bytes, lines and words


def change_bytes(draw, data):
    """A bit is turned, or some bytes are put in, put over, taken out or cut off."""
    at, way = draw.randrange(len(data) + 1), draw.randrange(7)
    if way == 0 and at < len(data):
        return data[:at] + bytes([data[at] ^ 1 << draw.randrange(8)]) + data[at + 1 :]
    if way == 1:
        return data[:at] + bytes([draw.choice(BYTES)]) + data[at:]
    if way == 2:
        return data[:at] + bytes([draw.choice(BYTES)]) + data[at + 1 :]
    if way == 3:
        return data[:at] + data[at + draw.choice((1, 1, 1, 2, 8, 64)) :]
    if way == 4:
        return data[:at]
    if way == 5:
        start = draw.randrange(len(data) + 1)
        return data[:at] + data[start : start + draw.choice((1, 4, 16, 64))] + data[at:]
    return data[:at] + bytes(draw.randrange(256) for _ in range(draw.randint(1, 4))) + data[at:]


def change_lines(draw, data):
    """A line is dropped, repeated, changed with another one, or joined to the next one."""
    lines = data.split(b"\n")
    at, other, way = draw.randrange(len(lines)), draw.randrange(len(lines)), draw.randrange(5)
    if way == 0:
        del lines[at]
    elif way == 1:
        lines.insert(other, lines[at])
    elif way == 2:
        lines[at], lines[other] = lines[other], lines[at]
    elif way == 3:
        lines[at : at + 2] = [b"".join(lines[at : at + 2])]
    else:
        lines[at] += draw.choice((b"\r", b" ", b"\n", b"\x00", b"x"))
    return b"\n".join(lines)


def change_words(draw, data):
    """Of one line a word is dropped, changed, exchanged or put elsewhere, or stands behind another separator."""
    lines = data.split(b"\n")
    at = draw.randrange(len(lines))
    words, others = lines[at].split(b" "), draw.choice(lines).split(b" ")
    k, way = draw.randrange(len(words)), draw.randrange(6)
    if way == 0:
        del words[k]
    elif way == 1:
        words[k] = draw.choice(others)
    elif way == 2:
        j = draw.randrange(len(words))
        words[j], words[k] = words[k], words[j]
    elif way == 3:
        words.insert(k, draw.choice(others))
    elif way == 4:
        word = words[k]
        others = (b"", b"-", b"0", b"00", b"1024", b"4294967296", b"9" * 30)
        words[k] = draw.choice((*others, word + b",e0", word[::-1], word.upper(), word + b"\r"))
    else:
        words[k : k + 2] = [draw.choice(SEPARATORS).join(words[k : k + 2])]
    lines[at] = b" ".join(words)
    return b"\n".join(lines)


# ---- JSON


def grown(value):
    """The tree of a value as Python reads it."""
    if isinstance(value, dict):
        return ["object", [[key, grown(member)] for key, member in value.items()]]
    if isinstance(value, list):
        return ["array", [grown(item) for item in value]]
    return ["text", value] if isinstance(value, str) else ["raw", json.dumps(value).encode()]


def encoded(text):
    """The bytes of a text, also of half a character."""
    return text.encode("utf-8", "surrogatepass")


def spelt(draw, text, odd):
    """A text between quotes; where odd, some of its characters stand as escapes."""
    if not odd:
        return encoded(json.dumps(text, ensure_ascii=draw.random() < 0.5))
    parts = []
    for character in text:
        escape = json.dumps(character)[1:-1]
        if len(escape) == 1 and draw.random() < 0.3:
            escape = draw.choice(("\\u%04x", "\\u%04X")) % ord(character)
        parts.append(escape)
    return b'"' + encoded("".join(parts)) + b'"'


def printed(draw, node, style=None):
    """The bytes of a tree, in one of some layouts."""
    style = style or (draw.choice((b"", b"", b" ", b"\n", b" \t\r\n")), draw.random() < 0.1)
    space, odd = style
    kind, inside = node
    if kind == "raw":
        return inside
    if kind == "text":
        return spelt(draw, inside, odd)
    if kind == "array":
        return b"[" + (b"," + space).join(printed(draw, item, style) for item in inside) + b"]"
    members = [spelt(draw, key, odd) + b":" + space + printed(draw, member, style) for key, member in inside]
    return b"{" + space + (b"," + space).join(members) + b"}"


def slots(tree):
    """Each place of a node below this one, as a list and an index."""
    found = []
    if tree[0] == "object":
        found = [(member, 1) for member in tree[1]]
    elif tree[0] == "array":
        found = [(tree[1], k) for k in range(len(tree[1]))]
    return found + [slot for place, k in found for slot in slots(place[k])]


def copied(node):
    kind, inside = node
    if kind == "object":
        return [kind, [[key, copied(member)] for key, member in inside]]
    return [kind, [copied(item) for item in inside]] if kind == "array" else [kind, inside]


def deep(draw, node):
    """The node inside arrays or objects, perhaps as many as are taken, or one more."""
    count = draw.choice((1, 1, 2, 3, 122, 123, 124, 125, 126, 127, 128, 129, 500, 10_000))
    ends = [draw.choice(((b"[", b"]"), (b"[", b"]"), (b'{"x":', b"}"))) for _ in range(count)]
    before, behind = b"".join(first for first, _ in ends), b"".join(last for _, last in reversed(ends))
    return ["raw", before + printed(draw, node) + behind]


def odd_value(draw):
    way = draw.randrange(7)
    if way == 0:
        return ["raw", draw.choice((b"null", b"true", b"false", b"1", b""))]
    if way == 1:
        return ["raw", draw.choice(NUMERALS).encode()]
    if way == 2:
        return ["raw", b'"' + draw.choice(TEXTS) + b'"']
    if way == 3:
        return [draw.choice(("array", "object")), []]
    if way == 4:
        return deep(draw, ["array", []])
    if way == 5:
        return ["text", draw.choice(MEMBERS)]
    return ["raw", draw.choice((b"null", b"true", b"false"))]


def change_members(draw, inside):
    """Of an object's members one is dropped, renamed, written twice, or is new."""
    way = draw.randrange(5)
    if way == 0 or not inside:
        inside.insert(draw.randrange(len(inside) + 1), [draw.choice(("note", "x", "", "Name")), odd_value(draw)])
        return
    k = draw.randrange(len(inside))
    if way == 1:
        del inside[k]
    elif way == 2:
        key = inside[k][0]
        inside[k][0] = draw.choice([*MEMBERS, key + "s", key.upper(), key[:-1], " " + key])
    elif way == 3:
        inside.insert(draw.randrange(len(inside) + 1), [inside[k][0], odd_value(draw)])
    else:
        inside.insert(draw.randrange(len(inside) + 1), [inside[k][0], copied(draw.choice(inside)[1])])


def change_items(draw, inside):
    """Of an array's items one is dropped, repeated, exchanged, or is new."""
    way = draw.randrange(4)
    if way == 0 or not inside:
        inside.insert(draw.randrange(len(inside) + 1), odd_value(draw))
        return
    j, k = draw.randrange(len(inside)), draw.randrange(len(inside))
    if way == 1:
        del inside[k]
    elif way == 2:
        inside.insert(j, copied(inside[k]))
    else:
        inside[j], inside[k] = inside[k], inside[j]


def change_tree(draw, tree):
    """The tree with one thing changed."""
    places = slots(tree)
    way = draw.randrange(6)
    if way == 0 or not places:
        groups = [node for node in [tree, *(place[k] for place, k in places)] if node[0] in ("object", "array")]
        node = draw.choice(groups or [["array", []]])
        (change_members if node[0] == "object" else change_items)(draw, node[1])
        return tree
    place, k = draw.choice(places)
    if way == 1:
        place[k] = odd_value(draw)
    elif way == 2:
        other, j = draw.choice(places)
        place[k] = copied(other[j])
    elif way == 3:
        place[k] = deep(draw, place[k])
    elif place[k][0] == "text":
        texts = [slot[j][1] for slot, j in places if slot[j][0] == "text"]
        if way == 4:
            place[k] = ["text", draw.choice(texts)]
        else:
            place[k] = ["text", change_words(draw, encoded(place[k][1])).decode("latin-1")]
    else:
        place[k] = odd_value(draw)
    return tree


def change_json(draw, data):
    """A JSON text with one to three things changed, in another layout; other bytes, and what is nested deep, stay as
    they are."""
    if data.count(b"[") + data.count(b"{") > MOST_NESTED:
        return data
    try:
        tree = grown(json.loads(data))
    except (ValueError, RecursionError):
        return data
    for _ in range(draw.choice((1, 1, 1, 2, 3))):
        tree = change_tree(draw, tree)
    return printed(draw, tree)
