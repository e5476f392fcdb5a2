#!/usr/bin/env python3
"""Compares what anywhere/marks.mjs reads with Python's own readers: checks/grading/readers.py [SEED].

- TOML (marking/toml.mjs) with tomllib: a table of texts, and 6,000 at random. What one reads, the other reads alike;
  times, numbers with a point and numbers of more than 53 bits are refused by the first.
- The grader's own reader of TOML with both: what it has for a student, of values in all forms.
- CSV (marking/csv.mjs) with csv.reader, which takes it strictly: a table, and 3,000 at random.
- Moments (marking/times.mjs) with datetime: a table, and all days of the months of leap years and others.

Without Node, and by modules of an earlier state, nothing is tried, and that is said. The status is 0 if all is so. It takes a second.
"""
import csv
import datetime
import io
import json
import os
import pathlib
import random
import subprocess
import sys
import tempfile
import tomllib

from modules import what_lacks

TOP = pathlib.Path(__file__).resolve().parents[2]
failed = []


def expect(is_so, text):
    if not is_so:
        failed.append(text)
        if len(failed) < 20:
            print(f"readers: {text}", file=sys.stderr)


def read_by_node(module, words, reader, texts):
    """What an expression of JavaScript gives for each text: a list with it, or the message of what it throws."""
    program = f"""import {{ {words} }} from {json.dumps((TOP / "anywhere/src/marking" / module).as_uri())};
        import {{ readFileSync }} from 'node:fs';
        const read = (text) => {{
          try {{ return [{reader}]; }}
          catch (error) {{ if (error instanceof {words.split(",")[0]}) return error.message; throw error; }}
        }};
        console.log(JSON.stringify(JSON.parse(readFileSync(0, 'utf8')).map(read)));"""
    done = subprocess.run(["node", "--input-type=module", "-e", program], input=json.dumps(texts).encode(),
                          capture_output=True)
    if done.returncode != 0:
        sys.exit(f"readers: {module}: {done.stderr.decode()[-2000:]}")
    return json.loads(done.stdout)


# ---- TOML

TOML = [
    "a = 1_000\nb = [0x1F, -3, +4]\nc = true # no\n\"d e\" = 'C:\\x'\n", "a.b.c = 1\na.b.d = 2\n[a.e]\nf = []\n",
    "[[x]]\ny = 1\n[[x]]\n[[x.z]]\nw = {}\n", 'a = """\nfirst\\\n   second\n"quoted" ""two"" """""\n',
    "a = '''\nraw \\n ' here'''\n", "a = '''it's ''x'''''\n", "a = '''\n\n'x''\n'''\n", 'a = """"x""""\n',
    'a = [1, [2, 3,], { b = "c", d.e = 4 },\n# more\n]\r\n', 'a = "\\u00e9\\U0001F600\\t\\\\\\""\n',
    "__proto__ = 1\n[constructor]\ntoString = 'x'\n", "", "a = 0\nb = -0\nc = +0\n", "a = 0o17\nb = 0b1_0\n",
    "[a.b.c]\nx = 1\n[a]\ny = 2\n[a.b]\nz = 3\n", "[[a.b]]\n[a]\nc = 2\n[[a.b]]\n[a.b.d]\ne = 1\n",
    "'a b'.\"c\" . d = 1\n", "[ 'a' . b ]\n", "a = { b.c = 1, b.d = 2, e = {} }\n",
    "a = \"\"\"x\\  \n\n  y\\\n\"\"\"\n", "a = \"tab\there\" #\ttab\n", "[a.b.c]\n[a]\nb.d = 1\n", "1 = 2\n-_ = 3\n",
    "\r\na = 1\r\n\r\n[b]\r\nc = '''\r\nx\r\n'''\r\n",
]
NO_TOML = [
    "a = -0x1F", "a", "a =", "a = 1 b = 2", "a = 1\na = 2", 'a = "x', 'a = "\\q"', "[a", "a = [1", "a = 1.5",
    "a = 2027-01-01", 'a = "\\ud800"', "a = '''x", "[a]\nb = 1\n[[a]]\n", "a = 01", "a = -01", "a = 1__0", "a = _1",
    "a = 1_", "a = 0x_1", "a = 0X1", "a = 1e3", "a = inf", "a = truee", "a = True", "[a]\n[a]\n", "[[a]]\n[a]\n",
    "[a.b]\n[a]\nb.c = 1\n", "[a]\nb.c = 1\n[a.b]\n", "a.b = 1\na.c = 2\n[a]\n", "a = {}\n[a.b]\n", "a = {}\na.b = 1\n",
    "a = []\n[[a]]\n", "a = [{}]\n[a.b]\n", "a = { b = 1, }\n", "a = { b = 1\n}\n", "a = { b = {}, b.c = 1 }\n",
    "a = { b = 1, b = 2 }\n", "a = 'x\ny'\n", 'a = "x\ny"\n', "a = '\x07'\n", 'a = "\x7f"\n', "a = 1 # \x01\n",
    "a = 1\rb = 2\n", "a = '''x''''''\n", 'a = """x""""""\n', "[]\n", "[a.]\n", "a. = 1\n", ".a = 1\n", "= 1\n",
    "[[a]\n", "[[a] ]\n", "[ [a]]\n", "\u00e9 = 1\n", '"""a""" = 1\n', "a = \"\\u12\"\n", "a = \"\\U00110000\"\n",
    "a = [1,,2]\n", "a = [,]\n", "a = [1 2]\n", "a b = 1\n", "a\n= 1\n", "a = 1979-05-27T07:32:00Z",
    "a = 9007199254740993", f"a = {'9' * 400}", f"a = {'[' * 5000}", f"a = {'[' * 200}{']' * 200}",
]
ROWS_OF_TABLES = [
    "[a]", "[a.b]", "[a.b.c]", "[[a]]", "[[a.b]]", "[[a.b.c]]", "a = 1", "a.b = 1", "a.b.c = 1", "b = 1", "b.c = 1",
    "c = {}", "c.d = 1", "a = {}", "a = []", "a = [{}]", "b = {c.d = 1}", "a = {b.c=1, b.d=2}", "[b]", "[b.c]", "[c]",
    "[c.d]", "[[c]]", "x = {a={}, a.b=1}", "b.c.d = 2", "c={a.b=1,a.b.c=2}",
]
BITS = [
    *"ab.=[]{}\"'\\#\n \t,_01x-+\u00e9\r\0\x7f\x0b", '"""', "'''", "[[", "]]", "\r\n", "= 1\n", "a = {}\n", "true",
    "\\u0041", "\\\n", "1__0", "01",
]


def turned(chance, text):
    """A text with some letters more, fewer or others, or its lines in another order."""
    for _ in range(chance.randrange(1, 4)):
        place, bit, lines = chance.randrange(len(text) + 1), chance.choice(BITS), text.splitlines(keepends=True)
        text = chance.choice([
            text[:place] + bit + text[place:], text[:place] + text[place + chance.randrange(1, 4):],
            text[:place] + bit + text[place + 1:], "".join(chance.sample(lines, len(lines)) + lines[:1])])
    return text


def is_plain(it):
    """Whether a value has nothing that the reader refuses: no time, no number with a point, none of many digits."""
    if isinstance(it, (dict, list)):
        return all(map(is_plain, it.values() if isinstance(it, dict) else it))
    return isinstance(it, str) or (isinstance(it, int) and abs(it) < 2 ** 53)


def by_tomllib(text):
    try:
        return [tomllib.loads(text)]
    except (tomllib.TOMLDecodeError, RecursionError):
        return None


def try_toml(chance):
    tables = ["\n".join(chance.choices(ROWS_OF_TABLES, k=chance.randrange(1, 7))) + "\n" for _ in range(3000)]
    texts = TOML + NO_TOML + [turned(chance, chance.choice(TOML)) for _ in range(3000)] + tables
    made = read_by_node("toml.mjs", "NotRead, table_of", "table_of(text)", texts)
    for place, (text, told) in enumerate(zip(texts, made)):
        is_read, wanted = isinstance(told, list), by_tomllib(text)
        if is_read:
            as_read, as_wanted = (json.dumps(it, sort_keys=True) for it in (told, wanted))
            expect(as_read == as_wanted, f"TOML {text!r} is read as {told}, and by tomllib as {wanted}")
        else:
            is_refused = wanted is None or text in NO_TOML or not is_plain(wanted[0])
            expect(is_refused, f"TOML {text!r} isn't read: {told}")
            expect(told.startswith("line "), f"TOML {text!r} is refused without its line: {told}")
        if place < len(TOML) + len(NO_TOML):
            expect(is_read == (place < len(TOML)), f"TOML {text!r}: {told}")
    count = sum(isinstance(it, list) for it in made)
    print(f"readers: of {len(texts)} texts of TOML {count} are read, as tomllib does")


VALUES = [
    "'''it's ''x'''''", '"""" q""""', "0x1F", "1_000", "-0", "+7", "'C:\\x'", '"\\u00e9\\U0001F600 \\\\"',
    '"""a\\\n  b"""', "0b101", "0o17", "'''\nfirst'''", "9007199254740991",
]


def try_grader():
    """The grader reads the values of a variant as both do."""
    lines = [f"k{place} = {value}\n" for place, value in enumerate(VALUES)]
    text = ('title = "x"\nfiles = ["init"]\n[[variant]]\n' + "".join(lines)
            + '[[run]]\nname = "r"\n[[run.rule]]\nname = "n"\nstatus = 3\n')
    wanted = tomllib.loads(text)["variant"]
    [made] = read_by_node("toml.mjs", "NotRead, table_of", "table_of(text).variant", [text])
    expect(made == [wanted], f"TOML: the values are {made}, and by tomllib {wanted}")
    with tempfile.TemporaryDirectory() as room:
        path = pathlib.Path(room, "values.toml")
        path.write_text(text, encoding="utf-8")
        words = [TOP / "bin/xv_grade", "--variant", path, "anna"]
        done = subprocess.run(words, capture_output=True, env={**os.environ, "XV_NODE": "yes"})
    told = done.stdout.decode().splitlines()
    expect(sorted(told) == sorted(f"{key}: {value}" for key, value in wanted[0].items()),
           f"TOML: the grader reads {told} {done.stderr.decode()}")


# ---- CSV

CSV = [
    "id,name\r\n1,\"a,b\"\r\n", "id;name\n1;\"a;b\"\n", "id\tname\n1\t\"a\tb\"\n", "a,b\n\"x\"\"y\",\"\r\nz\"\n",
    "a\r1\r2\r", "a,b\n1,2", "a\n\"\"\n", "a,b\n,\n", "a,b\n5\" disk,x\n", "a,b\n\"unclosed,x\n", "a,b\n\"x\"y,z\n",
    "a,b\n \"x,y\"\n", "\"a;b\",c\n1,2\n", "", "\n\na,b\n1,2\n",
]
CELLS = [
    "x", "", "\"", "\"\"", ",", ";", "\n", "\r\n", "\"a,b\"", "\"c\nd\"", "\"e\"\"f\"", " ", "\u00e9", "\t",
]


def by_csv(text, comma):
    """The rows that csv.reader has, but for empty ones; none if it refuses the text."""
    try:
        rows = csv.reader(io.StringIO(text, newline=""), delimiter=comma, strict=True)
        return [row for row in rows if row not in ([], [""])]
    except csv.Error:
        return None


def try_csv(chance):
    texts = CSV + ["a,b\n" + "".join(chance.choices(CELLS, k=chance.randrange(1, 9))) for _ in range(3000)]
    commas = [";" if text.startswith("id;") else "\t" if text.startswith("id\t") else "," for text in texts]
    reader = "rows_of(text, separator_of(text))"
    made = read_by_node("csv.mjs", "NoTable, rows_of, separator_of", reader, texts)
    for text, comma, told in zip(texts, commas, made):
        wanted = by_csv(text, comma)
        read = told[0] if isinstance(told, list) else None
        expect(read == wanted, f"CSV {text!r} is read as {told}, and not {wanted}")
    print(f"readers: of {len(texts)} texts of CSV {sum(isinstance(it, list) for it in made)} are read, as Python does")


# ---- moments

MOMENTS = [
    "2027-04-12T23:59:00+02:00", "2027-04-12T23:59Z", "2028-02-29T00:00Z", "2027-04-12T23:59:59.5-11:30",
    "2027-12-31T23:59:59Z",
]
NO_MOMENTS = [
    "3/4/2026", "2027-04-12", "2027-04-12T23:59", "2027-04-12 23:59Z", "2027-02-29T00:00Z", "2100-02-29T00:00Z",
    "2027-04-31T00:00Z", "2027-04-12T24:00Z", "2027-04-12T23:60Z", "2027-04-12T23:59:60Z", "2027-04-12T23:59+2:00",
    "2027-04-12T23:59+0200", "2027-04-12T23:59+24:00", "27-04-12T23:59Z", "2027-4-12T23:59Z", "2027-04-12T23:59z",
    "20270412T2359Z", "", "noon", "2027-04-12T23:59Z\n", "2027-13-01T00:00Z", "2027-00-01T00:00Z",
    "\u0662027-04-12T23:59Z",
]
DAYS = [
    f"{year}-{month:02}-{day:02}T12:00+00:00"
    for year in (2000, 2027, 2028, 2100) for month in range(1, 13) for day in range(1, 33)
]


def by_datetime(text):
    try:
        return datetime.datetime.fromisoformat(text).timestamp() * 1000
    except ValueError:
        return None


def try_moments():
    texts = MOMENTS + NO_MOMENTS + DAYS
    for text, (told,) in zip(texts, read_by_node("times.mjs", "moment_of", "moment_of(text)", texts)):
        expect(told == (None if text in NO_MOMENTS else by_datetime(text)), f"the moment {text!r} is {told}")


def main():
    if lack := what_lacks():
        print(f"readers: not tried, since {lack}")
        return 0
    chance = random.Random(int(sys.argv[1]) if sys.argv[1:] else 1)
    try_toml(chance)
    try_grader()
    try_csv(chance)
    try_moments()
    print(f"readers: {len(failed)} things are not as they should be" if failed else "readers: all is as it should be")
    return 1 if failed else 0


if __name__ == "__main__":
    sys.exit(main())
