#!/usr/bin/env python3
"""Changes files of cases and examples at random, and looks for what no file should bring about.

    fuzz.py PROGRAM COUNT SEED [FIRST [AUDIT]]

PROGRAM is the path of the built program; COUNT inputs are tried, from number FIRST (0) on, as SEED and the number draw
them: a portfolio and a script, one or both changed. `check`, `eval` (twice) and `desk 2` with the script once and twice
run over each. Looked for are: a signal; more than 60 seconds; a status, or a line of a refusal, that docs/ERRORS.md
doesn't have; a text that isn't exactly of the form of docs/TEXTS.md, with counts that fit; commands that don't agree.
Where AUDIT is the path of the built `actus_audit`, each text has to be right by it, and wrong with a byte changed in
its answers.
A finding is printed with the folder of its files, and in the end how many runs had which status. Status 1: one was.
"""

import collections
import datetime
import json
import os
import pathlib
import random
import re
import shutil
import subprocess
import sys
import tempfile

DATA = pathlib.Path(__file__).resolve().parents[2] / "crates/cases/data"
TYPES = "IED PR PP PY FP PRD TD IP IPCI RRF RR PRF IPCB SC DV MD CE XD STD".replace(" ", "|")
KINDS = "PAM LAM NAM ANN STK FXOUT SWPPV SWAPS CAPFL OPTNS FUTUR CEG CEC".replace(" ", "|")
NAME, DAY, COUNT, PLACE = r"[!-~]{1,64}", r"(\d{4}-\d\d-\d\d)", r"(0|[1-9]\d*)", r"[1-9]\d*"
AMOUNT = r"(?!-0\.0{9}(?: |\Z))-?(?:0|[1-9]\d*)\.\d{9}"
ITEM = (rf"(?P<caller>[1-9]) (?:rate {NAME} {DAY} {AMOUNT}|event (?P<contract>{NAME}) "
        rf"(?:(?:PP|DV|XD) {DAY} {AMOUNT}|CE {DAY} D[LQF])|ask (?P<ask>\*|{NAME}))")
ROW = rf"{DAY} (?:{TYPES}) [!-~]{{1,16}}(?: {AMOUNT}){{4}}"
CLOSE = rf"(end)|missing {NAME} {DAY}|overflow {DAY} (?:{TYPES})"
CHECKED = rf"portfolio ok {COUNT}\n(?:contract {NAME} (?:{KINDS}) {COUNT}\n(?:unused [!-~]+\n)*)*"
REFUSED = {5: rf"portfolio (?:10 0 -|11 0 -|1[1-4] {PLACE} [a-zA-Z0-9]+|1[1689] {PLACE} -|15 {PLACE} contractType"
              rf"|17 {PLACE} contractID|20 {PLACE} contractStructure|21 {PLACE} {NAME}|22 {PLACE} {NAME}(?: {NAME})*"
              rf"|23 {PLACE} -)\n", 6: rf"script [1-5] [12] {PLACE}\n"}
EDGES = f"""0 -0 1 -1 1e18 1e19 1e-18 -1e18 4e-10 5e-10 -5e-10 1e-9 -1e-9 1.0.0 - + .5 5. 1e 0x1 NaN 1,0 100 0.05
170141183460469231731687303715.884105727 170141183460469231731687303715.884105728 {'0' * 64} {'0' * 65} {'9' * 30}
1900-01-01 1899-12-31 2299-12-31 2300-01-01 2020-02-29 2020-02-30 2019-12-31 2020-01-01 2020-12-31T00:00:00
2020-01-01T12:00:00 0000-01-01 P1D P1DL1 P0D P999Y P1000D P1M P1W P3ML0 P1YL1 p1m P50Y E A B N I O NTL MV NI DF MOC RPL
{'x' * 16} {'x' * 17} {'x' * 64} {'x' * 65} * ** true USD EUR/USD""".split() + KINDS.split("|") + [
    "", " ", "a b", "é", "\x7f", "\0", "\U0001F600", "\ud83d", None, True, [], {}, [{}], ["DL", "DF"], ["X", True]]
PIECES = [bytes([byte]) for byte in b'"\\{}[],:\n\r \0\xff\xc3-1e'] + [b"\xef\xbb\xbf", b"null", b"\\u0000", b"\\ud800"]
TOKEN = re.compile(rb'"(?:[^"\\]|\\.)*"|[-+.0-9eE]+|[A-Za-z]+|.', re.DOTALL)
MEMBER = re.compile(rb'"\w+" ?: ?(?:"[^"]*"|[^][{}",]+),')


def parsed(text):
    try:
        return json.loads(text, parse_float=str, parse_int=str)
    except (ValueError, RecursionError):
        return None


def objects(value, name):
    """The objects in a value that have that name."""
    for inner in value if isinstance(value, list) else value.values() if isinstance(value, dict) else ():
        yield from objects(inner, name)
    if isinstance(value, dict) and name in value:
        yield value


def corpus():
    """Portfolios, each with a script, by the kinds in them, and all; and the values of each term."""
    pairs, values = [], collections.defaultdict(list)
    for path in sorted(DATA.rglob("*.json")):
        scripts = sorted(path.parent.glob("*.txt")) if path.parent.name == "scripts" else [path.with_suffix(".txt")]
        pairs += [(path.read_bytes(), file.read_bytes() if file.exists() else b'{"ask":"*"}\n') for file in scripts]
    tables = [table.read_text(encoding="utf-8") for table in sorted(DATA.glob("*.txt"))]
    for row in re.split(r"\n(?! )", "\n".join(tables)):
        found = re.match(r"(?!refuse)\w+ (\[\{.*\}\]|.* -> .*?)((?:\s*\{.*\})*)\s+= ", row)
        if found and not re.search("[«‹␠␉␊␍]", row):
            changes = [change.split(" -> ") for change in found[1].split("; ")] if " -> " in found[1] else []
            text = (DATA / "loans/p1.json").read_text() if changes else found[1]
            for old, new in changes:
                text = text.replace(old, new, 1)
            pairs.append((text.encode(), re.sub(r"\n +", "\n", found[2] + '\n{"ask":"*"}\n').encode()))
    for contract in objects([parsed(portfolio) for portfolio, _ in pairs], "contractID"):
        for name, value in contract.items():
            values[name].append(value)
    return [[pair for pair in pairs if kind.encode() in pair[0]] for kind in KINDS.split("|")] + [pairs], values


PAIRS, VALUES = corpus()


def drawn_value(draw, name=None):
    day = datetime.date(2020, 1, 1) + datetime.timedelta(draw.choice([-1, 1, 31, 366, 3650]) * draw.randint(0, 9))
    return draw.choice([draw.choice(VALUES.get(name, EDGES))] * 6 + [str(day)] * 2 + [draw.choice(EDGES)] * 3)


def change_contracts(draw, listed):
    """Changes a list of contracts in one place."""
    found, references = list(objects(listed, "contractType")) or [{}], list(objects(listed, "referenceRole"))
    one, ids = draw.choice(found), [c["contractID"] for c in found if c.get("contractID")] + ["P1", "N1"]
    name, what = draw.choice(sorted(one) if one and draw.random() < 0.6 else sorted(VALUES)), draw.randrange(10)
    if what < 4:
        one[name] = drawn_value(draw, name)
    elif what == 4:
        one.pop(name, None)
    elif what == 5:
        listed.append(dict(one, contractID=draw.choice([f"N{draw.randrange(99)}", draw.choice(ids)])))
        draw.shuffle(listed)
    elif what < 8:
        kinds = {"SWAPS": ["FIL", "SEL"], "CAPFL": ["UDL"], "CEG": ["COVE"], "CEC": ["COVE", "COVI"]}
        kind, last = draw.choice(["SWAPS", "CAPFL", "CEG", "CEG", "CEC"]), draw.choice(ids)
        for number in range(draw.choice([1, 2, 14, 15, 16, 17]) if kind == "CEG" else 1):
            structure = [{"object": to, "referenceRole": role, "referenceType": draw.choice(["CID"] * 3 + ["MOC"])}
                         for to, role in zip([last, draw.choice(ids)], kinds[kind])]
            last = f"G{draw.randrange(999)}"
            listed.append({"contractID": last, "contractType": kind, "contractRole": "RFL", "statusDate": "2019-12-31",
                           "currency": "EUR", "lifeCap": 0.01, "contractStructure": structure})
    elif what == 8 and references:
        draw.choice(references)["object"] = draw.choice([*ids, json.loads(json.dumps(draw.choice(found)))])
    else:
        listed += parsed(draw.choice(draw.choice(PAIRS))[0]) or []


def changed_bytes(draw, text):
    """The bytes changed in one place."""
    at, tokens = draw.randint(0, len(text)), TOKEN.findall(text) or [b""]
    to, place = min(len(text), at + draw.choice([1, 1, 2, 5, 20, 200])), draw.randrange(len(tokens))
    one, other = draw.choices(MEMBER.findall(text) or [b""], k=2)
    value, depth = json.dumps(drawn_value(draw)).encode(), draw.choice([1, 2, 124, 126, 127, 128, 5000])
    token = draw.choice([draw.choice(tokens), value, value.strip(b'"'), b"", tokens[place] * 2])
    return draw.choice([b"".join([*tokens[:place], token, *tokens[place + 1:]])] * 4 + [
        text.replace(one, draw.choice([b"", one * 2, one + other, other]), 1), text[:at] + text[to:], text[:at],
        text[:at] + b"[" * depth + text[at:to] + b"]" * depth + text[to:], text[:at] + draw.choice(PIECES) + text[at:],
        text[:at] + bytes([draw.randrange(256)]) + text[to:], text[:to] + text[at:], b"\xef\xbb\xbf" + text,
        text.decode("utf-8", "replace").encode("utf-16"), text.replace(b"E", b"\xc9", 1),
        text.replace(b"A", b"\\u0041"), text.replace(b"\n", b"\r\n"), text + b"\0"])


def changed_portfolio(draw, text):
    listed = parsed(text)
    for _ in range(draw.choice([1, 1, 1, 2, 3, 5])):
        if isinstance(listed, list) and draw.random() < 0.9:
            change_contracts(draw, listed)
            text = json.dumps(listed).encode()
        else:
            text, listed = changed_bytes(draw, text), None
    return text


def changed_script(draw, text, portfolio):
    lines = text.split(b"\n")
    names = re.findall(rb'"(?:contractID|object|marketObjectCode\w*)" ?: ?"([!-~]{1,64}?)"', portfolio) or [b"P1"]
    for _ in range(draw.choice([1, 1, 2, 3, 6])):
        at, name = draw.randint(0, len(lines)), draw.choice(names).decode()
        day = datetime.date(2019, 12, 28) + datetime.timedelta(draw.choice([1, 30, 91]) * draw.randint(0, 12))
        value = draw.choice(["0.03", "100", "1.1", draw.choice(EDGES[:28])])
        kind, of = draw.choice([("PP", value), ("DV", value), ("XD", value), ("CE", '"DF"'), ("CE", '"DL"')])
        made = [f'{{"event":{{"contract":"{name}","type":"{kind}","date":"{day}","value":{of}}}}}', '{"ask":"*"}',
                f'{{"ask":"{name}"}}'] + [f'{{"rate":{{"code":"{name}","date":"{day}","value":{value}}}}}'] * 2
        place = slice(at, at + draw.choice([0, 0, 1, 2]))
        lines[place] = draw.choice([
            [draw.choice(made).encode()], [draw.choice(made).encode()], [], lines[at:at + 5] * draw.choice([1, 3, 40]),
            [changed_bytes(draw, b"\n".join(lines[place]))], [b"".join(lines[at:at + 2])], [b"", b" \t\r"],
            [draw.choice([b"[]", b"{}", b"\r", b"\x0b", b'{"ask":"*"}\r'])], draw.sample(lines, len(lines))[:9]])
    return b"\n".join(lines)


def read_text(text, names, callers, is_eval):
    """The steps in a text of `eval` or `desk` by caller, and whether a block stops. It fails where it is none."""
    lines = collections.deque(text.split("\n"))

    def take(form, is_plain=False):
        found = lines[0] == form if is_plain else re.fullmatch(form, lines[0])
        assert found, f"{lines[0]!r} in place of {form}"
        lines.popleft()
        return found

    asks, steps, version, stops = [], collections.defaultdict(list), 0, False
    for _ in range(int(take(f"journal {COUNT}")[1])):
        item = take(ITEM)
        caller = int(item["caller"])
        assert caller <= callers and item["contract"] in [None, *names] and item["ask"] in [None, "*", *names], item[0]
        steps[caller].append(item[0][2:])
        asks += [(caller, len(asks), item["ask"], version)] if item["ask"] else []
        version += not item["ask"]
    take(f"answers {len(asks)}", True)
    numbers = collections.Counter()
    for caller, _, asked, version in sorted(asks):
        numbers[caller] += 1
        take(f"answer {caller} {numbers[caller]} {version}", True)
        for name in names if asked == "*" else [asked]:
            take(f"contract {name}", True)
            days = []
            while lines[0][:1].isdigit():
                days.append(datetime.date.fromisoformat(take(ROW)[1]))
            assert days == sorted(days), f"days of {name}"
            stops |= not take(CLOSE)[1]
    assert not is_eval or take(f"work {COUNT}")
    take("", True)
    return steps, stops


def look(results, script):
    """Fails where something is wrong with what check, eval, eval, desk and desk of two callers answered."""
    check, first, again, alone, both = results
    for status, out, errors in results:
        assert status in (0, 5, 6, 8) and not errors, f"status {status}, {errors[:200]!r}"
        assert status not in REFUSED or re.fullmatch(REFUSED[status], out), f"status {status}, {out[:200]!r}"
    names = re.findall(r"^contract (\S+) ", check[1], re.MULTILINE)
    assert check[0] == 5 or (re.fullmatch(CHECKED, check[1]) or [0, ""])[1] == str(len(names)), "the text of check"
    assert first == again, "two runs of eval differ"
    assert (check == first) == (check[0] == 5) and (first[0] in (0, 8) or first == alone == both), "they don't agree"
    assert first[0] != 6 or int(first[1].split()[3]) <= script.count(b"\n") + 1, "no such line"
    if first[0] in (0, 8):
        steps, stops = read_text(first[1], names, 1, True)
        assert first[0] == (8 if stops else 0), "the status of eval"
        assert alone == (first[0], first[1][:first[1].rindex("work")], ""), "the text of desk"
        many, stops = read_text(both[1], names, 2, False)
        assert both[0] == (8 if stops else 0) and many[1] == many[2] == steps[1], "the status of desk, or its journal"


def run(program, words, folder):
    try:
        ran = subprocess.run([program, *words], cwd=folder, capture_output=True, timeout=60)
        return ran.returncode, ran.stdout.decode("latin-1"), ran.stderr.decode("latin-1")
    except subprocess.TimeoutExpired:
        return "time", "", ""


def audit(program, draw, results, folder):
    """Each text is right with its scripts, and with a byte of its answers changed it is wrong."""
    for (status, out, _), scripts in zip((results[1], results[3], results[4]), (["s"], ["s"], ["s", "s"])):
        if status not in (0, 8):
            continue
        answers = out.index("\nanswers ") + 1
        place = draw.randrange(answers, len(out))
        sign = draw.choice([sign for sign in "0123456789 -.\nxE" if sign != out[place]])
        changed = out[:place] + sign + out[place + 1:]
        right = f"right {out[answers:].split(maxsplit=2)[1]}\n"
        for text, ended, line in ((out, 0, right), (changed, 1, r"wrong \d+\n")):
            (folder / "t").write_bytes(text.encode("latin-1"))
            told = run(program, ["p", "t", *scripts], folder)
            assert told[0] == ended and re.fullmatch(line, told[1]), f"the audit of {scripts} says {told[:2]}"


def main(program, count, seed, first=0, audited=None):
    folder, runs, found = pathlib.Path(tempfile.mkdtemp(prefix=f"fuzz-{seed}-")), collections.Counter(), 0
    for number in range(int(first), int(first) + int(count)):
        draw = random.Random(f"{seed} {number}")
        (portfolio, script), which = draw.choice(draw.choice(PAIRS)), draw.random()
        portfolio = changed_portfolio(draw, portfolio) if which > 0.4 else portfolio
        script = changed_script(draw, script, portfolio) if which < 0.7 else script
        (folder / "p").write_bytes(portfolio)
        (folder / "s").write_bytes(script)
        lines = ["check p", "eval p s", "eval p s", "desk 2 p s", "desk 2 p s s"]
        results = [run(os.path.abspath(program), line.split(), folder) for line in lines]
        runs.update(f"{status} " + " ".join(out.split()[:2] if status in REFUSED else []) for status, out, _ in results)
        try:
            look(results, script)
            if audited:
                audit(os.path.abspath(audited), draw, results, folder)
        except (AssertionError, ValueError) as error:
            found += 1
            print(f"{number}: {error}; {folder / str(number)}", flush=True)
            shutil.copytree(folder, folder / str(number), ignore=shutil.ignore_patterns("[0-9]*"))
    print(f"{count} inputs, {found} found; runs:", "".join(f"\n{runs[what]:9} {what}" for what in sorted(runs)))
    return 1 if found else 0


if __name__ == "__main__":
    sys.exit(main(*sys.argv[1:]) if len(sys.argv) in (4, 5, 6) else __doc__)
