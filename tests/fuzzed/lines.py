"""Which lines and which status go with the words of a run, written from docs/FORMATS.md and README.md alone.

    seen, wrong = judged(words, files, status, out)

`seen` are the kinds of the lines that were printed, `wrong` what is not as the documents say, empty where all is.
"""

import re
from typing import NamedTuple

NAME = "[!-~]+"
AT = f"at (?:-|{NAME}=[01](?: {NAME}=[01])*)"
PHASE = f"phase (?P<phase>{NAME})"
BITS = "circuit [01] wanted [01]"

# The verdicts that are faults, that leave a cell undecided, and that are neither: the words behind the name of the cell.
RIGHT = {"equal": "equal", "skipped": "skipped"}
FAULTS = {
    "fight": f"fight {NAME} {PHASE} {AT}",
    "float": f"float {NAME} {PHASE} {AT}",
    "differs": f"differs {NAME} {PHASE} circuit [01] model [01] {AT}",
    "fightkept": f"fightkept {NAME} {PHASE} {AT}",
    "unsettled": f"unsettled {NAME} {PHASE} {BITS} {AT}",
    "constraint": f"constraint {NAME} {PHASE} {AT}",
    "next": f"next {NAME} {PHASE} {BITS} {AT}",
    "apart": f"apart {NAME} {PHASE} {BITS} {AT}",
    "enter": f"enter {NAME} {PHASE} {BITS} {AT}",
}
CAUSES = {
    "nomodel": "nomodel",
    "large": "large (?P<count>[0-9]+)",
    "device": f"device {NAME}",
    "supplytie": f"supplytie {NAME}",
    "ports": f"ports {NAME}",
    "outputisinput": f"outputisinput {NAME}",
    "noclock": f"noclock {NAME}",
    "unmatched": f"unmatched {NAME}",
    "variables": "variables [0-9]+",
    "cycle": f"cycle {NAME} {PHASE}",
    "modelcycle": f"modelcycle (?:expr [0-9]+|{NAME}|) {PHASE}",
}
UNDECIDED = {"vacuous": f"vacuous {PHASE}", "budget": f"budget (?P<nodes>[0-9]+) {PHASE}"} | {
    f"unsupported {cause}": f"unsupported {form}" for cause, form in CAUSES.items()
}
CELLS = [
    (kind, group, re.compile(f"cell (?P<cell>{NAME}) {form}"))
    for group, forms in (("right", RIGHT), ("fault", FAULTS), ("undecided", UNDECIDED))
    for kind, form in forms.items()
]

# What stands behind `verity: FILE line N: `, for each of the three files and for the words.
SPICE = [
    "byte that is not text", "nothing to continue", f"card not supported: {NAME}", "too few words", "cell within a cell",
    ".ends outside a cell", ".ends names another cell", "cell not ended", f"cell twice: {NAME}", f"element twice: {NAME}",
    f"port twice: {NAME}", "limit passed", f"no cell {NAME}", "[0-9]+ nets for [0-9]+ ports", f"cell contains itself: {NAME}",
    "deeper than 32",
]  # fmt: skip
BLIF = [
    "byte that is not text", f"card not supported: {NAME}", "outside a model", "row does not fit", "rows of both values",
    "latch does not fit", "tie does not fit", f"model twice: {NAME}", "too few words", "limit passed", f"no model {NAME}",
    f"tie does not fit: {NAME}", f"model contains itself: {NAME}", "deeper than 32", f"two drivers: {NAME}", f"no driver: {NAME}",
]  # fmt: skip
# Of models in Verilog a name may be empty, and that of a signal without one is two words.
NET = f"(?:expr [0-9]+|{NAME}|)"
VERILOG = [
    "byte that is not text", f"not supported: {NAME}", "statement does not fit", f"module twice: {NAME}|module twice: ",
    f"port does not fit: {NAME}|port does not fit: ", "module not ended", "limit passed", f"no model {NAME}|no model ",
    f"tie does not fit: {NAME}|tie does not fit: ", f"model contains itself: {NAME}|model contains itself: ", "deeper than 32", f"two drivers: {NET}",
    f"no driver: {NET}",
]  # fmt: skip
RULES = [
    "byte that is not text", "line does not fit", "number does not fit", "expression does not fit", f"given twice: {NAME}|given twice: ",
    f"no phase {NAME}|no phase ", f"no clock {NAME}|no clock ", "limit passed", f"no such name: {NAME}|no such name: ",
]  # fmt: skip
WORDS = ["no such name: .*", "list does not fit", "given twice: .*"]
LONG = "longer than 16777216 bytes"
USAGE = "verity: usage: verity [--do MODE] [--cell C] [--phase P] [--at LIST] [--budget N] [--size N] [--rise LIST] [SPICE BLIF RULES]"


class Asked(NamedTuple):
    """What the words ask for: `usage` where they are not understood, `text` for help or the version, else the mode; `unclear` where
    the documents do not say which."""

    mode: str
    values: dict
    files: list


MODES = {
    "check": {"--cell", "--budget"},
    "classes": {"--cell"},
    "replay": {"--cell", "--phase", "--at"},
    "gen": {"--budget", "--size"},
    "arrive": {"--cell", "--phase", "--rise", "--budget"},
    "blif": {"--cell", "--budget"},
}
VALUED = {"--do", "--cell", "--phase", "--at", "--budget", "--size", "--rise"}
TEXTS = {"--help", "-h", "--version", "-V"}


def number_of(text, least, most, digits):
    """The number of a text, or None where it is none in these bounds, or has more digits."""
    if not re.fullmatch(f"[0-9]{{1,{digits}}}", text) or not least <= int(text) <= most:
        return None
    return int(text)


def asked(words):
    """What the words of a command line ask for, by the table of options."""
    values, files, texts, at = {}, [], 0, 0
    wrong = Asked("usage", {}, [])
    if any(re.search("[^ -~]", word) for word in words):
        return Asked("unclear", {}, [])
    while at < len(words):
        word, at = words[at], at + 1
        if word == "--":
            files += words[at:]
            break
        if word in TEXTS:
            texts += 1
        elif re.match("-.", word):
            name, equals, value = word.partition("=")
            if not equals:
                value, at = "".join(words[at : at + 1]), at + 1
            if name not in VALUED or name in values or at > len(words) or not equals and re.match("-.", value):
                return Asked("unclear", {}, []) if any(re.match("-[hV]|--help|--version", it) for it in words) else wrong
            values[name] = value
        else:
            files.append(word)
    if texts:
        return Asked("text" if len(words) == 1 else "unclear", {}, [])
    mode = values.pop("--do", "check")
    fits = (
        mode in MODES
        and set(values) <= MODES[mode]
        and len(files) == (0 if mode == "gen" else 3)
        and (mode != "replay" or {"--cell", "--phase"} <= set(values))
        and (mode != "arrive" or {"--cell", "--phase", "--rise"} <= set(values))
        and (mode != "blif" or "--cell" in values)
        and (mode != "gen" or number_of(values.get("--size", ""), 1, 32, 2) is not None)
        and ("--budget" not in values or number_of(values["--budget"], 65536, 64000000, 8) is not None)
    )
    return Asked(mode, values, files) if fits else wrong


def refused(line, ask, files):
    """The kind of a refusal that names a file of the words or the words, or None where it is none."""
    for place, name in enumerate(ask.files):
        head = f"verity: {name} line "
        found = re.fullmatch("([0-9]+): (.*)", line[len(head) :]) if line.startswith(head) else None
        if not found:
            continue
        number, text = int(found[1]), found[2]
        if number == 0 and text == LONG:
            return LONG
        lines = files.get(name, b"").count(b"\n") + 1
        for form in (SPICE, VERILOG if name.endswith(".v") else BLIF, RULES)[place]:
            if re.fullmatch(form, text) and 1 <= number <= lines:
                return f"{('netlist', 'models', 'rules')[place]}: {form.replace(NET, 'NAME').partition('|')[0].replace(NAME, 'NAME').replace('[0-9]+', 'N')}"
    if line.startswith("verity: words line 0: "):
        for form in WORDS:
            if re.fullmatch(form, line[len("verity: words line 0: ") :]):
                return f"words: {form.replace('.*', 'NAME')}"
    return None


def verdict(line):
    """The kind, the group and the cell of a verdict, or None."""
    for kind, group, form in CELLS:
        found = form.fullmatch(line)
        if found:
            return kind, group, found["cell"]
    return None


def lowered(text):
    """A text with the letters of ASCII lowered."""
    return text.encode("latin-1", "replace").lower().decode("latin-1")


def status_of(groups):
    """The status that verdicts have together."""
    return 1 if "fault" in groups else 4 if "undecided" in groups else 0


def judged_verdicts(lines, status, ask, wrong):
    """The kinds of verdicts, and what is wrong with them."""
    seen, groups, cells = [], set(), []
    for line in lines:
        told = verdict(line)
        if told is None:
            wrong.append(f"no form of a verdict: {line[:200]}")
            continue
        seen.append(f"cell {told[0]}")
        groups.add(told[1])
        cells.append(told[2])
    if status != status_of(groups):
        wrong.append(f"status {status} of verdicts that have {status_of(groups)}")
    if len(set(cells)) != len(cells):
        wrong.append("two verdicts on one cell")
    if "--cell" in ask.values and cells[-1:] != [lowered(ask.values["--cell"])]:
        wrong.append("the last verdict is not that of --cell")
    return seen


def judged_arrival(line, status, ask, wrong):
    """The kind of the one line of arrival orders on an equal cell, and what is wrong with it."""
    cell, phase, names = (re.escape(lowered(ask.values[option])) for option in ("--cell", "--phase", "--rise"))
    arrived = "".join(f" {name}\\+=[01]" for name in names.split(","))
    port = f"(?:{names.replace(',', '|')})"
    forms = {
        "yes": (f"arrive {cell} phase {phase} yes", 0),
        "no": (f"arrive {cell} phase {phase} no {port} at {NAME}=[01](?: {NAME}=[01])*?{arrived}", 1),
        "variables": (f"arrive {cell} variables [0-9]+", 4),
        "budget": (f"arrive {cell} budget [0-9]+ phase {phase}", 4),
    }
    for kind, (form, wanted) in forms.items():
        if re.fullmatch(form, line):
            wrong += [f"status {status} of arrive {kind}"] if status != wanted else []
            return [f"arrive {kind}"]
    wrong.append(f"no form of arrival orders: {line[:200]}")
    return []


def judged_written(lines, status, ask, wrong):
    """The kind of the lines of an equal cell that is to be written, and what is wrong with them."""
    cell = re.escape(lowered(ask.values["--cell"]))
    found = re.fullmatch(f"blif {cell} (?:(hold|clock|name) .*|(budget|large|long) [0-9]+)", lines[0]) if len(lines) == 1 else None
    if found:
        wrong += [f"status {status} of a cell that is not written"] if status != 4 else []
        return [f"blif {found[1] or found[2]}"]
    forms = r"\.(?:model|inputs|clock|outputs)(?: .*)?|\.names .+|1|01- 1|1-1 1|1 1|\.end"
    if lines[:1] == [] or not lines[0].startswith(".model ") or lines[-1] != ".end":
        wrong.append(f"no form of a written model: {lines[:1]}")
    if not all(re.fullmatch(forms, line) for line in lines):
        wrong.append("a line that is none of a written model")
    if status != 0:
        wrong.append(f"status {status} of a written model")
    return ["blif written"]


def judged_lines(lines, status, ask, wrong):
    """The kinds of the lines of a mode that ended with a status of verdicts, and what is wrong with them."""
    told = verdict(lines[0]) if len(lines) == 1 else None
    if ask.mode == "check":
        return judged_verdicts(lines, status, ask, wrong)
    if ask.mode == "gen":
        last = f"generated size {int(ask.values['--size'])} devices [0-9]+ variables [0-9]+"
        if not lines or not re.fullmatch(last, lines[-1]):
            wrong.append("no line of what was generated at the end")
        return judged_verdicts(lines[:-1], status, ask, wrong) + ["generated"]
    if ask.mode == "arrive":
        if told and told[0] != "equal":
            return judged_verdicts(lines, status, ask, wrong)
        return judged_arrival(lines[0] if len(lines) == 1 else "", status, ask, wrong)
    if ask.mode == "blif":
        if told and told[0] != "equal":
            return judged_verdicts(lines, status, ask, wrong)
        return judged_written(lines, status, ask, wrong)
    if ask.mode == "replay":
        cell, phase = lowered(ask.values["--cell"]), lowered(ask.values["--phase"])
        if told and (told[0] == "skipped" or told[0].startswith("unsupported ")):
            return judged_verdicts(lines, status, ask, wrong)
        if lines[:1] not in ([f"replay {cell} phase {phase} meets yes"], [f"replay {cell} phase {phase} meets no"]):
            wrong.append("the first line is not that of a replay")
        value = "(?:0|1|fight|float|-)"
        if not all(re.fullmatch(f"net {NAME} {value} {value}", line) for line in lines[1:]):
            wrong.append("a line that is none of a net")
        if len({line.split(" ")[1] for line in lines[1:]}) != len(lines) - 1:
            wrong.append("a net twice")
        if status != 0:
            wrong.append(f"status {status} of a replay")
        return ["replay " + line.rpartition(" ")[2] for line in lines[:1]] + ["net"] * (len(lines) - 1)
    seen, groups = [], set()
    for line in lines:
        found = re.fullmatch(f"class {NAME} {NAME} (static|pass|domino)", line)
        told = None if found else verdict(line)
        if not found and (told is None or told[0] != "skipped" and not told[0].startswith("unsupported ")):
            wrong.append(f"no form of a class: {line[:200]}")
            continue
        seen.append(f"class {found[1]}" if found else f"cell {told[0]}")
        groups |= {told[1]} if told else set()
    if status != status_of(groups):
        wrong.append(f"status {status} of classes that have {status_of(groups)}")
    return seen


def judged(words, files, status, out):
    """The kinds of the lines of a run, and what is wrong: of its words, its files by name, its status and what it printed."""
    wrong = []
    if out and not out.endswith(b"\n"):
        wrong.append("the last line does not end")
    # The name of a file is printed as it was given.
    given = all(re.fullmatch("[ -~]*", word) for word in words)
    if given and re.search(b"[^ -~\n]", out):
        wrong.append("a byte that is not text")
    lines = out.decode("latin-1").split("\n")[:-1]
    ask = asked(words)
    if ask.mode == "text" or ask.mode == "unclear" and len(lines) != 1:
        if status != 0:
            wrong.append(f"status {status} of a text")
        return ["text"], wrong
    if lines == [USAGE] or status == 2:
        if ask.mode not in ("usage", "unclear"):
            wrong.append("words that fit are not understood")
        if lines != [USAGE] or status != 2:
            wrong.append(f"status {status} of the usage line")
        return ["usage"], wrong
    if ask.mode == "usage":
        return [], wrong + ["words that do not fit are understood"]
    if ask.mode == "unclear":
        return ["text"], wrong
    if status == 3:
        kind = refused(lines[0], ask, files) if len(lines) == 1 else None
        return [kind or "none"], wrong + ([] if kind else [f"no refusal: {' / '.join(lines)[:300]}"])
    if status == 5:
        failed = [f"verity: {name}: read failed" for name in ask.files]
        return ["read failed"], wrong + ([] if len(lines) == 1 and lines[0] in failed else ["no line of a file that was not read"])
    if status not in (0, 1, 4):
        return [], wrong + [f"status {status}"]
    return judged_lines(lines, status, ask, wrong), wrong
