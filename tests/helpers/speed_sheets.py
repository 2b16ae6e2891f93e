"""The sheets that tests/speed measures, the same ones in each run. In lines, blanks stand for tabs."""
import itertools

from helpers.definitions import SIZES
from helpers.replaying import CLAUSE, NO_LINES_END, ORACLE, SHEET_BYTES, bundle_of, generated, judged_events

SMALL = 2_000  # small sheets
SMALL_LINES = range(10, 41)
SEED = 5
CLAUSES = 12_000  # generated, to have enough that are small and accepted
VARIABLES, USES = SIZES.VARIABLES, SIZES.USES
BRANCHES = SIZES.OPEN_BRANCHES
MOST = SIZES.LAST_COUNT  # occurrences
STEPS, INSTRUCTIONS = SIZES.STEPS, SIZES.INSTRUCTIONS
REGISTERS = SIZES.LAST_REGISTER
SLOW = 100  # lines of the slowest event: the Rust takes seconds for a full sheet of them
RECORDS = ("temp", "perm")
PRINTING = 29_000  # bytes of a clause of `anon` that prints more than a sheet has
UNKNOWN = b"\n"  # a line that is refused


def text(lines):
    return "".join(line + "\n" for line in lines).replace(" ", "\t").encode()


def filled(first, lines):
    """The first lines, and behind them the others again and again, as many as a full sheet holds."""
    kept, room = list(first), SHEET_BYTES - len(text(first))
    for line in itertools.cycle(lines):
        room -= len(line) + 1
        if room < 0:
            break
        kept.append(line)
    return text(kept)


def shorter(sheet, size):
    """The lines of a sheet that have their place in so many bytes."""
    return sheet[: sheet.rfind(b"\n", 0, size) + 1]


# ---- Clauses


def clauses():
    """Accepted clauses of the generator."""
    sheets = generated(ORACLE, SEED, CLAUSES, "--clauses")
    return [sheet for sheet, answer in zip(sheets, judged_events(sheets), strict=True) if answer[:3] != b"no\t"]


def small(sheets):
    """Clauses of a few lines."""
    return [sheet for sheet in sheets if sheet.count(b"\n") in SMALL_LINES][:SMALL]


def renamed(line, shift):
    """A clause's event, its variables standing behind so many others."""
    word, *fields = line.split("\t")
    named = {"var": [3], "cut": [0], "free": [1], "safe": [0], "incr": [0]}.get(word, [])
    if word in ("head", "close"):
        named = range(word == "close", len(fields))
    for at in named:
        fields[at] = fields[at] if fields[at] == "-" else str(int(fields[at]) + shift)
    return " ".join([word, *fields])


def joined(sheets):
    """The records of as many clauses as have variables for all, and the events of each. A permanent variable gets more
    occurrences than marks, since each mark too many fills the queue of freed slots."""
    records, bodies = [], []
    for sheet in sheets:
        lines = sheet.decode().splitlines()
        own = [line.replace("\t", " ") for line in lines if line.startswith(RECORDS)]
        if len(records) + len(own) > VARIABLES:
            break
        bodies.append([renamed(line, len(records)) for line in lines if not line.startswith(RECORDS)] + ["reset"])
        records += [f"perm {MOST}" if line.startswith("perm") else line for line in own]
    return records, bodies


def mixed(sheets):
    """Clauses behind one another, again and again, in one full sheet; less those that the judge refuses at their place."""
    records, bodies = joined(sheets)
    kept = text(records)
    for body in itertools.cycle(bodies):
        longer = kept + text(body)
        if len(longer) > SHEET_BYTES:
            return kept
        if not judged_events([longer])[0].startswith(b"no\t"):
            kept = longer


# ---- Bundles


def fitting(sheets):
    """As many of the sheets as a bundle has place for."""
    ends = itertools.accumulate(len(bundle_of([sheet])) for sheet in sheets)
    return sheets[: sum(end <= SHEET_BYTES for end in ends)]


def empty_clauses():
    """As many clauses without lines as a bundle's answer has place for."""
    return [b""] * (SHEET_BYTES // len(NO_LINES_END))


def clause_part(sheet, size=SHEET_BYTES):
    """The lines of a sheet that have their place in so many bytes of a bundle, as one clause."""
    return shorter(sheet, size - len(CLAUSE + b"\n"))


# ---- Each word


def numbered(form, numbers):
    return [form.format(number) for number in numbers]


def uses(first, contexts):
    """A use in each context, of registers from one on."""
    return ",".join(f"{context}:{(first + 3 * i) % REGISTERS + 1}" for i, context in enumerate(contexts))


def restricting(chunks, contexts):
    """As many temporaries as there may be, of the chunks in turn, with as many uses, in the contexts in turn."""
    records = []
    for v in range(VARIABLES):
        turned = [contexts[(v + i) % len(contexts)] for i in range(USES)]
        records.append(f"temp {chunks[v % len(chunks)]} {MOST} {uses(v, turned)}")
    return records


def marks():
    """Full sheets of marks, by name; `bound` are temporaries with registers, `slots` permanent variables with slots."""
    eight = range(8)
    temps = [f"temp l1 {MOST} -"] * 8
    bound = [*temps, "args 8", *numbered("var q d m1 {}", eight)]
    slots = [f"perm {MOST}"] * 8 + numbered("cut {} 0", eight)
    return {
        "var, temporary": filled(bound, ["args 8", *numbered("var q s l1 {}", eight)]),
        "var, permanent": filled(slots, ["args 8", *numbered("var q s l1 {}", eight)]),
        "var, in place": filled(temps, ["head 0 1 2 3", *numbered("var f s h {}", eight), "contents"]),
        "var, deep": filled(bound, numbered("var f d h {}", eight)),
        "var and cut": filled(bound, [line for v in eight for line in (f"var q d l1 {v}", f"cut {v} 1")]),
        "anon": filled([], [*["anon f d h"] * 60, "contents", "args 0"]),
        "nonvar": filled([], ["args 1", *["nonvar q s l1 0"] * 60, *["nonvar q d l1 5"] * 60]),
        "nonvar, new": filled([], [*["nonvar q d l1 0"] * 60, "contents", "args 0"]),
        "cut": filled(slots, numbered("cut {} 3", eight)),
        "incr": filled(temps, numbered("incr {}", eight)),
        "free": filled(temps, numbered("free 3 {}", eight)),
        "safe": filled(slots, numbered("safe {}", eight)),
        "take": filled([f"perm {MOST}"] * 8 + ["open 4 2 3"], [*numbered("var q d l1 {}", eight), *["take"] * 8]),
        "close": filled([*slots, "open 4 2 3"], ["open 5 1 3", "close 1 0 1"]),
    }


def records():
    """Sheets with as many records as there may be, by name, and one with nothing."""
    return {
        "empty": b"",
        "temp": text(restricting(["l1"], ["l1"])),
        "perm": text([f"perm {MOST}"] * VARIABLES),
    }


def others():
    """Full sheets of events that are no marks, by name; but few lines of the slowest event."""
    several = " ".join(str(v) for v in range(REGISTERS))
    return {
        "sets, 4 variables": filled([f"temp l1 {MOST} {uses(0, ['l1'] * 3)}"] * 4, ["sets"]),
        f"sets, {VARIABLES} variables": text(restricting(["l1"], ["l1"]) + ["sets"] * SLOW),
        "head, 3 arguments": filled([f"temp l1 {MOST} -"] * 2, ["head 0 - 1"]),
        f"head, {REGISTERS} arguments": filled([f"temp l1 {MOST} -"] * REGISTERS, ["head " + several]),
        "args": filled([], ["args 7"]),
        "give": filled([], [*numbered("give {}", range(1, REGISTERS + 1)), "clearfree"]),
        "tail": filled([], ["tail 1", "tail 0"]),
        "next": filled([], [*["next"] * REGISTERS, "args 0"]),
        "open": filled([], [*["open 4 2 3"] * BRANCHES, f"close {BRANCHES}"]),
        "arm": filled(["open 4 2 3"], ["arm 5 6"]),
        "take, nothing marked": filled(["open 4 2 3"], ["take"]),
        f"close, {REGISTERS} variables": filled([f"perm {MOST}"] * REGISTERS + ["open 4 2 3"], ["close 0 " + several]),
        "reset": filled([], ["reset"]),
        "contents": filled([], ["contents"]),
        "clearfree": filled([], ["clearfree"]),
    }


def by_word():
    """The sheets of each word, by name."""
    return marks() | others()


# ---- Check sheets


def head_check(steps=STEPS, right=True):
    """Head steps alone. All arguments are one variable, so that all registers have to be equal; each step demands as many
    equalities as it may. The last subterm is left free where the sheet shall be wrong."""
    lines = []
    for step in range(steps):
        k = REGISTERS - step % REGISTERS
        if step < REGISTERS:
            lines += [f"h {k} 0", f"get_value x{k} {k % REGISTERS + 1}"]
        else:
            lines += ["hd 0", f"unify_value x{k}"]
        lines += [f"get_value x{(k + 20 * i) % REGISTERS + 1} {k}" for i in range(1, INSTRUCTIONS)]
    if not right:
        lines[-INSTRUCTIONS] = "unify_variable y1"
    return text(lines)


def goal_check(steps=STEPS, right=True):
    """Goals with as many arguments as there are registers. The last move is of a wrong slot where the sheet shall be
    wrong."""
    lines = ["gd 0", "set_variable y1", *["put_value y1 1"] * (INSTRUCTIONS - 1)]
    for step in range(1, steps - 1):
        k = step % (REGISTERS + 1)
        lines += [f"g {k} 0", *[f"put_value y1 {k}"] * INSTRUCTIONS] if k else ["call"]
    if not right:
        lines[-1] = lines[-1].replace("y1", "y2")
    return text([*lines, "call"])


def call_check():
    """As many calls as there may be, each of which writes all registers."""
    return text(["call"] * STEPS)


def checks():
    """Full check sheets by name."""
    made = {"equalities in the head": head_check, "arguments of goals": goal_check}
    verdicts = {"accepted": True, "rejected": False}
    both = {f"{name}, {verdict}": make(right=verdicts[verdict]) for name, make in made.items() for verdict in verdicts}
    return both | {"calls, accepted": call_check()}


# ---- Sheets among which the slowest is looked for


def slow_events():
    """Full sheets by name, whose lines go through tables that are as full as they may be."""
    every, half, third = (range(REGISTERS // part) for part in (1, 2, 3))
    permanent, branches = [f"perm {MOST}"] * REGISTERS, ["open 4 2 3"] * BRANCHES
    several, some = (" ".join(map(str, numbers)) for numbers in (every, half))
    moved = ["args 0", "contents", f"head {some}", *numbered("var f s h {}", half), f"args {len(half)}"]
    chunks = numbered("l{}", range(VARIABLES))
    return {
        "sets, one chunk": filled(restricting(["l1"], ["l1"]), ["sets"]),
        "sets, two chunks": filled(restricting(["l1", "l2"], ["l1", "l2"]), ["sets"]),
        "sets, a chunk each": filled(restricting(chunks, chunks), ["sets"]),
        "sets, all contexts": filled(restricting(["l1", "l2", "m1"], ["l1", "m1", "l2", "h", "m2"]), ["sets"]),
        "var, evacuating": filled(restricting(["l1"], ["l1"]), [*moved, *numbered("var q s l1 {}", reversed(half))]),
        f"var, in {BRANCHES} branches": filled([*permanent, *branches], numbered("var q d l1 {}", every)),
        f"take, in {BRANCHES} branches": filled(
            [*permanent, *branches], [*numbered("var q d l1 {}", third), *["take"] * len(third)]
        ),
        f"close, of {BRANCHES} branches": filled(permanent, [*branches, f"close {BRANCHES} {several}"]),
        f"arm, in {BRANCHES} branches": filled(branches, ["arm 5 6"]),
        "anon, registers full": filled([], [*["anon q d l1"] * (REGISTERS - 1), "contents", "args 0"]),
        "nonvar, registers full": filled([], [*["nonvar q d l1 0"] * (REGISTERS - 1), "contents", "args 0"]),
    }


def slow_checks():
    """Check sheets of as many steps and instructions as there may be, by name."""

    def steps(first, others):
        """A step of each k in turn, and its instructions."""
        numbers = [step % REGISTERS + 1 for step in range(STEPS)]
        return text(line.format(k=k, after=k % REGISTERS + 1) for k in numbers for line in (first, *others))

    values = ["get_value x{k} {after}"] * (INSTRUCTIONS - 1)
    return {
        "equalities, rising": steps("h {k} 0", ["get_value x{k} {after}", *values]),
        "equalities, a variable each": steps("h {k} {k}", ["get_value x{after} {k}", *values]),
        "moves": steps("h {k} 0", ["get_variable y{after} {k}"] * INSTRUCTIONS),
        "deep subterms": steps("hd {k}", ["unify_variable y{k}", *values]),
    }


def slow_bundles(sheets):
    """Full bundles of clauses, by name: those above, and some with clauses of the slowest event."""
    slow, printing = slow_events()["sets, one chunk"], marks()["anon"]
    long, half = clause_part(printing, PRINTING), SHEET_BYTES // 2
    return {
        "clauses of 10 to 40 lines": fitting(small(sheets)),
        "empty clauses": empty_clauses(),
        "anon, one clause": [clause_part(printing)],
        "sets, one clause": [clause_part(slow)],
        "sets, two clauses": [clause_part(slow, half)] * 2,
        "sets, refused at its end": [clause_part(slow, SHEET_BYTES - len(UNKNOWN)) + UNKNOWN],
        f"sets, in an answer longer than {SHEET_BYTES:,} bytes": [long, clause_part(slow, SHEET_BYTES - PRINTING)],
    }
