"""The wrong answers of tests/wrong, held to the code as it stands: what `wrong_answers`, which has the prover refuse them, and
`wrong_runs`, which runs them, share.

A file of tests/wrong holds entries, separated by empty lines. Its lines: `fn` and the public function; `says:` and the wrong
answer; `in:` and the private function that is changed, where it is another; `program:` and which wrong program of rule
25.8 it is, where it is one; then either `must-fail:` and the edit of the merge gate that is this wrong answer, or `old:`
and `new:`, a text that occurs once in the function and what takes its place. A text may go on below its word, its lines as
they stand in the code. An edit that leaves every answer right, and only takes longer, says so in `costs:`, and is not run.

What the wrong answer is run on stands in one of these: `sheet:`, one with a known end, as `6` for rule 24.6, or `10.3` for
the third row of rule 24.10 in the table of known_sheets; `event:`, `bundle:` or `check:`, a sheet and behind `=>` its answer,
with a space between fields, ` / ` between lines and `*N` behind a line that stands N times; `state:`, the lines of an event
sheet and behind `=>` a part of the state after them and its number; `main:`, the body of a program that shows a number, and
`prints:`, the number.

An edit of a definition or of a theorem cannot be run. tests/wrong_laws has an entry for each: `edit:` and its name,
`false of:` and an instance of which the edited text is false, and where a sheet shows it the sheet, as above.
"""
import dataclasses
import json
import os
import re
import shutil
import subprocess

ROOT = os.path.dirname(os.path.dirname(os.path.dirname(os.path.abspath(__file__))))
CRATES = os.path.join(ROOT, "crates")
ENTRIES = os.path.join(ROOT, "tests", "wrong")
RUN_RESULTS = os.path.join(ROOT, "target", "wrong_runs")
INSTANCES = os.path.join(ROOT, "tests", "wrong_laws")
PARTS = ("src", "specs", "proofs")  # of a crate, what the prover reads
MUST_FAIL = "must-fail edit"  # what refuses a wrong answer that the gate tries
ENOUGH = 2  # wrong answers of a public function
CUT = 240  # characters of what the prover says
NAMING = 2  # lines of an entry that name it in a failure
FUNCTION = re.compile(r'^( *)(pub )?(?:extern "C" )?fn (\w+)')
IMPLEMENTATION = re.compile(r"^impl\b([^{]* for)? (\w+) \{")
COMMENT_OR_SPACE = re.compile(r"//.*|\s")
ROWS = re.compile(r'(-- (\d+)\n)?    (?:∷ )?(?:(event|check)_sheet "(.*)" "(.*)"|no_use|conflict)')
WORDS = {"fn": "function", "in": "place", "must-fail": "must_fail", "says": "says", "program": "program", "costs": "costs"}
OTHER_WORDS = ("old", "new", "sheet", "event", "bundle", "check", "state", "main", "prints")
# What the prover's first error means. Only the first two name a fact that does not fit.
MEANINGS = {
    "two sides that were computed differ": re.compile("computed as far as they go, the two"),
    "what is proved is not what is asked": re.compile("as printed, the two|expected type|≟"),
    "a tactic finds no way": re.compile(""),
}


class Failure(Exception):
    """What makes a run fail, said in words."""


@dataclasses.dataclass
class Run:
    """A run on which a wrong answer shows: how the page calls it, the kind of program, what it is given, what is right."""

    called: str
    kind: str
    given: str
    due: str


@dataclasses.dataclass
class Answer:
    """A wrong answer of a public function, as an edit of `place` or as an edit of the merge gate; what it is run on, and what
    refused it."""

    crate: str
    function: str = ""
    says: str = ""
    place: str = ""
    program: str = ""
    must_fail: str = ""
    costs: str = ""
    pairs: list = dataclasses.field(default_factory=list)
    run: Run | None = None
    refused: str = ""

    def __str__(self):
        return f"{self.crate}::{self.function}, {self.says}"

    def key(self):
        """What a wrong answer is remembered by: one that was changed has not been tried."""
        return json.dumps([self.function, self.place, self.says, self.pairs])


@dataclasses.dataclass
class Function:
    """Where a function stands in the lines of its file: from its first line up to, not with, `end`."""

    name: str
    public: bool
    first: int
    end: int


# ---- The code


def source(crate):
    return os.path.join("crates", crate, "src", "lib.rt")


def read(path):
    with open(path, encoding="utf-8") as file:
        return file.read()


def write(path, text):
    os.makedirs(os.path.dirname(path), exist_ok=True)
    with open(path, "w", encoding="utf-8") as file:
        file.write(text)


def functions(text):
    """The functions of a crate by their names; one of an implementation is named behind its type, and is public where the
    implementation is that of a trait."""
    lines, found, type_name, of_trait = text.split("\n"), {}, "", False
    for at, line in enumerate(lines):
        opened = IMPLEMENTATION.match(line)
        if opened or line == "}":
            type_name, of_trait = (opened.group(2) + "::", bool(opened.group(1))) if opened else ("", False)
        match = FUNCTION.match(line)
        if match:
            name = type_name + match.group(3)
            if name in found:
                raise Failure(f"two functions are named {name}")
            found[name] = Function(name, of_trait or bool(match.group(2)), at, lines.index(match.group(1) + "}", at) + 1)
    return found


def constants(text):
    """The constants of a crate by their names, as functions of one line."""
    found = (re.match(r"(?:pub )?const (\w+)", line) for line in text.split("\n"))
    return {match[1]: Function(match[1], False, at, at + 1) for at, match in enumerate(found) if match}


def bare(text):
    """Code without comments and white space: texts that differ only in these are the same code."""
    return COMMENT_OR_SPACE.sub("", text)


def changed(text, answer):
    """The crate's text with the wrong answer in it."""
    function = functions(text).get(answer.place) or constants(text).get(answer.place)
    if not function:
        raise Failure(f"no function and no constant: {answer.place}")
    lines = text.split("\n")
    body = "\n".join(lines[function.first : function.end])
    for old, new in answer.pairs:
        if body.count(old) != 1:
            raise Failure(f"not once in {answer.place}: {old}")
        body = body.replace(old, new)
    return "\n".join(lines[: function.first] + [body] + lines[function.end :])


def crates():
    """The crates with public functions, in the order of crates.txt."""
    lines = read(os.path.join(ROOT, "crates.txt")).split("\n")
    names = [line.split(":")[0].split()[0] for line in lines if ":" in line and not line.startswith("#")]
    codes = {name: os.path.join(ROOT, source(name)) for name in names}
    return [
        name
        for name, code in codes.items()
        if os.path.exists(code) and any(function.public for function in functions(read(code)).values())
    ]


def refuse_unfit(words):
    """Refuses the words of a command that name a crate without public functions, or any crate beside --count."""
    known = crates()
    for name in words.crates:
        if name not in known:
            raise Failure(f"{name}: no crate with public functions")
    if words.count and words.crates:
        raise Failure("--count counts every crate: none can be named beside it")


# ---- The entries


def each_entry(path, read_one):
    """What `read_one` makes of each entry of a file; what is wrong with one is said with the file and the entry's name."""
    found = []
    for entry in re.split(r"\n\n+", read(path).strip("\n")):
        try:
            if re.search("^[^#]", entry, re.M):
                found.append(read_one(entry))
        except Failure as failure:
            name = " / ".join(entry.split("\n")[:NAMING])
            raise Failure(f"{os.path.relpath(path, ROOT)}, `{name}`: {failure}") from None
    return found


def fields(entry):
    """The words of an entry with their texts; indented lines belong to the word above."""
    found = []
    for line in entry.split("\n"):
        if line.startswith("    ") and found:
            found[-1][1].append(line)
        elif not line.startswith("#"):
            word, mark, text = line.partition(" " if line.startswith("fn ") else ":")
            if not word.strip() or not mark or line.startswith(" "):
                raise Failure(f"a line without its word: {line}")
            found.append((word, [text.removeprefix(" ")] if text else []))
    return [(word, "\n".join(texts)) for word, texts in found]


def spelled(text):
    """A text of the table, with its tabs and line feeds as they are."""
    return text.replace("\\t", "\t").replace("\\n", "\n")


def known_sheets():
    """The rows of the table of known sheets: of each the kind, the sheet and the answer, by sheet and place in it."""
    found, number, place = {}, "", 0
    for _, opened, kind, sheet, answer in ROWS.findall(read(os.path.join(CRATES, "known_sheets", "specs", "Table.antt"))):
        number, place = (opened, 1) if opened else (number, place + 1)
        if kind:
            row = kind, spelled(sheet), spelled(answer)
            found[f"{number}.{place}"] = row
            found.setdefault(number, row)
    return found


def lines_of(text):
    """A sheet or an answer that is written in a line; `*N` behind a line repeats it."""
    written = [re.fullmatch(r"(.*?)(?: \*(\d+))?", line) for line in " ".join(text.split()).split(" / ") if line]
    return "".join((line[1].replace(" ", "\t") + "\n") * int(line[2] or 1) for line in written)


def state_after(sheet, part):
    """The body of a program that gives the lines of an event sheet to a fresh state, and shows a part of it."""
    lines = [line.replace("\t", "\\t") for line in sheet.splitlines()]
    calls = [f'    state = event_calls::call(state, b"{line}\\n", &mut out).state;' for line in lines]
    begun = ["    let mut out = [0u8; 64];", "    let mut state = debray_allocator::fresh();"]
    return "\n".join([*begun, *calls, f"    show(state.{part} as u32);"])


def sheet_and_due(text):
    """A sheet and what is right for it, which stands behind `=>`."""
    sheet, mark, due = text.partition("=>")
    if not mark:
        raise Failure(f"no `=>`: {text}")
    return sheet, due


def run_of(words):
    """The run that the words of an entry name, or None."""
    if "sheet" in words:
        if words["sheet"] not in known_sheets():
            raise Failure(f"no known sheet: {words['sheet']}")
        return Run(f"sheet {words['sheet']}", *known_sheets()[words["sheet"]])
    if "main" in words:
        if "prints" not in words:
            raise Failure("`main:` without `prints:`")
        return Run("a program", "main", words["main"], words["prints"] + "\n")
    if "state" in words:
        sheet, due = sheet_and_due(words["state"])
        part, _, number = due.strip().partition(" ")
        if not number:
            raise Failure(f"not a part of the state and its number: {due}")
        return Run(f"`{' '.join(sheet.split())}`, `{part}`", "main", state_after(lines_of(sheet), part), number + "\n")
    for kind in ("event", "bundle", "check"):
        if kind in words:
            sheet, due = sheet_and_due(words[kind])
            return Run(f"`{' '.join(sheet.split())}`", kind, lines_of(sheet), lines_of(due))
    return None


def pairs_of(words):
    """The texts that are changed, each with what takes its place."""
    olds, news = ([text for word, text in words if word == side] for side in ("old", "new"))
    if len(olds) != len(news):
        raise Failure("`old:` without `new:`, or `new:` without `old:`")
    return list(zip(olds, news))


def answer_of(crate, entry):
    answer, words = Answer(crate), fields(entry)
    for word, text in words:
        if word in WORDS:
            setattr(answer, WORDS[word], text)
        elif word not in OTHER_WORDS:
            raise Failure(f"`{word}` is no word of an entry")
    answer.place = answer.place or answer.function
    answer.pairs = pairs_of(words)
    answer.run = run_of(dict(words))
    return answer


def edits():
    """The edits of the merge gate, each by its crate and name, with the file that it changes first."""
    found = {}
    for crate in sorted(os.listdir(CRATES)):
        folder = os.path.join(CRATES, crate, "must-fail")
        for name in sorted(os.listdir(folder)) if os.path.isdir(folder) else []:
            file = read(os.path.join(folder, name)).split("\n")[0].removeprefix("file: ")
            found[f"{crate}/{name.removesuffix('.edit')}"] = file
    return found


def instance_of(entry):
    words = dict(fields(entry))
    if not {"edit", "false of"} <= set(words):
        raise Failure("no `edit:` or no `false of:`")
    return words["edit"], (" ".join(words["false of"].split()), run_of(words))


def instances():
    """Of each edit of a definition or a theorem an instance of which it is false, and the sheet that shows it, if one does."""
    return dict(each_entry(INSTANCES, instance_of))


def gate_edit(answer):
    """Reads the pairs of the merge gate's edit, so that they can be held to the function that the entry names."""
    path = os.path.join(CRATES, answer.crate, "must-fail", answer.must_fail + ".edit")
    if not os.path.exists(path):
        raise Failure(f"no edit of the merge gate: {answer.must_fail}")
    words = [line.partition(": ")[::2] for line in read(path).strip().split("\n")]
    if words[0] != ("file", "src/lib.rt"):
        raise Failure(f"{answer.must_fail} changes no code")
    return pairs_of(words)


def held(answer, text):
    """The wrong answer, held to the crate's text as it stands."""
    function = functions(text).get(answer.function)
    if not function or not function.public:
        raise Failure(f"no public function: {answer.function}")
    if answer.must_fail:
        answer.pairs = gate_edit(answer)
        answer.refused = f"{MUST_FAIL} `{answer.must_fail}`"
    if not answer.says or bare(changed(text, answer)) == bare(text):
        raise Failure("changes or says nothing")
    return answer


def answers_of(crate):
    """The wrong answers of a crate, each held to the code as it stands; none where the crate has no file of them."""
    path = os.path.join(ENTRIES, crate)
    if not os.path.exists(path):
        return []
    text = read(os.path.join(ROOT, source(crate)))
    return each_entry(path, lambda entry: held(answer_of(crate, entry), text))


def all_answers():
    """The wrong answers of every crate with public functions, and what is wrong with the files of tests/wrong."""
    found = dict.fromkeys(crates(), [])
    failures = [f"tests/wrong/{name}: no crate with public functions" for name in sorted({*os.listdir(ENTRIES)} - {*found})]
    for crate in found:
        try:
            found[crate] = answers_of(crate)
        except Failure as failure:
            failures.append(str(failure))
    return found, failures


def in_one_list(answers):
    """The wrong answers of all crates."""
    return [answer for own in answers.values() for answer in own]


def counts(crate, answers):
    """Of each public function how many wrong answers there are that make different code."""
    text = read(os.path.join(ROOT, source(crate)))
    found = {name: set() for name, known in functions(text).items() if known.public}
    for answer in answers:
        found[answer.function].add(bare(changed(text, answer)))
    return {name: len(own) for name, own in found.items()}


# ---- What the prover says


def cut(line):
    return line if len(line) <= CUT else line[: CUT - 1] + "…"


def meaning(error):
    """What the prover's first error means."""
    return next(words for words, mark in MEANINGS.items() if mark.search(error))


# ---- A folder to change code in


def lay_out(folder):
    """The repository in `folder`: crates.txt, and the crates as they stand here. What was built of them there stays."""
    os.makedirs(folder, exist_ok=True)
    shutil.copy(os.path.join(ROOT, "crates.txt"), folder)
    for name in os.listdir(CRATES):
        for part in PARTS:
            given, place = os.path.join(CRATES, name, part), os.path.join(folder, "crates", name, part)
            shutil.rmtree(place, ignore_errors=True)
            if os.path.isdir(given):
                shutil.copytree(given, place)


def command(words, crate, folder, given=""):
    """A finished command of the toolchain in a crate of `folder`."""
    place = os.path.join(folder, "crates", crate)
    return subprocess.run(["rt", *words], cwd=place, input=given, capture_output=True, text=True)
