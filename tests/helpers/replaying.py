"""What the scripts around the judges and the built programs share: sheets in frames, streams of sheets with their
answers, the three kinds of sheets, of which a bundle is one, and the runs of the programs on them.

A frame is a decimal byte count, an LF, and so many bytes. In a stream each sheet is led by a line: its kind, `events`,
`check` or `bundle`, the bytes of the sheet and those of its answer; behind it stand the sheet and the answer.
"""
import collections
import dataclasses
import functools
import os
import re
import subprocess
import sys
import time
from collections.abc import Callable

from helpers.definitions import REFUSALS, ROOT, SIZES, instruction_words, read, refusal_numbers, words

TESTS = os.path.join(ROOT, "tests")
HELPERS = os.path.join(TESTS, "helpers")
ORACLE = os.path.join(ROOT, "oracle", "target", "release")
DECIDER = os.path.join(ROOT, "decider", "target", "release")
BUNDLE_CASES = os.path.join(ROOT, "oracle", "cases", "bundles.txt")
CHECK_CASES = [os.path.join(ROOT, "decider", "cases", name) for name in ("known.txt", "examples.txt", "readings.txt")]
# An emulator carries out the processor's copy instruction byte by byte: without it a program runs many times faster.
ENVIRONMENT = dict(os.environ, QEMU_CPU="max,-erms")
SHEET_BYTES = SIZES.SHEET_BYTES
COUNT, SEEDS = 20_000, range(1, 7)  # generated sheets of each seed, and the seeds, where the command names none
FALSIFIED = 300  # as many sheets stand in a stream with a falsified answer
LONGEST_REPLAYED = 2 * SHEET_BYTES  # bytes of a sheet that the program `replays` takes
MANY_DIGITS = 30  # of a number that is far too large
SHOWN = 5
# Two bound temporaries, of which the second has a register with one digit more; a line that prints much from there, and two
# that print as much as their registers have digits.
BOUND = b"temp\th\t0\t-\ntemp\th\t0\t-\ncut\t0\t0\nargs\t9\ncut\t1\t0\n"
MARK, CUT, LONGER_CUT = b"var\tf\td\th\t0\n", b"cut\t0\t0\n", b"cut\t1\t0\n"
NO_LINES_END = b"end\t1\t0\n"  # the answer to an event sheet, or a clause, without lines
ACCEPTED, REJECTED = b"accepted\n", b"rejected\n"
PAUSE = 0.05  # seconds between pieces of input
SMALL_PIECES = [1, 7, 30]  # bytes of them
PIECE = 5_000
PIECES, LAST_PIECE = [PIECE] * (SHEET_BYTES // PIECE), SHEET_BYTES % PIECE  # of a full sheet
HUGE = 5_000_000  # bytes of an input that is far too long
CLAUSE = b"clause"
CLAUSE_LINE = re.compile(rb"^clause\n", re.MULTILINE)
# The answer to one clause of a bundle, up to its last line.
CLAUSE_ANSWER = re.compile(rb".*?^(?:end|no)\t\d+\t\d+\n", re.DOTALL | re.MULTILINE)


# ---- Frames and streams


def output(words, data=b""):
    return subprocess.run(words, input=data, env=ENVIRONMENT, stdout=subprocess.PIPE, check=True).stdout


def kit():
    """The toolchain's folder."""
    return os.path.dirname(output(["rt", "doc"]).decode().strip())


def say(text):
    """Says something beside what is written."""
    print(text, file=sys.stderr)


def frames(data):
    parts, at = [], 0
    while at < len(data):
        end = data.index(b"\n", at)
        size = int(data[at:end])
        parts.append(data[end + 1 : end + 1 + size])
        at = end + 1 + size
    return parts


def framed(sheets):
    return b"".join(b"%d\n" % len(sheet) + sheet for sheet in sheets)


def stream(word, sheets, answers):
    pairs = zip(sheets, answers, strict=True)
    return b"".join(b"%s\t%d\t%d\n" % (word, len(sheet), len(answer)) + sheet + answer for sheet, answer in pairs)


def parts(data):
    """The sheets of a stream: the kind, the sheet and the answer of each."""
    found, at = [], 0
    while at < len(data):
        end = data.index(b"\n", at)
        word, sheet, answer = data[at:end].split(b"\t")
        middle, last = end + 1 + int(sheet), end + 1 + int(sheet) + int(answer)
        found.append((word, data[end + 1 : middle], data[middle:last]))
        at = last
    return found


def streamed(data):
    """How many sheets a stream holds."""
    return len(parts(data))


def no_line(line, number):
    """The line that is printed of a refusal."""
    return b"no\t%d\t%d\n" % (line, number)


def refusal(answer):
    """The line and the number of a refusal, or two zeros."""
    return tuple(map(int, answer.split()[1:])) if answer.startswith(b"no\t") else (0, 0)


def told(answer):
    """An answer in short: its refusal, or the word of its last line."""
    number = refusal(answer)[1]
    return f"refused {number}" if number else answer.splitlines()[-1].split()[0].decode()


def lines_read(sheet, answer):
    """The lines that were read: up to the one that is refused, and none of a sheet that is too long."""
    line, number = refusal(answer)
    lines = sheet.split(b"\n")
    return [] if (line, number) == (0, REFUSALS.FULL) else lines[: line or len(lines)]


# ---- Sheets of a given length


def shares(length, size):
    """How many parts of a size, and how many of one more, have exactly such a length together."""
    longer = length % size
    return (length - longer * (size + 1)) // size, longer


def of_length(length, line, longer):
    """So many bytes of two lines, of which one has one byte more than the other."""
    lines, longer_lines = shares(length, len(line))
    return longer * longer_lines + line * lines


def silent(length):
    """An event sheet of exactly so many bytes that prints its last line only."""
    return of_length(length, b"sets\n", b"reset\n")


@functools.cache
def bytes_printed():
    """How many bytes are printed of BOUND, its last line counted, and how many more of each line behind it."""
    first, *others = map(len, judged_events([BOUND + line for line in (b"", MARK, CUT, LONGER_CUT)]))
    return [first, *(size - first for size in others)]


def answer_of(length):
    """A sheet whose answer has exactly so many bytes."""
    first, mark, cut, longer_cut = bytes_printed()
    marks, rest = divmod(length - first - cut * longer_cut, mark)
    cuts, longer_cuts = shares(rest + cut * longer_cut, cut)
    return BOUND + MARK * marks + CUT * cuts + LONGER_CUT * longer_cuts


def huge(line):
    """A line so often that the sheet is far too long."""
    return line * (HUGE // len(line))


# ---- Bundles


def faults(bundle):
    """Why a bundle is refused as a whole, but for its answer's length: the numbers, in their order, each with a name."""
    word = bundle.split(b"\n", 1)[0].split(b"\t", 1)[0]
    tests = [
        (REFUSALS.FULL, "length", len(bundle) > SHEET_BYTES),
        (REFUSALS.FORM, "no LF", bundle != b"" and not bundle.endswith(b"\n")),
        (REFUSALS.ORDER, "a stray line", bundle != b"" and word != CLAUSE),
        (REFUSALS.FORM, "more fields", b"\n" + CLAUSE + b"\t" in b"\n" + bundle),
    ]
    return [(number, name) for number, name, holds in tests if holds]


def clauses(bundle):
    """The clauses of a bundle without faults, each as the event sheet of its lines alone."""
    return CLAUSE_LINE.split(bundle)[1:]


def bundle_of(sheets):
    """The bundle whose clauses these event sheets are."""
    return b"".join(CLAUSE + b"\n" + sheet for sheet in sheets)


def is_refused_whole(answer):
    """Whether this is the refusal of a bundle; no clause is refused at line 0."""
    return answer.startswith(b"no\t0\t")


def told_of_bundle(answer):
    """An answer to a bundle in short: its refusal, the first refusal of a clause, `end` where there is none, or `nothing`."""
    if is_refused_whole(answer):
        return told(answer)
    ends = [told(part) for part in CLAUSE_ANSWER.findall(answer)]
    refused = [f"a clause {end}" for end in ends if end != "end"]
    return (refused or ends or ["nothing"])[0]


def lines_read_of_bundle(bundle, answer):
    """The lines that were read of each clause, and its first; none of a bundle that is refused as a whole."""
    if is_refused_whole(answer):
        return []
    pairs = zip(clauses(bundle), CLAUSE_ANSWER.findall(answer), strict=True)
    return [line for clause, part in pairs for line in (CLAUSE, *lines_read(clause, part))]


# ---- Sheets and answers from elsewhere


def example(name):
    """The input that a program is run on in the gate, and its output."""
    return read("crates", name, "stdin"), read("crates", name, "stdout")


def generated(folder, seed, count, *options):
    return frames(output([os.path.join(folder, "generate"), "--seed", str(seed), "--count", str(count), *options]))


def judged_events(sheets, *options):
    """The original Rust's answers to event sheets."""
    return frames(output([os.path.join(ORACLE, "oracle"), "--batch", *options], framed(sheets)))


def judged_bundles(bundles):
    """The answers to bundles, of which each clause is answered by the original Rust."""
    return judged_events(bundles, "--bundle")


def judged_check(sheets):
    """The decider's answers to check sheets, each one line."""
    return output([os.path.join(DECIDER, "decider"), "--batch"], framed(sheets)).splitlines(keepends=True)


def check_case_sheets():
    """The sheets of the decider's case files but those that lend another room."""
    return frames(output([os.path.join(DECIDER, "cases"), "--sheets", *CHECK_CASES]))


def bundle_case_sheets():
    """The bundles of the judge's case file but those that lend another room."""
    return frames(output([os.path.join(ORACLE, "cases"), "--sheets", BUNDLE_CASES]))


# ---- The kinds


@dataclasses.dataclass
class Kind:
    """A kind of sheet: its word, its program, where its generator is, who judges its sheets, the words of its lines,
    the answers that have to come up in a run, what its generator is told besides, and how an answer is told in short and
    the lines that were read are found."""

    word: bytes
    program: str
    generator: str
    judged: Callable
    line_words: list
    wanted: list
    options: tuple = ()
    told: Callable = told
    lines_read: Callable = lines_read

    def generated(self, seed, count):
        return generated(self.generator, seed, count, *self.options)


INSTRUCTIONS = instruction_words()
# The refusals that have to come up. UNREACHABLE is given to no sheet (rule 4.8).
EVENT_REFUSALS = refusal_numbers(but=[REFUSALS.UNREACHABLE])
# Of a line, and so of a clause in a bundle: ROOM is said of the whole answer (rule 4.10).
EVENT_LINE_REFUSALS = [number for number in EVENT_REFUSALS if number != REFUSALS.ROOM]
# Only the allocator gives the others; and in the room that the programs lend there is place for every verdict.
CHECK_REFUSALS = [REFUSALS.FORM, REFUSALS.ORDER, REFUSALS.SIZE, REFUSALS.FULL]
# Of a whole bundle: rule 18.6.
BUNDLE_REFUSALS = [REFUSALS.FORM, REFUSALS.ORDER, REFUSALS.FULL, REFUSALS.ROOM]
EVENTS = Kind(
    word=b"events",
    program="event_sheet",
    generator=ORACLE,
    judged=judged_events,
    line_words=words("event_lines"),
    wanted=["end", *(f"refused {number}" for number in EVENT_REFUSALS)],
)
CHECK = Kind(
    word=b"check",
    program="check_sheet",
    generator=DECIDER,
    judged=judged_check,
    line_words=words("check_lines"),
    wanted=["accepted", "rejected", *(f"refused {number}" for number in CHECK_REFUSALS)],
)
BUNDLES = Kind(
    word=b"bundle",
    program="bundle_sheet",
    generator=ORACLE,
    judged=judged_bundles,
    line_words=[CLAUSE, *EVENTS.line_words],
    wanted=[
        "nothing",
        "end",
        *(f"a clause refused {number}" for number in EVENT_LINE_REFUSALS),
        *(f"refused {number}" for number in BUNDLE_REFUSALS),
    ],
    options=("--bundles",),
    told=told_of_bundle,
    lines_read=lines_read_of_bundle,
)


# ---- The program `replays`


def program(name, data):
    return output([os.path.join(TESTS, "program"), name], data)


def replayed(word, sheets, answers):
    """The numbers of the sheets that `replays` found to differ; all of them where it says anything else."""
    said = program("replays", stream(word, sheets, answers))
    *numbers, last = said.split(b"\n")[:-1] or [b""]
    whole = last == b"%d sheets, %d differ" % (len(sheets), len(numbers))
    return [int(number) for number in numbers] if whole else list(range(1, len(sheets) + 1))


def falsified(answers, at):
    """The answers with one byte of one of them changed; an empty one gets a byte."""
    answer = answers[at]
    changed = answer[:-2] + bytes([answer[-2] ^ 1]) + answer[-1:] if answer else b"\n"
    return [*answers[:at], changed, *answers[at + 1 :]]


def seen_when_falsified(word, sheets, answers):
    """Whether a falsified answer is reported, and nothing else: the first, one in the middle, the last."""
    few, wanted = sheets[:FALSIFIED], answers[:FALSIFIED]
    return all(replayed(word, few, falsified(wanted, at)) == [at + 1] for at in (0, len(few) // 2, len(few) - 1))


def malformed_streams():
    """Streams that are none, and the sheet at which each is given up."""
    end, verdict, opening = framed([NO_LINES_END]), framed([ACCEPTED]), CLAUSE + b"\n"
    good = b"events\t0\t" + end + b"bundle\t0\t0\ncheck\t0\t" + verdict
    count, too_long = streamed(good), bytes(LONGEST_REPLAYED + 1)
    behind = [
        b"check\t0\t%d" % len(ACCEPTED),
        b"0\t" + verdict,
        b"event\t0\t" + end,
        b"checks\t0\t" + verdict,
        b"bundles\t0\t0\n",
        b"Bundle\t0\t0\n",
        b"clause\t0\t" + end,
        b"bundle\t0\n",
        b"bundle\t0\t\n",
        b"check 0 " + verdict,
        b"check\t0\n" + ACCEPTED,
        b"check\t0\t%d\t0\n" % len(ACCEPTED) + ACCEPTED,
        b"check\t0\t0" + verdict,
        b"check\t%d\t" % len(ACCEPTED) + verdict,
        b"bundle\t%d\t%d\n" % (len(opening), len(NO_LINES_END)) + opening,
    ]
    first = [
        b"events\t-1\t" + end,
        stream(b"check", [too_long], [ACCEPTED]),
        stream(b"events", [b""], [bytes(SHEET_BYTES + 1)]),
        stream(b"bundle", [too_long], [no_line(0, REFUSALS.FULL)]),
        b"check\t" + b"1" * MANY_DIGITS + b"\n",
    ]
    late = good + good + b"check\t0\t%d\n" % (len(ACCEPTED) + 1) + ACCEPTED
    return [(good + data, count + 1) for data in behind] + [(data, 1) for data in first] + [(late, 2 * count + 1)]


def run_malformed():
    """Runs `replays` on streams that are none; how many runs failed."""
    streams = malformed_streams()
    said = [program("replays", data) for data, _ in streams]
    failed = sum(found != b"malformed: sheet %d\n" % number for found, (_, number) in zip(said, streams, strict=True))
    print(f"malformed streams: {len(streams)} runs, {failed} failed")
    return failed


# ---- The program for one kind of sheet


def in_pieces(name, data, sizes):
    """What a program prints of input that comes in pieces of the sizes, with pauses between, and then the rest."""
    words = [os.path.join(TESTS, "program"), name]
    run = subprocess.Popen(words, env=ENVIRONMENT, stdin=subprocess.PIPE, stdout=subprocess.PIPE)
    at = 0
    for size in sizes:
        run.stdin.write(data[at : at + size])
        run.stdin.flush()
        time.sleep(PAUSE)
        at += size
    return run.communicate(data[at:])[0]


def run_alone(name, runs):
    """Compares runs of a program, each given by its name, what came out and what should; how many failed."""
    failed = count = 0
    for title, found, wanted in runs:
        count += 1
        if found != wanted:
            failed += 1
            print(f"failed: {title}: {found if isinstance(found, int) else found[:60]!r}")
    print(f"{name} alone: {count} runs, {failed} failed")
    return failed


# ---- All of it for one kind


@dataclasses.dataclass
class Counts:
    answers: collections.Counter = dataclasses.field(default_factory=collections.Counter)
    words: collections.Counter = dataclasses.field(default_factory=collections.Counter)
    differ: int = 0
    failed: int = 0

    def status(self):
        """The exit status of a run with these counts."""
        return 1 if self.differ or self.failed else 0


def compare(kind, title, sheets, counts, progress=sys.stdout):
    """Replays sheets with the judge's answers, and counts what is among these."""
    answers = kind.judged(sheets)
    for sheet, answer in zip(sheets, answers, strict=True):
        counts.answers[kind.told(answer)] += 1
        counts.words.update(line.split(b"\t", 1)[0] for line in kind.lines_read(sheet, answer))
    compare_with(answers, kind, title, sheets, counts, progress)


def compare_with(answers, kind, title, sheets, counts, progress=sys.stdout):
    """Replays sheets with answers, and again with one of them falsified; prints those that differ."""
    found = replayed(kind.word, sheets, answers)
    seen = seen_when_falsified(kind.word, sheets, answers)
    counts.differ += len(found)
    counts.failed += not seen
    falsely = "seen" if seen else "NOT SEEN"
    line = f"{title}: {len(sheets)} compared, {len(found)} differ; a falsified answer is {falsely}"
    print(line, file=progress, flush=True)
    for number in found[:SHOWN]:
        print(f"  {title}, sheet {number}: {sheets[number - 1][-200:]!r}, wanted {answers[number - 1][-80:]!r}")


def show_counts(kind, counts):
    """Prints how often each answer and each word came up; how many answers are wanted and never came up."""
    print("answers", ", ".join(f"{answer}: {counts.answers[answer]}" for answer in sorted(counts.answers)))
    print("lines", ", ".join(f"{word.decode()}: {counts.words[word]}" for word in kind.line_words))
    missing = [answer for answer in kind.wanted if not counts.answers[answer]]
    if missing:
        print("never answered:", ", ".join(missing))
    return len(missing)


def asked(count=COUNT):
    """How many sheets a seed gives, and the seeds, as the command's words say."""
    numbers = [int(word) for word in sys.argv[1:]]
    return (numbers or [count])[0], numbers[1:] or SEEDS


def conclude(kind, counts, runs):
    """Tells what came up, makes `runs` of the program alone and those of malformed streams; the exit status of it all."""
    counts.failed += show_counts(kind, counts) + run_alone(kind.program, runs) + run_malformed()
    print(f"in all: {counts.answers.total()} compared, {counts.differ} differ; {counts.failed} other failures")
    return counts.status()


def run(kind, first, runs):
    """Compares `first`, sheets with a title each, and generated sheets as is asked; then `runs` of the program alone."""
    count, seeds = asked()
    counts = Counts()
    for title, sheets in first:
        compare(kind, title, sheets, counts)
    for seed in seeds:
        compare(kind, f"seed {seed}", kind.generated(seed, count), counts)
    return conclude(kind, counts, runs)
