"""What the check makes of a crate: the needs of each function, and the places of its code with what is known at each.

A proof answers needs. A need is given `c`, the record of a place in the code. `c .THING` is what was bound there last, by a
loop, a test, a call or another step, and `c .before` is the record of the place before it. So a path such as
`c .before .before .THING` has one `.before` for each thing that was bound since. The first place is the function's entry,
with the parameters, `args`, and what is known of them.

FUNCTION is everywhere the folder of a function's proof, seen from the crate's folder `proofs`: `end_of`,
`VariableRecord/set_register`, and `+put_number` for a function that calls itself.
"""
import dataclasses
import glob
import os
import pathlib
import re
import subprocess
import sys
import tempfile

ROOT = os.path.dirname(os.path.dirname(os.path.dirname(os.path.abspath(__file__))))
RECORD = re.compile(r"^( *)pub record (\S+)[^\n]* : Type 0 where\n((?:\1 +[^\n]*\n)+)", re.M)
FIELD = re.compile(r"^ *pub (\S+) : *(\S*)", re.M)
CALL = re.compile(r"^ *(\S+)·own =\s*Called\.Called\b", re.M)
NEED = re.compile(r"^ *Need-(\S+) =\s*\(c : (\S+?)\)", re.M)
BEFORE, ARGS, OWN = "before", "args", "·own"
# What a call leaves, besides its lifetimes.
OF_A_CALL = ["result", "ensures", "last", "kept", "ok"]
NO_PLACES = "the check makes no places of it"


@dataclasses.dataclass
class Place:
    """A place of the code: the place before it, none at the entry, and of each thing that is known there its parts."""

    before: str
    things: dict


@dataclasses.dataclass
class Shape:
    """A function as a proof sees it: of each need its place, and the places by their names."""

    needs: dict
    places: dict

    def way(self, place):
        """The places from this one back to the entry."""
        while place:
            found = self.places[place]
            yield found
            place = found.before


def folder_of(crate, function=""):
    return os.path.join(ROOT, "crates", crate, "proofs", function)


def proof_of(crate, function):
    return os.path.join(folder_of(crate, function), "Proof.antt")


def with_proof(crate):
    """The functions of a crate that have a proof."""
    files = glob.glob(os.path.join(glob.escape(folder_of(crate)), "**", "Proof.antt"), recursive=True)
    return sorted(os.path.relpath(os.path.dirname(file), folder_of(crate)) for file in files)


def read(path):
    return pathlib.Path(path).read_text(encoding="utf-8")


def write(path, text):
    pathlib.Path(path).parent.mkdir(parents=True, exist_ok=True)
    pathlib.Path(path).write_text(text, encoding="utf-8")


def checked(crate, *words):
    """What `rt dev` says of a crate. It ends here where a crate below it is not proved."""
    run = subprocess.run(
        ["rt", "dev", crate, *words], cwd=ROOT, capture_output=True, text=True, env=dict(os.environ, RT_CUT="0")
    )
    said = run.stdout + run.stderr
    if "rt: FAILED" in said or not re.search(r"^(?:logic|holes|generated)=", said, re.M):
        sys.exit(said)
    return said


def shape(text):
    """What the generated module `Lts` of a function says."""
    fields = {name: dict(FIELD.findall(body)) for _, name, body in RECORD.findall(text)}
    calls = set(CALL.findall(text))

    def parts(place, thing):
        if place in calls:
            return OF_A_CALL
        return list(fields.get("Args" if thing == ARGS else place + OWN, []))

    places = {}
    for place, known in fields.items():
        if BEFORE in known or ARGS in known:
            things = {thing: parts(place, thing) for thing in known if thing != BEFORE}
            places[place] = Place(known.get(BEFORE, ""), things)
    return Shape(dict(NEED.findall(text)), places)


def shapes(crate, functions):
    """The functions with their shapes, made anew from the code as it stands; a proof need not fit it. A function whose proof
    follows the code by hand has none, nor have functions that call each other. Where none is made, what the check says of it is
    printed."""
    with tempfile.TemporaryDirectory() as folder:
        said = checked(crate, "--generated", folder)
        if re.search(r"^generated=0$", said, re.M):
            print(said, end="", file=sys.stderr)
        for function in functions:
            made = os.path.join(folder, f"Rattle·{crate}·proofs", "proofs", function)
            files = glob.glob(os.path.join(glob.escape(made), "Lts*.antt"))
            if len(files) == 1:
                yield function, shape(read(files[0]))
