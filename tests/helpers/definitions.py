"""What tests take from the definitions and the code, so that no test says it again: the words of lines, the sizes and the
refusals.

    definitions.py words CRATE          the words of the lines that a crate reads
    definitions.py instructions         the words of the instructions that are printed
    definitions.py refusals [NAME..]    the numbers of the refusals, all of them or those of these names

prints them in one line, for a shell script. The judges themselves read nothing here: they are a second opinion.
"""
import os
import re
import sys
import types

ROOT = os.path.dirname(os.path.dirname(os.path.dirname(os.path.abspath(__file__))))
CONSTANT = re.compile(r"^pub const (\w+): \w+ = ([\d_]+);$", re.MULTILINE)
NUMBERED = re.compile(r"^ +Refusal::(\w+) => (\d+),$", re.MULTILINE)
WORD = re.compile(r'bytes "([^"]*)"')


def read(*names):
    """The bytes of a file, its path taken from the repository's folder."""
    with open(os.path.join(ROOT, *names), "rb") as file:
        return file.read()


def source(crate, *names):
    """The text of a crate's file."""
    return read("crates", crate, *names).decode()


# ---- Words


def words_of(crate, file, name):
    """The words in a definition, which ends at an empty line."""
    definition = re.search(rf"^{name}\b[^:\n]*=.*?(?=\n\n|\Z)", source(crate, "specs", file), re.MULTILINE | re.DOTALL)
    found = WORD.findall(definition[0]) if definition else []
    if not found or len(set(found)) < len(found):
        raise ValueError(f"{name} of {crate}, {file}: no words, or one twice: {found}")
    return [word.encode() for word in found]


def words(crate):
    """The words of the lines that a crate reads: all that stand in the file of its table."""
    found = words_of(crate, "Words.antt", "line_words")
    if len(found) != source(crate, "specs", "Words.antt").count('bytes "'):
        raise ValueError(f"{crate}: a word beside its table")
    return found


def instruction_words():
    """The words of the instructions: those that are printed."""
    return words_of("instructions", "Instructions.antt", "instruction_text")


# ---- Sizes and refusals


def constants(crate):
    """The constants of a crate by name, each a plain number."""
    text = source(crate, "src", "lib.rt")
    found = CONSTANT.findall(text)
    if len(found) != text.count("pub const "):
        raise ValueError(f"{crate}: a constant that is no plain number")
    return {name: int(number) for name, number in found}


SIZES = types.SimpleNamespace(**constants("sizes"))


def refusals():
    """The refusals by name, each with its number."""
    text = source("refusals", "src", "lib.rt")
    found = NUMBERED.findall(text)
    if len(found) != text.count("Refusal::"):
        raise ValueError("refusals: a refusal beside those with a number")
    return {name.upper(): int(number) for name, number in found}


REFUSALS = types.SimpleNamespace(**refusals())


def refusal_numbers(names=(), but=()):
    """The numbers of the refusals of these names, or of all, but for those that are left out."""
    numbers = [getattr(REFUSALS, name) for name in names] or list(vars(REFUSALS).values())
    return [number for number in numbers if number not in but]


# ---- For a shell script


def main(what, *names):
    told = {"words": words, "instructions": instruction_words, "refusals": lambda *names: refusal_numbers(names)}[what](*names)
    print(*(item.decode() if isinstance(item, bytes) else item for item in told))


if __name__ == "__main__":
    main(*sys.argv[1:])
