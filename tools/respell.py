#!/usr/bin/env python3
"""Gives the repository's own names the spelling of the library's: words in snake case, types and modules in camel case.

usage: python3 tools/respell.py        at the top of the repository, once, after the kit's own script
       python3 tools/respell.py --list prints each old name and its new one, and writes nothing

A definition whose name was in camel case gets it in snake case. In the name of a lemma a dash stays where it joins the names of
two definitions or functions; a plain word is joined by an underscore. A lemma that would so get the name of a definition ends
in `_lem`. Names of functions of src/, of record fields made from them, and of the library keep their spelling.
"""
import glob
import re
import sys

NAME = r"[^\s(){}\[\];,.«»λ|:⟦⟧`\"]+"
TOKEN = re.compile(NAME)
CAMEL = re.compile(r"^[a-z][a-z0-9]*(?:[A-Z][a-z0-9]*)+'?$")
# a declaration: at the head of a line, with its type behind it
HEADED = re.compile(rf"^\s*((?:abbrev |unfoldable )?)(pub )?({NAME}) :(?: |$)", re.M)


def antt_files():
    return sorted(glob.glob("crates/*/specs/**/*.antt", recursive=True) + glob.glob("crates/*/proofs/**/*.antt", recursive=True))


def rt_files():
    return sorted(glob.glob("crates/*/src/**/*.rt", recursive=True))


def text_of(path):
    with open(path, encoding="utf-8") as file:
        return file.read()


def snake(word):
    return re.sub(r"(?<=[a-z0-9])([A-Z])", lambda capital: "_" + capital[1].lower(), word).lower()


def own_crates():
    return {path.split("/")[1] for path in glob.glob("crates/*/src")}


def library_names(texts):
    """The names that a file brings in from a library that is not the repository's."""
    own, names = own_crates(), set()
    for text in texts:
        for module, items in re.findall(r"^(?:ghost )?use ([\w.+'-]+)\.\{([^}]*)\}", text, re.M):
            parts = module.split(".")
            if parts[0] == "Rattle" and parts[1] in own and not (len(parts) > 2 and parts[2] == "proofs" and len(parts) > 4):
                continue
            for item in items.split(","):
                item = item.strip().split(" as ")[0].strip()
                if item:
                    names.add(item)
    return names


def declared_names(paths):
    """Definitions and lemmas of the repository's own files of specs/ and lemmas: name -> whether it is a definition."""
    names = {}
    for path in paths:
        for kind, _, name in HEADED.findall(text_of(path)):
            names[name] = names.get(name, False) or bool(kind)
    return names


def functions():
    return {name for path in rt_files() for name in re.findall(r"\bfn (\w+)", text_of(path))}


def joined(words, known):
    """The words of a lemma's name: a dash between two names, an underscore before or behind a plain word."""
    parts, at = [], 0
    while at < len(words):
        for end in range(len(words), at, -1):
            name = "_".join(words[at:end])
            if name in known:
                break
        else:
            end, name = at + 1, words[at]
        parts.append((name, name in known))
        at = end
    text = parts[0][0]
    for (_, before), (name, here) in zip(parts, parts[1:]):
        text += ("-" if before and here else "_") + name
    return text


def renamings():
    lemma_paths = [path for path in antt_files() if re.fullmatch(r"crates/\w+/(specs/.*|proofs/\w+)\.antt", path)]
    texts = [text_of(path) for path in antt_files() + rt_files()]
    library = library_names(texts)
    declared = declared_names(lemma_paths)
    renamed = {}
    for text in texts:
        for token in TOKEN.findall(text):
            if CAMEL.match(token) and token not in library:
                renamed[token] = snake(token)
    definitions = {renamed.get(name, name) for name, defined in declared.items() if defined}
    known = definitions | functions() | {name for name in library if re.fullmatch(r"[a-z_]+", name)}
    taken = set(renamed.values()) | library
    for name, defined in sorted(declared.items()):
        if defined or name in library or "-" not in name.strip("-"):
            continue
        if not re.fullmatch(r"[A-Za-z][\w'-]*", name):
            continue
        new = joined([snake(word) if CAMEL.match(word) else word for word in name.replace("getD", "get_or").split("-")], known)
        if new != name:
            renamed[name] = new
    everywhere = {token for text in texts for token in TOKEN.findall(text)}
    clashing = {new for name, new in renamed.items() if CAMEL.match(name)}
    for name, defined in declared.items():
        if not defined and name not in renamed and name in clashing:
            renamed[name] = name + "_lem"
    for name, new in list(renamed.items()):
        if not CAMEL.match(name) and not declared.get(name, True) and (new in clashing or new in definitions or new in library or new in functions() or (new in everywhere and new != name)):
            renamed[name] = new + "_lem"
    return {name: new for name, new in renamed.items() if name != new}


def respelled_line(line, renamed, dashed):
    def one(match):
        token = match[0]
        new = renamed.get(token, token)
        # a function of src/, and the module of its proof, keep their name
        if new.endswith("_lem") and (not dashed or line.startswith("use ") and f".proofs.{token}." in line):
            return token
        return token if not dashed and "-" in token else new

    # what the check itself names keeps its spelling
    kept = []

    def keep(match):
        kept.append(match[0])
        return f"\x00{len(kept) - 1}\x00"

    line = re.sub(r"\btie\.[^\s(){},;]*", keep, line)
    line = TOKEN.sub(one, line)
    return re.sub("\x00(\\d+)\x00", lambda match: kept[int(match[1])], line)


def respelled(text, renamed, dashed):
    return "\n".join(respelled_line(line, renamed, dashed) for line in text.split("\n"))


def main():
    renamed = renamings()
    if "--list" in sys.argv:
        for name, new in sorted(renamed.items()):
            print(name, new)
        return
    for path in antt_files() + rt_files():
        text = text_of(path)
        new = respelled(text, renamed, path.endswith(".antt"))
        if new != text:
            with open(path, "w", encoding="utf-8") as file:
                file.write(new)
    print(f"{len(renamed)} names respelled")


main()
