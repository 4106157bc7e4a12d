#!/usr/bin/env python3
"""Spells the repository's own definitions and lemmas as today's Rattle does: words in snake case.

usage: tools/rename_words.py [--check] [ROOT]

Run once, after port.py of the kit, at the top of the repository. It collects the names that specs/ and the lemma files
of proofs/ declare (definitions, lemmas, fields and constructors), and writes camelCase and dashed ones in snake case,
in specs/, proofs/, must-fail/ and the clauses, imports and comments of src/. Types and modules keep their capital,
names from src/ and names that Rattle makes keep their spelling. It is for one run, on what port.py wrote.
With --check it writes nothing, and lists names that would fall together.
"""
import os
import re
import sys

WORD = re.compile(r"[^\W\d][\w₀-₉'′]*(?:-[\w₀-₉'′]+)*")
SIGNATURE = re.compile(r"^( *)(?:(?:unfoldable|abbrev|pub|pattern) )*([^\s:(){}]+)(?: \{[^}]*\})? :(?: |$)")
# names that would meet another of the same scope once they are spelled alike: OLD NEW
APART = {
    # constructors of one type, of which two met definitions
    "none_runs": "none_is_running",
    "program_runs": "program_is_running",
    "buffer-runs": "buffer_is_running",
    "erase-runs": "erase_is_running",
    # what a cycle or an event makes of the recorder
    "confirm-cycle": "confirm_cycle_event",
    "first-cycle": "first_cycle_event",
    "words-after": "words_after_event",
}
# lemmas that would have their function's name
LEMMAS = """answer-told bank-of-block bank-offset block-offset buffer-in changed-word digit-of erase-alone erase-fits program-fits running-fits
setup-fits every-told holds-told plays-told other-type placed-byte powered-up under-way words-fit in-range bit-at put-at bit-and bit-or bit-xor every-code same-lock"""
APART |= {it: it.replace("-", "_") + "_lem" for it in LEMMAS.split()}
# constructors that one line declares together, and names that files give modules: words of comments too, which stay
TOGETHER = """broken-off the-program the-erase no-setup program-setup erase-setup lock-setup resume-program resume-erase end-program end-erase
suspend-command resume-command program-command lock-command erase-command buffer-command other-command device-type erase-type program-type
running-type setup-type state-type suspended-erase suspended-program"""
TOGETHER = {it: it.replace("-", "_") for it in TOGETHER.split()} | {"broken-off": "was_broken_off", "lineDigits": "line_digits"}
# of these the old spelling is also a function's of src/: they are renamed in this crate's specs/ alone
ALONE = {"none_runs": "semantics", "program_runs": "semantics"}


def texts(root, endings, folders):
    for crate in sorted(os.listdir(os.path.join(root, "crates"))):
        for folder in folders:
            for above, dirs, files in os.walk(os.path.join(root, "crates", crate, folder)):
                dirs[:] = sorted(d for d in dirs if d != "out")
                for f in sorted(files):
                    if f.endswith(endings):
                        yield crate, os.path.join(above, f)


def read(path):
    with open(path, encoding="utf-8", newline="") as f:
        return f.read()


def is_lemma_file(root, crate, path):
    """Whether a file is of specs/, or a lemma file of proofs/ (a function's own proof lies in a folder below)."""
    rest = os.path.relpath(path, os.path.join(root, "crates", crate)).split(os.sep)
    return rest[0] == "specs" or (rest[0] == "proofs" and len(rest) == 2)


def declared(root):
    """The names that the repository's specs/ and lemma files declare, with the files that do."""
    found = {}
    for crate, path in texts(root, ".antt", ["specs", "proofs"]):
        if not is_lemma_file(root, crate, path):
            continue
        for line in read(path).splitlines():
            m = SIGNATURE.match(line)
            if m and WORD.fullmatch(m[2]):
                found.setdefault(m[2], set()).add(path)
    return found


def snake(name):
    if name in APART:
        return APART[name]
    if name[0].isupper():
        return name
    parts = []
    for part in name.split("-"):
        part = re.sub(r"([a-z0-9])([A-Z])", r"\1_\2", part)
        part = re.sub(r"([A-Z]+)([A-Z][a-z])", r"\1_\2", part)
        parts.append(part.lower())
    return "_".join(parts).replace("′", "'")


def outside(root):
    """Names that a file takes from another library: they are spelled by that library."""
    found = {}
    for crate, path in texts(root, (".antt", ".rt"), ["specs", "proofs", "src"]):
        for m in re.finditer(r"^\s*(?:(?:pub|ghost|unfoldable) )*use ([\w.·+'-]+)\.\{([^}]*)\}", read(path), re.M):
            own = m[1].split(".")
            if own[0] == "Rattle" and os.path.isdir(os.path.join(root, "crates", own[1])) and "declared" not in own:
                continue
            for item in m[2].split(","):
                for word in item.split():
                    found.setdefault(word, set()).add(path)
    return found


def names(root):
    return {old: snake(old) for old in declared(root) if snake(old) != old}


def turned(text, table):
    return WORD.sub(lambda m: table.get(m[0], m[0]), text)


def turned_code(path, text):
    """The words of TOGETHER outside comments."""
    if path.endswith(".rt"):
        return text
    lines = [re.split(r"(?=--)", line, maxsplit=1) for line in text.split("\n")]
    return "\n".join("".join([turned(it[0], TOGETHER), *it[1:]]) for it in lines)


def main(argv):
    check = "--check" in argv
    rest = [a for a in argv if not a.startswith("--")]
    root = rest[0] if rest else "."
    table = names(root)
    if not any(old != old.lower() for old in table):
        print("rename_words: no name has camelCase: it ran before, and changes nothing")
        return 1
    if check:
        every = declared(root)
        out = outside(root)
        for old, new in sorted(table.items()):
            if old in out:
                print(f"outside: {old}, of another library in {sorted(out[old])[0]}")
            if new in every:
                shared = [p for p in every[new] if p in every[old]]
                print(f"meets: {old} and {new}: declared in {sorted(every[old])[:3]} and {sorted(every[new])[:3]}{' SAME FILE' if shared else ''}")
        by = {}
        for old, new in table.items():
            by.setdefault(new, []).append(old)
        for new, olds in sorted(by.items()):
            if len(olds) > 1:
                print(f"together: {olds} as {new}")
        for crate, path in texts(root, (".antt", ".rt"), ["specs", "proofs", "src"]):
            words = set(WORD.findall(read(path)))
            for w in sorted(words & set(table)):
                if table[w] in words:
                    print(f"same file: {w} and {table[w]} in {path}")
        return 0
    out = outside(root)
    for crate, path in texts(root, (".antt", ".rt", ".edit"), ["specs", "proofs", "src", "must-fail"]):
        text = read(path)
        here = {old: new for old, new in table.items() if ALONE.get(old, crate) == crate and path not in out.get(old, ())}
        new = turned_code(path, turned(text, here))
        if new != text:
            with open(path, "w", encoding="utf-8", newline="") as f:
                f.write(new)
    return 0


if __name__ == "__main__":
    raise SystemExit(main(sys.argv[1:]))
