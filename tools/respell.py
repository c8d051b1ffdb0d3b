#!/usr/bin/env python3
"""Respells the repository's own definitions and lemmas as Rattle's library spells its own.

usage: python3 tools/respell.py [--list]    once, at the top of a repository that port.py has turned; --list prints the names and writes nothing

Words are in snake case, facts and types in camel case. A dash joins two names, a plain word is added with '_'. Functions, types and fields of src/
keep their names, and so does what Rattle makes of them. A name is left as it is where the new one is taken.
"""

import os
import re
import sys

WORD = re.compile(r"[^\s(){}\[\],;.@\"|\\]+")
DEFINED = re.compile(r"^(\s*)((?:(?:abbrev|unfoldable|pub|record|data|ruleset)\s+)*)([^\s(){}\[\],;.@\"|:]+)((?:\s.*)?)$")
TYPED = re.compile(r"^(?:\s+(?:\{[^{}]*\}|\([^()]*\)|[\w'ℓκ]+))*\s*:(?:\s|$)")
HEADS = {"use", "mod", "module", "unfolding", "let", "in", "where", "with", "do", "elim", "syntax", "import", "open", "rw", "pub", "_", "→", "=", "×"}

# Names whose new spelling no rule gives.
CHOSEN = {"KWG": "kwg", "KBWG": "kbwg", "LXD": "lxd", "G": "five_nodes", "getD-map-in": "get_or-map-in", "loadedG": "loaded_five_nodes", "letterBits": "letter_bits_of"}
# Names brought in by `as`, and variables.
MORE = "lentNodes refusalIn lentFile countWork lentTiles lentSizes asAnswer verdictOf byteRoom fedNodes wordRoom tilesLeft afterAccepting sizesLeft lxdRuns afterWords' afterBytes' roomT roomS lentChecks labelChecks afterPair tilesBefore tilesAfter sizesBefore sizesAfter lentAll lentAccepting".split()
# What stands beside a parameter or a module of its new name, which no clause means by it.
BESIDE = {"isEnd", "runLength"}
# Lemmas that had their function's name but for the spelling, by crate.
LEMMAS = {
    "": {"some_of": "some_of_lem"},
    "macondo_file": {"block_words": "block_words_lem"},
    "tails": {"keys_in": "keys_in_lem"},
    "page": {"shown_by": "shown_by_lem"},
    "replay": {"word_fields": "word_fields_lem"},
    "built": {"run_length": "run_length_lem"},
    "text": {"is_digit": "digit_there"},
}
# The same, in one crate alone.
CHOSEN_IN = {"listing": {"saidLoad": "LoadSaid", "saidCount": "CountSaid", "saidOpen": "OpenSaid"}}


def files(root, ends):
    for folder, dirs, names in os.walk(os.path.join(root, "crates")):
        dirs[:] = sorted(d for d in dirs if d != "out")
        for name in sorted(names):
            if name.endswith(ends):
                yield os.path.join(folder, name)


def read(path):
    with open(path, encoding="utf-8") as f:
        return f.read()


def code(line):
    """A line without its comment."""
    at = re.search(r"(^|\s)(--|//)(\s|$)", line)
    return line[: at.start()] if at else line


def is_own_proof(path):
    """Whether the file is the proof of one function, whose names stay in it."""
    return re.search(r"/proofs/.+/[^/]*\.antt$", path) is not None


def definitions(text):
    """The names that a file defines, each with the text of its type."""
    lines = text.split("\n")
    for i, line in enumerate(lines):
        it = DEFINED.match(code(line))
        if not it or it.group(3) in HEADS or not re.match(r"[A-Za-z]", it.group(3)):
            continue
        word, rest = it.group(3), it.group(4)
        if "record" in it.group(2) or "data" in it.group(2) or TYPED.match(rest):
            yield word, rest, it.group(2)
        elif re.match(r"^(\s+[A-Za-z][\w'-]*)+\s:\s", rest):
            for each in [word] + rest.split(" : ")[0].split():
                yield each, rest, it.group(2)


def snake(part):
    part = re.sub(r"([a-z0-9])([A-Z])", r"\1_\2", part)
    return part[:1].lower() + part[1:].lower() if re.search(r"[a-z]", part) or len(part) > 1 else part


def camel(part):
    return "".join(p[:1].upper() + p[1:] for p in part.split("_"))


def is_fact(name):
    return name[:1].isupper() and re.search("[a-z]", name) is not None


def library_names(root):
    """What the files import of std, and what src/ declares."""
    names = set()
    for path in files(root, (".antt", ".rt")):
        text = read(path)
        for it in re.finditer(r"Rattle\.std\.[\w.]+\.\{([^}]*)\}", text):
            names |= {w.split(" as ")[0].strip() for w in it.group(1).split(",")}
        if path.endswith(".rt"):
            names |= set(re.findall(r"\bfn (\w+)", text)) | set(re.findall(r"\b(\w+):", text))
    return names


def respelled(name, rest, plain, facts):
    """The new spelling: plain has each name of one part, facts the types."""
    if name in CHOSEN:
        return CHOSEN[name]
    if "-" not in name:
        return name if is_fact(name) or len(name) == 1 else snake(name)
    parts = name.split("-")
    if not all(re.match(r"^[\w'ℓκ]+$", p) for p in parts):
        return name
    new, known = [], []
    for p in parts:
        as_fact = camel(p)
        if is_fact(p) or len(p) == 1:
            new.append(p)
            known.append(True)
        elif as_fact in facts and snake(p) not in plain and re.search(r"(?<![\w'])" + re.escape(as_fact) + r"(?![\w'])", rest):
            new.append(as_fact)
            known.append(True)
        else:
            new.append(CHOSEN.get(p, snake(p)))
            known.append(new[-1] in plain)
    said = new[0]
    for i in range(1, len(new)):
        said += ("-" if known[i] and known[i - 1] else "_") + new[i]
    return said


def tokens(path, text):
    """The words of a file that a name may fall together with: not the parts of a path, nor of a source file what is no parameter and no ghost name."""
    if path.endswith(".antt"):
        return {m.group(0) for m in WORD.finditer("\n".join(code(l) for l in text.split("\n"))) if text and not in_path(m)}
    words = set()
    turn_source(text, lambda line: words.update(m.group(0) for m in WORD.finditer(code(line)) if not in_path(m)) or line)
    for it in re.finditer(r"\bfn \w+[^{;]*?\(([^{;]*?)\)\s*(?:->|\n|\{|;)", text):
        words |= set(re.findall(r"\b(\w+):", it.group(1)))
    return words


def in_path(m):
    """Whether the word is a part of a path before its end, or a field."""
    text, a, b = m.string, m.start(), m.end()
    return text[a - 1 : a] == "." or (text[b : b + 1] == "." and re.match(r"[\w{+]", text[b + 1 : b + 2]) is not None)


def main(argv):
    root = "."
    texts = {p: lemmas_named(p, read(p)) for p in files(root, (".antt", ".rt"))}
    before = {p: read(p) for p in texts}
    shared, alone = {}, {}
    for path, text in texts.items():
        if not path.endswith(".antt") or re.search(r"/(Answers|Invariants)\.antt$", path):
            continue
        for name, rest, _ in definitions(text):
            (alone.setdefault(path, {}) if is_own_proof(path) else shared).setdefault(name, rest)
    facts = {n for n in shared if is_fact(n)} | {"All"}
    plain = library_names(root) | {snake(n) for n in shared if "-" not in n and not is_fact(n)}
    held = {p: tokens(p, t) for p, t in texts.items()}

    turned, left = {}, []
    for name in sorted(shared, key=lambda n: ("-" in n, n)):
        new = respelled(name, shared[name], plain, facts)
        if new == name:
            continue
        where = [p for p in held if name in held[p]]
        taken = [p for p in where if new in held[p]] if "-" not in name else [p for p in held if new in held[p]]
        twin = [n for n, t in turned.items() if t == new and any(n in held[p] for p in where)]
        if (twin or taken) and name not in BESIDE:
            left.append((name, new, "as " + twin[0] if twin else "taken in " + ", ".join(taken[:3])))
            continue
        turned[name] = new
    for name in MORE:
        turned[name] = snake(name)
    local = {}
    for path, names in alone.items():
        for name, rest in names.items():
            if name in turned or name in shared:
                continue
            new = respelled(name, rest, plain, facts)
            if new != name and "-" not in name and new not in held[path]:
                local.setdefault(path, {})[name] = new

    if "--list" in argv:
        for n, t in turned.items():
            print(n, t)
        for path, names in local.items():
            for n, t in names.items():
                print("in", path, n, t)
        for n, t, why in left:
            print("LEFT", n, t, why)
        return 0

    def turn(text, names):
        return "\n".join(turn_line(line, names) for line in text.split("\n"))

    for path, text in texts.items():
        names = dict(turned)
        crate = path.split("/")[2]
        for other, its in CHOSEN_IN.items():
            if crate == other:
                names |= its
        names |= local.get(path, {})
        if path.endswith(".rt"):
            new = turn_source(text, lambda t: turn_line(t, names), lambda t: turn_line(" // " + t, names)[4:])
        else:
            new = turn(text, names)
        if new != before[path]:
            with open(path, "w", encoding="utf-8") as f:
                f.write(new)
    for path in files(root, ".edit"):
        text = read(path)
        crate = path.split("/")[2]
        names = turned | CHOSEN_IN.get(crate, {})
        new = turn(text, names)
        if new != text:
            with open(path, "w", encoding="utf-8") as f:
                f.write(new)
    return 0


def turn_line(line, names):
    """A line, and in its comment those names alone that are no words of English."""
    own = code(line)
    word = re.compile(r"[A-Za-z][\w'-]*")
    said = word.sub(lambda m: names.get(m.group(0), m.group(0)) if re.search("[a-z][A-Z]", m.group(0)) else m.group(0), line[len(own) :])
    return WORD.sub(lambda m: names.get(m.group(0), m.group(0)), own) + said


def lemmas_named(path, text):
    """The text with the names of LEMMAS: a word that is no part of a path."""
    names = LEMMAS[""] | LEMMAS.get(path.split("/")[2], {})
    if not path.endswith(".antt"):
        return text
    return WORD.sub(lambda m: m.group(0) if in_path(m) else names.get(m.group(0), m.group(0)), text)


def turn_source(text, turn, turn_comment=lambda t: t):
    """A source file: its ghost lines and its clauses, and its comments."""
    out, depth, clause = [], 0, False
    for line in text.split("\n"):
        head = re.match(r"^\s*(requires|ensures|ghost|decreases|invariant)\b", line)
        if clause or head:
            out.append(turn(line))
            depth += line.count("{") - line.count("}")
            clause = depth > 0
            if not clause:
                depth = 0
        else:
            own = code(line)
            out.append(own + turn_comment(line[len(own) :]) if len(own) < len(line) else line)
    return "\n".join(out)


if __name__ == "__main__":
    raise SystemExit(main(sys.argv[1:]))
