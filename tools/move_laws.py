#!/usr/bin/env python3
"""Moves files of laws from specs/ to proofs/, so that an edit of a definition is refused for the law that it breaks.

usage: python3 tools/move_laws.py CRATE FILE..      at the top; FILE as in specs/FILE.antt

What else in the crate's specs/ imports a moved file moves with it. The imports of all crates follow. Nothing in the files changes but those.
"""

import os
import re
import subprocess
import sys


def read(path):
    with open(path, encoding="utf-8") as f:
        return f.read()


def write(path, text):
    with open(path, "w", encoding="utf-8") as f:
        f.write(text)


def main(argv):
    crate, files = argv[0], list(argv[1:])
    specs, proofs = f"crates/{crate}/specs", f"crates/{crate}/proofs"
    of = {f[:-5]: read(f"{specs}/{f}") for f in os.listdir(specs) if f.endswith(".antt") and f != "Lib.antt"}
    more = True
    while more:
        more = False
        for name, text in of.items():
            if name not in files and any(re.search(rf"Rattle\.{crate}\.specs\.{f}(?![\w])", text) for f in files):
                files.append(name)
                more = True
    print(crate, "moves", " ".join(sorted(files)))
    source = "".join(read(os.path.join(d, f)) for d, _, fs in os.walk("crates") for f in fs if f.endswith(".rt") and "/out/" not in d)
    for f in files:
        if re.search(rf"Rattle\.{crate}\.specs\.{f}(?![\w])", source):
            print("  but clauses cite", f)
    os.makedirs(proofs, exist_ok=True)
    for f in files:
        subprocess.run(["git", "mv", f"{specs}/{f}.antt", f"{proofs}/{f}.antt"], check=True)
    lib = read(f"{specs}/Lib.antt")
    moved = [line for line in lib.split("\n") if re.match(r"^(?:pub )?mod (\w+)$", line) and line.split()[-1] in files]
    left = [line for line in lib.split("\n") if line not in moved]
    write(f"{specs}/Lib.antt", "\n".join(left))
    had = read(f"{proofs}/Lib.antt") if os.path.exists(f"{proofs}/Lib.antt") else ""
    write(f"{proofs}/Lib.antt", had.rstrip("\n") + ("\n" if had.strip() else "") + "\n".join(line if line.startswith("pub") else "pub " + line for line in moved) + "\n")
    for folder, dirs, names in os.walk("crates"):
        dirs[:] = [d for d in dirs if d != "out"]
        for name in names:
            if name.endswith((".antt", ".rt", ".edit")):
                path = os.path.join(folder, name)
                text = read(path)
                new = text
                for f in files:
                    new = re.sub(rf"Rattle\.{crate}\.specs\.{f}(?![\w])", f"Rattle.{crate}.proofs.{f}", new)
                    if name.endswith(".edit") and f"crates/{crate}/" in path:
                        new = new.replace(f"file: specs/{f}.antt", f"file: proofs/{f}.antt")
                if new != text:
                    write(path, new)


if __name__ == "__main__":
    main(sys.argv[1:])
