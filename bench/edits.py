#!/usr/bin/env python3
"""Tries the edits that the prover must refuse, edits/CRATE/*.edit, of some crates or of all.

usage: bench/edits.py CRATE..        those of these crates
       bench/edits.py --since REV    those of each crate whose src, specs, proofs or edits differ from that commit's
       bench/edits.py --share K/N    those of every N-th crate that has edits, from the K-th on (1/N to N/N are all)
       bench/edits.py --all
       bench/edits.py --fits         tries none, and says in a second which can no longer be applied
       bench/edits.py --page         writes edits/README.md anew, which says what each crate's edits turn

An edit is a file as `rt must-fail` reads it, named by what it turns. They stand outside crates/, so that `rt ci` proves a crate once and not twice. Here
the crates are copied to a new folder, the edits into must-fail/ of each, and `rt must-fail` tries them there: it begins with what
`rt check` kept in any checkout on the machine, tries again only what changed, and builds libraries that nothing has built. The
status is 0 where each edit is refused. With --list nothing is tried, and the crates are printed.
"""
import os
import shutil
import subprocess
import sys
import tempfile

TOP = os.path.dirname(os.path.dirname(os.path.realpath(__file__)))


def crates_with_edits():
    folder = f"{TOP}/edits"
    return sorted(name for name in os.listdir(folder) if os.path.isdir(f"{folder}/{name}"))


def changed_since(revision):
    words = ["git", "-C", TOP, "diff", "--name-only", revision, "--", "crates", "edits"]
    paths = subprocess.run(words, check=True, stdout=subprocess.PIPE, text=True).stdout.split("\n")
    parts = [path.split("/") for path in paths if path.count("/") >= 2]
    return {it[1] for it in parts if it[0] == "edits" or it[2] in ("src", "specs", "proofs")}


def chosen(words):
    every = crates_with_edits()
    if words == ["--all"]:
        return every
    if len(words) == 2 and words[0] == "--since":
        changed = changed_since(words[1])
        return [name for name in every if name in changed]
    if len(words) == 2 and words[0] == "--share":
        first, step = (int(it) for it in words[1].split("/"))
        return every[first - 1 :: step]
    lacking = [name for name in words if name not in every]
    if not words or lacking:
        sys.exit(f"no edits of {', '.join(lacking)}" if lacking else __doc__)
    return words


def misfit(edit, crate):
    """Says why an edit can't be applied, or nothing: each `old:` stands once in its file, as the edits before it made it."""
    texts, path, old = {}, "", None
    with open(edit, encoding="utf-8") as file:
        lines = file.read().split("\n")
    for line in lines:
        if line.startswith("file: "):
            path = line[len("file: ") :].strip()
            if not os.path.isfile(f"{crate}/{path}"):
                return f"there is no {path}"
            with open(f"{crate}/{path}", encoding="utf-8") as file:
                texts.setdefault(path, file.read())
        elif line.startswith("old: "):
            old = line[len("old: ") :]
        elif line.startswith("new:"):
            if not path or not old or texts[path].count(old) != 1:
                return f"an `old:` stands not once in {path}"
            texts[path] = texts[path].replace(old, line[len("new:") :].removeprefix(" "))
    return None if texts else "it has no `file:`"


def edits_of(name):
    return sorted(os.listdir(f"{TOP}/edits/{name}"))


PAGE = """# Edits that the prover must refuse

Each turns what a public function means, while the names that proofs cite stay; its name says what would then be so. The gate looks
that each still fits its file. Who changes a contract tries those of its crate, `bench/edits.py CRATE`, and a release tries all,
`bench/edits.py --all`. This page is written by `bench/edits.py --page`.

| Crate | What its edits turn |
|---|---|
"""


def page():
    """A row a crate, and in it the names of its edits as words."""
    told = {name: [edit.removesuffix(".edit").replace("_", " ") for edit in edits_of(name)] for name in crates_with_edits()}
    rows = "".join(f"| `{name}` | {'; '.join(edits)} |\n" for name, edits in told.items())
    return f"{PAGE}{rows}\n{sum(map(len, told.values()))} edits of {len(told)} crates.\n"


def fits():
    lost = 0
    for name in crates_with_edits():
        for edit in edits_of(name):
            why = misfit(f"{TOP}/edits/{name}/{edit}", f"{TOP}/crates/{name}")
            if why:
                print(f"edits/{name}/{edit}: {why}")
                lost += 1
    return 1 if lost else 0


def copy_to(room, names):
    """Copies what a check reads, and the edits of these crates to where `rt must-fail` looks for them."""
    shutil.copytree(f"{TOP}/crates", f"{room}/crates", ignore=shutil.ignore_patterns("out", "must-fail"))
    for name in ("crates.txt", "HANDLES"):
        shutil.copy(f"{TOP}/{name}", room)
    # (the top of a repository)
    os.mkdir(f"{room}/.git")
    for name in names:
        shutil.copytree(f"{TOP}/edits/{name}", f"{room}/crates/{name}/must-fail")


def main():
    if sys.argv[1:] == ["--fits"]:
        return fits()
    if sys.argv[1:] == ["--page"]:
        with open(f"{TOP}/edits/README.md", "w", encoding="utf-8") as file:
            file.write(page())
        return 0
    words = [it for it in sys.argv[1:] if it != "--list"]
    names = chosen(words)
    print("edits of:", " ".join(names) or "no crate", flush=True)
    if "--list" in sys.argv or not names:
        return 0
    with tempfile.TemporaryDirectory(prefix="edits-") as room:
        copy_to(room, names)
        return subprocess.run(["rt", "must-fail", *names], cwd=room).returncode


if __name__ == "__main__":
    sys.exit(main())
