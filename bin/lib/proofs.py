"""What bin/prove keeps of a proof, in out/proved, and whether what lies here is still what was proved: the digests of a program
and of each crate's sources, and the stamps that `rt` gave the crates."""
import glob
import hashlib
import os
import sys

from program import BIN

TOP = os.path.dirname(BIN)
KEPT = f"{TOP}/out/proved"
# What is built from each goal, and where it lies.
BUILT = {"cuestore": "crates/cuestore/out/cuestore", "cuelayers": "crates/cuelayers/out/cuelayers", "cuestored": "crates/cuestored/out/cuestored",
         "cue_embed": "crates/cue_embed/out/libcue_embed.a", "library": "embed/out"}


def crates_below(*goals):
    """The crates of this repository that the goals stand on, and these, lowest first, each with those named in its line."""
    lines = {}
    with open(f"{TOP}/crates.txt", encoding="utf-8") as file:
        for line in file:
            left, colon, right = line.split("#")[0].partition(":")
            if colon:
                lines[left.split()[0]] = [word for word in right.split() if os.path.isdir(f"{TOP}/crates/{word}")]
    order = {}

    def add(crate):
        if crate not in order:
            for below in lines[crate]:
                add(below)
            order[crate] = lines[crate]

    for goal in goals:
        add(goal)
    return order


def digest_of(path):
    with open(path, "rb") as file:
        return hashlib.sha256(file.read()).hexdigest()


def digest_of_all(folder, names=None):
    """The digest of all files below a folder, or of these parts of it, with their names."""
    found = hashlib.sha256()
    paths = (os.path.join(where, name) for part in names or ("",) for where, _, files in os.walk(os.path.join(folder, part))
             for name in files if not os.path.islink(os.path.join(where, name)))
    for path in sorted(paths):
        found.update(f"{os.path.relpath(path, folder)} {digest_of(path)}\n".encode())
    return found.hexdigest()


def sources_of(crate):
    """The digest of what a proof of the crate reads of it: its sources, and the crates that it names."""
    folder, below = f"{TOP}/crates/{crate}", " ".join(crates_below(crate)[crate])
    return hashlib.sha256(f"{digest_of_all(folder, ('src', 'specs', 'proofs'))} {below}".encode()).hexdigest()


def stamp_of(crate):
    """The stamp that `rt` gave the crate when it was proved."""
    paths = [path for path in glob.glob(f"{glob.escape(TOP)}/crates/{crate}/out/**/*stamp", recursive=True)
             if os.path.basename(path) in ("stamp", f"{crate}.stamp")]
    for path in sorted(paths):
        with open(path, encoding="ascii") as file:
            return "+".join(file.read().split()) or "none"
    return "none"


def built(goal):
    """The digest of what was built from a goal."""
    path = f"{TOP}/{BUILT[goal]}"
    return digest_of_all(path) if os.path.isdir(path) else digest_of(path)


def keep_proof(goal, sources):
    """Writes what was built from a goal, and of each crate below it the digest of the sources that were proved and its stamp."""
    os.makedirs(KEPT, exist_ok=True)
    crates = crates_below(goal_of(goal))
    lines = [f"{goal} {built(goal)}", *(f"{crate} {sources[crate]} {stamp_of(crate)}" for crate in crates)]
    with open(f"{KEPT}/{goal}.proof.part", "w", encoding="utf-8") as file:
        file.write("\n".join(lines) + "\n")
    os.replace(f"{KEPT}/{goal}.proof.part", f"{KEPT}/{goal}.proof")


def goal_of(goal):
    """The crate that stands for a goal."""
    return "cue_embed" if goal == "library" else goal


def what_differs(goal, path):
    """Why what lies at the path is not what was proved of the goal, as lines; none, where it is."""
    try:
        with open(f"{KEPT}/{goal}.proof", encoding="utf-8") as file:
            (_, digest), *rows = (line.split() for line in file)
    except (OSError, ValueError):
        return [f"there is no account of a proof of {goal}: {maker(goal)} proves it, and writes one"]
    now = digest_of_all(path) if os.path.isdir(path) else digest_of(path)
    lines = [] if now == digest else [f"{path} is not what {maker(goal)} has built last"]
    known = {crate: rest for crate, *rest in rows}
    for crate in crates_below(goal_of(goal)):
        sources, stamp = known.get(crate, ("none", "none"))
        if sources != sources_of(crate):
            lines.append(f"the sources of {crate} are not those that were proved")
        elif stamp != stamp_of(crate):
            lines.append(f"the stamp of {crate} is not the one that it got when it was proved")
    return lines


def maker(goal):
    return "bin/build-embed" if goal == "library" else f"bin/prove {goal}"


def main():
    """Writes the account of the library in embed/out, which bin/build-embed has made of what was proved."""
    differs = what_differs("cue_embed", f"{TOP}/{BUILT['cue_embed']}")
    if differs:
        sys.exit(f"build-embed: {differs[0]}")
    with open(f"{KEPT}/cue_embed.proof", encoding="utf-8") as file:
        rows = [line.split() for line in file][1:]
    keep_proof("library", {crate: sources for crate, sources, _ in rows})


if __name__ == "__main__":
    main()
