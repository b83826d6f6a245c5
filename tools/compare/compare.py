"""Runs the store's definitions beside the model. Usage: compare.py SEED CALLS [SETS], e.g. compare.py 7 300 abc;
compare.py keep writes crates/compared."""
import collections
import itertools
import os
import pathlib
import re
import shutil
import subprocess
import sys
import tempfile

sys.dont_write_bytecode = True

import theorems
from lists import SETS, Lists
from model import IMPORTING

ROOT = pathlib.Path(__file__).resolve().parents[2]
DEPS = "config memory words fnv meta meta_load runs page_sets image_runs extents update store"
BATCH = 25
KEPT_SEED = 1
# so many of each set that every ending is among them
KEPT_CALLS = 2400
KEPT_SCENES = ("unmerged_record", "far_dirty", "left_in_old_page", "left_in_new_page", "cached_then_written", "both_open", "direct_in_import",
               "moved_up")


def copy_repository(to):
    """The crates that are compared; what rt check kept of them in the checkout, its checks here begin with."""
    lines = [l for l in (ROOT / "crates.txt").read_text().splitlines() if l.split(":")[0] in DEPS.split()]
    (to / "crates.txt").write_text("\n".join(lines) + f"\ntrial: {DEPS}\n")
    for name in DEPS.split():
        shutil.copytree(ROOT / "crates" / name, to / "crates" / name, ignore=shutil.ignore_patterns("out"))


def write_crate(folder, crate, groups, about):
    specs = folder / "crates" / crate / "specs"
    shutil.rmtree(folder / "crates" / crate, ignore_errors=True)
    specs.mkdir(parents=True)
    (specs.parent / "src").mkdir()
    (specs.parent / "src" / "lib.rt").write_text("// Calls of the store, compared with a model. They are theorems, in specs/; there is no code here.\n#![tactic(auto)]\n")
    (specs / "Shapes.antt").write_text(theorems.SHAPES)
    modules = ["Shapes"]
    for first in range(0, len(groups), BATCH):
        name = f"Calls{first // BATCH + 1}"
        (specs / f"{name}.antt").write_text(theorems.module(crate, about, groups[first:first + BATCH], first + 1))
        modules.append(name)
    (specs / "Lib.antt").write_text("".join(f"pub mod {m}\n" for m in modules))


def prove(folder):
    """Whether all is proved, and what the prover wrote."""
    done = subprocess.run(["rt", "check"], cwd=folder / "crates" / "trial", capture_output=True, text=True)
    return done.returncode == 0, done.stdout + done.stderr


def ending(entry):
    if entry["kind"] == "view":
        return "view", "page" if entry["out"] else "empty"
    answer = entry["out"][1] if entry["kind"] == "open" else entry["out"].answer
    kind = "open" if entry["kind"] == "open" else entry["call"][0]
    if kind in ("write", "truncate", "read", "commit", "rollback"):
        kind += " in update" if entry["state"].updating else " direct"
    if kind == "open" and answer[0] == "Done" and entry["count"] > 0 and entry["codec"].decode(entry["mem"])["flags"] & IMPORTING:
        return kind, "import closed"
    if kind == "write direct" and answer[0] == "Done" and entry["state"].block["flags"] & IMPORTING:
        return kind, "empty in import"
    return kind, str(answer[1]) if answer[0] == "Refused" else "accepted"


def table(entries):
    counts = collections.Counter(ending(e) for e in entries)
    lines = []
    for kind in sorted({k for k, _ in counts}):
        ends = sorted((e, n) for (k, e), n in counts.items() if k == kind)
        lines.append(f"  {kind}: " + ", ".join(f"{e} {n}" for e, n in ends))
    return "\n".join(lines)


def told(entries, n):
    """The list up to call n, from its opening."""
    first = max(i for i in range(n) if entries[i]["kind"] == "open")
    lines = []
    for i in range(first, n):
        e = entries[i]
        asked = f"open {e['count']}" if e["kind"] == "open" else f"view {e['page']}" if e["kind"] == "view" else theorems.call(e["call"])
        lines.append(f"  c{i + 1} {asked} -> {ending(e)[1]}")
    return "\n".join(lines + [theorems.statement(entries[n - 1])])


def made(seed, calls, sets):
    share = -(-calls // len(sets))
    entries = []
    for which in sets:
        entries += Lists(seed, which).run(share)
    return entries


def group_of(entry):
    """A scene is one theorem; so are the endings of one call."""
    return entry["tag"] if entry["tag"] in KEPT_SCENES else (entry["codec"].name, ending(entry)[0])


def works_out_the_checksum(entry):
    """An image with 01's superblock that passes all tests."""
    return entry["codec"].name == "real_codec" and ending(entry) == ("open", "accepted") and entry["count"] > 0


def closes_an_import(entry):
    return entry["codec"].name == "real_codec" and ending(entry) == ("open", "import closed")


def kept():
    """The calls that stay in the repository: some scenes whole, the shortest call of each kind and ending, and the shortest openings
    that work out a checksum and that store one anew."""
    pool = [e for which in "abcr" for e in Lists(KEPT_SEED, which).run(KEPT_CALLS)]
    calls = [e for e in pool if e["tag"] in KEPT_SCENES and (e["par"], e["codec"].name) == (SETS["b"][0], "small_codec")]
    by_length = sorted(pool, key=lambda e: len(theorems.statement(e)))
    shortest = {}
    for e in by_length:
        shortest.setdefault(ending(e), e)
    seen = {ending(e) for e in calls}
    calls += sorted((e for end, e in shortest.items() if end not in seen), key=lambda e: (e["codec"].name == "real_codec", ending(e)))
    calls += [next(e for e in by_length if asked(e)) for asked in (works_out_the_checksum, closes_an_import)]
    for e in calls:
        e["note"] = ": ".join(ending(e)) + (f" ({e['tag'].replace('_', ' ')})" if e["tag"] in KEPT_SCENES else "")
    return calls


def keep():
    calls = kept()
    groups = [list(g) for _, g in itertools.groupby(calls, key=group_of)]
    write_crate(ROOT, "compared", groups, f"Calls of the store, compared with a model: made by tools/compare/compare.py keep (seed {KEPT_SEED}), not by hand.")
    print(table(calls))
    print(f"{len(calls)} calls kept")
    return 0


def main(seed, calls, sets):
    entries = made(seed, calls, sets)
    with tempfile.TemporaryDirectory() as name:
        folder = pathlib.Path(os.environ.get("COMPARE_FOLDER", name))
        if not (folder / "crates.txt").exists():
            folder.mkdir(parents=True, exist_ok=True)
            copy_repository(folder)
        write_crate(folder, "trial", [[e] for e in entries], f"Compared calls: seed {seed}, sets {sets}.")
        same, said = prove(folder)
    print(table(entries))
    if same:
        print(f"seed {seed}, sets {sets}: {len(entries)} calls agree")
        return 0
    failed = sorted({int(n) for n in re.findall(r"error: `c(\d+)`", said)})
    print(told(entries, failed[0]) if failed else said)
    print(f"seed {seed}, sets {sets}: {len(entries)} calls, differing: {failed}")
    return 1


if __name__ == "__main__":
    if sys.argv[1:] == ["keep"]:
        sys.exit(keep())
    words = sys.argv[1:] + [""]
    sys.exit(main(int(words[0]), int(words[1]), words[2] or "".join(k for k in SETS if k != "r")))
