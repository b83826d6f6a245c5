"""Writes the model's answers as theorems by computation over the definitions."""
from model import FIELDS

REFUSALS = {
    1: "ForeignStableMemoryImage", 2: "UnsupportedLayoutVersion", 3: "MetaChecksumMismatch", 4: "ImageOutOfMemory",
    10: "ImportAlreadyStarted", 11: "ImportNotStarted", 12: "UpdateInProgress", 13: "UpdateBegunTwice", 20: "OffsetOverflow",
    21: "ImportOutOfOrder", 22: "ImportOutOfBounds", 23: "ImportIncomplete", 24: "ChecksumMismatch",
    25: "ChecksumRefreshChunkEmpty", 30: "BudgetExceeded", 31: "ZeroExtentLimitExceeded", 32: "GrowFailed", 33: "FramesFull",
    34: "RecordFull", 35: "BufferTooShort",
}

# module, its names; those after the bar are computed through, some only with one codec
NAMES = """
config.specs.Pages| count
memory.specs.Bytes zeros| filled overwrite resize
memory.specs.Growth stable| grow_to=growMemory required=requiredPages
meta.specs.Runs| normalized
meta.specs.Block magic of_fields|real field_offset fields_in decode=decodeBlock checksum_of seal prefix encoded_len block_bytes encode header header_of fresh=freshBlock
words.specs.Words|real word word_at
fnv.specs.Fnv|real mixed step fold fnv1a64
meta_load.specs.Load|real load=loadBlock judge block_runs checksum_in
runs.specs.Sets| within merge insert add around piece remove
runs.specs.Flat| runs_in=flatRuns
image_runs.specs.Image|real image_numbers image_count
extents.specs.Plan| additions add_one remain plan
update.specs.Lists| put refill tabulate
update.specs.Pages| add_number_if span grown_numbers
update.specs.Image| image_byte image_page
update.specs.Update| push_run raw over_byte budget_bytes raised touch blank copy stretch patch finish grow grow_to chop tail truncated whole_page over_write written fresh look_up sized passing marked try_touch try_patch try_finish try_grow try_grow_to try_tail try_chop try_truncate try_write
update.specs.Buffers| frame_count entry_count wiped cached short_buffers view overlay_of put_back dirty_page
store.specs.Codec| stored
store.specs.Codec|real real_codec
store.specs.Small|small small_codec small_sum small_decode small_runs small_load small_fresh
store.specs.Blocks| importing stale refreshing marks after_commit after_import_begin after_import_chunk after_import_cancel after_import_finish after_refresh after_refresh_step
store.specs.Calls begin read write truncate commit rollback file_size import_begin import_chunk import_finish import_cancel export checksum refresh refresh_step Lent Out out mode_of| short
store.specs.Plan| store_plan
store.specs.Store dirty_in| no_overlay image_bytes unchanged planned_runs commit_over restore do_import_begin do_import_chunk do_import_finish do_import_cancel do_export image_sum do_checksum do_refresh refresh_from do_refresh_step store
store.specs.Opening Opened| outside open_image closing open'
"""

SHAPES = """-- Short forms of states, lent slices and refusals, for the compared calls.
use Rattle.std.specs.Prelude.{ℕ, Bool, true, false, List, []}
use Rattle.memory.specs.Growth.{stable}
use Rattle.meta.specs.declared.superblock.Superblock.{Superblock}
use Rattle.update.specs.declared.Overlay.{Overlay}
use Rattle.update.specs.declared.Budget.{Budget}
use Rattle.update.specs.Buffers.{Buffers}
use Rattle.store.specs.declared.State.{State}
use Rattle.store.specs.Answers.{Answer}
use Rattle.store.specs.Answers.{Refreshed}
use Rattle.store.specs.Calls.{Lent}
use Rattle.store.specs.Opening.{Opened}

abbrev pub budget : Bool → ℕ → ℕ → ℕ → ℕ → ℕ → Budget
budget g p b x pp pb = record { limited = g; max_pages = p; max_bytes = b; passed = x; peak_pages = pp; peak_bytes = pb }

abbrev pub overlay : ℕ → ℕ → ℕ → ℕ → List ℕ → ℕ → Budget → Overlay
overlay begun size dirty recorded pages count g = record {
  base_size = begun;
  size = size;
  dirty = dirty;
  recorded = recorded;
  cache = record { pages = pages; count = count };
  budget = g;
}

abbrev pub state : ℕ → Superblock → Bool → Overlay → State
state c b u v = record { count = stable c; block = b; updating = u; overlay = v }

-- memory, frames, page numbers, clean frames, record, work list
abbrev pub lent : List ℕ → List ℕ → List ℕ → List ℕ → List ℕ → List ℕ → Lent
lent m f n c r w = record { mem = m; bufs = record { frames = f; numbers = n; clean = c; recs = r }; work = w }

abbrev pub refreshed : Bool → ℕ → ℕ → ℕ → Answer
refreshed full sum offset size = Refreshed (record { complete = full; checksum = sum; scanned_bytes = offset; db_size = size })

abbrev pub opened : State → Answer → List ℕ → Opened
opened s a m = record { state = s; answer = a; mem = m }
"""


def names(codecs):
    """The lines of use, and what is computed through."""
    uses, through = [], []
    for line in NAMES.strip().splitlines():
        front, computed = line.split("|")
        module, *plain = front.split()
        if computed.split(" ")[0] not in ("", *codecs):
            computed = ""
        computed = computed.partition(" ")[2]
        if not plain and not computed:
            continue
        imported = []
        for name in plain + computed.split():
            name, _, alias = name.partition("=")
            imported.append(f"{name} as {alias}" if alias else name)
        uses.append(f"use Rattle.{module}.{{{', '.join(imported)}}}")
        through += [n.partition("=")[2] or n for n in computed.split()]
    return uses, through


def header(crate, about, codecs):
    uses, _ = names(codecs)
    fixed = [
        "use Rattle.std.specs.Prelude.{◌≡◌, refl, ℕ, Bool, true, false, List, [], ◌∷◌, ◌++◌}",
        "use Rattle.config.specs.declared.refusal.Refusal.TheVariants.{" + ", ".join(REFUSALS.values()) + "}",
        "use Rattle.store.specs.declared.State.{State}",
        "use Rattle.store.specs.Answers.{Done, Size, Read, Exported, Checksum, Refreshed, Refused}",
        f"use Rattle.{crate}.specs.Shapes.{{budget, overlay, state, lent, refreshed, opened}}",
    ]
    return "\n".join([f"-- {about}"] + fixed + uses) + "\n"


def nums(values):
    """A list, its trailing zeros by their number."""
    tail = len(values)
    while tail and values[tail - 1] == 0:
        tail -= 1
    front = " ∷ ".join(str(x) for x in values[:tail])
    rest = f"zeros {len(values) - tail}" if len(values) - tail > 2 else " ∷ ".join(["0"] * (len(values) - tail) + ["[]"])
    return f"({front} ∷ {rest})" if front else f"({rest})"


def boolean(b):
    return "true" if b else "false"


def block(b):
    if b is None:
        return "(of_fields 0 0 0 [])"
    magic = b["magic"] if isinstance(b["magic"], str) else str(int.from_bytes(bytes(b["magic"]), "little"))
    return f"(of_fields {magic} {b['version']} {b['sqlite_page_size']} {nums([b[f] for f in FIELDS])})"


def overlay(v):
    g = v.budget
    marks = f"(budget {boolean(g.limited)} {g.max_pages} {g.max_bytes} {g.passed} {g.peak_pages} {g.peak_bytes})"
    return f"(overlay {v.base_size} {v.size} {v.dirty} {v.recorded} {nums(v.cached)} {v.cache_count} {marks})"


def state(s):
    return f"(state {s.count} {block(s.block)} {boolean(s.updating)} {overlay(s.overlay)})"


def lent(l):
    return "(lent " + " ".join(nums(x) for x in (l.mem, l.frames, l.numbers, l.clean, l.recs, l.work)) + ")"


def word(x):
    return boolean(x) if isinstance(x, bool) else nums(x) if isinstance(x, list) else str(x)


def call(c):
    return "(" + " ".join([c[0]] + [word(x) for x in c[1:]]) + ")"


def answer(a):
    if a[0] == "Refused":
        values = [f"(stable {x})" if a[1] == 32 else str(x) for x in a[2:]]
        return "(Refused (" + " ".join([REFUSALS[a[1]]] + values) + "))"
    if a[0] == "Refreshed":
        return "(refreshed " + " ".join(word(x) for x in a[1:]) + ")"
    return "(" + " ".join([a[0]] + [word(x) for x in a[1:]]) + ")"


def sizes(p, codec):
    return f"{p.P} {p.S} {p.C} {p.L} {p.M} {codec.name}"


def statement(entry):
    """What a compared call is: an entry is a dict with its kind, its inputs and the model's answer."""
    at = sizes(entry["par"], entry["codec"])
    if entry["kind"] == "open":
        s, a, m = entry["out"]
        return f"open' {at} {entry['count']} {nums(entry['mem'])} ≡ opened {state(s)} {answer(a)} {nums(m)}"
    s, l = entry["state"], entry["lent"]
    if entry["kind"] == "view":
        return f"dirty_in {at} (mode_of {state(s)}) {nums(l.frames)} {nums(l.numbers)} {entry['page']} ≡ {nums(entry['out'])}"
    o = entry["out"]
    return f"store {at} {state(s)} {lent(l)} {call(entry['call'])} ≡ out {state(o.state)} {lent(o.lent)} {answer(o.answer)} {nums(o.filled)}"


def theorem(name, entries):
    """One theorem for one call, or for some together."""
    _, through = names({e["codec"].name.partition("_")[0] for e in entries})
    notes = "".join(f"-- {e['note']}\n" for e in entries if e.get("note"))
    if len(entries) == 1:
        said, proof = statement(entries[0]), "refl"
    else:
        said = " × (".join(f"({statement(e)})" for e in entries) + ")" * (len(entries) - 1)
        proof = ", (".join(["refl"] * len(entries)) + ")" * (len(entries) - 1)
        said, proof = "\n    " + said.replace(" × (", " ×\n    ("), f"({proof})"
    return f"{notes}{name} :{' ' if len(entries) == 1 else ''}{said}\nunfolding {' '.join(through)}\n{name} = {proof}\n"


def module(crate, about, groups, first):
    """Groups of entries, each a theorem; they are numbered from first on."""
    parts = [header(crate, about, {e["codec"].name.partition("_")[0] for g in groups for e in g})]
    for i, group in enumerate(groups, first):
        parts.append(theorem(f"c{i}", group))
    return "\n".join(parts)
