"""Random lists of calls, each with the slices lent to it and the model's answer."""
import copy
import random
from scenes import SCENES
from model import FIELDS, IMPORTING, REFRESHING, STALE, MEMORY_ONLY, Lent, Params, RealCodec, SmallCodec, Store, ceil_div, normalize

# P, S, C, L, M; the number after the largest one is a multiple of P, as 2^64 is of a page
SETS = {
    "a": (Params(2, 24, 2, 3, 199), SmallCodec()),
    "b": (Params(4, 24, 2, 3, 199), SmallCodec()),
    "c": (Params(2, 24, 3, 3, 95), SmallCodec()),
    "d": (Params(4, 24, 8, 3, 119), SmallCodec()),
    "e": (Params(4, 24, 1, 3, 31), SmallCodec()),
    "f": (Params(2, 24, 1, 3, 999), SmallCodec()),
    "r": (Params(4, 256, 2, 6, 2**64 - 1), RealCodec()),
}


# what a list is about: chances of calls in an update
THEMES = {
    "mixed": [("write", 44), ("truncate", 30), ("read", 30), ("commit", 12), ("rollback", 4), ("begin", 2)],
    "runs": [("write", 50), ("truncate", 25), ("read", 6), ("commit", 18), ("rollback", 1), ("begin", 1)],
    "past": [("write", 40), ("truncate", 45), ("read", 15), ("commit", 8), ("rollback", 2), ("begin", 1)],
    "cache": [("write", 18), ("truncate", 18), ("read", 75), ("commit", 6), ("rollback", 2), ("begin", 1)],
    "range": [("write", 40), ("truncate", 40), ("read", 12), ("commit", 14), ("rollback", 4), ("begin", 1)],
}


class Lists:
    def __init__(self, seed, which):
        self.rnd = random.Random(f"{seed}{which}")
        self.par, self.codec = SETS[which]
        self.store, self.entries, self.tag = Store(self.par, self.codec), [], ""

    def note(self, **entry):
        self.entries.append(dict(entry, par=self.par, codec=self.codec, tag=self.tag))

    # small choices

    def chance(self, percent):
        return self.rnd.randrange(100) < percent

    def byte(self):
        return self.rnd.choice((0, 1, 7, 255, self.rnd.randrange(256)))

    def bytes(self, n):
        return [self.byte() for _ in range(n)]

    def fill(self, values, n, littered=False):
        """As far as n reaches, then zeros or garbage; littered: garbage."""
        extra = max(0, n - len(values))
        return values[:n] + ([0] * extra if not littered and self.chance(40) else [self.rnd.randrange(1, 9) for _ in range(extra)])

    def weighted(self, table):
        kinds, weights = zip(*table)
        return self.rnd.choices(kinds, weights)[0]

    def importing(self):
        """An import is open; in a state that has both, an update goes before it."""
        return not self.state.updating and self.state.block["flags"] & IMPORTING > 0

    def offset(self):
        p, s = self.par, self.state
        size = s.overlay.size if s.updating else s.block["db_size"]
        near = self.rnd.choice((-1, 0, 0, 0, 1))
        pages = self.rnd.randrange(self.most_pages + 2) * p.P
        far = p.M + 1 - self.rnd.choice((1, 2, p.P, p.P + 1, p.S, 2 * p.S, s.block["db_base_offset"], s.block["db_base_offset"] + p.P))
        room = self.ceiling * p.S - s.block["db_base_offset"]
        if self.theme == "runs" and self.chance(80):
            return self.rnd.randrange(max(1, room // p.P + 1)) * p.P
        if self.theme == "past" and self.chance(60):
            return max(0, self.rnd.choice((size, size + p.P + 1, size + 1, size - 1, size + 2 * p.P + 1)))
        far = (far, 60 if self.theme == "range" else 4)
        at = self.weighted([(pages, 45), (size, 25), (size // p.P * p.P, 10), (room, 6), far, (0, 9)])
        return min(p.M, max(0, at + near))

    def length(self):
        p = self.par.P
        if self.theme == "runs" and self.chance(75):
            return p
        if self.theme == "past" and self.chance(60):
            return self.rnd.choice((3 * p + 1, 4 * p + 1, 5 * p, 2 * p + 1))
        return self.weighted([(0, 4), (1, 25), (p - 1, 10), (p, 25), (p + 1, 10), (2 * p, 8), (2 * p + 1, 8), (3 * p, 5), (4 * p + 1, 3), (6 * p, 2)])

    # images

    def made_block(self):
        p, r = self.par, self.rnd
        block = {"magic": self.codec.magic or "magic", "version": 8, "sqlite_page_size": self.codec.page_field, **{f: 0 for f in FIELDS}}
        base = p.S + r.choice((0, 0, 0, 1, 2, 3, p.S, p.S + 1))
        room = max(0, self.count * p.S - base)
        size = max(0, min(room, r.choice((0, 1, p.P, 2 * p.P + 1, 3 * p.P, 5 * p.P - 1, room, room - 1))))
        block.update(db_base_offset=base, db_size=size, page_count=ceil_div(size, p.P), layout_version=8)
        block.update(last_tx_id=r.choice((0, 1, p.M - 1, p.M)), schema_version=r.choice((0, 5)), checksum=r.randrange(200))
        block["flags"] = r.choice((0, 0, STALE, 8, 8 | STALE))
        if self.chance(15):
            # fields that no call looks at
            block.update({f: r.randrange(30) for f in FIELDS[5:12] + ["page_table_offset", "page_count"]})
        if self.chance(30):
            block["flags"] |= REFRESHING
            tx = r.choice((block["last_tx_id"], block["last_tx_id"], 0, 1))
            block.update(checksum_refresh_offset=r.randrange(size + 3), checksum_refresh_hash=r.randrange(200), checksum_refresh_tx_id=tx)
        if self.chance(20):
            total = r.randrange(10)
            written = min(r.choice((0, 1, total)), total, max(0, room - 4))
            block["flags"] |= IMPORTING
            block.update(import_base_offset=base + r.randrange(3), import_total_size=total, import_written_until=written)
            block["import_expected_checksum"] = r.randrange(9)
        return block

    def made_runs(self):
        most = min(self.par.L, 6)
        cells = [self.rnd.randrange(16) for _ in range(self.rnd.choice((0, 1, most, most, most + 1)))]
        runs = normalize((a, a + 1 + self.rnd.randrange(3)) for a in cells)
        if self.chance(20) and len(runs) < most:
            runs.append((self.par.M // self.par.P, self.par.M))
        return runs[:most]

    def made_memory(self):
        block, runs = self.made_block(), self.made_runs()
        block["zero_extent_count"] = len(runs)
        mem = self.bytes(self.count * self.par.S)
        cells = self.codec.seal(block, runs)
        mem[:len(cells)] = cells
        return mem

    def spoil(self, mem):
        """An image that opening refuses, mostly."""
        mem, codec = list(mem), self.codec
        block = codec.decode(mem)
        runs = codec.runs(block["zero_extent_count"], mem)
        way = self.rnd.randrange(10)
        if way < 2:
            mem[self.rnd.randrange(self.rnd.choice((16, codec.head)))] ^= 1
            return mem
        if codec.magic and self.chance(20):
            block["layout_version"] = 7
        if way == 2:
            runs = self.rnd.choice(([(3, 3)], [(4, 3)], [(1, 2), (2, 3)], [(5, 6), (1, 2)]))
        if way == 3:
            block["db_base_offset"] = self.par.S - 1
        if way == 4:
            block["db_size"] = max(0, self.count * self.par.S - block["db_base_offset"] + self.rnd.choice((0, 1)))
        if way >= 5:
            self.spoil_import(block, way)
        block["zero_extent_count"] = codec.most + 1 if way == 2 and self.chance(20) else len(runs)
        cells = codec.seal(block, runs)
        mem[:len(cells)] = cells
        return mem

    def spoil_import(self, block, way):
        p = self.par
        base, total = p.S + 2, 5
        block["flags"] |= IMPORTING
        block.update(import_base_offset=base, import_total_size=total, import_written_until=total)
        if way == 5:
            block["import_base_offset"] = p.S - 1
        if way == 6:
            block.update(import_written_until=max(0, self.count * p.S - base) + 1, import_total_size=self.count * p.S)
        if way == 7:
            block["import_written_until"] = total + 1
        if way == 8:
            block["import_total_size"] = p.M - base + self.rnd.choice((0, 1))

    def scene(self, made):
        """A scene's image is opened and its calls are made; whether that went well."""
        p, codec = self.par, self.codec
        self.tag = made.__name__
        made = made(p)
        self.theme, self.count, self.ceiling, self.most_pages, self.room = "mixed", 1 + ceil_div(made["size"], p.S), 3, 8, 4
        block = {"magic": codec.magic or "magic", "version": 8, "sqlite_page_size": codec.page_field, **{f: 0 for f in FIELDS}}
        block.update(db_base_offset=p.S, db_size=made["size"], layout_version=8, zero_extent_count=len(made["runs"]))
        block.update({f: made[f] for f in made if f in FIELDS})
        if "sum_of" in made:
            block["import_expected_checksum"] = codec.hash(codec.seed, self.bytes(made["sum_of"]))
        mem = self.bytes(self.count * p.S)
        cells = codec.seal(block, made["runs"])
        mem[:len(cells)] = cells
        self.state, answer, mem = self.open(self.count, self.fill(mem, self.ceiling * p.S))
        self.lent, self.data, self.last_refused = Lent(mem, [], [], [], [], []), None, False
        if "state" in made:
            # no opening leads here either; the block in memory is another one
            self.state = copy.deepcopy(self.state)
            self.state.block.update(made["state"], import_expected_checksum=block["import_expected_checksum"])
        for i, call in enumerate(made["calls"] if answer == ("Done",) else []):
            self.frames = made["frames"] if isinstance(made["frames"], int) else made["frames"][i]
            if call:
                self.make(call, self.lend(steady=True))
            else:
                self.other_state()
        self.tag = ""
        return answer == ("Done",)

    def open(self, count, mem):
        out = self.store.open(count, mem)
        self.note(kind="open", count=count, mem=mem, out=out)
        return out

    def start(self):
        """Openings that are refused, perhaps, and one that is not."""
        p, extra = self.par, self.rnd.choice((0, 0, 1, 5))
        self.theme = self.rnd.choice(list(THEMES) + ["runs", "past"])
        self.ceiling, self.most_pages = self.rnd.randrange(2, 6), self.rnd.choice((4, 8, 14))
        self.count = 1 if p.M < 2 * p.S else self.rnd.randrange(2, self.ceiling + 1)
        self.ceiling = max(self.ceiling, self.count)
        if self.chance(30):
            self.open(self.count, self.fill(self.spoil(self.made_memory()), self.count * p.S + extra))
        if self.chance(8):
            self.open(*self.rnd.choice(((0, self.bytes(p.S - 1)), (0, self.bytes(p.S + 1)), (0, []), (self.count, self.made_memory()[:-1]))))
        if self.codec.magic is None and self.chance(45):
            count, mem = 0, self.fill([], self.ceiling * p.S + extra)
        else:
            count, mem = self.count, self.fill(self.made_memory(), self.ceiling * p.S + extra)
        self.state, answer, mem = self.open(count, mem)
        self.lent = Lent(mem, [], [], [], [], [])
        frames, room = dict(runs=((4, 9), (6, 9)), past=((1, 1, 2, 3), (4, 6)), cache=((2, 4), (3, 6))).get(self.theme, ((1, 2, 3, 4, 9), (1, 2, 3, 6)))
        self.frames, self.room = self.rnd.choice(frames), self.rnd.choice(room)
        self.data, self.last_refused = None, False
        return answer == ("Done",)

    # slices lent

    def lend(self, steady=False, which=None):
        """The live parts as they were left; the rest is zeros, garbage or as left, in an import garbage, so that a slice left and one that
        became zeros differ; now and then a slice is too short, or in an import no frame and no entry is lent."""
        p, v, old, r = self.par, self.state.overlay, self.lent, self.rnd
        live = v if self.state.updating else self.store.no_overlay()
        vary, littered = not steady and self.chance(70 if self.theme == "past" else 30), self.importing()
        bare = littered and not steady and self.chance(20)
        frames = max(live.dirty, 0 if bare else self.frames + (r.choice((-1, 0, 1, 3)) if vary else 0))
        entries = max(live.recorded, 0 if bare else self.room + (r.choice((-1, 0, 1)) if vary else 0))
        lengths = dict(
            mem=max(self.state.count, self.ceiling + (r.choice((-1, 0, 1)) if vary else 0)) * p.S + (r.choice((0, 1, 7)) if vary else 0),
            frames=frames * p.P + (r.randrange(p.P) if vary else 0),
            numbers=max(live.dirty, frames + (r.choice((-1, 0, 0, 1, 2)) if vary else 0)),
            clean=p.C * p.P + (r.choice((0, 1, 3)) if vary else 0),
            recs=2 * entries + (r.choice((0, 1)) if vary else 0),
        )
        parts = dict(mem=self.state.count * p.S, frames=live.dirty * p.P, numbers=live.dirty, clean=live.cache_count * p.P, recs=2 * live.recorded)
        if not steady and self.chance(7):
            self.shorten(lengths, parts, which or r.choice(list(lengths)))
        left = {k: n if littered or self.chance(60) else len(getattr(old, k)) for k, n in parts.items()}
        slices = {k: self.fill(getattr(old, k)[:n], lengths[k], littered) for k, n in left.items()}
        held = min(lengths["frames"] // p.P, lengths["numbers"])
        need = 2 * (p.L + 1 + 2 * held)
        work = need - r.choice((1, 2)) if not steady and self.chance(8 if littered else 2) else need + (r.choice((0, 1, 4)) if vary else 0)
        return Lent(work=self.fill([], max(0, work), littered), **slices)

    def shorten(self, lengths, parts, which):
        floor = self.par.C * self.par.P if which == "clean" else parts[which]
        lengths[which] = max(0, floor - self.rnd.choice((0, 1, 1, 2)))

    # calls

    def next_kind(self):
        s = self.state
        always = [("file_size", 1), ("export", 3), ("checksum", 2), ("refresh", 2), ("import_finish", 2), ("import_cancel", 1)]
        if s.updating and self.last_refused and self.chance(50):
            return self.rnd.choice(("truncate", "truncate", "read", "commit"))
        if s.updating:
            return self.weighted(always + THEMES[self.theme] + [("import_begin", 1), ("import_chunk", 1), ("refresh_step", 2)])
        if self.importing():
            if s.block["import_written_until"] == s.block["import_total_size"] and self.chance(50):
                return "import_finish"
            return self.weighted(always + [("import_chunk", 50), ("import_finish", 18), ("import_cancel", 4), ("import_begin", 2), ("begin", 3),
                                           ("refresh_step", 2), ("write", 36), ("truncate", 20), ("read", 5), ("commit", 2), ("rollback", 2)])
        if s.block["flags"] & REFRESHING and self.chance(50):
            return self.rnd.choice(("refresh_step", "refresh_step", "write", "truncate"))
        return self.weighted(always + [("begin", 34), ("write", 18), ("truncate", 14), ("read", 10), ("commit", 2), ("rollback", 2),
                                       ("import_begin", 10), ("import_chunk", 1), ("refresh_step", 12)])

    def arguments(self, kind):
        r, p = self.rnd, self.par
        if kind in ("write", "truncate") and self.importing():
            return self.in_import(kind)
        if kind == "begin":
            pages = r.randrange(5)
            size = r.choice((pages * p.P, pages * p.P, pages * p.P - 1 if pages else 0, 3 * p.P, p.M))
            return (True, pages, size) if self.chance(35) else (False, 0, 0)
        if kind in ("read", "export"):
            return self.offset(), self.bytes(self.length())
        if kind == "write":
            return self.offset(), self.written()
        if kind == "truncate":
            return (self.offset(),)
        if kind == "import_begin":
            return self.import_plan()
        if kind == "import_chunk":
            return self.chunk()
        if kind == "refresh_step":
            return (r.choice((0, 1, 2, p.P, 2 * p.P, 3 * p.P + 1, 50, p.M)),)
        return ()

    def in_import(self, kind):
        """Of a direct call that an import refuses, and of the empty write that it does not."""
        at = self.rnd.choice((self.offset(), self.offset(), self.state.block["db_size"], 0, self.par.M))
        return (at, self.bytes(self.rnd.choice((0, 0, 1, 2, self.length(), self.length())))) if kind == "write" else (at,)

    def written(self):
        if self.par.M < 40 and self.chance(15):
            return self.bytes(self.par.M)
        return self.bytes(self.length())

    def import_plan(self):
        p, r = self.par, self.rnd
        rest = p.M - self.state.count * p.S
        total = self.weighted([(0, 2), (1, 4), (p.P, 4), (2 * p.P + 1, 4), (7, 4), (p.S, 1), (rest, 1), (rest + 1, 1), (p.M, 1)])
        total = max(0, total)
        self.data = self.bytes(min(total, 60))
        found = self.codec.hash(self.codec.seed, self.data)
        return total, found if self.chance(75) else r.randrange(251)

    def chunk(self):
        r, b = self.rnd, self.state.block
        at = b["import_written_until"]
        left = (self.bytes(b["import_total_size"] % 64) if self.data is None else self.data)[at:]
        n = r.choice((0, 1, 3, len(left), len(left), len(left), len(left), len(left), len(left) + 1))
        part = left[:n] if n <= len(left) else left + [9]
        if self.par.M < 100 and self.chance(4):
            part = self.bytes(self.par.M + 1 - at)
        if b["import_total_size"] == self.par.M < 100:
            part = self.bytes(max(0, self.par.M + r.randrange(2) - b["import_base_offset"] - at))
        return (max(0, at + r.choice((-1, 1, 2))) if self.chance(7) else at), part

    def one(self):
        kind = self.next_kind()
        lent = self.lend(which="mem" if kind in MEMORY_ONLY else None)
        if self.chance(5 if self.importing() and kind in ("write", "truncate") else 1):
            self.other_state()
        self.make((kind, *self.arguments(kind)), lent)
        if self.state.updating and self.chance(8):
            self.view()

    def make(self, call, lent):
        out = self.store.call(self.state, lent, call)
        self.note(kind="call", state=self.state, lent=lent, call=call, out=out)
        self.state, self.last_refused = out.state, out.answer[0] == "Refused" and out.answer[1] in (30, 33)
        if out.answer != ("Refused", 35):
            self.lent = out.lent

    def other_state(self):
        """No list of calls leads here; the definitions speak of any state."""
        self.state = copy.deepcopy(self.state)
        if self.state.updating:
            self.state.block["flags"] ^= IMPORTING
        else:
            self.state.overlay.size, self.state.overlay.dirty, self.state.overlay.recorded = self.bytes(3)
            if self.importing() and self.par.M < 100:
                self.state.block["import_total_size"] = self.par.M

    def open_again(self):
        """Opens what the calls left, in the middle of an import too; tells whether it is accepted, which fails only after other_state."""
        self.state, answer, mem = self.open(self.state.count, self.lent.mem)
        self.lent, self.data = Lent(mem, [], [], [], [], []), None
        return answer == ("Done",)

    def view(self):
        live = self.lent.numbers[:self.state.overlay.dirty]
        page = self.rnd.choice(live + [0, self.rnd.randrange(9)])
        out = self.store.dirty_page(self.state, self.lent, page)
        self.note(kind="view", state=self.state, lent=self.lent, page=page, out=out)

    def run(self, calls, length=30):
        self.count = 1 if self.par.M < 2 * self.par.S else 2
        for _ in range(calls // 30):
            self.open(self.count, self.spoil(self.made_memory()))
        for made in self.rnd.sample(SCENES, len(SCENES)):
            if len(self.entries) < calls and self.scene(made):
                self.go_on(5)
        while len(self.entries) < calls:
            if self.start():
                self.go_on(length)
        return self.entries[:calls]

    def go_on(self, length):
        for _ in range(length):
            percent = 8 if self.importing() else 1
            if not self.state.updating and self.chance(percent) and not self.open_again():
                return
            self.one()
