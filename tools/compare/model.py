"""A plain model of the store, written from document 01, its readings and the Rust original, with the requests of document 02. It is the judge of
the definitions."""
import copy
from dataclasses import dataclass, field

IMPORTING, STALE, REFRESHING = 1, 2, 4
# bytes of a budget are counted up to here at every size
LARGEST = 2**64 - 1

FIELDS = (
    "db_size schema_version last_tx_id flags checksum import_expected_checksum import_written_until import_total_size "
    "import_base_offset checksum_refresh_offset checksum_refresh_hash checksum_refresh_tx_id db_base_offset page_table_offset "
    "page_count layout_version zero_extent_count meta_checksum"
).split()


class Refuse(Exception):
    def __init__(self, number, *values):
        super().__init__(number)
        self.number, self.values = number, values


@dataclass
class Params:
    P: int  # page
    S: int  # stable page
    C: int  # pages of the clean cache
    L: int  # most zero runs
    M: int  # largest number


@dataclass
class Budget:
    limited: bool = False
    max_pages: int = 0
    max_bytes: int = 0
    passed: int = 0
    peak_pages: int = 0
    peak_bytes: int = 0


@dataclass
class Overlay:
    """The numbers of an update; its pages and record lie in lent slices."""
    base_size: int
    size: int
    dirty: int
    recorded: int
    cached: list
    cache_count: int
    budget: Budget


@dataclass
class State:
    count: int
    block: dict
    updating: bool
    overlay: Overlay


@dataclass
class Lent:
    mem: list
    frames: list
    numbers: list
    clean: list
    recs: list
    work: list


@dataclass
class Out:
    state: State
    lent: Lent
    answer: tuple
    filled: list = field(default_factory=list)


def ceil_div(n, by):
    return -(-n // by)


def blank(values):
    return [0] * len(values)


def covered(runs, page):
    return any(a <= page < b for a, b in runs)


def normalize(runs):
    """Maximal runs of the pages of all runs; touching ones are one."""
    merged = []
    for a, b in sorted(r for r in runs if r[0] < r[1]):
        if merged and a <= merged[-1][1]:
            merged[-1] = (merged[-1][0], max(merged[-1][1], b))
        else:
            merged.append((a, b))
    return merged


def without_page(runs, page):
    parts = []
    for a, b in runs:
        if a <= page < b:
            parts += [(a, page), (page + 1, b)]
        else:
            parts.append((a, b))
    return normalize(parts)


def is_normalized(runs):
    ends = [-1] + [b for _, b in runs]
    return all(a < b for a, b in runs) and all(a > e for (a, _), e in zip(runs, ends))


class SmallCodec:
    """The test codec of crates/store/specs/Small.antt: one element of memory for each field and number, at most 3 runs."""
    name, seed, head, page_field, most = "small_codec", 1, 18, 2, 3
    magic = None

    def hash(self, h, values):
        for x in values:
            h = (h * 7 + x + 1) % 251
        return h

    def seal(self, block, runs):
        flat = [x for r in runs for x in r]
        block["version"] = 8
        block["meta_checksum"] = self.hash(1, [block[f] for f in FIELDS[:-1]] + flat)
        return [block[f] for f in FIELDS] + flat

    def runs(self, n, mem):
        cells = mem[18:18 + 2 * min(n, 3)]
        return [(cells[i], cells[i + 1]) for i in range(0, len(cells) - 1, 2)]

    def decode(self, mem):
        block = {"magic": "magic", "version": 8, "sqlite_page_size": 2}
        block.update(zip(FIELDS, mem))
        return block

    def load(self, mem):
        block = self.decode(mem)
        if block["zero_extent_count"] > 3:
            raise Refuse(3)
        runs = self.runs(block["zero_extent_count"], mem)
        if self.seal(dict(block), runs)[17] != block["meta_checksum"] or not is_normalized(runs):
            raise Refuse(3)
        return block

    def fresh(self):
        block = {"magic": "magic", "version": 8, "sqlite_page_size": 2, **{f: 0 for f in FIELDS}}
        block.update(db_base_offset=24, layout_version=8)
        return block


def fnv(h, values):
    for x in values:
        h = ((h ^ x) * 0x100000001B3) % 2**64
    return h


def le(n, width):
    return list(n.to_bytes(width, "little"))


class RealCodec:
    """01's superblock: magic at 0, version at 8, page size at 12, eighteen fields of 8 bytes from 16, runs of 16 bytes from 160."""
    name, seed, head, page_field, most = "real_codec", 0xCBF29CE484222325, 160, 16384, 1024
    magic = list(b"ICSQLITE")

    def hash(self, h, values):
        return fnv(h, values)

    def encode(self, block, runs):
        out = list(block["magic"]) + le(block["version"], 4) + le(block["sqlite_page_size"], 4)
        for f in FIELDS:
            out += le(block[f], 8)
        for a, b in runs:
            out += le(a, 8) + le(b, 8)
        return out

    def seal(self, block, runs):
        block["version"] = 8
        block["meta_checksum"] = fnv(self.seed, self.encode({**block, "meta_checksum": 0}, runs))
        return self.encode(block, runs)

    def fresh(self):
        block = {"magic": self.magic, "version": 8, "sqlite_page_size": 16384, **{f: 0 for f in FIELDS}}
        block.update(db_base_offset=65536, layout_version=8)
        return block

    def word(self, mem, at, width=8):
        cells = (mem[at:at + width] + [0] * width)[:width]
        return int.from_bytes(bytes(cells), "little")

    def runs(self, n, mem):
        return [(self.word(mem, 160 + 16 * i), self.word(mem, 168 + 16 * i)) for i in range(min(n, 1024))]

    def decode(self, mem):
        block = {"magic": (mem[:8] + [0] * 8)[:8], "version": self.word(mem, 8, 4), "sqlite_page_size": self.word(mem, 12, 4)}
        block.update((f, self.word(mem, 16 + 8 * i)) for i, f in enumerate(FIELDS))
        return block

    def load(self, mem):
        block = self.decode(mem)
        if block["magic"] != self.magic:
            raise Refuse(1)
        for f in ("version", "layout_version"):
            if block[f] != 8:
                raise Refuse(2, block[f])
        if block["zero_extent_count"] > 1024:
            raise Refuse(3)
        runs = self.runs(block["zero_extent_count"], mem)
        if fnv(self.seed, self.encode({**block, "meta_checksum": 0}, runs)) != block["meta_checksum"] or not is_normalized(runs):
            raise Refuse(3)
        return block


class Pool:
    """Pages one behind the other in a lent slice, with a table of their numbers. A freed place is used again: later pages move
    up, and the place left over becomes zeros."""

    def __init__(self, size, cells, numbers, used):
        self.size, self.cells, self.numbers, self.used = size, cells, numbers, used

    def find(self, page):
        live = self.numbers[:self.used]
        return live.index(page) if page in live else None

    def get(self, i):
        return self.cells[i * self.size:(i + 1) * self.size]

    def put(self, i, start, values):
        at = i * self.size + start
        self.cells[at:at + len(values)] = values

    def push(self, page, values):
        self.numbers[self.used] = page
        self.put(self.used, 0, values)
        self.used += 1
        return self.used - 1

    def keep(self, wanted):
        kept = [(self.numbers[i], self.get(i)) for i in range(self.used) if wanted(i, self.numbers[i])]
        for i in range(self.used):
            page, values = kept[i] if i < len(kept) else (0, [0] * self.size)
            self.numbers[i] = page
            self.put(i, 0, values)
        self.used = len(kept)


class Update:
    """An open overlay over an image, working in the lent slices."""

    def __init__(self, par, overlay, lent, image_page):
        v = copy.deepcopy(overlay)
        self.par, self.v, self.lent, self.image_page = par, v, lent, image_page
        self.dirty = Pool(par.P, lent.frames, lent.numbers, v.dirty)
        self.cache = Pool(par.P, lent.clean, v.cached, v.cache_count)

    def numbers(self):
        self.v.dirty, self.v.cache_count = self.dirty.used, self.cache.used
        return self.v

    def record(self):
        return [(self.lent.recs[2 * i], self.lent.recs[2 * i + 1]) for i in range(self.v.recorded)]

    def push_run(self, a, b):
        if a >= b:
            return
        if self.v.recorded == len(self.lent.recs) // 2:
            raise Refuse(34)
        self.lent.recs[2 * self.v.recorded:2 * self.v.recorded + 2] = [a, b]
        self.v.recorded += 1

    def admit(self):
        """30, then 33, and only then the peaks rise."""
        g, pages = self.v.budget, self.dirty.used + 1
        size = min(pages * self.par.P, LARGEST)
        if g.limited and (g.passed or pages > g.max_pages or size > g.max_bytes):
            g.passed = g.passed or (1 if pages > g.max_pages else 2)
            raise Refuse(30)
        if self.dirty.used >= min(len(self.lent.frames) // self.par.P, len(self.lent.numbers)):
            raise Refuse(33)
        if g.limited:
            g.peak_pages, g.peak_bytes = max(g.peak_pages, pages), max(g.peak_bytes, size)

    def load(self, page):
        at = self.dirty.find(page)
        if at is not None:
            return at
        self.admit()
        if covered(self.record(), page):
            return self.dirty.push(page, [0] * self.par.P)
        hit = self.cache.find(page)
        values = self.image_page(page) if hit is None else self.cache.get(hit)
        if hit is not None:
            self.cache.keep(lambda i, _: i != hit)
        return self.dirty.push(page, values)

    def zero(self, page, start, end):
        at = self.load(page)
        self.dirty.put(at, start, [0] * (end - start))

    def grow(self, old, new):
        P = self.par.P
        self.push_run(ceil_div(old, P), ceil_div(new, P))
        if old % P:
            if old // P * P + P > self.par.M:
                raise Refuse(20)
            self.zero(old // P, old % P, min(new - old // P * P, P))
        if new % P and new // P != old // P:
            self.zero(new // P, 0, new % P)

    def write(self, offset, values):
        P, end = self.par.P, offset + len(values)
        if not values:
            return
        if end > self.par.M:
            raise Refuse(20)
        if end > self.v.size:
            self.grow(self.v.size, end)
        if len(values) == P and offset % P == 0:
            at = self.dirty.find(offset // P)
            if at is None:
                self.admit()
                self.dirty.push(offset // P, values)
            else:
                self.dirty.put(at, 0, values)
        else:
            self.write_parts(offset, values)
        self.v.size = max(self.v.size, end)

    def write_parts(self, offset, values):
        P, done = self.par.P, 0
        while done < len(values):
            here = offset + done
            part = values[done:done + P - here % P]
            self.dirty.put(self.load(here // P), here % P, part)
            done += len(part)

    def truncate(self, size):
        P, old = self.par.P, self.v.size
        if size > old:
            self.grow(old, size)
        elif size < old:
            self.push_run(ceil_div(size, P), ceil_div(old, P))
        self.v.size = size
        count = ceil_div(size, P)
        self.dirty.keep(lambda _, page: page < count)
        self.cache.keep(lambda _, page: page < count)
        if size % P:
            self.zero(size // P, size % P, P)

    def read(self, offset, n):
        P, out = self.par.P, []
        stop = min(offset + n, self.v.size)
        while offset + len(out) < stop:
            here = offset + len(out)
            page = self.page_seen(here // P)
            out += page[here % P:min(P, here % P + stop - here)]
        return (out + [0] * n)[:n]

    def page_seen(self, page):
        at = self.dirty.find(page)
        if at is not None:
            return self.dirty.get(at)
        if covered(self.record(), page):
            return [0] * self.par.P
        at = self.cache.find(page)
        if at is not None:
            return self.cache.get(at)
        values = self.image_page(page)
        if self.par.C:
            if self.cache.used == self.par.C:
                self.cache.keep(lambda i, _: i != 0)
            self.cache.push(page, values)
        return values


MEMORY_ONLY = "import_begin import_chunk import_finish import_cancel export checksum refresh refresh_step".split()
LENT = {
    "begin": "", "file_size": "", "read": "mb", "write": "mbw", "truncate": "mbw", "commit": "mbw", "rollback": "b",
    **{k: "m" for k in MEMORY_ONLY},
}


class Store:
    def __init__(self, par, codec):
        self.par, self.codec = par, codec

    # what every call does

    def call(self, state, lent, call):
        kind, args = call[0], call[1:]
        lends = args[1] if kind in ("read", "export") else []
        if self.short(state, lent, kind):
            return Out(state, lent, ("Refused", 35), list(lends))
        if self.barred(state, call):
            # 02, W-203: "refuses with 10, right after 35 and, like 35, with nothing changed, lent frames and lists included"
            return Out(state, lent, ("Refused", 10))
        s, l = copy.deepcopy(state), copy.deepcopy(lent)
        try:
            if kind in MEMORY_ONLY and s.updating:
                raise Refuse(12)
            out = getattr(self, "do_" + kind)(s, l, *args)
        except Refuse as r:
            out = Out(copy.deepcopy(state), copy.deepcopy(lent), ("Refused", r.number, *r.values), list(lends))
        if "w" in LENT[kind]:
            out.lent.work = blank(out.lent.work)
        return out

    def short(self, s, l, kind):
        p, lends, v = self.par, LENT[kind], s.overlay
        frames = min(len(l.frames) // p.P, len(l.numbers))
        if "m" in lends and len(l.mem) < s.count * p.S:
            return True
        if "b" in lends:
            if len(l.clean) < p.C * p.P:
                return True
            if s.updating and (frames < v.dirty or len(l.recs) // 2 < v.recorded):
                return True
        return "w" in lends and len(l.work) // 2 < p.L + 1 + 2 * frames

    def barred(self, s, call):
        """A direct write or truncation in an import; "an empty direct write is still accepted"."""
        changes = call[0] == "truncate" or (call[0] == "write" and len(call[2]) > 0)
        return changes and not s.updating and s.block["flags"] & IMPORTING

    def no_overlay(self):
        return Overlay(0, 0, 0, 0, [0] * self.par.C, 0, Budget())

    # the image

    def image_runs(self, s, l):
        return self.codec.runs(s.block["zero_extent_count"], l.mem)

    def image_bytes(self, s, l, offset, n):
        b, runs, out = s.block, self.image_runs(s, l), []
        for o in range(offset, offset + n):
            seen = o < b["db_size"] and not covered(runs, o // self.par.P)
            out.append(l.mem[b["db_base_offset"] + o] if seen else 0)
        return out

    def image_page(self, s, l):
        P = self.par.P
        return lambda page: self.image_bytes(s, l, page * P, P)

    def reach(self, s, l, end):
        """Growth by whole stable pages, zero-filled, or 32."""
        S = self.par.S
        if end <= s.count * S:
            return
        need = s.count + ceil_div(end - s.count * S, S)
        if need > len(l.mem) // S:
            raise Refuse(32, s.count, need)
        l.mem[s.count * S:need * S] = [0] * ((need - s.count) * S)
        s.count = need

    def store_block(self, s, l, runs=None):
        cells = self.codec.seal(s.block, self.image_runs(s, l) if runs is None else runs)
        l.mem[:len(cells)] = cells

    # updates and direct calls

    def do_begin(self, s, l, limited, pages, size):
        if s.block["flags"] & IMPORTING:
            raise Refuse(10)
        if s.updating:
            raise Refuse(13)
        s.updating, s.overlay = True, self.no_overlay()
        s.overlay.base_size = s.overlay.size = s.block["db_size"]
        s.overlay.budget = Budget(limited, pages, size)
        return Out(s, l, ("Size", s.block["db_size"]))

    def opened(self, s, l):
        return Update(self.par, s.overlay, l, self.image_page(s, l))

    def do_read(self, s, l, offset, lends):
        n = len(lends)
        if not s.updating:
            full = n == 0 or offset + n <= s.block["db_size"]
            return Out(s, l, ("Read", full), self.image_bytes(s, l, offset, n))
        u = self.opened(s, l)
        full = n == 0 or offset + n <= u.v.size
        filled = u.read(offset, n)
        s.overlay = u.numbers()
        return Out(s, l, ("Read", full), filled)

    def do_write(self, s, l, offset, values):
        return self.change(s, l, lambda u: u.write(offset, values))

    def do_truncate(self, s, l, size):
        return self.change(s, l, lambda u: u.truncate(size))

    def change(self, s, l, act):
        if not s.updating:
            return self.direct(s, l, act)
        u, answer = self.opened(s, l), ("Done",)
        try:
            act(u)
        except Refuse as r:
            answer = ("Refused", r.number, *r.values)
        s.overlay = u.numbers()
        return Out(s, l, answer)

    def direct(self, s, l, act):
        fresh = copy.deepcopy(s)
        fresh.overlay = self.no_overlay()
        fresh.overlay.base_size = fresh.overlay.size = s.block["db_size"]
        u = self.opened(fresh, l)
        try:
            act(u)
        except Refuse as r:
            return self.end(s, l, ("Refused", r.number, *r.values))
        return self.finish(s, l, u, False)

    def end(self, s, l, answer):
        s.updating, s.overlay = False, self.no_overlay()
        for name in ("frames", "numbers", "clean", "recs"):
            setattr(l, name, blank(getattr(l, name)))
        return Out(s, l, answer)

    def do_commit(self, s, l):
        if not s.updating:
            return Out(s, l, ("Done",))
        return self.finish(s, l, self.opened(s, l), True)

    def do_rollback(self, s, l):
        return self.end(s, l, ("Done",)) if s.updating else Out(s, l, ("Done",))

    def do_file_size(self, s, l):
        return Out(s, l, ("Size", s.overlay.size if s.updating else s.block["db_size"]))

    # commit

    def finish(self, s, l, u, advance):
        v = u.numbers()
        if v.size == v.base_size and not v.dirty and not v.recorded:
            return self.end(s, l, ("Done",))
        before, count = list(l.mem), ceil_div(v.size, self.par.P)
        pages = [(no, u.dirty.get(i)) for i, no in enumerate(u.dirty.numbers[:v.dirty]) if no < count]
        try:
            runs = self.runs_after(s, l, u, [no for no, _ in pages])
            self.reach(s, l, self.required_end(s.block["db_base_offset"], v.size, pages))
        except Refuse as r:
            l.mem = before
            return self.end(s, l, ("Refused", r.number, *r.values))
        for no, values in pages:
            at = s.block["db_base_offset"] + no * self.par.P
            l.mem[at:at + self.par.P] = values
        self.publish(s, l, v.size, runs, advance)
        return self.end(s, l, ("Done",))

    def runs_after(self, s, l, u, dirty):
        limit, runs = self.par.L + len(dirty), self.image_runs(s, l)
        old, new = ceil_div(s.block["db_size"], self.par.P), ceil_div(u.v.size, self.par.P)
        for run in [(old, new), (new, old)] + u.record():
            if run[0] < run[1]:
                runs = normalize(runs + [run])
                if len(runs) > limit:
                    raise Refuse(31)
        for page in dirty:
            runs = without_page(runs, page)
        if len(runs) > self.par.L:
            raise Refuse(31)
        return runs

    def required_end(self, base, size, pages):
        ends = [base + size] + [base + (no + 1) * self.par.P for no, _ in pages]
        if max(ends) > self.par.M:
            raise Refuse(20)
        return max(ends)

    def publish(self, s, l, size, runs, advance):
        b = s.block
        b.update(db_size=size, page_table_offset=0, page_count=ceil_div(size, self.par.P), layout_version=8, zero_extent_count=len(runs))
        if advance:
            b["last_tx_id"] = min(b["last_tx_id"] + 1, self.par.M)
            b["flags"] |= STALE
            self.clear_refresh(b)
        self.store_block(s, l, runs)

    def clear_refresh(self, b):
        b["flags"] &= ~REFRESHING
        b.update(checksum_refresh_offset=0, checksum_refresh_hash=0, checksum_refresh_tx_id=0)

    # imports

    def do_import_begin(self, s, l, total, expected):
        b, base = s.block, s.count * self.par.S
        if b["flags"] & IMPORTING:
            raise Refuse(10)
        if base + total > self.par.M:
            raise Refuse(20)
        b["flags"] |= IMPORTING
        self.clear_refresh(b)
        b.update(import_expected_checksum=expected, import_written_until=0, import_total_size=total, import_base_offset=base)
        self.store_block(s, l)
        return Out(s, l, ("Done",))

    def need_import(self, s):
        if not s.block["flags"] & IMPORTING:
            raise Refuse(11)

    def do_import_chunk(self, s, l, offset, values):
        self.need_import(s)
        b, end = s.block, offset + len(values)
        if offset != b["import_written_until"]:
            raise Refuse(21)
        if end > self.par.M:
            raise Refuse(20)
        if end > b["import_total_size"]:
            raise Refuse(22)
        at = b["import_base_offset"] + offset
        if at + len(values) > self.par.M:
            raise Refuse(20)
        if values:
            self.reach(s, l, at + len(values))
            l.mem[at:at + len(values)] = values
        b["import_written_until"] = end
        self.store_block(s, l)
        return Out(s, l, ("Done",))

    def close_import(self, b):
        b["flags"] &= ~IMPORTING
        b.update(import_expected_checksum=0, import_written_until=0, import_total_size=0, import_base_offset=0)

    def do_import_finish(self, s, l):
        self.need_import(s)
        b = s.block
        base, total, expected = b["import_base_offset"], b["import_total_size"], b["import_expected_checksum"]
        if b["import_written_until"] != total:
            raise Refuse(23)
        found = self.codec.hash(self.codec.seed, l.mem[base:base + total])
        self.close_import(b)
        if found != expected:
            self.store_block(s, l)
            return Out(s, l, ("Refused", 24, expected, found))
        b.update(db_size=total, db_base_offset=base, page_table_offset=0, page_count=ceil_div(total, self.par.P), layout_version=8)
        b.update(schema_version=0, zero_extent_count=0, checksum=found)
        b["flags"] &= ~STALE
        self.clear_refresh(b)
        self.store_block(s, l, [])
        return Out(s, l, ("Done",))

    def do_import_cancel(self, s, l):
        self.need_import(s)
        self.close_import(s.block)
        self.store_block(s, l)
        return Out(s, l, ("Done",))

    # export and checksums

    def do_export(self, s, l, offset, lends):
        n = max(0, min(len(lends), s.block["db_size"] - offset))
        return Out(s, l, ("Exported", n), self.image_bytes(s, l, offset, n) + lends[n:])

    def sum_of(self, s, l):
        return self.codec.hash(self.codec.seed, self.image_bytes(s, l, 0, s.block["db_size"]))

    def do_checksum(self, s, l):
        return Out(s, l, ("Checksum", self.sum_of(s, l)))

    def do_refresh(self, s, l):
        found = self.sum_of(s, l)
        self.settle_sum(s.block, found)
        self.store_block(s, l)
        return Out(s, l, ("Checksum", found))

    def settle_sum(self, b, found):
        b["checksum"] = found
        b["flags"] &= ~STALE
        self.clear_refresh(b)

    def do_refresh_step(self, s, l, most):
        b = s.block
        if most == 0:
            raise Refuse(25)
        if b["flags"] & IMPORTING:
            raise Refuse(10)
        if not b["flags"] & REFRESHING or b["checksum_refresh_tx_id"] != b["last_tx_id"]:
            b["flags"] |= REFRESHING
            b.update(checksum_refresh_offset=0, checksum_refresh_hash=self.codec.seed, checksum_refresh_tx_id=b["last_tx_id"])
        at, size = b["checksum_refresh_offset"], b["db_size"]
        n = max(0, min(size, at + most) - at)
        found = self.codec.hash(b["checksum_refresh_hash"], self.image_bytes(s, l, at, n))
        at += n
        b.update(checksum_refresh_offset=at, checksum_refresh_hash=found)
        if at == size:
            self.settle_sum(b, found)
        self.store_block(s, l)
        return Out(s, l, ("Refreshed", at == size, found, at, size))

    # opening and the dirty-page view

    def open(self, count, mem):
        """The state, the answer and the memory."""
        mem = list(mem)
        try:
            if len(mem) < count * self.par.S:
                raise Refuse(35)
            if count == 0:
                return self.open_fresh(mem)
            block = self.codec.load(mem)
            self.test_place(count, block)
            s = State(count, block, False, self.no_overlay())
            if block["flags"] & IMPORTING:
                # 02, W-202: "closes it as `cancel_import` would and stores the superblock"
                self.do_import_cancel(s, Lent(mem, [], [], [], [], []))
            return s, ("Done",), mem
        except Refuse as r:
            return State(count, None, False, self.no_overlay()), ("Refused", r.number, *r.values), mem

    def open_fresh(self, mem):
        l = Lent(mem, [], [], [], [], [])
        s = State(0, self.codec.fresh(), False, self.no_overlay())
        self.reach(s, l, 1)
        self.store_block(s, l, [])
        return s, ("Done",), mem

    def test_place(self, count, b):
        memory = count * self.par.S
        bad = b["db_base_offset"] < self.par.S or b["db_base_offset"] + b["db_size"] > memory
        if b["flags"] & IMPORTING:
            base, done, total = b["import_base_offset"], b["import_written_until"], b["import_total_size"]
            bad = bad or base < self.par.S or base + done > memory or done > total or base + total > self.par.M
        if bad:
            raise Refuse(4)

    def dirty_page(self, state, lent, page):
        if not state.updating:
            return []
        pool = Pool(self.par.P, lent.frames, lent.numbers, state.overlay.dirty)
        at = pool.find(page)
        return [] if at is None else pool.get(at)
