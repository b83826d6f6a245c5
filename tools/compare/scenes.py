"""Beginnings of lists that chance seldom finds. A scene has the image (size, runs, fields), the frames lent and the calls; a call
without a name is a change of flags that no call makes."""
from model import IMPORTING, REFRESHING


def byte_list(n):
    return [(3 * i + 1) % 250 for i in range(n)]


def unmerged_record(p):
    """31 by the temporary limit alone, by the record as it was pushed."""
    runs = [(8, 9), (20, 21), (30, 31), (40, 41), (50, 51), (60, 61)][:p.L]
    calls = [("begin", False, 0, 0), ("truncate", 6 * p.P), ("truncate", 8 * p.P), ("truncate", 5 * p.P), ("commit",)]
    return dict(size=5 * p.P, runs=runs, frames=2, calls=calls)


def far_dirty(p):
    """A dirty page past the final count gives no slack."""
    runs = [(9, 10), (20, 21), (30, 31), (40, 41), (50, 51), (60, 61)][:p.L]
    calls = [("begin", False, 0, 0), ("write", 5 * p.P, byte_list(2 * p.P + 1)), ("write", 5 * p.P, byte_list(4 * p.P)), ("commit",)]
    return dict(size=5 * p.P, runs=runs, frames=1, calls=calls)


def left_in_old_page(p):
    """A refused write leaves bytes past the size; a small growth zeroes only up to its end."""
    calls = [("begin", False, 0, 0), ("write", 1, byte_list(3 * p.P)), ("write", 2 if p.P > 2 else 1, [9]), ("read", 0, [5] * 7), ("commit",)]
    return dict(size=p.P // 2, runs=[], frames=2, calls=calls)


def left_in_new_page(p):
    calls = [("begin", False, 0, 0), ("write", 1, byte_list(4 * p.P)), ("write", p.P + p.P // 2 - 1, [9]), ("read", 0, [5] * 9), ("commit",)]
    return dict(size=p.P // 2, runs=[], frames=3, calls=calls)


def all_pages(p):
    """Bytes of a budget stop at the largest number."""
    n = min(p.M, 40)
    calls = [("begin", True, 12, n), ("write", 0, byte_list(n)), ("truncate", n - 1), ("commit",)]
    return dict(size=0, runs=[], frames=10, calls=calls)


def cached_then_written(p):
    calls = [("begin", False, 0, 0), ("read", 0, [0] * (3 * p.P)), ("write", 2 * p.P, byte_list(p.P)), ("read", 0, [0] * (4 * p.P)),
             ("write", p.P, byte_list(2 * p.P)), ("read", 0, [0] * (4 * p.P)), ("truncate", 2 * p.P + 1), ("commit",)]
    return dict(size=4 * p.P, runs=[(1, 2)], frames=4, calls=calls)


def at_the_end_of_numbers(p):
    top = p.M - 2
    calls = [("begin", False, 0, 0), ("truncate", top), ("truncate", top + 1), ("write", top, [1, 2]), ("write", top - 1, [3]), ("read", top, [8] * 3),
             ("commit",)]
    return dict(size=p.P, runs=[], frames=4, calls=calls)


def both_open(p):
    """A write is then one in the update."""
    calls = [("begin", False, 0, 0), (), ("write", 1, [9]), ("truncate", p.P), ("begin", True, 1, 1), ("import_begin", 1, 1), ("refresh_step", 0),
             ("import_chunk", 3, []), ("import_finish",), ("export", 0, [4] * 3), ("commit",), ("refresh_step", 0),
             ("import_chunk", 1, byte_list(min(p.M, 95))), ("import_begin", p.M, 0)]
    return dict(size=p.P, runs=[], frames=2, calls=calls)


def over_refresh(p):
    """An import of 0 bytes, which is complete, and a refresh under way."""
    fields = dict(flags=IMPORTING | REFRESHING | 2, checksum_refresh_offset=1, checksum_refresh_hash=9, import_base_offset=p.S + 2, schema_version=4)
    calls = [("refresh_step", 0), ("refresh_step", 1), ("import_finish",), ("refresh_step", 1), ("refresh_step", p.M)]
    return fields, dict(size=3, runs=[(0, 1)], frames=2, calls=calls, sum_of=0)


def import_closed_over_refresh(p):
    """An opening closes the import and leaves the refresh where it is."""
    fields, made = over_refresh(p)
    return dict(made, **fields)


def import_over_refresh(p):
    """The import is finished; no opening leads here."""
    fields, made = over_refresh(p)
    return dict(made, state=fields)


def direct_in_import(p):
    """Refused while the import is open, but for the empty write; accepted once it is closed, by a cancel and by 24."""
    size = 3 if 2 * p.S + 5 <= p.M else 0
    calls = [("import_begin", 5, 0), ("write", 1, [9]), ("truncate", size), ("write", p.M, [7, 8]), ("write", p.M, []), ("import_chunk", 0, [5, 6]),
             ("write", 1, [9]), ("import_cancel",), ("write", 1, [9]), ("import_begin", 0, 0), ("truncate", 0), ("import_finish",), ("truncate", 0)]
    return dict(size=size, runs=[], frames=2, calls=calls)


def moved_up(p):
    """A page past the count is dropped by a growth that loaded another one; the place left over becomes zeros."""
    calls = [("begin", False, 0, 0), ("write", 0, byte_list(3 * p.P + 1)), ("truncate", p.P + 1), ("read", 0, [6] * (p.P + 1)), ("commit",)]
    return dict(size=0, runs=[], frames=[1, 1, 3, 3, 3], calls=calls)


def past_all_numbers(p):
    """An import whose end is no number; no image accepted at opening has one."""
    calls = [("import_begin", 2, 3), ("import_chunk", 0, [5]), ()]
    rest = p.M - 2 * p.S - 1
    calls += [("import_chunk", 1, byte_list(rest + 1)), ("import_chunk", 1, [])] if p.M < 100 and rest >= 0 else []
    return dict(size=1, runs=[], frames=1, calls=calls)


def growth_first(p):
    """The whole growth is added before the record's parts of it."""
    runs = [(8, 9), (20, 21), (30, 31), (40, 41), (50, 51), (60, 61)][:p.L]
    return dict(size=5 * p.P, runs=runs, frames=1, calls=[("begin", False, 0, 0), ("truncate", 6 * p.P), ("truncate", 8 * p.P), ("commit",)])


def cut_first(p):
    runs = [(4, 5), (20, 21), (30, 31), (40, 41), (50, 51), (60, 61)][:p.L]
    return dict(size=8 * p.P, runs=runs, frames=1, calls=[("begin", False, 0, 0), ("truncate", 7 * p.P), ("truncate", 5 * p.P), ("commit",)])


SCENES = [unmerged_record, far_dirty, left_in_old_page, left_in_new_page, all_pages, cached_then_written, at_the_end_of_numbers, both_open,
          import_closed_over_refresh, import_over_refresh, direct_in_import, moved_up, past_all_numbers, growth_first, cut_first]
