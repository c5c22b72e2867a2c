#!/usr/bin/env python3
"""table.py LOADS TIMES COUNTS: one table of what the driver and the counter wrote; either of the last two may be empty."""
import sys

KINDS = ["read", "write", "prepend", "measure", "sounding", "graded", "pick", "pick_at", "indexed", "make_index",
         "read_run", "write_run", "correct", "correct_end", "replace", "put_take", "pack", "floor"]
OURS = "OURS"
SAME = ["rust-same", "c-same:gcc", "c-same:clang"]  # the ratios that the goals are about
PASS_ONE = "read", "OURS-pass-one"
PICK = "indexed", "OURS-pick"  # of the same tag
READ = "read", OURS
SOUNDING = "sounding", OURS
COPIES = [("floor", "OURS-copy"), ("floor", "memcpy")]


def rows(path):
    for line in open(path):
        label, *numbers = line.split()
        yield tuple(label.split("/")), [float(number) for number in numbers]


def main(loads, times, counts):
    size = {name: numbers for (name,), numbers in rows(loads)}
    best, worst, median, count = {}, {}, {}, {}
    for key, (low, middle) in rows(times):
        best[key] = min(best.get(key, low), low)
        worst[key] = max(worst.get(key, low), low)
        median[key] = min(median.get(key, middle), middle)
    for key, (total, reps) in rows(counts):
        count[key] = total / reps
    keys = {**best, **count}
    jobs = sorted(dict.fromkeys(key[:2] for key in keys), key=lambda job: (KINDS.index(job[0]), job[1] != OURS))
    shown = [name for name in size if any(key[2] == name for key in keys)]

    def line(head, cells):
        print(f"{head:<18}" + "".join(f"{cell:>11}" for cell in cells))

    def part(title, cell, digits, only=lambda kind, peer: True):
        print(f"\n{title}")
        last = None
        for kind, peer in (job for job in jobs if only(*job)):
            if kind != last:
                print(f"-- {kind}")
                last = kind
            numbers = [cell((kind, peer, name)) for name in shown]
            line(peer, ("." if number is None else f"{number:.{digits(number)}f}" for number in numbers))

    def whole(number):
        return 1 if number < 1000 else 0

    def over(numbers, others):
        return lambda key: numbers[key] / others(key) if key in numbers and others(key) else None

    def longer(numbers):
        """Of a load with a + behind its name: its cost a byte over that of the one without."""
        a_byte = over(numbers, length)

        def cell(key):
            other = (*key[:2], key[2][:-1])
            return a_byte(key) / a_byte(other) if key[2].endswith("+") and key in numbers and other in numbers else None
        return cell

    line("load", shown)
    for i, title in enumerate(("bytes", "protobuf bytes", "fields")):
        line(title, (f"{size[name][i]:.0f}" for name in shown))
    fields = lambda key: size[key[2]][2]
    length = lambda key: size[key[2]][key[1].startswith("pb-")]
    ours = lambda kind, peer: peer == OURS
    for what, numbers, digits in (("nanoseconds", best, 2), ("instructions", count, 1)):
        if not numbers:
            continue
        part(f"{what} a message", numbers.get, whole)
        part(f"{what} a field", over(numbers, fields), lambda _: digits)
        part(f"{what} a byte", over(numbers, length), lambda _: 3)
        part(f"{what} a byte: a load of 1 MB over the same kind of 64 KB", longer(numbers), lambda _: 2,
             lambda kind, peer: peer in (OURS, *SAME) or kind == "floor")
        for same in SAME:
            part(f"{what}: ours over the same job by {same}",
                 over(numbers, lambda key: numbers.get((key[0], same, key[2]))), lambda _: 2, ours)
        part(f"{what}: our lookups over pass one",
             over(numbers, lambda key: numbers.get((*PASS_ONE, key[2]))), lambda _: 2,
             lambda kind, peer: ours(kind, peer) and kind.startswith("pick"))
        for title, other, of in (("our lookup through an index over pick", PICK, "indexed"),
                                 ("the second edition over the first, of a sounding", SOUNDING, "graded"),
                                 ("making an index over reading into a table", READ, "make_index")):
            part(f"{what}: {title}", over(numbers, lambda key: numbers.get((*other, key[2]))), lambda _: 3,
                 lambda kind, peer: ours(kind, peer) and kind == of)
        for other in COPIES:
            part(f"{what}: our corrections over {other[1]}",
                 over(numbers, lambda key: numbers.get((*other, key[2]))), lambda _: 2,
                 lambda kind, peer: ours(kind, peer) and kind.startswith("correct"))
    if best:
        part("layout: the worst layout's best over the best", over(worst, best.get), lambda _: 2)
        part("noise: median over best", over(median, best.get), lambda _: 2)


main(*sys.argv[1:])
