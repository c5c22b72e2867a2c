#!/usr/bin/env python3
"""What tools/try-programs.sh looks at with more than a shell. Each prints one line: what was found, or what is wrong.

    try-programs.py rows TABLE COUNTS FRAMES EDITION
                                                 the table of `soundings` through a reader of CSV; COUNTS is what --count said, FRAMES the input;
                                                 the standard input has the refusals, a number and a name a line
    try-programs.py short NAME INPUT OUTPUT      a run whose writes are cut short; OUTPUT gets what came out
    try-programs.py examples NAME FILE           the examples of a text, each run
"""
import csv
import fcntl
import os
import re
import signal
import subprocess
import sys
import time

from shown import shown

root = os.path.dirname(os.path.dirname(os.path.abspath(__file__)))
NAMES = ["frame", "station", "launch", "level", "pressure_pa", "temperature_c", "dewpoint_depression_c", "refusal"]
SECOND = ["wind_speed_ms", "wind_direction_deg", "grade"]
GRADES = ["Canonical", "HasExtensions", "NotCanonical"]


def rows(table, counts, frames, edition):
    refusals = {name: "NO " + number for number, name in (line.split() for line in sys.stdin)}
    wanted = NAMES[:-1] + (SECOND if edition == "2" else []) + NAMES[-1:]
    grades = GRADES if edition == "2" else [None]
    with open(table, newline="") as f:
        names, *body = csv.reader(f, strict=True)
    if names != wanted:
        return f"the first row is {names}"
    frame_of, kinds, counted = {}, set(), {}
    for row in body:
        if len(row) != len(names):
            return f"{len(row)} cells, where the first row has {len(names)}: {row}"
        frame_of.setdefault(int(row[0]), []).append(dict(zip(names, row)))
    with open(frames, "rb") as f:
        last = len(f.read().removesuffix(b"\n").split(b"\n"))
    if list(frame_of) != list(range(1, last + 1)):
        return f"frames that are missing or out of order: {set(range(1, last + 1)) ^ set(frame_of)}"
    for n, of in frame_of.items():
        first = of[0]
        if first["refusal"]:
            kind = first["refusal"] if first["refusal"] in ("LONG", "HEX") else "refused"
            verdict = refusals.get(first["refusal"], first["refusal"])
            right = len(of) == 1 and not any(first[x] for x in wanted[1:-1]) and (kind != "refused" or first["refusal"] in refusals)
        elif first["level"]:
            kind, verdict = "levels", "OK"
            right = all(
                row["level"] == str(i + 1) and row["pressure_pa"] and not row["refusal"] and all(row[x] == first[x] != "" for x in ("station", "launch"))
                and row.get("grade") == first.get("grade") in grades
                for i, row in enumerate(of)
            )
        else:
            kind, verdict = "no level", "OK"
            right = len(of) == 1 and first["station"] and first["launch"] and first.get("grade") in grades
            right = right and not any(first[x] for x in wanted[3:] if x != "grade")
        if not right:
            return f"frame {n} has the rows {of}"
        kinds.add(kind)
        counted[verdict] = counted.get(verdict, 0) + 1
    with open(counts) as f:
        said = {what: int(n) for n, what in (line.strip().split(" ", 1) for line in f)}
    if said.pop("frames") != last or said != counted:
        return f"--count said {said}, and the table has {counted}"
    return ", ".join(sorted(kinds))


def program_below(pid, name):
    """The program itself, below the script that runs it."""
    folder = os.environ.get("CAPGAUZE_PROGRAMS") or f"{root}/target/bin"
    while True:
        for p in filter(str.isdigit, os.listdir("/proc")):
            try:
                with open(f"/proc/{p}/cmdline", "rb") as f:
                    words = f.read().split(b"\0")
                with open(f"/proc/{p}/stat") as f:
                    above = int(f.read().rsplit(")", 1)[1].split()[1])
                with open(f"/proc/{above}/stat") as f:
                    higher = int(f.read().rsplit(")", 1)[1].split()[1])
            except OSError:
                continue
            if words[0] == f"{folder}/{name}".encode() and pid in (above, higher):
                return int(p)
        time.sleep(0.01)


def writes_of(pid):
    with open(f"/proc/{pid}/io") as f:
        return int(re.search(r"^syscw: (\d+)", f.read(), re.M)[1])


def run_through_pipe(name, source, output, cut):
    """A reader that takes a little at a time from a small pipe. Where `cut`, the program is stopped while a write of it waits for room: the
    system then answers how much was taken so far, which is less than all. Answers its status, how many writes it made, and how many stops."""
    r, w = os.pipe()
    fcntl.fcntl(w, fcntl.F_SETPIPE_SZ, 4096)
    child = subprocess.Popen([f"{root}/{name}", source], stdout=w)
    os.close(w)
    pid, stops, writes, turn = program_below(child.pid, name), 0, 0, 0
    with open(output, "wb") as out:
        while True:
            turn += 1
            if cut and turn % 3 == 0:
                time.sleep(0.002)
                try:
                    os.kill(pid, signal.SIGSTOP)
                    time.sleep(0.001)
                    os.kill(pid, signal.SIGCONT)
                    stops += 1
                except OSError:
                    pass
            some = os.read(r, 1 + turn * 37 % 900)
            if not some:
                break
            out.write(some)
            try:
                writes = writes_of(pid)
            except OSError:
                pass
    return child.wait(), writes, stops


def short(name, source, output):
    whole, few, _ = run_through_pipe(name, source, output + ".whole", False)
    status, many, stops = run_through_pipe(name, source, output, True)
    print(f"{few} writes where none is stopped, {many} with {stops} stops", file=sys.stderr)
    with open(output + ".whole", "rb") as f, open(output, "rb") as g:
        same = f.read() == g.read()
    return f"status {whole} {status}, {'the same' if same else 'other'} bytes, {'more' if few < many else 'no more'} writes"


def examples(name, path):
    with open(path) as f:
        commands = [(command, wanted) for command, wanted in shown(f.read()) if re.search(rf"\b{name}\b", command)]
    for command, wanted in commands:
        ran = subprocess.run(["bash", "-c", command], cwd=root, env={**os.environ, "PATH": f"{root}:{os.environ['PATH']}"}, stdout=subprocess.PIPE)
        got = ran.stdout.decode().split("\n")[:-1]
        if got != wanted:
            return f"'{command}' prints {got}, and {path} has {wanted}"
    return "right" if commands else "no example"


print({"rows": rows, "short": short, "examples": examples}[sys.argv[1]](*sys.argv[2:]))
