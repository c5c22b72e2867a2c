#!/usr/bin/env python3
"""Runs what the READMEs show: each C and Rust snippet is compiled and run, and each command (`$ ..`) must print what stands below it. By hand: it is no
part of the gate. Ends in 'N right, M wrong', with status 1 if one is wrong.

    tools/try-readme.py [FILE..]     README.md, bindings/README.md and bindings/rust/README.md, where none is named

First ./install puts all into a folder of its own, so that pkg-config finds it; CAPGAUZE_ARCHIVE and CAPGAUZE_PROGRAMS name what is proved already. A
snippet in C is example.c, and commands that name it run where it lies; all others run in the folder of the text. Run elsewhere: Python's snippets and
its command `capgauze`, by the tests of bindings/python, and the Rust ones of bindings/rust/README.md, by cargo.
"""
import os
import re
import subprocess
import sys
import tempfile

from shown import shown

root = os.path.dirname(os.path.dirname(os.path.abspath(__file__)))
right = wrong = 0


def run(command, folder, env):
    ran = subprocess.run(command, cwd=folder, env=env, stdout=subprocess.PIPE, stderr=subprocess.PIPE, text=True)
    return ran.returncode, ran.stdout, ran.stderr


def judge(what, wanted, got):
    global right, wrong
    if wanted == got:
        right += 1
    else:
        wrong += 1
        print(f"WRONG {what}\n  wanted: {wanted!r}\n  got:    {got!r}")


def pieces(text):
    """Fences with their language, and what stands between them, in their order."""
    for i, part in enumerate(re.split(r"^```", text, flags=re.M)):
        language, _, body = part.partition("\n")
        yield (language.strip() or "text", body) if i % 2 else ("text", part)


def try_c(name, snippet, room, env):
    """Compiled as the header asks of C; what it prints is shown by a command behind it."""
    with open(f"{room}/example.c", "w") as f:
        f.write(snippet)
    flags = subprocess.check_output(["pkg-config", "--cflags", "--libs", "capgauze"], env=env, text=True).split()
    warnings = ["-std=c99", "-Wall", "-Wextra", "-Werror"]
    judge(f"{name}: C, compiled", (0, ""), run(["gcc", *warnings, "example.c", *flags, "-o", "example"], room, env)[::2])


def try_rust(name, snippet, room, env):
    """As the body of `main`, in a package of its own."""
    os.makedirs(f"{room}/rust/src", exist_ok=True)
    with open(f"{room}/rust/Cargo.toml", "w") as f:
        f.write(f'[package]\nname = "shown"\nedition = "2021"\n[dependencies]\ncapgauze = {{ path = "{root}/bindings/rust" }}\n')
    with open(f"{room}/rust/src/main.rs", "w") as f:
        f.write(f"fn main() -> Result<(), Box<dyn std::error::Error>> {{\n{snippet}Ok(())\n}}\n")
    judge(f"{name}: Rust", (0, ""), run(["cargo", "run", "--quiet", "--offline"], f"{room}/rust", env)[::2])


def try_commands(name, text, folder, room, env):
    for command, wanted in shown(text):
        if command.startswith("capgauze "):
            continue
        where = room if re.search(r"\bexample\.c\b|\./example\b", command) else folder
        status, out, err = run(["bash", "-c", command], where, env)
        judge(f"{name}: {command}", (0, "".join(line + "\n" for line in wanted), ""), (status, out, err))


def try_file(name, room, env):
    tried = {"c": 0, "rust": 0, "commands": 0}
    with open(f"{root}/{name}") as f:
        text = f.read()
    for language, body in pieces(text):
        if language == "c":
            try_c(name, body, room, env)
        elif language == "rust" and name != "bindings/rust/README.md":
            try_rust(name, body, room, env)
        elif language in ("text", "console"):
            language = "commands"
            before = right + wrong
            try_commands(name, body, os.path.dirname(f"{root}/{name}"), room, env)
            tried[language] += right + wrong - before
            continue
        else:
            continue
        tried[language] += 1
    print(f"{name}: " + ", ".join(f"{n} {what}" for what, n in tried.items()))
    return tried


with tempfile.TemporaryDirectory() as room:
    prefix = f"{room}/prefix"
    subprocess.run([f"{root}/install", "--prefix", prefix], stdout=subprocess.DEVNULL, check=True)
    env = {**os.environ, "PKG_CONFIG_PATH": f"{prefix}/lib/pkgconfig", "CARGO_TARGET_DIR": f"{room}/target"}
    env.setdefault("CAPGAUZE_ARCHIVE", f"{prefix}/lib/libcapgauze.a")
    files = sys.argv[1:] or ["README.md", "bindings/README.md", "bindings/rust/README.md"]
    counts = [try_file(name, room, env) for name in files]
    for what in counts[0]:
        judge(f"something of each kind is shown: {what}", True, any(count[what] for count in counts))
print(f"{right} right, {wrong} wrong")
sys.exit(wrong != 0)
