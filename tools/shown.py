"""The commands that a text shows, each with the output that it shows below it: a line that begins with `$`, and the lines of its block behind it."""
import re


def shown(text):
    """A command and the lines of its output, one pair for each. In an indented block they begin as the command does. A man page's macro ends them."""
    lines = text.split("\n")
    for i, line in enumerate(lines):
        m = re.match(r"(\s*)\$ (.*)$", line)
        if not m:
            continue
        wanted = []
        for behind in lines[i + 1:]:
            told = behind[len(m[1]):]
            if not behind.startswith(m[1]) or told == "" or told.startswith(("$", ".", "```")) or m[1] and told[0] == " ":
                break
            wanted.append(told)
        yield m[2], wanted
