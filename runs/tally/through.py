"""Lines through target/replay, and what came out held to what is due."""
import itertools
import os
import subprocess
import sys

TOP = os.path.dirname(os.path.dirname(os.path.dirname(os.path.abspath(__file__))))
PROGRAM = os.path.join(TOP, "target", "replay")
KEPT = os.path.join(TOP, "target", "tally")


def run(command, lines):
    """What a command writes when it is given the lines."""
    if not os.path.exists(command[0]):
        sys.exit(f"FAILED: no {command[0]}")
    done = subprocess.run(command, input="".join(line + "\n" for line in lines), stdout=subprocess.PIPE, text=True)
    if done.returncode:
        sys.exit(f"FAILED: {command[0]} ended with {done.returncode}")
    return done.stdout.splitlines()


def replay(lines):
    return run([PROGRAM], lines)


def same(name, lines, want, got):
    """Ends the run at the first line that differs; the calls and both answers stay in target/tally."""
    if want == got:
        return
    os.makedirs(KEPT, exist_ok=True)
    for kind, text in (("calls", lines), ("want", want), ("got", got)):
        with open(os.path.join(KEPT, f"{name}.{kind}"), "w") as file:
            file.writelines(line + "\n" for line in text)
    for i, (w, g) in enumerate(itertools.zip_longest(want, got), 1):
        if w != g:
            sys.exit(f"FAILED: line {i} of the answers is {g!r}, due is {w!r} (target/tally/{name}.calls, .want, .got)")
