"""A generated night, run by the program and counted apart, and two nights held to one another byte for byte."""
import collections
import os
import subprocess
import sys

HERE = os.path.dirname(os.path.abspath(__file__))
TOP = os.path.dirname(os.path.dirname(HERE))
# the program, or another in its place
NIGHT = os.environ.get("NIGHT", os.path.join(TOP, "night")).split()
LOG = "log"


# a command's status, standard output and standard error
Done = collections.namedtuple("Done", "status out err")


def run(command, folder):
    ran = subprocess.run(command, cwd=folder, stdout=subprocess.PIPE, stderr=subprocess.PIPE)
    return Done(ran.returncode, ran.stdout, ran.stderr)


def generated(seed, count, folder, *kinds):
    """The names of the programs, which are in the folder then."""
    subprocess.run([os.path.join(HERE, "generate"), str(seed), str(count), folder, *kinds], check=True)
    with open(os.path.join(folder, "names")) as file:
        return file.read().splitlines()


def words(tolerances, out, names):
    return ["--tolerances", tolerances, "--out", out, *names]


def night(folder, tolerances, out, names):
    return run(NIGHT + words(tolerances, out, names), folder)


def counted(folder, tolerances, out, names):
    done = run([os.path.join(HERE, "count")] + words(tolerances, out, names), folder)
    if done.err:
        sys.exit(f"FAILED: count: {done.err.decode()}")
    return done


def files(folder):
    return sorted(name for name in os.listdir(folder) if name != LOG)


def contents(folder, name):
    with open(os.path.join(folder, name), "rb") as file:
        return file.read()


def first_line(due, got):
    """Where two texts differ."""
    for number, (a, b) in enumerate(zip(due.split(b"\n") + [b"(end)"], got.split(b"\n") + [b"(end)"]), 1):
        if a != b:
            return f"line {number} is {b[:200]!r}, due is {a[:200]!r}"
    return f"{len(got)} bytes, due are {len(due)}"


def differences(due_dir, due, got_dir, got):
    """What of a night is not as the other: files, their bytes, standard output, status. `due` and `got` have the latter two."""
    due_names, got_names = files(due_dir), files(got_dir)
    yield from (f"{name} is missing" for name in due_names if name not in got_names)
    yield from (f"{name} is there and is not due" for name in got_names if name not in due_names)
    for name in due_names:
        if name in got_names:
            a, b = contents(due_dir, name), contents(got_dir, name)
            if a != b:
                yield f"{name}: {first_line(a, b)}"
    if due.out != got.out:
        yield f"standard output: {first_line(due.out, got.out)}"
    if due.status != got.status:
        yield f"status {got.status}, due is {due.status}; standard error: {got.err[-300:]!r}"


def hold(what, due_dir, due, got_dir, got):
    """Ends the run where they differ."""
    found = list(differences(due_dir, due, got_dir, got))
    for line in found[:20]:
        print(f"{what}: {line}")
    if found:
        sys.exit(f"FAILED: {what}: {len(found)} differences ({due_dir} and {got_dir})")
