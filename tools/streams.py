"""Streams of jobs: for each a line `job=INDEX KIND BYTES`, then exactly that many bytes. tools/jobs prints one, and
the model and the oracle read one with --batch and print one of answers."""
import itertools
import subprocess

from begin import build


def parts(stream):
    """(kind, bytes) of each part."""
    at = 0
    while at < len(stream):
        end = stream.index(b"\n", at)
        _, kind, length = stream[at:end].decode().split(" ")
        at = end + 1 + int(length)
        yield kind, stream[end + 1:at]


def generated(number, seed, *kind):
    """The jobs of tools/jobs, as (kind, text)."""
    command = ["tools/jobs", str(number), str(seed), *kind]
    return list(parts(subprocess.run(command, check=True, stdout=subprocess.PIPE).stdout))


def batch(command, jobs, **more):
    """The answers of a program to all jobs."""
    stream = b"".join(f"job={i} {kind} {len(text)}\n".encode() + text for i, (kind, text) in enumerate(jobs))
    answers = subprocess.run(command, input=stream, check=True, stdout=subprocess.PIPE, **more).stdout
    answers = [answer for _, answer in parts(answers)]
    assert len(answers) == len(jobs), f"{command}: {len(answers)} answers to {len(jobs)} jobs"
    return answers


def number_of(listing):
    """The number N of a listing that begins with answer=N."""
    return int(listing.split(b"\n", 1)[0].removeprefix(b"answer="))


def values(listing):
    """The values of a listing's lines by key, in order."""
    found = {}
    for line in listing.decode().split("\n")[:-1]:
        key, _, value = line.partition("=")
        found.setdefault(key, []).append(value)
    return found


def owed(jobs, originals=None):
    """The listings that the jobs are owed: the unmodified Rust's field and pops (with Normal signs those of the Rust with the queue's order of
    document 02, §8, put in), rows that the oracle counts off that field along the upright axis in the job's edition of the table, and the model's
    number, peak, grazed and names (the Rust says nothing of a ray that grazes; tools/grazed-check counts them once more). Where two speak they must agree. With `originals`
    the jobs are conversions of these, and the Rust is given the originals: it still takes strips. Builds the oracle and the model."""
    build("tools/oracle/build")
    build("tools/model/build")
    model = batch(["build/model/model", "--batch"], jobs)
    rust = batch(["build/oracle/oracle", "--batch"], jobs if originals is None else originals)
    return [joined(ours, theirs) for ours, theirs in zip(model, rust)]


def converted(jobs, *more):
    """What the converter owes the jobs' texts, by the model, as (converted-KIND, bytes). With "--large" the old limits are lifted. Builds
    the model."""
    build("tools/model/build")
    answers = batch(["build/model/model", "--batch", "--convert", *more], jobs)
    return [(f"converted-{kind}", answer) for (kind, _), answer in zip(jobs, answers)]


def tidied(jobs, *more):
    """What the tidier owes the jobs' texts (document 02, §10), by the model. With "--large" the job program's limits are lifted. Builds the
    model."""
    build("tools/model/build")
    return batch(["build/model/model", "--batch", "--tidy", *more], jobs)


def without_changes(printed):
    """The tidied job alone of what the tidier printed: what follows the lines of what went."""
    lines = printed.split(b"\n")
    gone = sum(1 for _ in itertools.takewhile(lambda line: line.startswith((b"merge=", b"drop=")), lines))
    return b"\n".join(lines[gone:])


def strips(jobs):
    """Those of the jobs that are strips which the converter can read, and what it owes them."""
    pairs = [(old, new) for old, new in zip(jobs, converted(jobs)) if new[1] not in (old[1], b"answer=9\n")]
    return [old for old, _ in pairs], [new for _, new in pairs]


def stored(path):
    """(kind, text, bytes owed) of each part of a stored sample."""
    with open(path, "rb") as file:
        stream = file.read()
    at = 0
    while at < len(stream):
        end = stream.index(b"\n", at)
        _, kind, text, owed_to_it = stream[at:end].decode().split(" ")
        middle = end + 1 + int(text)
        at = middle + int(owed_to_it)
        yield kind, stream[end + 1:middle], stream[middle:at]


def stream_of(answered):
    """The bytes of a stored sample: for each (kind, text, bytes owed) a line `job=INDEX KIND TEXTBYTES OWEDBYTES`, then both."""
    lines = (f"job={n} {kind} {len(text)} {len(owes)}\n".encode() + text + owes for n, (kind, text, owes) in enumerate(answered))
    return b"".join(lines)


def joined(model, rust):
    """One listing of the model's and the Rust's."""
    if number_of(model) != 0:
        return model
    ours, theirs = values(model), values(rust)
    assert ours["pops"] == theirs["steps"]
    names = [cell.rsplit(" ", 1) for cell in ours["cell"]]
    assert [cell for cell, _ in names] == theirs["cell"]
    lines = ["answer=0", "pops=" + theirs["steps"][0], "peak=" + ours["peak"][0], "grazed=" + ours["grazed"][0]]
    lines += [f"cell={cell} {name}" for cell, (_, name) in zip(theirs["cell"], names)]
    assert ours["row"] == theirs["row"]
    lines += ["row=" + row for row in theirs["row"]]
    return "".join(line + "\n" for line in lines).encode()


def first_difference(printed, owes):
    """The first line in which they differ, in words."""
    ours, theirs = printed.split(b"\n"), owes.split(b"\n")
    line = next((n for n, pair in enumerate(zip(ours, theirs)) if pair[0] != pair[1]), min(len(ours), len(theirs)))
    return f"line {line + 1}: printed {ours[line:line + 1]}, owed {theirs[line:line + 1]}"
