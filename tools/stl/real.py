"""Files of real programs: openscad, gmsh and admesh make them, and admesh reads ours. Nothing here judges the library.

What the versions of Debian 12 write: openscad 2021.01 ASCII STL, or binary if it is told so (--export-format binstl);
gmsh 4.8.4 ASCII, or binary (-bin); admesh 0.98.4 either (-a, -b), of either. openscad may list the facets of a union in
another order from run to run, and what admesh repairs of it then has a few facets more or less."""
import os
import re
import shutil
import subprocess

from stl import plain

PROGRAMS = ["admesh", "gmsh", "openscad"]  # The packages have the same names.
SHAPES = "tools/stl/shapes"
SCAD = ["examples/tank.scad"] + [f"{SHAPES}/{name}.scad" for name in ("cube", "sphere", "nut")]
GEO = [f"{SHAPES}/{name}.geo" for name in ("cylinder", "tank", "ball")]


def missing():
    return [program for program in PROGRAMS if not shutil.which(program)]


def run(*command):
    """Runs a program that must end well. With a limit of time: admesh never ends on a file that it misunderstands."""
    done = subprocess.run(command, capture_output=True, text=True, errors="replace", timeout=120)
    if done.returncode:
        raise RuntimeError(f"{' '.join(command)} ended with {done.returncode}: {done.stderr.strip()}")
    return done


def make(folder):
    """Makes every shape with every program that can, below the folder. The binary files, as (maker, path)."""
    made = []

    def path(name):
        return os.path.join(folder, name)

    def binary(maker, name):
        made.append((maker, path(name)))
        return path(name)

    for shape in SCAD:
        name = os.path.basename(shape)[: -len(".scad")]
        run("openscad", "--export-format", "binstl", "-o", binary("openscad", f"openscad-{name}.stl"), shape)
        ascii = path(f"openscad-{name}-ascii.stl")
        run("openscad", "--export-format", "asciistl", "-o", ascii, shape)
        run("admesh", "-b", binary("admesh", f"openscad-{name}-admesh.stl"), ascii)
    for shape in GEO:
        name = os.path.basename(shape)[: -len(".geo")]
        run("gmsh", "-2", "-bin", "-format", "stl", "-o", binary("gmsh", f"gmsh-{name}.stl"), shape)
        ascii = path(f"gmsh-{name}-ascii.stl")
        run("gmsh", "-2", "-format", "stl", "-o", ascii, shape)
        run("admesh", "-c", "-b", binary("admesh", f"gmsh-{name}-admesh.stl"), ascii)

    # Repairs and movements, of files with every seventh facet gone: admesh checks, fills the holes and turns what is
    # turned the wrong way round.
    for maker, whole in list(made):
        name = os.path.basename(whole)[: -len(".stl")]
        with open(whole, "rb") as file:
            patterns = plain.corners(file.read())
        open_one = path(f"{name}-open.stl")
        with open(open_one, "wb") as file:
            kept = [p for k in range(len(patterns) // 9) if k % 7 for p in patterns[9 * k : 9 * k + 9]]
            file.write(plain.file_of(kept))
        run("admesh", "-b", binary("admesh", f"{name}-repaired.stl"), open_one)
        run("admesh", "--x-rotate=17", "--z-rotate=-31", "--scale=0.37", "--reverse-all", "-b",
            binary("admesh", f"{name}-moved.stl"), whole)
    return made


def admesh_can_read(file):
    """admesh takes a file for binary only if one of the 128 bytes behind the head is above 127. Another it reads as
    ASCII, and where it is none never ends. Of fewer than four facets it says that the file 'has the wrong size', or that
    it 'is an empty file'."""
    return len(file) >= plain.HEAD + 4 * plain.RECORD and max(file[plain.HEAD : plain.HEAD + 128]) > 127


def admesh_reads(path, back):
    """What admesh makes of a file: its complaint, or '', and the corners that it read, as it writes them back to the path
    `back`. It changes nothing itself (-c).

    What it says of damaged files, tried on one of 12 facets: with a byte more or with half a facet less it ends with 1 and
    'The file .. has the wrong size'; with a wrong count, or with 50 bytes more, it ends with 0 but warns on standard error
    'File size doesn't match number of facets in the header'. A corner that has moved it cannot know: hence the corners."""
    if os.path.exists(back):
        os.remove(back)
    done = subprocess.run(["admesh", "-c", "-b", back, path], capture_output=True, text=True, errors="replace", timeout=120)
    if done.returncode or done.stderr:
        return f"status {done.returncode}: {done.stderr.strip()}", None
    if not re.search(r"^File type +: Binary STL file$", done.stdout, re.M):
        return "taken for another kind of file", None
    with open(back, "rb") as file:
        return "", plain.corners(file.read())
