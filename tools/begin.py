"""Read by the tools that are Python scripts: what tools/begin.sh is for the others."""
import os
import subprocess
import sys


def words(doc, least, most, of=None):
    """The words that a tool was given: so many, and of these if it says which. `-h` prints what the tool is."""
    given = sys.argv[1:]
    if given[:1] in (["-h"], ["--help"]):
        print(doc)
        sys.exit()
    if not os.path.exists("crates.txt"):
        end(f"{sys.argv[0]}: run this in the repository's root")
    if not least <= len(given) <= most or of is not None and any(word not in of for word in given):
        end("usage: " + doc.split(":")[0])
    return given


def end(why):
    """Ends with 2: a wrong use, or something missing."""
    print(why, file=sys.stderr)
    sys.exit(2)


def build(tool, *given):
    """Runs a tool that builds something. Where it cannot, it has said why, and its status is this tool's."""
    status = subprocess.run([tool, *given], stdout=sys.stderr).returncode
    if status:
        sys.exit(status)
