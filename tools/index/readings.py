"""The wrong readings of the index that says which cells a facet serves (document 02, §12): edits of tools/index/plain.rs. tools/model/wrong-readings
counts how many calls of crates/replay_index/stdin show each.

Two cannot show, since a stored call has at most 64 words in each slice: how many names there may be, and that over slices of the right lengths
131,073 triangles are 3 too. tools/index-check shows both, and what stands around the slices, which is no reading here."""
import os
import shutil
import struct
import subprocess

FOLDER = "crates/replay_index"
SOURCE = "tools/index"

# What the readings are edits of: what an index is, what each refusal asks, where it stands, and what is left.
LISTED = "        index.list.extend(cells);\n"
STARTED = "        index.starts.push(index.list.len() as u32);\n        index.list.extend(cells);\n"
ENDED = "    index.starts.push(index.list.len() as u32);\n    index.list.resize"
TAIL = "    index.list.resize(names.len(), NONE);\n"
NAMED = "        if name != NONE {\n"
PUSHED = "cells_of[name as usize].push(cell as u32);"
DONE = "        0 => (0, index_of(call.triangles, &call.names)),\n"
LEFT = "        number => (number, call.lent.clone()),\n"
TOO_MANY = "    if call.triangles > MOST_TRIANGLES {\n        return 3;\n    }\n"
LENGTHS = "    if wrong_lengths(call) {\n        return 15;\n    }\n"
EACH = "call.old.iter().flatten().chain(&call.names)"
UNKNOWN = "    if " + EACH + ".any(|&name| !known(call.triangles, name)) {\n        return 4;\n    }\n"
STALE = "        Some(old) if call.lent != index_of(call.triangles, old) => 18,\n"
KNOWN = "    name < triangles || name == NONE\n"
STARTS_LONG = "    call.lent.starts.len() != call.triangles as usize + 1\n"
MANY_NAMES = "        || names > MOST_NAMES\n"
LIST_LONG = "        || call.lent.list.len() != names\n"
OLD_LONG = "        || call.old.as_ref().is_some_and(|old| old.len() != names)\n"
PART = "        (Some(from), Some(to)) => index.list.get(from..to).unwrap_or(&[]),\n"
# Names that are not known are passed over, where a reading lets them through.
PASSED_OVER = (NAMED, "        if name < triangles {\n")
# 18 before another refusal: where an old name is not known, the index is none of these names.
STALE_EARLY = ("    if call.old.as_ref().is_some_and(|old| {\n"
               "        old.iter().any(|&name| !known(call.triangles, name)) || call.lent != index_of(call.triangles, old)\n"
               "    }) {\n        return 18;\n    }\n")


def stale(test):
    """The line of 18 with another test, of the lent index and that of the old names."""
    return (STALE, f"        Some(old) if {{\n            let (lent, right) = (&call.lent, index_of(call.triangles, old));\n            {test}\n        }} => 18,\n")


def refused(number, edit):
    """What a refusal by one number leaves, as an edit of the index that was lent."""
    return (LEFT, f"        {number} => {{\n            let mut left = call.lent.clone();\n            {edit}\n            ({number}, left)\n        }}\n{LEFT}")


READINGS = [
    # What an index is.
    ("a facet's cells descend", (LISTED, "        index.list.extend(cells.iter().rev());\n")),
    ("cells are counted from 1", (PUSHED, "cells_of[name as usize].push(cell as u32 + 1);")),
    ("a cell stands under the facet behind its own", (PUSHED, "cells_of[(name as usize + 1) % triangles as usize].push(cell as u32);")),
    ("a facet's first cell alone stands under it", (LISTED, "        index.list.extend(cells.iter().take(1));\n")),
    ("a facet's last cell alone stands under it", (LISTED, "        index.list.extend(cells.last());\n")),
    ("facets come from the last to the first", ("for cells in &cells_of {", "for cells in cells_of.iter().rev() {")),
    ("cells with none named stand in the tail", (TAIL, "    let nowhere: Vec<u32> = (0..names.len() as u32).filter(|&cell| names[cell as usize] == NONE).collect();\n    index.list.extend(nowhere);\n")),
    ("cells with none named stand under the last facet",
     (NAMED, "        if name == NONE && triangles > 0 {\n            cells_of[triangles as usize - 1].push(cell as u32);\n        } else if name != NONE {\n")),
    ("the tail is zero", (TAIL, TAIL.replace("NONE", "0"))),
    ("the tail is 4,294,967,294", (TAIL, TAIL.replace("NONE", "NONE - 1"))),
    ("the tail is the number of cells", (TAIL, TAIL.replace("NONE", "names.len() as u32"))),
    ("the tail begins with 4,294,967,295 alone",
     (TAIL, "    if index.list.len() < names.len() {\n        index.list.push(NONE);\n    }\n" + TAIL.replace("NONE", "0"))),
    ("the tail is left as it was lent",
     (DONE, "        0 => {\n            let mut made = index_of(call.triangles, &call.names);\n            let end = made.starts[call.triangles as usize] as usize;\n"
            "            made.list[end..].copy_from_slice(&call.lent.list[end..]);\n            (0, made)\n        }\n")),
    ("starts are ends", (STARTED, "        index.list.extend(cells);\n        index.starts.push(index.list.len() as u32);\n")),
    ("starts are counts", (STARTED, "        index.starts.push(cells.len() as u32);\n        index.list.extend(cells);\n")),
    ("a facet without cells has no start", (STARTED, STARTED.replace("index.list.len() as u32", "if cells.is_empty() { NONE } else { index.list.len() as u32 }"))),
    ("a facet without cells starts at 0", (STARTED, STARTED.replace("index.list.len() as u32", "if cells.is_empty() { 0 } else { index.list.len() as u32 }"))),
    ("the end is that of the list", (ENDED, "    index.starts.push(names.len() as u32);\n    index.list.resize")),
    ("the end is the last cell's place", (ENDED, "    index.starts.push((index.list.len() as u32).saturating_sub(1));\n    index.list.resize")),
    ("the end is 0", (ENDED, "    index.starts.push(0);\n    index.list.resize")),
    # An update.
    ("an update leaves the index of the old names", (DONE, "        0 => (0, index_of(call.triangles, call.old.as_ref().unwrap_or(&call.names))),\n")),
    ("an update gives cells that were not named before their place behind",
     (DONE, "        0 => {\n            let mut made = index_of(call.triangles, &call.names);\n"
            "            if let Some(old) = &call.old {\n"
            "                for k in 0..call.triangles as usize {\n"
            "                    let row = made.starts[k] as usize..made.starts[k + 1] as usize;\n"
            "                    made.list[row].sort_by_key(|&cell| (old[cell as usize] != k as u32, cell));\n"
            "                }\n            }\n            (0, made)\n        }\n")),
    # 3.
    ("3 is not asked", (TOO_MANY, "")),
    ("131,072 triangles are too many", (TOO_MANY, TOO_MANY.replace(">", ">="))),
    ("131,073 triangles are not too many", (TOO_MANY, TOO_MANY.replace("MOST_TRIANGLES", "MOST_TRIANGLES + 1"))),
    ("no triangles are refused by 3", (TOO_MANY, TOO_MANY.replace("call.triangles >", "call.triangles == 0 || call.triangles >"))),
    ("3 after 15", (TOO_MANY + LENGTHS, LENGTHS + TOO_MANY)),
    ("131,073 triangles are 15 over slices of the right lengths (cannot show)",
     (TOO_MANY, "    if call.triangles > MOST_TRIANGLES && !wrong_lengths(call) {\n        return 15;\n    }\n" + TOO_MANY)),
    ("3 after 4", (TOO_MANY, UNKNOWN + TOO_MANY)),
    ("3 after 18", (TOO_MANY, "    if call.old.is_some() && call.triangles > MOST_TRIANGLES {\n        return 18;\n    }\n" + TOO_MANY)),
    # 15.
    ("15 is not asked of the starts", (STARTS_LONG + "        ||", "   ")),
    ("starts may be too many", (STARTS_LONG, STARTS_LONG.replace("!=", "<"))),
    ("starts may be too few", (STARTS_LONG, STARTS_LONG.replace("!=", ">"))),
    ("starts are as many as triangles", (STARTS_LONG, STARTS_LONG.replace(" + 1", ""))),
    ("starts are two more than triangles", (STARTS_LONG, STARTS_LONG.replace(" + 1", " + 2"))),
    ("the number of names is not asked (cannot show)", (MANY_NAMES, "")),
    ("64 names are too many", (MANY_NAMES, "        || names >= 64\n")),
    ("no names are refused by 15", (MANY_NAMES, "        || names == 0\n")),
    ("15 is not asked of the list", (LIST_LONG, "")),
    ("the list may be too long", (LIST_LONG, LIST_LONG.replace("!=", "<"))),
    ("the list may be too short", (LIST_LONG, LIST_LONG.replace("!=", ">"))),
    ("15 is not asked of the old names", (OLD_LONG, "")),
    ("the old names may be too many", (OLD_LONG, OLD_LONG.replace("!=", "<"))),
    ("the old names may be too few", (OLD_LONG, OLD_LONG.replace("!=", ">"))),
    ("15 is 5", (LENGTHS, LENGTHS.replace("15", "5"))),
    ("15 after 4", (LENGTHS + UNKNOWN, UNKNOWN + LENGTHS)),
    ("15 after 18", (LENGTHS, STALE_EARLY + LENGTHS)),
    # 4.
    ("4 is not asked", (UNKNOWN, ""), PASSED_OVER),
    ("new names are not asked in an update", (EACH, "call.old.iter().flatten().chain(call.names.iter().filter(|_| call.old.is_none()))"), PASSED_OVER),
    ("old names are not asked", (EACH, "call.names.iter()"), PASSED_OVER),
    ("4 is asked of the first name alone", (EACH, "call.old.iter().filter_map(|old| old.first()).chain(call.names.first())"), PASSED_OVER),
    ("4 is not asked of the last name", (EACH, "call.old.iter().chain([&call.names]).flat_map(|all| all.iter().rev().skip(1))"), PASSED_OVER),
    ("the number of triangles is a triangle", (KNOWN, KNOWN.replace("<", "<=")), PASSED_OVER),
    ("any number below 131,072 is a triangle", (KNOWN, KNOWN.replace("< triangles", "< triangles.max(MOST_TRIANGLES)")), PASSED_OVER),
    ("the last triangle is not known", (KNOWN, KNOWN.replace("< triangles", "< triangles.saturating_sub(1)"))),
    ("none is not known", (KNOWN, "    name < triangles\n")),
    ("none is not known where there are no triangles", (KNOWN, KNOWN.replace("name == NONE", "name == NONE && triangles > 0"))),
    ("4,294,967,294 is none too", (KNOWN, KNOWN.replace("name == NONE", "name >= NONE - 1")), PASSED_OVER),
    ("any number that is no triangle is none", (KNOWN, "    name < triangles || name >= triangles\n"), PASSED_OVER),
    ("4 after 18", (UNKNOWN, STALE_EARLY + UNKNOWN)),
    # 18.
    ("18 is not asked", (STALE, "")),
    ("18 is asked of a build", (STALE, STALE + "        None if call.lent != index_of(call.triangles, &call.names) => 18,\n")),
    ("18 is 4", (STALE, STALE.replace("18", "4"))),
    ("the tail is not compared", stale("lent.starts != right.starts || { let end = right.starts[call.triangles as usize] as usize; lent.list[..end] != right.list[..end] }")),
    ("the tail's first word is not compared",
     stale("lent.starts != right.starts || { let end = right.starts[call.triangles as usize] as usize; (0..lent.list.len()).any(|p| p != end && lent.list[p] != right.list[p]) }")),
    ("the tail may hold anything that is no cell",
     stale("lent.starts != right.starts || (0..lent.list.len()).any(|p| lent.list[p] != right.list[p] && (right.list[p] != NONE || (lent.list[p] as usize) < lent.list.len()))")),
    ("starts are not compared", stale("lent.list != right.list")),
    ("the list is not compared", stale("lent.starts != right.starts")),
    ("the first start is not compared", stale("lent.starts[1..] != right.starts[1..] || lent.list != right.list")),
    ("the end is not compared", stale("lent.starts[..call.triangles as usize] != right.starts[..call.triangles as usize] || lent.list != right.list")),
    ("only the end is compared of the starts", stale("lent.starts.last() != right.starts.last() || lent.list != right.list")),
    ("the order of a facet's cells is not compared",
     stale("lent.starts != right.starts || { let mut list = lent.list.clone(); right.starts.windows(2).for_each(|pair| list[pair[0] as usize..pair[1] as usize].sort()); list != right.list }")),
    ("the order of all cells is not compared", stale("lent.starts != right.starts || { let mut list = lent.list.clone(); list.sort(); let mut all = right.list.clone(); all.sort(); list != all }")),
    ("under each facet cells that name it, whether all or not",
     stale("!lent.starts.windows(2).enumerate().all(|(k, pair)| lent.list.get(pair[0] as usize..pair[1] as usize).is_some_and(|row| row.iter().all(|&cell| old.get(cell as usize) == Some(&(k as u32)))))")),
    ("a cell may stand twice under its facet",
     stale("lent.starts != right.starts || (0..lent.list.len()).any(|p| match right.list[p] { NONE => lent.list[p] != NONE, cell => old.get(lent.list[p] as usize) != Some(&old[cell as usize]) })")),
    ("the index is asked to be that of the new names", (STALE, STALE.replace("Some(old) if", "Some(_) if").replace(", old)", ", &call.names)"))),
    ("the index may be that of the new names too", stale("*lent != right && *lent != index_of(call.triangles, &call.names)")),
    ("an update without a change is not asked for 18", stale("*lent != right && *old != call.names")),
    ("an update without a change is refused by 18", stale("*lent != right || *old == call.names")),
    # What a refusal leaves.
    ("a refusal by 3 leaves zeros", refused(3, "left.starts.fill(0);\n            left.list.fill(0);")),
    ("a refusal by 15 leaves none in the list", refused(15, "left.list.fill(NONE);")),
    ("a refusal by 15 leaves zeros in the starts", refused(15, "left.starts.fill(0);")),
    ("a refusal by 4 leaves zeros in the starts", refused(4, "left.starts.fill(0);")),
    ("a refusal by 4 leaves none in the list", refused(4, "left.list.fill(NONE);")),
    ("a refusal by 18 leaves the index of the new names", refused(18, "left = index_of(call.triangles, &call.names);")),
    ("a refusal by 18 leaves the index of the old names", refused(18, "left = index_of(call.triangles, call.old.as_ref().expect(\"an update\"));")),
    # The cells of a facet.
    ("the last facet has no cells", (PART, "        (Some(_), Some(_)) if facet as usize + 2 == index.starts.len() => &[],\n" + PART)),
    ("what comes behind the last facet is the tail", (PART, PART + "        (Some(from), None) => index.list.get(from..).unwrap_or(&[]),\n")),
    ("the cells go on to the start of the next facet, with it", (PART, PART.replace("from..to", "from..to + 1"))),
    ("the first cell is left out", (PART, PART.replace("from..to", "from + 1..to"))),
    ("where the next start is below, the cells go on to the end", (PART, "        (Some(from), Some(to)) if to < from => index.list.get(from..).unwrap_or(&[]),\n" + PART)),
    ("starts that fall are exchanged", (PART, "        (Some(from), Some(to)) if to < from => index.list.get(to..from).unwrap_or(&[]),\n" + PART)),
    ("what is beyond the list is left out", (PART, "        (Some(from), Some(to)) if from <= index.list.len() && to > index.list.len() => &index.list[from..],\n" + PART)),
]


def gaps(wanted):
    """Prints how many calls show each reading, and gives how many readings show where they must not, or do not where they must."""
    calls = stored_calls()
    with open(f"{FOLDER}/stdout") as file:
        owed = by_call(file.read())
    assert len(calls) == len(owed), f"{len(calls)} calls and {len(owed)} answers"
    readings = [reading for reading in READINGS if all(word in reading[0] for word in wanted)]
    found = 0
    for reading, *edits in readings:
        shown = sum(said != right for said, right in zip(answers(reading, edits, calls), owed))
        found += (shown == 0) != ("cannot show" in reading)
        print(f"{shown:>5}  {reading}", flush=True)
    print(f"{len(readings)} readings over {len(calls)} calls of {FOLDER}/stdin")
    return found


def stored_calls():
    """The bytes of each call: six words, of which the last four are lengths, and so many words more."""
    with open(f"{FOLDER}/stdin", "rb") as file:
        stored = file.read()
    calls, at = [], 0
    while at < len(stored):
        end = at + 4 * (6 + sum(struct.unpack_from("<4I", stored, at + 8)))
        calls.append(stored[at:end])
        at = end
    return calls


def by_call(printed):
    """What was printed for each call, without its number."""
    return [part.split(" ", 1)[1] for part in printed.split("call=")[1:]]


def answers(reading, edits, calls):
    """What the plain index says with some edits. A call at which it stops counts as shown."""
    folder = "build/index/wrong"
    shutil.rmtree(folder, ignore_errors=True)
    shutil.copytree(SOURCE, folder + "/index")
    shutil.copytree("tools/generator", folder + "/generator")
    with open(f"{folder}/index/plain.rs") as file:
        text = file.read()
    for old, new in edits:
        assert old in text, f"{reading}: plain.rs has no {old!r}"
        text = text.replace(old, new)
    with open(f"{folder}/index/plain.rs", "w") as file:
        file.write(text)
    program = f"{folder}/sample"
    subprocess.run(["rustc", "--edition", "2021", "-C", "opt-level=1", "-A", "warnings", f"{folder}/index/sample.rs", "-o", program], check=True)
    said = printed(program, b"".join(calls))
    return said if len(said) == len(calls) else [(printed(program, call) or [""])[0] for call in calls]


def printed(program, calls):
    return by_call(subprocess.run([program, "answers"], input=calls, stdout=subprocess.PIPE, stderr=subprocess.DEVNULL).stdout.decode())
