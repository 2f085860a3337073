"""Binary STL by Python's struct, written from the format and from the numbers of the refusals alone: what tools/stl-check
holds the library to, and what tools/stl-sample is made of. It shares nothing with the library.

A file: 80 bytes that mean nothing, the count of facets as a little-endian u32, and for each facet 50 bytes: its normal
(three floats), its corners (nine floats), two bytes of attributes. A mesh is here the list of its corners' bit patterns,
nine a facet, so that no float is ever computed with."""
import array
import struct

HEAD, RECORD, MOST = 84, 50, 131_072
DONE, NUMBERS, LENGTHS, FILE, FACETS = 0, 2, 5, 11, 12
NAN = 0x7FC00000


def is_nan(pattern):
    return pattern & 0x7FFFFFFF > 0x7F800000


def said(file):
    """The count that a file says it has; 0 if it is too short to say one."""
    return struct.unpack_from("<I", file, 80)[0] if len(file) >= HEAD else 0


def facets(file):
    """What is owed for a file: a number, and with 0 its count of facets."""
    if len(file) < HEAD or len(file) != HEAD + RECORD * said(file):
        return FILE, 0
    if said(file) > MOST:
        return FACETS, 0
    return DONE, said(file)


def read(file, room):
    """The same with a lent buffer of so many numbers; and its corners, which are None on a refusal."""
    number, count = facets(file)
    if number == DONE and room != 9 * count:
        number, count = LENGTHS, 0
    return number, count, corners(file) if number == DONE else None


def corners(file):
    """The corners of a file that is not refused."""
    return array.array("I", (p for record in struct.iter_unpack("<12x9I2x", file[HEAD:]) for p in record))


def write(patterns, room):
    """What is owed for corners, with a lent file buffer of so many bytes: number, count, and the file or None."""
    count, left = divmod(len(patterns), 9)
    if left:
        return NUMBERS, 0, None
    if count > MOST:
        return FACETS, 0, None
    if room != HEAD + RECORD * count:
        return LENGTHS, 0, None
    return DONE, count, file_of([NAN if is_nan(p) else p for p in patterns])


def file_of(patterns, header=bytes(80), count=None, dress=None):
    """A file of these patterns as they stand. The count may be another than theirs, and `dress` may say for each facet
    its normal's 12 bytes and its attributes' two."""
    parts = [header, struct.pack("<I", len(patterns) // 9 if count is None else count)]
    for facet in range(len(patterns) // 9):
        normal, attributes = dress(facet) if dress else (bytes(12), bytes(2))
        parts.append(struct.pack("<12s9I2s", normal, *patterns[9 * facet : 9 * facet + 9], attributes))
    return b"".join(parts)
