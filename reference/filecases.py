"""The files that the program files reads and writes, and what it must print of them; and those that tests/host reads and writes. Each
stands beside the answer that paper 02, notes 1, 3, 4 and 5 name."""

import functools
import hashlib
import itertools
import random

import batch
import file
import sizes
from batch import WEAK_KEY
from file import BODY, CHECK, CONTENTS, CORRECTION, HEAD, KEY, KINDS, SETUP, Entry
from records import LIMIT, USABLE_KEYS, WEAK_KEYS, Records, derived, long, numbers
from setup import DONE, LENGTH, WIDTH, WIDTHS

MOST = (1 << 32) - 1
LAST = (1 << 64) - 1
HALF = 1 << 31

# What a record asks for.
READ, WRITE, AGAIN = 1, 2, 3

# As much as the program derives; no file here is longer, nor are the bodies that are to be written together.
DERIVED = 61472


@functools.lru_cache(maxsize=4)
def under(seed):
    """What a file holds where nothing else is said."""
    return derived(seed, 0, DERIVED)


def pieces(data, seed):
    """The places and bytes of those parts of a file that aren't what its seed gives, in whole steps of 32."""
    base, differ = under(seed), []
    for at in range(0, len(data), 32):
        part = data[at:at + 32]
        if part != base[at:at + len(part)]:
            differ.append((at, part))
    return differ


def told(found):
    """The answer's number, the head's values, the places and the end; then of each kind from 0 to 6 the first 8 bytes of the body's digest
    and its length. Kinds that there aren't have no bytes."""
    line = bytes([found.answer]) + numbers(found.head.width, found.head.blocks) + long(found.head.batch, *found.places)
    bodies = [b"", *found.bodies, b""]
    return (line + b"".join(hashlib.sha256(body).digest()[:8] + long(len(body)) for body in bodies)).hex()


def told_written(answer, after):
    """The answer's number, and the digest of the range that was lent for the file, as it is then."""
    return (bytes([answer]) + hashlib.sha256(after).digest()).hex()


class Files(Records):
    """A line a record. To read a file it has the file's length, a seed, and the parts of the file that are sent: place, length and bytes.
    To write one it has the head's values, the lengths of the other bodies and of the range for the file, and a seed. To write what reading
    finds it has the length of that range, and then all that it has to read."""

    def __init__(self):
        super().__init__()
        self.files = []  # those that were read, each with its seed and what its record has

    def read(self, answer, seed, data):
        found = file.read(data)
        assert found.answer == answer
        assert len(data) <= DERIVED
        sent = [numbers(at, len(part)) + part for at, part in pieces(data, seed)]
        payload = numbers(len(data), seed) + b"".join(sent)
        self.files.append((data, seed, payload))
        self.add(READ, payload, told(found))

    def write(self, answer, seed, head, lengths, length):
        """Setup, correction, key and check have these lengths, and follow one another in what the seed gives."""
        assert sum(lengths) <= DERIVED and length <= DERIVED
        bodies = [under(seed)[end - n:end] for n, end in zip(lengths, itertools.accumulate(lengths))]
        payload = numbers(head.width, head.blocks) + long(head.batch) + numbers(*lengths, length, seed)
        self.add_written(WRITE, payload, answer, head, bodies, derived(seed, 1, length))

    def again(self, answer, length, data, seed, payload):
        """Of a file that is refused the values are 0 and the bodies empty."""
        assert length <= DERIVED
        found = file.read(data)
        bodies = [body for kind, body in zip(KINDS, found.bodies) if kind != HEAD]
        self.add_written(AGAIN, numbers(length) + payload, answer, found.head, bodies, derived(seed, 1, length))

    def add_written(self, kind, payload, answer, head, bodies, lent):
        given, after = file.write_batch(head, *bodies, lent)
        assert given == answer and len(after) == len(lent)
        self.add(kind, payload, told_written(given, after))


class Host:
    """What tests/host reads. Of each file its length and its bytes; the answer's number, the head's values, the places and the end; then of
    each kind from 0 to 6 the body's length and its bytes."""

    def __init__(self):
        self.out = b""
        self.records = 0

    def read(self, answer, seed, data):
        found = file.read(data)
        assert found.answer == answer
        self.out += numbers(len(data)) + data + numbers(found.answer, found.head.width, found.head.blocks)
        self.out += long(found.head.batch, *found.places)
        self.out += b"".join(numbers(len(body)) + body for body in [b"", *found.bodies, b""])
        self.records += 1


class HostWrites:
    """What tests/host writes, under the key that is set. Of each call the head's values, the lengths of the other bodies and of the range
    for the file, and the bodies; then the answer's number, and where it is done the file."""

    def __init__(self):
        self.out = b""
        self.records = 0
        self.key = b""

    def write(self, answer, seed, head, lengths, length):
        """Setup, correction, key and check have these lengths. All but the key follow one another in what the seed gives."""
        bodies = [under(seed)[end - n:end] for n, end in zip(lengths, itertools.accumulate(lengths))]
        bodies[2] = self.key[:lengths[2]]
        assert [len(body) for body in bodies] == lengths
        given, after = file.write_batch(head, *bodies, bytes(length))
        assert given == answer
        self.out += numbers(head.width, head.blocks) + long(head.batch) + numbers(*lengths, length) + b"".join(bodies)
        self.out += numbers(given) + (after if given == DONE else b"")
        self.records += 1


class Site:
    """A batch of one width and number of blocks on file, and the files that are nearly that."""

    def __init__(self, v, width, blocks, kinds, number, head_body=file.short_head_body, key=None):
        self.v, self.seed = v, v.records
        self.width, self.blocks, self.number, self.key = width, blocks, number, key
        self.kinds, self.head_body = list(kinds), head_body
        self.head = self.head_with()
        self.lengths = {kind: file.body_lengths(width, blocks)[kind] for kind in kinds}
        self.lengths[HEAD] = len(self.head)
        self.entries = self.entries_with({})
        self.end = self.entries[-1].offset + self.entries[-1].length

    def head_with(self, **other):
        """The head, with other values where they are given."""
        return self.head_body(**{"width": self.width, "blocks": self.blocks, "batch": self.number, **other})

    def entries_with(self, lengths, kinds=None):
        """Consistent entries, with other lengths by kind where they are given."""
        kinds = self.kinds if kinds is None else kinds
        return file.entries_of(kinds, [{**self.lengths, **lengths}.get(kind, 0) for kind in kinds])

    def laid(self, entries=None, head=None, end=None, count=None, key=None, over=()):
        """The bytes of a file: the head and a key, if there is one, where their entries say, then pairs of a place and other bytes, and the
        contents, over what the seed gives."""
        entries, head = self.entries if entries is None else entries, self.head if head is None else head
        end, key = self.end if end is None else end, self.key if key is None else key
        data = bytearray(under(self.seed)[:end])
        parts = [(entry.offset, head) for entry in entries if entry.kind == HEAD]
        parts += [(entry.offset, key) for entry in entries if entry.kind == KEY and key is not None]
        parts += [*over, (0, file.contents(len(entries) if count is None else count, entries))]
        for at, part in parts:
            part = part[:max(end - at, 0)]
            data[at:at + len(part)] = part
        return bytes(data)

    def case(self, answer, **given):
        self.v.read(answer, self.seed, self.laid(**given))

    def consistent(self, answer, head=None, **lengths):
        """A file whose contents are right, with other lengths of bodies by the names of their kinds, or another head."""
        lengths = {NAMES[name]: length for name, length in lengths.items()}
        if head is not None:
            lengths[HEAD] = len(head)
        entries = self.entries_with(lengths)
        self.case(answer, entries=entries, head=head, end=entries[-1].offset + entries[-1].length)

    def place(self, kind):
        """Where the body of a kind begins."""
        return self.entries[self.kinds.index(kind)].offset

    def changed(self, e, **fields):
        """The right entries, but for one, of which some fields are others."""
        return [entry._replace(**fields) if at == e else entry for at, entry in enumerate(self.entries)]

    def moved(self, e, by):
        """The bodies from entry e on stand elsewhere, and the file's end with them."""
        entries = [entry._replace(offset=entry.offset + by) if at >= e else entry for at, entry in enumerate(self.entries)]
        return {"entries": entries, "end": self.end + by}


NAMES = {"setup": SETUP, "head": HEAD, "correction": CORRECTION, "key": KEY, "check": CHECK}


# Files that are read.

def taken(v, rng):
    """At every width and number of blocks, and of both layouts with the fewest and the most; there also the least and the highest batch
    number of a short head, one whose lower bytes are 0, and the keys 0 and 1, with which it is refused."""
    for width in WIDTHS:
        for blocks in range(1, 16):
            number = rng.randrange(1, 1 << 32)
            for kinds in (KINDS, KINDS[1:]) if blocks in (1, 15) else (KINDS[blocks % 2:],):
                site = Site(v, width, blocks, kinds, number)
                site.case(DONE)
                if blocks not in (1, 15):
                    continue
                for number in (1, 1 << 24, MOST):
                    site.case(DONE, head=site.head_with(batch=number))
                for key in WEAK_KEYS:
                    site.case(WEAK_KEY, key=long(key))


def long_heads(v, rng):
    """With a long head: at every width and of both layouts any number, the least and the highest, those about 2^32, of which one has no
    lower half, and 2^63."""
    for width, (blocks, layout) in itertools.product(WIDTHS, ((1, KINDS), (15, KINDS[1:]))):
        site = Site(v, width, blocks, layout, rng.randrange(1 << 32, 1 << 64), file.head_body)
        site.case(DONE)
        for number in (1, MOST, MOST + 1, MOST + 2, 1 << 63, LAST):
            site.case(DONE, head=site.head_with(batch=number))


# 7: count, kinds, offsets or file end.

def cut(site, ends):
    whole = site.laid()
    for end in ends:
        site.v.read(CONTENTS, site.seed, whole[:end])


def counts(site):
    """Other counts over a right file; then as many entries as the count says, and all else right."""
    n = len(site.entries)
    for count in (0, 3, 9 - n, 6, n + (1 << 8), n + HALF, MOST):
        site.case(CONTENTS, count=count)
    for kinds in ([], [CORRECTION, KEY, CHECK], [HEAD, CORRECTION, CHECK], [*KINDS, 6], [0, *KINDS]):
        entries = site.entries_with({}, kinds)
        end = sum(entry.length for entry in entries) + sizes.contents_length(len(entries))
        site.case(CONTENTS, entries=entries, end=end)


def kinds(site):
    """Bodies and offsets stay; the kinds of the entries are others."""
    n, right = len(site.kinds), site.kinds

    def named(*others):
        entries = [entry._replace(kind=kind) for entry, kind in zip(site.entries, others)]
        site.case(CONTENTS, entries=entries)

    for e in range(n - 1):
        named(*right[:e], right[e + 1], right[e], *right[e + 2:])
        named(*right[:e], right[e + 1], *right[e + 1:])
        named(*right[:e + 1], right[e], *right[e + 2:])
    for e in range(n):
        for kind in (0, 6, right[e] + (1 << 8)):
            named(*right[:e], kind, *right[e + 1:])
    named(*[SETUP if kind == HEAD else kind for kind in right])
    named(*[kind - 1 for kind in right])
    named(*[kind + 1 for kind in right])
    named(*right[::-1])


def offsets(site):
    """One offset is another; then bodies that stand where the offsets say, but with a gap or an overlap of 1 before one of them."""
    for e, entry in enumerate(site.entries):
        for offset in (entry.offset - 1, entry.offset + 1, 0, MOST):
            site.case(CONTENTS, entries=site.changed(e, offset=offset))
        site.case(CONTENTS, **site.moved(e, 1))
        site.case(CONTENTS, **site.moved(e, -1))


def passed(site, e):
    """A body ends 2^31 further on, and the next one, from there, 2^32 further on: in 32 bits where it should."""
    here, following = site.entries[e:e + 2]
    far = [here._replace(length=here.length + HALF), Entry(following.kind, following.offset + HALF, following.length + HALF)]
    return site.entries[:e] + far + site.entries[e + 2:]


def lengths(site):
    """One length is another, the offsets stay; lengths near 2^32, also those by which the offsets or the end would be right in 32 bits."""
    n, entries = len(site.entries), site.entries
    for e, entry in enumerate(entries):
        for length in (entry.length - 1, entry.length + 1, 0, MOST):
            site.case(CONTENTS, entries=site.changed(e, length=length))
    for e in range(n - 1):
        site.case(CONTENTS, entries=passed(site, e))
        # a body ends 2^32 - 1 further on, in 32 bits a byte before its own start; the next one is as much longer
        here, following = entries[e], entries[e + 1]
        back = [here._replace(length=MOST), Entry(following.kind, here.offset - 1, here.length + following.length + 1)]
        site.case(CONTENTS, entries=entries[:e] + back + entries[e + 2:])
    # four lengths, each 2^30 longer, and each offset where the body before it ends
    quarters = [entry.length + (1 << 30) * (e >= n - 4) for e, entry in enumerate(entries)]
    site.case(CONTENTS, entries=file.entries_of(site.kinds, quarters))
    site.case(CONTENTS, entries=[entry._replace(length=MOST) for entry in entries])


def ends(site):
    """The file is longer or shorter than its bodies."""
    last = site.lengths[CHECK]
    for by in (1, 2, 100, -1, -2, -last, -last - 1):
        site.case(CONTENTS, end=site.end + by)


def permuted(site):
    """Two bodies change places: with offsets that say so, the kinds in order; then with their entries."""
    n = len(site.kinds)
    for e, other in itertools.combinations(range(n), 2):
        order = list(site.kinds)
        order[e], order[other] = order[other], order[e]
        entries = site.entries_with({}, order)
        site.case(CONTENTS, entries=sorted(entries))
        site.case(CONTENTS, entries=entries)


def contents_first(site):
    """Contents that aren't right, and a head or a body that would be refused too."""
    no_head = site.head_with(width=3, batch=0, blocks=16)
    site.case(CONTENTS, count=6, head=no_head)
    site.case(CONTENTS, end=site.end + 1, head=no_head)
    site.case(CONTENTS, entries=site.changed(0, kind=0), head=no_head)
    site.case(CONTENTS, entries=site.changed(0, offset=0), head=no_head)
    for lengths in ({HEAD: 5}, {HEAD: 0}, {KEY: 7}, {CORRECTION: 0, CHECK: 0}):
        entries = site.entries_with(lengths)
        site.case(CONTENTS, entries=entries, end=entries[-1].offset + entries[-1].length + 1)


# 8 for the head's length, which comes before what it holds.

def head_lengths(site):
    """Of a short head. With 4 zero bytes more it is a long one, and is judged by what it holds."""
    for answer, head in ((DONE, site.head), (WIDTH, site.head_with(width=3)), (batch.BATCH, site.head_with(batch=0, blocks=16))):
        for length in (0, 5, 7):
            site.consistent(BODY, (head + bytes(10))[:length])
        site.consistent(answer, head + bytes(4))
    for length in (1, 6 + 256):
        site.consistent(BODY, (site.head + bytes(length))[:length])
    site.consistent(BODY, b"", setup=0, correction=0, key=0, check=0)
    site.consistent(BODY, site.head[:5], key=9)
    site.consistent(BODY, site.head_with(width=3) + b"\x00", setup=8191)


def long_head_lengths(site):
    for head in (site.head, site.head_with(width=3), site.head_with(batch=0, blocks=16)):
        for length in (0, 5, 7, 8, 9, 11):
            site.consistent(BODY, (head + bytes(10))[:length])
    for length in (2, 10 + 256, 16):
        site.consistent(BODY, (site.head + bytes(length))[:length])
    site.consistent(BODY, site.head[:9], key=9)
    site.consistent(BODY, site.head_with(width=3) + b"\x00", setup=8191)
    # its first 6 bytes are a short head
    site.consistent(DONE, site.head[:2] + (5).to_bytes(4, "little"))


# 1, 3 and 4 for what the head holds, in this order.

def heads(site):
    right = site.lengths[CORRECTION]
    for width in (0, 3, 5, 16, 255):
        site.consistent(WIDTH, site.head_with(width=width))
    for width in (3, 5, 16):
        site.consistent(WIDTH, site.head_with(width=width), correction=sizes.correction_length(width, site.blocks))
    site.consistent(WIDTH, site.head_with(width=3, batch=0))
    site.consistent(WIDTH, site.head_with(width=3, blocks=16))
    site.consistent(WIDTH, site.head_with(width=0, blocks=0, batch=0))
    site.consistent(WIDTH, site.head_with(width=3), key=9)
    site.consistent(WIDTH, site.head_with(width=16), setup=0, correction=0, check=0)
    site.consistent(batch.BATCH, site.head_with(batch=0))
    for blocks in (0, 16, 255):
        site.consistent(batch.BATCH, site.head_with(batch=0, blocks=blocks))
        site.consistent(batch.BLOCKS, site.head_with(blocks=blocks))
    site.consistent(batch.BATCH, site.head_with(batch=0), correction=right + 1)
    for blocks in (0, 16):
        site.consistent(batch.BLOCKS, site.head_with(blocks=blocks), correction=sizes.correction_length(site.width, blocks))
    site.consistent(batch.BLOCKS, site.head_with(blocks=17), setup=0, key=7)


# 8 for a body's length.

def body_lengths(site):
    width, blocks, right = site.width, site.blocks, site.lengths[CORRECTION]
    column = sizes.column_length(width, blocks)
    if SETUP in site.kinds:
        for length in (0, 8191, 8193):
            site.consistent(BODY, setup=length)
    for length in (0, right - 1, right + 1, right + column):
        site.consistent(BODY, correction=length)
    assert right + column == sizes.trees_of(width) * column
    for other in WIDTHS:
        if other != width:
            site.consistent(BODY, site.head_with(width=other))
    site.consistent(BODY, site.head_with(blocks=16 - blocks))
    for length in (0, 7, 9):
        site.consistent(BODY, key=length)
    for length in (0, 1031, 1033):
        site.consistent(BODY, check=length)
    # the file is as long as it should be
    site.consistent(BODY, key=7, check=1033)
    site.consistent(BODY, correction=right + 1, key=7)
    site.consistent(BODY, correction=right - 1, check=1033)


# 9 for the key, in the file's order of bytes.

def least_keys(v, rng):
    """The first keys that are usable: at every width, of both layouts with the fewest and the most blocks. With a long head those that
    aren't, too."""
    for width, blocks, layout in itertools.product(WIDTHS, (1, 15), (KINDS, KINDS[1:])):
        site = Site(v, width, blocks, layout, rng.randrange(1, 1 << 32))
        for key in (2, 3):
            site.case(DONE, key=long(key))
    for width, (blocks, layout) in itertools.product(WIDTHS, ((1, KINDS), (15, KINDS[1:]))):
        site = Site(v, width, blocks, layout, rng.randrange(1 << 32, 1 << 64), file.head_body)
        for key in range(4):
            site.case(DONE if batch.usable(key) else WEAK_KEY, key=long(key))


def usable_keys(site):
    for key in USABLE_KEYS:
        site.case(DONE, key=long(key))


def key_places(site):
    """What stands before the key or after it, or a byte further back or on, is 0 or 1, and the key isn't; or the key is, and what stands
    there isn't."""
    at, usable = site.place(KEY), long(27)
    for weak in map(long, WEAK_KEYS):
        for place in (at - 8, at + 8, *(site.place(kind) for kind in site.kinds if kind < KEY and kind != HEAD)):
            site.case(DONE, key=usable, over=[(place, weak)])
        site.case(DONE, key=long(1 << 56), over=[(at - 1, weak)])
        site.case(DONE, key=long(2), over=[(at + 1, weak)])
        site.case(WEAK_KEY, key=weak, over=[(at - 8, usable), (at + 8, usable)])


def key_last(site):
    """The key isn't usable, and all that is looked at before it isn't right either; then it alone isn't."""
    for group in (contents_first, heads, body_lengths):
        group(site)
    for length in (0, 5, 7, 9, 11):
        site.consistent(BODY, (site.head + bytes(10))[:length])
    site.case(WEAK_KEY)


# What reading finds, written.

def length_again(data):
    """As long as the file is with a long head."""
    head = next(entry.length for entry in file.entries_in(data) if entry.kind == HEAD)
    return len(data) + sizes.head_length() - head


def written_again(v, files):
    """Each of these files that is read, into a range of the exact length. Where the key isn't usable no batch is found."""
    for given in files:
        answer = file.read(given[0]).answer
        if answer == DONE:
            v.again(DONE, len(file.write_again(given[0])), *given)
        elif answer == WEAK_KEY:
            v.again(WIDTH, length_again(given[0]), *given)


def again_refused(v, files):
    """Of both layouts, with either head, into a range that is a byte shorter or longer, or as long as with a short head. Then files that
    are refused for anything but their key: no batch is found there."""
    shorter = sizes.head_length() - sizes.short_head_length()
    found = [(file.read(given[0]), given) for given in files]
    layouts = {tuple(len(body) for body in read.bodies[:2]): given for read, given in found if read.answer == DONE}
    assert len(layouts) == 4
    for given in layouts.values():
        right = len(file.write_again(given[0]))
        for length in (right - 1, right + 1, right - shorter):
            v.again(LENGTH, length, *given)
    refused = {read.answer: given for read, given in found if read.answer not in (DONE, WEAK_KEY)}
    for given in refused.values():
        v.again(WIDTH, len(given[0]), *given)


# Values and bodies, written.

def write_lengths(width, blocks, setup):
    """Of all ranges, by name, where the setup has this length."""
    right = file.body_lengths(width, blocks)
    return {"setup": setup, "correction": right[CORRECTION], "key": right[KEY], "check": right[CHECK],
            "file": sizes.file_length(width, blocks, setup)}


class Call:
    """A call of the writer that is done, and those that are nearly that. The head's values and the ranges' lengths go by name."""

    def __init__(self, v, width, blocks, setup, number):
        self.v, self.seed = v, v.records
        self.width, self.blocks, self.setup = width, blocks, setup
        self.right = {"width": width, "blocks": blocks, "batch": number, **write_lengths(width, blocks, setup)}

    def case(self, answer, **other):
        given = {**self.right, **other}
        assert given.keys() == self.right.keys()
        head = file.Head(given["width"], given["blocks"], given["batch"])
        lengths = [given[name] for name in ("setup", "correction", "key", "check")]
        self.v.write(answer, self.seed, head, lengths, given["file"])

    def fitted(self, answer, **other):
        """The file's range is as long as the bodies ask, whatever the head says."""
        given = {**self.right, **other}
        bodies = sum(given[name] for name in ("setup", "correction", "key", "check"))
        contents = sizes.contents_length(len(KINDS) if given["setup"] else len(KINDS) - 1)
        self.case(answer, file=contents + sizes.head_length() + bodies, **other)


# What a file has by width, blocks and the setup's length: with the shortest correction and with the longest, each of both layouts.
FILES = {(8, 1, 0): 1342, (8, 1, 8192): 9546, (1, 15, 0): 17358, (1, 15, 8192): 25562}


def written(v, rng):
    """At every width, of both layouts. Once with the fewest blocks and once with the most also the least and the highest batch number,
    those about 2^32, of which one has no lower half, and 2^63."""
    assert all(sizes.file_length(*given) == length for given, length in FILES.items())
    for width, blocks, setup in itertools.product(WIDTHS, (1, 2, 15), (0, 8192)):
        call = Call(v, width, blocks, setup, rng.randrange(1 << 32, 1 << 64))
        call.case(DONE)
        for number in (1, MOST, MOST + 1, 1 << 63, LAST) if (blocks, setup) in ((1, 8192), (15, 0)) else ():
            call.case(DONE, batch=number)


def write_heads(call):
    """1, 3 and 4 for the head's values: numbers that a byte, or 16 or 31 bits, would cut to right ones, also where the ranges are as those
    ask; and numbers whose own lengths the ranges have."""
    width, blocks, setup = call.width, call.blocks, call.setup
    for wrong in (0, 3, 5, 16, 255, 256, width + (1 << 16), width + HALF, MOST):
        call.case(WIDTH, width=wrong)
    for cut in WIDTHS:
        call.case(WIDTH, width=cut + 256, **write_lengths(cut, blocks, setup))
    for wrong in (3, 16):
        call.case(WIDTH, width=wrong, **write_lengths(wrong, blocks, setup))
    call.case(batch.BATCH, batch=0)
    for wrong in (0, 16, 255, 256, blocks + (1 << 16), blocks + HALF, MOST):
        call.case(batch.BLOCKS, blocks=wrong)
    for cut in (1, 15):
        call.case(batch.BLOCKS, blocks=cut + 256, **write_lengths(width, cut, setup))
    for wrong in (0, 16):
        call.case(batch.BLOCKS, blocks=wrong, **write_lengths(width, wrong, setup))


def write_bodies(call):
    """8 for a body's length, where the file's range is as long as before, and where it is as the bodies ask."""
    width, blocks, right = call.width, call.blocks, call.right["correction"]
    wrong = [{"setup": length} for length in (1, 4096, 8191, 8193)]
    wrong += [{"correction": length} for length in (0, right - 1, right + 1, right + sizes.column_length(width, blocks))]
    wrong += [{"correction": sizes.correction_length(other, blocks)} for other in WIDTHS if other != width]
    wrong += [{"key": length} for length in (0, 7, 9)] + [{"check": length} for length in (0, 1031, 1033)]
    for other in wrong:
        call.case(BODY, **other)
        call.fitted(BODY, **other)
    for other in WIDTHS:
        if other != width:
            call.case(BODY, width=other)
    call.case(BODY, blocks=16 - blocks)
    # the file is as long as it should be
    call.case(BODY, key=7, check=1033)
    call.case(BODY, correction=right + 1, key=7)
    call.case(BODY, correction=right - 1, check=1033)
    call.case(BODY, setup=call.setup + 1, key=7)


def write_files(call):
    """5 for the length of the file's range: as it would be with a setup or without, of another width, or with other entries or heads."""
    right, others = call.right["file"], [other for other in WIDTHS if other != call.width]
    lengths = [0, right - 1, right + 1, right - 4, right + 4, right - 12, right + 12, DERIVED]
    lengths.append(sizes.file_length(call.width, call.blocks, 8192 - call.setup))
    lengths += [sizes.file_length(other, call.blocks, call.setup) for other in others]
    for length in lengths:
        call.case(LENGTH, file=length)


def write_order(call):
    """1, 3, 4, 8, 5: of any two the first; and of more, all from one on, this one."""
    right = call.right["correction"]
    broken = [(WIDTH, {"width": 3}), (batch.BATCH, {"batch": 0}), (batch.BLOCKS, {"blocks": 16}), (BODY, {"setup": 1}),
              (BODY, {"correction": right + 1}), (BODY, {"key": 7}), (BODY, {"check": 1033}), (LENGTH, {"file": call.right["file"] + 2})]
    for (answer, first), (later, second) in itertools.combinations(broken, 2):
        if answer != later:
            call.case(answer, **first, **second)
    for at, (answer, _) in enumerate(broken[:-2]):
        call.case(answer, **{name: value for _, other in broken[at:] for name, value in other.items()})


def cases():
    rng = random.Random(7)
    v = Files()
    taken(v, rng)
    # the contents' rules go by no width: each width has one number of blocks there, and one layout
    for width, blocks, layout in ((1, 1, KINDS), (2, 15, KINDS[1:]), (4, 1, KINDS[1:]), (8, 15, KINDS)):
        site = Site(v, width, blocks, layout, rng.randrange(1, 1 << 32))
        cut(site, range(65) if width < 4 else (0, 1, 2, 3, 4, 51, 52, 63, 64))
        for group in (counts, kinds, offsets, lengths, ends, permuted, contents_first):
            group(site)
    for at, width in enumerate(WIDTHS):
        for blocks, layout in ((1, KINDS[at % 2:]), (15, KINDS[1 - at % 2:])):
            site = Site(v, width, blocks, layout, rng.randrange(1, 1 << 32))
            for group in (head_lengths, heads, body_lengths):
                group(site)
    long_heads(v, rng)
    for width, blocks, layout in ((1, 15, KINDS[1:]), (2, 1, KINDS), (4, 15, KINDS), (8, 1, KINDS[1:])):
        site = Site(v, width, blocks, layout, rng.randrange(1 << 32, 1 << 64), file.head_body)
        for group in (ends, long_head_lengths, heads, body_lengths):
            group(site)
    written_again(v, v.files)
    again_refused(v, v.files)
    written(v, rng)
    for width, blocks, setup in ((1, 15, 8192), (2, 1, 0), (4, 1, 8192), (8, 15, 0)):
        call = Call(v, width, blocks, setup, rng.randrange(1 << 32, 1 << 64))
        for group in (write_heads, write_bodies, write_files, write_order):
            group(call)
    before = len(v.files)
    for key, width, blocks, layout, head_body in ((0, 2, 15, KINDS, file.short_head_body), (1, 4, 1, KINDS[1:], file.head_body)):
        key_last(Site(v, width, blocks, layout, rng.randrange(1, 1 << 32), head_body, long(key)))
    for width, blocks, layout, head_body in ((8, 1, KINDS, file.short_head_body), (1, 1, KINDS[1:], file.head_body)):
        site = Site(v, width, blocks, layout, rng.randrange(1, 1 << 32), head_body)
        usable_keys(site)
        key_places(site)
    least_keys(v, rng)
    written_again(v, v.files[before:])
    again_refused(v, v.files[before:])
    assert len(v.asked) <= LIMIT
    return v


def host_cases():
    """Both layouts at every width, and each refusal; the shortest files but one. Then both layouts with a long head, and the key."""
    rng = random.Random(8)
    v = Host()
    for width, kinds in itertools.product(WIDTHS, (KINDS, KINDS[1:])):
        Site(v, width, 1, kinds, rng.randrange(1, 1 << 32)).case(DONE)
    Site(v, 1, 15, KINDS, MOST).case(DONE)
    site = Site(v, 8, 1, KINDS, 1)
    site.case(CONTENTS, count=4)
    site.consistent(BODY, setup=0)
    site.consistent(BODY, setup=8191)
    site = Site(v, 8, 1, KINDS[1:], 1)
    cut(site, (0, 1, 3, 4, 51, 52))
    ends(site)
    for fields in ({"kind": 1}, {"offset": 0}, {"length": 0}):
        site.case(CONTENTS, entries=site.changed(0, **fields))
    site.case(CONTENTS, entries=site.changed(2, offset=site.entries[2].offset + 1))
    for given in ({"count": 5}, {"count": 6}, site.moved(3, 1), {"entries": passed(site, 2)}):
        site.case(CONTENTS, **given)
    site.consistent(BODY, site.head_with(width=3)[:5])
    site.consistent(DONE, site.head + bytes(4))
    site.consistent(WIDTH, site.head_with(width=3, batch=0))
    site.consistent(batch.BATCH, site.head_with(batch=0, blocks=16))
    for blocks in (0, 16):
        site.consistent(batch.BLOCKS, site.head_with(blocks=blocks), key=9)
    for given in ({"correction": site.lengths[CORRECTION] + 1}, {"key": 7}, {"check": 1033}, {"key": 9, "check": 1031}):
        site.consistent(BODY, **given)
    site.case(WEAK_KEY, key=long(0))
    Site(v, 8, 1, KINDS, rng.randrange(1 << 32, 1 << 64), file.head_body).case(DONE)
    site = Site(v, 8, 1, KINDS[1:], LAST, file.head_body)
    for number in (1, MOST + 1, LAST):
        site.case(DONE, head=site.head_with(batch=number))
    site.consistent(BODY, site.head_with(width=3)[:9])
    site.consistent(WIDTH, site.head_with(width=3, batch=0))
    site.consistent(batch.BATCH, site.head_with(batch=0, blocks=16))
    for layout, head_body in itertools.product((KINDS, KINDS[1:]), (file.short_head_body, file.head_body)):
        site = Site(v, 8, 1, layout, 1, head_body, long(1))
        site.case(WEAK_KEY)
    site.consistent(BODY, check=1031)
    site.consistent(batch.BLOCKS, site.head_with(blocks=16))
    for key in (0, 2, 1 << 56):
        site.case(DONE if batch.usable(key) else WEAK_KEY, key=long(key))
    return v.out


def host_writes():
    """With a key that isn't usable, the faults that are looked at before it; then it alone, and with a file's range that is shorter or
    longer. With a setup, one such key and the first that is usable; without, all."""
    rng = random.Random(9)
    v = HostWrites()
    with_setup, without = [Call(v, 8, 1, setup, rng.randrange(1 << 32, 1 << 64)) for setup in (8192, 0)]
    v.key = long(1)
    write_order(without)
    for call, keys in ((with_setup, (0, 2)), (without, (*WEAK_KEYS, *USABLE_KEYS))):
        for key in keys:
            v.key, usable = long(key), batch.usable(key)
            for by in (-1, 1) if call is without and key <= 2 else ():
                call.case(LENGTH if usable else WEAK_KEY, file=call.right["file"] + by)
            call.case(DONE if usable else WEAK_KEY)
    return v.out
