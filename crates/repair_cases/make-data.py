#!/usr/bin/env python3
"""Makes the stored run of repair_cases: the images in data/, their names in args, and what is to be printed in stdout.

Which chunks are to be unlinked stands with each case, by hand from requests 3 to 5 of document 02. `repaired` is this script's own reading of them, on the
bytes alone, and must say the same; what the listing is to say afterwards is list_cases' reading of the bytes that it leaves. The program is held to them,
and not the other way round. Nothing needs this script but a change of the cases. It writes beside itself: python3 make-data.py
"""
import os
import runpy
import struct

HERE = os.path.dirname(os.path.abspath(__file__))
LISTS = runpy.run_path(os.path.join(HERE, '..', 'list_cases', 'make-data.py'))
X, NO_FILE, THIRD = LISTS['X'], LISTS['NO_FILE'], LISTS['THIRD']
image, small, trailer = LISTS['image'], LISTS['small'], LISTS['trailer']
image_2, small_2, trailer_2 = LISTS['image_2'], LISTS['small_2'], LISTS['trailer_2']


# ---- request 3, read

def repaired(content):
    """What is to be said of the bytes of a file, the number of a refusal or a list of chunks, and the bytes afterwards."""
    number = 3 if len(content) > LISTS['LARGEST_BYTES'] else LISTS['first_refusal'](content)
    if number in (1, 2, 3):
        return number, content
    p, c, m, n = LISTS['shape'](content)
    links, maps = LISTS['words_of'](content)
    named = {chunk: k for chunk, k in enumerate(links) if k != X}
    usable = range(LISTS['reserved'](content), n)
    good = {chunk: k for chunk, k in named.items() if k < m and LISTS['good_map'](maps[k], p, usable)}
    units = {chunk: LISTS['units_of'](maps[k], p) for chunk, k in good.items()}
    unlinked = set(named) - set(good)
    for chunk in good:
        others = [other for other in good if other != chunk]
        if any(good[chunk] == good[other] or set(units[chunk]) & set(units[other]) for other in others):
            unlinked.add(chunk)
        if len(set(units[chunk])) < len(units[chunk]):
            unlinked.add(chunk)
    entries = [X if chunk in unlinked else k for chunk, k in enumerate(links)]
    return sorted(unlinked), struct.pack(f'<{c}Q', *entries) + content[8 * c:]


# ---- images, made

def eight(links, maps):
    """On a volume of 8 chunks."""
    return image(4, 8, 12, 48, links, maps)


def largest(links, maps):
    """A volume of the largest size, every chunk stored raw but for what is given."""
    return image(16, 256, 288, 4608, {i: i for i in range(256)} | links, {i: range(16 * i, 16 * i + 16) for i in range(256)} | maps)


def largest_2(links, maps):
    """The same in edition 2; a map that is given has its size."""
    raw = {i: [65536, *range(16 * i, 16 * i + 16)] for i in range(256)}
    return image_2(16, 256, 288, 4608, {i: i for i in range(256)} | links, raw | maps)


def apart(count):
    """Maps of chunks that share nothing: map i holds units 4i and 4i + 1."""
    return {i: [4 * i, 4 * i + 1] for i in range(count)}


DAMAGED = small({0: 2, 1: 5, 2: 0, 3: 0}, {0: [0, 1], 1: [2], 2: [3, 4]})
RING = largest({}, {i: [*range(16 * i, 16 * i + 15), 16 * ((i + 1) % 256)] for i in range(256)})
RING_2 = largest_2({}, {i: [65536, *range(16 * i, 16 * i + 15), 16 * ((i + 1) % 256)] for i in range(256)})

# the chunks to unlink, or the number of the refusal, by hand; and the image
CASES = {
    # sound: nothing is printed
    'sound': ([], THIRD),
    'fresh': ([], small({}, {})),
    'dead-maps': ([], small({0: 2, 2: 0}, {0: [0, 1], 1: [7, 7, 12345678901, X], 2: [3, 4], 3: [X, 5, X, 0], 4: [3, 4, 0, 1]})),
    # the third write's volume, with a bad link and a shared map
    'volume': ([1, 2, 3], DAMAGED),
    # bad links
    'link-m': ([1], small({1: 5}, {})),
    'link-map-1-and-2-32': ([1], small({0: 0, 1: 2**32 + 1}, {0: [0], 1: [1]})),
    'link-x-less-1': ([3], small({0: 0, 3: X - 1}, {0: [0, 1]})),
    'link-32-bits-of-x': ([0], small({0: 2**32 - 1}, {})),
    'links-all-bad': ([0, 1, 2, 3], small({0: 5, 1: 2**63, 2: X - 1, 3: 6}, {})),
    # bad maps
    'map-first-x': ([0], small({0: 0}, {0: [X, 1]})),
    'map-hole': ([0], small({0: 0}, {0: [1, X, 2]})),
    'map-unit-after-x': ([0], small({0: 0}, {0: [1, 2, X, 3]})),
    'map-unit-n': ([0], small({0: 0, 1: 1}, {0: [3, 20], 1: [19]})),
    'map-unit-1-and-2-32': ([2], small({2: 3}, {3: [0, 2**32 + 1]})),
    'map-of-none': ([0], small({0: 0}, {})),
    'map-bad-of-two': ([0, 3], small({0: 1, 2: 0, 3: 1}, {0: [6], 1: [7, X, 8]})),
    # what a bad map or a dead one names counts for nobody
    'map-bad-names-held': ([1], small({0: 0, 1: 1}, {0: [0, 1], 1: [0, X, 1]})),
    'map-bad-names-twice': ([3], small({0: 0, 3: 1}, {0: [4, 5], 1: [4, 4, 5, 20]})),
    'link-bad-clash-none': ([2], small({0: 0, 1: 1, 2: 9}, {0: [0], 1: [1]})),
    'dead-maps-of-damaged': ([1], small({0: 2, 1: 7, 2: 0}, {0: [0, 1], 1: [0, 0, 1, X], 2: [3, 4], 3: [X, 5, X, 0], 4: [3, 4, 0, 1]})),
    # shared maps and units, and units named twice
    'map-shared': ([0, 3], small({0: 0, 3: 0}, {0: [0, 1]})),
    'map-shared-by-three': ([1, 4, 6], eight({1: 11, 3: 0, 4: 11, 6: 11}, {0: [0], 11: [47, 46]})),
    'map-shared-by-ends': ([0, 255], image(2, 256, 257, 514, {0: 256, 7: 1, 255: 256}, {1: [7, 8], 256: [513]})),
    'unit-shared': ([0, 2], small({0: 0, 2: 1}, {0: [0, 1], 1: [2, 1]})),
    'unit-shared-of-kept': ([2, 5], eight({i: i for i in range(8)}, apart(8) | {2: [8, 30], 5: [30, 9]})),
    'unit-shared-by-three': ([0, 3, 7], eight({0: 4, 1: 5, 3: 6, 7: 7}, {4: [1, 2], 5: [3], 6: [2], 7: [4, 5, 6, 2]})),
    'unit-chain': ([1, 2, 4, 6], eight({0: 0, 1: 1, 2: 2, 4: 3, 6: 4, 7: 5}, {0: [40], 1: [0, 1], 2: [1, 2], 3: [2, 3], 4: [3], 5: [41]})),
    'unit-twice': ([1], small({1: 0}, {0: [5, 6, 5]})),
    'unit-twice-of-kept': ([2], small({0: 1, 2: 0, 3: 2}, {0: [7, 7, 7, 7], 1: [6], 2: [8]})),
    'unit-twice-and-shared': ([0, 3], small({0: 0, 1: 1, 3: 2}, {0: [5, 5], 1: [6], 2: [7, 5]})),
    'clashes-crossed': ([0, 1, 2, 3], small({0: 0, 1: 1, 2: 2, 3: 0}, {0: [0], 1: [1], 2: [1]})),
    # several at once: 0 has a bad link, 1 a bad map that names 7's unit, 2, 3 and 5 share unit 9, and 6 names a unit twice
    'several-faults': (
        [0, 1, 2, 3, 5, 6],
        eight(
            {0: 12, 1: 0, 2: 1, 3: 2, 4: 8, 5: 3, 6: 4, 7: 5},
            {0: [20, X, 21], 1: [9], 2: [8, 9], 3: [9, 10, 11], 4: [12, 13, 12], 5: [20, 21], 8: [0, 1, 2, 3]},
        ),
    ),
    # the largest volume: each chunk shares a unit with the next; its last map and unit; and each chunk with a bad link
    'largest-ring': (list(range(256)), RING),
    'largest-ends': ([0, 1, 253, 255], largest({0: 287, 1: 287, 253: 286, 255: 285}, {285: [4607], 286: [4606, 4607], 287: [4605]})),
    'largest-links-bad': (list(range(256)), largest({i: 288 + i for i in range(256)}, {})),
    # refused: nothing is repaired, whatever stands before the trailer
    'empty': (1, b''),
    'bytes-31': (1, trailer(4, 4, 5, 20)[1:]),
    'tag': (2, image(4, 4, 5, 20, {0: 9}, end=trailer(4, 4, 5, 20, tag=b'RMAQ'))),
    'version-2': (2, image(4, 4, 5, 20, {0: 9}, end=trailer(4, 4, 5, 20, version=2))),
    'length-field': (3, image(4, 4, 5, 20, {0: 9}, end=trailer(4, 4, 5, 20, length=232))),
    'n-above-pm': (3, image(4, 4, 5, 21, {0: 9})),
    'slack': (3, bytes(8) + DAMAGED),
    'bytes-38945': (3, b'\xff' + RING),
    # edition 2, sound: a size is no claim
    'e2-sound': ([], LISTS['THIRD_2']),
    'e2-sizes-equal': ([], small_2({0: 0, 1: 1, 2: 2}, {0: [7, 5], 1: [7, 6], 2: [5, 7]})),
    # bad links and maps, and sizes that do not fit the units
    'e2-volume': ([1, 2, 3], small_2({0: 2, 1: 5, 2: 0, 3: 0}, {0: [6144, 0, 1], 1: [3072, 2], 2: [5120, 3, 4]})),
    'e2-size-one-unit-less': ([2], small_2({0: 2, 2: 0}, {0: [2048, 0, 1], 2: [5120, 3, 4]})),
    'e2-size-one-unit-more': ([0], small_2({0: 2, 2: 0}, {0: [6144, 0, 1], 2: [9216, 3, 4]})),
    'e2-sizes-bad': ([0, 1, 2, 3], small_2({i: i for i in range(4)}, {0: [0, 0], 1: [X, 1], 2: [2**32 + 1, 2], 3: [16385, 3, 4, 5, 6]})),
    'e2-map-of-none': ([0], small_2({0: 0, 1: 1}, {0: [0], 1: [1, 0]})),
    'e2-size-bad-names-held': ([1], small_2({0: 0, 1: 1}, {0: [8192, 0, 1], 1: [8192, 0]})),
    'e2-size-bad-of-two': ([0, 3], small_2({0: 1, 2: 0, 3: 1}, {0: [1, 6], 1: [1, 7, 8]})),
    # shared maps and units, and units named twice
    'e2-map-shared': ([0, 3], small_2({0: 0, 1: 1, 3: 0}, {0: [8192, 0, 1], 1: [8192, 2, 3]})),
    'e2-unit-shared': ([0, 2], small_2({0: 0, 1: 2, 2: 1}, {0: [8192, 0, 1], 1: [4097, 2, 1], 2: [1, 3]})),
    'e2-unit-twice': ([1], small_2({0: 1, 1: 0}, {0: [12288, 5, 6, 5], 1: [1, 7]})),
    'e2-largest-ring': (list(range(256)), RING_2),
    # refused
    'e2-tag': (2, small_2({0: 9}, {}, tag=b'RMAQ')),
    'e2-last-number': (3, small_2({0: 9}, {}, last_number=1)),
    'e2-bytes-41257': (3, b'\xff' + RING_2),
    # reserved units, sound: the third write's volume, dead maps with reserved units, and unit R
    'r-sound': ([], LISTS['CASES']['r-volume']),
    'r-dead-maps': ([], LISTS['CASES']['r-dead-maps']),
    'r-unit-r': ([], LISTS['CASES']['r-unit-r']),
    # a map with a reserved unit is bad
    'r-unit-0': ([1], small_2({0: 1, 1: 0}, {0: [4096, 0], 1: [4096, 1]}, reserved=1)),
    'r-unit-r-less-1': ([0], small_2({0: 2, 2: 0}, {0: [6144, 3, 4], 2: [5120, 5, 2]}, reserved=3)),
    'r-unit-n-less-p': ([3], small_2({0: 0, 3: 4}, {0: [4096, 19], 4: [8192, 16, 15]}, reserved=16)),
    'r-units-all': ([0, 1, 2, 3], small_2({i: i for i in range(4)}, {k: [4096, k] for k in range(4)}, reserved=4)),
    # what such a map names counts for nobody, and every chunk that names it is unlinked
    'r-unit-of-two': ([0, 3], small_2({0: 0, 1: 1, 3: 0}, {0: [8192, 2, 3], 1: [4096, 3]}, reserved=3)),
    'r-unit-in-two-maps': ([0, 1], small_2({0: 0, 1: 1, 2: 2}, {0: [8192, 3, 2], 1: [8192, 4, 2], 2: [8192, 3, 4]}, reserved=3)),
    'r-unit-twice': ([2], small_2({0: 0, 2: 1}, {0: [4096, 3], 1: [12288, 3, 1, 3]}, reserved=3)),
    # 0 has a reserved unit, 1 and 2 share a unit, and 3 is kept
    'r-volume': ([0, 1, 2], small_2({i: i for i in range(4)}, {0: [8192, 0, 7], 1: [4096, 4], 2: [8192, 4, 5], 3: [4096, 7]}, reserved=3)),
    'r-64-unit-63': ([7], image_2(16, 8, 9, 144, {0: 0, 7: 8}, {0: [1, 64], 8: [1, 63]}, trailer_2(16, 8, 9, 144, reserved=64))),
    # refused
    'r-n-less-p-and-1': (3, small_2({0: 9}, {}, reserved=17)),
    'r-high': (3, small_2({0: 9}, {}, reserved=2**31)),
    'r-n-below-p': (3, image_2(4, 4, 5, 3, {0: 9}, end=trailer_2(4, 4, 5, 3, reserved=2**32 - 1))),
}

# a second repair of each prints nothing
AGAIN = ['volume', 'several-faults', 'unit-chain', 'largest-ring', 'e2-volume', 'e2-largest-ring', 'r-volume']


def said(answer):
    return [f's REFUSED {answer}'] if isinstance(answer, int) else [str(chunk) for chunk in answer]


def main():
    files = {name: content for name, (_, content) in CASES.items()}
    after, stdout = {}, []
    for name, (by_hand, content) in CASES.items():
        answer, after[name] = repaired(content)
        assert answer == by_hand, name
        stdout += [name] + said(answer) + LISTS['listing'](after[name])
    for name in AGAIN:
        assert repaired(after[name]) == ([], after[name]), name
        stdout += [name] + LISTS['listing'](after[name])
    for name in NO_FILE:
        stdout += [name, 's UNREADABLE', 's UNREADABLE']
    LISTS['store'](HERE, files, list(CASES) + AGAIN + NO_FILE, stdout)


main()
