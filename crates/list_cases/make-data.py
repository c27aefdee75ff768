#!/usr/bin/env python3
"""Makes the stored run of list_cases: the images in data/, their names in args, and what is to be printed in stdout.

What is to be printed is this script's own reading of documents 01 and 02, on the bytes alone (`listing`): the program is held to it, and not the other way
round. Nothing needs this script but a change of the cases. It writes beside itself: python3 make-data.py
"""
import os
import struct

X = 2**64 - 1
LARGEST_BYTES = 41256
TRAILER_BYTES = {1: 32, 2: 40}
HERE = os.path.dirname(os.path.abspath(__file__))


# ---- the image of document 01, and edition 2 of requests 4 and 5 in document 02, read

def listing(image):
    """The lines that document 01 wants for the bytes of a file."""
    if len(image) > LARGEST_BYTES:
        return ['s REFUSED 3']
    number = first_refusal(image)
    if number:
        return [f's REFUSED {number}']
    p, c, m, n = shape(image)
    links, maps = words_of(image)
    lines = [f'volume chunks {c} per-chunk {p} maps {m} units {n}']
    named, held = set(), set()
    for chunk, k in enumerate(links):
        if k == X:
            lines.append(f'chunk {chunk} unmapped')
            continue
        units = units_of(maps[k], p)
        named.add(k)
        held.update(units)
        lines.append(f'chunk {chunk} map {k} units ' + ' '.join(map(str, units)))
    free = set(range(reserved(image), n)) - held
    return lines + [f'free-units {len(free)}', f'free-maps {m - len(named)}', 's SOUND']


def edition(image):
    """Whose tag and version the image has: the last 32 bytes are tried as edition 1, then the last 40 as edition 2. 0 is neither's."""
    for version, size in TRAILER_BYTES.items():
        if len(image) >= size and image[-size:][:6] == bytes.fromhex('524D4150') + struct.pack('<H', version):
            return version
    return 0


def fields(image):
    """The numbers of the trailer, from P on."""
    version = edition(image)
    return struct.unpack_from('<HIIIIII' + 'II' * (version - 1), image, len(image) - TRAILER_BYTES[version] + 6)


def shape(image):
    return fields(image)[:4]


def reserved(image):
    """How many of the first units are reserved, R: none in edition 1."""
    return fields(image)[7] if edition(image) == 2 else 0


def words_of(image):
    """The words of the logical map, and of each chunk map."""
    p, c, m, _ = shape(image)
    each = map_words(p, edition(image))
    words = struct.unpack(f'<{c + m * each}Q', image[:-TRAILER_BYTES[edition(image)]])
    return words[:c], [words[c + k * each:c + k * each + each] for k in range(m)]


def map_words(p, version):
    """The words of a map: in edition 2 its size stands before its units."""
    return p + (version == 2)


def units_of(words, p):
    return [u for u in words[-p:] if u != X]


def first_refusal(image):
    """The lowest of rows 1 to 6 that holds, or 0."""
    if len(image) < 32:
        return 1
    version = edition(image)
    if not version:
        return 2
    p, c, m, n = shape(image)
    if not (2 <= p <= 16 and 1 <= c <= 256 and c + 1 <= m <= c + 32 and p <= n <= p * m):
        return 3
    maps_back = 8 * m * map_words(p, version)
    length = 8 * c + maps_back + TRAILER_BYTES[version]
    if fields(image)[4:7] != (8 * c + maps_back, maps_back, length) or len(image) != length:
        return 3
    if version == 2 and (reserved(image) > n - p or fields(image)[8] != 0):
        return 3
    links, maps = words_of(image)
    if any(k != X and k >= m for k in links):
        return 4
    named = [k for k in links if k != X]
    if not all(good_map(maps[k], p, range(reserved(image), n)) for k in named):
        return 5
    units = [u for k in named for u in units_of(maps[k], p)]
    if len(set(named)) < len(named) or len(set(units)) < len(units):
        return 6
    return 0


def good_map(words, p, usable):
    """1 to P of the usable units, R to N-1, then only X; a size before them takes as many units."""
    size, units = words[:-p], words[-p:]
    held = 0
    while held < p and units[held] in usable:
        held += 1
    return held >= 1 and all(w == X for w in units[held:]) and all((s + 4095) // 4096 == held for s in size)


# ---- images, made

def trailer(p, c, m, n, edition=1, **other):
    """A trailer; `other` puts something else in a field."""
    maps_back = 8 * m * map_words(p, edition)
    field = dict(tag=b'RMAP', version=edition, p=p, c=c, m=m, n=n, links_back=8 * c + maps_back, maps_back=maps_back)
    field['length'] = 8 * c + maps_back + TRAILER_BYTES[edition]
    field['reserved'] = field['last_number'] = 0
    field.update(other)
    order = ['version', 'p', 'c', 'm', 'n', 'links_back', 'maps_back', 'length'] + ['reserved', 'last_number'] * (edition - 1)
    return field['tag'] + struct.pack('<HHIIIIII' + 'II' * (edition - 1), *(field[f] for f in order))


def image(p, c, m, n, links=None, maps=None, end=None, edition=1):
    """An image with the links and maps that are given, X elsewhere. A map of edition 2 is given with its size."""
    each = map_words(p, edition)
    words = [X] * (c + m * each)
    for chunk, k in (links or {}).items():
        words[chunk] = k
    for k, content in (maps or {}).items():
        for j, w in enumerate(content):
            words[c + k * each + j] = w
    return struct.pack(f'<{len(words)}Q', *words) + (end if end is not None else trailer(p, c, m, n, edition))


def small(links, maps):
    """On document 01's volume of 224 bytes."""
    return image(4, 4, 5, 20, links, maps)


def raw(p, c, m):
    """Every chunk mapped, and stored raw."""
    return image(p, c, m, p * m, {i: i for i in range(c)}, {i: range(p * i, p * i + p) for i in range(c)})


def image_2(p, c, m, n, links=None, maps=None, end=None):
    return image(p, c, m, n, links, maps, end, edition=2)


def trailer_2(p, c, m, n, **other):
    return trailer(p, c, m, n, edition=2, **other)


def small_2(links, maps, **other):
    """The same volume in edition 2, 272 bytes; `other` puts something else in the trailer."""
    return image_2(4, 4, 5, 20, links, maps, trailer_2(4, 4, 5, 20, **other))


def sized(size, units=(0, 1)):
    """A volume with one chunk on these units, and a size for it."""
    return small_2({0: 0}, {0: [size, *units]})


def raw_2(p, c, m, reserved=0):
    """Every chunk mapped and stored raw, from the first unit that is not reserved on."""
    maps = {i: [4096 * p, *range(reserved + p * i, reserved + p * i + p)] for i in range(c)}
    return image_2(p, c, m, p * m, {i: i for i in range(c)}, maps, trailer_2(p, c, m, p * m, reserved=reserved))


THIRD = small({0: 2, 2: 0}, {0: [0, 1], 1: [2], 2: [3, 4]})
LARGEST = raw(16, 256, 288)
THIRD_2 = small_2({0: 2, 2: 0}, {0: [6144, 0, 1], 1: [3072, 2], 2: [5120, 3, 4]})
LARGEST_2 = raw_2(16, 256, 288)
# the first eight bytes of a trailer of edition 2, as a word
TRAILER_2_WORD = struct.unpack('<Q', trailer_2(4, 4, 5, 20)[:8])[0]

CASES = {
    # sound
    'volume': THIRD,
    'fresh': small({}, {}),
    'dead-maps': small({0: 2, 2: 0}, {0: [0, 1], 1: [7, 7, 12345678901, X], 2: [3, 4], 3: [X, 5, X, 0], 4: [3, 4, 0, 1]}),
    'full': image(4, 4, 5, 16, {0: 4, 1: 0, 2: 3, 3: 1}, {4: range(0, 4), 0: range(4, 8), 3: range(8, 12), 1: range(12, 16)}),
    'stored-raw': small({1: 0}, {0: [16, 17, 18, 19]}),
    'largest': LARGEST,
    # both ends of every limit, and just past each
    'p-2': image(2, 3, 4, 8, {0: 1}, {1: [7]}),
    'p-16': image(16, 3, 4, 64, {0: 1}, {1: range(16)}),
    'p-1': image(1, 3, 4, 4),
    'p-17': image(17, 3, 4, 68),
    'c-1': image(4, 1, 2, 8, {0: 1}, {1: [0]}),
    'c-256': image(2, 256, 257, 514, {255: 256}, {256: [513, 0]}),
    'c-0': image(4, 0, 1, 4),
    'c-257': image(2, 257, 258, 516),
    'm-c-and-1': image(4, 4, 5, 16, {3: 4}, {4: [15]}),
    'm-c-and-32': image(4, 4, 36, 144, {3: 35}, {35: [143]}),
    'm-c': image(4, 4, 4, 16),
    'm-c-and-33': image(4, 4, 37, 148),
    'n-p': image(4, 4, 5, 4, {2: 0}, {0: [3, 2, 1, 0]}),
    'n-pm': image(4, 4, 5, 20, {2: 0}, {0: [19]}),
    'n-below-p': image(4, 4, 5, 3),
    'n-above-pm': image(4, 4, 5, 21),
    # 1 SHORT, 2 FOREIGN
    'empty': b'',
    'bytes-31': trailer(4, 4, 5, 20)[1:],
    'zeros-32': bytes(32),
    'tag': image(4, 4, 5, 20, end=trailer(4, 4, 5, 20, tag=b'RMAQ')),
    'version-2': image(4, 4, 5, 20, end=trailer(4, 4, 5, 20, version=2)),
    # 3 GEOMETRY by a distance or a length
    'trailer-alone': trailer(4, 4, 5, 20),
    'links-back': image(4, 4, 5, 20, end=trailer(4, 4, 5, 20, links_back=184)),
    'maps-back': image(4, 4, 5, 20, end=trailer(4, 4, 5, 20, maps_back=152)),
    'length-field': image(4, 4, 5, 20, end=trailer(4, 4, 5, 20, length=232)),
    'slack': bytes(8) + THIRD,
    'slack-in-length': bytes(8) + image(4, 4, 5, 20, end=trailer(4, 4, 5, 20, length=232)),
    'first-byte-lost': THIRD[1:],
    'last-byte-lost': THIRD[:-1],
    'bytes-38945': b'\xff' + LARGEST,
    'foreign-38945': bytes(38945),
    # 4 BAD LINK
    'link-m': small({1: 5}, {}),
    'link-32-bits-of-x': small({1: 2**32 - 1}, {}),
    'link-map-1-and-2-32': small({1: 2**32 + 1}, {1: [0]}),
    'link-after-bad-map': small({0: 0, 1: 9}, {}),
    # 5 BAD MAP
    'map-of-none': small({0: 0}, {}),
    'map-unit-n': small({0: 0}, {0: [20]}),
    'map-hole': small({0: 0}, {0: [1, X, 2]}),
    'map-32-bits-of-x': small({0: 0}, {0: [1, 2**32 - 1]}),
    'map-bad-and-shared': small({0: 0, 3: 0}, {0: [X, 1]}),
    # 6 SHARED
    'map-twice': small({0: 0, 3: 0}, {0: [0, 1]}),
    'unit-in-two-maps': small({0: 0, 2: 1}, {0: [0, 1], 1: [2, 1]}),
    'unit-twice-in-a-map': small({1: 0}, {0: [5, 6, 5]}),
    'clashes-crossed': small({0: 0, 1: 1, 2: 2, 3: 0}, {0: [0], 1: [1], 2: [1]}),
    'map-twice-last': image(2, 256, 257, 514, {0: 0, 255: 0}, {0: [0, 1]}),
    # edition 2, sound
    'e2-volume': THIRD_2,
    'e2-fresh': small_2({}, {}),
    'e2-dead-maps': small_2(
        {0: 2, 2: 0}, {0: [6144, 0, 1], 1: [X, 7, 7, 12345678901, X], 2: [5120, 3, 4], 3: [0, X, 5, X, 0], 4: [2**63, 3, 4, 0, 1]}
    ),
    'e2-full': image_2(
        4, 4, 5, 16, {0: 4, 1: 0, 2: 3, 3: 1}, {k: [16384, *range(4 * i, 4 * i + 4)] for i, k in enumerate([4, 0, 3, 1])}
    ),
    'e2-least-sizes': small_2({i: i for i in range(4)}, {k: [4096 * k + 1, *range(4 * k, 5 * k + 1)] for k in range(4)}),
    'e2-largest-sizes': small_2({i: i for i in range(4)}, {k: [4096 * k + 4096, *range(4 * k, 5 * k + 1)] for k in range(4)}),
    'e2-size-is-no-unit': small_2({0: 0, 1: 1, 2: 2}, {0: [7, 5], 1: [7, 6], 2: [5, 7]}),
    'e2-largest': LARGEST_2,
    # both ends of every limit, and just past each
    'e2-p-2': image_2(2, 3, 4, 8, {0: 1}, {1: [1, 7]}),
    'e2-p-16': image_2(16, 3, 4, 64, {0: 1}, {1: [65536, *range(16)]}),
    'e2-p-1': image_2(1, 3, 4, 4),
    'e2-p-17': image_2(17, 3, 4, 68),
    'e2-c-1': image_2(4, 1, 2, 8, {0: 1}, {1: [1, 0]}),
    'e2-c-256': image_2(2, 256, 257, 514, {255: 256}, {256: [8192, 513, 0]}),
    'e2-c-0': image_2(4, 0, 1, 4),
    'e2-c-257': image_2(2, 257, 258, 516),
    'e2-m-c-and-1': image_2(4, 4, 5, 16, {3: 4}, {4: [4096, 15]}),
    'e2-m-c-and-32': image_2(4, 4, 36, 144, {3: 35}, {35: [4096, 143]}),
    'e2-m-c': image_2(4, 4, 4, 16),
    'e2-m-c-and-33': image_2(4, 4, 37, 148),
    'e2-n-p': image_2(4, 4, 5, 4, {2: 0}, {0: [16384, 3, 2, 1, 0]}),
    'e2-n-pm': image_2(4, 4, 5, 20, {2: 0}, {0: [4096, 19]}),
    'e2-n-below-p': image_2(4, 4, 5, 3),
    'e2-n-above-pm': image_2(4, 4, 5, 21),
    # the trailer's tag and version: 40 bytes of edition 2, and the last 32 of edition 1 before them
    'e2-bytes-31': trailer_2(4, 4, 5, 20)[9:],
    'e2-bytes-32': trailer_2(4, 4, 5, 20)[8:],
    'e2-bytes-32-of-40': trailer_2(4, 4, 5, 20)[:32],
    'e2-bytes-39': trailer_2(4, 4, 5, 20)[1:],
    'e2-bytes-39-of-1': bytes(7) + trailer(4, 4, 5, 20),
    'e2-trailer-alone': trailer_2(4, 4, 5, 20),
    'e2-tag': small_2({}, {}, tag=b'RMAQ'),
    'e2-version-0': small_2({}, {}, version=0),
    'e2-version-1': small_2({}, {}, version=1),
    'e2-version-3': small_2({}, {}, version=3),
    'e2-version-258': small_2({}, {}, version=258),
    'e2-in-1': small({0: 2, 2: 0}, {0: [0, 1], 2: [3, 4], 4: [X, X, X, TRAILER_2_WORD]}),
    'e2-in-1-of-wrong-length': image(4, 4, 5, 20, maps={4: [X, X, X, TRAILER_2_WORD]}, end=trailer(4, 4, 5, 20, length=232)),
    'e2-1-in-2': small_2({}, {4: [X, *struct.unpack('<4Q', trailer(4, 4, 5, 20))]}),
    'e2-1-behind': THIRD_2 + trailer(4, 4, 5, 20),
    'e2-1-behind-of-its-length': THIRD_2 + trailer(4, 4, 5, 20, length=304),
    'e2-behind-1': THIRD + trailer_2(4, 4, 5, 20),
    # 3 GEOMETRY by a distance, a length or the last number
    'e2-links-back': small_2({}, {}, links_back=192),
    'e2-maps-back': small_2({}, {}, maps_back=160),
    'e2-length-field': small_2({}, {}, length=264),
    'e2-p-words': image(4, 4, 5, 20, end=trailer_2(4, 4, 5, 20, links_back=192, maps_back=160, length=232)),
    'e2-slack': bytes(8) + THIRD_2,
    'e2-slack-in-length': bytes(8) + small_2({}, {}, length=280),
    'e2-first-byte-lost': THIRD_2[1:],
    'e2-last-byte-lost': THIRD_2[:-1],
    'e2-last-number': small_2({}, {}, last_number=1),
    'e2-last-number-high': small_2({}, {}, last_number=2**31),
    'e2-bytes-41257': b'\xff' + LARGEST_2,
    'foreign-41256': bytes(41256),
    'foreign-41257': bytes(41257),
    # 4 BAD LINK
    'e2-link-m': small_2({1: 5}, {}),
    'e2-link-32-bits-of-x': small_2({1: 2**32 - 1}, {}),
    'e2-link-after-bad-map': small_2({0: 0, 1: 9}, {}),
    # 5 BAD MAP, by the size of a map on two units, or by its units
    'e2-size-0': sized(0),
    'e2-size-1-unit': sized(4096),
    'e2-size-3-units': sized(8193),
    'e2-size-one-unit-less': sized(6144 - 4096),
    'e2-size-one-unit-more': sized(6144 + 4096),
    'e2-size-above-p': sized(16385, range(4)),
    'e2-size-of-none': sized(0, []),
    'e2-size-and-2-32': sized(2**32 + 6144),
    'e2-size-2-32': sized(2**32),
    'e2-size-x': sized(X),
    'e2-size-left-out': small_2({0: 0}, {0: [1, 2, 3]}),
    'e2-map-of-none': small_2({0: 0}, {}),
    'e2-map-unit-n': sized(4096, [20]),
    'e2-map-hole': sized(8192, [1, X, 2]),
    'e2-map-32-bits-of-x': sized(4096, [1, 2**32 - 1]),
    'e2-map-bad-and-shared': small_2({0: 0, 3: 0}, {0: [8192, 1]}),
    # 6 SHARED
    'e2-map-twice': small_2({0: 0, 3: 0}, {0: [8192, 0, 1]}),
    'e2-unit-in-two-maps': small_2({0: 0, 2: 1}, {0: [8192, 0, 1], 1: [8191, 2, 1]}),
    'e2-unit-twice-in-a-map': small_2({1: 0}, {0: [12288, 5, 6, 5]}),
    'e2-map-twice-last': image_2(2, 256, 257, 514, {0: 0, 255: 0}, {0: [8192, 0, 1]}),
    # reserved units, R up to N-P, sound: fresh, after the third write, full, with unit R held, and with reserved units in dead maps
    'r-fresh': small_2({}, {}, reserved=3),
    'r-volume': small_2({0: 2, 2: 0}, {0: [6144, 3, 4], 1: [3072, 5], 2: [5120, 6, 7]}, reserved=3),
    'r-1': small_2({}, {}, reserved=1),
    'r-n-less-p': small_2({}, {}, reserved=16),
    'r-n-less-p-full': small_2({3: 4}, {4: [16384, 19, 16, 18, 17]}, reserved=16),
    'r-unit-r': small_2({0: 2, 2: 0}, {0: [6144, 3, 4], 2: [5120, 19, 5]}, reserved=3),
    'r-full': small_2({i: i for i in range(4)}, {k: [16384, *range(4 * k + 4, 4 * k + 8)] for k in range(4)}, reserved=4),
    'r-dead-maps': small_2({2: 0}, {0: [6144, 3, 4], 1: [3072, 0], 3: [8192, 1, 2], 4: [X, 2, 2, 0, X]}, reserved=3),
    'r-size-below-r': small_2({0: 0}, {0: [2, 7]}, reserved=3),
    'r-largest': raw_2(16, 256, 288, 512),
    'r-64-unit-64': image_2(16, 8, 9, 144, {7: 8}, {8: [1, 64]}, trailer_2(16, 8, 9, 144, reserved=64)),
    'r-65-unit-65': image_2(16, 8, 9, 144, {7: 8}, {8: [1, 65]}, trailer_2(16, 8, 9, 144, reserved=65)),
    # 3 GEOMETRY by R
    'r-n-less-p-and-1': small_2({}, {}, reserved=17),
    'r-n': small_2({}, {}, reserved=20),
    'r-high': small_2({}, {}, reserved=2**31),
    'r-high-and-3': small_2({}, {}, reserved=2**31 + 3),
    'r-32-bits-of-x': small_2({}, {}, reserved=2**32 - 1),
    'r-and-last-number': small_2({}, {}, reserved=3, last_number=1),
    'r-1-of-n-p': image_2(4, 4, 5, 4, end=trailer_2(4, 4, 5, 4, reserved=1)),
    'r-n-below-p': image_2(4, 4, 5, 3, end=trailer_2(4, 4, 5, 3, reserved=1)),
    'r-n-below-p-high': image_2(4, 4, 5, 3, end=trailer_2(4, 4, 5, 3, reserved=2**32 - 1)),
    'r-n-0': image_2(4, 4, 5, 0, end=trailer_2(4, 4, 5, 0, reserved=2**32 - 4)),
    'r-before-bad-map': small_2({0: 0}, {0: [1, 0]}, reserved=17),
    # 5 BAD MAP by a reserved unit, after any 4 and before any 6
    'r-unit-r-less-1': small_2({0: 2, 2: 0}, {0: [6144, 3, 4], 2: [5120, 5, 2]}, reserved=3),
    'r-unit-0': small_2({1: 0}, {0: [4096, 0]}, reserved=1),
    'r-unit-first': small_2({1: 0}, {0: [8192, 2, 3]}, reserved=3),
    'r-unit-last': small_2({1: 0}, {0: [16384, 3, 4, 5, 0]}, reserved=3),
    'r-unit-r-and-2-32': small_2({1: 0}, {0: [4096, 2**32 + 3]}, reserved=3),
    'r-unit-between': small_2({1: 0}, {0: [12288, 3, 1, 4]}, reserved=3),
    'r-unit-n-less-p': small_2({3: 4}, {4: [16384, 15, 16, 17, 18]}, reserved=16),
    'r-unit-and-shared': small_2({0: 0, 1: 1, 3: 0}, {0: [8192, 2, 3], 1: [4096, 4]}, reserved=3),
    'r-unit-in-two-maps': small_2({0: 0, 1: 1}, {0: [8192, 3, 2], 1: [8192, 4, 2]}, reserved=3),
    'r-unit-after-shared': small_2({0: 0, 1: 0, 2: 1}, {0: [8192, 3, 4], 1: [1, 1]}, reserved=3),
    'r-link-after-unit': small_2({0: 0, 3: 5}, {0: [1, 0]}, reserved=3),
    'r-64-unit-63': image_2(16, 8, 9, 144, {7: 8}, {8: [1, 63]}, trailer_2(16, 8, 9, 144, reserved=64)),
    'r-65-unit-64': image_2(16, 8, 9, 144, {7: 8}, {8: [1, 64]}, trailer_2(16, 8, 9, 144, reserved=65)),
    # 6 SHARED
    'r-shared': small_2({0: 0, 3: 0}, {0: [8192, 3, 4]}, reserved=3),
    'r-unit-shared': small_2({0: 0, 1: 1}, {0: [8192, 3, 4], 1: [8192, 5, 3]}, reserved=3),
}

# arguments that name no file: a missing one, the folder itself, an empty name
NO_FILE = ['missing', '.', '']


def store(folder, files, args, stdout):
    """Writes a stored run: the files of data/, and the lines of args and of stdout."""
    data = os.path.join(folder, 'data')
    os.makedirs(data, exist_ok=True)
    for old in os.listdir(data):
        os.remove(os.path.join(data, old))
    for name, content in files.items():
        with open(os.path.join(data, name), 'wb') as f:
            f.write(content)
    for name, lines in (('args', args), ('stdout', stdout)):
        with open(os.path.join(folder, name), 'w') as f:
            f.write(''.join(line + '\n' for line in lines))


def main():
    stdout = []
    for name, content in CASES.items():
        stdout += [name] + listing(content)
    for name in NO_FILE:
        stdout += [name, 's UNREADABLE']
    store(HERE, CASES, list(CASES) + NO_FILE, stdout)


if __name__ == '__main__':
    main()
