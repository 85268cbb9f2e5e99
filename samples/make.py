#!/usr/bin/env python3
# Makes the sample disks beside it, always the same bytes. README.md here says what each is for.
import os

HERE = os.path.dirname(os.path.abspath(__file__))
PAIRS = 122  # pairs that DOS writes to one list


# A disk of 35 tracks by 16 sectors (DOS 3.3), or by 13 (DOS 3.2). Its catalog is on track 17, or on another.
class Disk:
    def __init__(self, volume, pages, first_free=3, per=16, catalog=17):
        self.per = per
        self.catalog = catalog
        self.d = bytearray(35 * per * 256)
        v = self.vtoc = 17 * per * 256
        self.d[v + 1], self.d[v + 2], self.d[v + 3], self.d[v + 6] = catalog, per - 1, 3 if per == 16 else 2, volume
        self.d[v + 39], self.d[v + 48], self.d[v + 49] = 122, 18, 1
        self.d[v + 52], self.d[v + 53], self.d[v + 55] = 35, per, 1
        for t in range(first_free, 35):
            for s in range(per):
                self.map(t, s, True)
        self.map(17, 0, False)
        self.pages = [(catalog, per - 1 - k) for k in range(pages)]
        for k, p in enumerate(self.pages):
            self.map(*p, False)
            if k + 1 < pages:
                self.link(p, self.pages[k + 1])
        self.entries = 0

    # The byte of the VTOC's map that has a sector, and its bit there. The highest sector has the highest bit of the track's first byte.
    def in_map(self, t, s):
        bit = s + 16 - self.per
        return self.vtoc + 56 + 4 * t + (0 if bit > 7 else 1), 1 << (bit % 8)

    # A sector is free (True) or used in the VTOC's map.
    def map(self, t, s, free):
        at, bit = self.in_map(t, s)
        self.d[at] = self.d[at] | bit if free else self.d[at] & ~bit

    def is_free(self, t, s):
        at, bit = self.in_map(t, s)
        return self.d[at] & bit != 0

    def put(self, p, at, data):
        start = 256 * (self.per * p[0] + p[1]) + at
        self.d[start:start + len(data)] = data

    def link(self, p, q):
        self.put(p, 1, bytes(q))

    # The next free sector, as DOS takes them: from track 17 outwards, the highest sector of a track first, none of the catalog's track.
    # A list does not stand on a sector 0.
    def take(self, for_list=False):
        for t in list(range(18, 35)) + list(range(16, 2, -1)):
            if t == self.catalog:
                continue
            for s in range(self.per - 1, 0 if for_list else -1, -1):
                if self.is_free(t, s):
                    self.map(t, s, False)
                    return (t, s)
        raise SystemExit('the disk is full')

    # The next entry: 30 bytes of name, with the high bit set if plain is false.
    def entry(self, name, kind, first, count, locked=False, plain=False):
        page = self.pages[self.entries // 7]
        self.put(page, 11 + 35 * (self.entries % 7), record(name, kind, first, count, locked, plain))
        self.entries += 1

    # An entry that was deleted: list track FFh, the old one in the name's last byte.
    def deleted(self, name):
        self.entry(name, 4, (255, self.per - 1), 2)
        page = self.pages[(self.entries - 1) // 7]
        self.put(page, 11 + 35 * ((self.entries - 1) % 7) + 32, bytes([18]))

    # A file: its lists, its sectors, its entry. The places of the lists and of the sectors are given back.
    def file(self, name, kind, data, locked=False, plain=False, pairs=PAIRS):
        count = (len(data) + 255) // 256
        lists = [self.take(True)]
        sectors = []
        for k in range(count):
            if k and k % pairs == 0:
                lists.append(self.take(True))
                self.link(lists[-2], lists[-1])
                self.put(lists[-1], 5, k.to_bytes(2, 'little'))
            sectors.append(self.take())
            self.put(lists[-1], 12 + 2 * (k % pairs), bytes(sectors[-1]))
            self.put(sectors[-1], 0, data[256 * k:256 * k + 256])
        self.entry(name, kind, lists[0], len(lists) + count, locked, plain)
        return lists, sectors

    def write(self, name):
        with open(os.path.join(HERE, name), 'wb') as f:
            f.write(self.d)


# The 35 bytes of an entry.
def record(name, kind, first, count, locked=False, plain=False):
    raw = name.encode('latin-1').ljust(30)
    raw = raw if plain else bytes(b | 0x80 for b in raw)
    head = bytes([first[0], first[1], kind | (0x80 if locked else 0)])
    return head + raw + count.to_bytes(2, 'little')


# The bytes of a line: for each ring of the tunnel its number, and where its centre lies, in millimetres, three bytes each.
def line(number, size):
    out = bytearray()
    ring = 0
    while len(out) < size:
        x, y, z = 1500 * ring, 40 * ring * ring // 100 + number, 50000 - 3 * ring
        for v in (ring, x, y, z):
            out += (v % 16777216).to_bytes(3, 'little')
        ring += 1
    return bytes(out[:size])


# A Binary file: address, length, data.
def binary(data, address=0x4000, length=None):
    n = len(data) if length is None else length
    return address.to_bytes(2, 'little') + n.to_bytes(2, 'little') + data


def text(*lines):
    return b''.join(bytes(b | 0x80 for b in l.encode()) + b'\x8d' for l in lines)


def one_page():
    d = Disk(254, 1)
    d.file('LINE 7 RING 1', 4, binary(line(7, 700)), locked=True)
    d.file('LINE 7 RINGS 2 TO 2667', 4, binary(line(8, 32000)))
    d.deleted('LINE 6 OLD')
    d.file('LINE 7 STATIONS', 4, binary(line(9, 252)))
    d.file('SHIFT NOTES', 0, text('RING 2 GROUTED', 'CUTTER 14 CHANGED', 'LASER 3 MOVED AT RING 118'))
    return d


def several_pages():
    d = Disk(7, 3)
    d.file('HELLO', 2, b'\x20\x00' + bytes(32), locked=True)
    for k in range(1, 5):
        d.file('LINE %d RING 1' % k, 4, binary(line(k, 400 * k)), locked=k == 2)
    d.deleted('LINE 5 RING 1')
    d.file('MENU', 1, bytes(300))
    d.file('SURVEY S', 8, bytes(256))
    d.file('SURVEY R', 10, bytes(256))
    d.file('SURVEY AT', 20, bytes(256))
    d.file('SURVEY BT', 40, bytes(256))
    d.file('SURVEY 16', 16, bytes(256))
    d.file('BELL\x07 AND ESCAPE\x1b[2J', 4, binary(line(20, 90)))
    d.file('BACK\\SLASH', 4, binary(line(21, 91)))
    d.file('', 0, b'')
    d.file('lower case, high bits clear', 4, binary(line(22, 92)), plain=True)
    d.file('THIRTY LETTERS IN THIS NAME 30', 4, binary(line(23, 4096)), pairs=10)
    d.file('LINE 9 CUT SHORT', 4, binary(line(24, 252), length=253))
    # The name of the first line file once more: fetched by name, it is this one.
    _, twice = d.file('LINE 1 RING 1', 4, binary(line(25, 600)))
    # The last file has a sector of the one before. Its own is in no chain, and the map calls a sector in a chain free.
    lists, _ = d.file('SHARES A SECTOR', 4, binary(line(26, 100)))
    d.put(lists[0], 12, bytes(twice[0]))
    d.map(*twice[1], True)
    return d


def ring():
    d = Disk(254, 1)
    d.file('LINE 7 RING 1', 4, binary(line(7, 700)))
    lists, _ = d.file('LINE 7 RINGS 2 TO 90', 4, binary(line(8, 2500)), pairs=4)
    d.file('LINE 7 STATIONS', 4, binary(line(9, 252)))
    d.link(lists[2], lists[1])
    return d


def ring_of_pages():
    d = Disk(254, 4)
    for k in range(1, 16):
        d.file('LINE 7 RING %d' % k, 4, binary(line(k, 200)))
    d.link(d.pages[3], d.pages[1])
    return d


def cut_link():
    d = Disk(254, 1)
    d.file('LINE 7 RING 1', 4, binary(line(7, 700)))
    lists, _ = d.file('LINE 7 RINGS 2 TO 90', 4, binary(line(8, 2500)), pairs=4)
    d.link(lists[1], (lists[2][0], 0))
    return d


def full():
    d = Disk(254, 15)
    for k in range(105):
        d.file('LINE %d RING %d' % (1 + k // 7, 1 + k % 7), 4, binary(line(k, (1000 if k < 76 else 750))))
    return d


def overlong():
    d = Disk(254, 3)
    lists, sectors = d.file('LINE 1', 4, binary(line(1, 65532)))
    for k in range(2, 17):
        d.entry('LINE %d' % k, 4, lists[0], len(lists) + len(sectors))
    return d


# Lists with 121 pairs, with 122 and no next list, and with 122 and a next list.
def last_pair():
    d = Disk(254, 1)
    for k, sectors in enumerate((121, 122, 125)):
        d.file('DRIVE OF %d SECTORS' % sectors, 4, binary(line(41 + k, 256 * sectors - 4)))
    return d


# The same files on a disk of 13 sectors a track and on one of 16.
def two_editions(per, catalog=17):
    d = Disk(32, 2, per=per, catalog=catalog)
    d.file('HELLO', 1, bytes(range(200)), locked=True)
    d.file('LINE 2 RING 1', 4, binary(line(31, 700)), locked=True)
    d.file('LINE 2 RINGS 2 TO 2603', 4, binary(line(32, 31232)))
    d.deleted('LINE 2 OLD')
    d.file('LINE 2 STATIONS', 4, binary(line(33, 252)))
    d.file('SHIFT NOTES', 0, text('RING 9 GROUTED', 'PUMP 2 CHANGED'))
    d.file('LINE 2 SHAFTS', 4, binary(line(34, 1400)))
    d.file('LINE 2 PORTALS', 4, binary(line(35, 96)))
    d.file('LINE 2 CROSSOVERS', 4, binary(line(36, 2000)), locked=True, pairs=5)
    return d


# The same files once more, with the catalog on track 11. On track 17 an old page is left, which nothing leads to.
def moved_catalog():
    d = two_editions(16, catalog=11)
    d.put((17, 15), 11, record('LINE 2 BEFORE THE MOVE', 4, (18, 15), 2))
    return d


# Names that show alike and are cut differently: A with and without the high bit of its letter, and a name of 30 letters with the high bits and without. The name of a
# line file stands twice and is cut the same.
def alike():
    d = Disk(254, 1)
    d.file('A', 4, binary(line(51, 100)))
    d.file('A', 4, binary(line(52, 200)))
    d.put(d.pages[0], 11 + 35 + 3, b'\x41')
    for plain in (False, True):
        d.file('THIRTY LETTERS, HIGH OR LOW 30', 4, binary(line(53, 300)), plain=plain)
    d.file('LINE 8 RING 1', 4, binary(line(54, 400)))
    d.file('LINE 8 RING 1', 4, binary(line(55, 500)), locked=True)
    d.file('SHIFT NOTES', 0, text('RING 1 HAS TWO FILES'))
    return d


# Sectors that serve two purposes, and held ones that the map calls free. Sectors in no chain that it calls used do not matter.
def crossed():
    d = Disk(254, 2)
    lists, sectors = d.file('PAIR TWICE', 4, binary(line(61, 700)))
    d.put(lists[0], 14, bytes(sectors[0]))
    lists, _ = d.file('ONE LIST', 4, binary(line(62, 300)))
    d.entry('THE SAME LIST', 4, lists[0], 3, locked=True)
    lists, _ = d.file('HOLDS A PAGE', 4, binary(line(63, 500)))
    d.put(lists[0], 14, bytes(d.pages[1]))
    lists, _ = d.file('HOLDS THE VTOC', 4, binary(line(64, 500)))
    d.put(lists[0], 14, bytes((17, 0)))
    free, sectors = d.file('FREE IN THE MAP', 4, binary(line(65, 700)))
    lists, _ = d.file('SHARED AND FREE', 4, binary(line(66, 500)))
    d.put(lists[0], 14, bytes(sectors[1]))
    d.file('LINE 7 RING 1', 4, binary(line(7, 700)), locked=True)
    for p in (free[0], sectors[1]):
        d.map(*p, True)
    for s in range(12, 16):
        d.map(30, s, False)
    return d


# A flat disk as nibbles (document 01: the nibble writer).
WRITE = [0x96, 0x97, 0x9A, 0x9B, 0x9D, 0x9E, 0x9F, 0xA6, 0xA7, 0xAB, 0xAC, 0xAD, 0xAE, 0xAF, 0xB2, 0xB3,
         0xB4, 0xB5, 0xB6, 0xB7, 0xB9, 0xBA, 0xBB, 0xBC, 0xBD, 0xBE, 0xBF, 0xCB, 0xCD, 0xCE, 0xCF, 0xD3,
         0xD6, 0xD7, 0xD9, 0xDA, 0xDB, 0xDC, 0xDD, 0xDE, 0xDF, 0xE5, 0xE6, 0xE7, 0xE9, 0xEA, 0xEB, 0xEC,
         0xED, 0xEE, 0xEF, 0xF2, 0xF3, 0xF4, 0xF5, 0xF6, 0xF7, 0xF9, 0xFA, 0xFB, 0xFC, 0xFD, 0xFE, 0xFF]


def four(v):
    return bytes([v >> 1 | 0xAA, v | 0xAA])


def coded(b):
    values = []
    for j in range(86):
        v = 0
        for k in range(3):
            if j + 86 * k < 256:
                low = b[j + 86 * k] & 3
                v |= (low >> 1 | (low & 1) << 1) << 2 * k
        values.append(v)
    values += [x >> 2 for x in b]
    steps = [values[0]] + [values[k] ^ values[k - 1] for k in range(1, 342)] + [values[341]]
    return bytes(WRITE[s] for s in steps)


def nibbles(d):
    volume = d[17 * 4096 + 6]
    out = bytearray()
    for t in range(35):
        for p in range(16):
            s = 15 if p == 15 else 7 * p % 15
            start = 4096 * t + 256 * s
            out += b'\xff' * 48 + b'\xd5\xaa\x96' + four(volume) + four(t) + four(p) + four(volume ^ t ^ p) + b'\xde\xaa\xeb'
            out += b'\xff' * 5 + b'\xd5\xaa\xad' + coded(d[start:start + 256]) + b'\xde\xaa\xeb'
    return bytes(out)


# A disk of 13 sectors a track as nibbles (document 02: 5-and-3). WRITE_13 are the bytes from ABh up that have no two zero bits in a row, without D5h.
WRITE_13 = [b for b in range(0xAB, 256) if b != 0xD5 and '00' not in bin(b)]


# 256 bytes go into 154 values of low bits, the last first, and 256 values of the high five.
def coded_13(b):
    high = [0] * 256
    low = [0] * 154
    for n in range(51):
        five = b[5 * n:5 * n + 5]
        k = 50 - n
        for r in range(5):
            high[k + 51 * r] = five[r] >> 3
        for r in range(3):
            low[k + 51 * r] = (five[r] & 7) << 2 | (five[3] >> (2 - r) & 1) << 1 | five[4] >> (2 - r) & 1
    high[255] = b[255] >> 3
    low[153] = b[255] & 7
    values = low[::-1] + high
    steps = [values[0]] + [values[k] ^ values[k - 1] for k in range(1, 410)] + [values[409]]
    return bytes(WRITE_13[s] for s in steps)


# The sectors of a track lie ten apart: 0, 10, 7, 4, 1 and so on.
def nibbles_13(d):
    volume = d[17 * 3328 + 6]
    out = bytearray()
    for t in range(35):
        for k in range(13):
            s = 10 * k % 13
            start = 256 * (13 * t + s)
            out += b'\xff' * 40 + b'\xd5\xaa\xb5' + four(volume) + four(t) + four(s) + four(volume ^ t ^ s) + b'\xde\xaa\xeb'
            out += b'\xff' * 9 + b'\xd5\xaa\xad' + coded_13(d[start:start + 256]) + b'\xde\xaa\xeb'
    return bytes(out)


def main():
    one_page().write('one-page.dsk')
    several_pages().write('several-pages.dsk')
    ring().write('ring.dsk')
    ring_of_pages().write('ring-of-pages.dsk')
    cut_link().write('cut-link.dsk')
    full().write('full.dsk')
    overlong().write('overlong.dsk')
    last_pair().write('last-pair.dsk')
    with open(os.path.join(HERE, 'one-page.nib'), 'wb') as f:
        f.write(nibbles(one_page().d))
    two_editions(13).write('thirteen.dsk')
    two_editions(16).write('same-files.dsk')
    moved_catalog().write('moved-catalog.dsk')
    alike().write('alike.dsk')
    crossed().write('crossed.dsk')
    with open(os.path.join(HERE, 'thirteen.nib'), 'wb') as f:
        f.write(nibbles_13(two_editions(13).d))


main()
