#!/usr/bin/env python3
"""draw.py FOLDER           makes shells.png, opened.png and slices.png in FOLDER from the files that the program demo wrote there
draw.py --same ONE OTHER  ends with 1 unless two PNG files show the same pixels

Only the standard library is used, and the same files give the same pixels on every machine."""
import math
import pathlib
import struct
import sys
import zlib

INK, SOFT, LINE, PAPER = (38, 43, 54), (104, 111, 124), (214, 217, 223), (250, 250, 251)
EARS = {"left": ((19, 66, 160), (133, 178, 245)), "right": ((158, 20, 32), (245, 146, 146))}  # deep in the wall, at its surface
OUTSIDE = ((198, 203, 212), (245, 246, 248))                                               # at the surface, away from it
BAND = 5


# ---- files ----


def read_pnm(path):
    """Width, height, comment and samples of a binary PGM or PPM file."""
    data, at, words, comment = path.read_bytes(), 0, [], ""
    while len(words) < 4:
        end = data.index(b"\n", at)
        line, at = data[at:end].decode("ascii"), end + 1
        if line.startswith("#"):
            comment = line[1:].strip()
        else:
            words += line.split()
    return int(words[1]), int(words[2]), comment, data[at:]


def chunk(kind, data):
    return struct.pack(">I", len(data)) + kind + data + struct.pack(">I", zlib.crc32(kind + data))


def less(row, other):
    """Byte by byte row - other, modulo 256: even and odd bytes in one subtraction each."""
    pairs = len(row) // 2 + 1
    low, carry = int.from_bytes(b"\xff\0" * pairs, "little"), int.from_bytes(b"\0\1" * pairs, "little")
    a, b = int.from_bytes(row, "little"), int.from_bytes(other, "little")
    even, odd = (a & low) + carry - (b & low) & low, (a >> 8 & low) + carry - (b >> 8 & low) & low
    return (even | odd << 8).to_bytes(2 * pairs + 1, "little")[: len(row)]


def write_png(path, wide, high, pixels):
    """Each row is filtered by the row above or by the pixel to the left, whichever leaves less."""
    size, rows, above = bytes(min(v, 256 - v) for v in range(256)), [], bytes(3 * wide)
    for y in range(high):
        row = bytes(pixels[3 * wide * y : 3 * wide * (y + 1)])
        rows.append(min((b"\2" + less(row, above), b"\1" + less(row, bytes(3) + row[:-3])), key=lambda f: sum(f.translate(size))))
        above = row
    header = struct.pack(">IIBBBBB", wide, high, 8, 2, 0, 0, 0)
    path.write_bytes(b"\x89PNG\r\n\x1a\n" + chunk(b"IHDR", header) + chunk(b"IDAT", zlib.compress(b"".join(rows), 9)) + chunk(b"IEND", b""))


def read_png(path):
    """Header and filtered rows, of files that write_png made. The filters follow from the pixels, so that equal pixels have equal rows."""
    data, at, chunks = path.read_bytes(), 8, {}
    while at < len(data):
        (length,), kind = struct.unpack(">I", data[at : at + 4]), data[at + 4 : at + 8]
        body = data[at + 8 : at + 8 + length]
        if data[at : at + 12 + length] != chunk(kind, body):
            raise ValueError(f"{path}: a damaged chunk")
        chunks[kind] = chunks.get(kind, b"") + body
        at += 12 + length
    return chunks[b"IHDR"], zlib.decompress(chunks[b"IDAT"])


# ---- lettering ----

# The strokes of a letter: points of one digit each for x and y, joined in order. 2 is the base line, 6 the height of an x, 8 that of a capital.
LETTERS = {
    "E": "48080242 0535", "F": "480802 0535", "G": "47381807031232434525", "H": "0802 4842 0545", "I": "0802", "L": "080242", "R": "0208384746350505 2542",
    "T": "0848 2822", "a": "4536160503123243 4642", "b": "0802 0516364543321203", "c": "4536160503123243", "d": "4842 4536160503123243", "e": "04444536160503123243",
    "f": "38281712 0636", "g": "4536160503123243 46413010", "h": "0802 0516364542", "i": "0602 0808", "k": "0802 3604 1542", "l": "0802", "m": "0602 0516263532 3546566562",
    "n": "0602 0516364542", "o": "160503123243453616", "p": "0600 0516364543321203", "r": "0602 051636", "s": "45361605143443321203", "t": "18132232 0636",
    "u": "0603123243 4642", "v": "062246", "w": "0612355266", "x": "0642 0246", "y": "0622 4610", "z": "06460242", "0": "180703123243473818", "1": "072822",
    "2": "07183847460242", "3": "071838474635 25354443321203", "4": "32380444", "5": "480805354443321203", "6": "4738180703123243443505", "7": "084812",
    "8": "15060718384746351504031232434435", "9": "0312324347381807061545", ".": "0202", ",": "1201", "-": "0434", "+": "0444 2622", "=": "0343 0545", " ": "",
}


def strokes(letter):
    return [[(int(s[i]), int(s[i + 1])) for i in range(0, len(s), 2)] for s in LETTERS[letter].split()]


def breadth(letter):
    return max([x for s in strokes(letter) for x, _ in s], default=1)


def away(px, py, ax, ay, bx, by):
    """How far a point is from a line between two."""
    dx, dy = bx - ax, by - ay
    t = max(0.0, min(1.0, ((px - ax) * dx + (py - ay) * dy) / (dx * dx + dy * dy or 1)))
    ex, ey = px - ax - t * dx, py - ay - t * dy
    return math.sqrt(ex * ex + ey * ey)


class Picture:
    def __init__(self, wide, high, pixels=None):
        self.wide, self.high = wide, high
        self.pixels = bytearray(pixels if pixels is not None else bytes(PAPER) * (wide * high))

    def blend(self, x, y, colour, cover):
        if cover > 0 and 0 <= x < self.wide and 0 <= y < self.high:
            at = 3 * (y * self.wide + x)
            for i in range(3):
                self.pixels[at + i] += int((colour[i] - self.pixels[at + i]) * cover + (0.5 if colour[i] > self.pixels[at + i] else -0.5))

    def path(self, points, width, colour):
        """A line through points, with round ends."""
        xs, ys, reach = [x for x, _ in points], [y for _, y in points], width / 2 + 1
        for y in range(math.floor(min(ys) - reach), math.ceil(max(ys) + reach)):
            for x in range(math.floor(min(xs) - reach), math.ceil(max(xs) + reach)):
                far = min(away(x + 0.5, y + 0.5, *a, *b) for a, b in zip(points, points[1:]))
                self.blend(x, y, colour, min(1.0, max(0.0, width / 2 + 0.5 - far)))

    def text(self, x, y, words, size, colour, weight=0.72, align=0.0):
        """Words on the base line y, their capitals so high; align 0 begins at x, 1 ends there."""
        unit = size / 6
        x -= align * sum(breadth(c) + 1.9 for c in words) * unit
        for c in words:
            for s in strokes(c):
                self.path([(x + px * unit, y + (2 - py) * unit) for px, py in s], weight * unit, colour)
            x += (breadth(c) + 1.9) * unit

    def box(self, x, y, wide, high, colour):
        for row in range(y, y + high):
            self.pixels[3 * (row * self.wide + x) : 3 * (row * self.wide + x + wide)] = bytes(colour) * wide

    def save(self, path):
        write_png(path, self.wide, self.high, self.pixels)
        print(f"draw: {path}")


# ---- slices ----


def between(a, b, t):
    return tuple(int(p + (q - p) * t + 0.5) for p, q in zip(a, b))


def colours(deep, surface, scale):
    """The colour of each 64th of a voxel from -BAND to BAND, with a line of ink where the distance is 0."""
    table = []
    for i in range(-64 * BAND, 64 * BAND + 1):
        d = i / 64
        colour = between(surface, deep, min(1.0, -d / 1.75)) if d < 0 else between(*OUTSIDE, min(1.0, d / BAND))
        table.append(bytes(between(colour, INK, 0.85 * max(0.0, min(1.0, 1.1 - abs(d) * scale)))))
    return table


def places(pixels):
    """For each pixel of a side, the voxel before its middle, the one after, and how far it is from the one to the other, of 2 * pixels."""
    found = []
    for pixel in range(pixels):
        whole, rest = divmod((2 * pixel + 1) * 128 - pixels, 2 * pixels)
        found.append((max(0, whole), min(127, whole + 1), rest))
    return found


def panel(picture, x, y, path, ear, pixels):
    """A slice, so many pixels a side. Gives its label."""
    _, _, label, data = read_pnm(path)
    values = struct.unpack(">16384H", data)
    table, steps, full = colours(*EARS[ear], pixels / 128), places(pixels), 2 * pixels
    wide = [[values[128 * r + a] * (full - t) + values[128 * r + b] * t for a, b, t in steps] for r in range(128)]
    least = (32768 - 4096 * BAND) * full * full
    for row, (a, b, t) in enumerate(steps):
        line = b"".join([table[(p * (full - t) + q * t - least) // (64 * full * full)] for p, q in zip(wide[a], wide[b])])
        at = 3 * ((y + row) * picture.wide + x)
        picture.pixels[at : at + len(line)] = line
    return label


def arrows(picture, x, y, right, up):
    picture.path([(x, y - 24), (x, y), (x + 24, y)], 1.4, SOFT)
    picture.path([(x - 4, y - 20), (x, y - 24), (x + 4, y - 20)], 1.4, SOFT)
    picture.path([(x + 20, y - 4), (x + 24, y), (x + 20, y + 4)], 1.4, SOFT)
    picture.text(x + 31, y + 3, right, 11, SOFT)
    picture.text(x - 3, y - 32, up, 11, SOFT)


def slices(folder):
    picture = Picture(1640, 820)
    for ear, left in (("left", 32), ("right", 840)):
        deep = EARS[ear][0]
        picture.text(left, 46, ear.upper(), 20, deep, 0.9)
        for n in range(2):
            x = left + 386 * n
            label = panel(picture, x, 66, folder / f"{ear}-{n + 1}.pgm", ear, 384)
            picture.text(x + 370, 86, label, 12, SOFT, align=1)
        for n in range(4):
            x = left + 193 * n
            label = panel(picture, x, 452, folder / f"{ear}-{n + 3}.pgm", ear, 191)
            picture.text(x + 95, 664, label, 12, SOFT, align=0.5)
        arrows(picture, left + 12, 436, "x", "")
        arrows(picture, left + 12, 634, "z", "y")
    for row, ear in enumerate(EARS):
        table = colours(*EARS[ear], 64)
        for i in range(640):
            picture.box(500 + i, 706 + 20 * row, 1, 19, table[i])
    for d in range(-BAND, BAND + 1):
        picture.text(820 + 64 * d, 770, f"{d:+d}" if d else "0", 12, INK, align=0.5)
    picture.text(820, 798, "distance to the surface in voxels of 0.2 mm", 12, SOFT, align=0.5)
    for left in (32, 840):
        picture.path([(left + 679, 425), (left + 679, 435), (left + 679, 430), (left + 754, 430), (left + 754, 425), (left + 754, 435)], 1.4, SOFT)
        picture.text(left + 717, 417, "5 mm", 12, SOFT, align=0.5)
    picture.save(folder / "slices.png")


# ---- views ----

# Words, where they begin, end (1) or have their middle (0.5), and a line from them to what they name.
SHELLS = [("vent 1.2 mm", 60, 104, 0, []), ("vent 1.6 mm", 1540, 104, 1, [])]
OPENED = [
    ("wall 0.7 mm", 440, 98, 0, [(432, 100), (346, 143)]),
    ("faceplate", 44, 380, 0, [(154, 376), (184, 372)]),
    ("cavity", 380, 262, 0, []),
    ("vent 1.2 mm", 560, 484, 0, [(616, 466), (592, 328)]),
    ("vent 1.6 mm", 1062, 484, 1, [(992, 466), (1006, 328)]),
    ("bore for the sound", 806, 236, 0.5, [(796, 248), (767, 394)]),
]


def view(folder, name, notes):
    wide, high, _, pixels = read_pnm(folder / f"{name}.ppm")
    picture = Picture(wide, high, pixels)
    picture.text(60, 70, "LEFT", 24, EARS["left"][0], 0.9)
    picture.text(wide - 60, 70, "RIGHT", 24, EARS["right"][0], 0.9, align=1)
    for words, x, y, align, line in notes:
        picture.text(x, y, words, 13, INK, align=align)
        if line:
            picture.path(line, 1.2, INK)
            picture.path([line[-1], line[-1]], 5, INK)
    picture.save(folder / f"{name}.png")


def main(words):
    if len(words) == 3 and words[0] == "--same":
        return 0 if read_png(pathlib.Path(words[1])) == read_png(pathlib.Path(words[2])) else 1
    if len(words) != 1:
        print(__doc__, file=sys.stderr)
        return 2
    folder = pathlib.Path(words[0])
    view(folder, "shells", SHELLS)
    view(folder, "opened", OPENED)
    slices(folder)
    return 0


if __name__ == "__main__":
    sys.exit(main(sys.argv[1:]))
