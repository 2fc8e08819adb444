"""A reader of compound files by [MS-CFB] alone, of the names that a package's streams have, and of its texts. It shares nothing with the
program."""
import struct

LETTERS = "0123456789ABCDEFGHIJKLMNOPQRSTUVWXYZabcdefghijklmnopqrstuvwxyz._"
LAST = 0xFFFFFFFA


def numbers(data, width):
    return [int.from_bytes(data[at : at + width], "little") for at in range(0, len(data), width)]


def plain(name):
    """A stream's name without the packing of two letters into one, with `!` for the mark of a table."""
    found = ""
    for code in map(ord, name):
        if 0x3800 <= code < 0x4800:
            found += LETTERS[code - 0x3800 & 63] + LETTERS[code - 0x3800 >> 6]
        elif 0x4800 <= code < 0x4840:
            found += LETTERS[code - 0x4800]
        else:
            found += "!" if code == 0x4840 else chr(code)
    return found


def tables(path):
    """Of a compound file whose FAT is listed in the header: the entries of its directory, its mini FAT, the bytes of its mini stream, and what
    gives those of a chain."""
    data = path.read_bytes()
    size = 1 << struct.unpack_from("<H", data, 30)[0]
    count, first = struct.unpack_from("<2I", data, 44)

    def sector(number):
        return data[(number + 1) * size : (number + 2) * size]

    fat = [it for place in struct.unpack_from("<109I", data, 76)[:count] for it in numbers(sector(place), 4)]

    def chain(number):
        found = b""
        while number < LAST:
            found, number = found + sector(number), fat[number]
        return found

    mini_fat = numbers(chain(struct.unpack_from("<I", data, 60)[0]), 4)
    directory = chain(first)
    entries = [directory[at : at + 128] for at in range(0, len(directory), 128)]
    return entries, mini_fat, chain(struct.unpack_from("<I", entries[0], 116)[0]), chain


def facts(path):
    """The root's size, how many bytes the sectors of the mini stream have, and how many entries in use are black and red."""
    entries, _, mini, _ = tables(path)
    size = struct.unpack_from("<Q", entries[0], 120)[0] & 0xFFFFFFFF
    colors = [it[67] for it in entries if it[66]]
    return f"root {size} of {len(mini)} bytes, {colors.count(1)} black, {colors.count(0)} red"


def name_of(entry):
    return entry[: max(struct.unpack_from("<H", entry, 64)[0] - 2, 0)].decode("utf-16-le")


def storages(path):
    """The plain names of all storages but the root, each with the bytes of its class, its state bits and its two times."""
    return [(plain(name_of(it)), it[80:116]) for it in tables(path)[0] if it[66] == 1]


def streams(path):
    """The streams under the root of such a file, by their plain names, in the order of their tree."""
    entries, mini_fat, mini, chain = tables(path)

    def content(entry):
        number, length = struct.unpack_from("<IQ", entry, 116)
        length &= 0xFFFFFFFF
        if length >= 4096:
            return chain(number)[:length]
        found = b""
        while number < LAST:
            found, number = found + mini[number * 64 : number * 64 + 64], mini_fat[number]
        return found[:length]

    def siblings(number):
        if number > LAST:
            return []
        left, right = struct.unpack_from("<2I", entries[number], 68)
        return [*siblings(left), entries[number], *siblings(right)]

    found = siblings(struct.unpack_from("<I", entries[0], 76)[0])
    return {plain(name_of(it)): content(it) for it in found if it[66] == 2}


def pool(found):
    """The texts and the counts of the pool's places, from place 0 on, and how many bytes a reference has."""
    words, data = numbers(found["!_StringPool"], 2), found["!_StringData"]
    texts, counts, at, begin = [b""], [0], 2, 0
    while at < len(words):
        length, count = words[at : at + 2]
        if not length and count:
            at += 2
            length, count = count << 16 | words[at], words[at + 1]
        texts.append(data[begin : begin + length])
        counts.append(count)
        begin, at = begin + length, at + 2
    return texts, counts, 3 if words[1] & 0x8000 else 2
