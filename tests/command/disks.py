"""Makes disk images of AmigaDOS, OFS and FFS, by what is published of these: with folders, deleted files, and damage. It shares
nothing with the package."""

import struct

BLOCK, BLOCKS, ENTRIES, ROOT = 512, 1760, 72, 880
HEADER, DATA, LIST = 2, 8, 16
IS_ROOT, IS_FOLDER, IS_FILE = 1, 2, -3 % 2**32


def hash_of(name):
    value = len(name)
    for byte in name:
        value = (value * 13 + (byte - 32 if 97 <= byte <= 122 else byte)) & 0x7FF
    return value % ENTRIES


class Image:
    """An image, whose files get the blocks in the order of `numbers`."""

    def __init__(self, is_fast, numbers=None):
        self.is_fast, self.longs = is_fast, {}
        self.numbers = iter(numbers or [*range(2, ROOT), *range(ROOT + 2, BLOCKS)])
        self.payload = {}
        self.names, self.parents = {}, {}
        self._header(ROOT, IS_ROOT, b"Disk", 0)
        self.longs[ROOT].update({3: ENTRIES, 78: 2**32 - 1, 79: ROOT + 1})
        # All blocks are free, as far as the bitmap says.
        self.longs[ROOT + 1] = {i: 2**32 - 1 for i in range(1, 56)}

    def _header(self, number, kind, name, parent):
        self.longs[number] = {0: HEADER, 125: parent, 127: kind}
        if kind != IS_ROOT:
            self.longs[number][1] = number
        self.names[number], self.parents[number] = name, parent

    def _link(self, number):
        """Puts a header into its folder, in front of those with the same hash."""
        folder = self.longs[self.parents[number]]
        place = 6 + hash_of(self.names[number])
        self.longs[number][124] = folder.get(place, 0)
        folder[place] = number

    def unlink(self, number):
        """Deletes a file, as AmigaDOS does: its blocks stay as they are."""
        longs, place = self.longs[self.parents[number]], 6 + hash_of(self.names[number])
        while longs[place] != number:
            longs, place = self.longs[longs[place]], 124
        longs[place] = self.longs[number].get(124, 0)

    def folder(self, name, parent=ROOT):
        number = next(self.numbers)
        self._header(number, IS_FOLDER, name, parent)
        self._link(number)
        return number

    def file(self, name, data, parent=ROOT):
        """Adds a file, and gives its header."""
        header = next(self.numbers)
        self._header(header, IS_FILE, name, parent)
        size = BLOCK if self.is_fast else BLOCK - 24
        parts = [data[at : at + size] for at in range(0, len(data), size)]
        numbers = [next(self.numbers) for _ in parts]
        self.longs[header][81] = len(data)
        self.longs[header][4] = numbers[0] if numbers else 0
        for i, (number, part) in enumerate(zip(numbers, parts)):
            following = numbers[i + 1] if i + 1 < len(numbers) else 0
            self.longs[number] = {} if self.is_fast else {0: DATA, 1: header, 2: i + 1, 3: len(part), 4: following}
            self.payload[number] = part
        self._list(header, header, numbers)
        self._link(header)
        return header

    def _list(self, header, block, numbers):
        """Lists data blocks: 72 of them in the header, and as many in each block after it."""
        its, rest = numbers[:ENTRIES], numbers[ENTRIES:]
        self.longs[block].update({2: len(its), **{77 - i: it for i, it in enumerate(its)}})
        if rest:
            more = next(self.numbers)
            self.longs[block][126] = more
            self.longs[more] = {0: LIST, 1: more, 125: header, 127: IS_FILE}
            self._list(header, more, rest)

    def data_blocks(self, header):
        """The numbers of a file's first data blocks."""
        longs = self.longs[header]
        return [longs[77 - i] for i in range(longs[2])]

    def wipe(self, number):
        """Makes a block one of zeros."""
        self.longs.pop(number)
        self.names.pop(number, None)

    def bytes(self):
        made = bytearray(BLOCK * BLOCKS)
        made[:4] = b"DOS\1" if self.is_fast else b"DOS\0"
        for number, longs in self.longs.items():
            block = bytearray(BLOCK)
            for place, value in longs.items():
                struct.pack_into(">I", block, 4 * place, value)
            if number in self.names:
                name = self.names[number]
                block[432 : 433 + len(name)] = bytes([len(name)]) + name
            start = 0 if self.is_fast else 24
            part = self.payload.get(number, b"")
            block[start : start + len(part)] = part
            place = 0 if number == ROOT + 1 else 20
            if not (self.is_fast and number in self.payload):
                struct.pack_into(">I", block, place, -sum(struct.unpack(">128I", block)) % 2**32)
            made[BLOCK * number : BLOCK * (number + 1)] = block
        return bytes(made)
