"""A second reader of volumes, written from docs/FORMAT.md alone, for the tests of `v7`."""

from collections import namedtuple

BLOCK = 512
REGULAR, DIRECTORY = 0o100000, 0o040000

Inode = namedtuple("Inode", "number mode links uid gid size addresses times")

# What stands at a path: the inode, a file's bytes or a directory's names, and the blocks that it holds.
Node = namedtuple("Node", "inode content held")


class Volume:
    """The tree of an image. A block that two files hold, or that is held and free, ends the reading."""

    def __init__(self, image):
        self.image = image
        super_block = self.block(1)
        self.data_begin = word(super_block, 0)
        self.data_end = long(super_block, 2)
        self.last_inode = 8 * (self.data_begin - 2)
        self.owners = {}
        self.free = self.free_blocks()
        self.nodes = {}
        self.visit(b"", 2, 2)

    def block(self, number):
        data = self.image[BLOCK * number : BLOCK * (number + 1)]
        assert len(data) == BLOCK, f"no block {number}"
        return data

    def own(self, block, owner):
        """Notes who has a data block."""
        assert self.data_begin <= block < self.data_end, f"block {block} is no data block"
        assert block not in self.owners, f"block {block}: {self.owners.get(block)} and {owner}"
        self.owners[block] = owner

    def free_blocks(self):
        """The blocks of the free chain."""
        found = []
        lists, at = self.block(1), 6
        while True:
            count = word(lists, at)
            addresses = [long(lists, at + 2 + 4 * place) for place in range(count)]
            for address in addresses[1:] + [address for address in addresses[:1] if address]:
                self.own(address, "the free chain")
                found.append(address)
            if not addresses or addresses[0] == 0:
                return found
            lists, at = self.block(addresses[0]), 0

    def inode(self, number):
        assert 1 <= number <= self.last_inode, f"no inode {number}"
        data = self.block(2 + (number - 1) // 8)[64 * ((number - 1) % 8) :][:64]
        addresses = [data[12 + 3 * place] << 16 | word(data, 13 + 3 * place) for place in range(13)]
        mode, links, uid, gid = (word(data, offset) for offset in (0, 2, 4, 6))
        times = tuple(long(data, offset) for offset in (52, 56, 60))
        return Inode(number, mode, links, uid, gid, long(data, 8), addresses, times)

    def parts(self, inode):
        """The block of each part that is no hole, and the number of blocks held."""
        found, held = {}, 0

        def below(address, height, first):
            nonlocal held
            if address == 0:
                return
            self.own(address, f"inode {inode.number}")
            held += 1
            if height == 0:
                found[first] = address
                return
            index = self.block(address)
            for place in range(128):
                below(long(index, 4 * place), height - 1, first + place * 128 ** (height - 1))

        for place, address in enumerate(inode.addresses[:10]):
            below(address, 0, place)
        first = 10
        for height in (1, 2, 3):
            below(inode.addresses[9 + height], height, first)
            first += 128**height
        return found, held

    def visit(self, path, number, parent):
        """Notes what stands at a path and below."""
        inode = self.inode(number)
        kind = inode.mode & 0o170000
        if kind not in (REGULAR, DIRECTORY):
            self.nodes[path] = Node(inode, None, 0)
            return
        known = [node for node in self.nodes.values() if node.inode.number == number]
        if known:
            assert kind == REGULAR, f"directory {number} has two names"
            self.nodes[path] = known[0]
            return
        parts, held = self.parts(inode)
        content = bytearray(inode.size)
        for part, block in parts.items():
            begin = BLOCK * part
            room = max(0, min(BLOCK, inode.size - begin))
            content[begin : begin + room] = self.block(block)[:room]
        if kind == REGULAR:
            self.nodes[path] = Node(inode, bytes(content), held)
            return
        slots = [(word(content, at), bytes(content[at + 2 : at + 16])) for at in range(0, inode.size, 16)]
        assert slots[0] == (number, b".".ljust(14, b"\0")) and slots[1] == (parent, b"..".ljust(14, b"\0")), path
        names = {name.rstrip(b"\0"): below for below, name in slots[2:] if below}
        self.nodes[path] = Node(inode, sorted(names), held)
        for name, below in names.items():
            self.visit(path + b"/" + name, below, number)


def word(data, offset):
    """16 bits, the low byte first."""
    return data[offset] | data[offset + 1] << 8


def long(data, offset):
    """32 bits: two words, the high word first."""
    return word(data, offset) << 16 | word(data, offset + 2)
