"""The inputs of `run --growth`. Each is written in a size, which counts units of it."""
import random
import struct

from files import named, write_build, write_file

# What numbers are multiplied by so that they come in no order. It is a prime above all sizes.
SCATTER = 7368787

AIR, STONE, WIRE, LEVER, LAMP = range(5)
PLAIN = ["air", "stone", "redstone_wire", "lever[face=floor]", "redstone_lamp"]


class Floor:
    """Two layers that are painted by x and z: what stands, and what is below it."""
    def __init__(self, blocks, width, length):
        self.blocks, self.width, self.length = blocks, width, length
        self.below, self.layer = bytearray(width * length), bytearray(width * length)

    def put(self, x, z, block, below=STONE):
        self.layer[x + self.width * z], self.below[x + self.width * z] = block, below

    def write(self, path):
        write_build(path, (self.width, 2, self.length), self.blocks, (self.below, self.layer))


# A tree of repeaters: two leaves from west to east of a middle, two such trees from north to south of
# theirs, and so on by turns. A way of wires and repeaters leads from a middle to each of its two. All
# ways of one height are as long, so the graph has one repeater for all that are as far from the lever.

# the repeaters whose output is to the west, east, north and south
TREE = PLAIN + [f"repeater[facing={facing}]" for facing in ("east", "west", "south", "north")]
HIGHEST_STEP = 15


def half_sides(height, leaf):
    """How far a tree reaches from its middle, in x and z."""
    depth, width = leaf
    halves = [depth + 1, width // 2]
    for level in range(2, height + 1):
        halves[(level + 1) % 2] = 2 * halves[(level + 1) % 2] + 2
    return halves


def paint_leaf(floor, x, z, way, leaf):
    """A plane of wires with a lamp below each."""
    depth, width = leaf
    for far in range(depth):
        for beside in range(-(width // 2), width // 2 + 1):
            floor.put(x + way * far, z + beside, WIRE, LAMP)


def paint_tree(floor, x, z, height, leaf):
    """A tree with its middle there, of 2 to the power of the height leaves."""
    axis = (height + 1) % 2
    far = half_sides(height - 1, leaf)[axis] + 2 if height > 1 else 2
    floor.put(x, z, WIRE)
    for way in (-1, 1):
        for at in range(1, far):
            is_repeater = at % HIGHEST_STEP == 1
            block = len(PLAIN) + 2 * axis + (way > 0) if is_repeater else WIRE
            floor.put(x + way * at * (1 - axis), z + way * at * axis, block)
        if height > 1:
            paint_tree(floor, x + way * far * (1 - axis), z + way * far * axis, height - 1, leaf)
        else:
            paint_leaf(floor, x + way * far, z, way, leaf)


def write_tree(path, leaves, leaf):
    height = leaves.bit_length() - 1
    east, south = half_sides(height, leaf)
    floor = Floor(TREE, 2 * east + 1, 2 * south + 1)
    paint_tree(floor, east, south, height, leaf)
    floor.put(east, south, LEVER)
    floor.write(path)


LITTLE_LEAF, LARGE_LEAF = (3, 5), (8, 15)


def tree(path, leaves, _):
    """A tree with 15 lamps at each leaf."""
    write_tree(path, leaves, LITTLE_LEAF)
    return [], 0


def one_source(path, leaves, _):
    """A tree of few repeaters, with 120 lamps at each leaf. In the graph one repeater has all lamps."""
    write_tree(path, leaves, LARGE_LEAF)
    return [], 0


def write_rows(path, count, turned, is_north):
    """A lever between two rows of repeaters, each with its input behind and a lamp at its end."""
    begin, row = [WIRE, LEVER, WIRE], [len(PLAIN), AIR, len(PLAIN)]
    rows = [begin] + [row] * count + [[LAMP, AIR, LAMP]]
    blocks = PLAIN + [f"repeater[facing={turned}]"]
    write_build(path, (3, 1, count + 2), blocks, map(bytes, reversed(rows) if is_north else rows))


def rows_north(path, count, _):
    write_rows(path, count, "south", True)
    return [], 0


def rows_south(path, count, _):
    write_rows(path, count, "north", False)
    return [], 0


def folds(path, count, _):
    """A chain of comparators and repeaters. A comparator subtracts the constant at its side from what
    a lever gives, so nothing of it reaches the wire before the next repeater, which a block of
    redstone powers for good, and which is the constant at the side of the next comparator."""
    to_east, to_west, repeater, constant = range(len(PLAIN), len(PLAIN) + 4)
    blocks = PLAIN + ["comparator[facing=west,mode=subtract]", "comparator[facing=east,mode=subtract]",
                      "repeater[facing=north,powered=true]", "redstone_block"]
    first = [AIR, constant, AIR, AIR]
    east = [LEVER, to_east, WIRE, constant], [AIR, AIR, repeater, AIR]
    west = [constant, WIRE, to_west, LEVER], [AIR, repeater, AIR, AIR]

    def rows():
        yield bytes(first)
        for i in range(count):
            yield from map(bytes, west if i % 2 else east)
        yield bytes([AIR, WIRE, WIRE, LAMP] if count % 2 == 0 else [LAMP, WIRE, WIRE, AIR])

    write_build(path, (4, 1, 2 * count + 2), blocks, rows())
    return [], 0


ROW = 40


def constants(path, rows, _):
    """Rows of 40 blocks of redstone, on wires, on lamps."""
    layers = (bytes([number]) * (ROW * rows) for number in range(3))
    write_build(path, (ROW, 3, rows), ["redstone_lamp", "redstone_wire", "redstone_block"], layers)
    return [], 0


MIXED = {"air": 30, "redstone_wire": 40, "redstone_block": 6, "redstone_lamp": 8, "stone": 6,
         "glass": 4, **{f"{kind}[facing={facing}]": 1 for kind in (
             "repeater", "comparator", "redstone_wall_torch", "lever")
             for facing in ("north", "south", "west", "east")}}


SIDE = 26


def cubes(path, count, _):
    """A cube of blocks at random, so many times, on top of one another with a layer of air between."""
    cube = bytes(random.Random(1).choices(range(len(MIXED)), MIXED.values(), k=SIDE ** 3))
    layers = (layer for _ in range(count) for layer in (cube, bytes(SIDE ** 2)))
    write_build(path, (SIDE, (SIDE + 1) * count, SIDE), MIXED, layers)
    return [], 0


def varint(number):
    most = number >> 7
    return bytes([number & 127 | 128]) + varint(most) if most else bytes([number])


def scattered(count):
    """The numbers below a count in no order."""
    return (i * SCATTER % count for i in range(count))


# What follows stands in rows of 500, and its size is how many rows.
LINE = 500


def pending(path, rows, _):
    """Torches that hang on nothing, each with a pending tick."""
    count = LINE * rows

    def fields():
        yield named(10, "Metadata", named(11, "RedpilePending", struct.pack(">i", 5 * count)))
        for i in scattered(count):
            yield struct.pack(">5i", i % LINE, 0, i // LINE, 1 + i % 15, i % 4)
        yield b"\0"

    cells = (bytes(LINE) for _ in range(rows))
    write_build(path, (LINE, 1, rows), ["redstone_torch"], cells, fields())
    return [], 0


def names(path, rows, _):
    """A palette of names in no order, which a property that means nothing tells apart."""
    palette = ((f"stone[name={name}]", number) for number, name in enumerate(scattered(LINE * rows)))
    write_file(path, (1, 1, 1), palette, (1, [b"\0"]))
    return [], 0


def numbers(path, rows, _):
    """A palette of numbers in no order, with a cell of each."""
    count = LINE * rows

    def number(i):
        return i * SCATTER % (1 << 31)

    length = sum(max(1, (number(i).bit_length() + 6) // 7) for i in range(count))
    cells = (b"".join(varint(number(i)) for i in range(first, first + LINE))
             for first in range(0, count, LINE))
    palette = ((f"stone[name={i}]", number(i)) for i in range(count))
    write_file(path, (LINE, 1, rows), palette, (length, cells))
    return [], 0


def entities(path, rows, _):
    """Rows of barrels, in each of which is something, by turns with rows of comparators that read them
    and give something."""
    count, end = LINE * rows, b"\0"
    identity = named(8, "id", struct.pack(">H", 15) + b"minecraft:stone")
    item = identity + named(1, "Count", b"\1") + end
    items = named(9, "Items", b"\x0a" + struct.pack(">i", 1) + item) + end
    signal = named(3, "OutputSignal", struct.pack(">i", 1)) + end

    def fields():
        yield named(9, "BlockEntities", b"\x0a" + struct.pack(">i", count))
        for i in scattered(count):
            place = struct.pack(">4i", 3, i % LINE, 0, i // LINE)
            yield named(11, "Pos", place) + (signal if i // LINE % 2 else items)

    cells = (bytes([row % 2]) * LINE for row in range(rows))
    write_build(path, (LINE, 1, rows), ["barrel", "comparator[facing=north]"], cells, fields())
    return [], 0


DEEPEST = 510


def nests(path, mebibytes, _):
    """A list of nests, each of compounds in one another, down to the deepest that is read."""
    nest = named(10, "", b"") * (DEEPEST - 1) + bytes(DEEPEST)
    count = (mebibytes * 2 ** 20 - 200) // len(nest)

    def fields():
        yield named(9, "nests", b"\x0a" + struct.pack(">i", count))
        for _ in range(count):
            yield nest

    write_build(path, (1, 1, 1), ["stone"], [b"\0"], fields())
    return [], 0


class Growth:
    """An input with what its sizes count, how many of these a unit has, and its first size in units.

    The others are twice and four times as much, but not above `most`.
    """
    def __init__(self, make, name, unit, first, least=1, most=None, is_linear=True):
        self.make, self.name, self.unit, self.first = make, name, unit, first
        self.least, self.most, self.is_linear = least, most, is_linear

    def sizes(self, part):
        """The sizes, divided by the greatest power of two that isn't above `part`."""
        first = max(self.least, self.first >> part.bit_length() - 1)
        return [min(first * times, self.most or first * times) for times in (1, 2, 4)]


GROWTHS = [
    Growth(tree, "tree of repeaters, lamps", 15, 2048, least=2),
    Growth(one_source, "one source, lamps", 120, 128, least=2),
    Growth(rows_north, "two rows to the north, repeaters in each", 1, 16000),
    Growth(rows_south, "two rows to the south, repeaters in each", 1, 16000),
    Growth(folds, "chain of folds", 1, 1000, is_linear=False),
    Growth(constants, "constants on wires on lamps", ROW, 40),
    Growth(cubes, "cubes of mixed blocks, cells", SIDE ** 3, 1),
    Growth(pending, "pending ticks", LINE, 160),
    Growth(names, "palette names", LINE, 100),
    Growth(numbers, "palette numbers", LINE, 100),
    Growth(entities, "block entities", LINE, 100),
    Growth(nests, "nests of compounds, MiB", 1, 16, most=63),
]
