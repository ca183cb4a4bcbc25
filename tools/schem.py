"""Writes uncompressed Sponge schematics, of layout 2 and 3, and reads the descriptions they are made of.

A description is a text. A line of it is one of these:

  nothing, or a comment that begins with '#'
  C BLOCK                     the character C stands for this block from here on; '.' is air
  layer                       a new layer begins; layers come from the bottom up
  a row of characters         a row of the layer, from west to east; rows come from north to south
  again N                     the last N layers once more, on top
  set X Y Z C                 the block of this character in that place, in the place of what is there
  items X Y Z COUNT NAME ..   what is in the container there, by pairs of a count and a name
  output X Y Z N              the output of the comparator there
  pending X Y Z TICKS PRIORITY   a pending tick of the block there
"""
import struct

DATA_VERSION = 3465

# What the game's files give for each block, in the order of names.
PROPERTIES = {
    "redstone_wire": "east=none,north=none,power=0,south=none,west=none",
    "redstone_torch": "lit=true",
    "redstone_wall_torch": "facing=north,lit=true",
    "repeater": "delay=1,facing=north,locked=false,powered=false",
    "comparator": "facing=north,mode=compare,powered=false",
    "lever": "face=wall,facing=north,powered=false",
    "button": "face=wall,facing=north,powered=false",
    "redstone_lamp": "lit=false",
    "iron_trapdoor": "facing=north,half=bottom,open=false,powered=false,waterlogged=false",
    "note_block": "instrument=harp,note=0,powered=false",
    "barrel": "facing=north,open=false",
    "chest": "facing=north,type=single,waterlogged=false",
    "hopper": "enabled=true,facing=down",
    "dropper": "facing=north,triggered=false",
    "dispenser": "facing=north,triggered=false",
    "furnace": "facing=north,lit=false",
    "composter": "level=0",
    "cake": "bites=0",
}


def named(kind, name, payload):
    return bytes([kind]) + struct.pack(">H", len(name.encode())) + name.encode() + payload


def byte(name, value):
    return named(1, name, struct.pack(">b", value))


def short(name, value):
    return named(2, name, struct.pack(">H", value))


def integer(name, value):
    return named(3, name, struct.pack(">i", value))


def long(name, value):
    return named(4, name, struct.pack(">q", value))


def byte_array(name, values):
    return named(7, name, struct.pack(">i", len(values)) + bytes(values))


def string(name, text):
    return named(8, name, struct.pack(">H", len(text.encode())) + text.encode())


def list_of_compounds(name, compounds):
    items = b"".join(b"".join(fields) + b"\0" for fields in compounds)
    return named(9, name, b"\x0a" + struct.pack(">i", len(compounds)) + items)


def compound(name, fields):
    return named(10, name, b"".join(fields) + b"\0")


def int_array(name, values):
    return named(11, name, struct.pack(f">i{len(values)}i", len(values), *values))


def varint(number):
    most = number >> 7
    return bytes([number & 127 | 128]) + varint(most) if most else bytes([number])


def read_description(path):
    """The layers as lists of rows of blocks, and the words of the lines about what is in places."""
    blocks, layers, places = {".": "air"}, [], []
    for line in open(path, encoding="ascii").read().splitlines():
        words = line.split()
        if not words or line.startswith("#"):
            continue
        if line == "layer":
            layers.append([])
        elif words[0] == "again":
            layers += [[list(row) for row in layer] for layer in layers[-int(words[1]):]]
        elif words[0] == "set":
            x, y, z = map(int, words[1:4])
            layers[y][z][x] = blocks[words[4]]
        elif words[0] in ("items", "output", "pending"):
            places.append((words[0], tuple(map(int, words[1:4])), words[4:]))
        elif line[1:2] == " ":
            blocks[line[0]] = line[2:]
        else:
            layers[-1].append([blocks[character] for character in line])
    for layer in layers:
        assert [len(row) for row in layer] == [len(row) for row in layers[0]], "rows differ"
    return layers, places


def in_full(block):
    """The text of a block with all its properties, as the game's files have it."""
    name, _, rest = block.partition("[")
    given = dict(part.split("=") for part in rest.rstrip("]").split(",") if part)
    key = "button" if name.endswith("_button") else name
    values = dict(part.split("=") for part in PROPERTIES.get(key, "").split(",") if part)
    values.update(given)
    return name + ("[" + ",".join(f"{key}={values[key]}" for key in sorted(values)) + "]"
                   if values else "")


def is_entity(block):
    return block.split("[")[0] in ("comparator", "barrel", "chest", "hopper", "dropper", "dispenser",
                                   "furnace")


def items_of(words):
    stacks = [[byte("Slot", slot), string("id", "minecraft:" + name), byte("Count", int(count))]
              for slot, (count, name) in enumerate(zip(words[::2], words[1::2]))]
    return list_of_compounds("Items", stacks)


def schematic(layers, places, layout=2, is_worldedit=False):
    """The bytes of a file. As WorldEdit writes it, it also has what the program passes over."""
    height, length, width = len(layers), len(layers[0]), len(layers[0][0])
    palette, cells = {}, bytearray()
    for layer in layers:
        for row in layer:
            for block in row:
                text = "minecraft:" + (in_full(block) if is_worldedit else block)
                cells += varint(palette.setdefault(text, len(palette)))
    data = {place: [] for kind, place, _ in places if kind != "pending"}
    if is_worldedit:
        data = {(x, y, z): [] for y, layer in enumerate(layers) for z, row in enumerate(layer)
                for x, block in enumerate(row) if is_entity(block)}
        for place, fields in data.items():
            fields += [] if "comparator" in layers[place[1]][place[2]][place[0]] else \
                [string("CustomName", '{"text":"a name"}')]
    pending = []
    for kind, (x, y, z), words in places:
        if kind == "pending":
            pending += [x, y, z, int(words[0]), int(words[1])]
        else:
            data[x, y, z] += [integer("OutputSignal", int(words[0])) if kind == "output"
                              else items_of(words)]
    entities = []
    for (x, y, z), fields in data.items():
        identity = [int_array("Pos", (x, y, z)),
                    string("Id", "minecraft:" + layers[y][z][x].split("[")[0])]
        entities.append(identity + ([compound("Data", fields)] if layout == 3 else fields))
    origin = [integer("WEOffset" + axis, 0) for axis in "XYZ"] if layout == 2 else [
        long("Date", 1700000000000),
        compound("WorldEdit", [string("Version", "7.3.0"), int_array("Origin", (0, 64, 0))])]
    metadata = (origin if is_worldedit else []) + (
        [int_array("RedpilePending", pending)] if pending else [])
    sides = [short("Width", width), short("Height", height), short("Length", length)]
    blocks = [compound("Palette", [integer(text, number) for text, number in palette.items()]),
              byte_array("Data" if layout == 3 else "BlockData", cells)]
    if entities or is_worldedit:
        blocks.append(list_of_compounds("BlockEntities", entities))
    fields = [integer("Version", layout)]
    if is_worldedit:
        fields += [integer("DataVersion", DATA_VERSION), int_array("Offset", (0, -1, 0))]
        fields += [integer("PaletteMax", len(palette))] if layout == 2 else []
    fields += sides
    fields += [compound("Metadata", metadata)] if metadata else []
    if layout == 3:
        return compound("", [compound("Schematic", fields + [compound("Blocks", blocks)])])
    return compound("Schematic", fields + blocks)
