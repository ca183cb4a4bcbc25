"""What the world and the graph share: builds and scripts, and the rules of docs/REDSTONE.md on wires,
on time and on events.

It knows few of the inert blocks and trusts its files: what is wrong in them stops it with a traceback.
"""
import struct

SIDES = {"down": (0, -1, 0), "up": (0, 1, 0), "north": (0, 0, -1), "south": (0, 0, 1),
         "west": (-1, 0, 0), "east": (1, 0, 0)}
LEVEL = ("north", "south", "west", "east")
OPPOSITE = dict(zip(SIDES, ("up", "down", "south", "north", "east", "west")))
CROSSING = {side: LEVEL[2:] if side in LEVEL[:2] else LEVEL[:2] for side in LEVEL}

AIR = ("air", "cave_air", "void_air")
SOLID_INERT = ("stone", "cobblestone", "smooth_stone", "dirt", "oak_planks", "iron_block")
CLEAR_INERT = ("glass", "white_stained_glass", "glowstone", "ice", "oak_leaves")
SLOTS = {"barrel": 27, "chest": 27, "dispenser": 9, "dropper": 9, "hopper": 5, "furnace": 3,
         "blast_furnace": 3, "smoker": 3}
KINDS = {"redstone_wire": "wire", "redstone_torch": "torch", "redstone_wall_torch": "torch",
         "repeater": "repeater", "comparator": "comparator", "lever": "lever", "cake": "cake",
         "redstone_block": "redstone_block", "redstone_lamp": "lamp", "note_block": "note",
         "iron_trapdoor": "trapdoor", "composter": "composter", "cauldron": "cauldron",
         "water_cauldron": "cauldron", **dict.fromkeys(SLOTS, "container"),
         **dict.fromkeys(AIR + SOLID_INERT + CLEAR_INERT, "inert")}
ENDINGS = {"_button": "button", "_weighted_pressure_plate": "weighted", "_pressure_plate": "plate",
           "_slab": "slab"}
SHOWN = ("lamp", "trapdoor", "note")
# In which order ticks fire that are due together at one priority: as they were added, or by places.
ORDERS = ("added", "places", "places reversed")
JOINED = ("wire", "comparator", "torch", "redstone_block", "plate", "weighted", "lever", "button")
ATTENDING = ("torch", "repeater", "comparator", "lamp", "button", "trapdoor", "note")
COMPONENTS = ATTENDING + ("lever", "plate", "weighted")
STACKS_OF_16 = ("egg", "snowball", "ender_pearl", "bucket", "honey_bottle", "written_book",
                "armor_stand", "_sign", "_banner")
STACKS_OF_1 = ("_sword", "_pickaxe", "_axe", "_shovel", "_hoe", "water_bucket", "lava_bucket",
               "milk_bucket", "shulker_box", "_bed", "potion", "saddle", "minecart", "bow", "shield",
               "shears", "flint_and_steel", "totem_of_undying", "writable_book", "cake")


def step(place, side):
    return tuple(a + b for a, b in zip(place, SIDES[side]))


def order_of(place):
    return (place[1], place[2], place[0])


def plain(name):
    return name.removeprefix("minecraft:")


def stack_of(item):
    for names, size in ((STACKS_OF_16, 16), (STACKS_OF_1, 1)):
        if any(item.endswith(name) if name[0] == "_" or name == "shulker_box" else item == name
               for name in names):
            return size
    return 64


class Nbt:
    """Reads an NBT file. Of equal names in a compound the last counts."""
    NUMBERS = {1: "b", 2: "h", 3: "i", 4: "q", 5: "f", 6: "d"}
    ARRAYS = {7: "b", 11: "i", 12: "q"}

    def __init__(self, data):
        self.data, self.at = data, 3 + int.from_bytes(data[1:3], "big")
        self.root = self.value(data[0])
        assert data[0] == 10 and self.at == len(data), "the file is no compound"

    def take(self, form):
        self.at += struct.calcsize(">" + form)
        return struct.unpack_from(">" + form, self.data, self.at - struct.calcsize(">" + form))

    def value(self, kind):
        if kind in self.NUMBERS:
            return self.take(self.NUMBERS[kind])[0]
        if kind in self.ARRAYS:
            return self.take(f"{self.take('i')[0]}{self.ARRAYS[kind]}")
        if kind == 8:
            return self.take(f"{self.take('H')[0]}s")[0].decode()
        if kind == 9:
            element, length = self.take("bi")
            return [self.value(element) for _ in range(length)]
        fields = {}
        while (kind := self.take("b")[0]) != 0:
            name = self.value(8)
            fields[name] = self.value(kind)
        return fields


class Block:
    """A block of the palette: its kind, its name and its properties."""
    def __init__(self, text):
        self.name, _, rest = plain(text).partition("[")
        self.given = dict(part.split("=") for part in rest.rstrip("]").split(",") if part)
        self.kind = KINDS.get(self.name) or next(
            kind for ending, kind in ENDINGS.items() if self.name.endswith(ending))
        self.facing = self.given.get("facing", "north")
        self.is_diode = self.kind in ("repeater", "comparator")
        self.solid = (self.name in SOLID_INERT or self.kind in ("lamp", "note")
                      or self.kind == "container" and self.name not in ("chest", "hopper")
                      or self.kind == "slab" and self.given.get("type") == "double")

        # the side of the block that a torch, lever, button or plate stands or hangs on
        face = self.given.get("face", "wall")
        is_standing = self.name == "redstone_torch" or self.kind in ("plate", "weighted")
        self.stands_on = ("down" if is_standing or face == "floor" else
                          "up" if face == "ceiling" else OPPOSITE[self.facing])

    def number(self, key, default=0):
        text = self.given.get(key, str(default))
        return {"false": 0, "true": 1}[text] if text in ("false", "true") else int(text)


NOTHING = Block("air")


class Build:
    def __init__(self, path):
        root = Nbt(open(path, "rb").read()).root
        is_third = "Schematic" in root and "Version" not in root
        if is_third:
            root = root["Schematic"]
        cells = root["Blocks"] if is_third else root
        assert root["Version"] == (3 if is_third else 2), "another version"
        width, length = root["Width"] & 0xFFFF, root["Length"] & 0xFFFF
        palette = {number: Block(text) for text, number in cells["Palette"].items()}
        self.blocks, number, shift, index = {}, 0, 0, 0
        for byte in cells["Data" if is_third else "BlockData"]:
            number |= (byte & 0x7F) << shift
            shift += 7
            if byte >= 0:
                place = (index % width, index // (width * length), index // width % length)
                if palette[number].name not in AIR:
                    self.blocks[place] = palette[number]
                number, shift, index = 0, 0, index + 1
        self.outputs, self.strengths = {}, {}
        for entity in cells.get("BlockEntities", []):
            place = tuple(entity["Pos"])
            kind = self.at(place).kind
            if is_third:
                entity = entity.get("Data", {})
            if kind == "comparator":
                self.outputs[place] = entity.get("OutputSignal", 0)
            if kind == "container":
                self.strengths[place] = self.strength_of(place, entity.get("Items", []))
        pending = root.get("Metadata", {}).get("RedpilePending", ())
        self.pending = {tuple(pending[i:i + 3]): tuple(pending[i + 3:i + 5])
                        for i in range(0, len(pending), 5)}

    def at(self, place):
        return self.blocks.get(place, NOTHING)

    def strength_of(self, place, items):
        # in units of a 64th of a stack, which every size divides
        units = sum(max(0, item.get("Count", item.get("count", 0))) * 64
                    // stack_of(plain(item["id"])) for item in items)
        return min(15, 1 + 14 * units // (64 * SLOTS[self.at(place).name])) if units else 0

    def strength(self, place):
        """What a comparator reads in the place of a power, or None."""
        block = self.at(place)
        if block.kind == "container":
            return self.strengths.get(place, 0)
        if block.kind in ("composter", "cauldron"):
            return block.number("level", int(block.name == "water_cauldron"))
        return 14 - 2 * block.number("bites") if block.kind == "cake" else None


def strong_or_weak(block, to, is_strong):
    """Whether a block that is no wire may give strong, or else weak, power on the side `to`."""
    if block.kind == "torch":
        return to == "up" if is_strong else to != block.stands_on
    if block.kind in ("lever", "button", "plate", "weighted"):
        return not is_strong or to == block.stands_on
    if block.is_diode:
        return to == OPPOSITE[block.facing]
    return block.kind == "redstone_block" and not is_strong


class Shape:
    """How the wires of a build are joined, where they point, and what feeds them."""
    def __init__(self, build):
        self.at, self.found = build.at, {}
        self.wires = sorted((p for p, block in build.blocks.items() if block.kind == "wire"),
                            key=order_of)
        self.points = {wire: self.pointing(wire) for wire in self.wires}
        self.feeders = {wire: list(self.feeding(wire)) for wire in self.wires}

    def is_wire(self, place):
        return self.at(place).kind == "wire"

    def is_joined(self, wire, side):
        near = step(wire, side)
        block = self.at(near)
        return (block.kind in JOINED
                or block.kind == "repeater" and side in (block.facing, OPPOSITE[block.facing])
                or not self.at(step(wire, "up")).solid and self.is_wire(step(near, "up"))
                or not block.solid and self.is_wire(step(near, "down")))

    def pointing(self, wire):
        joined, given = {s for s in LEVEL if self.is_joined(wire, s)}, self.at(wire).given
        if not joined and all(given.get(side, "none") == "none" for side in LEVEL):
            return set()
        return joined | {s for s in LEVEL if not any(other in joined for other in CROSSING[s])}

    def feeding(self, wire):
        for side in LEVEL:
            near = step(wire, side)
            if self.is_wire(near):
                yield near
            if self.at(near).solid:
                above = step(near, "up")
                if self.is_wire(above) and not self.at(step(wire, "up")).solid:
                    yield above
            elif self.is_wire(step(near, "down")):
                yield step(near, "down")

    def may_give(self, place, to, is_strong):
        """Whether the block there, a wire too, may give such power to its neighbour on that side."""
        if self.is_wire(place):
            return to == "down" or to in self.points[place]
        return strong_or_weak(self.at(place), to, is_strong)

    def givers(self, place, side):
        """What may give the power that the block at a place reads from its neighbour on a side."""
        if (place, side) not in self.found:
            self.found[place, side] = list(self.finding(place, side))
        return self.found[place, side]

    def finding(self, place, side):
        near = step(place, side)
        if self.at(near).solid:
            yield from (step(near, s) for s in SIDES
                        if self.may_give(step(near, s), OPPOSITE[s], True))
        elif self.may_give(near, OPPOSITE[side], False):
            yield near

    def beside(self, place):
        """The neighbours at the sides of a diode, and whether each is a diode turned to it."""
        for side in LEVEL:
            if side in CROSSING[self.at(place).facing]:
                near = step(place, side)
                yield near, self.at(near).is_diode and self.at(near).facing == side


class Part:
    """A component: what time and events need to know of it."""
    def __init__(self, build, place):
        block = build.at(place)
        front = build.at(step(place, OPPOSITE[block.facing]))
        self.kind, self.place = block.kind, place
        self.is_subtracting = block.given.get("mode") == "subtract"
        self.is_first = (block.is_diode and front.is_diode
                         and front.facing != OPPOSITE[block.facing])
        self.ticks = {"button": 10 if "stone" in block.name else 15, "lamp": 2,
                      "repeater": block.number("delay", 1)}.get(block.kind, 1)
        self.value, self.also = stored(build, place), []

    def priority(self, value):
        if self.kind == "repeater":
            return 0 if self.is_first else 1 if value else 2
        return 2 if self.is_first else 3


def stored(build, place):
    block = build.at(place)
    if block.kind == "comparator":
        return build.outputs.get(place, 0)
    key = {"torch": "lit", "lamp": "lit", "weighted": "power"}.get(block.kind, "powered")
    return block.number(key, int(block.kind == "torch"))


def out(kind, value):
    """What a component of this value gives, wherever it gives it."""
    return value if kind in ("comparator", "weighted", "constant") else 15 * value


class Circuit:
    """Plays parts, which stand in order under their keys, by the rules of time and events.

    What is played on says what a part reads (`back`, `side`, `is_locked`), what it shows (`shown`),
    for the values as they are. It may prepare its readings in `solve`. `order` is one of ORDERS.
    """
    def __init__(self, parts, waits, outputs, order):
        self.parts, self.waits, self.order = parts, dict(waits), order
        self.values = {key: part.value for key, part in parts.items()}
        self.outputs = sorted(outputs, key=lambda key: order_of(parts[key].place))
        self.time = self.events = 0
        self.fired = []
        self.settle()

    def solve(self):
        pass

    def goal(self, key):
        part = self.parts[key]
        if part.kind == "button":
            return 0
        back = self.back(key)
        if part.kind != "comparator":
            return int(back == 0 if part.kind == "torch" else back > 0)
        side = self.side(key)
        if part.is_subtracting:
            return max(0, back - side)
        return back if back >= side else 0

    def wait(self, key, value):
        """Gives a component of this value its pending tick."""
        part = self.parts[key]
        self.waits[key] = (self.time + part.ticks, part.priority(value))

    def settle(self):
        """Wires take their powers, then all attend."""
        self.solve()
        for key, value in self.values.items():
            kind = self.parts[key].kind
            if kind not in ATTENDING:
                continue
            goal = self.goal(key)
            if kind in ("trapdoor", "note") or kind == "lamp" and goal:
                self.values[key] = goal
            elif value != goal and key not in self.waits and not self.is_locked(key):
                self.wait(key, value)

    def fire(self, key):
        goal, is_locked, value = self.goal(key), self.is_locked(key), self.values[key]
        kind = self.parts[key].kind
        del self.waits[key]
        self.fired.append(key)
        if kind in ("torch", "comparator"):
            self.values[key] = goal
        elif kind == "repeater" and not is_locked:
            self.values[key] = 1 if value == 0 else goal
            if value == 0 and goal == 0:
                self.wait(key, 1)
        elif kind in ("lamp", "button") and goal == 0:
            self.values[key] = 0
        self.events += 1
        self.settle()

    def tick(self):
        self.time += 1
        self.fired = []
        keys = [key for key in self.waits if self.waits[key][0] == self.time]
        if self.order != "added":
            keys.sort(key=lambda key: order_of(self.parts[key].place),
                      reverse=self.order == "places reversed")
        for key in sorted(keys, key=lambda key: self.waits[key][1]):
            self.fire(key)

    def click(self, word, place, weight):
        key = next(key for key, part in self.parts.items() if part.place == place)
        kind = self.parts[key].kind
        if word == "use":
            assert kind in ("lever", "button"), "not clickable"
            self.values[key] = 1 if kind == "button" else 1 - self.values[key]
        else:
            assert kind in (("plate", "weighted") if word == "leave" else
                            ("weighted",) if weight else ("plate",)), "not clickable"
            self.values[key] = {"press": weight or 1, "leave": 0}[word]
        self.events += 1
        self.settle()

    def view(self, cause):
        return " ".join(map(str, [self.time, cause] + [self.shown(key) for key in self.outputs]))

    def header(self):
        yield f"outputs {len(self.outputs)}"
        for part in (self.parts[key] for key in self.outputs):
            yield " ".join(map(str, part.place)) + " " + part.kind

    def play(self, acts, tells_order=False):
        """The header, and a view after the start, each click and each tick, with what fired before."""
        yield from self.header()
        yield self.view("start")
        for word, numbers in acts:
            if word == "tick":
                for _ in range(numbers[0]):
                    self.tick()
                    if tells_order:
                        for key in self.fired:
                            for place in [self.parts[key].place, *self.parts[key].also]:
                                yield "fire {} {} {}".format(*place)
                    yield self.view("tick")
            else:
                self.click(word, tuple(numbers[:3]), numbers[3] if numbers[3:] else None)
                yield self.view(word)


def read_script(path):
    """The acts of a script, each a word and its numbers, and the places that it marks."""
    lines = [line.split() for line in open(path, encoding="utf-8").read().splitlines()]
    acts = [(words[0], [int(word) for word in words[1:]])
            for words in lines if words and not words[0].startswith("#")]
    marks = {tuple(numbers) for word, numbers in acts if word == "mark"}
    return [act for act in acts if act[0] != "mark"], marks
