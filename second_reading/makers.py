"""Makes builds of any blocks at random, and scripts, by seeds."""
import random

from redstone import CROSSING, LEVEL, OPPOSITE, step

CLICKS = {"lever": ("use",), "button": ("use",), "plate": ("press", "leave"),
          "weighted": ("weigh", "leave")}
TICKING = {"torch": 1, "repeater": 4, "comparator": 1, "lamp": 2, "button": 15}
CONTAINERS = {"barrel": 27, "chest": 27, "dropper": 9, "hopper": 5, "furnace": 3}
ITEMS = ("stone", "redstone", "ender_pearl", "snowball", "shield", "oak_sign")


class Maker:
    """Makes a build and a script of a seed."""
    def __init__(self, seed):
        self.random = random.Random(seed)
        self.is_drawn = self.random.random() < 0.8
        least, most = (3, 9) if self.is_drawn else (1, 7)
        self.size = (self.random.randint(least, most), self.random.randint(min(least, 2), 4),
                     self.random.randint(least, most))
        # some builds are of few kinds, some are crowded
        self.is_wired = self.random.random() < 0.6
        self.filled = self.random.uniform(0, 0.3) if self.is_drawn else self.random.uniform(0.3, 0.95)
        # the share of what ticks that has a pending tick
        self.waiting = 0.08

    def pick(self, *values):
        return self.random.choice(values)

    def flag(self):
        return self.pick("true", "false")

    def block(self):
        facing = self.pick(*LEVEL)
        face = self.pick("floor", "wall", "ceiling")
        side = lambda: self.pick("none", "none", "side", "up")
        kinds = [
            (9, lambda: self.pick("stone", "stone", "smooth_stone", "iron_block")),
            (3, lambda: self.pick("glass", "glowstone", "oak_leaves")),
            (16 if self.is_wired else 5, lambda: "redstone_wire" + self.pick("", (
                f"[east={side()},north={side()},south={side()},west={side()}]"))),
            (4, lambda: f"redstone_torch[lit={self.flag()}]"),
            (7, lambda: f"redstone_wall_torch[facing={facing},lit={self.flag()}]"),
            (8, lambda: f"repeater[delay={self.random.randint(1, 4)},facing={facing},"
                        f"powered={self.flag()}]"),
            (7, lambda: f"comparator[facing={facing},mode={self.pick('compare', 'subtract')}]"),
            (5, lambda: f"lever[face={face},facing={facing},powered={self.flag()}]"),
            (2, lambda: self.pick("stone_button", "oak_button")
                        + f"[face={face},facing={facing},powered={self.flag()}]"),
            (1, lambda: self.pick("stone", "oak") + f"_pressure_plate[powered={self.flag()}]"),
            (1, lambda: f"light_weighted_pressure_plate[power={self.random.randint(0, 15)}]"),
            (1, lambda: "redstone_block"),
            (5, lambda: f"redstone_lamp[lit={self.flag()}]"),
            (1, lambda: f"iron_trapdoor[facing={facing},half={self.pick('top', 'bottom')},"
                        f"powered={self.flag()}]"),
            (1, lambda: f"note_block[powered={self.flag()}]"),
            (1, lambda: self.pick(*CONTAINERS)),
            (1, lambda: self.pick("composter[level=3]", "composter[level=8]", "cauldron[level=2]",
                                  "water_cauldron", "cake[bites=2]")),
            (1, lambda: f"stone_slab[type={self.pick('top', 'bottom', 'double')}]"),
        ]
        weights, makes = zip(*kinds)
        return self.random.choices(makes, weights)[0]()

    def build(self):
        """The layers and the lines about places, as of a description."""
        width, height, length = self.size
        layers = [[[self.block() if self.random.random() < self.filled else "air"
                    for _ in range(width)] for _ in range(length)] for _ in range(height)]
        if height > 1 and self.random.random() < 0.5:
            layers[0] = [["stone"] * width for _ in range(length)]
        for _ in range(self.random.randint(2, 6) if self.is_drawn else 0):
            self.draw(layers)
        return layers, [line for y, layer in enumerate(layers) for z, row in enumerate(layer)
                        for x, block in enumerate(row) for line in self.lines((x, y, z), block)]

    # Some builds have lines drawn over what is there: from something that gives power, by wires and
    # diodes that hand it on, with diodes at their sides, to something that is shown.

    def put(self, layers, place, block):
        x, y, z = place
        width, height, length = self.size
        is_inside = 0 <= x < width and 0 <= y < height and 0 <= z < length
        if is_inside:
            layers[y][z][x] = block
        return is_inside

    def giver(self):
        if self.random.random() < 0.5:
            return f"lever[face=floor,powered={self.flag()}]"
        return self.pick(
            "stone_button[face=floor]", "oak_button[face=floor]", "redstone_block", "barrel",
            f"light_weighted_pressure_plate[power={self.random.randint(0, 15)}]",
            "heavy_weighted_pressure_plate", f"oak_pressure_plate[powered={self.flag()}]",
            "redstone_torch", "composter[level=5]")

    def diode(self, facing):
        if self.random.random() < 0.55:
            return (f"repeater[delay={self.random.randint(1, 3)},facing={facing},"
                    f"powered={self.flag()}]")
        return f"comparator[facing={facing},mode={self.pick('compare', 'subtract')}]"

    def draw(self, layers):
        """Draws a line from an edge of the build."""
        way = self.pick(*LEVEL)
        x, y, z = (self.random.randrange(most) for most in self.size)
        width, _, length = self.size
        place = {"east": (0, y, z), "west": (width - 1, y, z), "south": (x, y, 0),
                 "north": (x, y, length - 1)}[way]
        self.put(layers, place, self.giver())
        place, is_going = step(place, way), True
        pieces = (self.draw_wire, self.draw_diode, self.draw_torch, self.draw_strength,
                  self.draw_up, self.draw_down)
        while is_going and self.random.random() < 0.93:
            piece, = self.random.choices(pieces, (35, 30, 10, 9, 8, 8))
            place, is_going = piece(layers, place, way)
            if self.random.random() < 0.07:
                is_going &= self.put(layers, place, "redstone_wire")
                way = self.pick(*CROSSING[way])
                place = step(place, way)
        self.put(layers, place, self.pick("redstone_lamp", "redstone_lamp", "iron_trapdoor",
                                          "note_block"))

    def draw_wire(self, layers, place, way):
        """A wire; now and then with a repeater and a lamp beside it, of which two may do the same."""
        is_inside = self.put(layers, place, "redstone_wire")
        if self.random.random() < 0.35:
            side = self.pick(*CROSSING[way])
            near = step(place, side)
            self.put(layers, near, self.pick(f"repeater[facing={OPPOSITE[side]}]",
                                             f"repeater[facing={OPPOSITE[side]}]",
                                             f"comparator[facing={OPPOSITE[side]}]"))
            self.put(layers, step(near, side), "redstone_lamp")
        return step(place, way), is_inside

    def draw_diode(self, layers, place, way):
        is_inside = self.put(layers, place, self.diode(OPPOSITE[way]))
        if self.random.random() < 0.5:
            self.draw_side(layers, place, self.pick(*CROSSING[way]))
        return step(place, way), is_inside

    def draw_torch(self, layers, place, way):
        """Power into a block, and a torch or a diode behind it, perhaps with a torch on another side."""
        self.put(layers, place, "stone")
        if self.random.random() < 0.4:
            side = self.pick(*CROSSING[way])
            self.put(layers, step(place, side), f"redstone_wall_torch[facing={side}]")
        place = step(place, way)
        is_inside = self.put(layers, place, self.pick(f"redstone_wall_torch[facing={way}]",
                                                      self.diode(OPPOSITE[way])))
        return step(place, way), is_inside

    def draw_strength(self, layers, place, way):
        """A strength behind a block that a comparator reads, with a lever on the block."""
        self.put(layers, place, self.pick("barrel", "composter[level=6]", "cake[bites=3]"))
        place = step(place, way)
        self.put(layers, place, "stone")
        self.put(layers, step(place, "up"), f"lever[face=floor,powered={self.flag()}]")
        place = step(place, way)
        is_inside = self.put(layers, place, f"comparator[facing={OPPOSITE[way]}]")
        return step(place, way), is_inside

    def draw_up(self, layers, place, way):
        """A wire and one a step higher, with the lower one perhaps below a block."""
        self.put(layers, place, "redstone_wire")
        if self.random.random() < 0.4:
            self.put(layers, step(place, "up"), self.pick("stone", "glass"))
        place = step(place, way)
        self.put(layers, place, self.pick("stone", "stone", "glass"))
        place = step(place, "up")
        return step(place, way), self.put(layers, place, "redstone_wire")

    def draw_down(self, layers, place, way):
        """A wire and one a step lower, with the lower one perhaps below a block."""
        self.put(layers, step(place, "down"), self.pick("stone", "stone", "glass"))
        self.put(layers, place, "redstone_wire")
        place = step(place, way)
        self.put(layers, place, self.pick("air", "air", "stone", "glass"))
        place = step(place, "down")
        return step(place, way), self.put(layers, place, "redstone_wire")

    def draw_side(self, layers, place, side):
        """A diode at a side of one, turned to it, with what gives it power behind it."""
        self.put(layers, step(place, side), self.diode(side))
        self.put(layers, step(step(place, side), side), self.pick(
            self.giver(), "redstone_wire", "stone", self.diode(side)))

    def lines(self, place, block):
        name = block.split("[")[0]
        if name == "comparator" and self.random.random() < 0.5:
            yield "output", place, [str(self.random.randint(0, 15))]
        if name in CONTAINERS and self.random.random() < 0.8:
            stacks = self.random.randint(1, CONTAINERS[name])
            yield "items", place, [word for _ in range(stacks) for word in
                                   (str(self.random.randint(1, 64)), self.pick(*ITEMS))]
        kind = next((kind for kind in TICKING if name.endswith(kind)), None)
        if kind and self.random.random() < self.waiting:
            yield "pending", place, [str(self.random.randint(1, 15)), str(self.random.randint(0, 3))]

    def script(self, build):
        places = sorted(build.blocks.items())
        wires = [place for place, block in places if block.kind == "wire"]
        clicked = [(place, block.kind) for place, block in places if block.kind in CLICKS]
        for place in self.random.sample(wires, min(len(wires), self.random.randint(0, 6))):
            yield "mark {} {} {}".format(*place)
        for _ in range(self.random.randint(1, 12)):
            for place, kind in self.random.sample(clicked, min(len(clicked), self.pick(1, 1, 2))):
                word = self.pick(*CLICKS[kind])
                weight = f" {self.random.randint(1, 15)}" if word == "weigh" else ""
                yield "{} {} {} {}".format(word.replace("weigh", "press"), *place) + weight
            yield f"tick {self.pick(0, 1, 1, 2, 3, 4, self.random.randint(0, 20))}"
