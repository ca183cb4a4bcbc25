"""Makes builds of a few plans, and scripts, by seeds."""
from makers import CONTAINERS, Maker
from redstone import CROSSING, LEVEL, OPPOSITE, step

# What a wire stands on, and what stands above one.
CARRIERS = ("stone", "glass", "glowstone", "stone_slab[type=top]", "stone_slab[type=bottom]",
            "stone_slab[type=double]")


def on(place, way, count):
    """The place that is so many steps on."""
    for _ in range(count):
        place = step(place, way)
    return place


class Planner(Maker):
    """Makes a build and a script of a seed: from one to three plans, each over the ones before."""
    def __init__(self, seed):
        super().__init__(seed)
        self.size = (self.random.randint(7, 13), self.random.randint(1, 4), self.random.randint(7, 13))
        self.filled = self.pick(0, 0, 0.05)
        self.waiting = self.pick(0, 0.05, 0.5)
        # how often a part is otherwise than those that it is like
        self.strange = self.pick(0, 0, 0.04, 0.15)
        self.outputs = {}

    def is_strange(self):
        return self.random.random() < self.strange

    def build(self):
        width, height, length = self.size
        layers = [[[self.block() if self.random.random() < self.filled else "air"
                    for _ in range(width)] for _ in range(length)] for _ in range(height)]
        plans = (self.plan_tree, self.plan_rows, self.plan_constants, self.plan_wires,
                 self.plan_containers)
        for plan in self.random.choices(plans, (4, 4, 4, 3, 2), k=self.pick(1, 1, 2, 3)):
            way = self.pick(*LEVEL)
            place = tuple(self.random.randrange(most) for most in self.size)
            plan(layers, self.drawn_back(place, way), way)
        return layers, [line for y, layer in enumerate(layers) for z, row in enumerate(layer)
                        for x, block in enumerate(row) for line in self.lines((x, y, z), block)]

    def drawn_back(self, place, way):
        """A place near the edge that a plan comes from, so that it has room."""
        x, y, z = place
        width, _, length = self.size
        near = self.random.randrange(2)
        return {"east": (near, y, z), "west": (width - 1 - near, y, z), "south": (x, y, near),
                "north": (x, y, length - 1 - near)}[way]

    def lines(self, place, block):
        if place in self.outputs and block.startswith("comparator"):
            yield "output", place, [str(self.outputs[place])]
        elif block.startswith("comparator") and self.random.random() < 0.7:
            yield "output", place, [str(self.pick(0, 0, 15))]
        else:
            yield from super().lines(place, block)

    def end(self):
        return self.pick("redstone_lamp", "redstone_lamp", "note_block", "iron_trapdoor")

    # The looks of parts that are alike: a part is made of a look and of the way that it runs.

    def look(self):
        """A diode or a torch, but for the way that it runs."""
        is_powered, delay, mode = self.flag(), self.random.randint(1, 3), self.pick("compare", "subtract")
        return self.random.choices((
            lambda way: [f"repeater[delay={delay},facing={OPPOSITE[way]},powered={is_powered}]"],
            lambda way: ["stone", f"redstone_wall_torch[facing={way},lit={is_powered}]"],
            lambda way: [f"comparator[facing={OPPOSITE[way]},mode={mode}]"],
            lambda way: ["redstone_wire"]), (6, 2, 1, 2))[0]

    def put_look(self, layers, place, way, look):
        """Puts the blocks of a look, or now and then of another one, and gives the place behind."""
        for block in (self.look() if self.is_strange() else look)(way):
            self.put(layers, place, block)
            place = step(place, way)
        return place

    # Plans.

    def plan_tree(self, layers, place, way):
        """A lever, and wires from which repeaters go to three sides or two, each to such a wire or to
        an end. Those of one height are alike."""
        delays = [self.random.randint(1, 3) for _ in range(self.random.randint(1, 3))]
        self.put(layers, place, f"lever[face=floor,powered={self.flag()}]")
        self.branch(layers, step(place, way), way, delays, self.flag())

    def branch(self, layers, place, way, delays, is_powered):
        if self.is_strange():
            self.put(layers, place, "redstone_wire")
            place = step(place, way)
        self.put(layers, place, "redstone_wire")
        delay, *others = delays
        for side in (way, *CROSSING[way]):
            if self.random.random() < 0.2:
                continue
            told = 4 if self.is_strange() else delay
            self.put(layers, step(place, side),
                     f"repeater[delay={told},facing={OPPOSITE[side]},powered={is_powered}]")
            behind = on(place, side, 2)
            if others:
                self.branch(layers, behind, side, others, is_powered)
            else:
                self.put(layers, behind, self.end())

    def plan_rows(self, layers, place, way):
        """Rows that are alike and run side by side from one wire, to their ends or to one wire more."""
        side, count = self.pick(*CROSSING[way]), self.random.randint(2, 3)
        looks = [self.look() for _ in range(self.random.randint(1, 5))]
        self.put(layers, place, self.giver())
        first = step(place, way)
        self.put_line(layers, first, side, 2 * count - 1)
        for row in range(count):
            at = step(on(first, side, 2 * row), way)
            for look in looks:
                at = self.put_look(layers, at, way, look)
            self.put(layers, at, self.end())
        if self.random.random() < 0.3:
            self.put_line(layers, at, OPPOSITE[side], 2 * count - 1)
            self.put(layers, step(at, way), self.end())

    def put_line(self, layers, place, way, count):
        for far in range(count):
            self.put(layers, on(place, way, far), "redstone_wire")

    def plan_constants(self, layers, place, turn):
        """Comparators behind what is clicked, each with a constant at its side. Its wires lead to a
        diode that a constant powers too, and that is turned to the side of the next one."""
        way, place = self.pick(*CROSSING[turn]), self.middle(place, turn)
        self.put_constant(layers, place, OPPOSITE[turn])
        place = step(place, turn)
        for _ in range(self.random.randint(2, 6)):
            mode = "compare" if self.is_strange() else "subtract"
            self.put(layers, place, f"comparator[facing={OPPOSITE[way]},mode={mode}]")
            self.outputs[place] = 0
            self.put(layers, step(place, OPPOSITE[way]), self.giver())
            wires = self.pick(1, 1, 1, 2)
            self.put_line(layers, step(place, way), way, wires)
            last = on(place, way, wires)
            if not self.is_strange():
                self.put_constant(layers, step(last, way), way)
            self.put_diode(layers, step(last, turn), OPPOSITE[turn], 15)
            place, way = on(last, turn, 2), self.pick(OPPOSITE[way], OPPOSITE[way], way)
            if not self.put(layers, step(place, turn), "air"):
                break
        self.put(layers, place, self.end())

    def middle(self, place, way):
        """The place in the middle between the sides of a plan."""
        x, y, z = place
        width, _, length = self.size
        return (x, y, length // 2) if way in ("east", "west") else (width // 2, y, z)

    def put_diode(self, layers, place, facing, output):
        """A diode that gives this much, or a repeater that is on."""
        if self.random.random() < 0.6:
            is_powered = self.flag() if self.is_strange() else "true"
            self.put(layers, place, f"repeater[facing={facing},powered={is_powered}]")
        elif self.put(layers, place, f"comparator[facing={facing}]"):
            self.outputs[place] = output

    def put_constant(self, layers, place, side):
        """A constant, or a diode with one behind it on that side."""
        if self.random.random() < 0.7:
            self.put(layers, place, "redstone_block")
            return
        level, bites = self.random.randint(0, 8), self.random.randint(0, 6)
        block, output = self.pick(("redstone_block", 15), ("redstone_torch", 15), ("barrel", 0),
                                  (f"composter[level={level}]", level),
                                  (f"cake[bites={bites}]", 14 - 2 * bites))
        self.put_diode(layers, place, side, output)
        self.put(layers, step(place, side), block)

    def plan_wires(self, layers, place, way):
        """Wires that go on, up and down over what carries them, with lamps and diodes beside them."""
        self.put(layers, place, self.giver())
        for _ in range(self.random.randint(4, 11)):
            place = step(place, way)
            self.put(layers, step(place, "down"), self.pick(*CARRIERS, "redstone_lamp"))
            self.put(layers, place, "redstone_wire")
            if self.random.random() < 0.2:
                self.put(layers, step(place, "up"), self.pick(*CARRIERS, "redstone_lamp"))
            if self.random.random() < 0.3:
                side = self.pick(*CROSSING[way])
                self.put(layers, step(place, side), self.pick(self.end(), self.diode(OPPOSITE[side])))
            place = self.pick(place, step(place, "up"), step(place, "down"))
            if not 0 <= place[1] < self.size[1]:
                place = (place[0], self.size[1] // 2, place[2])
            way = self.pick(*CROSSING[way]) if self.random.random() < 0.1 else way
        self.put(layers, step(place, way), self.end())

    def plan_containers(self, layers, place, way):
        """Containers side by side, and comparators that read them, some through a block, some with
        power at a side."""
        side, look = self.pick(*CROSSING[way]), self.look()
        container = self.pick(*CONTAINERS)
        for row in range(self.random.randint(1, 3)):
            at = on(place, side, 2 * row)
            self.put(layers, at, self.pick(*CONTAINERS) if self.is_strange() else container)
            at = step(at, way)
            if self.random.random() < 0.3:
                self.put(layers, at, self.pick("stone", "redstone_lamp", "glass"))
                at = step(at, way)
            mode = self.pick("compare", "subtract")
            self.put(layers, at, f"comparator[facing={OPPOSITE[way]},mode={mode}]")
            if self.random.random() < 0.5:
                self.draw_side(layers, at, side)
            at = self.put_look(layers, step(at, way), way, look)
            self.put(layers, at, self.end())
