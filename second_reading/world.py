"""The blocks of a build as a circuit, by the rules of docs/REDSTONE.md on power."""
from redstone import COMPONENTS, SHOWN, SIDES, Circuit, Part, Shape, order_of, out, step


class World(Circuit):
    """The blocks of a build. Components and marked wires stand under their places."""
    def __init__(self, build, marks, order):
        self.build, self.shape, self.at = build, Shape(build), build.at
        self.fed = {wire: [] for wire in self.shape.wires}
        for wire, feeders in self.shape.feeders.items():
            for feeder in feeders:
                self.fed[feeder].append(wire)
        self.without_dust = {
            wire: [giver for side in SIDES for giver in self.shape.givers(wire, side)
                   if not self.shape.is_wire(giver)] for wire in self.shape.wires}
        places = sorted((p for p, block in build.blocks.items()
                         if block.kind in COMPONENTS or p in marks), key=order_of)
        parts = {place: Part(build, place) for place in places}
        shown = [p for p in places if self.at(p).kind in SHOWN or p in marks]
        super().__init__(parts, build.pending, shown, order)

    def given(self, place):
        """What the block there gives, wherever it gives it."""
        if self.at(place).kind == "redstone_block":
            return 15
        return self.powers[place] if place in self.powers else out(
            self.at(place).kind, self.values[place])

    def read(self, place, side):
        return max((self.given(giver) for giver in self.shape.givers(place, side)), default=0)

    def solve(self):
        """The powers of all wires, from the highest down."""
        self.powers = {}
        base = {wire: max((self.given(giver) for giver in givers), default=0)
                for wire, givers in self.without_dust.items()}
        self.powers = dict(base)
        levels = [[] for _ in range(16)]
        for wire, power in base.items():
            levels[power].append(wire)
        for power in range(15, 1, -1):
            for wire in levels[power]:
                for other in self.fed[wire] if self.powers[wire] == power else ():
                    if self.powers[other] < power - 1:
                        self.powers[other] = power - 1
                        levels[power - 1].append(other)

    def back(self, place):
        block = self.at(place)
        if block.kind == "torch":
            return self.read(place, block.stands_on)
        if not block.is_diode:
            return max(self.read(place, side) for side in SIDES)
        source = step(place, block.facing)
        power = self.powers[source] if source in self.powers else self.read(place, block.facing)
        if block.kind == "repeater":
            return power
        strength = self.build.strength(source)
        if strength is None and self.at(source).solid and power < 15:
            strength = self.build.strength(step(source, block.facing))
        return power if strength is None else strength

    def side(self, place):
        powers = [0]
        for near, is_turned_to in self.shape.beside(place):
            if is_turned_to or self.at(near).kind in ("wire", "redstone_block"):
                powers.append(self.given(near))
        return max(powers)

    def is_locked(self, place):
        return self.at(place).kind == "repeater" and any(
            self.given(near) for near, is_turned_to in self.shape.beside(place) if is_turned_to)

    def shown(self, place):
        return self.powers[place] if place in self.powers else self.values[place]
