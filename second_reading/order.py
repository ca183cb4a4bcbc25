"""Checks the text of an order against the world's rules, as docs/REDSTONE.md says."""
import re

NUMBER = "0|[1-9][0-9]*"
FIRE = re.compile(f"fire ({NUMBER}) ({NUMBER}) ({NUMBER})")


class Refused(Exception):
    """The first bad line: its number from 1, how many ticks were shown before it, its kind."""


class Text:
    def __init__(self, text):
        self.rest, self.line, self.ticks = text, 0, 0

    def refuse(self, kind):
        raise Refused(f"order: line {self.line} tick {self.ticks} {kind}")

    def next(self):
        """The next line, without its LF."""
        self.line += 1
        line, end, self.rest = self.rest.partition("\n")
        if not end:
            self.refuse("short")
        return line

    def expect(self, line):
        if self.next() != line:
            self.refuse("differs")


def fire_next(world, line, fired, text):
    """Fires what a line names, if it may fire now."""
    told = FIRE.fullmatch(line)
    place = tuple(map(int, told.groups())) if told else ()
    if not told or max(place) >= 1 << 32:
        text.refuse("form")
    if place in fired:
        text.refuse("twice")
    if world.waits.get(place, (0, 0))[0] != world.time:
        text.refuse("not due")
    if any(due == world.time and priority < world.waits[place][1]
           for due, priority in world.waits.values()):
        text.refuse("priority")
    world.fire(place)
    fired.add(place)


def check(world, acts, order):
    """What `check` prints of an order of a world that has just started, or Refused."""
    text, fires = Text(order), 0
    for line in world.header():
        text.expect(line)
    text.expect(world.view("start"))
    for word, numbers in acts:
        if word != "tick":
            world.click(word, tuple(numbers[:3]), numbers[3] if numbers[3:] else None)
            text.expect(world.view(word))
            continue
        for _ in range(numbers[0]):
            world.time += 1
            fired = set()
            while (line := text.next()).startswith("fire "):
                fire_next(world, line, fired, text)
            if any(due == world.time for due, _ in world.waits.values()):
                text.refuse("left")
            if line != world.view("tick"):
                text.refuse("differs")
            text.ticks += 1
            fires += len(fired)
    line = text.next()
    if line.startswith("nodes "):
        line = text.next()
    if line != "end":
        text.refuse("differs")
    if text.rest:
        text.line += 1
        text.refuse("trailing")
    return [f"ticks {text.ticks} fires {fires}", "end"]
