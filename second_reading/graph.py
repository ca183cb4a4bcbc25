"""The compiled graph of a build, by what docs/REDSTONE.md says of compiled graphs, and as a circuit."""
import json

from redstone import COMPONENTS, SHOWN, SIDES, Circuit, Part, Shape, order_of, out, step

FARTHEST = 15
CLICKED = ("lever", "button", "plate", "weighted")
FOLDED = COALESCED = ("torch", "repeater", "comparator")


class Link:
    def __init__(self, source, weight):
        self.source, self.weight = source, weight


class Node(Part):
    """A part with a number and its links, each list in order."""
    def __init__(self, build, place, number):
        super().__init__(build, place)
        self.number, self.links = number, {"back": [], "side": []}
        self.pending = build.pending.get(place)
        self.direct = self.far = None
        if self.kind == "redstone_block":
            self.make_constant(15)
        if self.kind == "comparator":
            facing = build.at(place).facing
            source = step(place, facing)
            self.direct = build.strength(source)
            if build.at(source).solid and self.direct is None:
                self.far = build.strength(step(source, facing))

    def make_constant(self, value):
        self.kind, self.value, self.pending = "constant", value, None
        self.links = {"back": [], "side": []}

    def all_links(self):
        return self.links["back"] + self.links["side"]

    def text(self):
        words = ["node", self.number, self.kind, *self.place, self.value]
        if self.kind in ("repeater", "button"):
            words += ["delay", self.ticks]
        if self.kind == "comparator":
            words += ["subtract" if self.is_subtracting else "compare"]
            words += ["direct", self.direct] if self.direct is not None else []
            words += ["far", self.far] if self.far is not None else []
        if self.is_first:
            words += ["first"]
        if self.pending:
            words += ["due", self.pending[0], "priority", self.pending[1]]
        return " ".join(map(str, words))

    def json(self):
        due, priority = self.pending or (0, 0)
        told = {"also": self.also, "at": self.place, "due": due, "first": self.is_first,
                "kind": self.kind, "priority": priority, "state": self.value}
        if self.kind in ("repeater", "button"):
            told["delay"] = self.ticks
        if self.kind == "comparator":
            told["subtract"] = self.is_subtracting
            told.update({key: value for key, value in (("direct", self.direct), ("far", self.far))
                         if value is not None})
        return told


class Graph:
    """The raw graph of a build, and the passes over it."""
    def __init__(self, build, marks):
        self.build, self.shape, self.distances = build, Shape(build), {}
        places = sorted((p for p, block in build.blocks.items()
                         if block.kind in COMPONENTS + ("redstone_block",) or p in marks),
                        key=order_of)
        self.number = {place: number for number, place in enumerate(places)}
        self.nodes = {number: Node(build, place, number) for number, place in enumerate(places)}
        for place, number in self.number.items():
            for group, taps in (("back", self.back_taps), ("side", self.side_taps)):
                self.nodes[number].links[group] = [
                    link for tap in taps(place) for link in self.links_of(tap)]

    # What is read.

    def back_taps(self, place):
        """The places that are tapped, in order."""
        node, block = self.nodes[self.number[place]], self.build.at(place)
        if node.kind == "wire":
            yield place
        elif node.kind == "torch":
            yield from self.shape.givers(place, block.stands_on)
        elif block.is_diode and node.direct is None:
            source = step(place, block.facing)
            if self.shape.is_wire(source):
                yield source
            else:
                yield from self.shape.givers(place, block.facing)
        elif node.kind in SHOWN:
            for side in SIDES:
                yield from self.shape.givers(place, side)

    def side_taps(self, place):
        kind = self.build.at(place).kind
        if kind in ("repeater", "comparator"):
            for near, is_turned_to in self.shape.beside(place):
                if is_turned_to or kind == "comparator" and self.build.at(near).kind in (
                        "wire", "redstone_block"):
                    yield near

    def links_of(self, tap):
        if not self.shape.is_wire(tap):
            return [Link(self.number[tap], 0)]
        return [Link(number, weight) for weight, number in self.distances_from(tap)]

    def distances_from(self, wire):
        """The nodes whose power reaches a wire, by distance and number."""
        if wire not in self.distances:
            distance, nodes, level = 0, {}, {wire}
            met = set(level)
            while level and distance <= FARTHEST:
                for place in level:
                    for giver in (g for side in SIDES for g in self.shape.givers(place, side)):
                        if not self.shape.is_wire(giver):
                            nodes.setdefault(self.number[giver], distance)
                level = {feeder for place in level for feeder in self.shape.feeders[place]} - met
                met |= level
                distance += 1
            self.distances[wire] = sorted((weight, number) for number, weight in nodes.items())
        return self.distances[wire]

    # Passes. Each takes its steps until none is left, and says whether it took one.

    def compile(self, is_kept):
        passes = [self.clamp, self.dedup, self.unreach, self.fold, self.coalesce]
        passes += [] if is_kept else [self.prune]
        while any([take() for take in passes]):
            pass

    def keep_links(self, is_kept):
        """Keeps the links for which a test of the node, the group and the place there is met."""
        has_dropped = False
        for node in self.nodes.values():
            for group, links in node.links.items():
                kept = [link for i, link in enumerate(links) if is_kept(node, links, i)]
                has_dropped |= len(kept) < len(links)
                node.links[group] = kept
        return has_dropped

    def clamp(self):
        return self.keep_links(lambda node, links, i: links[i].weight < 15)

    def dedup(self):
        def is_kept(_, links, i):
            return not any(other.source == links[i].source and
                           (other.weight, j) < (links[i].weight, i)
                           for j, other in enumerate(links))
        return self.keep_links(is_kept)

    def unreach(self):
        bounds = {number: self.bound(node) for number, node in self.nodes.items()}
        return self.keep_links(lambda node, links, i: links[i].weight < bounds[links[i].source])

    def bound(self, node):
        if node.kind == "constant":
            return node.value
        if node.kind == "comparator" and node.is_subtracting:
            return max(node.value, 15 - self.constants_bring(node, "side"))
        return 15

    def constants_bring(self, node, group):
        return max([0] + [self.nodes[link.source].value - link.weight for link in node.links[group]
                          if self.nodes[link.source].kind == "constant"])

    def fold(self):
        has_folded = False
        while folded := self.foldable():
            has_folded = True
            for node in folded:
                node.make_constant(out(node.kind, node.value))
        return has_folded

    def foldable(self):
        stored = Machine(self.nodes, "added", is_settled=False)
        return [node for number, node in self.nodes.items()
                if node.kind in FOLDED and node.pending is None
                and all(self.nodes[link.source].kind == "constant" for link in node.all_links())
                and (stored.goal(number) == node.value or stored.is_locked(number))]

    def coalesce(self):
        has_merged, is_new = False, True
        while is_new:
            is_new = False
            for first in list(self.nodes):
                for second in [number for number in self.nodes if number > first]:
                    if first in self.nodes and self.are_one(first, second):
                        self.merge(first, second)
                        has_merged = is_new = True
        return has_merged

    def are_one(self, first, second):
        one, other = self.nodes[first], self.nodes[second]
        if one.kind not in COALESCED or self.doing(one) != self.doing(other):
            return False
        links = one.all_links() + other.all_links()
        if len(one.links["back"]) != 1 or len(other.links["back"]) != 1 or len(links) != 2:
            return False
        source = links[0].source
        if links[1].source != source or source in (first, second):
            return False
        if any(link.weight >= 15 for link in links):
            return False
        if links[0].weight != links[1].weight:
            gives_all = self.nodes[source].kind in ("lever", "button", "plate", "torch", "repeater")
            gives_all |= self.nodes[source].kind == "constant" and self.nodes[source].value in (0, 15)
            if one.kind == "comparator" or not gives_all:
                return False
        return not any({first, second} <= {link.source for link in node.all_links()}
                       and self.are_parted(node, first, second) for node in self.nodes.values())

    def are_parted(self, node, first, second):
        """Whether a node has links from one in one group and from the other in the other."""
        back, side = ({link.source for link in node.links[group]} for group in ("back", "side"))
        return first in back and second in side or second in back and first in side

    def doing(self, node):
        return (node.kind, node.ticks, node.is_subtracting, node.direct, node.far, node.is_first,
                node.value, node.pending)

    def merge(self, first, second):
        for node in self.nodes.values():
            for link in node.all_links():
                if link.source == second:
                    link.source = first
        gone = self.nodes.pop(second)
        self.nodes[first].also += [gone.place, *gone.also]

    def prune(self):
        kept, waiting = set(), [number for number, node in self.nodes.items()
                                if node.kind in SHOWN + CLICKED + ("wire",)]
        while waiting:
            number = waiting.pop()
            if number not in kept:
                kept.add(number)
                waiting += [link.source for link in self.nodes[number].all_links()]
        has_dropped = len(kept) < len(self.nodes)
        self.nodes = {number: node for number, node in self.nodes.items() if number in kept}
        return has_dropped

    # Texts.

    def counts(self):
        return len(self.nodes), sum(len(node.all_links()) for node in self.nodes.values())

    def text(self):
        yield "graph {} {}".format(*self.counts())
        for node in self.nodes.values():
            yield node.text()
        for node in self.nodes.values():
            for group, links in node.links.items():
                for link in links:
                    yield f"link {link.source} {node.number} {group} {link.weight}"

    def json(self):
        """The graph file: the nodes anew from 0, in the order of their numbers."""
        number = {old: new for new, old in enumerate(self.nodes)}
        links = [[number[link.source], number[node.number], int(group == "side"), link.weight]
                 for node in self.nodes.values() for group, links in node.links.items()
                 for link in links]
        nodes = [node.json() for node in self.nodes.values()]
        return json.dumps({"redpile": 1, "nodes": nodes, "links": links}, sort_keys=True,
                          separators=(",", ":"))


class FileNode:
    """A node of a graph file, as `Machine` plays it."""
    priority = Part.priority
    all_links = Node.all_links

    def __init__(self, number, told):
        self.number, self.kind, self.value = number, told["kind"], told["state"]
        self.place, self.also = tuple(told["at"]), [tuple(place) for place in told.get("also", [])]
        self.is_first, self.is_subtracting = told.get("first", False), told.get("subtract", False)
        self.ticks = told["delay"] if self.kind in ("repeater", "button") else \
            2 if self.kind == "lamp" else 1
        self.direct, self.far = told.get("direct"), told.get("far")
        self.pending = (told["due"], told["priority"]) if told.get("due") else None
        self.links = {"back": [], "side": []}


def nodes_of_file(path):
    with open(path, encoding="ascii") as file:
        told = json.load(file)
    nodes = {number: FileNode(number, node) for number, node in enumerate(told["nodes"])}
    for source, target, group, weight in told["links"]:
        nodes[target].links["side" if group else "back"].append(Link(source, weight))
    return nodes


class Machine(Circuit):
    """The nodes of a graph, under their numbers."""
    def __init__(self, nodes, order, is_settled=True):
        self.is_settled = is_settled
        waits = {number: node.pending for number, node in nodes.items() if node.pending}
        shown = [n for n, node in nodes.items() if node.kind in SHOWN + ("wire",)]
        super().__init__(nodes, waits, shown, order)

    def settle(self):
        if self.is_settled:
            super().settle()

    def reading(self, number, group):
        return max([0] + [out(self.parts[link.source].kind, self.values[link.source]) - link.weight
                          for link in self.parts[number].links[group]])

    def back(self, number):
        node, power = self.parts[number], self.reading(number, "back")
        if node.direct is not None:
            return node.direct
        return node.far if node.far is not None and power < 15 else power

    def side(self, number):
        return self.reading(number, "side")

    def is_locked(self, number):
        return self.parts[number].kind == "repeater" and self.side(number) > 0

    def shown(self, number):
        is_wire = self.parts[number].kind == "wire"
        return self.back(number) if is_wire else self.values[number]

    def run(self, acts, tells_order=False):
        yield from self.play(acts, tells_order)
        links = sum(len(node.all_links()) for node in self.parts.values())
        yield f"nodes {len(self.parts)} links {links} events {self.events}"
        yield "end"
