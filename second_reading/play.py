#!/usr/bin/env python3
"""Prints what the program should print, by a second reading of the rules.

play.py world BUILD SCRIPT
play.py compile BUILD SCRIPT [--raw] [--keep] [--json]
play.py run BUILD SCRIPT [--graph] [--keep [--order]]
play.py check BUILD SCRIPT ORDER
play.py play GRAPH SCRIPT

The words are those of the program; --raw leaves out all passes. This reads docs/REDSTONE.md and
docs/BLOCKS.md a second time, and was written without a look at how the program plays and compiles.
It is slow, and it trusts its files (redstone.py).

Ticks that are due together fire by priority, and within one priority in the order in which they were
added, those added at one event by place. A run is then played again in the order of places, and in
the reverse. Where another order gives other views, a line on standard error says so and the status
is 1, since such a build has no one text. Where it gives another number of events alone, the line
says that.
"""
import argparse
import sys

sys.dont_write_bytecode = True

from graph import Graph, Machine, nodes_of_file
from order import Refused, check
from redstone import ORDERS, Build, read_script
from world import World


def texts_of(words):
    """The lines that the words ask for, once for each order of due ticks."""
    if words.command == "play":
        acts, _ = read_script(words.script)
        return [list(Machine(nodes_of_file(words.build), order).run(acts)) for order in ORDERS]
    build, (acts, marks) = Build(words.build), read_script(words.script)
    if words.command == "world":
        return [[*World(build, marks, order).play(acts), "end"] for order in ORDERS]
    if words.command == "check":
        with open(words.order_text, encoding="latin-1", newline="") as file:
            return [check(World(build, marks, "added"), acts, file.read())]
    graph = Graph(build, marks)
    if not words.raw:
        graph.compile(words.keep)
    if words.command == "compile":
        return [[graph.json()]] if words.json else [[*graph.text(), "end"]]
    front = list(graph.text()) if words.graph else []
    return [front + list(Machine(graph.nodes, order).run(acts, words.order)) for order in ORDERS]


def words_of(arguments):
    words = argparse.ArgumentParser()
    words.add_argument("command", choices=("world", "compile", "run", "play", "check"))
    words.add_argument("build")
    words.add_argument("script")
    words.add_argument("order_text", nargs="?")
    for word in ("--raw", "--keep", "--graph", "--json", "--order"):
        words.add_argument(word, action="store_true")
    return words.parse_args(arguments)


def are_alike(lines, others):
    """Whether two texts are one, but for a number of events."""
    def shortened(text):
        return [line.split(" events ")[0] if line.startswith("nodes ") else line for line in text]
    return shortened(lines) == shortened(others)


def main():
    try:
        lines, *others = texts_of(words_of(sys.argv[1:]))
    except Refused as refused:
        print(f"redpile: {refused}", file=sys.stderr)
        sys.exit(8)
    print("\n".join(lines))
    if not all(are_alike(lines, other) for other in others):
        sys.exit("play: another order of due ticks gives other views")
    if any(lines != other for other in others):
        print("play: another order of due ticks gives another number of events", file=sys.stderr)


if __name__ == "__main__":
    main()
