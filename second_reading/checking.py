"""What the program says of the text of an order, and what the second reading says."""
import subprocess

import play


def shown_order(program, build, script):
    """The text that the program writes of a run with its order."""
    words = [program, "run", build, script, "--keep", "--order"]
    return subprocess.run(words, capture_output=True, check=True).stdout.decode()


def swapped(text, most):
    """So many texts at most in which two fire lines, one behind the other, are exchanged."""
    lines = text.splitlines(True)
    pairs = [at for at in range(len(lines) - 1)
             if lines[at].startswith("fire ") and lines[at + 1].startswith("fire ")]
    for at in pairs[::max(1, -(-len(pairs) // most))]:
        yield "".join(lines[:at] + [lines[at + 1], lines[at]] + lines[at + 2:])


def answers(program, build, script, text, path):
    """Status, output and line of a fault, of the program and of the second reading. The text is
    written to the path."""
    with open(path, "w", encoding="latin-1", newline="") as file:
        file.write(text)
    words = ["check", build, script, path]
    ran = subprocess.run([program, *words], capture_output=True, check=False)
    try:
        expected = (0, "\n".join(play.texts_of(play.words_of(words))[0]) + "\n", "")
    except play.Refused as refused:
        expected = (8, "", f"redpile: {refused}\n")
    return (ran.returncode, ran.stdout.decode(), ran.stderr.decode()), expected
