#!/usr/bin/env python3
"""Makes the layers in docs/ARCHITECTURE.md, between two comments: the crates of each layer with what they are, and a picture of what each
rests on, without what follows from that.

What a crate rests on is taken from crates.txt, the layers and the words from layers.txt beside this script. Every crate has a layer, and
rests on none of a later one.

    docs/make/layers.py [--check]
"""
import re
import sys

import page

PAGE = "docs/ARCHITECTURE.md"
START, END = "<!-- made by docs/make/layers.py -->", "<!-- to here -->"


def layers():
    """The layers in order: name, words, and words of each crate."""
    found = []
    for line in (page.ROOT / "docs" / "make" / "layers.txt").read_text().splitlines():
        if line.startswith("#") or not line:
            continue
        name, _, words = line.removeprefix("== ").partition(": ")
        if line.startswith("== "):
            found.append((name, words, {}))
        else:
            found[-1][2][name] = words
    return found


def below(crates, names):
    """All that some crates rest on, by way of others too."""
    found, todo = set(), [need for name in names for need in crates.get(name, [])]
    while todo:
        name = todo.pop()
        if name not in found:
            found.add(name)
            todo += crates.get(name, [])
    return found


def fault(crates, levels):
    """What is wrong with the layers, or None."""
    placed = [name for _, _, of_layer in levels for name in of_layer]
    for name in sorted(set(placed) ^ set(crates)):
        return f"crates.txt and docs/make/layers.txt do not both have {name}"
    at = {name: level for level, (_, _, of_layer) in enumerate(levels) for name in of_layer}
    for name, needs in crates.items():
        for need in needs:
            if need not in at:
                return f"{name} rests on {need}, which crates.txt has no line for"
            if at[need] > at[name]:
                return f"{name} ({levels[at[name]][0]}) rests on {need} ({levels[at[need]][0]}), which is a later layer's"
    return None


def picture(crates, levels):
    """The layers from the top down, with what each crate rests on and nothing that follows from that."""
    width = max(map(len, crates))
    above = {crate: sum(crate in below(crates, [other]) for other in crates) for crate in crates}
    lines = []
    for name, words, of_layer in reversed(levels):
        lines.append(f"    ┌─ {name} " + "─" * (80 - len(name)))
        # what rests on others of the layer stands above them
        height = {crate: len([other for other in below(crates, [crate]) if other in of_layer]) for crate in of_layer}
        for crate in sorted(of_layer, key=lambda crate: (-height[crate], crate)):
            needs = [need for need in crates[crate] if need not in below(crates, set(crates[crate]) - {need})]
            line = f"    │ {crate:<{width}}  {above[crate]:>2}  "
            for need in needs:
                if len(line) + len(need) + 1 > 118:
                    lines.append(line.rstrip())
                    line = "    │ " + " " * (width + 6)
                line += need + " "
            lines.append(line.rstrip())
    return "\n".join(lines) + "\n"


def made():
    crates, levels = page.crates(), layers()
    wrong = fault(crates, levels)
    if wrong:
        sys.exit(wrong)
    text = (page.ROOT / PAGE).read_text()
    head, start, rest = text.partition(START + "\n")
    _, end, tail = rest.partition(END)
    if not start or not end:
        sys.exit(f"{PAGE} has no place for the layers: {START} .. {END}")
    rows = []
    for name, words, of_layer in levels:
        cells = "<br>".join(f"`{crate}`: {about}" for crate, about in of_layer.items())
        rows.append(f"| {name}: {words} | {cells} |\n")
    table = "| layer | crates |\n|---|---|\n" + "".join(rows)
    said = "A crate, how many crates rest on it, and what it rests on, without what follows from that:"
    return f"{head}{start}\n{table}\n{said}\n\n{picture(crates, levels)}\n{end}{tail}"


if __name__ == "__main__":
    page.main(PAGE, made())
