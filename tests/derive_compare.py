#!/usr/bin/env python3
"""Derives compare.script and compare.expected from the rules of the comparison, without the program.

The sides are drawn from small identifiers, so that they often meet, with a fixed seed. The answers are derived here;
the names of the rules are only the program's wording for them, copied from crates/compare/specs/Rules.antt.
"""
import random

NAMES = {
    "both blank": "both nodes are blank",
    "one blank": "one node is blank",
    "both inconsistent": "same generation, both nodes inconsistent",
    "one inconsistent": "same generation, one node inconsistent",
    "same": "same generation",
    "bitmap": "one node's bitmap starts at the other's generation",
    "history": "one node's history holds the other's generation",
    "same bitmap": "both nodes went on from the same generation",
    "ancestor": "a common ancestor",
    "nothing": "nothing in common",
}


class Side:
    def __init__(self, current, bitmap, recent, older, consistent, primary, role, bits):
        self.words = [current, bitmap, recent, older, consistent, primary, role, bits]
        self.current, self.bitmap, self.recent, self.older = current, bitmap, recent, older
        self.consistent, self.primary, self.role, self.bits = consistent, primary, role, bits

    def history(self):
        return {self.recent, self.older}

    def left_behind(self):
        return {self.bitmap, self.recent, self.older} - {0}


def one_way(first, second, amount):
    """The source is where the test holds: 0 or 1, split if at both, none if at neither."""
    if first and second:
        return ("split", 2)
    if first:
        return ("copy", 0, amount)
    if second:
        return ("copy", 1, amount)
    return ("none",)


def rule(a, b):
    if a.current == 0 and b.current == 0:
        return "both blank", ("refused", "26 Blank")
    if a.current == 0 or b.current == 0:
        return "one blank", one_way(b.current == 0, a.current == 0, 2)
    if a.current == b.current:
        if not a.consistent and not b.consistent:
            return "both inconsistent", ("refused", "27 NoSource")
        if not a.consistent or not b.consistent:
            return "one inconsistent", one_way(a.consistent, b.consistent, 1)
        return "same", one_way(a.primary, b.primary, 1)
    if a.current == b.bitmap or b.current == a.bitmap:
        return "bitmap", one_way(b.current == a.bitmap, a.current == b.bitmap, 1)
    if a.current in b.history() or b.current in a.history():
        return "history", one_way(b.current in a.history(), a.current in b.history(), 2)
    if a.bitmap == b.bitmap != 0:
        return "same bitmap", ("split", 1)
    if a.left_behind() & b.left_behind():
        return "ancestor", ("split", 2)
    return "nothing", ("refused", "25 Unrelated")


def compared(a, b, word):
    """What node 0, whose side is a, and node 1 are told."""
    sides = [a, b]
    name, found = rule(a, b)
    if found[0] == "copy":
        source, target = sides[found[1]], sides[1 - found[1]]
        if not source.consistent:
            found = ("refused", "27 NoSource")
        elif target.role:
            found = ("split", 2)
    if found[0] == "split":
        yields = {0: None, 1: 0, 2: 1, 3: 0 if a.bits < b.bits else 1}[word]
        if yields is not None and not sides[yields].role and sides[1 - yields].consistent:
            found = ("copy", 1 - yields, found[1])
        else:
            found = ("refused", "24 Split")
    if found[0] == "refused":
        return name, f"refused {found[1]}"
    if found[0] == "none":
        return name, "ok 0 0"
    amount = found[2]
    return name, f"ok +{amount} -{amount}" if found[1] == 0 else f"ok -{amount} +{amount}"


def drawn(draw):
    current = draw.choice([0, 2, 3, 4, 5, 6, 7, 8, 9, 10])
    others = (draw.choice([0, 0, 2, 3, 4, 5, 6, 7, 8, 9]) for _ in range(3))
    return Side(current, *others, draw.random() < 0.8, draw.random() < 0.4, draw.random() < 0.3, draw.randrange(3))


def main():
    draw = random.Random(7)
    script = ["# Comparisons of two nodes' generations: derived from the rules by derive_compare.py."]
    expected = []
    for count in range(500):
        a, b = drawn(draw), drawn(draw)
        word = count % 4
        command = "compare " + " ".join(str(int(w)) for w in a.words + b.words + [word])
        name, answer = compared(a, b, word)
        script.append(command)
        expected += [f"{command} -> {answer}", f"  {NAMES[name]}"]
    script.append("compare 0 0 0 0 0 0 0 0 0 0 0 0 0 0 0 0 4")
    expected.append("compare 0 0 0 0 0 0 0 0 0 0 0 0 0 0 0 0 4 -> refused 4 Word")
    expected.append("status 0")
    with open("compare.script", "w") as out:
        out.write("\n".join(script) + "\n")
    with open("compare.expected", "w") as out:
        out.write("\n".join(expected) + "\n")


main()
