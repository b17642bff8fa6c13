#!/usr/bin/env python3
"""Steps a listing beside the circuit of its netlist, in every sound state, with nothing of the program.

    tools/step_listing.py NET LISTING [NET LISTING ..]

The unit step of the circuit is found from its paths: all simple ones are listed, and a node may be 1, or 0, where
some path to it is unblocked whose root may be so. The listing is read and run as `docs/FORMATS.md` says. The status
is 0 where both agree in every state of every pair. Made for small circuits: a circuit of n nodes that are no rails
has 3^n states. To try the rows:

    for row in rows/*compiled; do tools/step_listing.py $row/net $row/stdout; done
"""
import itertools
import sys

INPUT_LEVEL = 16
MOST_SIZE_LEVEL = 8
STRENGTHS = {"n": 2, "e": 2, "p": 2, "d": 1}
MAY_BE_ONE, MAY_BE_ZERO = "1X", "0X"


class Circuit:
    """The nodes and switches of a netlist that has no refused line."""

    def __init__(self, text):
        self.names = ["Gnd", "Vdd"]
        self.levels = [INPUT_LEVEL, INPUT_LEVEL]
        self.switches = []
        for line in text.splitlines():
            words = line.split()
            if words and words[0] in STRENGTHS:
                self.add_switch(words)
            elif words and words[0] == "A":
                self.add_attributes(words)

    def node(self, name):
        """The node of a name, new where the name is."""
        folded = name.lower().removesuffix("!")
        if folded in ("gnd", "vdd"):
            return ("gnd", "vdd").index(folded)
        if name not in self.names:
            self.names.append(name)
            self.levels.append(1)
        return self.names.index(name)

    def add_switch(self, words):
        kind, strength = words[0], STRENGTHS[words[0]]
        gate, source, drain = map(self.node, words[1:4])
        for item in ",".join(word[2:] for word in words[4:] if word.startswith("g=")).split(","):
            if item.startswith("strength:"):
                strength = int(item.removeprefix("strength:"))
        self.switches.append((kind, gate, source, drain, MOST_SIZE_LEVEL + strength))

    def add_attributes(self, words):
        node = self.node(words[1])
        for item in ",".join(words[2:]).split(","):
            if item == "input":
                self.levels[node] = INPUT_LEVEL
            elif item.startswith("size:"):
                self.levels[node] = int(item.removeprefix("size:"))

    def neighbours(self, node, state):
        """The nodes behind the switches at this one that aren't open: level, and whether it is closed."""
        for kind, gate, source, drain, level in self.switches:
            conducts = {"d": "1", "p": {"0": "1", "1": "0"}.get(state[gate], "X")}.get(kind, state[gate])
            if conducts != "0":
                for near, far in ((source, drain), (drain, source)):
                    if near == node:
                        yield far, level, conducts == "1"

    def paths(self, state):
        """Each simple path: its nodes, and the strength and the definiteness of each of its prefixes."""
        waiting = [((root,), (level,), (True,)) for root, level in enumerate(self.levels)]
        while waiting:
            nodes, strengths, definite = waiting.pop()
            yield nodes, strengths, definite
            for far, level, is_closed in self.neighbours(nodes[-1], state):
                if far not in nodes:
                    further = min(strengths[-1], level)
                    sure = definite[-1] and is_closed
                    waiting.append((nodes + (far,), strengths + (further,), definite + (sure,)))

    def step(self, state):
        """The states after a unit step."""
        paths = list(self.paths(state))
        strongest = [0] * len(self.names)
        for nodes, strengths, definite in paths:
            if definite[-1]:
                strongest[nodes[-1]] = max(strongest[nodes[-1]], strengths[-1])
        rails = [[False, False] for _ in self.names]
        for nodes, strengths, _ in paths:
            if all(strength >= strongest[node] for node, strength in zip(nodes, strengths)):
                rails[nodes[-1]][0] |= state[nodes[0]] in MAY_BE_ONE
                rails[nodes[-1]][1] |= state[nodes[0]] in MAY_BE_ZERO
        return "".join(state_of(*pair) for pair in rails)


class Listing:
    """A listing that has no bad line."""

    def __init__(self, text):
        self.nodes, self.code, self.nexts = [], [], {}
        for line in text.splitlines():
            words = line.split(" ")
            if words[0] == "node":
                self.nodes.append((words[2], words[3]))
            elif words[0] == "next":
                self.nexts[int(words[1])] = words[2:]
            else:
                self.code.append(words[2:])

    def step(self, state):
        """The states after a step."""
        results = []

        def value(operand):
            if operand in ("0", "1"):
                return operand == "1"
            number = int(operand[1:])
            if operand[0] == "t":
                return results[number]
            return state[number] in (MAY_BE_ONE if operand[0] == "h" else MAY_BE_ZERO)

        for words in self.code:
            if words[0] == "!":
                results.append(not value(words[1]))
            elif words[1] == "&":
                results.append(value(words[0]) and value(words[2]))
            else:
                results.append(value(words[0]) or value(words[2]))
        after = list(state)
        for node, (one, zero) in self.nexts.items():
            after[node] = state_of(value(one), value(zero))
        return "".join(after)


def state_of(one, zero):
    """The state with these rails: X where both or neither are set."""
    return "X" if one == zero else "1" if one else "0"


def differences(circuit, listing):
    """The sound states from which the two step otherwise, and whether the nodes are the same."""
    kinds = ["i" if level == INPUT_LEVEL else "s" for level in circuit.levels]
    if listing.nodes != list(zip(kinds, circuit.names)):
        return ["the nodes are others"]
    states = ("01" + "".join(rest) for rest in itertools.product("01X", repeat=len(kinds) - 2))
    return [state for state in states if circuit.step(state) != listing.step(state)]


def main(names):
    """Tries each pair, and answers the status."""
    wrong = 0
    for net, listed in zip(names[::2], names[1::2]):
        with open(net) as net_file, open(listed) as listing_file:
            found = differences(Circuit(net_file.read()), Listing(listing_file.read()))
        wrong += len(found)
        print(f"{listed}: {', '.join(found[:8]) or 'steps as the circuit does'}")
    return min(wrong, 1)


if __name__ == "__main__":
    sys.exit(main(sys.argv[1:]))
