#!/usr/bin/env python3
"""A switch-level simulator after docs/MODEL.md, for small circuits, with nothing of the program.

    tools/circuits/reference.py NET SCRIPT

Writes the waveform lines that `cosmos sim NET SCRIPT` writes, counts of steps and marks among them. The netlist is in
profile 1, and no line of it or of the script is refused; a group may have any size. The script has the commands
`input`, which stand before the first step, `watch`, `limit`, `set`, `charge`, `clock`, `step`, `phase` and `cycle`.

A unit step finds the steady state of each touched group by spreading strengths from its nodes, the strongest first, and
keeps what it found for a group's text and states in a table.
"""
import sys

INPUT_LEVEL = 16
MOST_SIZE_LEVEL = 8
GROUND, SUPPLY = 0, 1
RAILS = {"gnd": GROUND, "gnd!": GROUND, "vdd": SUPPLY, "vdd!": SUPPLY}
DEFAULT_STRENGTHS = {"n": 2, "e": 2, "p": 2, "d": 1}
PASSED_RECORDS = "CcRrN"
DEFAULT_LIMIT = 100

OPEN, CLOSED, UNKNOWN = "open", "closed", "unknown"
N_CHANNEL = {"0": OPEN, "1": CLOSED, "X": UNKNOWN}
P_CHANNEL = {"0": CLOSED, "1": OPEN, "X": UNKNOWN}
DEPLETION = {"0": CLOSED, "1": CLOSED, "X": CLOSED}
SWITCH_STATES = {"n": N_CHANNEL, "e": N_CHANNEL, "p": P_CHANNEL, "d": DEPLETION}


COMMANDS = {"input", "watch", "limit", "set", "charge", "clock", "step", "phase", "cycle"}


def read_lines(path):
    """The words of the lines that have some and are no comment."""
    with open(path, encoding="latin-1") as file:
        lines = [line.split() for line in file]
    if lines and lines[0][:1] and lines[0][0].startswith("|") and "profile:2" in lines[0]:
        sys.exit("profile 2 isn't read here")
    return [words for words in lines if words and not words[0].startswith("|")]


class Circuit:
    """The names, the input nodes, the sizes and the switches of a netlist."""

    def __init__(self, lines):
        self.numbers = {}
        self.node_count = 2
        self.inputs = {GROUND, SUPPLY}
        self.sizes = {}
        self.switches = []
        for words in lines:
            self.add_record(words)

    def add_record(self, words):
        record = words[0]
        if record in DEFAULT_STRENGTHS:
            self.add_switch(words)
        elif record == "A":
            self.add_attributes(words)
        elif record == "=":
            self.add_name(words[1], words[2])
        elif record not in PASSED_RECORDS:
            sys.exit(f"the record {record} isn't read here")

    def known_node(self, name):
        """The node of a name that is in use."""
        number = RAILS.get(name.lower(), self.numbers.get(name))
        if number is None:
            sys.exit(f"the name {name} isn't in use")
        return number

    def node(self, name):
        """The node of a name, new where the name is."""
        if name.lower() not in RAILS and name not in self.numbers:
            self.numbers[name] = self.node_count
            self.node_count += 1
        return self.known_node(name)

    def add_switch(self, words):
        kind, strength = words[0], DEFAULT_STRENGTHS[words[0]]
        gate, source, drain = map(self.node, words[1:4])
        for item in items(word[2:] for word in words[4:] if word.startswith("g=")):
            if item.startswith("strength:"):
                strength = int(item.removeprefix("strength:"))
        self.switches.append((kind, gate, source, drain, MOST_SIZE_LEVEL + strength))

    def add_attributes(self, words):
        node = self.node(words[1])
        if node in (GROUND, SUPPLY):
            return
        for item in items(words[2:]):
            if item == "input":
                self.inputs.add(node)
            elif item.startswith("size:"):
                self.inputs.discard(node)
                self.sizes[node] = int(item.removeprefix("size:"))

    def add_name(self, first, second):
        """Both names are of one node from now on."""
        if second in self.numbers or second.lower() in RAILS:
            first, second = second, first
        self.numbers[second] = self.node(first)


def items(words):
    """The items that stand between commas in the words."""
    return [item for word in words for item in word.split(",")]


class Text:
    """A group's local graph: its members first, then the nodes outside, and the steady states that were found."""

    def __init__(self, member_count, levels, switches):
        self.member_count = member_count
        self.levels = levels
        self.switches = switches
        self.found = {}

    def steady_state(self, states):
        """The steady states of the members, under these states of all nodes."""
        if states not in self.found:
            self.found[states] = self.find(states)
        return self.found[states]

    def find(self, states):
        closed, live = self.links(states)
        strongest = list(self.levels)
        spread(strongest, closed, [0] * len(states))
        may_be_one, may_be_zero = (self.unblocked(states, letters, live, strongest) for letters in ("1X", "0X"))
        return "".join("X" if one and zero else "1" if one else "0"
                       for one, zero, _ in zip(may_be_one, may_be_zero, range(self.member_count)))

    def links(self, states):
        """For each node the far ends and levels of its closed switches, and of those that are closed or unknown."""
        closed, live = [[] for _ in states], [[] for _ in states]
        for kind, gate, source, drain, level in self.switches:
            switch = SWITCH_STATES[kind][states[gate]]
            for near, far in ((source, drain), (drain, source)):
                if switch != OPEN:
                    live[near].append((far, level))
                if switch == CLOSED:
                    closed[near].append((far, level))
        return closed, live

    def unblocked(self, states, letters, live, strongest):
        """For each node the strength of its strongest unblocked path whose root has one of the letters, or 0."""
        strengths = [level if letter in letters and level >= best else 0
                     for level, letter, best in zip(self.levels, states, strongest)]
        spread(strengths, live, strongest)
        return strengths


def spread(strengths, links, floors):
    """Raises the strengths along the links to those of the strongest paths, no prefix of which is below a floor."""
    waiting = [[] for _ in range(INPUT_LEVEL + 1)]
    for node, strength in enumerate(strengths):
        waiting[strength].append(node)
    for strength in range(INPUT_LEVEL, 0, -1):
        # the list may grow while it is gone through: a link may be as strong as the path to it
        for node in waiting[strength]:
            if strengths[node] == strength:
                for far, level in links[node]:
                    further = min(strength, level)
                    if further > strengths[far] and further >= floors[far]:
                        strengths[far] = further
                        waiting[further].append(far)


def groups_of(circuit):
    """The channel-connected groups: the text and the nodes of each. Equal texts are one object."""
    parents = list(range(circuit.node_count))

    def root(node):
        while parents[node] != node:
            parents[node] = parents[parents[node]]
            node = parents[node]
        return node

    for _, _, source, drain, _ in circuit.switches:
        if source not in circuit.inputs and drain not in circuit.inputs:
            parents[root(source)] = root(drain)
    members, switches, texts = {}, {}, {}
    for node in range(circuit.node_count):
        if node not in circuit.inputs:
            members.setdefault(root(node), []).append(node)
    for switch in circuit.switches:
        ends = [node for node in switch[2:4] if node not in circuit.inputs]
        if ends:
            switches.setdefault(root(ends[0]), []).append(switch)
    return [group_of(circuit, nodes, switches.get(first, []), texts) for first, nodes in members.items()]


def group_of(circuit, members, switches, texts):
    """The text and the nodes of a group; `texts` holds those that were made before."""
    places = {node: place for place, node in enumerate(members)}
    local = tuple((kind, *(places.setdefault(node, len(places)) for node in (gate, source, drain)), level)
                  for kind, gate, source, drain, level in switches)
    sizes = [circuit.sizes.get(node, 1) for node in members]
    levels = tuple(sizes + [INPUT_LEVEL] * (len(places) - len(members)))
    key = len(members), levels, local
    if key not in texts:
        texts[key] = Text(*key)
    return texts[key], list(places)


class Machine:
    """The states of a circuit's nodes, and the groups that something touched since they were at rest."""

    def __init__(self, circuit):
        self.states = ["0", "1"] + ["X"] * (circuit.node_count - 2)
        self.groups = groups_of(circuit)
        self.readers = [[] for _ in self.states]
        for number, (_, nodes) in enumerate(self.groups):
            for node in nodes:
                self.readers[node].append(number)
        self.touched = set(range(len(self.groups)))

    def put(self, node, letter):
        if self.states[node] != letter:
            self.states[node] = letter
            self.touched.update(self.readers[node])

    def step(self, joins=False):
        """A unit step, or the join of each state with its steady state; answers whether a node changed."""
        changes, unsteady = [], set()
        for number in self.touched:
            text, nodes = self.groups[number]
            states = "".join([self.states[node] for node in nodes])
            for node, letter, steady in zip(nodes, states, text.steady_state(states)):
                after = "X" if joins and letter != steady else steady
                if after != letter:
                    changes.append((node, after))
                elif steady != letter:
                    # an X that the join keeps: the group isn't at rest
                    unsteady.add(number)
        self.touched = unsteady
        for node, letter in changes:
            self.put(node, letter)
        return bool(changes)

    def phase(self, limit):
        """Steps until nothing changes, from the limit on joining ones; answers their count and the mark."""
        count = 0
        while self.step(joins=count >= limit):
            count += 1
        return count, "*" if count > limit else ""


def run(circuit, lines):
    """Writes the waveform lines of a script."""
    for words in lines:
        if words[0] not in COMMANDS:
            sys.exit(f"the command {words[0]} isn't read here")
        if words[0] == "input":
            circuit.inputs.update(map(circuit.known_node, words[1:]))
    machine = Machine(circuit)
    watched, clocks, limit, row = [], [], DEFAULT_LIMIT, 0

    def write(count, mark=""):
        nonlocal row
        row += 1
        print(row, f"{count}{mark}", "".join(machine.states[node] for node in watched) or "-")

    def assignments(words):
        for assignment in words:
            name, value = assignment.rsplit("=", 1)
            yield circuit.known_node(name), value.upper()

    for command, *words in lines:
        if command == "watch":
            watched += map(circuit.known_node, words)
        elif command == "limit":
            limit = int(words[0])
        elif command in ("set", "charge"):
            for node, letter in assignments(words):
                machine.put(node, letter)
        elif command == "clock":
            clocks = list(assignments(words))
        elif command == "step":
            machine.step()
            write(1)
        elif command == "phase":
            write(*machine.phase(limit))
        elif command == "cycle":
            for _ in range(int(words[0])):
                for place in range(len(clocks[0][1])):
                    for node, letter in ((node, values[place]) for node, values in clocks):
                        machine.put(node, letter)
                    write(*machine.phase(limit))


def main():
    if len(sys.argv) != 3:
        sys.exit(__doc__)
    run(Circuit(read_lines(sys.argv[1])), read_lines(sys.argv[2]))


if __name__ == "__main__":
    main()
