"""Cells at transistor level, and the circuit that collects them, with its script and the rows of its model.

A cell adds its transistors to the circuit and answers the name of its output. Where no name is given for the output,
the cell makes a new one. A signal is its node's name, and a word of signals is a list of names, the least bit first.
"""

# the letters of phi1 and phi2 at the four places of a cycle: the phases don't overlap
CYCLE = ("10", "00", "01", "00")
# the two clocks with their complements, which `add_clocks` makes
PHI1, PHI2 = ("phi1", "phi1n"), ("phi2", "phi2n")


def word(name, width):
    """The signals of a word, the least bit first."""
    return [f"{name}{bit}" for bit in range(width)]


def word_down(name, width):
    """The signals of a word as they are watched, the greatest bit first."""
    return word(name, width)[::-1]


def letters(name, value, width):
    """The letters of a word's signals where the word has this value."""
    return {signal: str(value >> bit & 1) for bit, signal in enumerate(word(name, width))}


def assignments(name, value, width):
    """The assignments of a `set` that gives a word this value."""
    return [f"{signal}={letter}" for signal, letter in letters(name, value, width).items()]


class Circuit:
    """A netlist, the script that runs it, and what a software model tells of the watched letters."""

    def __init__(self):
        self.netlist = ["| units: 1 tech: cosmos format: MIT"]
        self.script = []
        self.watched = []
        self.phases = 0
        # the number of a waveform line, and its letters, with `-` where the model tells nothing
        self.told_rows = []
        self.names_made = 0

    def write(self, prefix):
        """Writes the netlist, the script and the model's rows to PREFIX.sim, PREFIX.cmd and PREFIX.exp."""
        told = [f"{row} {row_letters}" for row, row_letters in self.told_rows]
        for ending, lines in ((".sim", self.netlist), (".cmd", self.script), (".exp", told)):
            with open(prefix + ending, "w") as file:
                file.writelines(line + "\n" for line in lines)

    # Transistors and nodes

    def transistor(self, kind, gate, source, drain, strength=None):
        attribute = f" g=strength:{strength}" if strength else ""
        self.netlist.append(f"{kind} {gate} {source} {drain}{attribute}")

    def n_channel(self, gate, source, drain, strength=None):
        self.transistor("n", gate, source, drain, strength)

    def p_channel(self, gate, source, drain, strength=None):
        self.transistor("p", gate, source, drain, strength)

    def set_size(self, node, size):
        self.netlist.append(f"A {node} size:{size}")

    def new_name(self, stem="u"):
        self.names_made += 1
        return f"{stem}_{self.names_made}"

    def series(self, kind, start, end, gates):
        """Transistors one after the other from `start` to `end`, one for each gate."""
        at = start
        for place, gate in enumerate(gates):
            to = end if place + 1 == len(gates) else f"{end}.{kind}{place}"
            self.transistor(kind, gate, at, to)
            at = to

    # Static gates

    def inverter(self, data, output=None, strength=None):
        output = output or self.new_name()
        self.p_channel(data, "Vdd", output, strength)
        self.n_channel(data, "Gnd", output, strength)
        return output

    def buffer(self, data, output=None):
        return self.inverter(self.inverter(data), output)

    def nand(self, *inputs, output=None):
        output = output or self.new_name()
        for data in inputs:
            self.p_channel(data, "Vdd", output)
        self.series("n", "Gnd", output, inputs)
        return output

    def nor(self, *inputs, output=None):
        output = output or self.new_name()
        self.series("p", "Vdd", output, inputs)
        for data in inputs:
            self.n_channel(data, "Gnd", output)
        return output

    def and_gate(self, *inputs, output=None):
        return self.inverter(self.nand(*inputs), output)

    def or_gate(self, *inputs, output=None):
        return self.inverter(self.nor(*inputs), output)

    def xor(self, a, b, not_a=None, not_b=None):
        """A complex gate of eight transistors, and an inverter for each complement that isn't given."""
        not_a = not_a or self.inverter(a)
        not_b = not_b or self.inverter(b)
        output = self.new_name()
        for kind, rail, pairs in (("p", "Vdd", ((a, not_b, "u"), (not_a, b, "v"))),
                                  ("n", "Gnd", ((a, b, "s"), (not_a, not_b, "t")))):
            for outer, inner, between in pairs:
                self.transistor(kind, outer, rail, f"{output}.{between}")
                self.transistor(kind, inner, f"{output}.{between}", output)
        return output

    def multiplexer(self, select, not_select, chosen, other, output=None):
        """`chosen` where `select` is 1, else `other`: three nands."""
        return self.nand(self.nand(select, chosen), self.nand(not_select, other), output=output)

    def any_low(self, signals, output=None):
        """1 where some signal is 0: a tree of nands and nors of up to four inputs."""
        are_low = True
        while len(signals) > 1:
            fours = [signals[first:first + 4] for first in range(0, len(signals), 4)]
            gate = self.nand if are_low else self.nor
            signals = [gate(*four) if len(four) > 1 else self.inverter(four[0]) for four in fours]
            are_low = not are_low
        result = self.inverter(signals[0]) if are_low else signals[0]
        return self.buffer(result, output) if output else result

    def full_adder(self, a, b, carry_in):
        """A mirror adder of 28 transistors; answers the sum and the carry."""
        total, carry = self.new_name("s"), self.new_name("c")
        not_total, not_carry = f"{total}.n", f"{carry}.n"
        for kind, rail in (("p", "Vdd"), ("n", "Gnd")):
            self.transistor(kind, a, rail, f"{not_carry}.{kind}1")
            self.transistor(kind, b, rail, f"{not_carry}.{kind}1")
            self.transistor(kind, carry_in, f"{not_carry}.{kind}1", not_carry)
            self.transistor(kind, a, rail, f"{not_carry}.{kind}2")
            self.transistor(kind, b, f"{not_carry}.{kind}2", not_carry)
            for data in (a, b, carry_in):
                self.transistor(kind, data, rail, f"{not_total}.{kind}1")
            self.transistor(kind, not_carry, f"{not_total}.{kind}1", not_total)
            self.transistor(kind, a, rail, f"{not_total}.{kind}2")
            self.transistor(kind, b, f"{not_total}.{kind}2", f"{not_total}.{kind}3")
            self.transistor(kind, carry_in, f"{not_total}.{kind}3", not_total)
        self.inverter(not_carry, carry)
        self.inverter(not_total, total)
        return total, carry

    def incrementer(self, data):
        """The bits of the word plus 1, one after the other: each carry is the and of the bits below."""
        carry = None
        for bit, signal in enumerate(data):
            total = self.inverter(signal) if bit == 0 else self.xor(signal, carry)
            carry = signal if bit == 0 else self.and_gate(signal, carry)
            yield total

    def decoder(self, address, stem):
        """A line for each value of two or more bits, which alone is 1 there; both halves are decoded first."""
        complements = [self.inverter(signal) for signal in address]
        half = (len(address) + 1) // 2
        low_half = self.half_decoder(address[:half], complements[:half])
        high_half = self.half_decoder(address[half:], complements[half:])
        return [self.nor(low_half[value & (1 << half) - 1], high_half[value >> half], output=line)
                for value, line in enumerate(word(stem, 1 << len(address)))]

    def half_decoder(self, address, complements):
        """A line for each value of the address, which alone is 0 there."""
        if len(address) == 1:
            return [address[0], complements[0]]
        return [self.nand(*((address if value >> bit & 1 else complements)[bit] for bit in range(len(address))))
                for value in range(1 << len(address))]

    # Cells that keep a state, and their clocks

    def add_clocks(self):
        for clock, complement in (PHI1, PHI2):
            self.inverter(clock, complement)

    def transmission_gate(self, clock, not_clock, source, drain):
        self.n_channel(clock, source, drain)
        self.p_channel(not_clock, source, drain)

    def latch(self, data, clock, not_clock, output=None):
        """Follows the data while the clock is 1: a transmission gate, an inverter, and a weak one back."""
        output = output or self.new_name("q")
        self.transmission_gate(clock, not_clock, data, f"{output}.s")
        self.inverter(f"{output}.s", f"{output}.n")
        self.inverter(f"{output}.n", f"{output}.s", strength=1)
        return self.inverter(f"{output}.n", output)

    def register(self, data, load, follow, output, between=None):
        """Two latches, one behind the other; `load` and `follow` are their clocks, with the complements."""
        return self.latch(self.latch(data, *load, between), *follow, output)

    # The script, and what the model tells

    def command(self, line):
        self.script.append(line)

    def watch(self, signals):
        self.watched += signals
        self.command("watch " + " ".join(signals))

    def phase(self):
        self.phases += 1
        self.command("phase")

    def tell(self, told):
        """Notes what the model tells of the watched letters after the present phase; nothing where it is empty."""
        if told:
            self.told_rows.append((self.phases, "".join(told.get(signal, "-") for signal in self.watched)))

    def cycle(self, told=(None, None, None, None)):
        """The four phases of a cycle, and what the model tells after each of them."""
        for (phi1, phi2), told_after in zip(CYCLE, told):
            self.command(f"set phi1={phi1} phi2={phi2}")
            self.phase()
            self.tell(told_after)

    def start(self, inputs, watched, limit, set_to_one=()):
        """The head of the script: the inputs, the watch list, the limit and a first phase with the clocks at 0."""
        self.command("input " + " ".join(inputs))
        self.watch(watched)
        self.command(f"limit {limit}")
        self.command("set " + " ".join(f"{signal}={int(signal in set_to_one)}" for signal in inputs))
        self.phase()
