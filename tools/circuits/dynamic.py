#!/usr/bin/env python3
"""Dynamic and ratioed circuits with two clock phases that don't overlap.

    dynamic.py KIND N CYCLES SEED PREFIX      writes PREFIX.sim, PREFIX.cmd and PREFIX.exp

domino  N lanes, each of them an accumulator of 64 bits with Manchester carry chains in sections of 8, precharged while
        phi1 is 1, and with a dynamic nor of 64 inputs that says whether the lane is 0
pla     N finite state machines in a ring, of n-channel transistors alone: two nor arrays each, with depletion
        loads, and registers of pass transistors

The words that are given and the arrays are random by SEED.
"""
import random
import sys

from cells import PHI1, Circuit, assignments, letters, word, word_down

# a lane of the accumulator
WIDTH = 64
SECTION = 8
TURN_OF_A_LANE = 5
# a finite state machine: inputs, bits that its neighbour reads, bits that it reads itself, product terms
INPUTS, LINKS, OWN, TERMS = 8, 6, 10, 160
# so many machines are watched
MOST_WATCHED_MACHINES = 14


def start(circuit, input_width, watched):
    """The head of the script, and a reset of two cycles."""
    circuit.start(["phi1", "phi2", "rst"] + word("d", input_width), ["phi1", "phi2"] + watched, 1000,
                  set_to_one=["rst"])
    circuit.cycle()
    circuit.cycle()
    circuit.command("set rst=0")


def give(circuit, value, width, told):
    """Gives the inputs a value, and tells the same after each phase of the cycle."""
    circuit.command("set " + " ".join(assignments("d", value, width)))
    circuit.cycle([told] * 4)


# The accumulators

class Lane:
    """An accumulator to which a word is added in each cycle. Its parts are added in the order of the methods."""

    def __init__(self, circuit, number, not_reset):
        self.circuit = circuit
        self.name = f"l{number}"
        self.sum = word(f"{self.name}a", WIDTH)
        # each lane adds the word turned a little further
        self.addend = [f"dl{(bit + TURN_OF_A_LANE * number) % WIDTH}" for bit in range(WIDTH)]
        phi1, phi2 = (circuit.buffer(clock, f"{self.name}{short}") for clock, short in (("phi1", "f1"), ("phi2", "f2")))
        self.not_reset = circuit.buffer(not_reset, f"{self.name}rn")
        self.phi1, self.phi2 = (phi1, circuit.inverter(phi1)), (phi2, circuit.inverter(phi2))
        self.add_zero_detector()
        carry = None
        for first in range(0, WIDTH, SECTION):
            carry = self.add_section(first, carry)

    def add_precharged(self, line):
        self.circuit.set_size(line, 2)
        self.circuit.p_channel(self.phi1[1], "Vdd", line)

    def add_register(self, data, output):
        self.circuit.register(data, self.phi2, self.phi1, output)

    def add_zero_detector(self):
        """A line that any bit of the sum discharges in phi2."""
        line = f"{self.name}zb"
        self.add_precharged(line)
        self.circuit.n_channel(self.phi2[0], "Gnd", f"{line}.f")
        for bit in self.sum:
            self.circuit.n_channel(bit, f"{line}.f", line)
        self.add_register(self.circuit.buffer(line), f"{self.name}z")

    def add_section(self, first, carry_in):
        """A chain of carries, which are low: each is generated here or passed on; answers the carry out of it."""
        circuit = self.circuit
        for bit in range(first, first + SECTION):
            generate = circuit.and_gate(self.sum[bit], self.addend[bit])
            propagate = circuit.xor(self.sum[bit], self.addend[bit])
            if bit == first:
                below = f"{self.name}k{bit}i"
                self.add_carry(below, carry_in)
            carry = f"{self.name}k{bit}"
            self.add_carry(carry, generate)
            circuit.n_channel(propagate, below, carry)
            total = circuit.xor(propagate, circuit.inverter(below))
            if bit == first + SECTION - 1:
                carry_out = circuit.inverter(carry)
            self.add_register(circuit.and_gate(total, self.not_reset), self.sum[bit])
            below = carry
        return carry_out

    def add_carry(self, line, discharge):
        """A precharged carry that is discharged in phi2 where there is a signal for it and it is 1."""
        self.add_precharged(line)
        if discharge:
            self.circuit.series("n", "Gnd", line, (self.phi2[0], discharge))


def add_accumulators(circuit, lanes, cycles, source):
    circuit.add_clocks()
    not_reset = circuit.inverter("rst", "rstn")
    for signal, held in zip(word("d", WIDTH), word("dl", WIDTH)):
        circuit.latch(circuit.buffer(signal), *PHI1, held)
    for lane in range(lanes):
        Lane(circuit, lane, not_reset)
    watched = [f"l{lane}z" for lane in range(lanes)] + word_down("l0a", WIDTH)
    if lanes > 1:
        watched += word_down(f"l{lanes - 1}a", WIDTH)
    start(circuit, WIDTH, watched)
    run_accumulators(circuit, lanes, cycles, source)


def run_accumulators(circuit, lanes, cycles, source):
    """The model: a lane says one cycle later whether it was 0. Each seventh word is all 0, and later all 1."""
    ones = (1 << WIDTH) - 1
    sums, zeros = [0] * lanes, [1] * lanes
    for cycle in range(cycles):
        if cycle % 7:
            value = source.randrange(1 << WIDTH)
        else:
            value = 0 if cycle < 14 else ones
        told = {f"l{lane}z": str(zeros[lane]) for lane in range(lanes)} if cycle else {}
        for lane in {0, lanes - 1}:
            told |= letters(f"l{lane}a", sums[lane], WIDTH)
        give(circuit, value, WIDTH, told)
        for lane in range(lanes):
            turn = TURN_OF_A_LANE * lane % WIDTH
            zeros[lane] = int(sums[lane] == 0)
            sums[lane] = sums[lane] + (value >> turn | value << WIDTH - turn & ones) & ones


# The state machines

class StateMachine:
    """Two random nor arrays and a register; `terms` and `sums` are what they compute.

    A term is a list of literals, each the number of a variable and the value that it must have. A sum is a list of
    terms. The variables are the inputs, the links of the machine before in the ring, and the machine's own bits.
    """

    def __init__(self, number, machines, source):
        self.name, self.before = f"m{number}", f"m{(number - 1) % machines}"
        variables = INPUTS + LINKS + OWN
        self.terms = [[(variable, source.randrange(2))
                       for variable in source.sample(range(variables), source.randrange(2, 6))]
                      for _ in range(TERMS)]
        self.sums = [source.sample(range(TERMS), source.randrange(6, 14)) for _ in range(OWN + LINKS)]

    def add_to(self, circuit):
        """The term lines, which a reset holds at 0, the sum lines and the register."""
        add_ratioed_inverter(circuit, "rst", f"{self.name}rn")
        add_ratioed_inverter(circuit, f"{self.name}rn", f"{self.name}rst")
        variables = [(f"dt{bit}", f"dn{bit}") for bit in range(INPUTS)]
        variables += [(f"{self.before}q{bit}", f"{self.before}r{bit}") for bit in range(OWN, OWN + LINKS)]
        variables += [(f"{self.name}q{bit}", f"{self.name}r{bit}") for bit in range(OWN)]
        for number, literals in enumerate(self.terms):
            gates = [variables[variable][wanted] for variable, wanted in literals]
            add_ratioed_nor(circuit, [f"{self.name}rst"] + gates, f"{self.name}t{number}")
        for bit, terms in enumerate(self.sums):
            add_ratioed_nor(circuit, [f"{self.name}t{term}" for term in terms], f"{self.name}o{bit}")
            self.add_register(circuit, bit)

    def add_register(self, circuit, bit):
        """Takes the sum in phi2, and shows it with its complement from phi1 on."""
        name = self.name
        add_ratioed_inverter(circuit, f"{name}o{bit}", f"{name}p{bit}")
        circuit.n_channel("phi2", f"{name}p{bit}", f"{name}x{bit}")
        add_ratioed_inverter(circuit, f"{name}x{bit}", f"{name}y{bit}")
        circuit.n_channel("phi1", f"{name}y{bit}", f"{name}s{bit}")
        add_ratioed_inverter(circuit, f"{name}s{bit}", f"{name}q{bit}")
        add_ratioed_inverter(circuit, f"{name}q{bit}", f"{name}r{bit}")

    def next_state(self, variables):
        """The model: a sum is 1 where one of its terms has all its literals."""
        holds = [all(variables[variable] == wanted for variable, wanted in literals) for literals in self.terms]
        return [int(any(holds[term] for term in terms)) for terms in self.sums]


def add_ratioed_nor(circuit, gates, output):
    """A depletion load, and an n-channel transistor for each input."""
    circuit.transistor("d", output, "Vdd", output)
    for gate in gates:
        circuit.n_channel(gate, "Gnd", output)


def add_ratioed_inverter(circuit, data, output):
    add_ratioed_nor(circuit, [data], output)


def add_state_machines(circuit, count, cycles, source):
    for bit in range(INPUTS):
        circuit.n_channel("phi1", f"d{bit}", f"dx{bit}")
        add_ratioed_inverter(circuit, f"dx{bit}", f"dn{bit}")
        add_ratioed_inverter(circuit, f"dn{bit}", f"dt{bit}")
    machines = [StateMachine(number, count, source) for number in range(count)]
    for machine in machines:
        machine.add_to(circuit)
    watched = machines[:MOST_WATCHED_MACHINES]
    start(circuit, INPUTS, [signal for machine in watched for signal in word(f"{machine.name}q", OWN + LINKS)])
    states = [[0] * (OWN + LINKS) for _ in machines]
    for _ in range(cycles):
        value = source.randrange(1 << INPUTS)
        told = {f"{machine.name}q{bit}": str(letter)
                for machine, state in zip(watched, states) for bit, letter in enumerate(state)}
        give(circuit, value, INPUTS, told)
        given = [value >> bit & 1 for bit in range(INPUTS)]
        states = [machine.next_state(given + states[number - 1][OWN:] + states[number][:OWN])
                  for number, machine in enumerate(machines)]


KINDS = {"domino": add_accumulators, "pla": add_state_machines}


def main():
    if len(sys.argv) != 6 or sys.argv[1] not in KINDS:
        sys.exit(__doc__)
    kind, size, cycles, seed, prefix = sys.argv[1:]
    circuit = Circuit()
    KINDS[kind](circuit, int(size), int(cycles), random.Random(int(seed)))
    circuit.write(prefix)


if __name__ == "__main__":
    main()
