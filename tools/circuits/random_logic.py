"""Logic that is drawn by chance, as it comes from synthesis, with a script that runs it. There is no model of what it computes.

    random_logic.py chip GATES CYCLES SEED PREFIX
    random_logic.py nands GATES ROUNDS SEED PREFIX

`chip`: so many gates in twelve layers between registers, a register for eight gates and 32 at least, of six nand gates each; the script
resets them and takes so many cycles with inputs that are drawn. Signals mostly stay near their place, as in a layout. `nands`: so many nand
gates of two inputs over 20 input nodes, each behind some before it; the script sets all inputs so often.
"""
import random
import sys

from cells import Circuit, word

LAYERS = 12
INPUTS = 16


class Layers:
    """Gates that take their inputs from the layer before, or now and then from the registers and the circuit's inputs."""

    def __init__(self, circuit, draw, sources):
        self.circuit, self.draw, self.sources = circuit, draw, sources

    def pick(self, place, before):
        """A signal near this place, which is a share of the layer."""
        pool = before if self.draw.random() < 0.8 else self.sources
        return pool[(int(place * len(pool)) + int(self.draw.gauss(0, 6))) % len(pool)]

    def picks(self, place, before, count):
        picked = []
        while len(picked) < count:
            signal = self.pick(place, before)
            if signal not in picked:
                picked.append(signal)
        return picked

    def gate(self, place, before):
        inputs = self.picks(place, before, 3)
        chance = self.draw.random()
        if chance < 0.2:
            return self.circuit.inverter(inputs[0])
        if chance < 0.5:
            return self.circuit.nand(*inputs[:2])
        if chance < 0.62:
            return self.circuit.nand(*inputs)
        if chance < 0.8:
            return self.circuit.nor(*inputs[:2])
        if chance < 0.92:
            return and_or_invert(self.circuit, *inputs)
        return self.circuit.xor(*inputs[:2])


def and_or_invert(circuit, a, b, c):
    """0 where a and b are 1, or c is."""
    output = circuit.new_name()
    between = f"{output}.p"
    circuit.p_channel(a, "Vdd", between)
    circuit.p_channel(b, "Vdd", between)
    circuit.p_channel(c, between, output)
    circuit.series("n", "Gnd", output, (a, b))
    circuit.n_channel(c, "Gnd", output)
    return output


def register(circuit, data, output):
    """Takes the data where the clock rises; six nand gates, and a reset that is 0."""
    first, second, third, fourth, other = (f"{output}.{part}" for part in "1234n")
    circuit.nand(fourth, second, output=first)
    circuit.nand(first, "clock", "run", output=second)
    circuit.nand(second, "clock", fourth, output=third)
    circuit.nand(third, data, "run", output=fourth)
    circuit.nand(second, other, output=output)
    circuit.nand(output, third, "run", output=other)


def chip(gates, cycles, seed):
    draw = random.Random(seed)
    circuit = Circuit()
    inputs, registers = word("in", INPUTS), word("q", max(gates // 8, 32))
    layers = Layers(circuit, draw, inputs + registers)
    signals = layers.sources
    for _ in range(LAYERS):
        width = max(gates // LAYERS, 1)
        signals = [layers.gate(place / width, signals) for place in range(width)]
    for place, output in enumerate(registers):
        register(circuit, signals[place * len(signals) // len(registers)], output)
    watched = [registers[place * len(registers) // 32] for place in range(32)]
    circuit.start(["clock", "run", *inputs], watched, 1000)
    circuit.command("set run=1")
    circuit.phase()
    for _ in range(cycles):
        drawn = (f"{signal}={draw.randrange(2)}" for signal in inputs)
        for line in ("set " + " ".join(drawn), "set clock=1", "set clock=0"):
            circuit.command(line)
            circuit.phase()
    return circuit


def nands(gates, rounds, seed):
    draw = random.Random(seed)
    circuit = Circuit()
    inputs = word("in", 20)
    signals = list(inputs)
    for gate in range(gates):
        near = draw.random() < 0.7
        pair = draw.sample(signals[-60:], 2) if near else (draw.choice(inputs), draw.choice(signals))
        signals.append(circuit.nand(*pair, output=f"g{gate}"))
    circuit.command("input " + " ".join(inputs))
    circuit.watch(signals[-20:])
    for _ in range(rounds):
        circuit.command("set " + " ".join(f"{signal}={draw.randrange(2)}" for signal in inputs))
        circuit.phase()
    return circuit


if __name__ == "__main__":
    kind, size, length, seed, prefix = sys.argv[1:]
    {"chip": chip, "nands": nands}[kind](int(size), int(length), int(seed)).write(prefix)
