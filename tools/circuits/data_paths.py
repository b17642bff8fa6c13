#!/usr/bin/env python3
"""Data paths with two clock phases that don't overlap.

    data_paths.py KIND N CYCLES SEED PREFIX      writes PREFIX.sim, PREFIX.cmd and PREFIX.exp

mult     an array multiplier of N x N bits, of mirror adders between latches, with a product in each cycle
barrel   a logarithmic rotator of N bits, of n-channel pass gates between latches, with no buffers between its stages
barrelb  the same with an inverter behind each second stage
shift    a dynamic shift register of pass transistors and inverters, 16 bits wide and N stages deep
fifo     N words of 16 bits in dynamic cells of three transistors, with ring pointers and precharged read lines

The words that are given are random by SEED.
"""
import random
import sys

from cells import PHI1, PHI2, Circuit, assignments, letters, word, word_down

WIDTH = 16


def add_input_latch(circuit, signal, output):
    """Holds an input from phi1 on."""
    circuit.latch(circuit.buffer(signal), *PHI1, output)


def add_input_latches(circuit, name, width):
    """Holds a word of inputs from phi1 on, and answers the held word."""
    held = word(f"{name}l", width)
    for signal, output in zip(word(name, width), held):
        add_input_latch(circuit, signal, output)
    return held


def add_output_register(circuit, data, output):
    """Takes the data in phi2, and shows it from the next phi1 on."""
    circuit.register(data, PHI2, PHI1, output)


def run(circuit, inputs, width, steps):
    """A cycle for each step: what is given, and the word in y from the next phi1 on, of which None tells nothing."""
    start(circuit, inputs, width)
    go_on(circuit, width, steps)


def start(circuit, inputs, width):
    circuit.start(["phi1", "phi2"] + inputs, ["phi1", "phi2"] + word_down("y", width), 100000)


def go_on(circuit, width, steps):
    shown = None
    for given, shown_next in steps:
        circuit.command("set " + " ".join(given))
        told = letters("y", shown, width) if shown is not None else None
        circuit.cycle((told, None, None, None))
        shown = shown_next


# The multiplier

def add_multiplier(circuit, width, cycles, source):
    """Rows that save their carries, and a last row in which the carry ripples."""
    a, b = (add_input_latches(circuit, name, width) for name in "ab")
    sums = [circuit.and_gate(a_bit, b[0]) for a_bit in a]
    carries = ["Gnd"] * width
    product = [sums[0]]
    for b_bit in b[1:]:
        above = sums[1:] + ["Gnd"]
        totals = [add_bits(circuit, circuit.and_gate(a[bit], b_bit), above[bit], carries[bit])
                  for bit in range(width)]
        sums, carries = map(list, zip(*totals))
        product.append(sums[0])
    carry = "Gnd"
    for above, saved in zip(sums[1:] + ["Gnd"], carries):
        total, carry = circuit.full_adder(above, saved, carry)
        product.append(total)
    for data, output in zip(product, word("y", 2 * width)):
        add_output_register(circuit, data, output)
    run(circuit, word("a", width) + word("b", width), 2 * width, products(width, cycles, source))


def add_bits(circuit, *bits):
    """The sum and the carry of up to three bits, of which those that are Gnd need no transistor."""
    bits = [bit for bit in bits if bit != "Gnd"]
    if len(bits) == 1:
        return bits[0], "Gnd"
    if len(bits) == 2:
        return circuit.xor(*bits), circuit.and_gate(*bits)
    return circuit.full_adder(*bits)


def products(width, cycles, source):
    for _ in range(cycles):
        a, b = source.randrange(1 << width), source.randrange(1 << width)
        yield assignments("a", a, width) + assignments("b", b, width), a * b


# The rotators

def add_rotator(circuit, width, cycles, source, has_inverters=False):
    """A stage for each bit of the distance, which passes its word on as it is or rotated by a power of two."""
    stages = width.bit_length() - 1
    data = add_input_latches(circuit, "d", width)
    for stage in range(stages):
        add_input_latch(circuit, f"k{stage}", f"kl{stage}")
        circuit.inverter(f"kl{stage}", f"kn{stage}")
    is_inverted = False
    for stage in range(stages):
        passed = word(f"st{stage}_", width)
        for bit in range(width):
            circuit.n_channel(f"kl{stage}", data[(bit - (1 << stage)) % width], passed[bit])
            circuit.n_channel(f"kn{stage}", data[bit], passed[bit])
        if has_inverters and stage % 2 and stage + 1 < stages:
            passed = [circuit.inverter(signal) for signal in passed]
            is_inverted = not is_inverted
        data = passed
    for signal, output in zip(data, word("y", width)):
        last = circuit.inverter(signal)
        add_output_register(circuit, last if is_inverted else circuit.inverter(last), output)
    run(circuit, word("d", width) + word("k", stages), width, rotations(width, stages, cycles, source))


def add_rotator_with_inverters(circuit, width, cycles, source):
    add_rotator(circuit, width, cycles, source, has_inverters=True)


def rotations(width, stages, cycles, source):
    for _ in range(cycles):
        data, distance = source.randrange(1 << width), source.randrange(width)
        rotated = (data << distance | data >> width - distance) & (1 << width) - 1
        yield assignments("d", data, width) + assignments("k", distance, stages), rotated


# The shift register

def add_shift_register(circuit, depth, cycles, source):
    """A pass transistor and an inverter for each phase of each stage; a word comes out after phi2 of the last one."""
    for bit in range(WIDTH):
        data = circuit.inverter(f"d{bit}")
        for _ in range(depth):
            for clock in ("phi1", "phi2"):
                stored = circuit.new_name("sr")
                circuit.n_channel(clock, data, stored)
                data = circuit.inverter(stored)
        circuit.inverter(data, f"y{bit}")
    start(circuit, word("d", WIDTH), WIDTH)
    values = []
    for _ in range(cycles):
        values.append(source.randrange(1 << WIDTH))
        circuit.command("set " + " ".join(assignments("d", values[-1], WIDTH)))
        told = letters("y", values[-depth], WIDTH) if len(values) >= depth else None
        circuit.cycle((None, None, told, None))


# The queue

def add_queue(circuit, depth, cycles, source):
    """Two ring pointers, the cells, and a reset of two cycles; what is read stays until the next reading."""
    not_reset = circuit.inverter("rst", "rstn")
    for enable in ("wr", "rd"):
        add_input_latch(circuit, enable, f"{enable}l")
    add_ring(circuit, "wp", "wrl", depth, not_reset)
    add_ring(circuit, "rp", "rdl", depth, not_reset)
    evaluate = circuit.and_gate("phi2", not_reset)
    writes = [circuit.and_gate(f"wp{place}", "wrl", evaluate, output=f"ww{place}") for place in range(depth)]
    reads = [circuit.and_gate(f"rp{place}", "rdl", evaluate, output=f"wr{place}") for place in range(depth)]
    for bit in range(WIDTH):
        add_queue_column(circuit, bit, writes, reads)
    start(circuit, word("d", WIDTH) + ["wr", "rd", "rst"], WIDTH)
    circuit.command("set rst=1")
    circuit.cycle()
    circuit.cycle()
    circuit.command("set rst=0")
    go_on(circuit, WIDTH, queue_steps(depth, cycles, source))


def add_ring(circuit, name, enable, depth, not_reset):
    """A single 1 that goes one place on where the enable is 1; a reset puts it at place 0."""
    load = circuit.nand(circuit.nand(enable, not_reset), not_reset)
    not_clock = circuit.nand("phi2", load)
    clock = circuit.inverter(not_clock)
    for place in range(depth):
        before = f"{name}{(place - 1) % depth}"
        if place == 0:
            data = circuit.nand(circuit.inverter(before), not_reset)
        else:
            data = circuit.and_gate(before, not_reset)
        circuit.register(data, (clock, not_clock), PHI1, f"{name}{place}")


def add_queue_column(circuit, bit, writes, reads):
    """The cells of one bit; a cell that holds 1 discharges the precharged line where it is read."""
    add_input_latch(circuit, f"d{bit}", f"dl{bit}")
    write_line, read_line = circuit.buffer(f"dl{bit}", f"wb{bit}"), f"rb{bit}"
    circuit.set_size(read_line, 2)
    circuit.p_channel(PHI1[1], "Vdd", read_line)
    for place, (write, read) in enumerate(zip(writes, reads)):
        stored, between = f"s{place}_{bit}", f"m{place}_{bit}"
        circuit.n_channel(write, write_line, stored)
        circuit.n_channel(stored, "Gnd", between)
        circuit.n_channel(read, between, read_line)
    not_clock = circuit.nand("phi2", "rdl")
    data = circuit.inverter(read_line)
    circuit.register(data, (circuit.inverter(not_clock), not_clock), PHI1, f"y{bit}")


def queue_steps(depth, cycles, source):
    """The queue fills up and runs empty in turn, with a period of twice its depth for each."""
    queue, shown = [], None
    for cycle in range(cycles):
        write_rate, read_rate = (0.7, 0.3) if cycle // (2 * depth) % 2 == 0 else (0.3, 0.7)
        is_write = len(queue) < depth and source.random() < write_rate
        is_read = len(queue) > 0 and source.random() < read_rate
        value = source.randrange(1 << WIDTH)
        if is_read:
            shown = queue.pop(0)
        if is_write:
            queue.append(value)
        yield assignments("d", value, WIDTH) + [f"wr={int(is_write)}", f"rd={int(is_read)}"], shown


KINDS = {
    "mult": add_multiplier,
    "barrel": add_rotator,
    "barrelb": add_rotator_with_inverters,
    "shift": add_shift_register,
    "fifo": add_queue,
}


def main():
    if len(sys.argv) != 6 or sys.argv[1] not in KINDS:
        sys.exit(__doc__)
    kind, size, cycles, seed, prefix = sys.argv[1:]
    circuit = Circuit()
    circuit.add_clocks()
    KINDS[kind](circuit, int(size), int(cycles), random.Random(int(seed)))
    circuit.write(prefix)


if __name__ == "__main__":
    main()
