"""Circuits with a script for all values at once, which says as formulas what must come.

    all_values.py KIND N PREFIX

adder        a ripple adder of N bits, of mirror adders: all sums, with the carries as formulas
multiplier   an array multiplier of N x N bits: all products, of which nothing is said
memory       2^N words of 8 bits in cells of three transistors: written at any address, read at any other
"""
import sys

from cells import Circuit, word, word_down
from data_paths import add_bits

BITS = 8


def named(circuit, name, signals):
    """A vector of signals, the greatest bit first."""
    circuit.command(f"vector {name} " + " ".join(signals))


def variables(names):
    return [f"${name}" for name in names]


def adder(width):
    circuit = Circuit()
    carry, sums = "cin", []
    for a, b in zip(word("a", width), word("b", width)):
        total, carry = circuit.full_adder(a, b, carry)
        sums.append(total)
    # Both operands' bits side by side: so the functions stay small.
    pairs = [name for bit in reversed(range(width)) for name in (f"a{bit}", f"b{bit}")]
    circuit.command("variables " + " ".join(variables(pairs + ["cin"])))
    for name in "ab":
        named(circuit, name, word_down(name, width))
    named(circuit, "sum", [carry] + sums[::-1])
    circuit.command("limit 1000")
    circuit.command("input a b cin")
    circuit.command(f"set a=$a{{{width - 1}:0}} b=$b{{{width - 1}:0}} cin=$cin")
    circuit.phase()
    before, told = "$cin", []
    for bit in range(width):
        a, b = f"$a{bit}", f"$b{bit}"
        circuit.command(f"let $c{bit + 1} {a}&{b}|{before}&({a}^{b})")
        told.append(f"{a}^{b}^{before}")
        before = f"$c{bit + 1}"
    circuit.command("expect sum=" + ",".join([before] + told[::-1]))
    return circuit


def multiplier(width):
    circuit = Circuit()
    a, b = word("a", width), word("b", width)
    sums, carries = [circuit.and_gate(bit, b[0]) for bit in a], ["Gnd"] * width
    product = [sums[0]]
    for b_bit in b[1:]:
        above = sums[1:] + ["Gnd"]
        rows = [add_bits(circuit, circuit.and_gate(a[bit], b_bit), above[bit], carries[bit]) for bit in range(width)]
        sums, carries = map(list, zip(*rows))
        product.append(sums[0])
    carry = "Gnd"
    for above, saved in zip(sums[1:], carries):
        total, carry = circuit.full_adder(above, saved, carry)
        product.append(total)
    product.append(circuit.or_gate(carry, carries[-1]))
    pairs = [name for bit in reversed(range(width)) for name in (f"a{bit}", f"b{bit}")]
    circuit.command("variables " + " ".join(variables(pairs)))
    for name in "ab":
        named(circuit, name, word_down(name, width))
    named(circuit, "product", product[::-1])
    circuit.command("input a b")
    circuit.watch(["product"])
    circuit.command(f"set a=$a{{{width - 1}:0}} b=$b{{{width - 1}:0}}")
    circuit.phase()
    return circuit


def selects(name, address_bits):
    """A formula for each word's line, the greatest first: 1 where the address in these variables is the word's."""
    return [
        "&".join(("" if place >> bit & 1 else "!") + f"${name}{bit}" for bit in reversed(range(address_bits)))
        for place in reversed(range(1 << address_bits))
    ]


def memory(address_bits):
    circuit = Circuit()
    words = 1 << address_bits
    for bit in range(BITS):
        circuit.transistor("d", f"y{bit}", f"y{bit}", "Vdd")
        for place in range(words):
            cell, low = f"keep{place}_{bit}", f"low{place}_{bit}"
            circuit.n_channel(f"w{place}", f"d{bit}", cell)
            circuit.n_channel(cell, "Gnd", low)
            circuit.n_channel(f"r{place}", low, f"y{bit}")
    addresses = [name for bit in reversed(range(address_bits)) for name in (f"w{bit}", f"r{bit}")]
    circuit.command("variables " + " ".join(variables(addresses + word_down("d", BITS))))
    for name, width in (("d", BITS), ("w", words), ("r", words), ("y", BITS)):
        named(circuit, name, word_down(name, width))
    circuit.command("input d w r")
    circuit.command("set w=0 r=0")
    kept = [f"keep{place}_{bit}={place & 1}" for place in range(words) for bit in range(BITS)]
    circuit.command("charge " + " ".join(kept))
    circuit.command(f"set d=$d{{{BITS - 1}:0}} w=" + ",".join(selects("w", address_bits)))
    circuit.phase()
    circuit.command("set w=0 d=X")
    circuit.phase()
    circuit.command("set r=" + ",".join(selects("r", address_bits)))
    circuit.phase()
    same = "&".join(f"!($w{bit}^$r{bit})" for bit in range(address_bits))
    circuit.command(f"let $same {same}")
    circuit.command("expect y=" + ",".join(f"!($same&$d{bit}|!$same&$r0)" for bit in reversed(range(BITS))))
    return circuit


if __name__ == "__main__":
    kind, size, prefix = sys.argv[1:]
    {"adder": adder, "multiplier": multiplier, "memory": memory}[kind](int(size)).write(prefix)
