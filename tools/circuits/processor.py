#!/usr/bin/env python3
"""An 8-bit accumulator machine with its memory, transistor by transistor.

    processor.py MEMORY PROGRAM N SEED PREFIX      writes PREFIX.sim, PREFIX.cmd and PREFIX.exp

MEMORY is 256 or 4096 bytes of cells of six transistors. Bit lines are precharged while phi1 is 1, a static decoder
that is gated with phi2 selects the row, and each column has a write driver and a read gate. With 256m or 4096m eight
columns share driver and read gate behind pass gates, as many layouts have it: such groups have more than 200 nodes.
The program stands in a memory of 256 words of 14 bits, a nor array with ratioed pull-ups; the words that it leaves
are random by SEED. PROGRAM is fib (N Fibonacci numbers) or sum (fills N bytes of some pages, and adds them up).

There are two phases, which don't overlap, and one instruction in each cycle of four places. While phi1 is 1 the
instruction is fetched and each register shows what it was loaded with; while phi2 is 1 the memory is read or written
and the registers are loaded.
"""
import random
import sys
from collections import namedtuple

from cells import CYCLE, PHI1, PHI2, Circuit, letters, word, word_down

# the operations, by their codes
NOP, LD, ST, ADD, SUB, AND, XOR, SHR, TAX, TXA, JMP, JNZ, JC, OUT, TAP, INX = range(16)
# modes of an instruction: the operand is the value itself; the address is that in X
IMMEDIATE, BY_X = 1 << 8, 1 << 9

WIDTH = 8
INSTRUCTION_WIDTH = 14
PAGE_WIDTH = 4
PROGRAM_WORDS = 256
COLUMNS_OF_A_MULTIPLEXER = 8

State = namedtuple("State", "pc ir a x page carry out")


# Programs

def instruction(operation, operand=0, mode=0):
    return operation << 10 | mode | operand & 255


def fibonacci_program(count):
    """Shows `count` Fibonacci numbers, and then one or two values that a shift and a jump on carry decide."""
    last, this, following, left = 0x10, 0x11, 0x12, 0x13
    code = [instruction(LD, 0, IMMEDIATE), instruction(ST, last),
            instruction(LD, 1, IMMEDIATE), instruction(ST, this),
            instruction(LD, count, IMMEDIATE), instruction(ST, left)]
    top = len(code)
    code += [instruction(LD, last), instruction(OUT), instruction(ADD, this), instruction(ST, following),
             instruction(LD, this), instruction(ST, last), instruction(LD, following), instruction(ST, this),
             instruction(LD, left), instruction(SUB, 1, IMMEDIATE), instruction(ST, left), instruction(JNZ, top)]
    code += [instruction(XOR, this), instruction(SHR), instruction(JC, len(code) + 2),
             instruction(AND, 0x3f, IMMEDIATE), instruction(OUT)]
    return code


def sum_program(count, pages):
    """Fills `count` bytes of each page, and then adds them up and shows each partial sum."""
    total = 0xf0
    code = []
    for page in pages:
        first = 7 * page
        is_not_last = [instruction(INX), instruction(TXA), instruction(SUB, first + count, IMMEDIATE)]
        code += [instruction(LD, page, IMMEDIATE), instruction(TAP),
                 instruction(LD, first, IMMEDIATE), instruction(TAX)]
        top = len(code)
        code += [instruction(TXA), instruction(XOR, 0x5a + page, IMMEDIATE), instruction(ST, 0, BY_X)]
        code += is_not_last + [instruction(JNZ, top)]
        code += [instruction(LD, first, IMMEDIATE), instruction(TAX),
                 instruction(LD, 0, IMMEDIATE), instruction(ST, total)]
        top = len(code)
        code += [instruction(LD, total), instruction(ADD, 0, BY_X), instruction(ST, total), instruction(OUT)]
        code += is_not_last + [instruction(JNZ, top)]
    return code


def program_memory(program, count, has_pages, seed):
    """The words of the program memory: the program, a jump to itself, and random words."""
    if program == "fib":
        code = fibonacci_program(count)
    else:
        code = sum_program(count, (0, 5, 10, 15) if has_pages else (0,))
    code.append(instruction(JMP, len(code)))
    assert len(code) <= PROGRAM_WORDS
    source = random.Random(seed)
    return code + [source.randrange(1 << INSTRUCTION_WIDTH) for _ in range(PROGRAM_WORDS - len(code))]


# The software model

def model(program_words):
    """The state before each instruction, up to the jump that stays where it is, which is run twice."""
    memory = {}
    states = [State(0, program_words[0], 0, 0, 0, 0, 0)]
    while states[-1].pc != (following := obey(states[-1], memory)).pc:
        states.append(following._replace(ir=program_words[following.pc]))
    return states + states[-1:]


def obey(state, memory):
    """The state after the instruction, but for the next instruction; a store changes the memory."""
    pc, ir, a, x, page, carry, out = state
    operation, operand = ir >> 10, ir & 255
    address = page << 8 | (x if ir & BY_X else operand)
    pc = pc + 1 & 255
    if operation in (LD, ADD, SUB, AND, XOR):
        value = operand if ir & IMMEDIATE else memory[address]
        a, carry = combine(operation, a, value, carry)
    elif operation == ST:
        memory[address] = a
    elif operation == SHR:
        a >>= 1
    elif operation == TAX:
        x = a
    elif operation == TXA:
        a = x
    elif operation == JMP or operation == JNZ and a or operation == JC and carry:
        pc = operand
    elif operation == OUT:
        out = a
    elif operation == TAP:
        page = a & 15
    elif operation == INX:
        x = x + 1 & 255
    return State(pc, ir, a, x, page, carry, out)


def combine(operation, a, value, carry):
    """The accumulator and the carry after an operation on the accumulator and a value."""
    if operation == LD:
        return value, carry
    if operation == ADD:
        return a + value & 255, a + value >> 8
    if operation == SUB:
        return a - value & 255, int(a >= value)
    return (a & value if operation == AND else a ^ value), carry


# The circuit

class Processor:
    """The circuit of the machine. Its parts are added in the order of the methods."""

    def __init__(self, size, program_words, has_multiplexers):
        self.circuit = Circuit()
        self.size = size
        self.has_multiplexers = has_multiplexers
        self.pc, self.ir = word("pc", WIDTH), word("ir", INSTRUCTION_WIDTH)
        self.a, self.x, self.out = word("a", WIDTH), word("x", WIDTH), word("out", WIDTH)
        self.page = word("pg", PAGE_WIDTH)
        self.operand = self.ir[:WIDTH]
        self.circuit.add_clocks()
        self.not_reset = self.circuit.inverter("rst", "rstn")
        self.add_program_memory(program_words)
        self.add_control()
        self.add_memory_address()
        self.add_memory()
        self.add_arithmetic()
        self.add_registers()
        self.add_program_counter()

    def add_program_memory(self, program_words):
        """A row for each value of the program counter; a bit line has a weak pull-up that always conducts."""
        circuit = self.circuit
        rows = circuit.decoder(self.pc, "rw")
        for bit in range(INSTRUCTION_WIDTH):
            line = f"rb{bit}"
            circuit.p_channel("Gnd", "Vdd", line, 1)
            for row, instruction_word in zip(rows, program_words):
                if instruction_word >> bit & 1:
                    circuit.n_channel(row, "Gnd", line)
            circuit.latch(circuit.inverter(line), *PHI1, self.ir[bit])

    def add_control(self):
        """A line for each operation, the complements of them, and the modes."""
        circuit = self.circuit
        self.operation = circuit.decoder(self.ir[10:14], "op")
        self.immediate = self.ir[8], circuit.inverter(self.ir[8])
        self.by_x = self.ir[9], circuit.inverter(self.ir[9])
        self.not_operation = [circuit.inverter(line) for line in self.operation]

    def add_memory_address(self):
        """The lines that select a row and a column; the address is X or the operand, and above it the page."""
        circuit = self.circuit
        address = [circuit.multiplexer(*self.by_x, self.x[bit], self.operand[bit], f"ea{bit}") for bit in range(WIDTH)]
        row_bits = 5
        if self.size == 4096:
            address += self.page
            row_bits = 6
        evaluate = circuit.inverter(circuit.nand("phi2", self.not_reset), "ev")
        rows = circuit.decoder(address[:row_bits], "rd")
        self.rows = [circuit.and_gate(row, evaluate, output=f"wl{number}") for number, row in enumerate(rows)]
        self.columns = circuit.decoder(address[row_bits:], "cs")
        self.write = circuit.and_gate(self.operation[ST], evaluate, output="we")

    def add_memory(self):
        """For each bit its columns, each with a true and a complement bit line, and the gates that read it."""
        circuit = self.circuit
        writes = []
        for number, column in enumerate(self.columns):
            not_write = circuit.nand(self.write, column)
            writes.append((circuit.inverter(not_write, f"we{number}"), not_write))
        self.not_a = [circuit.inverter(signal, f"an{bit}") for bit, signal in enumerate(self.a)]
        self.read = []
        for bit in range(WIDTH):
            if self.has_multiplexers:
                reads = [self.add_shared_columns(first, bit)
                         for first in range(0, len(self.columns), COLUMNS_OF_A_MULTIPLEXER)]
            else:
                reads = [self.add_column_alone(number, bit, writes[number]) for number in range(len(self.columns))]
            self.read.append(circuit.any_low(reads, f"rdata{bit}"))

    def add_column_alone(self, number, bit, write):
        """A column with a driver and a read gate of its own; answers what is 0 where a 1 is read."""
        true, complement = self.add_column(number, bit)
        self.add_driver(true, complement, bit, write)
        return self.circuit.nand(true, self.columns[number])

    def add_shared_columns(self, first, bit):
        """Eight columns with one driver and read gate behind pass gates; answers what is 0 where a 1 is read."""
        circuit = self.circuit
        numbers = range(first, first + COLUMNS_OF_A_MULTIPLEXER)
        for number in numbers:
            self.add_column(number, bit)
        true, complement = f"B{first}_{bit}", f"M{first}_{bit}"
        self.add_precharged(true, complement, 3)
        for number in numbers:
            circuit.n_channel(self.columns[number], true, f"b{number}_{bit}", 3)
            circuit.n_channel(self.columns[number], complement, f"m{number}_{bit}", 3)
        not_write = circuit.nand(self.write, self.any_column(numbers))
        self.add_driver(true, complement, bit, (circuit.inverter(not_write), not_write))
        return circuit.nand(true, self.any_column(numbers))

    def any_column(self, numbers):
        return self.circuit.any_low([self.circuit.inverter(self.columns[number]) for number in numbers])

    def add_column(self, number, bit):
        """The bit lines of a column and its cells; answers the lines."""
        circuit = self.circuit
        true, complement = f"b{number}_{bit}", f"m{number}_{bit}"
        self.add_precharged(true, complement, 2)
        for row_number, row in enumerate(self.rows):
            stored, not_stored = f"q{row_number}_{number}_{bit}", f"z{row_number}_{number}_{bit}"
            circuit.inverter(not_stored, stored, strength=1)
            circuit.inverter(stored, not_stored, strength=1)
            circuit.n_channel(row, true, stored)
            circuit.n_channel(row, complement, not_stored)
        return true, complement

    def add_precharged(self, true, complement, size):
        for line in (true, complement):
            self.circuit.set_size(line, size)
        for line in (true, complement):
            self.circuit.p_channel(PHI1[1], "Vdd", line)

    def add_driver(self, true, complement, bit, write):
        """Drives the bit lines with the accumulator's bit while there is a write."""
        circuit = self.circuit
        is_write, not_write = write
        for line, data in ((true, self.not_a[bit]), (complement, self.a[bit])):
            circuit.n_channel(is_write, "Gnd", f"{line}.w", 3)
            circuit.n_channel(data, f"{line}.w", line, 3)
            circuit.p_channel(not_write, "Vdd", f"{line}.v", 3)
            circuit.p_channel(data, f"{line}.v", line, 3)

    def add_arithmetic(self):
        """All results of the operations on the accumulator, of which the operation selects one."""
        circuit, operation = self.circuit, self.operation
        values = [circuit.multiplexer(*self.immediate, self.operand[bit], self.read[bit], f"ob{bit}")
                  for bit in range(WIDTH)]
        subtract, not_subtract = operation[SUB], self.not_operation[SUB]
        self.adds = circuit.or_gate(operation[ADD], operation[SUB])
        selects = (operation[LD], self.adds, operation[AND], operation[XOR], operation[SHR], operation[TXA])
        self.carry, self.result = subtract, []
        for bit, (a, value) in enumerate(zip(self.a, values)):
            not_value = circuit.inverter(value)
            addend = circuit.xor(value, subtract, not_value, not_subtract)
            total, self.carry = circuit.full_adder(a, addend, self.carry)
            both = circuit.and_gate(a, value)
            differ = circuit.xor(a, value, self.not_a[bit], not_value)
            above = self.a[bit + 1] if bit + 1 < WIDTH else "Gnd"
            results = (value, total, both, differ, above, self.x[bit])
            self.result.append(circuit.any_low([circuit.nand(*pair) for pair in zip(selects, results)]))

    def load_clock(self, not_load):
        """The clock of a register, and its complement: phi2 while the load, which is low, or a reset holds."""
        circuit = self.circuit
        not_clock = circuit.nand("phi2", circuit.nand(not_load, self.not_reset))
        return circuit.inverter(not_clock), not_clock

    def add_register(self, output, data, load):
        """A register that takes the data at its load, and 0 at a reset, and shows it from phi1 on."""
        data = self.circuit.and_gate(data, self.not_reset)
        self.circuit.register(data, load, PHI1, output, f"{output}.m")

    def add_word(self, outputs, data, load):
        for output, signal in zip(outputs, data):
            self.add_register(output, signal, load)

    def add_registers(self):
        """The accumulator, the carry, the shown value, the page and X."""
        circuit, operation = self.circuit, self.operation
        loads = [circuit.inverter(circuit.nor(operation[LD], self.adds, operation[AND])),
                 circuit.inverter(circuit.nor(operation[XOR], operation[SHR], operation[TXA]))]
        self.add_word(self.a, self.result, self.load_clock(circuit.nor(*loads)))
        self.add_register("cf", self.carry, self.load_clock(circuit.inverter(self.adds)))
        self.add_word(self.out, self.a, self.load_clock(circuit.inverter(operation[OUT])))
        self.add_word(self.page, self.a, self.load_clock(circuit.inverter(operation[TAP])))
        load = self.load_clock(circuit.nor(operation[TAX], operation[INX]))
        increment = operation[INX], self.not_operation[INX]
        for x, a, above in zip(self.x, self.a, circuit.incrementer(self.x)):
            self.add_register(x, circuit.multiplexer(*increment, above, a), load)

    def add_program_counter(self):
        """The next instruction, or the operand of a jump."""
        circuit = self.circuit
        not_zero = circuit.any_low(self.not_a, "nz")
        jump = circuit.any_low([self.not_operation[JMP], circuit.nand(self.operation[JNZ], not_zero),
                                circuit.nand(self.operation[JC], "cf")], "jump")
        not_jump = circuit.inverter(jump)
        for pc, operand, above in zip(self.pc, self.operand, circuit.incrementer(self.pc)):
            self.add_register(pc, circuit.multiplexer(jump, not_jump, operand, above), PHI2)


def add_script(circuit, states, has_multiplexer):
    """A reset of two cycles, and a cycle for each instruction; the model tells the registers in each place."""
    if has_multiplexer:
        circuit.command("wide 1000")
    circuit.start(["phi1", "phi2", "rst"],
                  ["phi1", "phi2"] + word_down("pc", WIDTH) + word_down("ir", INSTRUCTION_WIDTH)
                  + word_down("a", WIDTH) + word_down("x", WIDTH) + word_down("pg", PAGE_WIDTH) + ["cf"]
                  + word_down("out", WIDTH) + word_down("rdata", WIDTH), 1000, set_to_one=["rst"])
    phi1, phi2 = map("".join, zip(*CYCLE))
    circuit.command(f"clock phi1={phi1} phi2={phi2}")
    circuit.command("cycle 2")
    circuit.phases += 2 * len(CYCLE)
    circuit.command("set rst=0")
    circuit.command(f"cycle {len(states)}")
    for state in states:
        told = {"cf": str(state.carry)}
        for name, value, width in (("pc", state.pc, WIDTH), ("ir", state.ir, INSTRUCTION_WIDTH),
                                   ("a", state.a, WIDTH), ("x", state.x, WIDTH), ("pg", state.page, PAGE_WIDTH),
                                   ("out", state.out, WIDTH)):
            told |= letters(name, value, width)
        for phi1, phi2 in CYCLE:
            circuit.phases += 1
            circuit.tell(told | {"phi1": phi1, "phi2": phi2})


def main():
    if len(sys.argv) != 6:
        sys.exit(__doc__)
    memory, program, count, seed, prefix = sys.argv[1:]
    size = int(memory.rstrip("m"))
    program_words = program_memory(program, int(count), size == 4096, int(seed))
    circuit = Processor(size, program_words, memory.endswith("m")).circuit
    add_script(circuit, model(program_words), memory.endswith("m"))
    circuit.write(prefix)


if __name__ == "__main__":
    main()
