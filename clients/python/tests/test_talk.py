"""A talk with the program: what each method sends, what it gives, and what it raises."""
from __future__ import annotations

import os
import pty
import subprocess
from pathlib import Path
from typing import Callable, Iterator

import pytest

from cosmos import Cosmos, NotMet, Refused, Report, TalkFault, Wave

INVERTER = "p a Vdd out\nn a Gnd out\n"
LATCHES = "".join(f"n g d{bit} q{bit}\n" for bit in (3, 2, 1, 0))

Talk = Callable[[str], Cosmos]


@pytest.fixture
def talk(program: str, tmp_path: Path) -> Iterator[Talk]:
    """Begins a talk about a netlist."""
    open_talks = []

    def begin(net: str) -> Cosmos:
        """The talk about the netlist with these lines."""
        (tmp_path / "net.sim").write_text(net)
        chip = Cosmos(tmp_path / "net.sim", program)
        open_talks.append(chip)
        return chip

    yield begin
    for chip in open_talks:
        chip.close()


def test_an_inverter_inverts(talk: Talk) -> None:
    """Values go in as numbers, and come back as numbers, or as None for X."""
    with talk(INVERTER) as chip:
        chip.input("a")
        chip.watch("a", "out")
        assert chip["a"] is None
        for value in (0, 1):
            chip.set(a=value)
            chip.phase()
            assert chip["out"] == 1 - value
        chip["a"] = None
        assert chip.phase() == Wave(3, 1, False, "XX")
        assert chip["out"] is None


def test_a_vector_is_a_number(talk: Talk) -> None:
    """A vector takes and gives numbers, and letters too."""
    with talk(LATCHES) as chip:
        chip.vector("d", "d{3:0}")
        chip.vector("q", "q{3:0}")
        chip.input("d", "g")
        chip.set(d=5, g=1)
        chip.phase()
        assert chip["q"] == 5
        chip.set({"d": "1XX0", "g": 1})
        chip.phase()
        assert chip["q"] is None
        assert chip.letters("q") == "1XX0"
        chip.expect(q="1--0")
        chip["d"] = None
        chip.phase()
        chip.expect(q=None)


def test_an_expectation_that_is_not_met_raises(talk: Talk) -> None:
    """All that aren't met are told at once, and the talk goes on."""
    with talk(INVERTER) as chip:
        chip.input("a")
        chip.set(a=1)
        chip.phase()
        chip.expect(out=0)
        with pytest.raises(NotMet) as unmet:
            chip.expect(out=1, a=0)
        assert unmet.value.lines == ["expect out=1 got 0 after 1", "expect a=0 got 1 after 1"]
        chip.expect(a=1)


def test_a_refused_line_raises_and_changes_nothing(talk: Talk) -> None:
    """A refusal has its code, its word and the line that was sent."""
    with talk(INVERTER) as chip:
        chip.input("a")
        with pytest.raises(Refused) as refused:
            chip.set(a=1, nope=0)
        assert (refused.value.code, refused.value.word, refused.value.line) == ("E1", "UnknownNode", "set a=1 nope=0")
        assert chip["a"] is None
        with pytest.raises(Refused, match="S6"):
            chip["out"] = 1


def test_states_are_kept_and_come_back(talk: Talk) -> None:
    """`back` gives the states of `save`."""
    with talk(INVERTER) as chip:
        chip.input("a")
        chip.set(a=1)
        chip.phase()
        chip.save("low")
        chip.set(a=0)
        chip.phase()
        assert chip["out"] == 1
        chip.back("low")
        assert (chip["a"], chip["out"]) == (1, 0)
        with pytest.raises(Refused, match="S16"):
            chip.back("high")


def test_reasons_are_told(talk: Talk) -> None:
    """`why` gives both lines, and refuses a name that isn't in use."""
    with talk(INVERTER) as chip:
        chip.input("a")
        chip.set(a=1)
        chip.phase()
        assert chip.why("out") == ("one none", "zero 10 definite Gnd 2 out")
        with pytest.raises(Refused, match="E1"):
            chip.why("q")


def test_a_circuit_is_edited(talk: Talk) -> None:
    """Each edit has its method."""
    with talk(INVERTER) as chip:
        chip.add("n", "b", "Gnd", "out", 2)
        chip.input("a", "b")
        chip.set(a=0, b=1)
        chip.phase()
        assert chip["out"] is None
        chip.strength(3, 1)
        chip.type(3, "d")
        chip.wire(3, "b", "Gnd", "q")
        chip.delete(1)
        chip.store("out", 2)
        chip.keep(10)
        chip.limit(50)
        chip.charge(out=1)
        assert not chip.step().joined
        assert isinstance(chip.report(), Report)


def test_clocks_cycle(talk: Talk) -> None:
    """A cycle gives a wave for each letter."""
    with talk(INVERTER) as chip:
        chip.input("a")
        chip.watch("a", "out")
        chip.clock(a="01")
        assert [wave.letters for wave in chip.cycle(2)] == ["01", "10", "01", "10"]


def test_words_of_a_line_are_words(talk: Talk) -> None:
    """What would be two words, or two lines, isn't sent."""
    with talk(INVERTER) as chip:
        for name in ("a b", "", "a\nquit", "é"):
            with pytest.raises(ValueError):
                chip.input(name)
        with pytest.raises(ValueError):
            chip.send("input a\nquit")


def test_a_talk_that_cannot_go_on_says_why(program: str, talk: Talk, tmp_path: Path) -> None:
    """A refused netlist, a missing one, a missing program, and a talk that was ended."""
    with pytest.raises(Refused, match="N1 BadRecord.*net line 2"):
        talk(INVERTER.splitlines()[0] + "\nq\n")
    with pytest.raises(TalkFault, match="can't be read"):
        Cosmos(tmp_path / "missing.sim", program)
    with pytest.raises(TalkFault, match="can't be run"):
        Cosmos(tmp_path / "net.sim", str(tmp_path / "missing"))
    with talk(INVERTER) as chip:
        with pytest.raises(TalkFault):
            chip.send("quit")


def written_at_a_terminal(program: str, folder: Path, text: str) -> str:
    """What a talk about an inverter writes, standard error too, in order, if a human types this text."""
    (folder / "net.sim").write_text(INVERTER)
    human, terminal = pty.openpty()
    words = [program, "talk", "net.sim"]
    try:
        with subprocess.Popen(
            words, cwd=folder, stdin=terminal, stdout=subprocess.PIPE, stderr=subprocess.STDOUT, text=True
        ) as talking:
            os.write(human, text.encode())
            written, _ = talking.communicate(timeout=60)
    finally:
        os.close(human)
        os.close(terminal)
    return written


def test_at_a_terminal_a_refused_line_has_its_cure(program: str, tmp_path: Path) -> None:
    """A prompt stands before each line, and the cure behind a refusal, with a word of the line or of the clocks before it."""
    text = "input a\nclock a=01\nset b=1\nfoo\nwhy c\necho\nstore a 1\ncycle 1\nquit\n"
    assert written_at_a_terminal(program, tmp_path, text).replace("cosmos> ", "> ").splitlines() == [
        "> > > line 3: E1 UnknownNode",
        "standard input:3: E1 UnknownNode: no node is called 'b'; look it up in the netlist, with its capital and small letters",
        "> line 4: S1 BadCommand",
        "standard input:4: S1 BadCommand: 'foo' is no command here; 'cosmos help' lists the commands",
        "> line 5: E1 UnknownNode",
        "standard input:5: E1 UnknownNode: no node is called 'c'; look it up in the netlist, with its capital and small letters",
        "> line 6: S2 FewWords",
        "standard input:6: S2 FewWords: 'echo' needs more words; 'cosmos help echo' shows its form",
        "> > line 8: S6 NotInput",
        "standard input:8: S6 NotInput: 'a' is a storage node; 'input a' makes it an input",
        "> ",
    ]


def test_a_program_at_a_pipe_reads_no_cure(program: str, tmp_path: Path) -> None:
    """If standard input is no terminal, standard error has neither prompts nor cures of lines."""
    (tmp_path / "net.sim").write_text(INVERTER)
    done = subprocess.run([program, "talk", "net.sim"], cwd=tmp_path, input=b"set b=1\n", capture_output=True, check=False)
    assert (done.stdout, done.stderr) == (b"line 1: E1 UnknownNode\n", b"")
