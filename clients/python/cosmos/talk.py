"""A session of `cosmos talk`, for test benches: a circuit whose inputs are set and whose nodes are read, line by line."""
from __future__ import annotations

import os
import re
import subprocess
import tempfile
from types import TracebackType
from typing import IO, Dict, List, Mapping, NamedTuple, Optional, Set, Type, Union

Value = Union[int, str, None]
"""A state, or those of a vector: a number, None for X, or letters and forms as a script has them."""

NET_REFUSED = 3
"""The program's status if the netlist, or the deck, is refused."""

MARK = "echo .answered."
"""What each answer ends with."""


class TalkFault(Exception):
    """The talk can't go on: the program isn't there, or it ended."""


class Refused(Exception):
    """A line that was refused. It changed nothing, and the talk goes on, unless it is a line of the netlist."""

    def __init__(self, text: str, line: str) -> None:
        """A refusal as the program writes it, behind its place, and the line that was sent, or the netlist's name."""
        super().__init__(f"{text}: {line}")
        self.text = text
        self.code, _, self.word = text.partition(" ")
        self.line = line


class NotMet(AssertionError):
    """An expectation that wasn't met. Its lines are those that the program wrote."""

    def __init__(self, lines: List[str]) -> None:
        """The lines `expect <name>=<wanted> got <present> after <n>`."""
        super().__init__("\n".join(lines))
        self.lines = lines


class Wave(NamedTuple):
    """A waveform line: its number, the steps that changed something, if some were joining steps, and the watched letters."""

    number: int
    steps: int
    joined: bool
    letters: str


class Reasons(NamedTuple):
    """The lines that say why a node may be 1, and why it may be 0."""

    one: str
    zero: str


class Report(NamedTuple):
    """How many groups and distinct texts there are, and how many texts were analysed since the last report."""

    groups: int
    texts: int
    new: int


class Cosmos:
    """A talk about a netlist, or about a SPICE deck if the name is that of one. It is a context, and ends with it.

    Each method sends a line of the same name, and returns when it is answered. A refused line raises `Refused`.
    """

    def __init__(self, net: Union[str, os.PathLike[str]], program: str = "cosmos") -> None:
        """Starts the program on the netlist of this name. It is looked up on the path, unless its name has a slash."""
        self._net = os.fspath(net)
        self._vectors: Set[str] = set()
        self._said: IO[bytes] = tempfile.TemporaryFile()
        try:
            self._process = subprocess.Popen(
                [program, "talk", self._net], stdin=subprocess.PIPE, stdout=subprocess.PIPE, stderr=self._said
            )
        except OSError as error:
            self._said.close()
            raise TalkFault(f"{program} can't be run: {error.strerror}") from None
        try:
            self.send("")
        except BaseException:
            self.close()
            raise

    def __enter__(self) -> Cosmos:
        """This talk."""
        return self

    def __exit__(
        self, kind: Optional[Type[BaseException]], error: Optional[BaseException], trace: Optional[TracebackType]
    ) -> None:
        """Ends the talk."""
        self.close()

    def close(self) -> None:
        """Ends the talk, and waits for the program."""
        for pipe in (self._process.stdin, self._process.stdout):
            if pipe is not None:
                try:
                    pipe.close()
                except BrokenPipeError:
                    pass
        self._process.wait()
        self._said.close()

    # ---- lines

    def send(self, line: str) -> List[str]:
        """Sends a line as it is, and gives the lines of its answer. It must be one line, and no `quit`."""
        if "\n" in line:
            raise ValueError(f"more than one line: {line!r}")
        to, out = self._process.stdin, self._process.stdout
        assert to is not None and out is not None
        try:
            to.write(f"{line}\n{MARK}\n".encode())
            to.flush()
        except BrokenPipeError:
            pass
        answer: List[str] = []
        for heard in out:
            text = heard.decode().rstrip("\n")
            if text == MARK:
                return self._checked(answer, line)
            answer.append(text)
        raise self._end(answer)

    def _checked(self, answer: List[str], line: str) -> List[str]:
        """The answer, if it isn't a refusal."""
        found = re.match(r"line \d+: (.*)", answer[-1]) if answer else None
        if found:
            raise Refused(found.group(1), line)
        return answer

    def _end(self, answer: List[str]) -> Exception:
        """Why the program ended."""
        status = self._process.wait()
        found = re.match(r"(?:net|deck) line \d+: (.*)", answer[-1]) if answer else None
        if status == NET_REFUSED and found:
            return Refused(found.group(1), f"{self._net}, {answer[-1].partition(':')[0]}")
        self._said.seek(0)
        return TalkFault(self._said.read().decode(errors="replace").strip() or f"the program ended with status {status}")

    def _command(self, command: str, *words: object) -> List[str]:
        """Sends a command with words."""
        for word in words:
            if not re.fullmatch(r"[!-~]+", str(word)):
                raise ValueError(f"no word of a line: {word!r}")
        return self.send(" ".join([command, *map(str, words)]))

    def _assign(self, command: str, values: Optional[Mapping[str, Value]], more: Mapping[str, Value]) -> List[str]:
        """Sends a command with a value for each name."""
        all_values: Dict[str, Value] = {**(values or {}), **more}
        return self._command(command, *(f"{name}={self._form(name, value)}" for name, value in all_values.items()))

    def _form(self, name: str, value: Value) -> str:
        """A value as a script has it: a vector takes a number as a decimal."""
        if value is None:
            return "X"
        if isinstance(value, str):
            return value
        return f"%d{int(value)}" if name in self._vectors else str(int(value))

    # ---- nodes

    def input(self, *names: str) -> None:
        """Makes nodes input nodes."""
        self._command("input", *names)

    def store(self, name: str, size: int) -> None:
        """Makes a node a storage node of a size."""
        self._command("store", name, size)

    def vector(self, name: str, *words: str) -> None:
        """Gives a name to a list of nodes, the first of which is its highest bit."""
        self._command("vector", name, *words)
        self._vectors.add(name)

    def set(self, values: Optional[Mapping[str, Value]] = None, **more: Value) -> None:
        """Puts values on input nodes and vectors of them. Names that are no words of Python go into a mapping."""
        self._assign("set", values, more)

    def charge(self, values: Optional[Mapping[str, Value]] = None, **more: Value) -> None:
        """Puts values on storage nodes and vectors of them."""
        self._assign("charge", values, more)

    def __setitem__(self, name: str, value: Value) -> None:
        """Puts a value on an input node, or a vector of them."""
        self.set({name: value})

    def letters(self, name: str) -> str:
        """The states of a node or a vector, a letter each: 0, 1 or X."""
        return self._command("show", name)[0].rpartition(" ")[2]

    def __getitem__(self, name: str) -> Optional[int]:
        """The number that the states of a node or a vector are, or None if one of them is X."""
        letters = self.letters(name)
        return None if "X" in letters else int(letters, 2)

    def expect(self, values: Optional[Mapping[str, Value]] = None, **more: Value) -> None:
        """Raises `NotMet` if a node or a vector has another value than this one. In letters a `-` is any state."""
        unmet = self._assign("expect", values, more)
        if unmet:
            raise NotMet(unmet)

    def why(self, name: str) -> Reasons:
        """Why a node may be 1, and why it may be 0, in the present state."""
        return Reasons(*self._command("why", name))

    def look(self, *names: str) -> List[str]:
        """What there is at nodes, in the lines of the program."""
        return self._command("look", *names)

    # ---- time

    def watch(self, *names: str) -> None:
        """Shows nodes and vectors in the waves from here on."""
        self._command("watch", *names)

    def limit(self, steps: int) -> None:
        """How many unit steps a phase has at most before what still moves becomes X."""
        self._command("limit", steps)

    def step(self) -> Wave:
        """A unit step."""
        return wave_of(self._command("step")[-1])

    def phase(self) -> Wave:
        """Unit steps until nothing changes."""
        return wave_of(self._command("phase")[-1])

    def clock(self, letters: Optional[Mapping[str, str]] = None, **more: str) -> None:
        """The letters that clocks go through in a cycle."""
        self._assign("clock", letters, more)

    def cycle(self, times: int = 1) -> List[Wave]:
        """Runs through the clocks' letters so often, with a phase at each."""
        return [wave_of(line) for line in self._command("cycle", times)]

    def save(self, name: str) -> None:
        """Keeps the present states of all nodes under a name."""
        self._command("save", name)

    def back(self, name: str) -> None:
        """Gives all nodes the states that were kept under a name."""
        self._command("back", name)

    # ---- the circuit

    def add(self, kind: str, gate: str, source: str, drain: str, strength: Optional[int] = None) -> None:
        """Adds a transistor of kind n, p or d, whose number is one more than the last."""
        self._command("add", kind, gate, source, drain, *([] if strength is None else [strength]))

    def delete(self, number: int) -> None:
        """Removes the transistor with this number, by `del`."""
        self._command("del", number)

    def strength(self, number: int, strength: int) -> None:
        """Gives a transistor a strength."""
        self._command("strength", number, strength)

    def type(self, number: int, kind: str) -> None:
        """Gives a transistor a kind."""
        self._command("type", number, kind)

    def wire(self, number: int, gate: str, source: str, drain: str) -> None:
        """Gives a transistor other ends."""
        self._command("wire", number, gate, source, drain)

    def report(self) -> Report:
        """Counts groups and texts."""
        words = self._command("report")[-1].split()
        return Report(int(words[1]), int(words[3]), int(words[5]))

    def keep(self, texts: int) -> None:
        """Bounds how many texts are kept with their code."""
        self._command("keep", texts)


def wave_of(line: str) -> Wave:
    """What a waveform line tells: `<number> <steps> <letters>`, with a `*` behind the steps if some were joining steps."""
    number, steps, letters = line.split(" ")
    return Wave(int(number), int(steps.rstrip("*")), steps.endswith("*"), "" if letters == "-" else letters)
