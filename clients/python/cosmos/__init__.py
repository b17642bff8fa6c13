"""Clients of Cosmos, a switch-level simulator for MOS circuits: they run its program, and need nothing of its sources.

`Cosmos` is a session in a circuit, for test benches. `cosmos.farm` runs a long list of faults, or the columns of a batch, in
pieces.
"""
from __future__ import annotations

from cosmos.talk import Cosmos, NotMet, Reasons, Refused, Report, TalkFault, Wave

__all__ = ["Cosmos", "NotMet", "Reasons", "Refused", "Report", "TalkFault", "Wave"]
