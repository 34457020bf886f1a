"""Accesses to the Tube, which joins a BBC Micro and its second processor.

The host's side has a clock, and the second processor's side a clock or two strobes. Rows: the
accesses of each side, what the registers hold, bytes that are lost, interrupts, and wrong answers.
"""

from .pd import Decoder

__all__ = ["Decoder"]
