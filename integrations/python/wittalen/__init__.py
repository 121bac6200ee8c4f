"""Dictionaries of Diameter (RFC 6733), checks of messages, what breaks between two dictionaries, and connections, over libdia.

    import wittalen
    book = wittalen.Dictionary.open("credit-control.txt")
    verdict = book.check(message)
    if not verdict:
        print(verdict)  # fault 5009 at 80 too-many Usage-Report

Several threads may use one object where Python has its global lock; of a Peer, one at a time."""

from .dictionaries import (
    Answer, Avp, Class, Command, Dictionary, DictionaryError, Entry, Fault, Flag, Form, Header, Outcome, Stream, Verdict, explain,
    faults, header, message_length, render, split,
)  # fmt: skip
from .peers import RELAY, Application, Cause, Output, Peer, Role, State, Timer, Why
from .upgrades import Comparison, InputError, Sends, Upgrade, breaking, compare

__version__ = "1.0.0"

__all__ = [
    "RELAY", "Answer", "Application", "Avp", "Cause", "Class", "Command", "Comparison", "Dictionary", "DictionaryError", "Entry",
    "Fault", "Flag", "Form", "Header", "InputError", "Outcome", "Output",
    "Peer", "Role", "Sends", "State", "Stream", "Timer", "Upgrade", "Verdict", "Why", "breaking", "compare", "explain", "faults",
    "header", "message_length", "render", "split",
]  # fmt: skip
