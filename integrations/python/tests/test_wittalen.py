"""Tests of the package, for `python3 -m unittest`. Messages and offsets are counted by hand."""

import copy
import gc
import os
import pathlib
import pickle
import re
import tempfile
import threading
import unittest

import wittalen
from wittalen import Application, Cause, Dictionary, Outcome, Peer, Role, Sends, State, Timer, Why, dictionaries

# a request of the command 280 without its AVPs, of which Origin-Host is the first (RFC 6733 section 5.5.1)
BARE = bytes.fromhex("0100001480000118000000000000000100000002")
USAGE = "%avp Usage 9002 Unsigned32 any\n<Report> ::= < Diameter Header: 302, REQ > 1*2 { Usage }"
NARROW = USAGE.replace("1*2 ", "")
HEADER = pathlib.Path(__file__).resolve().parents[3] / "c/dia.h"


def report(*values: int) -> bytes:
    """A Report with these values of Usage, of 12 bytes each."""
    body = b"".join((9002).to_bytes(4, "big") + b"\0\0\0\x0c" + value.to_bytes(4, "big") for value in values)
    return b"\1" + (20 + len(body)).to_bytes(3, "big") + b"\x80" + (302).to_bytes(3, "big") + bytes(12) + body


class Checks(unittest.TestCase):
    def test_missing(self):
        verdict = Dictionary().check(BARE)
        self.assertFalse(verdict)
        self.assertEqual((verdict.code, verdict.offset, verdict.reason, verdict.avp), (5005, 20, "missing", "Origin-Host"))
        self.assertEqual(str(verdict), "fault 5005 at 20 missing Origin-Host")

    def test_counts(self):
        book = Dictionary(USAGE)
        self.assertEqual(str(book.check(report(1, 2))), "valid Report")
        self.assertEqual(str(book.check(report(1, 2, 3))), "fault 5009 at 44 too-many Usage")
        self.assertEqual(book.check_json(report(1, 2, 3))["avp"], {"name": "Usage", "code": 9002, "vendor": 0})

    def test_bytes_that_are_no_message(self):
        book = Dictionary(USAGE)
        self.assertIs(book.check(b"").outcome, Outcome.TRUNCATED)
        self.assertIs(book.check(report(1)[:-1]).outcome, Outcome.TRUNCATED)
        self.assertIs(book.check(report(1) + b"\0").outcome, Outcome.TRAILING)
        with self.assertRaises(ValueError):
            book.show(b"\2" + report(7)[1:])

    def test_fields(self):
        verdict = Dictionary(USAGE).check(report(1, 2, 3))
        self.assertEqual(verdict, (Outcome.FAULT, None, 5009, 44, "too-many", "Usage"))
        self.assertEqual((hash(verdict), verdict), (hash(pickle.loads(pickle.dumps(verdict))), pickle.loads(pickle.dumps(verdict))))
        with self.assertRaises(AttributeError):
            verdict.code = 5008

    def test_copies(self):
        book = Dictionary(USAGE)
        for copied in (copy.copy(book), copy.deepcopy(book)):
            copied.close()
            with self.assertRaises(ValueError):
                copied.check(report(1))
        self.assertTrue(book.check(report(1)))
        peer = Peer(Role.RESPONDER, "a", "b", [Application(1)])
        for owner in (book.stream(), peer):
            for copies in (copy.copy, copy.deepcopy, pickle.dumps):
                with self.assertRaises(TypeError):
                    copies(owner)
        self.assertIs(peer.state, State.IDLE)
        with self.assertRaises(TypeError):
            pickle.dumps(book)

    def test_options(self):
        book = Dictionary(USAGE + " [ AVP ]")
        unknown = report(1) + bytes.fromhex("0000232a0000000800000000")[:8]
        unknown = unknown[:1] + len(unknown).to_bytes(3, "big") + unknown[4:]
        unknown = unknown[:32] + (9999).to_bytes(4, "big") + unknown[36:]
        self.assertTrue(book.check(unknown))
        self.assertEqual(str(book.check(unknown, refuse_unknown=True)), "fault 5001 at 32 unknown 9999:0")
        self.assertTrue(book.check(report(1), levels=0))
        with self.assertRaises(ValueError):
            book.check(report(1), levels=1 << 32)

    def test_many(self):
        book = Dictionary(USAGE)
        messages = [report(1), report(1, 2, 3), b"", report(1)[:-1], report(2, 2)]
        self.assertEqual(book.check_many(messages), [book.check(message) for message in messages])
        self.assertEqual(book.check_many(iter(())), [])
        self.assertEqual(book.check_many([bytearray(report(1)), memoryview(report(1, 2, 3))]), book.check_many(messages[:2]))
        for wrong in (["a"], [report(1), None]):
            with self.assertRaises(TypeError):
                book.check_many(wrong)

    def test_many_verdicts(self):
        # more verdicts than are stored, each with another AVP after Usage
        book, codes = Dictionary(USAGE + " [ AVP ]"), range(10_000, 10_000 + 2 * dictionaries.STORED)
        messages = [report(1, 2)[:32] + code.to_bytes(4, "big") + report(1, 2)[36:] for code in codes]
        for _ in range(2):
            found = book.check_many(messages, refuse_unknown=True)
            self.assertEqual([str(verdict) for verdict in found], [f"fault 5001 at 32 unknown {code}:0" for code in codes])

    def test_answered(self):
        book = Dictionary()
        answer = book.answer(BARE, "host.invalid", "invalid")
        self.assertEqual(str(answer.verdict), "fault 5005 at 20 missing Origin-Host")
        # the header with R clear, and Result-Code 5005 (RFC 6733 sections 6.2 and 7.1)
        self.assertEqual((answer.form, answer.message[4:20]), (wittalen.Form.OWN, b"\0" + BARE[5:]))
        avps = {(avp.name, avp.depth): avp.data for avp in book.avps(answer.message)}
        self.assertEqual(avps["Result-Code", 0], (5005).to_bytes(4, "big"))
        self.assertEqual((avps["Origin-Host", 0], avps["Origin-Realm", 0]), (b"host.invalid", b"invalid"))
        # in Failed-AVP, with the least data (docs/FORMATS.md)
        self.assertEqual(avps["Origin-Host", 1], b"a")
        self.assertIsNone(book.answer(answer.message, "a", "b"))
        for host, realm in (("", "b"), ("a", "x" * 256), ("a b", "c"), ("a", "\u00e4")):
            with self.assertRaises(ValueError):
                book.answer(BARE, host, realm)

    def test_avps(self):
        book = Dictionary(USAGE)
        found = book.avps(report(*range(100)))
        self.assertEqual((len(found), found[1]), (100, wittalen.Avp(32, 0, 12, 9002, 0, 0, "Usage", "Unsigned32", b"\0\0\0\1")))
        self.assertEqual([(avp.name, avp.format) for avp in Dictionary().avps(report(1))], [(None, None)])
        self.assertEqual(book.avps(report()), [])
        with self.assertRaises(ValueError):
            book.avps(report(1)[:-1])

    def test_avp_lengths(self):
        book = Dictionary("%avp A 1 OctetString any\nB ::= < AVP Header: 2 > *[ A ]")
        # B at 20 has an A of 8 bytes, and then one whose AVP Length is 7; another A is at 44
        message = bytes.fromhex("0100003480000" "12e" + "00" * 12 + "0000000200000018" + "0000000100000008" + "0000000100000007" + "0000000100000008")
        self.assertEqual([(avp.offset, avp.depth) for avp in book.avps(message)], [(20, 0), (28, 1), (44, 0)])

    def test_found(self):
        book = Dictionary("%avp A 1 OctetString any\n%avp C 1 vendor 10415 OctetString any\nB ::= < AVP Header: 2 > *[ A ]")
        # B at 20 has an A of 8 bytes at 28; then follow C at 36, of 12 bytes, A at 48, of 9, and A at 60
        body = "00000002000000100000000100000008" + "000000018000000c000028af" + "0000000100000009ff000000" + "0000000100000008"
        message = bytes.fromhex("010000448000012e" + "00" * 12 + body)
        self.assertEqual(book.find(message, 1), wittalen.Avp(48, 0, 9, 1, 0, 0, "A", "OctetString", b"\xff"))
        self.assertEqual([found and found.offset for found in (book.find(message, 1, 10415), book.find(message, 2))], [36, 20])
        self.assertIsNone(book.find(message, 3))
        with self.assertRaises(ValueError):
            book.find(message[1:], 1)
        with self.assertRaises(ValueError):
            book.find(message, 1 << 32)

    def test_avps_at(self):
        book = Dictionary("%avp A 1 OctetString any\nB ::= < AVP Header: 2 > *[ A ]")
        # B at 20 has two A of 8 bytes, at 28 and 36
        message = bytes.fromhex("0100002c8000012e" + "00" * 12 + "0000000200000018" + "0000000100000008" * 2)
        self.assertEqual([(avp.offset, avp.depth, avp.name) for avp in book.avps_at(message, 40)], [(20, 0, "B"), (36, 1, "A")])
        self.assertEqual([avp.length for avp in book.avps_at(message, 20)], [24])
        self.assertEqual(book.avps_at(message, 19), [])
        for wrong in (-1, 1 << 64):
            with self.assertRaises(ValueError):
                book.avps_at(message, wrong)
        with self.assertRaises(ValueError):
            book.avps_at(message[:-1], 20)

    def test_explained(self):
        self.assertIn("byte 44: ", wittalen.explain(USAGE, report(1, 2, 3)))
        self.assertEqual(wittalen.explain(USAGE, report(1, 2)), "")
        self.assertIn("dictionary:1:", wittalen.explain("%avp A", report(1)))

    def test_types(self):
        book = Dictionary(USAGE)
        self.assertTrue(book.check(bytearray(report(1))) and book.check(memoryview(report(1))))
        for wrong in (report(1).hex(), None, 20, [1]):
            with self.assertRaises(TypeError):
                book.check(wrong)

    def test_shown(self):
        self.assertIn("Usage 7", Dictionary(USAGE).show(report(7)))

    def test_stream(self):
        book, found = Dictionary(USAGE), []
        both = report(1) + report(1, 2, 3)
        stream = book.stream()
        for start in range(0, len(both), 7):
            piece = both[start : start + 7]
            while piece:
                piece = stream.feed(piece)
                if stream.done:
                    found.append(str(stream.finish()))
                    stream = book.stream()
        self.assertEqual(found, ["valid Report", "fault 5009 at 44 too-many Usage"])

    def test_stream_again(self):
        stream = Dictionary(USAGE).stream(levels=0)
        for message, line in ((report(1), "valid Report"), (report(1, 2, 3), "fault 5009 at 44 too-many Usage")) * 2:
            self.assertEqual((stream.feed(message + b"\1"), stream.done), (b"\1", True))
            self.assertEqual((str(stream.again()), stream.done), (line, False))
        self.assertEqual(str(stream.finish()), "truncated")
        with self.assertRaises(ValueError):
            stream.again()

    def test_split(self):
        self.assertEqual([len(message) for message in wittalen.split(report(1) + report(1, 2, 3) + b"\1\0")], [32, 56, 2])

    def test_lengths(self):
        self.assertEqual(wittalen.message_length(report(1, 2)[:20]), 44)
        # another version, a length of less than 20, and too few bytes
        for header in (b"\2" + BARE[1:], b"\1\0\0\x10" + BARE[4:], BARE[:19]):
            self.assertIsNone(wittalen.message_length(header))

    def test_header(self):
        # CCR of RFC 8506: R and P are set
        found = wittalen.header(bytes.fromhex("0100002cc0000110000000040000000500000006") + b"rest")
        self.assertEqual(found, (44, 0xC0, 272, 4, 5, 6))
        self.assertTrue(found.is_request and found.is_proxiable and not found.is_error)
        for wrong in (b"\2" + BARE[1:], b"\1\0\0\x10" + BARE[4:], BARE[:19]):
            self.assertIsNone(wittalen.header(wrong))

    def test_threads(self):
        book, wrong = Dictionary(USAGE), []

        def run() -> None:
            for number in range(2000):
                count = number % 4
                if bool(book.check(report(*range(count)))) != (count in (1, 2)):
                    wrong.append(number)

        threads = [threading.Thread(target=run) for _ in range(4)]
        for thread in threads:
            thread.start()
        for thread in threads:
            thread.join()
        self.assertEqual(wrong, [])


class Dictionaries(unittest.TestCase):
    def test_refused(self):
        with self.assertRaises(wittalen.DictionaryError) as caught:
            Dictionary("; \u00e4\nG ::= < AVP Header: 3 > { X }\n")
        # 26 characters of the second line come before X
        self.assertEqual([str(fault) for fault in caught.exception.faults], ["2:27: undefined-name G X"])
        self.assertEqual(wittalen.faults(USAGE), [])
        # no character of UTF-8 begins with this byte
        self.assertEqual([str(fault) for fault in wittalen.faults(b"; \xff")], ["1:3: not text"])

    def test_rendered(self):
        self.assertEqual(wittalen.render("%avp   A 1\n Time any ; a comment"), "%avp A 1 Time any\n")

    def test_closed(self):
        with Dictionary() as book:
            stream = book.stream()
        book.close()
        with self.assertRaises(ValueError):
            book.check(BARE)
        # a stream keeps its dictionary
        self.assertEqual(stream.feed(BARE[:7]), b"")
        self.assertEqual(stream.feed(BARE[7:]), b"")
        self.assertEqual(str(stream.finish()), "fault 5005 at 20 missing Origin-Host")
        del stream
        gc.collect()

    def test_open(self):
        with tempfile.TemporaryDirectory() as folder:
            first, second = pathlib.Path(folder, "first"), pathlib.Path(folder, "second")
            first.write_text("%avp Usage 9002 Unsigned32 any ; a comment")
            second.write_text("<Report> ::= < Diameter Header: 302, REQ > { Usage }")
            self.assertTrue(Dictionary.open(first, second).check(report(1)))
            # the text ends on its first line
            first.write_text("xx")
            with self.assertRaises(wittalen.DictionaryError) as caught:
                Dictionary.open(first)
            self.assertEqual(caught.exception.faults[0].line, 1)

    def test_parts(self):
        book = Dictionary(USAGE + "\n%avp B 3 vendor 10415 Grouped must\nB ::= < AVP Header: 3 10415 > *[ Usage ]")
        self.assertEqual(
            book.commands(), [wittalen.Command("Report", 302, wittalen.Class.REQUEST, wittalen.Flag.CLEAR, None)]
        )
        self.assertEqual(
            book.entries(),
            [
                wittalen.Entry("Usage", 9002, 0, "Unsigned32", wittalen.Flag.EITHER),
                wittalen.Entry("B", 3, 10415, "Grouped", wittalen.Flag.SET),
            ],
        )
        errors = [command for command in Dictionary().commands() if command.kind is wittalen.Class.ERROR]
        # RFC 6733 section 7.2
        self.assertEqual(errors, [wittalen.Command("answer-message", None, wittalen.Class.ERROR, wittalen.Flag.EITHER, None)])
        book.close()
        for ask in (book.commands, book.entries):
            with self.assertRaises(ValueError):
                ask()

    def test_many_faults(self):
        faults = wittalen.faults("".join(f"%avp A {number} Time any ; \u00e4\n" for number in range(16_000)))
        self.assertEqual([str(faults[0]), str(faults[-1])], ["2:6: duplicate-name A", "16000:6: duplicate-name A"])

    def test_pickled(self):
        (fault,) = wittalen.faults(NARROW + " [ X ]")
        again = pickle.loads(pickle.dumps(wittalen.DictionaryError([fault])))
        self.assertEqual((again.faults, str(again)), ([fault], "2:56: undefined-name Report X"))
        again = pickle.loads(pickle.dumps(wittalen.InputError("syntax", 2)))
        self.assertEqual((again.kind, again.line, str(again)), ("syntax", 2, "line 2: syntax"))
        self.assertEqual(str(pickle.loads(pickle.dumps(wittalen.InputError("syntax", 2, 3)))), "2:3: syntax")

    def test_files(self):
        folder = HEADER.parent.parent / "dictionaries"
        names = ("rfc6733", "rfc7155-avps", "rfc5777", "rfc8506-avps", "rfc8506-commands")
        book = Dictionary.open(*(folder / f"{name}.txt" for name in names))
        message = bytes.fromhex((folder / "examples/ccr.hex").read_text())
        self.assertEqual(str(book.check(message)), "valid Credit-Control-Request")


class Upgrades(unittest.TestCase):
    def test_breaking(self):
        wide, narrow = Dictionary(USAGE), Dictionary(NARROW)
        found = wittalen.breaking(wide, narrow)
        self.assertFalse(found)
        self.assertEqual(found.text, "Report: too-many Usage: 1..2 sent, 1 accepted\n")
        self.assertTrue(wittalen.breaking(wide, narrow, accepted=found.text))
        self.assertEqual(wittalen.breaking(narrow, wide).text, "nothing breaks\n")
        with self.assertRaises(wittalen.InputError) as caught:
            wittalen.breaking(wide, narrow, commands=["Report", "Retort"])
        self.assertFalse(wittalen.breaking(wide, narrow, commands="Report"))
        self.assertEqual((caught.exception.kind, caught.exception.line), ("no command", 2))

    def test_compared(self):
        wide, narrow = Dictionary(USAGE), Dictionary(NARROW)
        table = "command Report = Report\navp Usage = Usage"
        self.assertEqual(wittalen.compare(narrow, wide, table).line, "yes")
        self.assertFalse(wittalen.compare(wide, narrow, table))
        with self.assertRaises(wittalen.InputError) as caught:
            wittalen.compare(wide, narrow, "\ncommand Report")
        self.assertEqual((caught.exception.kind, caught.exception.line), ("syntax", 2))
        with self.assertRaises(wittalen.InputError) as caught:
            wittalen.compare(wide, narrow, "avp Usage = Usage\n  xx Report = Report")
        self.assertEqual((caught.exception.line, caught.exception.column, str(caught.exception)), (2, 3, "2:3: syntax"))
        # one dictionary against itself
        self.assertTrue(wittalen.compare(wide, wide, table))


class Peers(unittest.TestCase):
    def ends(self, **more):
        first = Peer(Role.INITIATOR, "a.example.com", "example.com", [Application(4)], **more)
        second = Peer(Role.RESPONDER, "b.example.com", "example.com", [Application(1), Application(3, accounting=True), Application(4)])
        return first, second

    def test_connection(self):
        first, second = self.ends(addresses=["127.0.0.1", "::1"], identifiers=(7, 9))
        self.assertEqual(second.start(), [])
        (cer,) = first.start()
        self.assertEqual((cer[12:16], cer[16:20]), (bytes([0, 0, 0, 7]), bytes([0, 0, 0, 9])))
        (cea,) = second.receive(cer)
        self.assertEqual(first.receive(cea), [])
        self.assertEqual((first.state, second.state), (State.OPEN, State.OPEN))
        self.assertEqual((first.common, second.common), ([Application(4)], [Application(4)]))
        self.assertTrue(first.serves(4) and not first.serves(1))
        self.assertEqual(first.take_identifiers(), (8, 10))
        (dwr,) = first.tick()
        self.assertEqual((dwr[12:16], dwr[16:20]), (bytes([0, 0, 0, 9]), bytes([0, 0, 0, 11])))
        (dwa,) = second.receive(dwr)
        self.assertTrue(Dictionary().check(dwa))
        self.assertEqual(first.receive(dwa), [])
        (dpr,) = first.stop()
        dpa, why = second.receive(dpr)
        self.assertIs(why, Why.PEER_STOPPED)
        self.assertEqual(first.receive(dpa), [Why.STOPPED])

    def test_timers(self):
        first, second = self.ends()
        self.assertEqual(first.timer, Timer.OFF)
        second.start()
        (cer,) = first.start()
        self.assertEqual((first.timer, second.timer), (Timer.REPLY, Timer.REPLY))
        (cea,) = second.receive(cer)
        first.receive(cea)
        self.assertEqual((first.timer, second.timer), (Timer.QUIET, Timer.QUIET))
        first.start()
        self.assertEqual(first.timer, Timer.KEEP)
        first.stop()
        self.assertEqual(first.timer, Timer.REPLY)
        first.lost()
        self.assertEqual(first.timer, Timer.OFF)

    def test_relays(self):
        relay = Peer(Role.INITIATOR, "a.example.com", "example.com", [Application(wittalen.RELAY)], relays=True)
        other = Peer(Role.RESPONDER, "b.example.com", "example.com", [Application(4)], relays=True)
        other.start()
        (cer,) = relay.start()
        (cea,) = other.receive(cer)
        relay.receive(cea)
        self.assertEqual((relay.state, relay.common), (State.OPEN, [Application(4)]))

    def test_answers(self):
        spoiled = bytes.fromhex("0100001480000118000000000000000100000002")
        for answers in (False, True):
            second = Peer(Role.RESPONDER, "b.example.com", "example.org", [Application(4)], answers=answers)
            first = Peer(Role.INITIATOR, "a.example.com", "example.com", [Application(4)])
            second.start()
            (cer,) = first.start()
            second.receive(cer)
            *sent, why = second.receive(spoiled)
            self.assertEqual((why, len(sent)), (Why.INVALID, int(answers)))
            for answer in sent:
                self.assertEqual((answer[:1], answer[4:20]), (b"\x01", b"\x00" + spoiled[5:]))
                self.assertIn(b"fault 5005 at 20 missing Origin-Host", answer)

    def test_long_answer(self):
        # the state and Failed-AVP of the answer together are longer than all other messages of an end
        first = Peer(Role.INITIATOR, "a.example.com", "example.com", [Application(4)])
        second = Peer(Role.RESPONDER, "b.example.com", "example.org", [Application(4)], answers=True)
        second.start()
        (cer,) = first.start()
        second.receive(cer)
        unknown = bytes.fromhex("0000270f40") + (40_008).to_bytes(3, "big") + bytes(40_000)
        body = bytes.fromhex("000001084000000b612e6200000001284000000962000000") + unknown
        dwr = bytes([1]) + (20 + len(body)).to_bytes(3, "big") + bytes.fromhex("80000118000000000000000100000002") + body
        answer, why = second.receive(dwr)
        self.assertEqual(why, Why.INVALID)
        self.assertIn(unknown, answer)

    def test_life(self):
        first, second = (Peer(role, "a.example.com", "example.com", [Application(4)], life=True) for role in Role)
        second.start()
        (cer,) = first.start()
        (cea,) = second.receive(cer)
        first.receive(cea)
        first.tick()
        self.assertFalse(first.suspect)
        self.assertEqual((first.tick(), first.suspect), ([], True))
        first.heard()
        self.assertFalse(first.suspect)
        self.assertEqual((first.tick(), first.tick()), ([], [Why.WATCHDOG]))

    def test_values(self):
        first = Peer(Role.INITIATOR, "a.example.com", "example.com", [Application(4)], product="one", values=True)
        second = Peer(Role.RESPONDER, "b.example.com", "example.org", [Application(4)], product="two", values=True)
        second.start()
        self.assertEqual((second.host, second.result, second.cause), (None, None, None))
        (cer,) = first.start()
        (cea,) = second.receive(cer)
        first.receive(cea)
        self.assertEqual((second.host, second.realm, second.product), ("a.example.com", "example.com", "one"))
        self.assertEqual((first.host, first.realm, first.product, first.result), ("b.example.com", "example.org", "two", 2001))
        (dpr,) = first.stop(Cause.BUSY)
        second.receive(dpr)
        self.assertEqual(second.cause, Cause.BUSY)

    def test_refused(self):
        for title, words in (("host", ("", "example.com", [Application(4)])), ("applications", ("a", "b", []))):
            with self.assertRaisesRegex(ValueError, title):
                Peer(Role.INITIATOR, *words)
        with self.assertRaises(ValueError):
            Peer(Role.INITIATOR, "a", "b", [Application(1 << 32)])
        with self.assertRaises(ValueError):
            Peer((1 << 32) + 1, "a", "b", [Application(1)])

    def test_closed(self):
        peer = Peer(Role.RESPONDER, "a", "b", [Application(1)])
        peer.close()
        for ask in (peer.start, lambda: peer.state, lambda: peer.common, lambda: peer.serves(1)):
            with self.assertRaises(ValueError):
                ask()


class Numbers(unittest.TestCase):
    """The numbers are those of dia.h."""

    def numbers(self, first: str) -> dict:
        """The numbers of the enum of dia.h with this constant, by what its names have after their common beginning."""
        (body,) = [body for body in re.findall(r"enum \{([^}]*)\}", HEADER.read_text()) if f" {first} =" in body]
        found = {word: int(number) for word, number in re.findall(r"\b(DIA_\w+) = (\d+)", body)}
        common = os.path.commonprefix(list(found))
        return {word[common.rindex("_") + 1 :]: number for word, number in found.items()}

    def test_words(self):
        reasons = {word.upper().replace("-", "_"): number for number, word in enumerate(dictionaries.REASONS)}
        self.assertEqual(reasons, self.numbers("DIA_R_VERSION"))
        kinds = {dictionaries.kind_of(number) for number in self.numbers("DIA_NOT_TEXT").values()}
        self.assertTrue({"not text", "syntax", "limit", "duplicate-name", "no command"} < kinds)
        self.assertEqual(dictionaries.kind_of(99), "kind 99")
        self.assertEqual(list(range(len(dictionaries.FORMATS) + 1)), list(self.numbers("DIA_F_UNKNOWN").values()))

    def test_version(self):
        (version,) = re.findall(r"(?m)^Version: (.*)$", HEADER.with_name("dia.pc.in").read_text())
        self.assertEqual(wittalen.__version__, version)

    def test_enums(self):
        firsts = {
            Outcome: "DIA_VALID", Sends: "DIA_SENDS_ANY", Role: "DIA_INITIATOR", State: "DIA_STATE_IDLE", Why: "DIA_WHY_INVALID",
            Timer: "DIA_TIMER_OFF", wittalen.Class: "DIA_CLASS_REQUEST", wittalen.Flag: "DIA_PROXY_CLEAR",
        }  # fmt: skip
        for enum, first in firsts.items():
            self.assertEqual({member.name: member.value for member in enum}, self.numbers(first))
        self.assertEqual([cause.value for cause in wittalen.Cause], [0, 1, 2])


if __name__ == "__main__":
    unittest.main()
