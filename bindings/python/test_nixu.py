"""Calls whose answers are worked out by hand: the tables of examples/README.md and of docs/FORMAT.md."""
import gc
import os
import threading
import unittest
import weakref

import nixu

EXAMPLES = os.path.join(os.path.dirname(os.path.abspath(__file__)), "..", "..", "examples")


def example(name: str) -> bytes:
    with open(os.path.join(EXAMPLES, name), "rb") as file:
        return file.read()


class Calls(unittest.TestCase):
    def test_an_orphan_is_told(self):
        self.assertEqual(nixu.audit(example("ring.jsonl"), 2), nixu.Orphan(6, 3, 6, 1, frozenset({1, 2}), 0))

    def test_too_many_down_are_told(self):
        told = nixu.audit(example("crashes.jsonl"), 1)
        self.assertIsInstance(told, nixu.Exceeded)
        self.assertEqual((told.instant, told.down), (8, {1, 2}))

    def test_several_numbers_of_faults_are_told_in_their_order(self):
        told = nixu.audit_each(example("ring.jsonl"), [2, 0, 1])
        self.assertEqual([type(one) for one in told], [nixu.Orphan, nixu.Accepted, nixu.Accepted])

    def test_no_number_of_faults_may_be_asked_for(self):
        self.assertEqual(nixu.audit_each(example("ring.jsonl"), []), [])

    def test_a_fault_is_told_by_each_call(self):
        for call in (nixu.audit, nixu.line, nixu.explain, nixu.draw):
            self.is_told(call, example("skipped.jsonl"), 0)
        self.is_told(nixu.audit_each, example("skipped.jsonl"), [0, 1])
        self.is_told(nixu.audit_each, example("skipped.jsonl"), [])

    def is_told(self, call, text, faults):
        with self.assertRaises(nixu.Fault) as raised:
            call(text, faults)
        self.assertEqual((raised.exception.line, raised.exception.kind), (2, nixu.FaultKind.WrongSsn))
        self.assertEqual(str(raised.exception), "line 2: the send sequence number is not the next one")

    def test_a_text_of_no_bytes_is_cut(self):
        with self.assertRaises(nixu.Fault) as raised:
            nixu.audit(b"", 0)
        self.assertEqual((raised.exception.line, raised.exception.kind), (1, nixu.FaultKind.Cut))

    def test_what_is_shown_is_what_stands_beside_the_examples(self):
        text = example("orphan.jsonl")
        self.assertEqual(nixu.line(text, 1), "orphan f=1 instant=4 delivery=1 crash=1 orphan=2\n")
        self.assertEqual(nixu.explain(text, 1).encode(), example("orphan.txt"))
        self.assertEqual(nixu.draw(text, 1).encode(), example("orphan.svg"))

    def test_a_number_of_faults_is_not_cut(self):
        for faults in (-1, 65_536, 65_537):
            for call in (nixu.audit, nixu.line):
                self.assertRaises(ValueError, call, example("ring.jsonl"), faults)
            self.assertRaises(ValueError, nixu.audit_each, example("ring.jsonl"), [faults])
        self.assertIsInstance(nixu.audit(example("ring.jsonl"), 65_535), nixu.Orphan)

    def raises(self, error, message, call, *given):
        with self.assertRaises(error) as raised:
            call(*given)
        self.assertEqual(str(raised.exception), message)

    def test_an_argument_of_a_wrong_type_is_named(self):
        text, trace, reader = example("ring.jsonl"), nixu.Trace(3), nixu.Reader()
        det = nixu.Determinant(0, 0, 1, "0")
        for call in (nixu.audit, nixu.line, nixu.explain, nixu.draw):
            self.raises(TypeError, "text must be bytes, not str", call, "hello", 1)
            self.raises(TypeError, "faults must be an int, not str", call, text, "1")
        self.raises(TypeError, "text must be bytes, not str", nixu.audit_each, "hello", [1])
        self.raises(TypeError, "faults must be a sequence of ints, not int", nixu.audit_each, text, 1)
        self.raises(TypeError, "faults[1] must be an int, not NoneType", nixu.audit_each, text, [1, None])
        self.raises(TypeError, "processes must be an int, not str", nixu.Trace, "3")
        self.raises(TypeError, "entries must be an int, not float", nixu.Reader, 1e6)
        self.raises(TypeError, "piece must be bytes, not str", reader.feed, "[")
        self.raises(TypeError, "faults must be an int, not list", reader.finish, [1])
        self.raises(TypeError, "faults must be an int, not str", trace.audit, "1")
        for message, entry in {
            "Send.ssn must be an int, not str": nixu.Send(0, 1, ssn="x"),
            "Deliver.listed must be a sequence of Determinants, not int": nixu.Deliver(1, 0, 0, 7),
            "Restart.listed[0] must be a Determinant, not int": nixu.Restart(1, [7]),
            "Forget.listed[0].rsn must be an int, not str": nixu.Forget(1, [det]),
            "Stable.determinant.rsn must be an int, not str": nixu.Stable(det),
            "entry must be a Send, Deliver, Stable, Crash, Restart or Forget, not tuple": (0, 1, 0),
        }.items():
            self.raises(TypeError, message, trace.push, entry)
        self.assertEqual((trace.text(), reader.feed(text)), ('["trace",1,3]\n["end",0]\n', None))

    def test_an_argument_out_of_range_is_named(self):
        trace = nixu.Trace(3)
        self.raises(ValueError, "faults must be from 0 to 65535, not 65536", nixu.audit, b"", 65_536)
        self.raises(ValueError, "processes must be from 1 to 256, not 257", nixu.Trace, 257)
        self.raises(ValueError, "entries must be from 1 to 16777216, not 0", nixu.Reader, 0)
        self.raises(ValueError, "Crash.who must be from 0 to 255, not 256", trace.push, nixu.Crash(256))
        self.raises(ValueError, "Send.ssn must be from 0 to 4294967295, not -1", trace.push, nixu.Send(0, 1, -1))

    def test_a_closed_handle_is_named(self):
        trace, reader = nixu.Trace(3), nixu.Reader()
        for handle in (trace, reader):
            handle.close()
            handle.close()
        for call, given in ((trace.push, [nixu.Crash(0)]), (trace.audit, [1]), (trace.text, [])):
            self.raises(RuntimeError, "the Trace is closed", call, *given)
        for call, given in ((reader.feed, [b""]), (reader.finish, [1]), (reader.finish_each, [[]])):
            self.raises(RuntimeError, "the Reader is closed", call, *given)

    def test_each_fault_has_a_sentence_of_its_own(self):
        self.assertEqual(len({kind.sentence for kind in nixu.FaultKind}), 20)

    def test_a_reader_stands_for_all_that_it_was_fed(self):
        with nixu.Reader() as reader:
            for byte in example("ring.jsonl"):
                reader.feed(bytes([byte]))
            told = reader.finish_each([2, 1])
        self.assertEqual(told, [nixu.Orphan(6, 3, 6, 1, frozenset({1, 2}), 0), nixu.Accepted(6, 3)])

    def test_a_reader_tells_a_fault_at_its_line_and_is_closed_then(self):
        head, line, _ = example("skipped.jsonl").split(b"\n", 2)
        reader = nixu.Reader()
        reader.feed(head + b"\n" + line)
        with self.assertRaises(nixu.Fault) as raised:
            reader.feed(b"\n")
        self.assertEqual((raised.exception.line, raised.exception.kind), (2, nixu.FaultKind.WrongSsn))
        self.assertRaises(RuntimeError, reader.feed, b"")
        self.assertRaises(RuntimeError, reader.finish, 0)
        reader.close()

    def test_a_text_that_does_not_end_is_cut(self):
        with self.assertRaises(nixu.Fault) as raised:
            nixu.Reader().finish(0)
        self.assertEqual((raised.exception.line, raised.exception.kind), (1, nixu.FaultKind.Cut))

    def orphaned(self):
        """The entries of orphan.jsonl."""
        trace = nixu.Trace(3)
        trace.push(nixu.Send(0, 1, 0))
        trace.push(nixu.Deliver(1, 0, 0, [nixu.Determinant(0, 0, 1, 0)]))
        trace.push(nixu.Send(1, 2, 0))
        trace.push(nixu.Deliver(2, 2, 0, [nixu.Determinant(1, 0, 2, 0)]))
        return trace

    def test_a_trace_is_that_of_its_entries(self):
        with self.orphaned() as trace:
            self.assertEqual(trace.audit(1), nixu.Orphan(4, 2, 4, 1, frozenset({1}), 2))
            self.assertEqual(trace.text().encode(), example("orphan.jsonl"))
        self.assertRaises(RuntimeError, trace.text)

    def test_what_stands_against_an_entry_is_told(self):
        trace = self.orphaned()
        refused = {nixu.Crash(3): "NoProcess", nixu.Send(0, 1, 0): "WrongSsn", nixu.Restart(0): "NotDown"}
        for entry, name in refused.items():
            with self.assertRaises(nixu.Refused) as raised:
                trace.push(entry)
            self.assertEqual(raised.exception.kind, nixu.FaultKind[name])
        self.assertRaises(ValueError, trace.push, nixu.Crash(256))
        self.assertEqual(trace.text().encode(), example("orphan.jsonl"))

    def test_a_trace_has_1_to_256_processes(self):
        for processes in (-1, 0, 257, 65_537):
            self.assertRaises(ValueError, nixu.Trace, processes)
        self.assertEqual(nixu.Trace(256).text(), '["trace",2,256]\n["end",0]\n')

    def test_a_trace_has_as_many_entries_as_it_may(self):
        two = b'["trace",1,2]\n["send",0,1,0]\n["send",0,1,1]\n["end",2]\n'
        reader, trace = nixu.Reader(entries=1), nixu.Trace(2, entries=1)
        with self.assertRaises(nixu.Fault) as raised:
            reader.feed(two)
        self.assertEqual((raised.exception.line, raised.exception.kind), (3, nixu.FaultKind.TooLong))
        trace.push(nixu.Send(0, 1, 0))
        with self.assertRaises(nixu.Refused) as raised:
            trace.push(nixu.Send(0, 1, 1))
        self.assertEqual(raised.exception.kind, nixu.FaultKind.TooLong)
        for entries in (2, nixu.MOST_ENTRIES):
            reader = nixu.Reader(entries)
            reader.feed(two)
            self.assertEqual(reader.finish(0), nixu.Accepted(2, 0))

    def test_a_trace_has_1_to_16777216_entries(self):
        for entries in (-1, 0, nixu.MOST_ENTRIES + 1, 2**32 + 1):
            self.assertRaises(ValueError, nixu.Reader, entries)
            self.assertRaises(ValueError, nixu.Trace, 2, entries)

    def test_a_stray_is_told(self):
        text = (
            b'["trace",2,3]\n["send",0,1,0]\n["send",2,1,0]\n["deliver",1,0,0,[[0,0,1,0]]]\n["send",1,2,0]\n'
            b'["deliver",2,3,0,[[0,0,1,0],[1,0,2,0]]]\n["crash",1]\n["restart",1,[]]\n'
            b'["deliver",1,1,0,[[2,0,1,0]]]\n["end",8]\n'
        )
        self.assertEqual(nixu.replays(text), nixu.Stray(instant=8, process=1, rsn=0, first=2, second=7))
        self.assertIsNone(nixu.replays(example("ring.jsonl")))
        self.assertIsNone(self.orphaned().replays())
        self.is_told(lambda text, _: nixu.replays(text), example("skipped.jsonl"), 0)
        self.raises(TypeError, "text must be bytes, not str", nixu.replays, "hello")
        trace = nixu.Trace(3)
        trace.close()
        self.raises(RuntimeError, "the Trace is closed", trace.replays)

    def test_an_orphan_is_explained(self):
        told = nixu.explanation(example("forgotten.jsonl"), faults=1)
        events = [(1, 1), (1, 2), (2, 3), (2, 4), (0, 5)]
        forgets = nixu.EntryKind.Forget
        wanted = nixu.Breach(
            determinant=nixu.Determinant(source=0, ssn=0, dest=1, rsn=0),
            cause=nixu.Cause(process=1, entry=6, by=forgets, send=None),
            holders=(nixu.Event(process=2, entry=3),),
            losses=(nixu.Loss(process=1, entry=6, by=forgets),),
            down=(),
            chain=tuple(nixu.Event(process, entry) for process, entry in events),
            unlisted=nixu.Arrival(process=0, entry=5, send=4),
            underway=None,
        )
        self.assertEqual(told, nixu.Explanation(nixu.Orphan(7, 3, 7, 1, frozenset({2}), 0), wanted, None))

    def test_a_determinant_in_transit_is_explained(self):
        reason = nixu.explanation(example("transit.jsonl"), 1).reason
        self.assertEqual(reason.cause, nixu.Cause(2, 4, nixu.EntryKind.Deliver, send=3))
        self.assertEqual(reason.underway, nixu.Arrival(process=3, entry=5, send=2))

    def test_an_excess_and_an_accepted_run_are_explained(self):
        cause = nixu.Cause(process=2, entry=7, by=nixu.EntryKind.Crash, send=None)
        wanted = nixu.Excess(cause, (nixu.Event(1, 6), nixu.Event(2, 7)))
        self.assertEqual(nixu.explanation(example("crashes.jsonl"), 1).reason, wanted)
        closest = nixu.Closest(faults=2, delivery=1, instant=6, orphan=0)
        self.assertEqual(nixu.explanation(example("ring.jsonl"), 0).reason, nixu.Margin(closest))

    def test_a_stray_is_explained(self):
        told = nixu.explanation(example("strayed.jsonl"), 1)
        first, second = nixu.Copies(2, (nixu.Event(2, 4),), False), nixu.Copies(7, (nixu.Event(1, 7),), False)
        self.assertEqual(told.straying, nixu.Straying(nixu.Stray(8, 1, 0, 2, 7), first, second))
        self.assertEqual(told.reason, nixu.Margin(None))

    def test_more_facts_than_there_was_room_for(self):
        trace = nixu.Trace(256)
        for who in range(100):
            trace.push(nixu.Crash(who))
        self.assertEqual(trace.explanation(99).reason.down, tuple(nixu.Event(who, who) for who in range(100)))

    def test_open_handles_explain_what_they_have(self):
        text, reader, trace = example("orphan.jsonl"), nixu.Reader(), self.orphaned()
        wanted = nixu.explanation(text, 1)
        self.assertEqual(trace.explanation(1), wanted)
        self.raises(ValueError, "the header line is not complete yet", reader.explanation, 1)
        reader.feed(text[:-1])
        self.assertEqual(reader.explanation(1), wanted)
        reader.feed(b"\n")
        self.assertEqual(reader.explanation(1), wanted)
        self.assertEqual(reader.finish(1), wanted.verdict)
        trace.close()
        self.raises(RuntimeError, "the Reader is closed", reader.explanation, 1)
        self.raises(RuntimeError, "the Trace is closed", trace.explanation, 1)

    def test_wrong_arguments_of_explanations_are_named(self):
        text, trace, reader = example("ring.jsonl"), nixu.Trace(3), nixu.Reader()
        self.is_told(nixu.explanation, example("skipped.jsonl"), 0)
        self.raises(TypeError, "text must be bytes, not str", nixu.explanation, "hello", 1)
        self.raises(TypeError, "faults must be an int, not str", nixu.explanation, text, "1")
        for handle in (trace, reader):
            self.raises(TypeError, "faults must be an int, not NoneType", handle.explanation, None)
            self.raises(ValueError, "faults must be from 0 to 65535, not -1", handle.explanation, -1)

    FIRST = b'["recording",0,1,2,4711]\n["send",0,1764118000000001,1,0]\n'
    HEADER = b'["recording",1,1,2,4711]\n'
    SECOND = HEADER + b'["deliver",1,1764118000000002,0,0,0,0,[[0,0,1,0]]]\n'

    def test_recordings_are_merged(self):
        wanted = b'["trace",1,2]\n["send",0,1,0]\n["deliver",1,0,0,[[0,0,1,0]]]\n["end",2]\n'
        self.assertEqual(nixu.merge([self.FIRST, self.SECOND]), wanted)
        self.assertEqual(nixu.merge((self.SECOND, b"", self.FIRST), entries=2), wanted)
        self.assertEqual(nixu.audit(wanted, 1), nixu.Accepted(2, 1))

    def unmerged(self, *recordings):
        with self.assertRaises(nixu.MergeFault) as raised:
            nixu.merge(recordings)
        fault = raised.exception
        return fault, (fault.kind.name, fault.recording, fault.line)

    def test_the_first_fault_of_recordings_is_told(self):
        fault, place = self.unmerged(self.FIRST)
        self.assertEqual((place, fault.missing), (("NoHeader", 0, 3), {1}))
        fault, place = self.unmerged()
        self.assertEqual((place, fault.missing), (("NoHeader", 0, 1), frozenset()))
        self.assertEqual(self.unmerged(self.FIRST, self.SECOND, self.FIRST)[1], ("Twice", 2, 2))
        event = b'["deliver",1,1764118000000002,0,0,%d,%d,%s]\n'
        fault, place = self.unmerged(self.FIRST, self.HEADER + event % (0, 7, b"[]"))
        self.assertEqual((place, fault.process, fault.given, fault.next), (("WrongRsn", 1, 2), 1, 7, 0))
        self.assertEqual(str(fault), "line 2 of recording 1: the receive sequence number is not the next one")
        self.assertEqual((fault.source, fault.ssn, fault.lane, fault.determinant), (None, None, None, None))
        fault, place = self.unmerged(self.FIRST, self.HEADER + event % (3, 0, b"[]"))
        self.assertEqual((place, fault.process, fault.source, fault.lane, fault.ssn), (("NoSend", 1, 2), 1, 0, 0, 3))
        fault, place = self.unmerged(self.FIRST, self.HEADER + event % (0, 0, b"[[0,9,1,0]]"))
        self.assertEqual((place, fault.determinant), (("NoDelivery", 1, 2), nixu.Determinant(0, 9, 1, 0)))
        self.assertEqual(self.unmerged(self.FIRST, b"no line\n")[1], ("Syntax", 1, 1))
        self.assertEqual(len({kind.sentence for kind in nixu.MergeFaultKind}), len(nixu.MergeFaultKind))

    def test_wrong_arguments_of_merge_are_named(self):
        for given in (self.FIRST, "hello", 7, None):
            wanted = f"recordings must be a sequence of bytes, not {type(given).__name__}"
            self.raises(TypeError, wanted, nixu.merge, given)
        self.raises(TypeError, "recordings[1] must be bytes, not str", nixu.merge, [self.FIRST, "hello"])
        self.raises(TypeError, "entries must be an int, not str", nixu.merge, [self.FIRST], "9")
        for entries in (0, nixu.MOST_ENTRIES + 1):
            self.raises(ValueError, f"entries must be from 1 to 16777216, not {entries}", nixu.merge, [self.FIRST], entries)

    def test_threads_may_call_side_by_side(self):
        text, wrong = example("ring.jsonl"), []
        wanted = nixu.explain(text, 2)

        def ask():
            wrong.extend(0 for _ in range(100) if nixu.explain(text, 2) != wanted)

        threads = [threading.Thread(target=ask) for _ in range(4)]
        for thread in threads:
            thread.start()
        for thread in threads:
            thread.join()
        self.assertEqual(wrong, [])

    def in_a_thread(self, call):
        """What a call gives or raises in another thread."""
        told = []

        def ask():
            try:
                told.append(call())
            except Exception as error:
                told.append(error)

        thread = threading.Thread(target=ask)
        thread.start()
        thread.join()
        return told[0]

    def test_a_second_thread_in_a_handle_is_refused_and_changes_nothing(self):
        reader, trace = nixu.Reader(), self.orphaned()
        calls = [lambda: reader.feed(b"["), lambda: reader.finish(1), reader.close]
        calls += [lambda: trace.push(nixu.Crash(0)), lambda: trace.audit(1), trace.text, trace.close]
        with reader._alone(), trace._alone():
            for call in calls:
                self.assertIsInstance(self.in_a_thread(call), RuntimeError)
        reader.feed(example("ring.jsonl"))
        self.assertEqual(self.in_a_thread(lambda: reader.finish(1)), nixu.Accepted(6, 3))
        self.assertEqual(self.in_a_thread(trace.text).encode(), example("orphan.jsonl"))

    def test_threads_in_one_handle_are_answered_or_refused(self):
        trace, told = self.orphaned(), []
        verdict = trace.audit(1)

        def ask():
            for _ in range(200):
                try:
                    told.append(trace.audit(1))
                except RuntimeError:
                    told.append(None)

        threads = [threading.Thread(target=ask) for _ in range(4)]
        for thread in threads:
            thread.start()
        for thread in threads:
            thread.join()
        self.assertEqual(len(told), 800)
        self.assertEqual({verdict}, set(told) - {None})
        self.assertEqual(trace.text().encode(), example("orphan.jsonl"))

    def closed_by_the_collector(self, opened):
        """The thread in which the collector closes a handle that only a cycle still has, and the thread in which it ran."""
        closed, close = [], opened._closing

        def closing(handle):
            closed.append((threading.get_ident(), handle.full))
            close(handle)
            closed.append((threading.get_ident(), handle.full))

        opened._closing, opened.itself = closing, opened
        alive = weakref.ref(opened)
        del opened

        def collect():
            gc.collect()
            return threading.get_ident()

        where = self.in_a_thread(collect)
        self.assertIsNone(alive())
        return closed, where

    def test_the_collector_closes_in_its_own_thread(self):
        gc.disable()
        try:
            for make in (nixu.Reader, lambda: nixu.Trace(2)):
                closed, where = self.closed_by_the_collector(make())
                self.assertEqual(closed, [(where, 1), (where, 0)])
                self.assertNotEqual(where, threading.get_ident())
        finally:
            gc.enable()

    def test_what_could_not_be_made_is_collected(self):
        for make in (lambda: nixu.Reader(0), lambda: nixu.Trace(2, 0), lambda: nixu.Trace(-1)):
            self.assertRaises(ValueError, make)
        nixu.Reader.__new__(nixu.Reader).__del__()


if __name__ == "__main__":
    unittest.main()
