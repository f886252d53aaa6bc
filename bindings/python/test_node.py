"""Nodes: bytes that docs/WIRE.md has by hand, lines that docs/MERGING.md has, a recovery, and refusals."""
import gc
import threading
import unittest
import weakref

import nixu
from nixu import Determinant, NodeFaultKind, Stage

RUN = 0x0102030405060708
OF_RUN = bytes([1, 2, 3, 4, 5, 6, 7, 8, 0, 3, 0, 1])  # the id of the run, three processes, one failure


def number(value, width):
    return value.to_bytes(width, "big")


def head(kind, source, dest, lane, clock):
    return bytes([1, kind]) + OF_RUN + bytes([source, dest]) + number(lane, 4) + number(clock, 8)


# The first message of process 0, to process 1, at clock 1000, with the body 7. It carries nothing.
FIRST = head(0, 0, 1, 0, 1000) + number(0, 4) + number(0, 4) + number(1, 4) + b"\x07"
# The item of the determinant (0, 0, 1, 0) of which nobody but the source is known to hold it, and of (1, 0, 2, 0).
DELIVERED, NEXT = b"\0" + number(0, 4) + b"\x01" + number(0, 4) + b"\0", b"\x01" + number(0, 4) + b"\x02" + number(0, 4) + b"\0"
# The first message of process 1, to process 2, at clock 1005. It carries that process 1 delivered the first one.
SECOND = head(0, 1, 2, 0, 1005) + number(0, 4) + number(1, 4) + DELIVERED + number(0, 4)
# Process 1, whose next lane is 1, asks process 2 in round 7, at clock 2000.
QUESTION = head(2, 1, 2, 1, 2000) + number(7, 8) + number(0, 4) + number(1, 4) + number(0, 4)
# Process 2 replies at clock 2001: it logs both deliveries, and knows that process 1 held the first one.
ANSWER = head(3, 2, 1, 0, 2001) + number(7, 8) + number(2, 4) + DELIVERED[:-1] + b"\x01\x01" + b"\0" + NEXT + b"\0"


def node(me, lane=0, clock=0):
    return nixu.Node(process=me, processes=3, faults=1, run=RUN, lane=lane, clock=clock, seed=5)


class Nodes(unittest.TestCase):
    def refuses(self, name, call, *given):
        with self.assertRaises(nixu.NodeFault) as raised:
            call(*given)
        self.assertEqual((raised.exception.kind, raised.exception.number), (NodeFaultKind[name], NodeFaultKind[name].value))
        self.assertEqual(str(raised.exception), NodeFaultKind[name].sentence)

    def raises(self, error, message, call, *given):
        with self.assertRaises(error) as raised:
            call(*given)
        self.assertEqual(str(raised.exception), message)

    def test_a_message_is_sent_and_delivered(self):
        zero, one = node(0), node(1)
        self.assertEqual(zero.header, b'["recording",0,1,3,72623859790382856]\n')
        self.assertEqual(zero.send(1, b"\x07", 1000), nixu.Sent(0, 1000, b'["send",0,1000,1,0]\n', FIRST))
        line = b'["deliver",1,1001,0,0,0,0,[[0,0,1,0]]]\n'
        listed = (Determinant(0, 0, 1, 0),)
        self.assertEqual(one.receive(FIRST, 900), nixu.Message(0, 0, 0, 0, 1001, line, b"\x07", listed))
        self.assertEqual(one.send(2, b"", 1005).parcel, SECOND)

    def test_a_process_recovers_what_another_one_logs(self):
        zero, two, again = node(0), node(2), node(1, 1, 1005)
        self.assertEqual(two.receive(SECOND, 1100).line, b'["deliver",2,1100,1,0,0,0,[[0,0,1,0],[1,0,2,0]]]\n')
        self.assertEqual(again.state, nixu.NodeState(1005, 0, Stage.Down, 1, 0, 0, 0))
        again.begin_round(7)
        self.assertEqual((again.state.round, again.state.stage, again.awaited), (7, Stage.Gathering, {0, 2}))
        self.assertEqual((again.view, two.view), ((0, 1, 0), (0, 0, 0)))
        self.assertEqual(again.question(2, 2000), QUESTION)
        self.assertEqual(two.receive(QUESTION, 1500), nixu.Question(1, ANSWER))
        self.assertEqual(two.view, (0, 1, 0))
        self.assertEqual(again.receive(ANSWER, 0), nixu.Log(2))
        self.assertEqual(again.awaited, {0})
        self.refuses("Unasked", again.receive, ANSWER)
        self.refuses("Waiting", again.restart)
        self.refuses("Waiting", again.stored, Determinant(0, 0, 1, 0))
        reply = zero.receive(again.question(0, 2000), 0)
        self.assertEqual(again.receive(reply.parcel, 0), nixu.Log(0))
        self.assertEqual(again.state.stage, Stage.Reading)
        self.refuses("Unasked", again.finish_read, 8)
        again.finish_read(7)
        self.assertEqual(again.state.stage, Stage.Ready)
        self.assertEqual(again.restart(2100), b'["restart",1,2100,[[0,0,1,0],[1,0,2,0]]]\n')
        self.assertEqual(again.due, nixu.MessageName(0, 0))
        self.assertEqual(again.receive(FIRST, 2200).line, b'["deliver",1,2200,0,0,0,0,[[0,0,1,0]]]\n')
        self.assertIsNone(again.due)
        self.refuses("OldLane", two.receive, SECOND)

    def test_the_starter_may_reply_for_who_has_ended(self):
        again = node(1, 1, 1005)
        again.begin_round(7)
        again.take_ended(7, 0, 0)
        self.assertEqual(again.awaited, {2})
        again.take_ended(7, 2, 3)  # another number than that of the view: the round is given up
        self.assertEqual((again.state.stage, again.view), (Stage.Down, (0, 1, 3)))
        self.refuses("NoRound", again.question, 2)

    def test_two_that_recover_reply_in_turn(self):
        one, two = node(1, 1), node(2, 1)
        for it, name in ((one, 7), (two, 8)):
            it.begin_round(name)
        result = two.receive(one.question(2))  # the lesser goes first; the greater one did not know its number
        self.assertIsInstance(one.receive(result.parcel), nixu.Number)
        one.begin_round(9)
        result = two.receive(one.question(2))
        self.assertEqual((one.receive(result.parcel), two.state.stage), (nixu.NotUp(2), Stage.Down))
        self.assertEqual(one.awaited, {0})
        two.begin_round(10)
        two.receive(one.receive(two.question(1)).parcel)
        two.begin_round(11)
        self.refuses("NotYet", one.receive, two.question(1))
        self.assertTrue(NodeFaultKind.NotYet.is_later)

    def test_what_is_stored_is_forgotten(self):
        one = node(1)
        one.receive(FIRST, 1000)
        self.assertEqual((one.unstored(), one.state.logged), ([(0, 0, 1, 0)], 1))
        self.assertEqual(one.forget(1500), b"")
        self.assertEqual(one.stored(Determinant(0, 0, 1, 0), 2000), b'["stable",1,2000,[0,0,1,0]]\n')
        self.assertEqual((one.unstored(), one.state.logged), ([], 1))
        self.assertEqual(one.forget(3000), b'["forget",1,3000,[[0,0,1,0]]]\n')
        self.assertEqual(one.state.logged, 0)
        self.assertEqual(one.send(2, b"", 4000).parcel, head(0, 1, 2, 0, 4000) + bytes(12))

    def test_an_acknowledgement_spares_what_a_message_carries(self):
        one, two = node(1), node(2)
        one.receive(FIRST, 1000)
        got = two.receive(one.send(2, b"", 1005).parcel, 1100)
        self.assertEqual(one.receive(two.acknowledge(1, got.listed, 1200)), nixu.Acknowledgement(2))
        self.assertEqual(len(one.send(2, b"").parcel), 40)
        self.raises(ValueError, "listed must ascend", two.acknowledge, 1, got.listed[::-1])

    def test_a_message_is_sent_again_as_it_was(self):
        zero = node(0)
        zero.send(1, b"\x07", 1000)
        zero.send(2, b"", 1001)
        self.assertEqual(zero.resend(0), nixu.Resent(1, FIRST[:20] + number(1001, 8) + FIRST[28:]))
        self.assertEqual(zero.resend(1).to, 2)
        self.assertIsNone(zero.resend(2))

    def test_refusals_change_nothing(self):
        one = node(1)
        one.receive(FIRST, 1000)
        before = one.state
        self.refuses("Duplicate", one.receive, FIRST)
        self.refuses("WireShort", one.receive, FIRST[:-1])
        self.refuses("WireVersion", one.receive, b"\x02" + FIRST[1:])
        self.refuses("WireRun", one.receive, FIRST[:9] + b"\0" + FIRST[10:])
        self.refuses("WireTrailing", one.receive, FIRST + b"\0")
        self.refuses("NotMine", one.receive, SECOND)
        self.refuses("NoProcess", one.send, 3, b"")
        self.refuses("Clock", one.send, 2, b"", 2**62)
        self.refuses("Up", one.begin_round, 1)
        self.refuses("NotUp", node(1, 1).send, 2, b"")
        self.refuses("NoRound", node(1, 1).restart)
        self.refuses("Clock", node, 1, 0, 2**62)
        self.assertEqual(one.state, before)

    def test_a_message_out_of_turn_is_later(self):
        zero, again = node(0), node(1, 1, 1005)
        sent = [zero.send(1, b"", 1000), zero.send(1, b"", 1001)]
        self.refuses("NotUp", again.receive, sent[0].parcel)
        again.begin_round(7)
        for other in (0, 2):
            again.take_ended(7, other, 0)
        for det in ((0, 1, 1, 0), (0, 0, 1, 2)):
            again.stored(Determinant(*det))
        again.finish_read(7)
        again.restart()
        self.refuses("MustReplay", again.receive, sent[0].parcel)
        self.assertEqual(again.receive(sent[1].parcel).ssn, 1)
        self.refuses("Reserved", again.receive, sent[0].parcel)
        later = {kind.name for kind in NodeFaultKind if kind.is_later}
        self.assertEqual(later, {"NotUp", "MustReplay", "Reserved", "NotYet"})

    def test_the_line_of_a_crash(self):
        self.assertEqual(nixu.crash_line(1, 2000), b'["crash",1,2000]\n')

    def test_a_long_body_comes_whole(self):
        zero, one, body = node(0), node(1), bytes(range(256)) * 1000
        self.assertEqual(one.receive(zero.send(1, body).parcel).body, body)

    def test_each_refusal_has_a_sentence(self):
        self.assertEqual(NodeFaultKind.Duplicate.sentence, "the message has been delivered")
        self.assertEqual(len({kind.sentence for kind in NodeFaultKind} - {""}), 26)
        self.assertEqual(NodeFaultKind.WireClock.sentence, NodeFaultKind.Clock.sentence)

    def test_arguments_are_checked(self):
        one = node(1)
        self.raises(TypeError, "body must be bytes, not str", one.send, 2, "hello")
        self.raises(TypeError, "parcel must be bytes, not str", one.receive, "hello")
        self.raises(TypeError, "now must be an int, not float", one.forget, 1.5)
        self.raises(ValueError, "to must be from 0 to 255, not 256", one.send, 256, b"")
        self.raises(ValueError, "ssn must be from 0 to 4294967295, not -1", one.resend, -1)
        self.raises(TypeError, "determinant must be a Determinant, not int", one.stored, 7)
        self.raises(TypeError, "listed[0] must be a Determinant, not int", one.acknowledge, 2, [7])
        self.raises(ValueError, "processes must be from 1 to 256, not 257", lambda: nixu.Node(process=0, processes=257, faults=1, run=1))
        self.refuses("NoProcess", lambda: nixu.Node(process=3, processes=3, faults=1, run=1))

    def test_a_closed_node_is_named(self):
        with node(0) as closed:
            pass
        closed.close()
        calls = [lambda: closed.send(1, b""), lambda: closed.receive(FIRST), lambda: closed.header, lambda: closed.state]
        calls += [lambda: closed.due, lambda: closed.resend(0), closed.unstored, closed.forget]
        calls += [lambda: closed.awaited, lambda: closed.view]
        for call in calls:
            self.raises(RuntimeError, "the Node is closed", call)

    def test_an_interrupted_call_closes_the_node(self):
        interrupted = node(0)

        def interrupt(*_):
            raise KeyboardInterrupt

        interrupted._bytes = interrupt
        self.assertRaises(KeyboardInterrupt, interrupted.send, 1, b"")
        self.raises(RuntimeError, "the Node is closed", interrupted.send, 1, b"")

    def test_a_second_thread_in_a_node_is_refused_and_changes_nothing(self):
        one, result = node(1), []
        before = one.state

        def ask():
            for call in (lambda: one.receive(FIRST), lambda: one.send(0, b""), lambda: one.state, one.close):
                try:
                    result.append(call())
                except RuntimeError as error:
                    result.append(str(error))

        with one._alone():
            thread = threading.Thread(target=ask)
            thread.start()
            thread.join()
        self.assertEqual(result, ["another call uses the Node"] * 4)
        self.assertEqual(one.state, before)

    def test_the_collector_closes_in_its_own_thread(self):
        gc.disable()
        self.addCleanup(gc.enable)
        opened, closed = node(0), []
        close = opened._closing

        def closing(handle):
            closed.append((threading.get_ident(), handle.full))
            close(handle)
            closed.append((threading.get_ident(), handle.full))

        opened._closing, opened.itself = closing, opened
        alive = weakref.ref(opened)
        del opened
        where = []
        thread = threading.Thread(target=lambda: where.extend((threading.get_ident(), gc.collect())))
        thread.start()
        thread.join()
        self.assertIsNone(alive())
        self.assertEqual(closed, [(where[0], 1), (where[0], 0)])
        self.assertRaises(ValueError, lambda: nixu.Node(process=0, processes=0, faults=1, run=1))
        nixu.Node.__new__(nixu.Node).__del__()


if __name__ == "__main__":
    unittest.main()
