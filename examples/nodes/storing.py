"""Storage as one process sees it: 'store these', 'stored' once the commit is confirmed, and at a restart 'storage has these'.

What is shown to the world cannot be taken back. It waits until storage has all determinants that the process logs: the others on which
it depends are stable, or more than f processes hold them.
"""
import nixu
from links import print_line


class Storing:
    def __init__(self, node, recording, links, number, given):
        self.node, self.recording, self.links, self.number = node, recording, links, number
        self.lane, self.each, self.broken = recording.lane, given["store_each"], given["broken"]
        self.delivered, self.to_show, self.request, self.count, self.parts, self.behind = 0, [], None, 0, {}, b""

    def show(self, text):
        self.to_show.append(text)

    def store(self):
        """One request at a time: what comes meanwhile is in the next one."""
        if self.request is None and (self.to_show or self.delivered >= self.each):
            dets, shown, self.to_show, self.delivered = self.node.unstored(), self.to_show, [], 0
            self.count += 1
            lines = [f"store {self.number} {self.lane} {self.count} {self.node.state.clock}"]
            lines += ["{} {} {} {}".format(*det) for det in dets]
            self.request = self.count, "\n".join(lines).encode(), dets, shown
            if self.broken == "early_stored":  # a write behind: each request goes out with the next one
                self.behind, behind = self.request[1], self.behind
                if behind:
                    self.links.publish("store", behind)
            else:
                self.send_request()
            if not dets or self.broken == "early_stored":
                self.take_stored(self.count)

    def send_request(self):
        if self.request:
            self.links.publish("store", self.request[1])

    def take_stored(self, count):
        """The commit is confirmed: the lines, and only then what depends on them."""
        if self.request and self.request[0] == count:
            _, _, dets, shown = self.request
            self.request = None
            for det in dets:
                self.recording.write(self.node.stored(det))
            self.recording.write(self.node.forget())
            for text in shown:
                print_line(text)

    def read(self, name, view):
        """Storage refuses from then on what comes from lanes below the view."""
        self.parts = {}
        numbers = b"".join(number.to_bytes(4, "big") for number in view)
        self.links.publish("store", f"read {self.number} {name} {numbers.hex()}".encode())

    def take_part(self, name, clock, part, parts, rows, lines):
        """Storage has these: a part of its reply of so many rows. Who reads records that they are stable: who has stored them may have
        been killed before it did."""
        for line in lines:
            det = nixu.Determinant(*map(int, line.split()))
            self.recording.write(self.node.stored(det, max(clock, self.node.state.clock) + 1))
        self.parts.setdefault(rows, set()).add(part)  # replies to two questions are of one set only if it has not grown
        if len(self.parts[rows]) == parts:
            self.node.finish_read(name)

    def handle(self, data, name):
        """`name` is that of the present round."""
        head, *lines = data.decode().splitlines()
        word, *numbers = head.split()
        numbers = [int(number) for number in numbers]
        stage = self.node.state.stage
        if word == "stored" and numbers[0] == self.lane and stage == nixu.Stage.Up:
            self.take_stored(numbers[1])
        elif word == "has" and numbers[0] == name and stage == nixu.Stage.Reading:
            self.take_part(*numbers, lines)
