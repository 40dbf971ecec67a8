"""The session that a workload's script gives, with the replies that the bench gives where each act is taken: so that a
workload can be longer than a script may be."""
import json

VERSION = 2
# The greatest that a bench takes: acts, entries of a node, its clock, messages of a node.
LIMITS = [1_000_000, 100_000, 1_000_000_000, 100_000]
SENDS = {"broadcast", "extract", "request", "answer"}
DELIVERS = {"deliver", "answer"}


class NoSession(Exception):
    """Why a script has no session in which each act is taken."""


class Recorder:
    """The calls of a script so far, and of each remaining step its node, the message that it sent, and the one that it
    delivered, each as sender and number."""

    def __init__(self):
        self.nodes, self.actors, self.events, self.remaining, self.given, self.sent = [], [], [], {}, 0, {}
        self.last = {}

    def record(self, actor, act, reply):
        self.events.append([self.actors.index(actor), act, reply])
        if len(self.events) + len(self.remaining) > LIMITS[0]:
            raise NoSession("no session can hold it")

    def take(self, line):
        """Records the calls of a line."""
        first, *words = line.split(" ")
        if first == "nodes":
            self.nodes = self.actors = words
            self.sent = dict.fromkeys(words, 0)
            self.last = {node: [] for node in words}
        elif first == "consoles":
            self.actors = self.nodes + words
        elif words[0] == "undo":
            self.undo(first, int(words[1]))
        elif words[0] == "back":
            number = self.last[words[1]][-1]
            self.remove(number)
            self.record(first, ["back", self.nodes.index(words[1])], ["undone", number])
        elif words[0] == "unwind":
            for number in reversed(self.future(int(words[1]))):
                self.undo(first, number)
        else:
            self.step(first, *words)

    def operands(self, verb, words):
        """What a session tells of a step beside its verb."""
        if verb in ("join", "leave", "leaveall", "update"):
            return [int(words[0]), *words[1:]]
        if verb in DELIVERS:
            return [self.nodes.index(words[0]), int(words[1])]
        nodes = [self.nodes.index(it) for it in words]
        return [sorted(nodes)] if verb == "extract" else nodes

    def step(self, node, verb, *words):
        """Records a step of a node."""
        self.given += 1
        sent = None
        if verb in SENDS:
            self.sent[node] += 1
            sent = (node, self.sent[node])
            if self.sent[node] > LIMITS[3]:
                raise NoSession("no outbox can hold it")
        self.remaining[self.given] = (node, sent, (words[0], int(words[1])) if verb in DELIVERS else None)
        self.last[node].append(self.given)
        self.record(node, ["do", verb, *self.operands(verb, words)], ["ok", self.given])

    def undo(self, actor, number):
        self.remove(number)
        self.record(actor, ["undo", number], ["undone", number])

    def remove(self, number):
        node, sent, _ = self.remaining.pop(number)
        if self.last[node].pop() != number or (sent and sent != (node, self.sent[node])):
            raise NoSession("an undo is refused")
        self.sent[node] -= sent is not None

    def future(self, number):
        """A remaining step and all that follows from it, rising."""
        found, nodes, messages = [], {self.remaining[number][0]}, set()
        for later in range(number, self.given + 1):
            node, sent, delivered = self.remaining.get(later, (None, None, None))
            if node in nodes or (delivered and delivered in messages):
                found.append(later)
                nodes.add(node)
                messages.add(sent)
        return found


def session_of(lines):
    """The compact text of the session of these lines of a script."""
    recorder = Recorder()
    for line in lines:
        recorder.take(line)
    session = {"acts": recorder.events, "limits": LIMITS, "nodes": recorder.nodes, "version": VERSION}
    return json.dumps(session, separators=(",", ":"))
