"""The protocol a second time, as a model that shares no code with the sources: shards, checkpoints, failures and
rollbacks. It says the rules that crates/kt_node/specs has as definitions, in the plainest way: a worker is the list of
its answers.

A node is a name, `w1` or `s2`; a step a tuple of words. A message carries, as `by`, the number of the note that sent
it.
"""

from collections import namedtuple

from linda import DONE, NONE, asked_next, matches, shard_of

NO_NODE, WRONG_MODE, NOTHING_THERE, NO_SUCH_MATCH, NOT_DECIDED, UNRESOLVED = range(1, 7)
NAMES = {1: "NoNode", 2: "WrongMode", 3: "NothingThere", 4: "NoSuchMatch", 5: "NotDecided", 6: "Unresolved"}
NO_LABEL = (0, 0)

Request = namedtuple("Request", "number op label by")
Reply = namedtuple("Reply", "number op answer label by")
Ask = namedtuple("Ask", "purpose instance label incarnation")
Vote = namedtuple("Vote", "instance incarnation yes")
Verdict = namedtuple("Verdict", "instance yes")
Act = namedtuple("Act", "node by what worker number op answer", defaults=[None])
Cut = namedtuple("Cut", "node keep")
# what is stored: how long the node's line is, its labels, its state, and the numbers of its line, which the checkpoint
# that a node begins with has not
Ckpt = namedtuple("Ckpt", "keep sent received state line", defaults=[None])
# a worker: its answers, and how many requests it made; a shard: tuples, who waits with what, the last answers
Worker = namedtuple("Worker", "answers made")
Shard = namedtuple("Shard", "bag waiting kept")


# ---- nodes


class Ballot:
    def __init__(self, purpose, instance, parent, asker, asked):
        self.purpose, self.instance, self.parent, self.asker = purpose, instance, parent, asker
        self.asked, self.awaited = list(asked), set(asked)
        self.is_refused = self.has_voted = False


class Node:
    def __init__(self, name, peers):
        self.name, self.peers = name, peers
        state = Worker((), 0) if name[0] == "w" else Shard((), {}, {})
        # what is stored
        self.incarnation, self.tentative = 1, None
        self.permanent = Ckpt(0, {}, {}, state)
        self.line = []
        self.mode = "Up"
        self.load()

    def load(self):
        stored = self.permanent
        self.state, self.sent, self.received = stored.state, dict(stored.sent), dict(stored.received)
        self.first, self.count, self.kept, self.ballot = {}, 0, [], None

    def ckpt(self):
        return Ckpt(len(self.line), dict(self.sent), dict(self.received), self.state, tuple(self.line))

    def cohort(self):
        had = self.permanent.received
        return [x for x in self.peers if self.received.get(x, NO_LABEL) > had.get(x, NO_LABEL)]

    def is_initiator(self):
        return self.ballot is not None and self.ballot.parent is None


class World:
    """A scene of scripts, and what the steps made of it."""

    def __init__(self, shards, scripts, kinds):
        workers = [f"w{number}" for number in range(1, len(scripts) + 1)]
        servers = [f"s{number}" for number in range(1, shards + 1)]
        self.shards, self.scripts, self.kinds = shards, dict(zip(workers, scripts)), dict(zip(workers, kinds))
        self.nodes = {w: Node(w, servers) for w in workers} | {s: Node(s, workers) for s in servers}
        self.links = {(p, q): [] for p, node in self.nodes.items() for q in node.peers}
        # `written` are the nodes of which anything was ever stored
        self.notes, self.board, self.written = [], {}, set()

    # -- what steps have in common

    def verdict(self, instance):
        """None while it is open."""
        return self.board[instance][1]

    def note(self, what):
        self.notes.append(what)
        node = self.nodes[what.node]
        if isinstance(what, Cut):
            del node.line[what.keep :]
        else:
            node.line.append(len(self.notes))
        return len(self.notes)

    def send(self, p, q, message):
        """An underlying message, with the next label."""
        node = self.nodes[p]
        node.count += 1
        label = (node.incarnation, node.count)
        node.sent[q] = label
        node.first.setdefault(q, label)
        self.links[p, q].append(message._replace(label=label))

    def begin(self, p):
        """A new instance of this node's."""
        instance = len(self.board) + 1
        self.board[instance] = (p, None)
        return instance

    def ask_all(self, node, labels):
        ballot = node.ballot
        for x in ballot.asked:
            ask = Ask(ballot.purpose, ballot.instance, labels.get(x, NO_LABEL), node.incarnation)
            self.links[node.name, x].append(ask)

    def hold(self, node, instance, parent, asker):
        node.tentative = (node.ckpt(), instance)
        self.written.add(node.name)
        node.mode = "Held"
        node.ballot = Ballot("check", instance, parent, asker, node.cohort())
        self.ask_all(node, node.received)
        self.vote_if_due(node)

    def roll(self, node, instance, parent, asker):
        node.mode = "Rolling"
        node.ballot = Ballot("rollback", instance, parent, asker, node.peers)
        self.ask_all(node, node.permanent.sent)

    def vote(self, node, yes):
        ballot = node.ballot
        ballot.has_voted = True
        self.links[node.name, ballot.parent].append(Vote(ballot.instance, ballot.asker, yes))

    def vote_if_due(self, node):
        ballot = node.ballot
        if ballot.parent is None or ballot.has_voted:
            return
        if ballot.is_refused or not ballot.awaited:
            self.vote(node, not ballot.is_refused)

    def end(self, node, yes):
        """What a node that holds or is a participant of a rollback makes of the verdict."""
        if node.mode == "Held":
            if yes:
                node.permanent, node.first = node.tentative[0], {}
            node.tentative = None
        elif yes:
            node.incarnation += 1
            self.written.add(node.name)
            self.note(Cut(node.name, node.permanent.keep))
            node.load()
        node.mode, node.ballot = "Up", None

    # -- underlying messages

    def hear(self, q, p, message):
        node = self.nodes[q]
        node.received[p] = message.label
        if q[0] == "s":
            self.hear_request(node, p, message)
        else:
            self.hear_reply(node, message)

    def hear_request(self, node, w, message):
        bag, waiting, kept = node.state
        number, op, by = message.number, message.op, message.by
        greatest = max(waiting.get(w, (0,))[0], kept.get(w, (0,))[0])
        if number > greatest:
            node.state = Shard(bag, {**waiting, w: (number, op, by)}, kept)
            self.note(Act(node.name, by, "Heard", w, number, op))
        elif w in kept and kept[w][:2] == (number, op) and w not in waiting:
            answer = kept[w][2]
            again = self.note(Act(node.name, by, "Again", w, number, op, answer))
            self.send(node.name, w, Reply(number, op, answer, None, again))
        else:
            self.note(Act(node.name, by, "Ignored", w, number, op))

    def unanswered(self, w):
        """The operation that the worker waits for, if it does."""
        answers, made = self.nodes[w].state
        return self.asked(w) if made > len(answers) else None

    def asked(self, w):
        return asked_next(self.scripts[w], self.kinds[w], self.nodes[w].state.answers)

    def hear_reply(self, node, message):
        answers, made = node.state
        number, op, answer, _, by = message
        if self.unanswered(node.name) is not None and (number, op) == (made, self.asked(node.name)):
            node.state = Worker((*answers, answer), made)
            self.note(Act(node.name, by, "Accepted", node.name, number, op, answer))
        else:
            self.note(Act(node.name, by, "Ignored", node.name, number, op, answer))

    # -- arrivals

    def arrive(self, q, p, message):
        node = self.nodes[q]
        if node.mode == "Down":
            return
        if isinstance(message, (Request, Reply)):
            if node.mode == "Up" and not node.kept:
                self.hear(q, p, message)
            elif node.mode != "Rolling":
                node.kept.append((p, message))
        elif isinstance(message, Ask):
            if message.purpose == "rollback":
                node.kept = [(x, m) for x, m in node.kept if x != p or m.label <= message.label]
            yes = (self.answer_check if message.purpose == "check" else self.answer_rollback)(node, p, message)
            if yes is not None:
                self.links[q, p].append(Vote(message.instance, message.incarnation, yes))
        elif isinstance(message, Vote):
            self.count(node, p, message)
        else:
            self.pass_on(node, message)

    def answer_check(self, node, p, ask):
        """Yes or no, or nothing where the node joins."""
        if self.verdict(ask.instance) is not None:
            return False
        if ask.label <= node.permanent.sent.get(p, NO_LABEL):
            return True
        if node.mode == "Up" and p in node.first and node.first[p] <= ask.label <= node.sent[p]:
            self.hold(node, ask.instance, p, ask.incarnation)
            return None
        is_held = node.mode == "Held" and node.ballot.instance == ask.instance
        return is_held and ask.label <= node.tentative[0].sent.get(p, NO_LABEL)

    def answer_rollback(self, node, p, ask):
        if self.verdict(ask.instance) is not None:
            return False
        if node.received.get(p, NO_LABEL) <= ask.label:
            return True
        if node.mode == "Up":
            self.roll(node, ask.instance, p, ask.incarnation)
            return None
        return node.mode == "Rolling" and node.ballot.instance == ask.instance

    def count(self, node, p, vote):
        ballot = node.ballot
        if ballot is None or (vote.instance, vote.incarnation) != (ballot.instance, node.incarnation):
            return
        if p in ballot.awaited:
            ballot.awaited.remove(p)
            ballot.is_refused |= not vote.yes
            self.vote_if_due(node)

    def pass_on(self, node, message):
        ballot = node.ballot
        if ballot is None or ballot.instance != message.instance or (node.mode == "Rolling" and node.is_initiator()):
            return
        self.end(node, message.yes)
        self.tell(node.name, ballot, message.yes)

    def tell(self, p, ballot, yes):
        for x in ballot.asked:
            self.links[p, x].append(Verdict(ballot.instance, yes))

    # -- steps: each gives the number of its refusal, or makes its change

    def step(self, step):
        word, *names = step
        if word == "deliver":
            return self.deliver(*names)
        if names[0] not in self.nodes or (word == "serve" and names[1] not in self.nodes):
            return NO_NODE
        kinds = {"issue": "w", "repeat": "w", "serve": "s"}
        if names[0][0] not in kinds.get(word, "ws") or (word == "serve" and names[1][0] != "w"):
            return NO_NODE
        return getattr(self, word)(self.nodes[names[0]], *names[1:])

    def deliver(self, p, q):
        if (p, q) not in self.links:
            return NO_NODE
        if not self.links[p, q]:
            return NOTHING_THERE
        self.arrive(q, p, self.links[p, q].pop(0))

    def request(self, node, what):
        w, op = node.name, self.asked(node.name)
        number = self.note(Act(w, 0, what, w, node.state.made, op))
        self.send(w, shard_of(op.places, self.shards), Request(node.state.made, op, None, number))

    def issue(self, node):
        if node.mode != "Up":
            return WRONG_MODE
        answers, made = node.state
        if made > len(answers) or node.kept or self.asked(node.name) is None:
            return NOTHING_THERE
        node.state = Worker(answers, made + 1)
        self.request(node, "Issue")

    def repeat(self, node):
        if node.mode != "Up":
            return WRONG_MODE
        if self.unanswered(node.name) is None:
            return NOTHING_THERE
        self.request(node, "Repeat")

    def take(self, node):
        if node.mode != "Up":
            return WRONG_MODE
        if not node.kept:
            return NOTHING_THERE
        self.hear(node.name, *node.kept.pop(0))

    def serve(self, node, w, place):
        if node.mode != "Up":
            return WRONG_MODE
        bag, waiting, kept = node.state
        if w not in waiting:
            return NOTHING_THERE
        number, op, by = waiting[w]
        found = [at for at, values in enumerate(bag) if op.word != "out" and matches(op.places, values)]
        if op.word == "out":
            bag, answer, is_there = (*bag, op.places), DONE, place == 0
        elif found:
            is_there = place < len(found)
            answer = bag[found[place]] if is_there else None
            if is_there and op.word in ("in", "inp"):
                bag = bag[: found[place]] + bag[found[place] + 1 :]
        else:
            answer, is_there = NONE, op.word in ("inp", "rdp") and place == 0
        if not is_there:
            return NO_SUCH_MATCH
        left = {x: asked for x, asked in waiting.items() if x != w}
        node.state = Shard(bag, left, {**kept, w: (number, op, answer)})
        served = self.note(Act(node.name, by, "Served", w, number, op, answer))
        self.send(node.name, w, Reply(number, op, answer, None, served))

    def check(self, node):
        if node.mode != "Up":
            return WRONG_MODE
        self.hold(node, self.begin(node.name), None, None)

    def decide(self, node):
        if node.mode not in ("Held", "Rolling"):
            return WRONG_MODE
        ballot = node.ballot
        if ballot.parent is not None or self.verdict(ballot.instance) is not None:
            return NOTHING_THERE
        if ballot.awaited and not ballot.is_refused:
            return NOT_DECIDED
        yes = not ballot.is_refused
        self.board[ballot.instance] = (node.name, yes)
        self.tell(node.name, ballot, yes)
        if node.mode == "Rolling" and yes:
            node.mode, node.ballot = "Up", None

    def own_open(self, node):
        return next((i for i, (p, verdict) in self.board.items() if p == node.name and verdict is None), None)

    def abandon(self, node):
        if node.mode == "Up":
            return WRONG_MODE
        instance = self.own_open(node)
        if instance is not None:
            self.board[instance] = (node.name, False)
            if node.mode != "Down":
                self.tell(node.name, node.ballot, False)
        elif node.mode != "Down" and node.ballot.parent is not None and not node.ballot.has_voted:
            self.vote(node, False)
        else:
            return NOTHING_THERE

    def learn(self, node):
        if node.mode == "Up" or (node.mode == "Rolling" and node.is_initiator()):
            return WRONG_MODE
        if node.mode == "Down" and node.tentative is None:
            return NOTHING_THERE
        yes = self.verdict(node.tentative[1] if node.mode == "Down" else node.ballot.instance)
        if yes is None:
            return NOT_DECIDED
        if node.mode != "Down":
            self.end(node, yes)
            return None
        if yes:
            node.permanent = node.tentative[0]
        else:
            self.note(Cut(node.name, node.permanent.keep))
        node.tentative = None

    def lasting(self, node):
        """The tentative checkpoint unless its instance got No, else the permanent one."""
        if node.tentative and self.verdict(node.tentative[1]) is not False:
            return node.tentative[0]
        return node.permanent

    def fail(self, node):
        if node.mode == "Down":
            return WRONG_MODE
        self.note(Cut(node.name, self.lasting(node).keep))
        node.mode, node.ballot, node.kept = "Down", None, []

    def restart(self, node):
        is_rolling = node.mode == "Rolling" and node.is_initiator()
        if node.mode != "Down" and not is_rolling:
            return WRONG_MODE
        if is_rolling and self.verdict(node.ballot.instance) is None:
            return NOT_DECIDED
        if not is_rolling and (node.tentative or self.own_open(node) is not None):
            return UNRESOLVED
        node.incarnation += 1
        self.written.add(node.name)
        node.load()
        self.roll(node, self.begin(node.name), None, None)
