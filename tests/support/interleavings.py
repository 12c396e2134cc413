"""A search through all interleavings of two gateways over one journal, as parts are appended and leases end.

One batch has one request or two, none a GET, the second after the first. A step is one statement of the database, one
request that is sent, one answer, or the passing of time. A gateway that takes no step is paused; an append that was given
up may still arrive. Crashes, lost replies and requests of clients are counted, so the search ends.

What must not be found, by its name:

- twice: a request is sent twice
- late: a request is sent after a client was told that it is lost
- other: a batch is answered in two ways
- false: a request is answered as performed, and was not sent

Mutants leave out one thing that the journal does; each is found by the search.
"""

from collections import deque
from typing import Dict, FrozenSet, NamedTuple, Optional, Tuple

MUTANTS = (
    "no place", "a conflict is success", "no reply is success", "no writer in marks", "no lease", "no hold",
    "a lease is not ended", "a lease comes back",
)  # fmt: skip

Holder = Tuple[int, int]  # a gateway, and how many leases it had before
Mark = Tuple[Holder, int]
Events = Tuple[str, ...]  # S, R and L with the name of a request: it starts, is answered, is lost


class Part(NamedTuple):
    number: int
    mark: Mark
    after: Optional[Mark]
    is_open: bool
    events: Events


class Gateway(NamedTuple):
    """A gateway: what it does next, its lease, and the batch as it knows it."""

    does: str
    holder: Holder
    is_late: bool = False  # by its own clock its lease is over
    writer: int = 0
    number: int = 0
    after: Optional[Mark] = None
    events: Events = ()
    part: Optional[Part] = None
    lease: Optional[Holder] = None  # that of the last append
    left: Optional[Mark] = None  # what it has left open


class State(NamedTuple):
    """All of it; `leases` has those that are not ended, and whether their time is over."""

    log: Tuple[Part, ...]
    leases: FrozenSet[Tuple[Holder, bool]]
    flying: FrozenSet[Part]
    gateways: Tuple[Gateway, Gateway]
    sent: Tuple[int, int]
    answers: FrozenSet[Events]
    lost: FrozenSet[str]
    asks: int
    crashes: int
    no_replies: int
    failovers: int


def out_of(events: Events):
    """The requests that have started and are not answered."""
    ended = {it[1] for it in events if it[0] in "RL"}
    return [it[1] for it in events if it[0] == "S" and it[1] not in ended]


class Search:
    """A search through the states that can be reached.

    Args:
        mutant: What is left out, one of MUTANTS.
        is_atomic: Whether a gateway sends at once what it has found to be held.
        asks, crashes, no_replies, failovers: How many of these there are.
        requests: How many requests the batch has, one or two.
        most: How many states are looked at.
    """

    def __init__(self, mutant="", is_atomic=True, asks=2, crashes=0, no_replies=0, failovers=0, requests=1, most=500_000):
        assert not mutant or mutant in MUTANTS
        self.mutant, self.is_atomic, self.names, self.most = mutant, is_atomic, "01"[:requests], most
        gateways = (Gateway("idle", (0, 0)), Gateway("idle", (1, 0)))
        leases = frozenset({((0, 0), False), ((1, 0), False)})
        counts = (asks, crashes, no_replies, failovers)
        self.first = State((), leases, frozenset(), gateways, (0, 0), frozenset(), frozenset(), *counts)
        self.found: Dict[str, State] = {}
        self.count = 0

    def run(self):
        """Returns the names of what was found."""
        seen, waiting = {self.first}, deque([self.first])
        while waiting:
            state = waiting.popleft()
            for after, is_late in self.steps(state):
                if is_late:
                    self.found.setdefault("late", after)
                if after in seen:
                    continue
                seen.add(after)
                fault = fault_of(after)
                if fault:
                    self.found[fault] = after
                    waiting.clear()
                    break
                waiting.append(after)
            assert len(seen) <= self.most
        self.count = len(seen)
        return set(self.found)

    def steps(self, state):
        """Yields each state that may come next, and whether a request was sent in that step that a client was told is
        lost."""
        for k in (0, 1):
            yield from self.of_time(state, k)
            yield from self.of_gateway(state, k)
        for holder, is_over in state.leases:  # the process of this lease has ended
            if not is_over and holder not in (it.holder for it in state.gateways):
                yield state._replace(leases=state.leases - {(holder, False)} | {(holder, True)}), False
        for part in state.flying:
            yield self.landed(state, part), False
        if state.failovers and state.log:
            yield state._replace(log=state.log[:-1], failovers=state.failovers - 1), False

    def of_time(self, state, k):
        it, leases = state.gateways[k], dict(state.leases)
        if not it.is_late:
            yield put(state, k, is_late=True), False
        if it.holder in leases and it.is_late:
            renewed = state.leases - {(it.holder, True)} | {(it.holder, False)}
            if not leases[it.holder]:
                yield state._replace(leases=state.leases - {(it.holder, False)} | {(it.holder, True)}), False
            yield put(state, k, is_late=False)._replace(leases=renewed), False
            if state.no_replies:
                yield state._replace(leases=renewed, no_replies=state.no_replies - 1), False
        elif it.holder not in leases and it.holder[1] < 2:
            new = (k, it.holder[1] + 1)
            lease = new if self.mutant == "a lease comes back" and it.lease == it.holder else it.lease
            begun = put(state, k, holder=new, is_late=False, lease=lease)
            yield begun._replace(leases=state.leases | {(new, False)}), False
        if state.crashes and it.holder[1] < 2:
            new = (k, it.holder[1] + 1)
            fresh = put(state, k, **Gateway("idle", new, writer=it.writer)._asdict())
            yield fresh._replace(leases=state.leases | {(new, False)}, crashes=state.crashes - 1), False

    def of_gateway(self, state, k):
        it = state.gateways[k]
        yield from getattr(self, f"when_{it.does}")(state, k, it)

    def when_idle(self, state, k, it):
        if state.asks:
            yield put(state, k, does="read", left=None)._replace(asks=state.asks - 1), False
        if it.left and state.log and state.log[-1].mark == it.left and state.log[-1].is_open:
            part = Part(len(state.log), (it.left[0], it.writer + 1), it.left, False, ())
            left = put(state, k, left=None, writer=it.writer + 1)
            yield left._replace(flying=state.flying | {part}), False

    def when_read(self, state, k, it):
        last = state.log[-1] if state.log else None
        events = tuple(event for part in state.log for event in part.events)
        known = {"events": events, "number": len(state.log), "after": last and last.mark, "writer": it.writer + 1}
        is_anothers = last is not None and last.is_open and last.mark[0] != it.holder and self.mutant != "no lease"
        if is_anothers:
            yield put(state, k, does="take", part=last, **known), False
        else:
            yield put(state, k, does="go", part=None, **known), False

    def when_take(self, state, k, it):
        holder, leases = it.part.mark[0], dict(state.leases)
        if not leases.get(holder, True):
            yield put(state, k, does="idle", part=None), False  # 409
            return
        ended = state.leases if self.mutant == "a lease is not ended" else state.leases - {(holder, True)}
        yield put(state, k, does="go", part=None)._replace(leases=ended), False

    def when_go(self, state, k, it):
        lost = tuple("L" + name for name in out_of(it.events))
        events = lost + self.next_start(it.events + lost)
        yield (self.appending(state, k, it, events) if events else put(state, k, does="answer")), False

    def when_wait(self, state, k, it):
        if state.no_replies:  # the append has come, or not, or comes later
            yield put(state, k, does="doubt")._replace(no_replies=state.no_replies - 1), False

    def when_doubt(self, state, k, it):
        if self.mutant == "no reply is success":
            yield put(state, k, **kept(it)), False
        yield put(state, k, does="wait")._replace(flying=state.flying | {it.part}), False
        yield put(state, k, does="idle", left=it.part.mark, part=None), False

    def when_check(self, state, k, it):
        if (it.lease == it.holder and not it.is_late) or self.mutant == "no hold":
            if self.is_atomic:
                yield from self.when_send(state, k, it)
            else:
                yield put(state, k, does="send"), False
        elif not it.is_late and len(state.log) < 5 + len(self.names):
            yield self.appending(state, k, it, ()), False

    def when_send(self, state, k, it):
        name = out_of(it.events)[0]
        sent = tuple(count + (str(at) == name) for at, count in enumerate(state.sent))
        yield put(state, k, does="up")._replace(sent=sent), name in state.lost

    def when_up(self, state, k, it):
        answer = "R" + out_of(it.events)[0]
        yield self.appending(state, k, it, (answer, *self.next_start((*it.events, answer)))), False

    def when_answer(self, state, k, it):
        told = tuple(sorted(event for event in it.events if event[0] in "RL"))
        lost = state.lost | {event[1] for event in told if event[0] == "L"}
        idle = put(state, k, does="idle", part=None, events=())
        yield idle._replace(answers=state.answers | {told}, lost=lost), False

    def next_start(self, events):
        return next((("S" + name,) for name in self.names if "S" + name not in events), ())

    def appending(self, state, k, it, events):
        is_open = bool(out_of(it.events + events))
        part = Part(it.number, (it.holder, it.writer), it.after, is_open, events)
        return put(state, k, does="wait", part=part, lease=it.holder)._replace(flying=state.flying | {part})

    def landed(self, state, part):
        """The state after an append has reached the database."""
        log, is_kept = self.appended(state.log, part)
        state = state._replace(log=log, flying=state.flying - {part})
        k = part.mark[0][0]
        it = state.gateways[k]
        if it.does != "wait" or it.part != part:
            return state  # nobody waits for it any more
        return put(state, k, **(kept(it) if is_kept else {"does": "idle", "part": None}))

    def appended(self, log, part):
        if self.mutant == "no place":
            return (*log, part._replace(number=len(log))), True
        if len(log) == part.number and (not log or log[-1].mark == part.after):
            return (*log, part), True
        if self.mutant == "a conflict is success":
            return log, len(log) > part.number
        same = (lambda one, other: one[0] == other[0]) if self.mutant == "no writer in marks" else (lambda *two: two[0] == two[1])
        return log, len(log) > part.number and same(log[part.number].mark, part.mark)


def put(state, k, **changes):
    """The state with a changed gateway."""
    gateways = list(state.gateways)
    gateways[k] = gateways[k]._replace(**changes)
    return state._replace(gateways=tuple(gateways))


def kept(it):
    """What changes of a gateway whose append is kept."""
    events = it.events + it.part.events
    does = "check" if out_of(events) else "answer"
    return {"does": does, "events": events, "number": it.number + 1, "after": it.part.mark, "part": None}


def fault_of(state):
    if max(state.sent) > 1:
        return "twice"
    if len(state.answers) > 1:
        return "other"
    answered = {int(event[1]) for told in state.answers for event in told if event[0] == "R"}
    return "false" if any(not state.sent[name] for name in answered) else ""
