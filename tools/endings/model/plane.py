"""The control plane of a context as a model: its objects, ends, mailboxes and names, with what each command and request does
(own choice, after libzmq's own_t, pipe_t and ctx_t). It was written apart from the library and its definitions."""

ACTIVE, DELIMITER_GOT, WAIT_DELIMITER, ACK_SENT, ASKED_ONCE, ASKED_TWICE, GONE = range(7)
UNMADE, AWAY = 'unmade', 'away'
LIVE, ASKED, ENDED = range(3)

FITS = {
    'push': ['pull'], 'pull': ['push'], 'pair': ['pair'], 'req': ['rep', 'router'], 'rep': ['req', 'dealer'],
    'dealer': ['rep', 'dealer', 'router'], 'router': ['req', 'dealer', 'router'],
    'pub': ['sub', 'xsub'], 'xpub': ['sub', 'xsub'], 'sub': ['pub', 'xpub'], 'xsub': ['pub', 'xpub'],
}


def is_tcp(endpoint):
    return endpoint.startswith('tcp')


class Row:
    """An object. `behind` is what was sent to it less what it processed, `owed` what it waits for."""

    __slots__ = ('owner', 'kind', 'slot', 'state', 'told', 'noted', 'behind', 'owed', 'asked_over', 'linger', 'pair', 'accepted')

    def __init__(self, owner, kind, slot, linger, noted):
        self.owner, self.kind, self.slot, self.linger, self.noted = owner, kind, slot, linger, noted
        self.state, self.told, self.behind, self.owed = LIVE, False, 0, 0
        self.asked_over, self.pair, self.accepted = False, None, False

    def key(self):
        return tuple(getattr(self, name) for name in self.__slots__)

    def copy(self):
        row = Row.__new__(Row)
        for name in self.__slots__:
            setattr(row, name, getattr(self, name))
        return row


class End:
    """An end of a pair. `sealed` says whether the pipe that it reads has its delimiter."""

    __slots__ = ('owner', 'place', 'sealed', 'struck')

    def __init__(self, owner):
        self.owner, self.place, self.sealed, self.struck = owner, UNMADE, False, False

    def key(self):
        return (self.owner, self.place, self.sealed, self.struck)

    def copy(self):
        end = End(self.owner)
        end.place, end.sealed, end.struck = self.place, self.sealed, self.struck
        return end


def other(end):
    return (end[0], not end[1])


class Plane:
    """With one I/O worker. The root is object 0 with mailbox 0, the worker has mailbox 1, socket n mailbox n + 1."""

    def __init__(self, answer=lambda plane, end: 'yes'):
        self.rows = [Row(None, 'root', 0, 0, True)]
        self.ends, self.attached, self.pairs = {}, [], 0
        self.boxes = {0: [], 1: []}
        self.names, self.waiting, self.holds = {}, [], {}
        self.never = False
        self.answer = answer

    def copy(self):
        plane = Plane(self.answer)
        plane.rows = [row.copy() for row in self.rows]
        plane.ends = {name: end.copy() for name, end in self.ends.items()}
        plane.attached, plane.pairs = self.attached[:], self.pairs
        plane.boxes = {slot: box[:] for slot, box in self.boxes.items()}
        plane.names, plane.waiting = dict(self.names), self.waiting[:]
        plane.holds = {socket: holds[:] for socket, holds in self.holds.items()}
        plane.never = self.never
        return plane

    def key(self):
        return (tuple(row.key() for row in self.rows), tuple((name, end.key()) for name, end in sorted(self.ends.items())),
                tuple(self.attached), tuple((slot, tuple(box)) for slot, box in sorted(self.boxes.items())),
                tuple(sorted(self.names.items())), tuple(self.waiting),
                tuple((socket, tuple(holds)) for socket, holds in sorted(self.holds.items())), self.never)

    # Parts of events.

    def put(self, to, word, about=None):
        self.boxes[self.rows[to].slot].append((to, word, about))

    def make(self, owner, kind, linger, noted=False, on_worker=True):
        number = len(self.rows)
        self.boxes[number + 1] = []
        self.rows.append(Row(owner, kind, 1 if on_worker else number + 1, linger, noted))
        return number

    def draw(self, a_owner, b_owner):
        self.pairs += 1
        self.ends[(self.pairs, True)], self.ends[(self.pairs, False)] = End(a_owner), End(b_owner)
        return self.pairs

    def tell(self, child):
        row = self.rows[child]
        if row.state == LIVE and not row.told:
            row.told = True
            self.rows[row.owner].owed += 1
            self.put(child, 'Term')

    def is_here(self, end):
        return self.ends[end].place not in (UNMADE, AWAY, GONE)

    def owner(self, end):
        return self.ends[end].owner

    def acknowledge(self, end):
        self.put(self.owner(other(end)), 'PipeTermAck', other(end))

    def ask(self, end, delay=False):
        if not self.is_here(end):
            return
        it = self.ends[end]
        if it.place in (ACTIVE, DELIMITER_GOT):
            self.put(self.owner(other(end)), 'PipeTerm', other(end))
            self.ends[other(end)].sealed = True
            it.place = ASKED_ONCE
        elif it.place == WAIT_DELIMITER and not delay:
            self.acknowledge(end)
            it.place = ACK_SENT

    def attach(self, end):
        self.ends[end].place = ACTIVE
        self.attached.append(end)
        self.rows[self.owner(end)].owed += 1

    def greet(self, end):
        refused = self.answer(self, end) != 'yes'
        if refused or self.rows[self.owner(end)].state != LIVE or self.ends[end].struck:
            self.ask(end)

    def open_pair(self, first, word):
        self.attach(first)
        self.ends[other(first)].place = AWAY
        last = self.owner(other(first))
        self.rows[last].behind += 1
        self.put(last, word, other(first))
        self.greet(first)

    def give_own(self, owner, child):
        self.rows[owner].behind += 1
        self.put(owner, 'Own', child)

    def can_end(self, number):
        row = self.rows[number]
        living = any(child.owner == number and child.noted and child.state != ENDED for child in self.rows)
        return row.state == ASKED and row.behind == 0 and row.owed == 0 and not living

    def try_end(self, number, left=False):
        if self.can_end(number) and not left:
            self.rows[number].state = ENDED
            if self.rows[number].owner is not None:
                self.put(self.rows[number].owner, 'TermAck', number)

    # Requests. Each answers None where it is refused.

    def root_asked(self):
        return self.rows[0].state != LIVE

    def socket(self, kind, linger=0):
        return None if self.root_asked() else self.make(0, kind, linger, noted=True, on_worker=False)

    def ask_term(self):
        self.rows[0].state = ASKED
        for number, row in enumerate(self.rows):
            if row.kind in FITS and not row.asked_over:
                self.put(number, 'Stop')
        self.try_end(0)

    def bind(self, socket, at):
        if self.root_asked() or at in self.names:
            return None
        self.names[at] = socket
        holds = self.holds.setdefault(socket, [])
        if is_tcp(at):
            listener = self.make(socket, 'listener', self.rows[socket].linger)
            holds.append(('bound', at, listener))
            self.give_own(socket, listener)
            self.rows[listener].behind += 1
            self.put(listener, 'Plug')
            return True
        holds.append(('bound', at, None))
        for wait in self.waiting[:]:
            if wait[0] == at and wait[1] != socket and self.rows[wait[1]].kind in FITS[self.rows[socket].kind]:
                self.waiting.remove(wait)
                pair = self.draw(wait[1], socket)
                waits = self.holds[wait[1]]
                waits[waits.index(('waits', at))] = ('joined', at, pair, None)
                self.open_pair((pair, False), 'PipeBind')
        return True

    def connect(self, socket, at):
        if self.root_asked():
            return None
        holds = self.holds.setdefault(socket, [])
        if is_tcp(at):
            session = self.make(socket, 'session', self.rows[socket].linger)
            pair = self.rows[session].pair = self.draw(socket, session)
            holds.append(('joined', at, pair, session))
            self.give_own(socket, session)
            self.open_pair((pair, True), 'Plug')
            return True
        if at not in self.names:
            self.waiting.append((at, socket))
            holds.append(('waits', at))
            return True
        bound = self.names[at]
        if bound == socket or self.rows[socket].kind not in FITS[self.rows[bound].kind]:
            return None
        pair = self.draw(socket, bound)
        holds.append(('joined', at, pair, None))
        self.open_pair((pair, True), 'PipeBind')
        return True

    def first_hold(self, socket, at, sorts):
        for hold in self.holds.get(socket, []):
            if hold[0] in sorts and hold[1] == at:
                self.holds[socket].remove(hold)
                return hold
        return None

    def unbind(self, socket, at):
        hold = None if self.root_asked() else self.first_hold(socket, at, ('bound',))
        if hold is None:
            return None
        del self.names[at]
        if hold[2] is not None:
            self.tell(hold[2])
        return True

    def disconnect(self, socket, at):
        hold = None if self.root_asked() else self.first_hold(socket, at, ('waits', 'joined'))
        if hold is None:
            return None
        if hold[0] == 'waits':
            self.waiting.remove((at, socket))
            return True
        end = (hold[2], True)
        if self.ends[end].place == AWAY:
            self.ends[end].struck = True
        self.ask(end)
        if hold[3] is not None:
            self.tell(hold[3])
        return True

    def close(self, socket):
        self.rows[socket].asked_over = True
        self.put(0, 'Reap', socket)

    def accept(self, listener):
        socket = self.rows[listener].owner
        session = self.make(socket, 'session', self.rows[listener].linger)
        self.rows[session].accepted = True
        self.rows[session].pair = self.draw(session, socket)
        self.give_own(socket, session)
        return session

    def shake(self, session):
        self.open_pair((self.rows[session].pair, True), 'PipeBind')

    def ask_over(self, number):
        self.rows[number].asked_over = True
        self.put(self.rows[number].owner, 'TermReq', number)

    # Commands, and delimiters. `left` says whether a session has output left.

    def deliver(self, slot, left=lambda number: False):
        to, word, about = self.boxes[slot].pop(0)
        self.never = self.never or self.rows[to].state == ENDED
        getattr(self, 'on_' + word)(to, about, left)

    def on_Own(self, to, child, left):
        self.rows[to].behind -= 1
        self.rows[child].noted = True
        if self.rows[to].state != LIVE:
            self.tell(child)

    def on_Plug(self, to, end, left):
        self.rows[to].behind -= 1
        if end is not None:
            self.attach(end)
            self.greet(end)

    def on_TermReq(self, to, child, left):
        if self.rows[to].state == LIVE:
            self.tell(child)

    def on_Term(self, to, about, left):
        row = self.rows[to]
        row.state = ASKED
        self.names = {at: socket for at, socket in self.names.items() if socket != to}
        self.waiting = [wait for wait in self.waiting if wait[1] != to]
        for end in [end for end in self.attached if self.owner(end) == to]:
            self.ask(end, delay=row.kind == 'session' and row.linger != 0)
        for number, child in enumerate(self.rows):
            if child.owner == to and child.noted:
                self.tell(number)
        self.try_end(to, left(to))

    def on_TermAck(self, to, child, left):
        self.rows[to].owed -= 1
        self.try_end(to, left(to))

    def on_PipeBind(self, to, end, left):
        self.rows[to].behind -= 1
        self.attach(end)
        self.greet(end)

    def on_PipeTerm(self, to, end, left):
        it = self.ends[end]
        self.never = self.never or it.place not in (ACTIVE, DELIMITER_GOT, ASKED_ONCE)
        if it.place == ACTIVE:
            it.place = WAIT_DELIMITER
            return
        self.acknowledge(end)
        it.place = ACK_SENT if it.place == DELIMITER_GOT else ASKED_TWICE

    def on_PipeTermAck(self, to, end, left):
        it = self.ends[end]
        self.never = self.never or it.place not in (ACK_SENT, ASKED_ONCE, ASKED_TWICE)
        if it.place == ASKED_ONCE:
            self.acknowledge(end)
        it.place = GONE
        self.rows[to].owed -= 1
        self.try_end(to, left(to))

    def on_Stop(self, to, about, left):
        pass

    def on_Reap(self, to, socket, left):
        self.tell(socket)

    def at_delimiter(self, end):
        return self.ends[end].place in (ACTIVE, WAIT_DELIMITER) and self.ends[end].sealed

    def meet(self, end):
        it = self.ends[end]
        if it.place == ACTIVE:
            it.place = DELIMITER_GOT
        else:
            self.acknowledge(end)
            it.place = ACK_SENT

    # Looks.

    def has_ended(self):
        return all(row.state == ENDED for row in self.rows) and not self.never

    def most_behind(self):
        return 8 * len(self.rows) + 7 * self.pairs
