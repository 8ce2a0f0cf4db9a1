"""The runs of tools/endings over the model: the same steps in the same order, so that the counts are to be the same."""

from plane import ASKED, ENDED, GONE, WAIT_DELIMITER, Plane

MASK = (1 << 64) - 1


class Draw:
    """Numbers drawn by a seed."""

    def __init__(self, seed):
        self.drawn = seed

    def below(self, many):
        self.drawn = (self.drawn * 6364136223846793005 + 1442695040888963407) & MASK
        return (self.drawn >> 33) % many


class Plan:
    """What a run has besides the lines of its sockets."""

    def __init__(self, meets=False, links=0, shakes=False, fails=False, left='nothing', linger=0, runs_out=False):
        self.meets, self.links, self.shakes, self.fails = meets, links, shakes, fails
        self.left, self.linger, self.runs_out = left, linger, runs_out


class Session:
    """What a session was told and asked, but for what its row and its end say."""

    FIELDS = ('shaken', 'failed', 'asked_link', 'asked_over', 'left', 'gave_up')

    def __init__(self, left):
        self.shaken = self.failed = self.asked_link = self.asked_over = self.gave_up = False
        self.left = left

    def key(self):
        return tuple(getattr(self, name) for name in self.FIELDS)

    def copy(self):
        session = Session(self.left)
        for name in self.FIELDS:
            setattr(session, name, getattr(self, name))
        return session


class Worker:
    """Listeners with the links that they accepted, and sessions, each in the order of their coming."""

    def __init__(self, plane, plan):
        self.plane, self.plan = plane, plan
        self.listeners, self.sessions = {}, {}

    def copy(self, plane):
        worker = Worker(plane, self.plan)
        worker.listeners = dict(self.listeners)
        worker.sessions = {number: session.copy() for number, session in self.sessions.items()}
        return worker

    def key(self):
        return (tuple(self.listeners.items()), tuple((number, session.key()) for number, session in self.sessions.items()))

    def end(self, number):
        row = self.plane.rows[number]
        return (row.pair, row.accepted)

    def steps(self):
        plane, plan = self.plane, self.plan
        steps = [('takes_own',)] if plane.boxes[1] else []
        for number, accepted in self.listeners.items():
            if plane.rows[number].state != ENDED and accepted < plan.links:
                steps.append(('accepts', number))
        for number, session in self.sessions.items():
            if plane.rows[number].state != ENDED:
                steps += self.session_steps(number, session)
        return steps

    def session_steps(self, number, session):
        plane, plan, row, end = self.plane, self.plan, self.plane.rows[number], self.end(number)
        steps, told, here = [], row.state == ASKED, plane.is_here(end)
        if row.accepted and not session.failed and not told:
            steps += [('shakes', number)] if plan.shakes and not session.shaken else []
            steps += [('fails', number)] if plan.fails else []
        gone = plane.ends[end].place == GONE and not told
        if session.failed and not session.asked_link and here:
            steps.append(('asks_end', number))
        elif not session.asked_over and (session.failed or gone):
            steps.append(('asks_over', number))
        if told and not session.gave_up:
            steps += [('writes', number)] if session.left and plan.left == 'later' else []
            steps += [('runs_out', number)] if plan.runs_out and plan.linger > 0 else []
        if plane.at_delimiter(end) and not session.gave_up:
            steps.append(('session_meets', number))
        return steps

    def take(self, step):
        """Answers how many commands were taken and requests accepted."""
        return getattr(self, step[0])(*step[1:])

    def takes_own(self):
        to, word, about = self.plane.boxes[1][0]
        if word == 'Plug' and about is None:
            self.listeners[to] = 0
        elif word == 'Plug':
            self.sessions[to] = Session(self.plan.left != 'nothing')
        self.plane.deliver(1, lambda number: number in self.sessions and self.sessions[number].left)
        return 1

    def accepts(self, number):
        self.listeners[number] += 1
        self.sessions[self.plane.accept(number)] = Session(self.plan.left != 'nothing')
        return 1

    def shakes(self, number):
        self.sessions[number].shaken = True
        self.plane.shake(number)
        return 1

    def fails(self, number):
        self.sessions[number].failed, self.sessions[number].left = True, False
        return 0

    def asks_end(self, number):
        self.sessions[number].asked_link = True
        self.plane.ask(self.end(number))
        return 1

    def asks_over(self, number):
        self.sessions[number].asked_over = True
        self.plane.ask_over(number)
        return 1

    def session_meets(self, number):
        self.plane.meet(self.end(number))
        return 0

    def writes(self, number):
        self.sessions[number].left = False
        if not self.plane.can_end(number):
            return 0
        self.plane.try_end(number)
        return 1

    def runs_out(self, number):
        self.sessions[number].gave_up = True
        if self.plane.ends[self.end(number)].place != WAIT_DELIMITER:
            return self.writes(number)
        self.sessions[number].left = False
        self.plane.ask(self.end(number))
        return 1


class Run:
    """Sockets with their lines, the asking, the reaper and the worker."""

    def __init__(self, lines, plan, answer=lambda plane, end: 'yes'):
        self.lines, self.plan = lines, plan
        self.plane = Plane(answer)
        self.worker = Worker(self.plane, plan)
        self.at, self.sockets = [0] * len(lines), [None] * len(lines)
        self.closed, self.asked, self.behind = (), False, 0

    def copy(self):
        run = Run(self.lines, self.plan)
        run.plane = self.plane.copy()
        run.worker = self.worker.copy(run.plane)
        run.at, run.sockets = self.at[:], self.sockets[:]
        run.closed, run.asked, run.behind = self.closed, self.asked, self.behind
        return run

    def key(self):
        return (self.plane.key(), self.worker.key(), tuple(self.at), tuple(self.sockets), self.closed, self.asked, self.behind)

    def reapers_slot(self):
        slots = [0] + [self.plane.rows[socket].slot for socket in self.closed if self.plane.rows[socket].told]
        return next((slot for slot in slots if self.plane.boxes[slot]), None)

    def end_at_delimiter(self, socket):
        ends = (end for end in self.plane.attached if self.plane.owner(end) == socket and self.plane.at_delimiter(end))
        return next(ends, None)

    def steps(self):
        steps = [] if self.asked else [('asks',)]
        for place, socket in enumerate(self.sockets):
            if self.at[place] < len(self.lines[place]):
                steps.append(('goes', place))
            if socket is not None:
                if self.plane.boxes[self.plane.rows[socket].slot]:
                    steps.append(('takes', place))
                if self.plan.meets and self.end_at_delimiter(socket) is not None:
                    steps.append(('meets', place))
        if self.reapers_slot() is not None:
            steps.append(('reaps',))
        return steps + self.worker.steps()

    def go(self, place, line):
        """Answers whether the line is accepted."""
        word, about = line
        if word == 'make':
            number = self.plane.socket(about, self.plan.linger)
            if number is not None:
                self.sockets[place] = number
            return number is not None
        socket = self.sockets[place]
        if socket is None:
            return False
        if word == 'close':
            self.plane.close(socket)
            self.sockets[place], self.closed = None, self.closed + (socket,)
            return True
        return getattr(self.plane, word)(socket, about) is not None

    def take(self, step):
        word, count = step[0], 1
        if word == 'asks':
            self.plane.ask_term()
            self.asked = True
        elif word == 'goes':
            line = self.lines[step[1]][self.at[step[1]]]
            self.at[step[1]] += 1
            count = int(self.go(step[1], line))
        elif word == 'takes':
            self.plane.deliver(self.plane.rows[self.sockets[step[1]]].slot)
        elif word == 'meets':
            self.plane.meet(self.end_at_delimiter(self.sockets[step[1]]))
            count = 0
        elif word == 'reaps':
            self.plane.deliver(self.reapers_slot())
        else:
            count = self.worker.take(step)
        if self.asked:
            self.behind += count

    def ends(self):
        return self.plane.has_ended() and self.behind <= self.plane.most_behind()


def all_runs(run):
    """How many runs go on from this one, the steps of the longest, the pairs of all, how many end, and the states met."""
    known = {}

    def tree(run):
        key = run.key()
        if key not in known:
            steps = run.steps()
            count = [0, 0, 0, 0] if steps else [1, 0, run.plane.pairs, int(run.ends())]
            for step in steps:
                following = run.copy()
                following.take(step)
                runs, longest, pairs, ended = tree(following)
                count = [count[0] + runs, max(count[1], longest + 1), count[2] + pairs, count[3] + ended]
            known[key] = count
        return known[key]

    return tree(run), len(known)
