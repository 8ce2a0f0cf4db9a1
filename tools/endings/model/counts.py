#!/usr/bin/env python3
"""Prints the counts that the tests of tools/endings want, by the model. Some seconds; with the argument `all` also those of
trees that are too large to be run one by one (some minutes)."""

import sys

from plane import ACTIVE, WAIT_DELIMITER
from runs import Draw, Plan, Run, all_runs

KINDS = ['push', 'pull', 'pair', 'pub', 'sub', 'xpub', 'xsub', 'dealer', 'router', 'req', 'rep']
CLOSE = ('close', None)
PORT = 'tcp://127.0.0.1:5555'

BINDS = [('make', 'push'), ('bind', 'a'), CLOSE]
CONNECTS = [('make', 'pull'), ('connect', 'a'), CLOSE]
LISTENS = [('make', 'pull'), ('bind', PORT), CLOSE]
UNBINDS = [('make', 'pull'), ('bind', PORT), ('unbind', PORT), CLOSE]
DIALS = [('make', 'push'), ('connect', PORT), CLOSE]
HANGS_UP = [('make', 'push'), ('connect', PORT), ('disconnect', PORT), CLOSE]

TAKES = ('takes_own',)
ACCEPTED = [('goes', 0), ('goes', 0), TAKES, ('takes', 0), ('accepts', 2)]
SHAKEN = ACCEPTED + [('takes', 0), ('shakes', 3)]
TAKEN_IN = [('goes', 0), ('goes', 1), ('goes', 0), ('goes', 1), TAKES, TAKES, ('takes', 0), ('takes', 1)]
ALL_ASKED = TAKEN_IN + [('accepts', 3), ('takes', 0), ('shakes', 5), ('takes', 0), ('goes', 0), ('goes', 1), ('asks',)]


def lingers(left, **more):
    return Plan(left=left, linger=9, runs_out=True, **more)


def show(name, lines, plan, before=()):
    run = Run(lines, plan)
    for step in before:
        run.take(step)
    (runs, longest, pairs, ended), states = all_runs(run)
    print(f'{name}: runs {runs:,}, longest {longest}, pairs {pairs:,}, ended {ended:,} ({states:,} states)', flush=True)


def in_all_orders():
    show('two_sockets_end', [BINDS, CONNECTS], Plan())
    show('two_sockets_that_meet_delimiters_end', [BINDS, CONNECTS], Plan(meets=True))
    show('an_unbound_listener_ends', [UNBINDS], Plan(links=1))
    show('a_connecting_session_ends', [DIALS], lingers('later'))
    show('a_session_without_a_link_ends', [DIALS], lingers('never'))
    show('a_disconnected_session_ends', [HANGS_UP], Plan())
    show('an_accepted_session_ends_whose_link_fails', [LISTENS], Plan(links=1, fails=True), ACCEPTED)
    show('an_accepted_session_ends', [LISTENS], lingers('later', links=1, shakes=True), SHAKEN)
    show('a_listener_and_a_session_end', [LISTENS, DIALS], Plan(), TAKEN_IN)
    show('a_listener_and_two_sessions_end', [LISTENS, DIALS], Plan(links=1, shakes=True), ALL_ASKED)


def drawn_run(seed, moment):
    """A run in an order drawn by a seed with the asking at this moment; its steps, and whether the asking came last."""
    plan = lingers('later', meets=True, links=2, shakes=True, fails=True)
    run, draw, taken, was_last = Run([UNBINDS, HANGS_UP], plan), Draw(seed), 0, False
    while steps := run.steps():
        skipped = 0 if run.asked else 1
        if not run.asked and (taken == moment or len(steps) == 1):
            was_last = len(steps) == 1
            run.take(('asks',))
        else:
            run.take(steps[skipped + draw.below(len(steps) - skipped)])
        taken += 1
    return run, taken, was_last


def in_drawn_orders():
    runs = longest = pairs = ended = 0
    for seed in range(100):
        moment, was_last = 0, False
        while not was_last:
            run, taken, was_last = drawn_run(seed, moment)
            runs, longest, pairs, ended = runs + 1, max(longest, taken), pairs + run.plane.pairs, ended + run.ends()
            moment += 1
    print(f'listeners_and_sessions_end_whenever_asked: runs {runs:,}, longest {longest}, pairs {pairs:,}, ended {ended:,}')


class Kinds:
    """What kinds answer: a PAIR with a peer refuses a second one, and nobody else refuses any here."""

    def __init__(self):
        self.refused = set()

    def answer(self, plane, end):
        row = plane.rows[plane.owner(end)]
        if row.kind != 'pair' or row.asked_over:
            return 'yes'
        for peer in plane.attached:
            is_peer = peer != end and peer not in self.refused and plane.ends[peer].place in (ACTIVE, WAIT_DELIMITER)
            if is_peer and plane.owner(peer) == plane.owner(end):
                self.refused.add(end)
                return 'second'
        return 'yes'


class Many:
    """Up to 100 open sockets, whose lines are drawn."""

    def __init__(self, seed, links):
        plan = lingers('later', meets=True, links=3, shakes=True, fails=True) if links else Plan()
        self.draw, self.links = Draw(seed), links
        self.run = Run([[]] * 100, plan, Kinds().answer)

    def line(self, is_open):
        if not is_open:
            number = self.draw.below(10 if self.links else 11)
            return ('make', KINDS[number + 1 if self.links and number > 7 else number])
        number = self.draw.below(12 if self.links else 6)
        at = f'name {number}' if number < 6 else f'tcp {number}'
        words = ['bind'] * 6 + ['connect'] * 8 + ['unbind'] * 2 + ['disconnect'] * 2 + ['close'] * 2
        return (words[self.draw.below(20)], at)

    def reap(self):
        slot = self.run.reapers_slot()
        if slot is None:
            return 0
        self.run.plane.deliver(slot)
        return 1

    def serve(self):
        steps = self.run.worker.steps()
        return self.run.worker.take(steps[self.draw.below(len(steps))]) if steps else 0

    def other_step(self, place):
        if self.links and self.draw.below(3) == 0:
            return self.serve()
        which, socket = self.draw.below(7), self.run.sockets[place]
        if which < 2:
            return self.reap()
        if socket is None:
            return 0
        if which == 2:
            end = self.run.end_at_delimiter(socket)
            if end is not None:
                self.run.plane.meet(end)
            return 0
        slot = self.run.plane.rows[socket].slot
        if not self.run.plane.boxes[slot]:
            return 0
        self.run.plane.deliver(slot)
        return 1

    def steps(self, count, lines):
        done = 0
        for _ in range(count):
            place = self.draw.below(100)
            if self.draw.below(10) < lines:
                self.run.go(place, self.line(self.run.sockets[place] is not None))
                done += 1
            else:
                done += self.other_step(place)
        return done

    def close_all(self):
        done = 0
        for place in range(100):
            done += self.steps(self.draw.below(4), 0)
            if self.run.sockets[place] is not None:
                self.run.go(place, CLOSE)
                done += 1
        return done

    def finish(self):
        done = 0
        while True:
            while self.run.reapers_slot() is not None:
                done += self.reap()
            steps = self.run.worker.steps()
            if not steps:
                return done
            done += self.run.worker.take(steps[0])

    def whole(self):
        """Answers how many lines were tried, commands taken and requests accepted."""
        before = self.steps(6000, 3)
        self.run.plane.ask_term()
        behind = 1 + self.steps(300, 0) + self.close_all() + self.finish()
        assert self.run.plane.has_ended() and behind <= self.run.plane.most_behind()
        return before + behind


def at_random(name, links):
    objects = pairs = done = 0
    for seed in range(10):
        many = Many(seed, links)
        done += many.whole()
        objects, pairs = objects + len(many.run.plane.rows), pairs + many.run.plane.pairs
    print(f'{name}: objects {objects:,}, pairs {pairs:,}, done {done:,}', flush=True)


def large():
    show('one listener, one link, all that may happen', [LISTENS], lingers('later', links=1, shakes=True, fails=True))
    show('a listener and a session, from the first line on', [LISTENS, DIALS], Plan())
    show('a listener and two sessions, from the first line on', [LISTENS, DIALS], Plan(links=1, shakes=True))


if __name__ == '__main__':
    sys.setrecursionlimit(10_000)
    in_all_orders()
    in_drawn_orders()
    at_random('many_sockets_end', False)
    at_random('many_sockets_with_links_end', True)
    if 'all' in sys.argv[1:]:
        large()
