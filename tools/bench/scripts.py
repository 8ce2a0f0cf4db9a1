#!/usr/bin/env python3
"""Writes an input of docs/BENCHMARK.md to standard output, or times zbus over it.

usage: scripts.py lines COUNT | many COUNT PAIRS | stream SIZE | pair COUNT PAIRS | ask COUNT PEERS
                  | deal COUNT PEERS | route COUNT PEERS | one COUNT PEERS | publish COUNT PEERS TOPICS MATCHES
                  | subscribe COUNT PEERS TOPICS | follow COUNT PEERS | beside COUNT OTHERS | wait COUNT WAITING
                  | long COUNT OCTETS | close COUNT PAIRS | bare COUNT | own PAIRS | join COUNT [MARK] | waiting COUNT CLOSED
                  [-- PROGRAM WORD..]

`lines` is a script of one PULL and one PUSH, `many` one of a PUSH and so many PULLs, `stream` the octets of a PUSH with
64 MB of message bodies of this size. The others are scripts of COUNT lines, the first of which make and join the
sockets: `pair` of so many PAIRs and their partners; `ask` of a REP and REQs; `deal` of a DEALER and DEALERs; `route` of
a ROUTER and DEALERs with names, each of which is answered; `one` the same, but only the last DEALER sends; `publish` of
a PUB with so many pairs, at SUBs of so many topics each, where MATCHES of the pairs, one or all, want each message;
`subscribe` of an XPUB and XSUBs, which subscribe to so many topics each and cancel them again; `follow` of a SUB and
PUBs, which send by turns; `beside` is as `lines`, behind so many other pairs of a PUB and a SUB; `wait` of so many
connects to a name that nobody holds, and then of binds of other names; `long` of a PUB and a SUB, with one
topic of so many octets that is each message; `close` of a PULL and PUSHes, of which so many are made and joined and then
closed, over and over; `bare` of sockets that are made alone; `own` of PULLs with a PUSH each, all PUSHes closed and
then all PULLs; `join` of a PUSH that connects to a PULL over and over, with
this mark each, if one is given; `waiting` of a PUSH and a PULL, by turns, behind so many PUSHes that are joined to another
PULL and closed, and can't end since nothing is asked of that PULL.

Behind `--` stands a program, as crates/zbus/out/zbus run: it is run seven times over the input, and the least processor
time of its whole process is told, with the octets of the input.
"""
import resource
import subprocess
import sys


def text(said, count):
    return ("\n".join(said[:count]) + "\n").encode()


def lines(count, before=()):
    """Sends and receives by turns, 1,000 each at most."""
    said = ["actor a", *before, "socket r PULL", "socket s PUSH", "bind r inproc://q", "connect s inproc://q"]
    sent = 0
    while len(said) < count:
        for _ in range(min(1000, (count - len(said) + 1) // 2)):
            said.append("send s message%d x y" % sent)
            sent += 1
        said += ["recv r"] * min(1000, count - len(said))
    return text(said, count)


def many(count, pairs):
    """A send for each pair, then a receive of each PULL, over and over."""
    said = ["actor a", "socket s PUSH", "bind s inproc://q"]
    for pair in range(pairs):
        said += ["socket r%d PULL" % pair, "connect r%d inproc://q" % pair]
    sent = 0
    while len(said) < count:
        for _ in range(pairs):
            said.append("send s message%d x y" % sent)
            sent += 1
        said += ["recv r%d" % pair for pair in range(pairs)]
    return text(said, count)


def star(middle, kind, options, peers):
    """A socket that binds, and peers that connect."""
    said = ["actor a", "socket m " + middle, "bind m inproc://q"]
    for peer in range(peers):
        said += ["socket p%d %s%s" % (peer, kind, options % {"peer": peer}), "connect p%d inproc://q" % peer]
    return said


def over(said, count, rounds):
    """The same lines over and over behind these."""
    said += rounds * ((count - len(said)) // len(rounds) + 1)
    return text(said, count)


def pair(count, pairs):
    """A message there and one back for each pair of PAIRs."""
    said = ["actor a"]
    for one in range(pairs):
        said += ["socket x%d PAIR" % one, "socket y%d PAIR" % one]
        said += ["bind x%d inproc://q%d" % (one, one), "connect y%d inproc://q%d" % (one, one)]
    turn = "send x%d message x y,recv y%d,send y%d message x y,recv x%d"
    return over(said, count, [line for one in range(pairs) for line in (turn % (one, one, one, one)).split(",")])


def exchange(peers, answer):
    """Each peer asks, and is answered."""
    turn = "send p%d message x y,recv m," + answer + ",recv p%d"
    return [line % ((peer,) * line.count("%")) for peer in peers for line in turn.split(",")]


def ask(count, peers):
    return over(star("REP", "REQ", "", peers), count, exchange(range(peers), "send m message x y"))


def deal(count, peers):
    return over(star("DEALER", "DEALER", "", peers), count, exchange(range(peers), "send m message x y"))


def route(count, peers):
    said = star("ROUTER", "DEALER", " id=d%(peer)d", peers)
    return over(said, count, exchange(range(peers), "send m d%d message x y"))


def one(count, peers):
    said = star("ROUTER", "DEALER", " id=d%(peer)d", peers)
    return over(said, count, exchange([peers - 1], "send m d%d message x y"))


def publish(count, peers, topics, matches):
    """A send, and a receive of each message that it commits. Where the lines don't suffice for so many SUBs, the first
    has one pair, and nine share the others. What nobody wants comes first: at each line the PUB hears 256 topics."""
    subs = peers if peers * (topics + 2) <= count // 2 else 10
    own = [0] + [1 + peer % (subs - 1) for peer in range(peers - 1)]
    said = ["actor a", "socket m PUB", "bind m inproc://q"] + ["socket p%d SUB" % sub for sub in range(subs)]
    said += ["connect p%d inproc://q" % sub for sub in own]
    for sub in range(subs):
        name = "all" if sub == 0 or matches > 1 else "own%d" % sub
        said += ["sub p%d %s.%d" % (sub, name, topic) for topic in range(topics)]
    said += ["send m none"] * (peers * topics // 256 + 1)
    return over(said, count, ["send m all.0 x y"] + ["recv p%d" % sub for sub in own[:matches]])


def subscribe(count, peers, topics):
    """Each XSUB subscribes to its topics, and cancels them; the XPUB receives each change."""
    turn = []
    for octet in ("01", "00"):
        for topic in range(topics):
            for peer in range(peers):
                name = ("t%d.%d" % (peer, topic)).encode().hex()
                turn += ["send p%d 0x%s%s" % (peer, octet, name), "recv m"]
    return over(star("XPUB", "XSUB", "", peers), count, turn)


def follow(count, peers):
    """Each PUB sends, and the SUB receives."""
    said = star("SUB", "PUB", "", peers) + ["sub m -"]
    return over(said, count, [line % peer if "%" in line else line for peer in range(peers)
                              for line in ("send p%d message x y", "recv m")])


def beside(count, others):
    said = []
    for other in range(others):
        said += ["socket o%d PUB" % other, "socket p%d SUB" % other]
        said += ["bind o%d inproc://o%d" % (other, other), "connect p%d inproc://o%d" % (other, other)]
    return lines(count, said)


def stream(size):
    """A greeting, a READY and messages of one frame."""
    greeting = bytes.fromhex("ff00000000000000007f0300") + b"NULL" + bytes(48)
    ready = b"\x04\x1a\x05READY\x0bSocket-Type\0\0\0\x04PUSH"
    head = b"\0" + bytes([size]) if size < 256 else b"\x02" + size.to_bytes(8, "big")
    return greeting + ready + (head + b"a" * size) * (64_000_000 // size)


def wait(count, waiting):
    said = ["actor a", "socket s PUSH", "socket r PULL"] + waiting * ["connect s inproc://nobody"]
    return text(said + ["bind r inproc://name%d" % name for name in range(count)], count)


def long(count, octets):
    said = ["actor a", "socket m PUB", "socket p SUB", "bind m inproc://q", "connect p inproc://q"]
    return over(said + ["sub p " + "a" * octets], count, ["send m " + "a" * octets, "recv p"])


def close(count, pairs):
    """So many sockets are made, each with a pair, and closed again, over and over."""
    made = [line % one for one in range(pairs) for line in ("socket s%d PUSH", "connect s%d inproc://q")]
    return over(["actor a", "socket r PULL", "bind r inproc://q"], count, made + ["close s%d" % one for one in range(pairs)])


def bare(count):
    return text(["actor a"] + ["socket s%d PUSH" % one for one in range(count)], count)


def own(pairs):
    made = ("socket r%d PULL", "bind r%d inproc://q%d", "socket s%d PUSH", "connect s%d inproc://q%d")
    said = ["actor a"] + [line.replace("%d", str(one)) for one in range(pairs) for line in made]
    said += [line % one for line in ("close s%d", "close r%d") for one in range(pairs)]
    return text(said, len(said))


def join(count, mark=None):
    marks = (" rcvhwm=%d" % mark, " hwm=%d" % mark) if mark else ("", "")
    said = ["actor a", "socket r PULL" + marks[0], "socket s PUSH" + marks[1], "bind r inproc://q"]
    return over(said, count, ["connect s inproc://q"])


def waiting(count, closed):
    said = ["actor a", "socket r PULL", "bind r inproc://q", "socket x PUSH", "socket y PULL"]
    said += ["bind y inproc://z", "connect x inproc://z"]
    said += [line % one for one in range(closed) for line in ("socket s%d PUSH", "connect s%d inproc://q")]
    said += ["close s%d" % one for one in range(closed)]
    return over(said, count, ["send x m", "recv y"])


def spent():
    used = resource.getrusage(resource.RUSAGE_CHILDREN)
    return used.ru_utime + used.ru_stime


def least(program, octets):
    times = []
    for _ in range(7):
        before = spent()
        subprocess.run(program, input=octets, stdout=subprocess.DEVNULL, check=False)
        times.append(spent() - before)
    return min(times)


def main():
    words = sys.argv[1:]
    program = []
    if "--" in words:
        program = words[words.index("--") + 1:]
        words = words[:words.index("--")]
    makers = {"lines": lines, "many": many, "stream": stream, "pair": pair, "ask": ask, "deal": deal, "route": route,
              "one": one, "publish": publish, "subscribe": subscribe, "follow": follow, "beside": beside, "wait": wait,
              "long": long, "close": close, "bare": bare, "own": own, "join": join,
              "waiting": waiting}
    if not words or words[0] not in makers:
        sys.exit(__doc__)
    octets = makers[words[0]](*[int(word) for word in words[1:]])
    if program:
        print(len(octets), "octets", least(program, octets), "seconds")
    else:
        sys.stdout.buffer.write(octets)


main()
