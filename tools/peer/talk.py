"""Talks of the program `peer` with libzmq: `python3 talk.py PROGRAM ..` prints what each side heard."""
import subprocess
import sys
import threading
import time

import zmq

PROGRAM = sys.argv[1:]
context = zmq.Context()


def free_port():
    asked = context.socket(zmq.PAIR)
    port = asked.bind_to_random_port("tcp://127.0.0.1")
    asked.close(0)
    time.sleep(0.2)
    return port


def talk(title, kind, way, words, theirs, act):
    """Our engine is of this kind and dials or listens; `act` does what their socket does."""
    port = free_port()
    socket = context.socket(theirs)
    socket.setsockopt(zmq.RCVTIMEO, 2000)
    socket.setsockopt(zmq.LINGER, 200)
    if way == "dial":
        socket.bind(f"tcp://127.0.0.1:{port}")
    ours = subprocess.Popen([*PROGRAM, way, str(port), kind, *words], stdout=subprocess.PIPE)
    if way == "listen":
        time.sleep(0.5)
        socket.connect(f"tcp://127.0.0.1:{port}")
    heard = []
    thread = threading.Thread(target=act, args=(socket, heard))
    thread.start()
    text = ours.communicate(timeout=20)[0].decode()
    thread.join()
    socket.close()
    print(f"# {title}")
    print(f"libzmq heard {heard}")
    print(text)


def hear(count):
    def act(socket, heard):
        for _ in range(count):
            try:
                heard.append(socket.recv_multipart())
            except zmq.Again:
                heard.append("nothing")
    return act


def say(*messages):
    def act(socket, heard):
        time.sleep(0.5)
        for message in messages:
            socket.send_multipart(message)
    return act


def subscribe(socket, heard):
    socket.subscribe(b"weather")
    socket.subscribe(b"")
    socket.unsubscribe(b"")
    hear(1)(socket, heard)


def answer(socket, heard):
    heard.append(socket.recv_multipart())
    socket.send_multipart([b"the", b"answer"])


def ask(socket, heard):
    time.sleep(0.5)
    socket.send_multipart([b"a question"])


print("libzmq", zmq.zmq_version())
talk("our PULL listens, their PUSH dials", "PULL", "listen", [], zmq.PUSH,
     say([b"hello"], [b"two", b"frames"], [b""], [b"x" * 300]))
talk("our PUSH dials, their PULL listens", "PUSH", "dial", ["hello", "two|frames", "|"], zmq.PULL, hear(3))
talk("our PUB dials, their SUB listens", "PUB", "dial", ["weather rain"], zmq.SUB, subscribe)
talk("our XPUB listens, their SUB dials", "XPUB", "listen", ["weather rain"], zmq.SUB, subscribe)
talk("our REQ dials, their REP listens", "REQ", "dial", ["|question"], zmq.REP, answer)
talk("our ROUTER listens, their REQ dials", "ROUTER", "listen", [], zmq.REQ, ask)
talk("our DEALER listens, their DEALER dials", "DEALER", "listen", ["one"], zmq.DEALER, hear(1))
talk("our PULL listens, their PUB dials (they don't fit)", "PULL", "listen", [], zmq.PUB, say([b"weather"]))
