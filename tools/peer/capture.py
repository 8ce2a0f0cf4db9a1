"""Takes down what libzmq's sockets say to a side of ZMTP 3.0, as the files examples/libzmq_*.octets.

Needs Debian's python3-zmq; writes into the folder that is named, or the current one.
"""
import pathlib
import socket
import sys
import threading
import time

import zmq

HEAD = b"\xff" + bytes(8) + b"\x7f\x03\x00"
LOGIN = (b"alice", b"wonder")


def greeting(mechanism, is_server):
    return HEAD + mechanism.ljust(20, b"\0") + bytes([is_server]) + bytes(31)


def command(name, content):
    body = bytes([len(name)]) + name + content
    return b"\x04" + bytes([len(body)]) + body


def ready(kind):
    return command(b"READY", b"\x0bSocket-Type" + len(kind).to_bytes(4, "big") + kind)


def hear(server, kind, with_login, heard):
    """Accepts one link, shakes hands as a socket of this kind, and keeps all that comes."""
    link, _ = server.accept()
    link.settimeout(1.5)
    link.sendall(greeting(b"PLAIN" if with_login else b"NULL", with_login))
    replies = [(b"HELLO", command(b"WELCOME", b"")), (b"INITIATE", ready(kind))] if with_login else [(b"READY", ready(kind))]
    try:
        while data := link.recv(4096):
            heard.extend(data)
            if replies and replies[0][0] in heard:
                link.sendall(replies.pop(0)[1])
    except socket.timeout:
        pass
    link.close()


def capture(peer, kind, talk, with_login):
    server = socket.socket()
    server.bind(("127.0.0.1", 0))
    server.listen(1)
    heard = bytearray()
    thread = threading.Thread(target=hear, args=(server, kind, with_login, heard))
    thread.start()
    context = zmq.Context()
    sock = context.socket(peer)
    sock.setsockopt(zmq.LINGER, 500)
    if with_login:
        sock.setsockopt(zmq.PLAIN_USERNAME, LOGIN[0])
        sock.setsockopt(zmq.PLAIN_PASSWORD, LOGIN[1])
    talk(sock, "tcp://127.0.0.1:%d" % server.getsockname()[1])
    thread.join()
    sock.close()
    context.term()
    return bytes(heard)


def push(sock, at):
    sock.connect(at)
    sock.send(b"hello")
    sock.send_multipart([b"a", b"", b"x" * 300])


def ask(sock, at):
    sock.setsockopt(zmq.IDENTITY, b"client")
    sock.connect(at)
    sock.send(b"question")


def subscribe(sock, at):
    sock.setsockopt(zmq.SUBSCRIBE, b"news")
    sock.connect(at)
    time.sleep(0.3)
    sock.setsockopt(zmq.UNSUBSCRIBE, b"news")


def push_secret(sock, at):
    sock.connect(at)
    sock.send(b"secret")


ROWS = {
    "push": (zmq.PUSH, b"PULL", push, False),
    "req": (zmq.REQ, b"REP", ask, False),
    "sub": (zmq.SUB, b"PUB", subscribe, False),
    "plain": (zmq.PUSH, b"PULL", push_secret, True),
}
for name, row in ROWS.items():
    path = pathlib.Path(sys.argv[1] if len(sys.argv) > 1 else ".") / ("libzmq_%s.octets" % name)
    path.write_bytes(capture(*row))
