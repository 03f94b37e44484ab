#!/usr/bin/env python3
"""Sends a daemon behind a socket its stored request, as packaging/ starts one: check-daemon-socket.py PUMPD [REQUEST REPLY].

PUMPD is `pumpd` as it was built; REQUEST and REPLY are crates/pumpd/stdin and crates/pumpd/stdout where they are left out. A
connection to 127.0.0.1 becomes the standard input and output of `pumpd --inetd`. It is handed over by this program, and, on a host
that has it, by `systemd-socket-activate -a --inetd`, which does as `pumpd.socket` does. The request is sent without closing the
connection, so the reply has to come by the request's last byte, and the daemon has to end behind it. Each way has 20 seconds.

Status 0: each reply was the stored one; 1: one was not, or didn't come; 2: wrong words, or a file that can't be read.
"""
import os
import shutil
import socket
import subprocess
import sys
import time

TOP = os.path.dirname(os.path.dirname(os.path.abspath(__file__)))
STORED = [os.path.join(TOP, "crates/pumpd", name) for name in ("stdin", "stdout")]
HERE = "127.0.0.1"
LIMIT = 20
ACTIVATE = "systemd-socket-activate"


class Failed(Exception):
    """What went wrong on one way."""


def left(end):
    """The seconds up to an end."""
    seconds = end - time.monotonic()
    if seconds <= 0:
        raise Failed(f"no whole reply within {LIMIT} seconds")
    return seconds


def exchange(client, request, end):
    """The reply to a request, up to where the other side closes."""
    client.settimeout(left(end))
    client.sendall(request)
    pieces = []
    while piece := client.recv(65536):
        pieces.append(piece)
        client.settimeout(left(end))
    return b"".join(pieces)


def ended(process):
    """Ends a process that this program started."""
    if process.poll() is None:
        process.kill()
    return process.wait()


def handed_over(pumpd, request, end):
    """The reply of a daemon that gets the connection from this program."""
    with socket.create_server((HERE, 0)) as listener, socket.create_connection(listener.getsockname()) as client:
        served, _ = listener.accept()
        with served:
            process = subprocess.Popen([pumpd, "--inetd"], stdin=served, stdout=served)
        try:
            reply = exchange(client, request, end)
            status = process.wait(left(end))
        except subprocess.TimeoutExpired as error:
            raise Failed("the daemon doesn't end behind its reply") from error
        finally:
            ended(process)
    if status != 0:
        raise Failed(f"the daemon ends with {status}")
    return reply


def free_port():
    """A port of this host at which nothing listens now."""
    with socket.create_server((HERE, 0)) as listener:
        return listener.getsockname()[1]


def connected(address, process, end):
    """A connection to a process that is about to listen."""
    while process.poll() is None:
        try:
            return socket.create_connection(address, left(end))
        except ConnectionRefusedError:
            time.sleep(0.05)
    raise Failed(f"{ACTIVATE} ends with {process.returncode}: {process.stderr.read().decode(errors='replace').strip()}")


def activated(pumpd, request, end):
    """The reply of a daemon that gets the connection as systemd hands it over."""
    address = (HERE, free_port())
    command = [ACTIVATE, "-a", "--inetd", "-l", "%s:%d" % address, pumpd, "--inetd"]
    process = subprocess.Popen(command, stdin=subprocess.DEVNULL, stdout=subprocess.DEVNULL, stderr=subprocess.PIPE)
    try:
        with connected(address, process, end) as client:
            return exchange(client, request, end)
    finally:
        ended(process)
        process.stderr.close()


def tried(what, way, pumpd, request, wanted):
    """Whether the reply on one way is the one that is wanted."""
    try:
        reply = way(pumpd, request, time.monotonic() + LIMIT)
        if reply == wanted:
            print(f"{what}: the stored reply, {len(reply)} bytes")
            return True
        print(f"{what}: the reply differs: {reply[:200]!r}, not {wanted[:200]!r}")
    except (Failed, OSError) as error:
        print(f"{what}: {error}")
    return False


def main(words):
    if len(words) not in (1, 3) or words[0].startswith("-"):
        print("usage: check-daemon-socket.py PUMPD [REQUEST REPLY]", file=sys.stderr)
        return 2
    pumpd = os.path.abspath(words[0])
    if not os.access(pumpd, os.X_OK):
        print(f"check-daemon-socket.py: {words[0]} isn't there; `make demo` builds it", file=sys.stderr)
        return 2
    try:
        request, wanted = (open(path, "rb").read() for path in words[1:] or STORED)
    except OSError as error:
        print(f"check-daemon-socket.py: {error}", file=sys.stderr)
        return 2
    ways = [("a socket handed over", handed_over)]
    if shutil.which(ACTIVATE):
        ways.append((ACTIVATE, activated))
    else:
        print(f"{ACTIVATE} isn't there: tried without it")
    return 0 if all([tried(what, way, pumpd, request, wanted) for what, way in ways]) else 1


if __name__ == "__main__":
    sys.exit(main(sys.argv[1:]))
