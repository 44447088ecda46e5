#!/usr/bin/env python3
"""Talks to a store: sends the lines of standard input to a socket, and prints what comes back.

    tools/talk.py SOCKET

At the end of its input it prints the replies that are still to come, and ends when the store has sent them all. Exit
status: 0, or 2 if it can't connect.
"""
import socket
import sys
import threading


def send(connection):
    """Sends the lines as they come, and then says that no more follow."""
    try:
        for line in sys.stdin.buffer:
            connection.sendall(line)
        connection.shutdown(socket.SHUT_WR)
    except OSError:
        pass  # the store has closed the connection, which ends the replies too


def main():
    if len(sys.argv) != 2 or sys.argv[1].startswith("-"):
        sys.exit(__doc__)
    connection = socket.socket(socket.AF_UNIX)
    try:
        connection.connect(sys.argv[1])
    except OSError as error:
        print("talk.py: %s: %s" % (sys.argv[1], error.strerror or error), file=sys.stderr)
        sys.exit(2)
    threading.Thread(target=send, args=[connection], daemon=True).start()
    while received := connection.recv(65536):
        sys.stdout.buffer.write(received)
        sys.stdout.buffer.flush()


if __name__ == "__main__":
    main()
