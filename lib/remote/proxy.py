#!/usr/bin/env python3
"""proxy.py PORT SERVER-PORT FAULT [NUMBER]: a proxy for a server on this machine, which does to its answers what the fault says.

    none        nothing
    cut         each connection ends after so many bytes of answers
    flip        a bit of the byte with that number is changed, in each connection
    slow        so many milliseconds go by before each byte
    silent      no answer comes, and nothing is read
    rubbish     so many bytes that nobody stored, for each piece of a question
"""
import os
import socket
import sys
import threading
import time

PORT, SERVER, FAULT = int(sys.argv[1]), int(sys.argv[2]), sys.argv[3]
NUMBER = int(sys.argv[4]) if len(sys.argv) > 4 else 0


def close(*ends):
    """Ends both directions of connections."""
    for end in ends:
        try:
            end.shutdown(socket.SHUT_RDWR)
        except OSError:
            pass


def give_answers(server, client):
    """Hands on what the server answers."""
    given = 0
    while part := server.recv(65536):
        if FAULT == "cut":
            part = part[: max(NUMBER - given, 0)]
        if FAULT == "flip" and given <= NUMBER < given + len(part):
            at = NUMBER - given
            part = part[:at] + bytes([part[at] ^ 4]) + part[at + 1 :]
        given += len(part)
        if FAULT == "slow":
            for byte in part:
                time.sleep(NUMBER / 1000)
                client.sendall(bytes([byte]))
        elif part:
            client.sendall(part)
        if FAULT == "cut" and given >= NUMBER:
            break
    close(server, client)


def hand_on(client):
    """Serves one connection."""
    try:
        if FAULT == "silent":
            time.sleep(120)
            return
        if FAULT == "rubbish":
            while client.recv(65536):
                client.sendall(os.urandom(NUMBER))
            return
        server = socket.create_connection(("127.0.0.1", SERVER))
        threading.Thread(target=quietly, args=(give_answers, server, client), daemon=True).start()
        while part := client.recv(65536):
            server.sendall(part)
        close(server)
    finally:
        if FAULT != "slow":
            time.sleep(0.2)
        client.close()


def quietly(work, *what):
    """Does some work, which ends when a connection does."""
    try:
        work(*what)
    except OSError:
        pass


listener = socket.create_server(("127.0.0.1", PORT), backlog=128)
while True:
    connection, _ = listener.accept()
    threading.Thread(target=quietly, args=(hand_on, connection), daemon=True).start()
