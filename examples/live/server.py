#!/usr/bin/python3
"""A server of SSH on a loopback port: packets, ciphers and the exchange of keys are paramiko's,
all above them is gidzork's. Users come in by password and key; it serves programs, shells (with a
terminal where one is asked for), connections to listed ports of this machine, and files in memory.

    server.py --user NAME:PASSWORD [--key NAME:FILE] [--forward PORT] [--port PORT]
"""
import argparse
import base64
import fcntl
import os
import pty
import select
import socket
import struct
import subprocess
import sys
import termios
import time

import paramiko
from paramiko.common import MSG_KEXINIT, MSG_NEWKEYS

import gidzork
from gidzork import strings

PIECE = 1 << 15
HOST_KEY = "ecdsa-sha2-nistp256"
MOST_WAITING = 64 << 20  # bytes for a program that does not read them


class Channel:
    """What a channel is joined to: a program's ends, a socket, or a file server."""

    def __init__(self, window, packet):
        self.window, self.packet, self.environment = window, packet, {}
        self.terminal = self.program = self.socket = self.files = None
        self.into, self.outs = None, {}  # where its data go; what is read, and as which data
        self.waiting, self.ended = bytearray(), False  # data on their way there, and their end


class Wire(paramiko.Transport):
    """One connection: its transport, and what its channels are joined to."""

    def __init__(self, sock, host_key, settings):
        super().__init__(sock)
        self.add_server_key(host_key)
        self.server_mode = self.active = True
        self.settings, self.line, self.channels, self.sockets = settings, None, {}, {}
        self.held, self.later, self.over, self.quiet_since = [], [], False, time.time()
        self.passes_over = False

    # ---- the transport

    def run(self):
        """Serves the connection to its end."""
        try:
            self.packetizer.write_all(self.local_version.encode() + b"\r\n")
            self._check_banner()
            self._send_kex_init()
            while not self.over:
                self.turn()
        except (EOFError, OSError, paramiko.SSHException) as why:
            self.say("gone: %r" % why)
        for number in list(self.channels):
            self.leave(number)
        if self.line is not None:
            self.line.call("free")
        self.packetizer.close()

    def say(self, text):
        if self.settings.verbose:
            print(text, file=sys.stderr, flush=True)

    def turn(self):
        """Waits for what comes next, and does it."""
        reads, writes = {self.sock: None}, {}
        wanted = self.line is not None and self.line.commands_wanted()
        for number, channel in self.channels.items():
            if channel.into is not None and (channel.waiting or channel.ended):
                writes[channel.into] = number
            if wanted and channel.window > 0:
                reads |= {out: number for out in channel.outs}
        due = self.quiet_since + self.settings.keepalive
        patience = min([due] + [moment / 1000 for moment, _ in self.held[:1]]) - time.time()
        ready, open_to, _ = select.select(reads, writes, [], max(0.0, patience))
        for place in open_to:
            self.pass_in(writes[place])
        for place in ready:
            if place is self.sock:
                self.hear()
            elif reads[place] in self.channels and not self.over:
                self.pass_out(reads[place], place)
        for number in [it for it, channel in self.channels.items() if channel.files]:
            self.serve_files(number)
        if time.time() >= due and self.line is not None:
            self.quiet_since = time.time()
            self.done(self.line.tick(gidzork.KEEPALIVE))
        self.hand_on()

    def hear(self):
        """Takes the next packet."""
        number, message = self.packetizer.read_message()
        payload = bytes([number]) + message.asbytes()
        self.quiet_since = time.time()
        if number == MSG_KEXINIT:
            self.exchange(payload, False)
            self._negotiate_keys(message)
            kex, key, _ = strings(payload[17:], 2)
            guessed = kex.split(b",")[0].decode(), key.split(b",")[0].decode()
            # A first packet that was guessed wrong is passed over (RFC 4253 section 7).
            self.passes_over = payload[-5] and guessed != (self.preferred_kex[0], HOST_KEY)
        elif number == MSG_NEWKEYS:
            self._parse_newkeys(message)
            self.exchange(payload, True)
            if self.line is None:
                self.packetizer.complete_handshake()
                self.line = gidzork.Connection(
                    self.session_id, self.remote_version.encode(),
                    direct_tcpip=gidzork.KEEP, rekey_bytes=self.settings.rekey)
        elif 20 <= number < 50 and not self.passes_over:
            self.exchange(payload, False)
            self.kex_engine.parse_next(number, message)
        elif 20 <= number < 50:
            self.passes_over = False
        elif self.line is not None:
            self.done(self.line.feed(payload, self.verdict(payload)))

    def _parse_kex_init(self, message):
        super()._parse_kex_init(message)
        if b"ext-info-c" in self.remote_kex_init:  # paramiko sees it at the end of the list alone
            self._remote_ext_info = "ext-info-c"

    def exchange(self, payload, keys_in_use):
        if self.line is not None:
            self.done(self.line.exchange(payload, keys_in_use))

    def done(self, code):
        """Does what an input led to, and then what waits for its turn."""
        while not self.over:
            for kind, channel, number, second, data in self.line.taken():
                if kind == 1:
                    self.held.append((number, data))
                else:
                    self.tell(kind, channel, number, second, data)
            self.hand_on()
            if code != gidzork.CONTINUES:
                self.say("over: %d" % code)
                self.over = True
            elif self.later and self.line.commands_wanted():
                call, words = self.later.pop(0)
                code = call(*words)
            else:
                return

    def hand_on(self):
        """Sends the frames that may go out: none before one that is held."""
        while self.held and self.held[0][0] <= gidzork.now():
            payload = self.held.pop(0)[1]
            if payload[0] == MSG_KEXINIT:
                if self.local_kex_init is None:
                    self._send_kex_init()
            else:
                self.packetizer.send_message(payload)

    def command(self, kind, number, word=0):
        self.later.append((self.line.command, (kind, number, word)))

    def close(self, number):
        """Closes a channel, of which nothing is told any more."""
        if number in self.channels:
            self.leave(number)
        return self.line.command(gidzork.CLOSE, number, 0)

    # ---- users

    def verdict(self, payload):
        """What this server says to a request of authentication."""
        asked = self.line.question(payload) if payload[0] in (50, 61) else None
        if asked is None:
            return gidzork.REFUSED
        kind, certificate, shown = asked
        name, shown = strings(shown, 1)
        user = [] if certificate else self.settings.users.get(name, [])
        if kind == 2 and strings(shown, 1)[:1] == user[:1]:
            return gidzork.LET_IN
        if kind in (3, 4):
            algorithm, blob, shown = strings(shown, 2)
            if blob in user[1:]:
                if kind == 3:
                    return gidzork.LET_IN
                if is_signed(algorithm, blob, *strings(shown, 2)[:2]):
                    return gidzork.SIGNATURE_HOLDS
        return gidzork.REFUSED

    # ---- channels

    def tell(self, kind, number, first, second, data):
        """Does what the connection tells."""
        channel = self.channels.get(number)
        if kind == 2:
            joined = self.sockets.pop(number, None)
            channel = self.channels[number] = Channel(first, second)
            if joined:
                channel.socket, channel.into = joined, joined.fileno()
                channel.outs = {joined.fileno(): 0}
        elif kind == 42:
            self.later.append((self.line.answer_open, (number, self.connect(number, data))))
        elif channel is None:
            return
        elif kind == 3:
            channel.window += first
        elif kind == 5:
            channel.waiting += data
            if len(channel.waiting) > MOST_WAITING:
                self.later.append((self.close, (number,)))
        elif kind == 7:
            channel.ended = True
        elif kind == 8:
            self.leave(number)
        elif kind in (11, 12, 13, 14, 15, 18):
            granted = self.ask(kind, channel, data)
            if first:
                self.command(gidzork.SUCCESS if granted else gidzork.FAILURE, number)

    def ask(self, kind, channel, data):
        """Does what a request asks; whether it is granted."""
        if kind == 15:
            name, value, _ = strings(data, 2)
            channel.environment[name] = value
        elif kind in (11, 18):
            if kind == 11:
                channel.environment[b"TERM"], data = strings(data, 1)
                channel.terminal = pty.openpty()
            if channel.terminal:
                columns, rows, width, height = struct.unpack_from(">4I", data)
                fcntl.ioctl(channel.terminal[0], termios.TIOCSWINSZ,
                            struct.pack("4H", rows, columns, width & 65535, height & 65535))
        elif channel.program or channel.files:
            return False
        elif kind in (12, 13):
            start(channel, ["/bin/sh", "-c", data] if kind == 13 else ["/bin/sh"])
        elif data == b"sftp":
            channel.files = gidzork.Files()
        else:
            return False
        return True

    def connect(self, number, data):
        """Connects to a listed port of this machine: 0, or why an open is refused."""
        host, rest = strings(data, 1)
        port = struct.unpack_from(">I", rest)[0]
        if port not in self.settings.forward or host not in (b"localhost", b"127.0.0.1"):
            return 1
        try:
            joined = socket.create_connection(("127.0.0.1", port), timeout=5)
        except OSError:
            return 2
        joined.setblocking(False)
        self.sockets[number] = joined
        return 0

    def pass_in(self, number):
        """Passes a channel's data to what it is joined to, and then their end."""
        channel = self.channels[number]
        try:
            if channel.waiting:
                del channel.waiting[:os.write(channel.into, channel.waiting[:1 << 16])]
            if channel.ended and not channel.waiting:
                if channel.terminal:
                    os.write(channel.into, b"\x04")
                elif channel.program:
                    channel.program.stdin.close()
                else:
                    channel.socket.shutdown(socket.SHUT_WR)
                channel.into = None
        except BlockingIOError:
            return
        except OSError:
            channel.waiting.clear()
            channel.into = None

    def pass_out(self, number, place):
        """Passes on what came of a program or a socket; at its end the channel is closed."""
        channel = self.channels[number]
        if channel.window == 0 or not self.line.commands_wanted():
            return
        try:
            piece = os.read(place, min(PIECE, channel.packet, channel.window))
        except BlockingIOError:
            return
        except OSError:
            piece = b""
        if piece:
            channel.window -= len(piece)
            self.done(self.line.data(number, piece, channel.outs[place]))
            return
        del channel.outs[place]
        if not channel.outs:
            status = channel.program.wait() if channel.program else None
            self.finish(number, 128 - status if status and status < 0 else status)

    def serve_files(self, number):
        """Gives a file server what its client sent, and sends its answers as far as they may go."""
        channel = self.channels.get(number)
        while number in self.channels and channel.window and self.line.commands_wanted():
            if piece := channel.files.next(min(channel.packet, channel.window)):
                channel.window -= len(piece)
                self.done(self.line.data(number, piece, 0))
            elif channel.waiting:
                if channel.files.call("sftp_feed", bytes(channel.waiting[:PIECE])):
                    channel.waiting, channel.ended = bytearray(), True
                del channel.waiting[:PIECE]
            elif channel.ended:
                channel.ended = False
                self.finish(number, channel.files.call("sftp_end"))
            else:
                return

    def finish(self, number, status):
        """Ends a channel's data, tells the status, and closes it."""
        self.command(gidzork.EOF, number)
        if status is not None:
            self.command(gidzork.EXIT_STATUS, number, status)
        self.later.append((self.close, (number,)))
        self.done(gidzork.CONTINUES)

    def leave(self, number):
        """The channel is gone, and so is what it was joined to."""
        channel = self.channels.pop(number)
        if channel.program:
            with channel.program:  # waits for it, and closes its ends
                channel.program.kill()
        if channel.terminal:
            os.close(channel.terminal[0])
        if channel.socket:
            channel.socket.close()
        if channel.files:
            channel.files.call("sftp_free")


def is_signed(algorithm, blob, message, signature):
    """Whether this is the key's signature of the message, by an algorithm of its own."""
    try:
        kind = strings(blob, 1)[0].decode()
        own = ("rsa-sha2-256", "rsa-sha2-512") if kind == "ssh-rsa" else (kind,)
        key = paramiko.Transport._key_info[kind](paramiko.Message(blob))
        shown = paramiko.Message()
        shown.add_string(algorithm)
        shown.add_string(signature)
        shown.rewind()
        return algorithm.decode() in own and key.verify_ssh_sig(message, shown)
    except (KeyError, ValueError, struct.error, paramiko.SSHException):
        return False


def start(channel, words):
    """Starts a program on a channel."""
    environment = dict(os.environb) | channel.environment
    ours, theirs = channel.terminal or (None, subprocess.PIPE)
    channel.program = subprocess.Popen(
        words, stdin=theirs, stdout=theirs, stderr=theirs, env=environment, start_new_session=True,
        preexec_fn=(lambda: fcntl.ioctl(0, termios.TIOCSCTTY, 0)) if ours else None)
    if ours:
        os.close(theirs)
        channel.into, channel.outs = ours, {ours: 0}
    else:
        channel.into = channel.program.stdin.fileno()
        channel.outs = {channel.program.stdout.fileno(): 0, channel.program.stderr.fileno(): 1}
    os.set_blocking(channel.into, False)


def main():
    words = argparse.ArgumentParser()
    words.add_argument("--port", type=int, default=2222)
    words.add_argument("--user", action="append", default=[], help="NAME:PASSWORD")
    words.add_argument("--key", action="append", default=[], help="NAME:FILE of a public key")
    words.add_argument("--forward", action="append", default=[], type=int, help="PORT")
    words.add_argument("--rekey", type=int, default=1 << 30, help="bytes under one set of keys")
    words.add_argument("--keepalive", type=int, default=30, help="seconds")
    words.add_argument("--verbose", action="store_true")
    settings = words.parse_args()
    settings.users = {}
    for name, password in (word.encode().split(b":", 1) for word in settings.user):
        settings.users[name] = [password]
    for name, file in (word.split(":", 1) for word in settings.key):
        with open(file) as keys:
            blob = base64.b64decode(keys.read().split()[1])
        settings.users.setdefault(name.encode(), [None]).append(blob)
    host_key = paramiko.ECDSAKey.generate()
    place = socket.create_server(("127.0.0.1", settings.port))
    print("listening at port", place.getsockname()[1], flush=True)
    while True:
        sock, _ = place.accept()
        sock.setsockopt(socket.IPPROTO_TCP, socket.TCP_NODELAY, 1)
        Wire(sock, host_key, settings).start()


if __name__ == "__main__":
    main()
