"""The functions of include/gidzork.h, by ctypes: one input at a time, and what came of it."""
import ctypes as c
import os
import struct
import time

HERE = os.path.dirname(os.path.abspath(__file__))
LIBRARY = os.path.join(os.path.dirname(HERE), "out", "libgidzork.so")
CONTINUES, ENDED, NOTHING, TOO_SHORT, NOT_NOW = 0, 1, 2, 14, 16
REFUSE, ACCEPT, KEEP = 0, 1, 2
REFUSED, LET_IN, SIGNATURE_HOLDS = 0, 1, 2
EOF, CLOSE, SUCCESS, FAILURE, EXIT_STATUS = 1, 2, 3, 4, 5
KEEPALIVE = 1
U32, U64 = c.c_uint32, c.c_uint64


def fields(*words):
    return [(name, kind) for kind, names in words for name in names.split()]


class Handle(c.Structure):
    _fields_ = fields((c.c_void_p, "at"), (c.c_bool, "live"))


class Setup(c.Structure):
    _fields_ = fields(
        (U32, "methods sessions direct_tcpip direct_streamlocal window_size"),
        (U32, "maximum_packet_size max_auth_attempts keepalive_max"),
        (U64, "auth_rejection_time auth_rejection_time_initial rekey_bytes"),
        (c.c_bool, "repeatable"))


class Entry(c.Structure):
    _fields_ = fields((U32, "kind channel"), (U64, "number"), (U32, "second"),
                      (c.c_size_t, "length"))


class Question(c.Structure):
    _fields_ = fields((U32, "kind"), (c.c_bool, "certificate"), (c.c_size_t, "length"))


def now():
    """Milliseconds since 1970."""
    return int(time.time() * 1000)


def strings(data, count):
    """The first strings of these fields, and what follows them."""
    found = []
    for _ in range(count):
        (length,) = struct.unpack_from(">I", data)
        found.append(data[4:4 + length])
        data = data[4 + length:]
    return found + [data]


class Held:
    """What a handle of the library holds."""

    def __init__(self, room):
        self.core, self.handle = c.CDLL(LIBRARY), Handle()
        self.here, self.out = c.byref(self.handle), c.create_string_buffer(room)

    def call(self, name, *words):
        """Calls a function: bytes go as a pointer and a length."""
        args = [self.here]
        for word in words:
            args += [c.c_char_p(word), c.c_size_t(len(word))] if isinstance(word, bytes) else [word]
        return getattr(self.core, "gidzork_" + name)(*args)


class Files(Held):
    """A file server for one channel."""

    def __init__(self):
        super().__init__(1 << 15)
        self.count = c.c_size_t()
        code = self.call("sftp_open")
        if code != CONTINUES:
            raise OSError(code)

    def next(self, most):
        """The next bytes of its answers, so many at most; none where none wait."""
        room = c.c_size_t(min(most, len(self.out)))
        code = self.call("sftp_next", self.out, room, c.byref(self.count))
        return self.out[:self.count.value] if code == CONTINUES else b""


class Connection(Held):
    """One connection. What an input led to is what `taken` gives before the next input."""

    def __init__(self, session_id, remote, **setup):
        super().__init__(1 << 17)
        self.tickets, self.entry = 0, Entry()
        default = dict(methods=6, sessions=ACCEPT, window_size=1 << 21, max_auth_attempts=6,
                       maximum_packet_size=1 << 15, keepalive_max=3, auth_rejection_time=300,
                       repeatable=True)
        code = self.call("open", c.byref(Setup(**(default | setup))), session_id, remote)
        if code != CONTINUES:
            raise OSError(code)

    def room(self, length):
        """A place for so many bytes."""
        if length > len(self.out):
            self.out = c.create_string_buffer(length)
        return self.out, c.c_size_t(len(self.out))

    def taken(self):
        """What happened and was not taken out yet: kind, channel, two numbers and bytes."""
        entry, code, length = self.entry, CONTINUES, 0
        while code in (CONTINUES, TOO_SHORT):
            code = self.call("next", *self.room(length), c.byref(entry))
            length = entry.length
            if code == CONTINUES:
                yield entry.kind, entry.channel, entry.number, entry.second, self.out[:length]

    def question(self, payload):
        """What a payload asks of a user: its kind, whether by a certificate, and its fields."""
        asked, code = Question(), TOO_SHORT
        while code == TOO_SHORT:
            code = self.call("question", U64(now()), payload, *self.room(asked.length),
                             c.byref(asked))
        if code == CONTINUES:
            return asked.kind, asked.certificate, self.out[:asked.length]

    def feed(self, payload, verdict):
        return self.call("feed", U64(now()), payload, U32(verdict))

    def exchange(self, payload, keys_in_use):
        return self.call("exchange", U64(now()), payload, c.c_bool(keys_in_use))

    def tick(self, kind):
        return self.call("tick", U64(now()), U32(kind))

    def data(self, channel, piece, ext):
        self.tickets += 1
        return self.call("data", U64(now()), U64(self.tickets), U32(channel), U32(ext), piece)

    def command(self, kind, channel, number):
        self.tickets += 1
        return self.call("command", U64(now()), U64(self.tickets), U32(kind), U32(channel),
                         U32(number))

    def answer_open(self, channel, reason):
        self.tickets += 1
        return self.call("answer_open", U64(now()), U64(self.tickets), U32(channel), U32(reason))

    def commands_wanted(self):
        return bool(self.call("commands_wanted") & 255)
