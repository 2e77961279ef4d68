"""Gwirandol from Python, with ctypes: IBM MQ trace-route messages (PCF).

    import gwirandol as gw

    trace = gw.Trace.compose({gw.Attribute.DETAIL: gw.Level.MEDIUM, gw.Attribute.MAX_ACTIVITIES: 10,
                              gw.Attribute.ACCUMULATE: gw.Route.ACCUMULATE_IN_MSG,
                              gw.Attribute.FORWARD: gw.Route.FORWARD_ALL,
                              gw.Attribute.DELIVER: gw.Route.DELIVER_NO})
    done = trace.activity(group, gw.Level.LOW, gw.Option.TRACE_ROUTE_MESSAGING)
    print(gw.listing(trace.message))

With embedding=gw.Embedding(format=b"MQSTR   "), user=b"hello", compose makes an embedded message, and gw.Trace(message,
embedded=True) takes one. The functions that are given a message take `embedded` too; it is never guessed.

A refusal is an exception, Refused, with number, place and words. The loader must find libgwirandol.so.0.5, for instance by
LD_LIBRARY_PATH. The names are those of gwirandol.h, without the prefixes that C needs.
"""

import ctypes
import enum
from ctypes import POINTER, byref, c_bool, c_char, c_size_t, c_uint8, c_uint32, c_uint64
from dataclasses import dataclass


class Refusal(enum.IntEnum):
    ACCEPTED = 0
    LENGTH = 1
    HEADER = 2
    STRUCTURE = 3
    DEPTH = 4
    LEFT_OVER = 5
    TRACE_HEADER = 6
    TRACE_ROUTE = 7
    ATTRIBUTE = 8
    GROUP = 9
    MAX_ACTIVITIES = 10
    COUNTER_FULL = 11
    NO_ROOM = 12
    REPORT_TOO_SHORT = 13
    UNSUPPORTED_DELIVERY = 14
    UNSUPPORTED_FORWARDING = 15
    NOT_FORWARDED = 16
    SHEET = 17
    EMBEDDED_HEADER = 18


class Attribute(enum.IntEnum):
    """The places of the eight attributes in a sheet and in a list of values."""
    DETAIL = 0
    RECORDED_ACTIVITIES = 1
    UNRECORDED_ACTIVITIES = 2
    DISCONTINUITY_COUNT = 3
    MAX_ACTIVITIES = 4
    ACCUMULATE = 5
    FORWARD = 6
    DELIVER = 7


class Level(enum.IntEnum):
    """Detail's values, and the levels of activities."""
    LOW = 2
    MEDIUM = 8
    HIGH = 32


class Route(enum.IntEnum):
    UNLIMITED_ACTIVITIES = 0
    ACCUMULATE_NONE = 0x10003
    ACCUMULATE_IN_MSG = 0x10004
    ACCUMULATE_AND_REPLY = 0x10005
    FORWARD_ALL = 0x100
    FORWARD_IF_SUPPORTED = 0x200
    DELIVER_YES = 0x1000
    DELIVER_NO = 0x2000


class Option(enum.IntFlag):
    REPORTS_ASKED = 1
    ACTIVITY_RECORDING = 2
    TRACE_ROUTE_MESSAGING = 4
    REMOTE_SUPPORTS = 8
    EMBEDDED = 16


class Field(enum.IntEnum):
    """The places of the numbers that an embedded header says of the user data."""
    ENCODING = 0
    CODED_CHAR_SET_ID = 1
    FLAGS = 2


class Decision(enum.IntEnum):
    FORWARD = 1
    PUT = 2
    WITHHOLD = 3


class Feedback(enum.IntEnum):
    """IBM's feedback codes."""
    MAX_ACTIVITIES = 282
    NOT_FORWARDED = 283
    UNSUPPORTED_FORWARDING = 285
    UNSUPPORTED_DELIVERY = 286


MOST = 65536
WORDS_BYTES = 128
LISTING_BYTES = 131072
FORMAT_BYTES = 8
TYPES = 27
IBM_SHEET = (1234, 1235, 1257, 1237, 1236, 1238, 1259, 1239)


class Row(ctypes.Structure):
    _fields_ = [(name, c_uint64) for name in ("depth", "place", "type", "parameter", "length", "members", "next")]


class Done(ctypes.Structure):
    _fields_ = [(name, c_uint64) for name in ("counter", "appended", "report_length", "message_length")]


class Part(ctypes.Structure):
    _fields_ = [(name, c_uint64) for name in ("place", "length")]


# ctypes takes every result for an int and checks no argument, unless it is told: a 64-bit answer would be cut
_answer = c_uint64
_bytes = POINTER(c_uint8)
_numbers = POINTER(c_uint32)
_message = (_bytes, c_size_t, c_size_t)
_trace = (*_message, _numbers, c_uint32)

# with the minor number: the parameters below are this version's
_library = ctypes.CDLL("libgwirandol.so.0.5")


def _declare(name, result, *arguments):
    function = getattr(_library, name)
    function.restype = result
    function.argtypes = arguments
    return function


_compose = _declare("gw_compose", _answer, _numbers, _numbers, c_uint32, _numbers, _bytes, _bytes, c_size_t, _bytes, c_size_t)
_check = _declare("gw_check", _answer, *_message, c_uint32)
_tally = _declare("gw_tally", _answer, *_message, c_uint32, _numbers)
_list = _declare("gw_list", _answer, *_message, c_uint32, _bytes)
_step = _declare("gw_step", _answer, *_message, c_uint32, c_size_t, c_uint32, POINTER(Row))
_read = _declare("gw_read", _answer, *_trace, _numbers, _numbers, _bytes)
_forward = _declare("gw_forward", _answer, *_trace)
_arrive = _declare("gw_arrive", _answer, *_trace)
_discontinuity = _declare("gw_discontinuity", _answer, *_trace, POINTER(Done))
_activity = _declare("gw_activity", _answer, *_trace, c_uint32, _bytes, c_size_t, _bytes, c_size_t, POINTER(Done))
_activity_group = _declare("gw_activity_group", None, *_trace, c_size_t, POINTER(Part))
_named_string = _declare("gw_named_string", c_bool, *_trace, c_size_t, c_uint32, POINTER(Part))
_feedback = _declare("gw_feedback", c_uint32, c_uint32)
_words = _declare("gw_words", c_size_t, c_uint32, POINTER(c_char))
_version = _declare("gw_version", c_uint32)


def version():
    """The version of the library: major version times 1,000,000, minor times 1,000, and patch level."""
    return _version()


def words(refusal):
    """A refusal's number in words."""
    text = ctypes.create_string_buffer(WORDS_BYTES)
    length = _words(refusal, text)
    return text.raw[:length].decode("ascii")


def feedback(refusal):
    """IBM's feedback code for a refusal's number, or 0."""
    return _feedback(refusal)


class Refused(Exception):
    """A refusal: its number, its place in the message, and of MAX_ACTIVITIES whether a reply is owed."""

    def __init__(self, number, value):
        super().__init__(words(number))
        self.number = Refusal(number)
        self.reply_owed = number == Refusal.MAX_ACTIVITIES and value == 1
        self.place = 0 if number == Refusal.MAX_ACTIVITIES else value
        self.feedback = feedback(number)


def _given(answer):
    """What an answer gives; a refusal is raised."""
    number, value = answer % 32, answer // 32
    if number != Refusal.ACCEPTED:
        raise Refused(number, value)
    return value


def _lent(data):
    """Bytes as C takes them: a message that only is looked at is a buffer of its own length."""
    return (c_uint8 * len(data)).from_buffer_copy(data)


def _form(embedded):
    return Option.EMBEDDED if embedded else 0


def check(message, embedded=False):
    """The number of structures of a message of any kind."""
    return _given(_check(_lent(message), len(message), len(message), _form(embedded)))


def tally(message, embedded=False):
    """The number of structures of each type from 0 to 26."""
    counts = (c_uint32 * TYPES)()
    _given(_tally(_lent(message), len(message), len(message), _form(embedded), counts))
    return list(counts)


def listing(message, embedded=False):
    """The listing that pcflist prints, or pcflist_embedded."""
    text = (c_uint8 * LISTING_BYTES)()
    length = _given(_list(_lent(message), len(message), len(message), _form(embedded), text))
    return bytes(text[:length]).decode("ascii")


def step(message, place, depth=1, embedded=False):
    """The one structure at a place: a Row, whose `next` is the place behind it."""
    row = Row()
    _given(_step(_lent(message), len(message), len(message), _form(embedded), place, depth, byref(row)))
    return row


@dataclass
class Embedding:
    """What an embedded header says of the user data."""
    encoding: int = 0
    coded_char_set_id: int = 0
    format: bytes = bytes(FORMAT_BYTES)
    flags: int = 0

    def _lend(self):
        # C takes eight bytes, however many there are
        if len(self.format) != FORMAT_BYTES:
            raise ValueError("a format has eight bytes")
        return (c_uint32 * len(Field))(self.encoding, self.coded_char_set_id, self.flags), _lent(self.format)


@dataclass
class Entered:
    """What an event did: the attribute that rose by one, whether the group was appended, and the report, if one is due."""
    counter: Attribute
    appended: bool
    report: bytes


class Trace:
    """A trace-route message, in a buffer that it can grow in."""

    def __init__(self, message, sheet=IBM_SHEET, embedded=False):
        self._buffer = (c_uint8 * max(MOST, len(message)))()
        self._buffer[:len(message)] = message
        self._length = len(message)
        self._sheet = (c_uint32 * len(Attribute))(*sheet)
        self._form = _form(embedded)

    @classmethod
    def compose(cls, values, sheet=IBM_SHEET, embedding=None, user=b""):
        """A new message with these values, a dictionary by attribute; the counters and the limit may be left out. With an
        embedding it is embedded, and the user data go behind it."""
        # C would pass over them
        if user and embedding is None:
            raise ValueError("a plain message has no user data")
        trace = cls(b"", sheet, embedding is not None)
        eight = (c_uint32 * len(Attribute))(*(values.get(attribute, 0) for attribute in Attribute))
        trace._length = _given(_compose(trace._sheet, eight, trace._form, *(embedding or Embedding())._lend(), _lent(user),
                                        len(user), trace._buffer, len(trace._buffer)))
        return trace

    @property
    def message(self):
        return bytes(self._buffer[:self._length])

    def values(self):
        """The eight values, a dictionary by attribute."""
        return self._read()[0]

    def embedding(self):
        """What the embedded header says of the user data; zeros of a plain message."""
        return self._read()[1]

    def user_data(self):
        """The sender's own data behind an embedded message; a plain one has none."""
        return self.message[self._read()[2]:]

    def _read(self):
        """Values, embedding, and the place of the user data."""
        eight, fields, text = (c_uint32 * len(Attribute))(), (c_uint32 * len(Field))(), (c_uint8 * FORMAT_BYTES)()
        place = _given(_read(*self._lend(), eight, fields, text))
        embedding = Embedding(fields[Field.ENCODING], fields[Field.CODED_CHAR_SET_ID], bytes(text), fields[Field.FLAGS])
        return {attribute: eight[attribute] for attribute in Attribute}, embedding, place

    def forward(self, options=0):
        """Whether it may go to a remote queue manager: Option.REMOTE_SUPPORTS says what that one does."""
        return Decision(_given(_forward(*self._lend(options))))

    def arrive(self):
        """What happens to it at its queue."""
        return Decision(_given(_arrive(*self._lend())))

    def discontinuity(self):
        """Enters a discontinuity."""
        done = Done()
        _given(_discontinuity(*self._lend(), byref(done)))
        return self._entered(done, b"")

    def activity(self, group, level, options=0):
        """Enters an activity, with its Activity group in bytes."""
        done = Done()
        report = (c_uint8 * MOST)()
        _given(_activity(*self._lend(options), level, _lent(group), len(group), report, MOST, byref(done)))
        return self._entered(done, bytes(report[:done.report_length]))

    def activity_group(self, n):
        """The n-th Activity group, from 0; no bytes if there is none."""
        part = Part()
        _activity_group(*self._lend(), n, byref(part))
        return self._bytes_of(part)

    def name(self, n, identifier, substitute=b""):
        """A string of the n-th Activity group without its trailing blanks and zero bytes, or the substitute, whole."""
        part = Part()
        return self._bytes_of(part) if _named_string(*self._lend(), n, identifier, byref(part)) else substitute

    def _lend(self, options=0):
        # the trace knows its form, whatever the options say; `~` of a flag would take the bits without a name along
        return self._buffer, len(self._buffer), self._length, self._sheet, options & ~int(Option.EMBEDDED) | self._form

    def _bytes_of(self, part):
        return bytes(self._buffer[part.place:part.place + part.length])

    def _entered(self, done, report):
        self._length = done.message_length
        return Entered(Attribute(done.counter), done.appended == 1, report)
