"""Zrnkobal for Python: both ends of AT-BUP, by ctypes over the proved library.

A whole load, where send(data, rate) and receive(timeout) are yours:

    import zrnkobal

    for block in list(zrnkobal.blocks(open("app.ubf", "rb").read())):
        zrnkobal.load(block, send, receive)

For people there are blocks and block (UBF files), load (a whole load, written to be copied), Caller and Post (the two ends, fed bytes),
Reader and frame. Beneath them every call of include/zrnkobal.h stands here under its own name: lengths are left out, and the numbers that
come back stand behind the answer, as in `answer, count = zrn_frame_write(6, b"", out)`.

One rule each. A refusal is raised, as Refused. Bytes are bytes, a bytearray or a memoryview, never a str; what a call changes is a
bytearray or a writable memoryview, and is changed where it stands. A number is an int that its place can hold.

The shared library is target/archive/libexports.so, made by `tools/archive exports`; the environment variable ZRNKOBAL names another.
"""
import collections
import ctypes
import itertools
import os
import re
import time

NOTHING, WRITTEN, FRAME, DROPPED, DONE, FOUND, PAST, UNKNOWN = 0, 100, 101, 102, 103, 104, 105, 106
READER_BYTES, MODULE_BYTES, HOST_BYTES, CALLER_BYTES, POST_BYTES = 1047, 36, 56, 1123, 1095  # the records of the header
MESSAGE = 2072  # more than any message or reply takes
BAUD = {0: None, 1: 9600, 2: 19200, 3: 38400, 4: 57600, 5: 115200}  # rates by number; 0: the rate that the line had before the load

# ---- Every call of the header. read and write: a buffer and its length; a star: a number that comes back.

SIGNATURES = """
size words(u8 number, write out)
answer frame_write(u8 command, read payload, write out, size* count)
bool frame_is_content(read content)
bool escape_may_follow(u8 byte)
u8 escape_original(u8 byte)
answer reader_new(write state)
answer reader_step(write state, u8 byte, u8* command, size* count)
size reader_payload(read state, size count, size* place)
bool type_address(u16 type, u32* address)
answer ubf_read(read block, u16* type, u32* length, u32* start, u32* check)
answer ubf_block_at(read file, size n, u16* type, u32* length, u32* start, u32* check, size* place, size* count)
size ubf_size(u32 start, u32 length)
size ubf_image(read block, u32 start, u32 length, size* place)
size ubf_model(read block, size* place)
size ubf_version(read block, size* place)
size ubf_file_name(read block, size* place)
size ubf_date(read block, size* place)
answer ubf_write(u16 type, u32 address, u32 start, read model, read version, read name, read date, read image, write out, size* count)
answer module_open(write state, read flash)
bool module_is_open(read state)
answer module_frame(write state, u8 command, read payload, write flash, write reply, size* count)
answer module_wait(write state, u32 ms, write flash, write reply, size* count)
answer host_open(write state, u16 type, read image, u8 first, size wish, u8 start, u8 same, write out, size* count)
answer host_frame(write state, u8 command, read payload, read image, write out, size* count, u8* passed)
answer host_line(write state, read line, read image, write out, size* count, u8* passed)
answer host_wait(write state, u32 ms, read image, write out, size* count, u8* passed)
bool host_can_arise(read state)
size host_progress(read state, size* total)
u8 host_line_rate(read state)
u32 host_resent(read state)
answer restart_write(write out, size* count)
answer caller_open(write state, u16 type, read image, u8 first, size wish, u8 start, u8 same, write out, size* count)
answer caller_hear(write state, u8 byte, read image, write out, size* count, u8* passed)
answer caller_wait(write state, u32 ms, read image, write out, size* count, u8* passed)
u8 caller_view(read state, u8* rate, size* accepted, size* total, size* resent, size* dropped)
size piece_for(u32 baud)
answer post_new(write state)
answer post_open(write state, read flash)
answer post_hear(write state, u8 byte, write flash, write reply, size* count)
answer post_wait(write state, u32 ms, write flash, write reply, size* count)
u8 post_view(read state, u16* type, size* base, size* length, size* written, size* dropped, bool* idle)
u8 rate_agreed(read reply)
"""
_KINDS = {"u8": ctypes.c_uint8, "u16": ctypes.c_uint16, "u32": ctypes.c_uint32, "size": ctypes.c_size_t, "bool": ctypes.c_bool}
_KINDS["answer"] = _KINDS["u8"]
_BUFFERS = ("read", "write")


def _load_library():
    """Every call by its name, with its types set: the function, whether it refuses, its parameters."""
    top = os.path.dirname(os.path.dirname(os.path.abspath(__file__)))
    path = os.environ.get("ZRNKOBAL") or os.path.join(top, "target", "archive", "libexports.so")
    calls = {}
    try:
        library = ctypes.CDLL(path)
        for result, name, parameters in re.findall(r"(\w+) (\w+)\((.*)\)", SIGNATURES):
            function = getattr(library, "zrn_" + name)
            parameters = [tuple(parameter.split()) for parameter in parameters.split(", ")]
            function.restype, types = _KINDS[result], []
            for kind, _ in parameters:
                if kind in _BUFFERS:
                    types += [ctypes.c_void_p, ctypes.c_size_t]
                else:
                    types.append(ctypes.POINTER(_KINDS[kind[:-1]]) if kind.endswith("*") else _KINDS[kind])
            function.argtypes = types
            calls[name] = function, result == "answer", parameters
    except (OSError, AttributeError) as error:  # not there, or older than this file
        raise ImportError("zrnkobal: %s; build the library with `tools/archive exports` in %s" % (error, top)) from None
    return calls


_calls = _load_library()


_no_bytes = ctypes.create_string_buffer(1)  # stands for a buffer of length 0, which must have an address too


def _address(view):
    """Where the bytes of a view stand. Of those that may only be read Python's C interface alone says it."""
    if len(view) == 0:
        return ctypes.addressof(_no_bytes)
    place = (ctypes.c_void_p * 16)()  # a Py_buffer, with room to spare: its first word is the address
    ctypes.pythonapi.PyObject_GetBuffer(ctypes.py_object(view), place, 0)
    address = place[0]
    ctypes.pythonapi.PyBuffer_Release(place)  # the view itself still holds the bytes
    return address


def _view(buffer, name, changed=False):
    """A buffer as a memoryview: no copy, and nobody can resize the buffer as long as the view is there."""
    try:
        view = memoryview(buffer)
    except TypeError:
        raise TypeError("%s: bytes belong here, not %s" % (name, type(buffer).__name__)) from None
    if view.format != "B" or view.ndim != 1 or not view.c_contiguous:
        raise TypeError("%s: single bytes in one piece belong here" % name)
    if changed and view.readonly:
        raise TypeError("%s is changed: a bytearray or a writable memoryview belongs here, not %s" % (name, type(buffer).__name__))
    return view


def _number(number, name, kind):
    if not isinstance(number, int) or isinstance(number, bool):
        raise TypeError("%s: an int belongs here, not %s" % (name, type(number).__name__))
    largest = 256 ** ctypes.sizeof(_KINDS[kind]) - 1
    if not 0 <= number <= largest:
        raise ValueError("%s: %d is not from 0 to %d" % (name, number, largest))
    return number


class _Lent:
    """A call with its numbers checked and its buffers lent, to be run once or often. Left, it holds no buffer any more."""

    def __init__(self, name, arguments):
        self.function, self.refuses, parameters = _calls[name]
        self.words, self.views, self.back = [], {}, {}
        given = [what for kind, what in parameters if not kind.endswith("*")]
        if len(arguments) != len(given):
            raise TypeError("zrn_%s takes %s" % (name, ", ".join(given)))
        arguments, stretches = iter(arguments), []
        for kind, what in parameters:
            if kind in _BUFFERS:
                view = self.views[what] = _view(next(arguments), what, kind == "write")
                self.words += [_address(view), len(view)]
                stretches.append((self.words[-2], len(view), kind))
            elif kind.endswith("*"):
                self.back[what] = _KINDS[kind[:-1]]()
                self.words.append(ctypes.byref(self.back[what]))
            else:
                self.words.append(_number(next(arguments), what, kind))
        for (a, a_length, a_kind), (b, b_length, b_kind) in itertools.combinations(stretches, 2):
            if max(a, b) < min(a + a_length, b + b_length) and "write" in (a_kind, b_kind):
                raise ValueError("zrn_%s: two buffers overlap, and one of them is changed" % name)

    def __enter__(self):
        return self

    def __exit__(self, *_):
        for view in self.views.values():
            view.release()

    def run(self):
        answer, back = self.function(*self.words), [number.value for number in self.back.values()]
        if self.refuses and 1 <= answer <= 22:
            numbers, restart = dict(zip(self.back, back)), answer >= 21
            message = bytes(self.views["out"][: numbers["count"]]) if restart else b""
            raise Refused(answer, numbers.get("place"), numbers["passed"] if restart else None, message)
        return (answer, *back) if back else answer


def _call(name, *arguments):
    with _Lent(name, arguments) as lent:
        return lent.run()


def _each(name, state, numbers, *buffers):
    """A call made for each of some numbers, bytes as they come above all: the answers, one after another."""
    kind, what = _calls[name][2][1]
    with _Lent(name, (state, 0, *buffers)) as lent:
        for number in numbers:
            lent.words[2] = _number(number, what, kind)
            yield lent.run()


def _wrapped(name):
    def function(*arguments):
        return _call(name, *arguments)

    function.__name__ = function.__qualname__ = "zrn_" + name
    function.__doc__ = "zrn_%s(%s) of include/zrnkobal.h" % (name, ", ".join(" ".join(parameter) for parameter in _calls[name][2]))
    return function


globals().update({"zrn_" + name: _wrapped(name) for name in _calls})


class Refused(Exception):
    """A refusal: its number and words; the place of a faulty block in its file; for 21 and 22 the module's ACK or State passed on, and as
    message the restart frame, which is still to be sent. A Caller puts all that is still to be sent into messages, each with its rate."""

    def __init__(self, number, place=None, passed=None, message=b""):
        super().__init__(number, place, passed, message)
        self.number, self.words, self.place, self.passed, self.message = number, words(number), place, passed, message
        self.messages = []

    def __str__(self):
        place = "" if self.place is None else ", at byte %d of the file" % self.place
        return "refused %d, %s" % (self.number, self.words) + place + ("" if self.passed is None else ", byte %d passed on" % self.passed)


def words(number):
    """The words of a refusal number."""
    text = bytearray(64)
    return text[: _call("words", number, text)].decode("ascii")


# ---- Frames

Frame = collections.namedtuple("Frame", "command payload")


def _written(name, *arguments):
    """What a call writes, as bytes."""
    out = bytearray(MESSAGE)
    _, count = _call(name, *arguments, out)
    return bytes(out[:count])


def frame(command, payload=b""):
    """A frame as it goes on the wire."""
    return _written("frame_write", command, payload)


def restart():
    """The restart frame, for a load that is broken off."""
    return _written("restart_write")


class Reader:
    """A reader of frames. hear(data) answers the frames that the bytes complete; dropped counts those that were no good."""

    def __init__(self):
        self.state, self.dropped = bytearray(READER_BYTES), 0
        _call("reader_new", self.state)

    def hear(self, data):
        frames = []
        for answer, command, count in _each("reader_step", self.state, _view(data, "data")):
            self.dropped += answer == DROPPED
            if answer == FRAME:
                count, place = _call("reader_payload", self.state, count)
                frames.append(Frame(command, bytes(self.state[place : place + count])))
        return frames


# ---- UBF files

Block = collections.namedtuple("Block", "type address start check image model version name date place")


def address_of(type):
    """Where the images of a type begin in the flash; None if there is no such type."""
    known, address = _call("type_address", type)
    return address if known else None


def blocks(file):
    """The blocks of a UBF file, one after another; Refused, with its place, at the first faulty one. The image is a part of the file, no
    copy; the texts are bytes, without the zeros that fill their field."""
    return _blocks(_view(file, "file"))


def _blocks(file):
    for n in itertools.count():
        answer, kind, length, start, check, place, _ = _call("ubf_block_at", file, n)
        if answer == PAST:
            return
        own = file[place:]
        image = _part(own, "ubf_image", start, length)
        texts = [bytes(_part(own, "ubf_" + name)).rstrip(b"\0") for name in ("model", "version", "file_name", "date")]
        yield Block(kind, address_of(kind), start, check, image, *texts, place)


def _part(block, name, *numbers):
    count, place = _call(name, block, *numbers)
    return block[place : place + count]


def block(type, image, start=208, model=b"", version=b"", name=b"", date=b"", address=None):
    """A UBF block as bytes. The address is the type's own if none is given."""
    fields = [type, (address_of(type) or 0) if address is None else address, start, model, version, name, date, image]
    try:
        _call("ubf_write", *fields, bytearray())
    except Refused as refusal:  # 2: the fields are good, there is no room yet
        if refusal.number != 2:
            raise
    out = bytearray(_call("ubf_size", start, len(image)))
    _call("ubf_write", *fields, out)
    return bytes(out)


# ---- The host

Message = collections.namedtuple("Message", "data rate")  # bytes to be sent, and the rate that the line should have for them
CallerView = collections.namedtuple("CallerView", "stage rate accepted total resent dropped")


class Caller:
    """A host on a line, which loads one block. opening is its first message, in a list. hear(data) takes bytes as they come, any number
    of them, and wait(ms) time that has passed; both answer the list of messages to be sent, all of them. done: the module has the image and
    has restarted. progress: packets accepted and packets in all, (0, 0) before the piece size is set; they stay when the session ends.
    The image is lent as long as the caller is there."""

    def __init__(self, type, image, first=5, wish=1024, start=True, same=True):
        """first: the rate asked for first, 1 to 5; wish: the most bytes in a packet; start: whether the start text is sent; same: whether
        to go on where the module has the same version."""
        if first not in (1, 2, 3, 4, 5) or start not in (0, 1) or same not in (0, 1):
            raise ValueError("first is a rate from 1 to 5, start and same are True or False")
        self.state, self.image, self._out = bytearray(CALLER_BYTES), _view(image, "image"), bytearray(MESSAGE)
        self.done, self.progress = False, (0, 0)
        _, count = _call("caller_open", self.state, type, self.image, first, wish, int(start), int(same), self._out)
        self.opening = [Message(bytes(self._out[:count]), self.line_rate)]

    def hear(self, data):
        return self._taken("caller_hear", _view(data, "data"))

    def wait(self, ms):
        return self._taken("caller_wait", [ms])

    def _taken(self, name, numbers):
        messages = []
        try:
            with _Lent("caller_view", [self.state]) as look:
                for answer, count, _ in _each(name, self.state, numbers, self.image, self._out):
                    view = CallerView(*look.run())
                    if answer == WRITTEN:
                        messages.append(Message(bytes(self._out[:count]), view.rate))
                    if view.total:  # an ended session knows it no more, and what is known stays
                        self.progress = view.accepted, view.total
                    self.done = self.done or answer == DONE
        except Refused as refusal:
            refusal.messages = messages + [Message(refusal.message, self.line_rate)] * bool(refusal.message)
            raise
        return messages

    @property
    def view(self):
        """The stage, 0 to 6 as the header counts them; line rate, packets accepted and in all; messages resent and frames dropped."""
        return CallerView(*_call("caller_view", self.state))

    is_open = property(lambda self: self.view.stage != 0)
    line_rate = property(lambda self: self.view.rate, doc="The rate that the line should have now, 1 to 5; 0: as it was before the load.")
    resent = property(lambda self: self.view.resent, doc="Messages resent since the opening.")
    dropped = property(lambda self: self.view.dropped, doc="Frames dropped since the opening.")


def piece_for(baud):
    """The wish that suits a line of so many bits a second: its packets leave in half the time for an answer."""
    return _call("piece_for", baud)


def load(block, send, receive, type=None, first=5, wish=1024, start=True, same=True, progress=None, clock=time.monotonic):
    """Loads a block of blocks(), or an image if its type is given; answers the caller once the load is done. Copy it for your own loop.

    send(data, rate) sets the line to the rate (BAUD[rate]; 0: as it was before the load), sends all of the data, and comes back when it
    has left. receive(timeout) answers what has come, or b"" after so many seconds. progress(accepted, total) is called at each packet.
    A load that fails raises Refused, after all that was to be sent is sent; one broken off by Ctrl-C sends a restart frame."""
    type, image = (block.type, block.image) if type is None else (type, block)
    caller = Caller(type, image, first, wish, start, same)
    messages, told = caller.opening, (0, 0)
    try:
        while not caller.done:
            for message in messages:  # all of them: two frames that come at once bring two
                send(message.data, message.rate)
            if messages:
                then = clock()
            if progress and caller.progress != told:
                told = caller.progress
                progress(*told)
            messages = caller.hear(receive(0.1))
            if not messages:  # the session counts the time since its last message
                ms = max(0, int((clock() - then) * 1000))
                then += ms / 1000
                messages = caller.wait(min(ms, 0xFFFFFFFF))
    except Refused as refusal:
        for message in refusal.messages:
            send(message.data, message.rate)
        raise
    except KeyboardInterrupt:
        send(restart(), caller.line_rate)
        raise
    return caller


# ---- The module

PostView = collections.namedtuple("PostView", "phase type base length written dropped idle")


class Post:
    """A module on a line: it waits for the start text, answers it and opens a session over the flash, which is changed where it stands.
    With open=True it begins with a session. hear(data) takes bytes as they come and answers the replies as bytes; rate is the one that the
    module has once they have left, 0 its own. wait(ms) is time that has passed."""

    def __init__(self, flash, open=False):
        self.state, self.flash, self.rate = bytearray(POST_BYTES), _view(flash, "flash", True), 0
        _call("module_open", bytearray(MODULE_BYTES), self.flash)  # raises 3 for a flash over which no session can be opened
        _call("post_new", self.state)
        if open:
            _call("post_open", self.state, self.flash)

    def hear(self, data):
        replies, reply = [], bytearray(MESSAGE)
        for _, count in _each("post_hear", self.state, _view(data, "data"), self.flash, reply):
            if count:
                replies.append(bytes(reply[:count]))
                self.rate = (rate_agreed(replies[-1]) or self.rate) if self.is_open else 0
        return b"".join(replies)

    def wait(self, ms):
        _call("post_wait", self.state, ms, self.flash, bytearray(MESSAGE))
        self.rate = self.rate if self.is_open else 0

    @property
    def view(self):
        """The phase (0 waits, 1 ready, 2 parameters accepted, 3 loading, 4 done); the type, first address, length and written bytes of its
        range; frames dropped; whether the idle sum has closed the session."""
        return PostView(*_call("post_view", self.state))

    is_open = property(lambda self: self.view.phase != 0)


def rate_agreed(reply):
    """The rate that a reply of a module agrees to; 0 for any other reply."""
    return _call("rate_agreed", reply)
