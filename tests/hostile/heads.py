"""What a connection's input is answered, by the grammar of request heads (RFC 9112) and the limits of docs/operate/CONFORMANCE.md.

`outputs` gives the outputs that are allowed for a whole input behind which nothing comes: one, but where the input ends inside a request
target that is no UTF-8 text already, which may be answered `Q1 head` or by closing.
"""
import re

from images import BAD_HEAD

BYTES, FIELDS, CALLS = 8192, 64, 1000
TOKEN = rb"[A-Za-z0-9!#$%&'*+.^_`|~-]"
URI = rb"[\x21-\x7e\x80-\xff]"
VALUE = rb"[\t\x20-\x7e\x80-\xff]"


class Never(Exception):
    """No head can come of these bytes, whatever follows."""


class Ends(Exception):
    """The bytes end inside a head; `either` says that a refusal is allowed as well."""

    def __init__(self, either=False):
        super().__init__()
        self.either = either


class Bytes:
    """Bytes that are read from the left."""

    def __init__(self, data):
        self.data, self.at = data, 0

    def line_end(self):
        """Whether a line ends here, CR LF or LF alone; takes it."""
        if self.at == len(self.data):
            raise Ends
        if self.data[self.at] == 10:
            self.at += 1
            return True
        if self.data[self.at] != 13:
            return False
        if self.at + 1 == len(self.data):
            raise Ends
        if self.data[self.at + 1] != 10:
            raise Never
        self.at += 2
        return True

    def run(self, kind):
        found = re.compile(kind + rb"*").match(self.data, self.at)
        self.at = found.end()
        return found.group()

    def token(self):
        """A token, behind which something has to come."""
        token = self.run(TOKEN)
        if self.at == len(self.data):
            raise Ends
        if not token:
            raise Never
        return token

    def expect(self, text):
        for byte in text:
            if self.at == len(self.data):
                raise Ends
            if self.data[self.at] != byte:
                raise Never
            self.at += 1


def text_of(target):
    """Whether bytes are UTF-8."""
    try:
        target.decode("utf-8")
        return True
    except UnicodeDecodeError:
        return False


def may_be_text(target):
    """Whether bytes can be lengthened to UTF-8."""
    tails = [b"", b"\x80", b"\x80\x80", b"\x80\x80\x80", b"\x90\x80", b"\x90\x80\x80", b"\xa0\x80"]
    return any(text_of(target + tail) for tail in tails)


def head(data):
    """Method, target, minor version, fields and length of the head at the front."""
    it = Bytes(data)
    while it.line_end():
        pass
    method = it.token()
    it.expect(b" ")
    target = it.run(URI)
    if it.at == len(data):
        raise Ends(either=not may_be_text(target))
    if not target or not text_of(target):
        raise Never
    it.expect(b" HTTP/1.")
    if it.at == len(data):
        raise Ends
    minor = data[it.at] - 48
    if minor not in (0, 1):
        raise Never
    it.at += 1
    if not it.line_end():
        raise Never
    fields = []
    while True:
        try:
            if it.line_end():
                return method, target, minor, fields, it.at
            name = it.token()
            it.expect(b":")
            value = it.run(VALUE)
            if not it.line_end():
                raise Never
            fields.append((name.lower(), value.strip(b" \t")))
        except Ends:
            if len(fields) > FIELDS:
                raise Never from None
            raise


def announces_body(fields):
    return any(name == b"transfer-encoding" or (name == b"content-length" and value != b"0") for name, value in fields)


def closes(minor, fields):
    return minor == 0 or any(name == b"connection" and b"close" in [word.strip(b" \t").lower() for word in value.split(b",")] for name, value in fields)


def outputs(data, answers):
    """The outputs allowed for an input behind which nothing comes."""
    out = b""
    for call in range(1, CALLS + 1):
        if not data:
            return [out]
        try:
            method, target, minor, fields, length = head(data[:BYTES])
        except Never:
            return [out + BAD_HEAD]
        except Ends as ends:
            if len(data) >= BYTES:
                return [out + BAD_HEAD]
            return [out, out + BAD_HEAD] if ends.either else [out]
        if len(fields) > FIELDS or announces_body(fields):
            return [out + BAD_HEAD]
        close = closes(minor, fields) or call == CALLS
        out += answers.answer(method, target, close)
        if close:
            return [out]
        data = data[length:]
    return [out]
