"""Where the requests of one connection begin and end, by the rules of the core (crates/resp_frames).

A request is handed on as its bytes come, whatever its size. Only what may be the relay's to answer (`answers.is_own`) is
held back until it is whole, and a header or a line until its end is there.
"""
import re

from relay.answers import OWN, is_own

LONGEST_LINE = 65_536  # bytes before a line's LF, or a header's CR
MOST_WORDS = 1_048_576
LONGEST_WORD = 536_870_912
# A request with more words, or with a longer one, is never the relay's: so little is held back.
FEW_WORDS = 16
SHORT_WORD = 512

COUNT = re.compile(rb"\*([1-9][0-9]{0,6})\r\n")
NO_WORDS = re.compile(rb"\*(?:0|-[1-9][0-9]*)\r\n")
LENGTH = re.compile(rb"\$(0|[1-9][0-9]{0,8})\r\n")
STATES = {b"QUIT", b"MULTI", b"EXEC", b"DISCARD"}
LOOKED_AT = STATES | OWN
LENGTHS = {len(name) for name in LOOKED_AT}
# The headers of a request's front, and of a word behind another.
FRONT = re.compile(COUNT.pattern + LENGTH.pattern)
NEXT = re.compile(rb"\r\n" + LENGTH.pattern)
CR, LF, STAR, DOLLAR = b"\r\n*$"


class Broken(Exception):
    """The bytes break a rule of RESP2."""


def await_header(data, at, mark):
    """Looks that the header there, which isn't a right one yet, may become one with more bytes."""
    if at == len(data):
        return
    if data[at] != mark:
        raise Broken
    end = data.find(b"\r", at, at + LONGEST_LINE + 1)
    if end < 0 and len(data) - at <= LONGEST_LINE or end == len(data) - 1:
        return
    raise Broken


def word_length(head):
    length = int(head[1])
    if length > LONGEST_WORD:
        raise Broken
    return length


def short_words(data, at, count):
    """The words of a request from there on and where they end; `([], at)` where more bytes are due, None where it isn't short."""
    words, here = [], at
    if count > FEW_WORDS:
        return None
    while len(words) < count:
        head = LENGTH.match(data, here)
        if head is None:
            await_header(data, here, DOLLAR)
            return [], at
        length = word_length(head)
        if length > SHORT_WORD:
            return None
        here = head.end() + length + 2
        if here > len(data):
            return [], at
        if data[here - 2 : here] != b"\r\n":
            raise Broken
        words.append(data[head.end() : here - 2])
    return words, here


def pass_whole(data, at):
    """Passes quickly over whole requests that are the core's, whatever was before; gives where it stands then and how many they were."""
    count = 0
    while front := FRONT.match(data, at):
        words, length = front.groups()
        length = int(length)
        here = front.end() + length
        if length in LENGTHS and data[front.end() : here].upper() in LOOKED_AT:
            break
        for _ in range(int(words) - 1):
            head = NEXT.match(data, here)
            if head is None:
                return at, count
            here = head.end() + int(head[1])
        if not data.startswith(b"\r\n", here):
            break
        at = here + 2
        count += 1
    return at, count


class Framer:
    """Cuts the bytes of a connection into what is the core's and what is the relay's.

    `ended` says that no byte behind is looked at: QUIT came, or bytes that break a rule.
    """

    def __init__(self):
        self.ended = False
        self.rest = b""  # came, and isn't given out yet
        self.words = 0  # so many words are due of a request whose front was given out
        self.left = 0  # so many bytes are due of a word whose front was given out, CR LF with them
        self.is_due = False  # a reply is due when that request is whole
        self.quits = False  # that request is QUIT
        self.in_multi = False
        self.own = None  # the words of a request that is the relay's

    def feed(self, data):
        """Takes the next bytes; lists in order `(bytes, n)`, which are the core's and get n replies, and `(None, words)`, the relay's."""
        if self.rest:
            data = self.rest + data
            self.rest = b""
        parts, start, at, asked = [], 0, 0, 0
        try:
            while at < len(data) and not self.ended:
                if not self.words and not self.left:
                    at, count = pass_whole(data, at)
                    asked += count
                    if at == len(data):
                        break
                    place = self.begin(data, at)
                    if place is None:
                        break
                    if self.own:
                        if start < at:
                            parts.append((data[start:at], asked))
                        parts.append((None, self.own))
                        self.own, start, at, asked = None, place, place, 0
                        continue
                    at = place
                at = self.go_on(data, at)
                if self.words or self.left:
                    break
                asked += self.is_due
                self.is_due, self.ended = False, self.quits
        except Broken:
            self.ended = True
            at, asked = len(data), asked + 1
        if start < at:
            parts.append((data[start:at], asked))
        if not self.ended:
            self.rest = data[at:]
        return parts

    def begin(self, data, at):
        """Reads the front of a request; gives where it stands then, or None where it has to wait for more bytes."""
        if data[at] != STAR:
            return self.begin_line(data, at)
        head = COUNT.match(data, at)
        if head is None:
            passed = NO_WORDS.match(data, at, at + LONGEST_LINE + 2)
            if passed is None:
                await_header(data, at, STAR)
                return None
            return passed.end()
        count = int(head[1])
        if count > MOST_WORDS:
            raise Broken
        first = LENGTH.match(data, head.end())
        if first is None:
            await_header(data, head.end(), DOLLAR)
            return None
        length = word_length(first)
        if length in LENGTHS:
            if len(data) < first.end() + length:
                return None
            name = data[first.end() : first.end() + length].upper()
            if name in OWN and not self.in_multi:
                found = short_words(data, head.end(), count)
                if found and not found[0]:
                    return None
                if found and is_own(found[0]):
                    self.own = found[0]
                    return found[1]
            elif name in STATES:
                self.follow(name, count)
        self.words, self.left, self.is_due = count - 1, length + 2, True
        return first.end()

    def begin_line(self, data, at):
        end = data.find(b"\n", at, at + LONGEST_LINE + 1)
        if end < 0:
            if len(data) - at > LONGEST_LINE:
                raise Broken
            return None
        line = data[at:end]
        if b'"' in line or b"'" in line:
            raise Broken
        words = [word for word in line.removesuffix(b"\r").replace(b"\t", b" ").split(b" ") if word]
        if words:
            name = words[0].upper()
            if name in OWN and not self.in_multi and is_own(words):
                self.own = words
            else:
                self.is_due = True
                self.follow(name, len(words))
        return end + 1

    def follow(self, name, count):
        """Keeps what a request says of its session."""
        self.quits = name == b"QUIT"
        if count == 1 and name == b"MULTI":
            self.in_multi = True
        elif count == 1 and name in (b"EXEC", b"DISCARD"):
            self.in_multi = False

    def go_on(self, data, at):
        """Passes over the words that are due as far as they came, and gives where it stands then."""
        if self.left:
            at = self.pass_word(data, at)
        while self.words and not self.left:
            head = LENGTH.match(data, at)
            if head is None:
                await_header(data, at, DOLLAR)
                return at
            self.left = word_length(head) + 2
            self.words -= 1
            at = self.pass_word(data, head.end())
        return at

    def pass_word(self, data, at):
        """Passes over what is left of a word with its CR LF."""
        end, size = at + self.left, len(data)
        if end > size:
            self.left = end - size
            if self.left == 1 and at < size and data[size - 1] != CR:
                raise Broken
            return size
        if data[end - 1] != LF or self.left > 1 and data[end - 2] != CR:
            raise Broken
        self.left = 0
        return end
