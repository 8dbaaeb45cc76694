"""Which connection holds which session number, and when a number is free again.

When a connection ends, its number is hung up, and behind that the relay itself asks ECHO of a random token on it: the fence.
Units come in the order of their requests; so what comes before the fence's is of the old holder, and when that came nothing
is left to come, and the number is free. The old holder can't have asked for such a unit: the token is drawn after its last byte
was handed over. Behind the fence the number is hung up once more: the next holder begins anew, and its bytes count from 0.
"""
import secrets

NUMBERS = 65_536


def fence():
    """The request of a fence, and the reply to it."""
    token = secrets.token_hex(16).encode()
    return b"*2\r\n$4\r\nECHO\r\n$32\r\n%s\r\n" % token, b"$32\r\n%s\r\n" % token


class Sessions:
    """The holders of numbers. `core` takes `piece(number, bytes)` and `hang_up(number)`."""

    def __init__(self, core, numbers=NUMBERS):
        self.core = core
        self.holders = [None] * numbers
        self.fences = {}  # the reply that frees a number
        self.fresh = 0  # from here on no number was held yet
        self.free = []

    def take(self, holder):
        """Gives a free number to the holder; None where there is none."""
        if self.free:
            number = self.free.pop()
        elif self.fresh < len(self.holders):
            number = self.fresh
            self.fresh += 1
        else:
            return None
        self.holders[number] = holder
        return number

    def leave(self, number):
        """Hangs the number up, once for each holder. What was asked before is still its holder's."""
        asked, self.fences[number] = fence()
        self.core.hang_up(number)
        self.core.piece(number, asked)
        self.core.hang_up(number)

    def unit(self, number, data):
        """The holder that a unit, or a part of one, is for, and whether that is the fence, with which the number is free. None
        where nobody holds it."""
        holder = self.holders[number] if number < len(self.holders) else None
        if number in self.fences and data == self.fences[number]:
            del self.fences[number]
            self.holders[number] = None
            self.free.append(number)
            return holder, True
        return holder, False
