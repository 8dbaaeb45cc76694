"""What the scripts that write requests share."""


def request(*words):
    """A request of these words in RESP2."""
    parts = [b"*%d\r\n" % len(words)]
    for word in words:
        parts.append(b"$%d\r\n%s\r\n" % (len(word), word))
    return b"".join(parts)
