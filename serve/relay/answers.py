"""What clients send unasked, and what the relay answers: just so much that they work on. Everything else is the core's."""
import fnmatch

OWN = {b"HELLO", b"CLIENT", b"COMMAND", b"CONFIG", b"INFO"}
VERSION = "7.2.0"
# What CONFIG GET tells; the core has no other settings while it runs.
SETTINGS = {"save": "", "appendonly": "no", "databases": "16"}
# Subcommands of CLIENT, with how many words the request has.
CLIENT = {b"SETINFO": 4, b"SETNAME": 3, b"GETNAME": 2, b"ID": 2}


def is_own(words):
    """Whether a request whose first word is one of `OWN` is answered by the relay."""
    name = words[0].upper()
    second = words[1].upper() if len(words) > 1 else b""
    if name == b"CLIENT":
        return CLIENT.get(second) == len(words)
    if name == b"CONFIG":
        return second == b"GET" and len(words) > 2
    if name == b"COMMAND":
        return len(words) == 1 or second == b"DOCS"
    return True


def bulk(text):
    data = text if isinstance(text, bytes) else text.encode()
    return b"$%d\r\n%s\r\n" % (len(data), data)


def array(items):
    return b"*%d\r\n%s" % (len(items), b"".join(items))


def answer(words, client, facts):
    """The reply to a request of the relay's own. `client` has an `ident` and a `name`; `facts` are the lines of INFO."""
    name = words[0].upper()
    if name == b"HELLO":
        return hello(words, client)
    if name == b"INFO":
        return bulk("".join(f"{line}\r\n" for line in facts()))
    if name == b"CONFIG":
        asked = [word.decode(errors="replace").lower() for word in words[2:]]
        told = [key for key in SETTINGS if any(fnmatch.fnmatchcase(key, it) for it in asked)]
        return array([bulk(text) for key in told for text in (key, SETTINGS[key])])
    if name == b"CLIENT":
        return about_client(words, client)
    return array([])


def about_client(words, client):
    second = words[1].upper()
    if second == b"ID":
        return b":%d\r\n" % client.ident
    if second == b"GETNAME":
        return bulk(client.name) if client.name else b"$-1\r\n"
    if second == b"SETNAME":
        return set_name(words[2], client) or b"+OK\r\n"
    return b"+OK\r\n"


def set_name(name, client):
    """Names the client; gives an error's line where a name can't be so."""
    if any(byte < 0x21 or byte > 0x7E for byte in name):
        return b"-ERR Client names cannot contain spaces, newlines or special characters.\r\n"
    client.name = name
    return None


def hello(words, client):
    """HELLO [2 [SETNAME name]]; version 3 is refused, so that clients fall back to RESP2."""
    if len(words) > 1 and words[1] != b"2":
        return b"-NOPROTO unsupported protocol version\r\n"
    options = words[2:]
    if options:
        if len(options) != 2 or options[0].upper() != b"SETNAME":
            return b"-ERR syntax error in HELLO\r\n"
        wrong = set_name(options[1], client)
        if wrong:
            return wrong
    told = [bulk("server"), bulk("redis"), bulk("version"), bulk(VERSION), bulk("proto"), b":2\r\n"]
    told += [bulk("id"), b":%d\r\n" % client.ident, bulk("mode"), bulk("standalone"), bulk("role"), bulk("master")]
    return array([*told, bulk("modules"), array([])])
