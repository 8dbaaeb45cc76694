"""Sockets that listen."""
import ipaddress
import os
import socket

from relay.options import is_socket

BACKLOG = 512


class Refused(Exception):
    """An address can't be listened on."""


def bound_tcp(host, port):
    try:
        family, kind, _, _, address = socket.getaddrinfo(host, port, type=socket.SOCK_STREAM, flags=socket.AI_PASSIVE)[0]
        listener = socket.socket(family, kind)
        listener.setsockopt(socket.SOL_SOCKET, socket.SO_REUSEADDR, 1)
        listener.bind(address)
    except OSError as error:
        raise Refused(f"{host}:{port}: {error}") from error
    return listener


def bound_unix(path):
    """A socket at the path; one that a server left behind is replaced, one that is served isn't."""
    try:
        if is_socket(path) and not is_served(path):
            os.unlink(path)
        listener = socket.socket(socket.AF_UNIX)
        listener.bind(path)
    except OSError as error:
        raise Refused(f"{path}: {error}") from error
    return listener


def is_served(path):
    with socket.socket(socket.AF_UNIX) as link:
        try:
            link.connect(path)
        except ConnectionRefusedError:
            return False
    return True


def bound(options):
    """The sockets that the options ask for. They listen when `listen` is called."""
    listeners = [bound_tcp(options.host, options.port)]
    try:
        if options.unix:
            listeners.append(bound_unix(options.unix))
    except Refused:
        close(listeners)
        raise
    return listeners


def listen(listeners):
    for listener in listeners:
        listener.setblocking(False)
        listener.listen(BACKLOG)


def name_of(listener):
    address = listener.getsockname()
    if isinstance(address, str):
        return address
    host = f"[{address[0]}]" if listener.family == socket.AF_INET6 else address[0]
    return f"{host}:{address[1]}"


def told(listeners):
    """The line that says where clients are taken from."""
    host = listeners[0].getsockname()[0]
    if ipaddress.ip_address(host.partition("%")[0]).is_loopback:
        reach = "for this machine alone"
    else:
        reach = "for every machine that reaches it, without a password"
    return f"serve: listening on {' and '.join(map(name_of, listeners))}, {reach}"


def close(listeners):
    for listener in listeners:
        if listener.family == socket.AF_UNIX:
            try:
                os.unlink(listener.getsockname())
            except OSError:
                pass
        listener.close()
