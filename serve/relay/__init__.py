"""The relay between sockets and the core program."""
