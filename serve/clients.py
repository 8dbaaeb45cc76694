#!/usr/bin/env python3
"""Tries real clients against serve/serve, each check by a line: ok, skip (with why) or FAIL.

usage: serve/clients.py [--core PATH]

It asks the core program of the repository, or the one that is named. Where that isn't built, it says so and asks the tests' stand-in
core in its place, and what that hasn't is skipped. redis-cli and redis-benchmark (Debian's redis-tools) and the Python client (Debian's
python3-redis) are used where they are installed. The status is 0 where nothing failed. It takes about a minute, and half a GiB for a moment.
"""
import argparse
import contextlib
import os
import random
import shutil
import signal
import subprocess
import sys
import threading

sys.dont_write_bytecode = True
SERVE = os.path.dirname(os.path.realpath(__file__))
sys.path.insert(0, os.path.join(SERVE, "tests"))
from helpers import STAND_IN, Served, broken_off, request  # noqa: E402
from relay.options import CORE, TOP  # noqa: E402

# So many seconds a client's program may take.
PATIENCE = 300


class Skipped(Exception):
    """What a check needs isn't there."""


def want(is_so, text):
    if not is_so:
        raise AssertionError(text)


def ran(*words, told=""):
    """What a program prints, that must end well."""
    if not shutil.which(words[0]):
        raise Skipped(f"{words[0]} is not installed")
    it = subprocess.run(words, input=told, capture_output=True, text=True, timeout=PATIENCE)
    want(it.returncode == 0, f"{' '.join(words)}: status {it.returncode}: {it.stdout}{it.stderr}")
    return it.stdout


def cli(served, *words, told=""):
    return ran("redis-cli", "-s", served.path, *words, told=told)


def a_session(served):
    told = cli(served, told="SET a 1\nINCR a\nECHO 'two words'\nPING\nGET nothing\nQUIT\n")
    want(told.split("\n")[:5] == ["OK", "2", "two words", "PONG", ""], told)
    host, port = served.tcp
    want(ran("redis-cli", "-h", host, "-p", str(port), "GET", "a") == "2\n", "GET over TCP")


def a_transaction(served):
    told = cli(served, told="SET n 1\nMULTI\nINCR n\nINCR n\nEXEC\nGET n\n")
    want(told.split() == ["OK", "OK", "QUEUED", "QUEUED", "2", "3", "3"], told)


def a_pipe(served):
    count = 20_000
    told = cli(served, "--pipe", told="".join(f"SET pipe:{at} {at}\r\n" for at in range(count)))
    want(f"errors: 0, replies: {count}" in told, told)
    want(cli(served, "GET", f"pipe:{count - 1}") == f"{count - 1}\n", "the last key")


def big_keys(served):
    if served.core == STAND_IN:
        raise Skipped("the stand-in core has no SCAN")
    cli(served, "SET", "big", "x" * 5000)
    told = cli(served, "--bigkeys")
    want('"big" has 5000 bytes' in told, told)


def a_benchmark(served):
    for words in ([], ["-P", "16"]):
        told = ran("redis-benchmark", "-s", served.path, "-c", "50", "-n", "20000", "-t", "set,get,incr", "-q", *words)
        lines = [line.strip() for line in told.replace("\r", "\n").split("\n") if "requests per second" in line]
        want(len(lines) == 3, told)
        print(f"     {' '.join(['redis-benchmark -c 50', *words])}: {'; '.join(lines)}")


def the_python_client(served):
    """Runs `pool_and_race` by a Python that has the client."""
    for python in (sys.executable, "/usr/bin/python3"):
        if shutil.which(python) and subprocess.run([python, "-c", "import redis"], capture_output=True).returncode == 0:
            ran(python, os.path.realpath(__file__), "--python-client", served.path)
            return
    raise Skipped("python3-redis is not installed")


def pool_and_race(path):
    """A pool, a pipeline, and two threads that race for a counter by WATCH."""
    import redis

    pool = redis.ConnectionPool(connection_class=redis.UnixDomainSocketConnection, path=path, client_name="pool")
    client = redis.Redis(connection_pool=pool)
    client.flushall()
    want(client.set("k", "v") and client.get("k") == b"v" and client.get("no") is None, "SET and GET")
    want(client.client_getname() in ("pool", b"pool") and client.info()["redis_version"], "CLIENT GETNAME and INFO")
    with client.pipeline(transaction=True) as pipeline:
        want(pipeline.set("a", 1).incr("a").get("a").execute() == [True, 2, b"2"], "a pipeline")
    with client.pipeline(transaction=False) as pipeline:
        for at in range(1000):
            pipeline.echo(str(at))
        want(pipeline.execute() == [b"%d" % at for at in range(1000)], "1,000 requests at once")

    def race(again):
        for _ in range(200):
            with client.pipeline(transaction=True) as pipeline:
                while True:
                    try:
                        pipeline.watch("n")
                        value = int(pipeline.get("n") or 0)
                        pipeline.multi()
                        pipeline.set("n", value + 1)
                        pipeline.execute()
                        break
                    except redis.WatchError:
                        again.append(1)

    again = []
    together([lambda: race(again)] * 2)
    want(client.get("n") == b"400", f"the counter is {client.get('n')} after 400 additions, {len(again)} of them tried again")


def together(works):
    """Does these at the same time, and raises the first failure."""
    failures = []

    def guarded(work):
        try:
            work()
        except Exception as failure:  # noqa: BLE001
            failures.append(failure)

    threads = [threading.Thread(target=guarded, args=(work,)) for work in works]
    for thread in threads:
        thread.start()
    for thread in threads:
        thread.join()
    if failures:
        raise failures[0]


def come_and_go(served):
    """200 connections come and go at random while others count."""
    served.client().ask("SET", "count", "0")

    def count():
        client = served.client()
        for _ in range(500):
            want(client.ask("INCR", "count").startswith(b":"), "INCR")

    def wander(seed):
        dice = random.Random(seed)
        for at in range(25):
            client, word = served.client(dice.choice((served.path, served.tcp))), f"{seed}.{at}".encode()
            client.send(request("ECHO", word) * 50)
            for _ in range(dice.choice((0, 1, 50))):
                want(client.reply() == b"$%d\r\n%s\r\n" % (len(word), word), "a reply of another's")
            dice.choice((client.close, lambda it=client: broken_off(it)))()

    together([count] * 4 + [lambda seed=seed: wander(seed) for seed in range(8)])
    want(served.client().ask("GET", "count") == b"$4\r\n2000\r\n", "an INCR was lost")


def one_that_stops_reading(served):
    silent, other = served.client(), served.client()
    want(silent.ask("SET", "large", b"x" * (1 << 20)) == b"+OK\r\n", "SET")
    silent.send(request("GET", "large") * 400)
    for at in range(200):
        want(other.ask("ECHO", at) == b"$%d\r\n%d\r\n" % (len(str(at)), at), "another client's reply")
    with contextlib.suppress(OSError):
        want(len(silent.rest()) < 400 << 20, "it was sent everything")


def rubbish(served):
    dice = random.Random(3)
    for at in range(40):
        client = served.client()
        with contextlib.suppress(OSError):
            client.send(dice.choice((b"*x\r\n", b"*1\r\n$-1\r\n", b"GET 'a\r\n", b"*9")) + dice.randbytes(2000) + b"\r\n")
            client.sock.shutdown(1)
            client.rest()
        want(served.client().ask("ECHO", at) == b"$%d\r\n%d\r\n" % (len(str(at)), at), "another client's reply")


def a_restart(served):
    """Ended by SIGTERM and loaded: the same answers. Ended by force: the old file loads."""
    path = served.file("saved")
    with Served("--save", path, core=served.core) as first:
        client = first.client()
        for at in range(1000):
            client.ask("SET", f"key:{at}", at)
        first.client().send(b"*2\r\n$3\r\nGET\r\n")
        want(first.stop() == 0, "the status behind SIGTERM")
    for number in (signal.SIGKILL, signal.SIGTERM):
        with Served("--load", path, "--save", path, core=served.core) as again:
            want(again.client().ask("GET", "key:900") == b"$3\r\n900\r\n", f"a key before {number.name}")
            again.client().ask("PING")
            again.signal(number)
            again.wait()
    want(os.path.exists(path), "the file")


CHECKS = [a_session, a_transaction, a_pipe, big_keys, a_benchmark, the_python_client, come_and_go, one_that_stops_reading, rubbish, a_restart]


def tried(check, served):
    """Whether it didn't fail; tells so."""
    name = check.__name__.replace("_", " ")
    try:
        check(served)
    except Skipped as why:
        print(f"skip {name}: {why}")
    except Exception as failure:  # noqa: BLE001
        print(f"FAIL {name}: {type(failure).__name__}: {failure}")
        return False
    else:
        print(f"ok   {name}")
    finally:
        sys.stdout.flush()
    return True


def main():
    words = argparse.ArgumentParser(description=__doc__, formatter_class=argparse.RawDescriptionHelpFormatter)
    words.add_argument("--core", default=os.path.join(TOP, CORE))
    words.add_argument("--python-client", metavar="SOCKET", help=argparse.SUPPRESS)
    options = words.parse_args()
    if options.python_client:
        pool_and_race(options.python_client)
        return 0
    core = os.path.realpath(options.core)
    if not os.access(core, os.X_OK):
        print(f"skip the core program: there is none at {options.core}; the tests' stand-in answers in its place")
        core = STAND_IN
    with Served(core=core) as served:
        results = [tried(check, served) for check in CHECKS]
        want(served.stop() == 0, "the status at the end")
    return 0 if all(results) else 1


if __name__ == "__main__":
    sys.exit(main())
