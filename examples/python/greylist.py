#!/usr/bin/env python3
"""A filter that defers the first try of mail: a mail server tries again, and then the mail passes.

    python3 greylist.py --listen inet:8892@127.0.0.1 --database /var/lib/greylist/triples.sqlite

A try is known by a triple: the network of its client, its sender and its recipient. Recipients that are asked about at
the same time are looked up in one transaction, which waits for the disk once. It ends before they are answered, so what
was answered is known after any stop. While the database fails no mail passes that isn't allowed, unless `--on-error
accept` says so.
"""
import argparse
import asyncio
import contextlib
import functools
import ipaddress
import re
import sqlite3
import sys
import time
from typing import Iterable, Iterator, List, Optional, Set, Tuple, Union

import deiruska
from deiruska import Actions, Answer, Protocol, Shown, Verdict

HOUR, DAY = 3_600, 86_400
# The most seconds, hours and days that an option takes.
SECONDS_MAX, HOURS_MAX, DAYS_MAX = DAY, 8_760, 3_650
# The prefixes of the networks that count as one client, and the mode of a Unix socket.
PREFIXES, MODE = {4: 24, 6: 64}, 0o660
TABLE = """CREATE TABLE IF NOT EXISTS triple (network TEXT NOT NULL, sender BLOB NOT NULL, recipient BLOB NOT NULL,
    first INTEGER NOT NULL, last INTEGER NOT NULL, PRIMARY KEY (network, sender, recipient))"""
FIND = "SELECT first, last FROM triple WHERE network = ? AND sender = ? AND recipient = ?"
ADD = "INSERT OR REPLACE INTO triple (network, sender, recipient, first, last) VALUES (?, ?, ?, ?, ?)"
KEEP = "UPDATE triple SET last = ? WHERE network = ? AND sender = ? AND recipient = ?"
CLEAN = "DELETE FROM triple WHERE last < ?"

DEFERRED = "451 4.7.1 Greylisted, try again in %d seconds"
ON_ERROR = {"accept": Answer(), "tempfail": Answer(Verdict.TEMPFAIL)}

Network = Union[ipaddress.IPv4Network, ipaddress.IPv6Network]
IPAddress = Union[ipaddress.IPv4Address, ipaddress.IPv6Address]
Triple = Tuple[str, bytes, bytes]


def bare(address: Optional[bytes]) -> bytes:
    """An address of mail without its angle brackets, in lower case."""
    return re.sub(rb"\A<(.*)>\Z", rb"\1", address or b"", flags=re.DOTALL).lower()


def client_of(shown: Shown) -> Optional[IPAddress]:
    """The address of the client, where that is known. One of IPv6 may have `IPv6:` before it, as in libmilter."""
    if shown.address is None:
        return None
    try:
        address = ipaddress.ip_address(re.sub(r"\AIPv6:", "", shown.address.text.decode("ascii", "replace")))
    except ValueError:
        return None
    return getattr(address, "ipv4_mapped", None) or address


def triple_of(shown: Shown) -> Triple:
    """The triple of the last recipient. All clients without an address count as one."""
    client = client_of(shown)
    network = "" if client is None else ipaddress.ip_network((client, PREFIXES[client.version]), strict=False)
    return str(network), bare(shown.sender), bare(shown.recipients[-1])


class AllowList:
    """What passes at once."""

    def __init__(self, lines: Iterable[str]) -> None:
        """An entry a line: an address or a network of clients, the name of their host or of a domain above it, a
        recipient, or `@` and the domain of recipients. Raises ValueError where a line is none of these."""
        self.networks: List[Network] = []
        self.hosts: Set[bytes] = set()
        self.recipients: Set[bytes] = set()
        for entry in (line.strip().lower() for line in lines):
            if entry and not entry.startswith("#"):
                self.add(entry)

    def add(self, entry: str) -> None:
        """Adds an entry."""
        try:
            self.networks.append(ipaddress.ip_network(entry, strict=False))
        except ValueError:
            if not re.fullmatch(r".*@.*|[^/:]*\.[^/:]*", entry):
                raise
            (self.recipients if "@" in entry else self.hosts).add(entry.encode())

    def allows(self, shown: Shown) -> bool:
        """Whether mail to the last recipient passes."""
        client, recipient, host = client_of(shown), bare(shown.recipients[-1]), (shown.host or b"").lower()
        domains = [host[found.end():] for found in re.finditer(rb"\A|\.", host)]
        return (not self.recipients.isdisjoint([recipient, recipient[recipient.rfind(b"@"):]])
                or not self.hosts.isdisjoint(domains)
                or client is not None and any(client in network for network in self.networks))


class Store:
    """The file of triples, which is opened when it is needed, and again after it has failed."""

    def __init__(self, path: str, delay: int, window: int, lifetime: int) -> None:
        self.path, self.delay, self.window, self.lifetime = path, delay, window, lifetime
        self.database: Optional[sqlite3.Connection] = None
        self.next_clean = 0

    @contextlib.contextmanager
    def transaction(self) -> Iterator[sqlite3.Connection]:
        """A transaction, of which nothing is left where it fails. It doesn't wait for another program."""
        try:
            if self.database is None:
                self.database = sqlite3.connect(self.path, timeout=0, isolation_level=None)
                self.database.execute(TABLE)
            self.database.execute("BEGIN IMMEDIATE")
            yield self.database
            self.database.execute("COMMIT")
        except sqlite3.Error:
            failed, self.database = self.database, None
            if failed is not None:
                failed.close()
            raise

    def waits_of(self, triples: List[Triple], now: int) -> List[int]:
        """For how many seconds tries at this second are deferred: 0 where one passes."""
        with self.transaction() as database:
            if now >= self.next_clean:
                database.execute(CLEAN, [now])
                self.next_clean = now + HOUR
            return [self.wait_of(database, triple, now) for triple in triples]

    def wait_of(self, database: sqlite3.Connection, triple: Triple, now: int) -> int:
        """The same of one, within the transaction."""
        first, last = database.execute(FIND, triple).fetchone() or (now, now - 1)
        if last < now:
            database.execute(ADD, [*triple, now, now + self.window])
            return self.delay
        # Where the clock was set back, no time has passed.
        wait = max(self.delay - max(now - first, 0), 0)
        if wait == 0:
            database.execute(KEEP, [now + self.lifetime, *triple])
        return wait


class Greylist:
    """It is asked about each recipient."""

    def __init__(self, store: Store, allowed: AllowList, on_error: Answer) -> None:
        self.store, self.allowed, self.on_error, self.fails = store, allowed, on_error, False
        # The recipients that are to be looked up, and where their answers go.
        self.asked: List[Tuple[Triple, "asyncio.Future[Answer]"]] = []

    async def rcpt(self, shown: Shown) -> Answer:
        """The recipient is the last one. Others that are asked about at the same time are looked up with it."""
        if self.allowed.allows(shown):
            return Answer()
        loop = asyncio.get_running_loop()
        if not self.asked:
            loop.call_soon(self.look_up)
        answer: "asyncio.Future[Answer]" = loop.create_future()
        self.asked.append((triple_of(shown), answer))
        return await answer

    def look_up(self) -> None:
        """Answers all that were asked about."""
        asked, self.asked = self.asked, []
        for (_, answer), found in zip(asked, self.answers_to([triple for triple, _ in asked])):
            if not answer.done():  # the mail server may have hung up
                answer.set_result(found)

    def answers_to(self, triples: List[Triple]) -> List[Answer]:
        """The answers to tries. That the database fails is said once."""
        try:
            waits, self.fails = self.store.waits_of(triples, int(time.time())), False
        except sqlite3.Error as error:
            if not self.fails:
                print("database: %s" % error, file=sys.stderr)
            self.fails = True
            return [self.on_error] * len(triples)
        return [Answer(code=DEFERRED % wait) if wait else Answer() for wait in waits]


def listener(text: str) -> str:
    """An address at which a filter listens."""
    if not re.fullmatch(r"inet:\d+(@.+)?|unix:.+", text):
        raise ValueError(text)
    return text


def number(most: int, text: str) -> int:
    """A number from 1 to the most."""
    if not 1 <= int(text) <= most:
        raise ValueError(text)
    return int(text)


def read_settings() -> argparse.Namespace:
    """What the command line says."""
    parser = argparse.ArgumentParser(description="Defers the first try of mail, as a filter of mail servers.")
    add = parser.add_argument
    add("--listen", required=True, type=listener, metavar="ADDRESS", help="inet:PORT@HOST or unix:PATH")
    add("--database", required=True, metavar="FILE", help="an SQLite file, which is made where it isn't there")
    add("--allow", type=argparse.FileType(), metavar="FILE", help="what passes at once, one a line")
    for name, most, usual, unit, what in [
            ("--delay", SECONDS_MAX, 300, "SECONDS", "for how long a first try is deferred"),
            ("--window", HOURS_MAX, 48, "HOURS", "for how long a first try is known without a later one"),
            ("--lifetime", DAYS_MAX, 35, "DAYS", "for how long mail is known that has passed")]:
        add(name, type=functools.partial(number, most), default=usual, metavar=unit, help="%s [%d]" % (what, usual))
    add("--on-error", choices=ON_ERROR, default="tempfail", help="what becomes of mail while the database fails")
    settings = parser.parse_args()
    try:
        settings.allowed = AllowList(settings.allow or [])
    except ValueError as error:
        parser.error("--allow: %s" % error)
    return settings


def main() -> None:
    """Serves mail servers until it is stopped."""
    settings = read_settings()
    store = Store(settings.database, settings.delay, settings.window * HOUR, settings.lifetime * DAY)
    greylist = Greylist(store, settings.allowed, ON_ERROR[settings.on_error])
    with contextlib.suppress(KeyboardInterrupt):
        serving = deiruska.serve(greylist, settings.listen, actions=Actions(0), protocol=Protocol.NOHELO, mode=MODE)
        asyncio.run(serving)


if __name__ == "__main__":
    main()
