"""The calls on etcd that its log needs, by the JSON gateway of its members: each is one try, at one member."""

import base64
import http.client
import json
import os
import socket
import ssl
import time
import weakref
from collections.abc import Callable, Mapping, Sequence
from contextlib import suppress
from typing import Any, NamedTuple

from pidtab.faults import LogFault

# The codes of gRPC that say that the same try never goes well, and those of a token that is none any more.
NEVER = {3, 7, 12}
UNAUTHENTICATED = 16
OUT_OF_RANGE = 11
NOT_ENABLED = 9
OLD_TOKENS = ("invalid auth token", "revision of auth store is old")

# What etcd says of a user who may not do something. That may pass, so who was served before goes on asking.
REFUSALS = ("user name is empty", "authentication failed", "permission denied")
NO_USER = REFUSALS[0]

# What etcd's gateway says of a certificate that names a user, where etcd has users.
NAMED_CERTIFICATE = b"CommonName of client"
NO_NAMES = "the JSON gateway of etcd, where etcd has users, takes no client certificate with a common name (CN): use one without, and user="

# Seconds after which the members are asked which of them there are.
MEMBERS_SECONDS = 60.0

# A user's name and password, or what tells that when it is needed.
User = tuple[str, str | Callable[[], str]]

# A member without a leader ends a watch, and answers no call.
HAS_LEADER = {"Grpc-Metadata-hasleader": "true"}

JSON = dict[str, Any]


class Member(NamedTuple):
    """Where a member answers its clients."""

    host: str
    port: int

    def __str__(self) -> str:
        return f"{self.host}:{self.port}"


def encode(data: bytes) -> str:
    """Bytes as the gateway takes them."""
    return base64.b64encode(data).decode()


def decode(text: str) -> bytes:
    """Bytes as the gateway gives them."""
    return base64.b64decode(text)


def read_member(text: str) -> Member:
    """A member by `HOST:PORT`, or by the URL that etcd shows for its clients."""
    if not isinstance(text, str):
        raise TypeError(f"a member is a text, HOST:PORT, not {type(text).__name__}")
    host, found, port = text.removeprefix("http://").removeprefix("https://").rstrip("/").rpartition(":")
    if not found or not host or not port.isascii() or not port.isdigit() or not 0 < int(port) < 65536 or "/" in host:
        raise ValueError(f"a member is HOST:PORT, not {text!r}")
    return Member(host.removeprefix("[").removesuffix("]"), int(port))


def is_here(member: Member) -> bool:
    """Whether a member is on this machine."""
    return member.host in ("localhost", "::1") or member.host.startswith("127.")


def close_all(idle: "list[tuple[int, http.client.HTTPConnection]]") -> None:
    """Closes connections that nobody uses."""
    while idle:
        idle.pop()[1].close()


def hang_up(connection: http.client.HTTPConnection) -> None:
    """Ends a connection that another thread may wait at, which then finds its end."""
    at = connection.sock
    if at is not None:
        try:
            # Not that of TLS, which would forget its state under the hands of who waits.
            socket.socket.shutdown(at, socket.SHUT_RDWR)
        except OSError:
            pass


class Etcd:
    """The members of a cluster, which are tried in turn. Threads may share it.

    It has no lock, which a fork might leave taken: two threads at once may lose a turn, which does no harm.
    """

    def __init__(self, members: Sequence[Member], tls: ssl.SSLContext | None, user: User | None, timeout: float, sync: bool = False) -> None:
        self.members = members
        self.timeout = timeout
        # Those that were named, and then those that these have told of.
        self._all = list(members)
        self._syncs, self._sync_at = sync, 0.0
        self._tls = tls
        self._user = user
        # Empty where it is to be asked for; None where etcd has no users.
        self._token: str | None = ""
        # Whether this user was ever served.
        self._served = False
        self._cluster = ""
        self._at = 0
        # Rises with each watch, whoever opens it: so one that begins anew is not at the member where the last one failed.
        self._watched = 0
        # Connections that are open and not in use, each with the process that opened it.
        self._idle: list[tuple[int, http.client.HTTPConnection]] = []
        weakref.finalize(self, close_all, self._idle)

    def ask(self, path: str, body: JSON) -> JSON:
        """What a member answers. An OSError where none does: then what was asked was done or not."""
        if self._user and self._token == "":
            self._log_in()
        told = self._ask(path, body)
        self._served = True
        self.sync()
        return told

    def sync(self) -> None:
        """Asks now and then which members there are, so that all that were named may be replaced by others."""
        if not self._syncs or time.monotonic() < self._sync_at:
            return
        self._sync_at = time.monotonic() + MEMBERS_SECONDS
        with suppress(OSError, ValueError, KeyError):
            told = self._ask("/v3/cluster/member/list", {})["members"]
            urls = [url for it in told for url in it.get("clientURLs", []) if url.startswith("https://") == (self._tls is not None)]
            found = [it for it in map(read_member, urls) if it not in self.members and self._may_reach(it)]
            now = self._member(self._at)
            self._all = [*self.members, *dict.fromkeys(found)]
            self._at = self._all.index(now) if now in self._all else 0

    def _may_reach(self, member: Member) -> bool:
        """Whether a member may be where it says. One says that it is on this machine where nobody has told it where it is."""
        return not is_here(member) or any(map(is_here, self.members))

    def open_watch(self, body: JSON) -> tuple[http.client.HTTPConnection, http.client.HTTPResponse]:
        """A watch at the next member, of which each line is an answer. The caller closes the connection."""
        if self._user and self._token == "":
            self._log_in()
        self.sync()
        self._watched += 1
        connection = self._connect(self._member(self._watched))
        try:
            connection.request("POST", "/v3/watch", json.dumps(body), self._headers())
            reply = connection.getresponse()
            if reply.status != 200:
                self._read(reply.status, reply.read())
        except (OSError, http.client.HTTPException) as fault:
            connection.close()
            raise OSError(self._say(connection, fault)) from fault
        except BaseException:
            connection.close()
            raise
        return connection, reply

    def note(self, header: Mapping[str, str]) -> int:
        """Reads the head of an answer: the revision. All members have to be those of one cluster."""
        cluster, revision = header.get("cluster_id", ""), int(header.get("revision", 0))
        if self._cluster and cluster and cluster != self._cluster:
            raise LogFault("the members are not those of one etcd cluster")
        self._cluster = cluster or self._cluster
        return revision

    def fault_of(self, told: JSON) -> Exception:
        """What an error of etcd is raised as."""
        words, code = str(told.get("message") or told.get("error") or told), told.get("code")
        if code == UNAUTHENTICATED or any(it in words for it in OLD_TOKENS) or (self._token is None and NO_USER in words):
            self._token = ""
            return OSError(f"etcd: {words}")
        if code == OUT_OF_RANGE and "compacted" in words:
            return TooOld(f"etcd: {words}")
        if any(it in words for it in REFUSALS):
            return self._refused(f"etcd refuses: {words}")
        return LogFault(f"etcd refuses: {words}") if code in NEVER else OSError(f"etcd: {words}")

    def _refused(self, words: str) -> Exception:
        """What is raised where etcd does not let this user do something: it may again, if it ever did."""
        return OSError(words) if self._served else LogFault(words)

    def _headers(self) -> dict[str, str]:
        return {**HAS_LEADER, **({"Authorization": self._token} if self._token else {})}

    def _log_in(self) -> None:
        """Asks for a token. A cluster that has no users takes calls without one, until it has."""
        assert self._user
        name, password = self._user
        try:
            asked = {"name": name, "password": password if isinstance(password, str) else password()}
            self._token = self._ask("/v3/auth/authenticate", asked)["token"]
        except NotEnabled:
            self._token = None

    def _ask(self, path: str, body: JSON) -> JSON:
        connection = self._take()
        try:
            connection.request("POST", path, json.dumps(body), self._headers())
            reply = connection.getresponse()
            told = self._read(reply.status, reply.read())
        except (OSError, http.client.HTTPException) as fault:
            connection.close()
            # Not once more where another thread has met the same, as the turn might come back to this one.
            if self._member(self._at) == (connection.host, connection.port):
                self._at += 1
                self._sync_at = min(self._sync_at, time.monotonic() + self.timeout)
            if isinstance(fault, (NotEnabled, TooOld)):
                raise
            raise OSError(self._say(connection, fault)) from fault
        except BaseException:
            # An interrupt: the answer may come yet, so nobody may ask here.
            connection.close()
            raise
        self._idle.append((os.getpid(), connection))
        return told

    def _read(self, status: int, text: bytes) -> JSON:
        """The answer of a member."""
        try:
            told = json.loads(text)
        except ValueError:
            told = None
        if text.startswith(NAMED_CERTIFICATE):
            raise self._refused(NO_NAMES)
        if not isinstance(told, dict):
            raise OSError(f"status {status} and no answer of etcd 3.4 or later: {text[:60]!r}")
        if status != 200:
            if told.get("code") == NOT_ENABLED and "authentication is not enabled" in str(told):
                raise NotEnabled
            raise self.fault_of(told)
        self.note(told.get("header", {}))
        return told

    def _take(self) -> http.client.HTTPConnection:
        """A connection to the present member."""
        member = self._member(self._at)
        while self._idle:
            try:
                process, connection = self._idle.pop()
            except IndexError:
                break
            if process == os.getpid() and (connection.host, connection.port) == member:
                return connection
            connection.close()
        return self._connect(member)

    def _member(self, turn: int) -> Member:
        return self._all[turn % len(self._all)]

    def _connect(self, member: Member) -> http.client.HTTPConnection:
        """A connection to a member, which is opened when something is asked."""
        if self._tls is None:
            return http.client.HTTPConnection(member.host, member.port, timeout=self.timeout)
        return http.client.HTTPSConnection(member.host, member.port, timeout=self.timeout, context=self._tls)

    def _say(self, connection: http.client.HTTPConnection, fault: Exception) -> str:
        """What went wrong at a member, in words."""
        return f"{Member(connection.host, connection.port)}: {fault or type(fault).__name__}"


class TooOld(OSError):
    """A revision is compacted, as which something was to be read."""


class NotEnabled(OSError):
    """The cluster has no users."""
