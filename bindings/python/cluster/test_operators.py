"""What operators of etcd do under hosts that run: they switch users on, change passwords, take roles away, and replace all members."""

import ssl
import subprocess
import sys
import threading
import time
import unittest
from collections.abc import Callable
from concurrent.futures import ThreadPoolExecutor
from pathlib import Path
from unittest import mock

from cluster.etcds import Etcds
from cluster.test_etcd import Cluster, add_users
from pidtab import EtcdLog, LogFault, NotKnown, Replicated
from tests.programs import need_tool

# So many entries a late host has to read.
ENTRIES = 10_000


class Users(Cluster):
    """Users, their passwords and roles."""

    def as_root(self, etcds: Etcds, path: str, body: dict[str, str]) -> None:
        """Asks as the user that may do all."""
        token = etcds.ask("/v3/auth/authenticate", {"name": "root", "password": "secret"})["token"]
        etcds.ask(path, body, token=token)

    def goes(self, table: Replicated, root: int) -> None:
        """A call and a fresh read go well."""
        self.assertEqual(table.fork(1).root, root)
        table.catch_up()

    def check_waits(self, table: Replicated, mend: Callable[[], object]) -> None:
        """A call that etcd refuses for a while waits, and is made once that is mended."""
        asked = table.submit(["fork 1"])
        time.sleep(1.5)
        self.assertFalse(asked.done())
        mend()
        self.assertEqual(asked.result(), ("child 3 root 3",))
        self.goes(table, 4)

    def test_users_are_switched_on(self) -> None:
        etcds = self.start(count=1)
        table = self.open(etcds.members, user=("web", "word"))
        self.goes(table, 2)
        add_users(etcds)
        self.goes(table, 3)

    def test_a_password_that_changes(self) -> None:
        etcds = self.start(count=1)
        add_users(etcds)
        passwords = ["word"]
        table = self.open(etcds.members, user=("web", lambda: passwords[-1]))
        self.goes(table, 2)
        self.as_root(etcds, "/v3/auth/user/changepw", {"name": "web", "password": "other"})
        self.check_waits(table, lambda: passwords.append("other"))

    def test_a_role_that_is_taken_away_for_a_while(self) -> None:
        etcds = self.start(count=1)
        add_users(etcds)
        table = self.open(etcds.members, user=("web", "word"))
        self.goes(table, 2)
        self.as_root(etcds, "/v3/auth/user/revoke", {"name": "web", "role": "web"})
        def grant() -> None:
            self.assertRegex(str(table._replica.trouble), "etcd refuses: .*permission denied")
            self.as_root(etcds, "/v3/auth/user/grant", {"user": "web", "role": "web"})

        self.check_waits(table, grant)

    def test_one_who_may_only_read(self) -> None:
        etcds = self.start(count=1)
        add_users(etcds)
        writer = self.open(etcds.members, user=("web", "word"))
        reader = self.open(etcds.members, user=("reader", "read"), patience=2.0)
        for number in range(2, 6):
            self.goes(writer, number)
            reader.catch_up()
            self.assertEqual(len(reader.list().tasks), number)
        with self.assertRaisesRegex(NotKnown, "etcd refuses: .*permission denied.*: the calls were not made"):
            reader.fork(1)
        self.goes(writer, 6)
        reader.catch_up()
        self.assertEqual(len(reader.list().tasks), 6)


class Certificates(Cluster):
    """Certificates of clients beside users."""

    def certify(self, name: str, subject: str, kind: str) -> tuple[Path, Path]:
        """A certificate that is signed by one's own authority, and its key."""
        openssl, files = need_tool("openssl"), {it: self.folder / f"{name}.{it}" for it in ("key", "csr", "pem", "ext")}
        files["ext"].write_text(f"subjectAltName=IP:127.0.0.1\nextendedKeyUsage={kind}\n")
        ca = ["-CA", self.folder / "ca.pem", "-CAkey", self.folder / "ca.key", "-CAcreateserial", "-days", "1"]
        new = ["req", "-newkey", "rsa:2048", "-nodes"]
        if not (self.folder / "ca.pem").exists():
            words = [*new, "-x509", "-days", "1", "-subj", "/CN=ca", "-keyout", self.folder / "ca.key", "-out", self.folder / "ca.pem"]
            subprocess.run([openssl, *map(str, words)], check=True, capture_output=True)
        for words in (
            [*new, "-subj", subject, "-keyout", files["key"], "-out", files["csr"]],
            ["x509", "-req", "-in", files["csr"], "-out", files["pem"], "-extfile", files["ext"], *ca],
        ):
            subprocess.run([openssl, *map(str, words)], check=True, capture_output=True)
        return files["pem"], files["key"]

    def tls(self, name: str, subject: str) -> ssl.SSLContext:
        """What a client with a certificate needs."""
        pair = self.certify(name, subject, "clientAuth")
        tls = ssl.create_default_context(cafile=str(self.folder / "ca.pem"))
        tls.load_cert_chain(*pair)
        return tls

    def test_a_common_name(self) -> None:
        certificate, key = self.certify("server", "/CN=etcd", "serverAuth,clientAuth")
        named, unnamed = self.tls("named", "/CN=web"), self.tls("unnamed", "/O=web")
        words = [f"--cert-file={certificate}", f"--key-file={key}", "--client-cert-auth", f"--trusted-ca-file={self.folder / 'ca.pem'}"]
        etcds = Etcds(self.folder, 1, *words, scheme="https", tls=unnamed)
        self.addCleanup(etcds.stop)
        members = [f"https://{it}" for it in etcds.members]
        before = self.open(members, tls=named)
        self.assertEqual(before.fork(1).root, 2)
        add_users(etcds)
        table = self.open(members, tls=unnamed, user=("web", "word"))
        self.assertEqual(table.fork(1).root, 3)
        with self.assertRaisesRegex(LogFault, r"takes no client certificate with a common name \(CN\): use one without, and user="):
            self.open(members, tls=named, user=("web", "word"))


class Members(Cluster):
    """Members that are others."""

    def test_all_are_replaced_one_by_one(self) -> None:
        etcds = self.start()
        with mock.patch("pidtab.hosts.etcd.MEMBERS_SECONDS", 1.0):
            table, still = (self.open(etcds.members, timeout=2) for _ in range(2))
            roots = [table.fork(1).root]
            for place in (0, 1, 2):
                etcds.replace(place)
                time.sleep(2.5)
                roots.append(self.insist(lambda: table.fork(1).root))
            self.assertEqual(sorted(set(roots)), roots)
            self.insist(still.catch_up)
            self.assertEqual(len(still.list().tasks), roots[-1])
            # None of those that were named is there any more.
            self.assertEqual(set(table.log._etcd._all[3:]) & set(table.log._etcd.members), set())


class Compactions(Cluster):
    """An etcd that drops its history all the time."""

    def test_a_late_host(self) -> None:
        etcds = self.start(count=1)
        table = self.open(etcds.members)
        log = EtcdLog(etcds.members, "web")
        with ThreadPoolExecutor(8) as some:
            list(some.map(lambda _: log.append(b"open"), range(ENTRIES)))
        self.assertEqual(table.fork(1).root, 2)
        stops = threading.Event()

        def compact() -> None:
            while not stops.wait(0.02):
                etcds.compact()

        def write() -> None:
            while not stops.wait(0.005):
                log.append(b"open")

        threads = [threading.Thread(target=it) for it in (compact, write)]
        for it in threads:
            it.start()
        try:
            for _ in range(2):
                begun = time.monotonic()
                late = self.open(etcds.members)
                self.assertEqual(len(late.list().tasks), 2)
                print(f"\na late host opens behind {ENTRIES} entries in {time.monotonic() - begun:.1f} s, compacted each 20 ms", file=sys.stderr)
                late.catch_up()
        finally:
            stops.set()
            for it in threads:
                it.join()


if __name__ == "__main__":
    unittest.main()
