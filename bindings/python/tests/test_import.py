"""What `import pidtab` loads, and the names that it has."""

import subprocess
import sys
import unittest

import pidtab
import pidtab.hosts

HOSTS = ("Cluster", "EtcdLog", "Following", "Log", "MemoryLog", "Progress", "Receipt", "ReplicaAsk", "Replicated", "Submitted")
# What only hosts of a table need: TLS, HTTP, and threads by a pool.
FOR_HOSTS = {"ssl", "http.client", "concurrent.futures", "pidtab.hosts.cluster", "pidtab.hosts.etcd_log", "pidtab.hosts.replicated"}
# What only the programs need: command lines, and sockets to a service.
FOR_COMMANDS = {"argparse", "socket", "pidtab.commands", "pidtab.tree"}
FOLDERS = ("commands", "hosts", "sim", "testing")


def loaded(code: str) -> set[str]:
    """The modules that a new interpreter loads for some code."""
    told = f"import sys\nbefore = {{*sys.modules}}\n{code}\nprint(*{{*sys.modules}} - before)"
    words = [sys.executable, "-S", "-c", told]
    return {*subprocess.run(words, capture_output=True, text=True, check=True, env={"PYTHONPATH": ":".join(sys.path)}).stdout.split()}


class Imports(unittest.TestCase):
    def test_the_package_alone_loads_nothing(self) -> None:
        self.assertEqual({it for it in loaded("import pidtab") if it.startswith("pidtab")}, {"pidtab", "pidtab.lazy"})
        # What takes most of the time to load.
        self.assertEqual(loaded("import pidtab") & {"ctypes", "dataclasses", "inspect", "re", "typing"}, set())

    def test_a_table_brings_no_hosts_and_no_programs(self) -> None:
        for name in ("Table", "Table"):
            found = loaded(f"import pidtab\npidtab.{name}")
            self.assertIn(f"pidtab.{name.lower()}", found)
            self.assertEqual(found & (FOR_HOSTS | FOR_COMMANDS), set())

    def test_a_host_is_loaded_when_it_is_asked_for(self) -> None:
        self.assertEqual(loaded("import pidtab\npidtab.MemoryLog") & FOR_HOSTS, set())
        self.assertIn("pidtab.hosts.etcd_log", loaded("import pidtab\npidtab.EtcdLog"))
        self.assertLessEqual(FOR_HOSTS, loaded("from pidtab import *"))

    def test_a_folder_is_loaded_when_it_is_asked_for(self) -> None:
        for name in FOLDERS:
            self.assertIn(f"pidtab.{name}", loaded(f"import pidtab\npidtab.{name}.__doc__"))
        self.assertIs(pidtab.hosts.Replicated, pidtab.Replicated)

    def test_each_name_is_there(self) -> None:
        for package, folder in ((pidtab, ""), (pidtab.hosts, ".hosts")):
            self.assertEqual([it for it in package.__all__ if not hasattr(package, it)], [])
            self.assertEqual([it for it in package.__all__ if it in HOSTS and getattr(package, it).__name__ != it], [], folder)
        self.assertEqual(sorted(pidtab.hosts.__all__), sorted(HOSTS))
        self.assertLessEqual(set(HOSTS), set(pidtab.__all__))
        self.assertEqual(sorted(dir(pidtab)), sorted([*pidtab.__all__, *FOLDERS, "__version__"]))

    def test_a_name_that_is_not(self) -> None:
        for package in (pidtab, pidtab.hosts):
            with self.assertRaisesRegex(AttributeError, f"^module '{package.__name__}' has no attribute 'Tabel'$"):
                package.Tabel  # type: ignore[attr-defined]


if __name__ == "__main__":
    unittest.main()
