"""tools/make_deb: its words, and what is in the package."""

from __future__ import annotations

import os
import re
import signal
import subprocess
from pathlib import Path

from parts.package_links import leads_somewhere
from tests.support import (
    ROOT, TOOLS, InFolder, needs_command, needs_library, needs_program, run_tool, some,
)

VERSION = (ROOT / "VERSION").read_text(encoding="ascii").strip()


class Words(InFolder):
    def test_usage(self) -> None:
        self.assertEqual(
            (run_tool("make_deb", "--help").returncode, run_tool("make_deb", "--help").stdout),
            (0, "usage: make_deb [FOLDER]\n"),
        )
        for words in (("",), ("-x",), ("one", "two")):
            ran = run_tool("make_deb", *words)
            self.assertEqual(
                (ran.returncode, ran.stdout, ran.stderr), (2, "", "usage: make_deb [FOLDER]\n"),
                words,
            )


@needs_command("strip", "binutils")
@needs_command("dpkg-shlibdeps", "dpkg-dev")
class Signals(InFolder):
    def test_a_signal_to_all_leaves_nothing(self) -> None:
        (self.folder / "tmp").mkdir()
        (self.folder / "path").mkdir()
        flags = self.folder / "path/dpkg-buildflags"
        flags.write_text('#!/bin/sh\nkill -s "$SENT" 0\n')
        flags.chmod(0o755)
        for number in (signal.SIGHUP, signal.SIGINT, signal.SIGTERM):
            environment = {
                **os.environ,
                "TMPDIR": str(self.folder / "tmp"),
                "SENT": number.name.removeprefix("SIG"),
                "PATH": f"{flags.parent}:{os.environ['PATH']}",
            }
            done = subprocess.run(
                [str(TOOLS / "make_deb"), str(self.folder)],
                env=environment,
                start_new_session=True,
                capture_output=True,
                preexec_fn=lambda: [
                    signal.signal(each, signal.SIG_DFL)
                    for each in (signal.SIGHUP, signal.SIGINT, signal.SIGTERM)
                ],
            )
            self.assertEqual(
                (done.returncode, os.listdir(self.folder / "tmp")), (128 + number, []), number
            )


@needs_program
@needs_library
@needs_command("cc", "a C compiler")
@needs_command("strip", "binutils")
@needs_command("dpkg-shlibdeps", "dpkg-dev")
class Package(InFolder):
    def ask(self, *words: str) -> str:
        return subprocess.run(
            ["dpkg-deb", *words], check=True, capture_output=True, text=True
        ).stdout

    def test_contents(self) -> None:
        place = self.folder / "a place"
        place.symlink_to(ROOT)
        made = subprocess.run(
            [str(place / "tools/make_deb"), str(self.folder)], capture_output=True, text=True
        )
        self.assertEqual((made.returncode, made.stderr), (0, ""))
        package = made.stdout.strip()
        architecture = self.ask("--field", package, "Architecture").strip()
        self.assertEqual(package, f"{self.folder}/kistalub_{VERSION}_{architecture}.deb")
        self.assertEqual(self.ask("--field", package, "Version"), f"{VERSION}\n")
        self.assertIn("libc6", self.ask("--field", package, "Depends"))
        modes = {line[:10] for line in self.ask("--contents", package).splitlines()}
        self.assertEqual(modes, {"drwxr-xr-x", "-rwxr-xr-x", "-rw-r--r--", "lrwxrwxrwx"})
        unpacked = self.folder / "unpacked"
        self.ask("--extract", package, str(unpacked))
        tools = {path.name for path in (unpacked / "usr/bin").iterdir()}
        self.assertEqual(
            tools,
            {f"{path.name}-model" for path in (ROOT / "bin").glob("papi_*")}
            | {"papi_compare-model", "papi_count-model", "papi_plan-model", "papi_record-model"},
        )
        place = subprocess.run(
            ["dpkg-architecture", "-q", "DEB_HOST_MULTIARCH"], check=True, capture_output=True,
            text=True,
        ).stdout.strip()
        for name in (
            # fmt: skip
            "lib/libkistalub.a", f"lib/{place}/pkgconfig/kistalub.pc",
            "lib/kistalub/lib/libpapi.so", "include/kistalub/papi.h",
            "share/doc/kistalub/copyright",
            "share/doc/kistalub/changelog.gz",
            "share/man/man1/papi_run-model.1.gz",
            "lib/python3/dist-packages/kistalub/VERSION",
        ):
            self.assertTrue((unpacked / "usr" / name).exists(), name)
        self.assertEqual(
            [str(path) for path in unpacked.rglob("*") if path.is_symlink() and not path.exists()],
            [], "links to nothing",
        )
        self.look_at_links(unpacked / "usr/share/doc/kistalub")
        self.look_at_flags(unpacked / "usr")
        self.look_at_scripts(package)

    def look_at_scripts(self, package: str) -> None:
        """The module is compiled when the package is configured, and what was compiled goes with
        it, where Debian's programs for that are there."""
        self.ask("--control", package, str(self.folder / "control"))
        seen, path = self.folder / "seen", self.folder / "path"
        path.mkdir()
        for script, word, command, wanted in (
            ("postinst", "configure", "py3compile", "-p kistalub\n"),
            ("postinst", "abort-upgrade", "py3compile", None),
            ("postinst", "configure", "none", None),
            ("prerm", "remove", "py3clean", "-p kistalub\n"), ("prerm", "remove", "none", None),
        ):
            program = path / command
            program.write_text(f'#!/bin/sh\necho "$@" >{seen}\n')
            program.chmod(0o755)
            done = subprocess.run(
                ["/bin/sh", str(self.folder / "control" / script), word], env={"PATH": str(path)},
                capture_output=True, text=True,
            )
            self.assertEqual(
                (done.returncode, done.stderr, seen.read_text() if seen.exists() else None),
                (0, "", wanted), (script, word, command),
            )
            program.unlink()
            seen.unlink(missing_ok=True)

    def look_at_links(self, folder: Path) -> None:
        """Each link of the documents leads to a file of the package."""
        links = [
            (path, target) for path in some(folder.rglob("*.md"))
            for target in re.findall(r"\]\(([^)\s]+)\)", path.read_text(encoding="utf-8"))
        ]
        self.assertGreater(len(links), 50)
        self.assertEqual(
            [
                f"{path.name}: {target}" for path, target in links
                if not leads_somewhere(target, path)
            ],
            [],
        )

    def look_at_flags(self, usr: Path) -> None:
        """What is compiled for the package binds at once, is placed anywhere, and calls what checks
        its lengths."""
        library = usr / "lib/kistalub/libpapi.so.7.0"
        said = subprocess.run(
            ["readelf", "--wide", "--file-header", "--dynamic", "--dyn-syms", str(library)],
            check=True, capture_output=True, text=True,
        ).stdout
        self.assertRegex(said, r"Type: +DYN")
        self.assertRegex(said, r"FLAGS.*NOW")
        self.assertRegex(said, r"__(?:\w*printf|memcpy|snprintf)_chk")
        self.assertNotIn("TEXTREL", said)
