"""The four packages, as `packaging/build` makes them from the built programs: what they hold, unpacked, does its work.

They are not installed here, and systemd does not run: the server runs under the unit's filter of system calls alone.
`tools/fresh_debian` installs them.
"""

from __future__ import annotations

import gzip
import hashlib
import json
import os
import re
import socket
import sqlite3
import subprocess
from collections.abc import Iterator
from contextlib import closing
from http.client import HTTPConnection
from pathlib import Path

import pytest
import seccomp

from fashkiin import Token, __version__
from served import PROGRAM, TOP, SocketConnection, digest, listening, token
from stack import certificate

ST_RUN = os.environ.get("ST_RUN", str(TOP / "crates/st_run/out/st_run"))
UNIT = (TOP / "deploy/fashkiin.service").read_text()
FEATURES = (TOP / "deploy/fashkiin-features.service").read_text()


@pytest.fixture(scope="session")
def root(tmp_path_factory: pytest.TempPathFactory) -> Path:
    """A folder with the four packages unpacked; their build ends well only if lintian is content."""
    packages, folder = tmp_path_factory.mktemp("packages"), tmp_path_factory.mktemp("root")
    programs = {"ST_SERVED": str(PROGRAM), "ST_RUN": ST_RUN}
    subprocess.run([TOP / "packaging/build", packages], env=os.environ | programs, check=True, stdout=subprocess.DEVNULL)
    found = list(packages.glob("*.deb"))
    assert sorted(it.name.split("_")[0] for it in found) == ["fashkiin-features", "fashkiin-map", "fashkiin-server", "python3-fashkiin"]
    sums = {f"{hashlib.sha256(it.read_bytes()).hexdigest()}  {it.name}" for it in found}
    assert set((packages / "SHA256SUMS").read_text().splitlines()) == sums
    for package in found:
        subprocess.run(["dpkg-deb", "-x", package, folder], check=True)
    return folder


def test_programs_are_those_of_the_changelog(root: Path) -> None:
    words: list[str | Path] = ["zcat", root / "usr/share/doc/fashkiin-server/changelog.gz"]
    changelog = subprocess.run(words, check=True, capture_output=True, text=True).stdout
    for name in ("st_run", "st_served"):
        program = root / "usr/bin" / name
        told = re.findall(rf"^    {name} +([0-9a-f]{{64}})$", changelog, re.M)
        assert told == [hashlib.sha256(program.read_bytes()).hexdigest()]


def test_quickstart_is_carried_and_its_paths_are_those_of_the_packages(root: Path) -> None:
    folder = root / "usr/share/doc/fashkiin-server"
    text = gzip.decompress((folder / "QUICKSTART.md.gz").read_bytes()).decode()
    assert text == (TOP / "docs/QUICKSTART.md").read_text()
    pictures = re.findall(r"!\[[^]]*\]\((.*?)\)", text)
    assert pictures and all((folder / it).read_bytes() == (TOP / "docs" / it).read_bytes() for it in pictures)
    (paths,) = re.findall(r"^    (SERVER=.*)$", text, re.M)
    at = {name: root / path.lstrip("/") for name, path in (word.split("=") for word in paths.split())}
    used = {name: re.findall(rf'"\${name}/?([\w.]*)"', text) for name in at}
    assert set(used) == {"SERVER", "EDGE", "PAGE"} and all(used.values())
    assert all((at[name] / file).exists() for name, files in used.items() for file in files)
    assert os.access(at["SERVER"], os.X_OK) and (at["PAGE"] / "map/index.html").exists()


@pytest.fixture
def init(tmp_path: Path) -> list[str | Path]:
    """`fashkiin-init` with a state directory of its own, as root of the machine without systemd: the start of a command line."""
    programs, script = tmp_path / "programs", tmp_path / "fashkiin-init"
    programs.mkdir()
    for name, text in (("id", "echo 0"), ("systemctl", "true"), ("install", f"mkdir -p {tmp_path}/state")):
        (programs / name).write_text(f"#!/bin/sh\n{text}\n")
        (programs / name).chmod(0o755)
    (programs / "st_run").symlink_to(ST_RUN)
    script.write_text((TOP / "packaging/fashkiin-init").read_text().replace("/var/lib/fashkiin", f"{tmp_path}/state"))
    return ["env", f"PATH={programs}:/usr/bin:/bin", "sh", script]


def test_a_second_fashkiin_init_leaves_the_token_of_root(init: list[str | Path], tmp_path: Path) -> None:
    token_file, state = tmp_path / "token", tmp_path / "state/root"
    assert subprocess.run([*init, "--token-file", token_file, "coast", "flight"], umask=0).returncode == 0
    made = Token.parse(token_file.read_text())
    assert (made.user, token_file.stat().st_mode & 0o777, state.stat().st_mode & 0o777) == ("root", 0o600, 0o600)
    assert state.read_text() == f"ROOT_DIGEST={made.digest}\nROOT_AUTHS=coast flight\n"
    before = [file.read_bytes() for file in (token_file, state)]
    others: list[list[str | Path]] = [["--token-file", token_file], ["--token-file", tmp_path / "other"], ["coast", "flight"], []]
    for words in others:
        assert subprocess.run([*init, *words], stderr=subprocess.DEVNULL).returncode == 2
    assert [file.read_bytes() for file in (token_file, state)] == before
    assert not (tmp_path / "other").exists()


def test_fashkiin_init_writes_no_token_into_a_file_that_is_there(init: list[str | Path], tmp_path: Path) -> None:
    (tmp_path / "kept").write_text("a line of mine\n")
    (tmp_path / "link").symlink_to(tmp_path / "nowhere")
    for name in ("kept", "link", "kept/token"):
        assert subprocess.run([*init, "--token-file", tmp_path / name], stderr=subprocess.DEVNULL).returncode == 2
    assert (tmp_path / "kept").read_text() == "a line of mine\n"
    assert not (tmp_path / "nowhere").exists() and not (tmp_path / "state").exists()


def test_command_runs(root: Path) -> None:
    environment = {"PYTHONPATH": str(root / "usr/lib/python3/dist-packages"), "PATH": "/usr/bin:/bin"}
    told = subprocess.run([root / "usr/bin/fashkiin", "--version"], env=environment, check=True, capture_output=True, text=True)
    assert told.stdout == f"fashkiin {__version__}\n"


def test_haproxy_takes_its_configuration(root: Path, tmp_path: Path) -> None:
    """With TLS and a port for the numbers, and as HAProxy's own user; the edge's group is made with the package."""
    variables = {"FASHKIIN_GROUP": "haproxy", "FASHKIIN_CERTIFICATE": str(certificate(tmp_path)), "FASHKIIN_METRICS": "127.0.0.1:980"}
    words: list[str | Path] = ["/usr/sbin/haproxy", "-c", "-f", root / "usr/share/fashkiin/haproxy.cfg"]
    told = subprocess.run(words, env=os.environ | variables, check=True, capture_output=True, text=True)
    assert (told.stdout, told.stderr) == ("Configuration file is valid\n", "")


def test_nginx_takes_its_configuration(root: Path, tmp_path: Path) -> None:
    (tmp_path / "nginx").mkdir()
    file = tmp_path / "nginx.conf"
    file.write_text((root / "usr/share/fashkiin/nginx.conf").read_text().replace("/run/fashkiin", str(tmp_path)))
    told = subprocess.run(["/usr/sbin/nginx", "-t", "-c", file, "-e", "stderr"], check=True, capture_output=True, text=True)
    assert told.stderr.splitlines() == [
        f"nginx: the configuration file {file} syntax is ok", f"nginx: configuration file {file} test is successful"
    ]


@pytest.mark.parametrize("name", ["fashkiin", "fashkiin-features", "fashkiin-nginx"])
def test_unit_exposes_little(name: str) -> None:
    words: list[str | Path] = ["systemd-analyze", "security", "--offline=true", "--threshold=20", TOP / f"deploy/{name}.service"]
    subprocess.run(words, check=True, stdout=subprocess.DEVNULL)


def calls(names: list[str]) -> Iterator[str]:
    """The system calls of names, which may be groups of systemd."""
    for name in names:
        if name.startswith("@"):
            words = ["systemd-analyze", "syscall-filter", name]
            told = subprocess.run(words, check=True, capture_output=True, text=True).stdout
            yield from calls(re.findall(r"^    (@?[a-z0-9_-]+)$", told, re.M))
        else:
            yield name


def filter_of(unit: str) -> seccomp.SyscallFilter:
    """What a unit's two lines `SystemCallFilter` allow; another call fails by EPERM, as the unit has it."""
    first, without = re.findall(r"^SystemCallFilter=(~?)(.*)$", unit, re.M)
    assert (first[0], without[0]) == ("", "~")
    allowed = set(calls(first[1].split())) - set(calls(without[1].split()))
    rules = seccomp.SyscallFilter(seccomp.ERRNO(1))
    for call in sorted(allowed | {"execve"}):
        try:
            rules.add_rule(seccomp.ALLOW, call)
        except RuntimeError:  # a call that this machine's kind has not
            pass
    return rules


def test_server_serves_under_the_filter_of_the_unit(root: Path, tmp_path: Path) -> None:
    """At a socket, as the unit has it; the name of the socket is the test's."""
    path, store = tmp_path / "served.sock", tmp_path / "points.db"
    place = re.findall(r'^Environment="PLACE=(--socket) /run/fashkiin/served.sock"$', UNIT, re.M)[0]
    variables = {"ROOT_DIGEST": digest("root"), "TIMEOUT": "5", "WORKERS": "3", "STORE": str(store), "PLACE": f"{place} {path}"}
    line = re.findall(r"^ExecStart=(.*) \$ROOT_AUTHS$", UNIT, re.M)[0]
    words = [*re.sub(r"\$\{?(\w+)\}?", lambda found: variables[str(found[1])], line).split(), "coast"]
    words[0] = f"{root}{words[0]}"
    with listening(words, path, preexec_fn=filter_of(UNIT).load):
        connection = SocketConnection(path)
        body = json.dumps({"table": "geo.marks", "period": "week"})
        connection.request("POST", "/tables", body, {"Authorization": f"Bearer {token('root')}"})
        assert connection.getresponse().read() == b'{"ok":true}'
    with closing(sqlite3.connect(store)) as base:
        assert base.execute("PRAGMA integrity_check").fetchall() == [("ok",)]
        kept = base.execute("SELECT user, request, json_extract(body, '$.table') FROM changes WHERE number = 1").fetchall()
    assert kept == [("root", "create-table", "geo.marks")]


def test_features_serve_their_socket_under_the_filter_of_their_unit(root: Path, tmp_path: Path) -> None:
    assert (root / "lib/systemd/system/fashkiin-features.service").read_text() == FEATURES
    line = re.findall(r"^ExecStart=(.*)$", FEATURES, re.M)[0]
    place = re.findall(r"--socket (/run/(\S+)/socket) ", line)[0]
    assert re.findall(r"^RuntimeDirectory=(.*)$", FEATURES, re.M) == [place[1]]
    socket_path = tmp_path / "socket"
    words = line.replace(place[0], str(socket_path)).replace("${URL}", "http://127.0.0.1:1")
    words = words.replace("${BASE_URL}", "http://edge/features").replace("/usr/bin/fashkiin", f"/usr/bin/python3 {root}/usr/bin/fashkiin")
    environment = {"PYTHONPATH": str(root / "usr/lib/python3/dist-packages"), "PATH": "/usr/bin:/bin"}
    with subprocess.Popen(words.split(), env=environment, stdout=subprocess.PIPE, preexec_fn=filter_of(FEATURES).load) as service:
        assert service.stdout is not None
        try:
            assert service.stdout.readline().decode() == f"listening at {socket_path}\n"
            asking = HTTPConnection("edge", timeout=20)
            asking.sock = socket.socket(socket.AF_UNIX)
            asking.sock.connect(str(socket_path))
            asking.request("GET", "/features/")
            links = json.loads(asking.getresponse().read())["links"]
            asking.close()
        finally:
            service.terminate()
    assert service.wait(20) == 0 and {link["href"].partition("/features/")[0] for link in links} == {"http://edge"}
