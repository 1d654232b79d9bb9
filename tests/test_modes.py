"""Who may read the files of the built programs with `--store` and `--copy`: their owner alone, whatever the umask."""
import http.client
import json
import os
import stat
import subprocess
from pathlib import Path

import pytest

from served import PROGRAM, digest, free_port, listening, token
from stored import PATIENCE, RUN


def modes(folder: Path) -> dict[str, str]:
    """The mode of each file of a folder."""
    return {it.name: oct(stat.S_IMODE(it.stat().st_mode)) for it in folder.iterdir()}


@pytest.mark.parametrize("umask", [0o000, 0o022])
def test_st_run_makes_a_store_for_its_owner_alone(tmp_path: Path, umask: int) -> None:
    words = [str(RUN), "--root", digest("root"), "--store", str(tmp_path / "points.db")]
    subprocess.run(words, stdin=subprocess.DEVNULL, check=True, umask=umask)
    assert modes(tmp_path) == {"points.db": "0o600", "points.db-wal": "0o600"}


@pytest.mark.parametrize("umask", [0o000, 0o022])
def test_st_served_makes_a_store_and_its_copy_for_their_owner_alone(tmp_path: Path, umask: int) -> None:
    port = free_port()
    store, copy = tmp_path / "points.db", tmp_path / "copy.db"
    words = [str(PROGRAM), "--root", digest("root"), "--port", str(port), "--connections", "1", "--workers", "1"]
    words += ["--store", str(store), "--copy", str(copy)]
    with listening(words, port, preexec_fn=lambda: os.umask(umask)) as server:
        connection = http.client.HTTPConnection("127.0.0.1", port, timeout=PATIENCE)
        body = json.dumps({"id": "p", "label": "", "note": "", "point": [1, 2, 3]})
        connection.request("POST", "/tables/points/put", body, {"Authorization": f"Bearer {token('root')}"})
        assert connection.getresponse().read() == b'{"ok":true}'
        connection.close()
        assert server.wait(timeout=PATIENCE) == 0
    found = modes(tmp_path)
    assert {"points.db", "points.db-wal", "copy.db"} <= set(found)
    assert set(found.values()) == {"0o600"}


def test_a_store_that_is_there_keeps_its_mode(tmp_path: Path) -> None:
    store = tmp_path / "points.db"
    store.touch()
    store.chmod(0o640)
    subprocess.run([str(RUN), "--root", digest("root"), "--store", str(store)], stdin=subprocess.DEVNULL, check=True)
    assert modes(tmp_path) == {"points.db": "0o640", "points.db-wal": "0o640"}


def test_a_link_to_no_file_is_not_followed(tmp_path: Path) -> None:
    store = tmp_path / "points.db"
    store.symlink_to(tmp_path / "elsewhere")
    words = [str(RUN), "--root", digest("root"), "--store", str(store)]
    it = subprocess.run(words, stdin=subprocess.DEVNULL, capture_output=True, text=True)
    assert (it.returncode, it.stderr) == (5, "st_run: store not opened\n")
    assert [it.name for it in tmp_path.iterdir()] == ["points.db"]
