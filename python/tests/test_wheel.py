"""The wheel that carries the shared library: installed by pip alone, it is all that a test leader needs."""
import os
import subprocess
import sys
import tarfile
import zipfile
from pathlib import Path

import pytest
from delkuthi import __version__
from delkuthi.library import INTERFACE, candidates

from conftest import EXAMPLES, ROOT


def made(folder, environment):
    """The wheel that `make wheel` writes."""
    done = subprocess.run(["make", "--silent", "wheel", f"BUILD={folder}", f"DELKUTHI_LIB={os.environ['DELKUTHI_LIB']}"], cwd=ROOT,
                          env=environment, capture_output=True, text=True)
    assert done.returncode == 0, done.stderr
    return done.stdout.strip().splitlines()[-1]


def test_a_wheel_is_all_that_is_needed(tmp_path):
    clean = {name: value for name, value in os.environ.items() if name not in ("PYTHONPATH", "DELKUTHI_LIB", "LD_LIBRARY_PATH")}
    clean.update(PIP_INDEX_URL="http://127.0.0.1:9/simple", PIP_RETRIES="0", PIP_DISABLE_PIP_VERSION_CHECK="1", HOME=str(tmp_path))
    wheel = made(tmp_path / "one", clean)
    again = made(tmp_path / "two", clean)
    with open(ROOT / wheel, "rb") as one, open(ROOT / again, "rb") as other:
        assert one.read() == other.read(), "the same to the byte"
    assert f"delkuthi-{__version__}-py3-none-linux_" in wheel
    with zipfile.ZipFile(ROOT / wheel) as found:
        assert any(name.startswith("delkuthi/libdelkuthi.so.") for name in found.namelist())
        assert {f"delkuthi/page/page.{ending}" for ending in ("html", "css", "js")} <= set(found.namelist())
        assert "delkuthi/readers/btf.py" in found.namelist() and not any("__pycache__" in name for name in found.namelist())
        assert found.read(f"delkuthi-{__version__}.dist-info/LICENSE") == (ROOT / "LICENSE").read_bytes()
        assert b"License-File: LICENSE\n" in found.read(f"delkuthi-{__version__}.dist-info/METADATA")
    subprocess.run([sys.executable, "-m", "venv", tmp_path / "home"], check=True)
    bin_folder = tmp_path / "home/bin"
    subprocess.run([bin_folder / "pip", "install", "--quiet", ROOT / wheel], check=True, env=clean)
    done = subprocess.run([bin_folder / "delkuthi", "check", "drive.txt", "drive.csv"], cwd=EXAMPLES, env=clean, capture_output=True, text=True)
    assert (done.returncode, done.stdout) == (1, (EXAMPLES / "messages.txt").read_text(encoding="utf-8"))
    shared = tmp_path / "home/share/delkuthi/examples"
    words = ["check", "bench/samples.txt", "bench/samples.csv"]
    done = subprocess.run([bin_folder / "delkuthi", *words], cwd=shared, env=clean, capture_output=True, text=True)
    assert done.returncode == 1 and "broken" in done.stdout, done.stderr
    page = tmp_path / "drive.html"
    done = subprocess.run([bin_folder / "delkuthi", "check", "drive.txt", "drive.csv", "--html", page], cwd=EXAMPLES, env=clean, capture_output=True)
    assert done.returncode == 1 and "3 of 13 rows broken" in page.read_text(encoding="utf-8")
    where = "from delkuthi import library as l; print(l.library()._name)"
    done = subprocess.run([bin_folder / "python", "-c", where], env=clean, capture_output=True, text=True)
    assert done.stdout.startswith(str(tmp_path / "home")), done.stdout


def test_the_sources_are_enough_for_a_wheel(tmp_path):
    """A wheel of the archive of the sources has the files of one of the checkout."""
    backend = [sys.executable, "-c", "import sys, backend; print(getattr(backend, sys.argv[1])(sys.argv[2]))"]
    archive = subprocess.run([*backend, "build_sdist", tmp_path], cwd=ROOT / "python", capture_output=True, text=True, check=True).stdout.strip()
    with tarfile.open(tmp_path / archive) as found:
        found.extractall(tmp_path)
    names = []
    for number, folder in enumerate((ROOT / "python", tmp_path / archive.removesuffix(".tar.gz"))):
        (tmp_path / str(number)).mkdir()
        done = subprocess.run([*backend, "build_wheel", tmp_path / str(number)], cwd=folder, capture_output=True, text=True, check=True)
        with zipfile.ZipFile(tmp_path / str(number) / done.stdout.strip()) as file:
            names.append(file.namelist())
    assert names[0] == names[1] and any(name.endswith("share/delkuthi/examples/bench/tasks.btf") for name in names[0])


@pytest.mark.parametrize(("library", "machine", "inside"), [("delkuthi.dll", "win_amd64", f"delkuthi-{INTERFACE}.dll"),
                                                          ("some.so", "linux_aarch64", f"libdelkuthi.so.{INTERFACE}")])
def test_a_wheel_for_another_machine_says_that_it_is_not_proved(tmp_path, library, machine, inside):
    (tmp_path / library).write_bytes(b"a library")
    words = [sys.executable, "backend.py", tmp_path, tmp_path / library, machine, "0_tested_not_proved"]
    made = Path(subprocess.run(words, cwd=ROOT / "python", capture_output=True, text=True, check=True).stdout.strip())
    assert made.name == f"delkuthi-{__version__}-0_tested_not_proved-py3-none-{machine}.whl"
    with zipfile.ZipFile(made) as wheel:
        assert wheel.read(f"delkuthi/{inside}") == b"a library"
        info = next(name for name in wheel.namelist() if name.endswith("/WHEEL"))
        assert f"Tag: py3-none-{machine}\nBuild: 0_tested_not_proved\n" in wheel.read(info).decode()


def test_on_windows_a_dll_is_looked_for(monkeypatch, tmp_path):
    monkeypatch.setattr(sys, "platform", "win32")
    monkeypatch.setenv("DELKUTHI_LIB", str(tmp_path))
    assert list(candidates()) == [str(tmp_path / f"delkuthi-{INTERFACE}.dll")]
