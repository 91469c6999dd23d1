"""The library installed by make and the package by pip, without a network, in a separate environment."""
import os
import subprocess

import pytest

from delkuthi import __version__

from conftest import EXAMPLES, ROOT


@pytest.fixture(scope="module")
def environment(tmp_path_factory):
    """What the manual says a newcomer does, line by line, in an empty home; gives what runs a command of the environment."""
    home = tmp_path_factory.mktemp("home")
    manual = (ROOT / "python/README.md").read_text(encoding="utf-8")
    lines = [line.strip() for line in manual.split("into one environment:\n\n")[1].split("\n\n")[0].splitlines()]
    make_environment, make_install, pip_install, first_check = lines
    readme = (ROOT / "README.md").read_text(encoding="utf-8")
    assert all(f"    {line.split('  ')[0]}\n" in readme for line in lines[:3]), "the README says the same"
    # No index can be reached, so whatever had to be fetched would fail. The library is not proved again.
    clean = {name: value for name, value in os.environ.items() if name not in ("PYTHONPATH", "DELKUTHI_LIB")}
    clean.update(PIP_INDEX_URL="http://127.0.0.1:9/simple", PIP_RETRIES="0", PIP_DISABLE_PIP_VERSION_CHECK="1", HOME=str(home),
                 MAKEFLAGS=f"BUILD={home}/build DELKUTHI_LIB={os.environ['DELKUTHI_LIB']} --silent")

    def run(name, *words, cwd=EXAMPLES):
        done = subprocess.run([home / "delkuthi/bin" / name, *map(str, words)], cwd=cwd, env=clean, capture_output=True, text=True)
        return done.returncode, done.stdout, done.stderr

    def written(line):
        done = subprocess.run(line, shell=True, cwd=ROOT, env=clean, capture_output=True, text=True)
        return done.returncode, done.stdout, done.stderr

    for line in (make_environment, make_install):
        status, _, error = written(line)
        assert status == 0, error
    status, _, error = run("delkuthi", "check", "drive.txt", "drive.csv")
    assert status == 2 and "takes no arguments" in error, "the program of `make install`"
    status, _, error = written(pip_install)
    assert status == 0, error
    status, out, error = written(first_check)
    assert (status, out) == (1, (EXAMPLES / "messages.txt").read_text(encoding="utf-8")), error
    return run


def test_the_command(environment):
    """It finds the library that make installed, and needs no other package for the drive."""
    assert environment("delkuthi", "--version") == (0, f"delkuthi {__version__}, library {__version__}\n", "")
    messages = (EXAMPLES / "messages.txt").read_text(encoding="utf-8")
    warning = "drive.csv: the log has no cabin_light\n"
    assert environment("delkuthi", "check", "drive.txt", "drive.csv") == (1, messages, warning)
    assert environment("python3", "-m", "delkuthi", "check", "drive.txt", "drive.csv") == (1, messages, warning)
    assert environment("delkuthi") == (1, (EXAMPLES / "report.txt").read_text(), "")


def test_without_other_packages(environment, tmp_path):
    """Candump logs, the page and the picture need none; where one is needed its name in Debian is said."""
    words = ["--html", tmp_path / "a.html", "--plot", tmp_path / "a.svg", "--junit", tmp_path / "a.xml"]
    assert environment("delkuthi", "check", "drive.txt", "drive.log", *words)[0] == 1
    assert sorted(path.name for path in tmp_path.iterdir()) == ["a.html", "a.svg", "a.xml"]
    status, _, error = environment("delkuthi", "check", "drive.txt", "drive.db")
    assert status == 2 and "python3-can" in error
    status, _, error = environment("delkuthi", "check", "bench/bus.txt", "bench/bus.log")
    assert status == 2 and "python3-canmatrix" in error
    status, _, error = environment("delkuthi", "watch", "drive.txt", "virtual:a")
    assert status == 2 and "python3-can" in error
    status, _, error = environment("delkuthi", "check", "drive.txt", "drive.csv", "--plot", tmp_path / "a.png")
    assert status == 2 and "python3-matplotlib" in error


def test_the_first_example_where_debian_s_modules_are_seen(tmp_path):
    """The manual's first example, in an environment made as the manual says it for that."""
    debian = "/usr/bin/python3"
    if not os.path.exists(debian) or subprocess.run([debian, "-c", "import canmatrix, ensurepip"], capture_output=True).returncode:
        pytest.skip("Debian's Python has no canmatrix (python3-canmatrix) or no venv (python3-venv)")
    manual = (ROOT / "python/README.md").read_text(encoding="utf-8")
    assert "`python3 -m venv --system-site-packages ~/delkuthi`" in manual and "`~/delkuthi/bin/pip install './python[signals]'`" in manual
    clean = {name: value for name, value in os.environ.items() if name != "PYTHONPATH"}
    clean.update(PIP_INDEX_URL="http://127.0.0.1:9/simple", PIP_RETRIES="0", PIP_DISABLE_PIP_VERSION_CHECK="1", HOME=str(tmp_path))
    home = tmp_path / "delkuthi"
    subprocess.run([debian, "-m", "venv", "--system-site-packages", home], check=True, env=clean, capture_output=True)
    subprocess.run([home / "bin/pip", "install", "--quiet", f"{ROOT}/python[signals]"], check=True, env=clean, capture_output=True)
    first = manual.split("    cd examples/bench\n    ")[1].split("\n")[0].split()
    words = [str(tmp_path / "out.html") if word.endswith(".html") else word for word in first[1:]]
    done = subprocess.run([home / "bin/delkuthi", *words], cwd=EXAMPLES / "bench", env=clean, capture_output=True, text=True)
    assert done.returncode == 1 and "bus.log:1019: \"brake light\" (Delay) broken" in " ".join(done.stdout.split()), done.stdout + done.stderr
