"""Builds the wheel of this package with nothing but Python itself, so that ``pip install`` needs no network.

It offers what pip asks of a build backend: ``build_wheel`` and ``build_sdist``. As a program, ``backend.py FOLDER LIBRARY``, it writes a
wheel that carries the shared library, for machines like this one. With a platform and a build tag behind them, as ``win_amd64
0_tested_not_proved``, the wheel is for other machines.
"""
import base64
import hashlib
import io
import sys
import sysconfig
import tarfile
import tomllib
import zipfile
from pathlib import Path
from typing import Any, Iterator

HERE = Path(__file__).parent
PACKAGE = HERE / "delkuthi"
#: What stands beside this folder in a checkout, and in it in an archive of the sources.
BESIDE = HERE if (HERE / "LICENSE").exists() else HERE.parent
LICENCES = ("LICENSE", "NOTICE")


def _project() -> dict[str, Any]:
    """What pyproject.toml says of the project."""
    project: dict[str, Any] = tomllib.loads((HERE / "pyproject.toml").read_text(encoding="utf-8"))["project"]
    return project


def _version() -> str:
    return (PACKAGE / "VERSION").read_text(encoding="ascii").strip()


def _metadata() -> str:
    """The name, the version, and what is needed for more."""
    project = _project()
    lines = ["Metadata-Version: 2.1", f"Name: {project['name']}", f"Version: {_version()}",
             f"Summary: {project['description']}", f"Requires-Python: {project['requires-python']}"]
    lines.append(f"Keywords: {','.join(project['keywords'])}")
    lines += [f"Classifier: {one}" for one in project["classifiers"]]
    lines += [f"License-File: {name}" for name in LICENCES]
    for extra, needed in project["optional-dependencies"].items():
        lines.append(f"Provides-Extra: {extra}")
        lines += [f'Requires-Dist: {name}; extra == "{extra}"' for name in needed]
    lines.append("Description-Content-Type: text/markdown")
    return "\n".join(lines) + "\n\n" + Path(HERE, str(project["readme"])).read_text(encoding="utf-8")


def _sources() -> list[Path]:
    """The files of the package."""
    return sorted(path for path in PACKAGE.rglob("*") if path.is_file() and "__pycache__" not in path.parts)


def _examples() -> list[Path]:
    """The files of the examples, without what the command writes of them."""
    return sorted(path for path in (BESIDE / "examples").rglob("*") if path.is_file() and path.suffix not in (".html", ".svg", ".xml"))


def _files(tag: str, library: Path | None, build: str) -> Iterator[tuple[str, bytes]]:
    """The files of the wheel, without its list of them."""
    info = f"delkuthi-{_version()}.dist-info"
    for path in _sources():
        yield f"delkuthi/{path.relative_to(PACKAGE)}", path.read_bytes()
    if library is not None:
        interface = _version().split(".")[0]
        name = f"delkuthi-{interface}.dll" if library.suffix == ".dll" else f"libdelkuthi.so.{interface}"
        yield f"delkuthi/{name}", library.read_bytes()
    for name in LICENCES:
        yield f"{info}/{name}", (BESIDE / name).read_bytes()
    for path in _examples():
        yield f"delkuthi-{_version()}.data/data/share/delkuthi/{path.relative_to(BESIDE)}", path.read_bytes()
    yield f"{info}/METADATA", _metadata().encode()
    pure = str(library is None).lower()
    lines = ["Wheel-Version: 1.0", "Generator: delkuthi", f"Root-Is-Purelib: {pure}", f"Tag: {tag}", *([f"Build: {build}"] if build else [])]
    yield f"{info}/WHEEL", ("\n".join(lines) + "\n").encode()
    groups = {"console_scripts": _project()["scripts"], **_project()["entry-points"]}
    lines = [line for group, found in groups.items() for line in (f"[{group}]", *(f"{name} = {place}" for name, place in found.items()))]
    yield f"{info}/entry_points.txt", "\n".join([*lines, ""]).encode()


def _wheel(folder: str, tag: str, library: Path | None = None, build: str = "") -> str:
    """Writes a wheel, the same to the byte whenever it is made of the same files, and answers its name."""
    name, record = f"delkuthi-{_version()}-{build and build + '-'}{tag}.whl", ""
    with zipfile.ZipFile(Path(folder) / name, "w", zipfile.ZIP_DEFLATED) as wheel:
        for place, data in _files(tag, library, build):
            wheel.writestr(zipfile.ZipInfo(place), data, zipfile.ZIP_DEFLATED)
            digest = base64.urlsafe_b64encode(hashlib.sha256(data).digest()).rstrip(b"=").decode()
            record += f"{place},sha256={digest},{len(data)}\n"
        place = f"delkuthi-{_version()}.dist-info/RECORD"
        wheel.writestr(zipfile.ZipInfo(place), f"{record}{place},,\n", zipfile.ZIP_DEFLATED)
    return name


def build_wheel(wheel_directory: str, config_settings: object = None, metadata_directory: object = None) -> str:
    """Writes the wheel and answers its name."""
    return _wheel(wheel_directory, "py3-none-any")


def platform_wheel(folder: str, library: str, machine: str = "", build: str = "") -> str:
    """Writes the wheel that carries the shared library, and answers its name."""
    machine = machine or sysconfig.get_platform().replace("-", "_").replace(".", "_")
    return _wheel(folder, f"py3-none-{machine}", Path(library), build)


def build_sdist(sdist_directory: str, config_settings: object = None) -> str:
    """Writes the sources and answers the name of the archive."""
    base = f"delkuthi-{_version()}"
    with tarfile.open(Path(sdist_directory) / f"{base}.tar.gz", "w:gz", dereference=True) as archive:
        texts = [HERE / name for name in ("pyproject.toml", "backend.py", "README.md", "TUTORIAL.md")]
        for path in [*texts, *sorted((HERE / "editors").iterdir()), *_sources()]:
            archive.add(path, f"{base}/{path.relative_to(HERE)}")
        for path in [*(BESIDE / name for name in LICENCES), *_examples()]:
            archive.add(path, f"{base}/{path.relative_to(BESIDE)}")
        data = _metadata().encode()
        entry = tarfile.TarInfo(f"{base}/PKG-INFO")
        entry.size = len(data)
        archive.addfile(entry, io.BytesIO(data))
    return f"{base}.tar.gz"


if __name__ == "__main__":
    print(Path(sys.argv[1]) / platform_wheel(*sys.argv[1:5]))
