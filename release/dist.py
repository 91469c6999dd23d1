#!/usr/bin/env python3
"""Makes the release from what `make install` has put into BUILD/dist/tree: a folder and a tarball, and beside them what the gate said.

    dist.py check BUILD [unchecked]   is there a gate that passed on this commit? If not, says why and ends with status 1
    dist.py make BUILD [unchecked]    makes the release
    dist.py port BUILD FOLDER MACHINE EMULATOR ARCHIVE SHARED COMPILER
                                      finishes the release for another machine, of which port-binaries has compiled the parts and
                                      run the qualification kit; the last lines that it said are given

The release has the installed files, the portable crate, the sources, a manifest, a list of parts in the form of SPDX, and checksums. The
tarball's bytes depend on the commit and the archive alone: times are those of the commit, owners are none, files are in the order of their
names. How many tests the gate passed and how long it took is in a file beside the tarball, and so is its checksum, for `make sign`.

A commit on which the gate failed or was not run is refused. With `unchecked` the release is made all the same, and the first line of its
manifest says so.
"""
import gzip
import hashlib
import os
import re
import shutil
import subprocess
import sys
import tarfile
import uuid
from datetime import datetime, timezone
from pathlib import Path

ROOT = Path(__file__).resolve().parent.parent
KIT = re.compile(rb"rattle logic=[0-9a-f]{64}")
# The definitions that a source file uses, with the crate or the library of Rattle that they are of.
USED = re.compile(r"^ghost use Rattle\.(\w+)[^{;]*\{([^}]*)\}", re.M)
NEEDED_OF_C = {"memcpy", "memmove", "memset", "memcmp"}


def said(*words):
    """Returns what a command prints."""
    try:
        return subprocess.run(words, cwd=ROOT, check=True, capture_output=True, text=True).stdout
    except (OSError, subprocess.CalledProcessError) as error:
        sys.exit(f"dist.py: {' '.join(words)}: {getattr(error, 'stderr', '') or error}")


def digest(path, kind="sha256"):
    """The checksum of a file."""
    return hashlib.new(kind, path.read_bytes()).hexdigest()


def files(folder):
    """Returns the files below a folder, links included, in the order of their names."""
    return sorted((path for path in folder.rglob("*") if path.is_symlink() or path.is_file()), key=lambda path: path.as_posix())


def commit():
    """Returns the commit of the sources, with a note if they have changed since, and its time."""
    changed = " with changes that are not committed" if said("git", "status", "--porcelain", "--untracked-files=no") else ""
    return said("git", "rev-parse", "HEAD").strip() + changed, int(said("git", "log", "-1", "--format=%ct"))


class Gate:
    """What the gate said of this commit. .ci/run keeps its last line and how long it took in target/gate."""

    def __init__(self, of_commit, unchecked):
        kept = ROOT / "target/gate"
        lines = kept.read_text().splitlines() if kept.is_file() else []
        ran = len(lines) == 3 and lines[0] == of_commit
        self.line, self.took = lines[1:] if ran else ("not run on this commit", "")
        self.passed = ran and re.fullmatch(r"[1-9]\d* passed, 0 failed", self.line) is not None
        if not self.passed and not unchecked:
            sys.exit(f"dist.py: the gate on this commit: {self.line}. Commit, run make test until it passes, then make dist again;\n"
                     "dist.py: or use make dist UNCHECKED=yes, which says so in the first line of the manifest")

    def opening(self):
        """The first line of the manifest."""
        return "The gate passed on this commit." if self.passed else "**NOT CHECKED: made without a gate that passed on this commit.**"

    def text(self, of_commit):
        """The file beside the tarball."""
        return f"commit: {of_commit}\ngate, last line: {self.line}\ngate, time: {self.took or 'not known'}\n"


class Archive:
    """The proved archive: its objects, the kit that proved them, and its functions."""

    def __init__(self, path):
        self.path = path
        self.objects = said("ar", "t", str(path)).split()
        self.kits = sorted({found.decode() for found in KIT.findall(path.read_bytes())})
        self.functions, self.needed = [], set()
        for line in said("nm", "-S", str(path)).splitlines():
            words = line.split(maxsplit=3)
            if len(words) == 4 and words[2] in "Tt":
                self.functions.append((words[3], int(words[1], 16)))
            elif len(words) == 2 and words[0] == "U":
                self.needed.add(words[1])
        defined = {name for name, _ in self.functions}
        self.needed -= defined
        if len(KIT.findall(path.read_bytes())) < len(self.objects) or len(self.kits) != 1:
            sys.exit(f"dist.py: the objects of {path} do not name one kit: {self.kits}")
        if not self.needed <= NEEDED_OF_C:
            sys.exit(f"dist.py: {path} needs more of a C library than the documents say: {sorted(self.needed)}")


def declared(function):
    """Returns where a function of the archive is declared, as file and line, and the definitions that its contract names."""
    # An instance of a generic function ends in a number of its own.
    *before, name = re.sub(r"::<[^<>]*>$", "", function).split("::")
    crate, *within = before or ["*", "*"]
    of_type = "".join(rf"^impl {word}\b[\s\S]*?" for word in within if word[0].isupper())
    module = next((word for word in within if not word[0].isupper()), "lib")
    # What C calls is declared in the thin crates for C; the function that each of them calls has the same name.
    files = ROOT.glob(f"crates/{crate}/src/{module}.rt")
    for file in sorted(files, key=lambda file: (not file.parts[-3].endswith("_c"), file)):
        text = file.read_text(encoding="utf-8")
        found = re.search(rf"{of_type}^ *(?:pub(?:\(\w+\))? )?(?:extern \"C\" )?(?P<here>fn {name}\b)", text, re.M)
        if found:
            start = found.start("here")
            clause = re.search(r"ensures \{(.*?)\n *\{", text[start:], re.S)
            own = [names for crate, names in USED.findall(text) if (ROOT / "crates" / crate).is_dir()]
            brought = set(re.findall(r"\w+", " ".join(own)))
            cited = [word for word in re.findall(r"\w+", clause[1]) if word in brought] if clause else []
            line = text[:start].count("\n") + 1
            return f"{file.relative_to(ROOT)}:{line}", ", ".join(dict.fromkeys(cited)) or "its result"
    sys.exit(f"dist.py: no crate declares {function}, which is in the archive")


def placeholders():
    """Returns what only the seller can say and has not said: the list at the end of docs/SUPPORT.md."""
    return re.findall(r"^\| `(\[SELLER:[^`]*\])` \|", (ROOT / "docs/SUPPORT.md").read_text(encoding="utf-8"), re.M)


def to_fill_in():
    """The part of the manifest about what the seller has not said."""
    missing = placeholders()
    if not missing:
        return ""
    return f"\n**NOT FILLED IN BY THE SELLER ({len(missing)}):** {', '.join(f'`{one}`' for one in missing)}. See docs/SUPPORT.md.\n"


def manifest(version, of_commit, archive, tree, opening):
    """What is in the release, which proof is behind which function, and how to check it all again."""
    rows = [(f"`{name}`", str(size), *declared(name)) for name, size in sorted(archive.functions)]
    table = "".join(f"| {name} | {size} | {place} | {contract} |\n" for name, size, place, contract in rows)
    text = (ROOT / "release/MANIFEST.md.in").read_text(encoding="utf-8")
    values = {"VERSION": version, "COMMIT": of_commit, "KIT": archive.kits[0], "OPENING": opening + "\n" + to_fill_in(), "FUNCTIONS": table,
              "OBJECTS": ", ".join(archive.objects), "ARCHIVE": digest(tree / "lib/libdelkuthi.a"),
              "SHARED": digest(tree / f"lib/libdelkuthi.so.{version}"), "BYTES": str(sum(size for _, size in archive.functions)),
              "NEEDED": ", ".join(f"`{name}`" for name in sorted(archive.needed))}
    return re.sub(r"@([A-Z]+)@", lambda found: values[found[1]], text)


def file_type(path):
    """The sort of a file, as SPDX has it."""
    sorts = {".a": "ARCHIVE", ".whl": "ARCHIVE", ".md": "DOCUMENTATION", ".c": "SOURCE", ".h": "SOURCE", ".hpp": "SOURCE", ".rs": "SOURCE",
             ".rt": "SOURCE", ".antt": "SOURCE", ".py": "SOURCE", ".txt": "TEXT"}
    if path.suffix in sorts:
        return sorts[path.suffix]
    return "BINARY" if b"\0" in path.read_bytes() else "TEXT"


def spdx_file(number, path, folder):
    """The part of the list about one file."""
    return (f"FileName: ./{path.relative_to(folder)}\nSPDXID: SPDXRef-File-{number}\nFileType: {file_type(path)}\n"
            f"FileChecksum: SHA1: {digest(path, 'sha1')}\nFileChecksum: SHA256: {digest(path)}\nLicenseConcluded: LicenseRef-Delkuthi\n"
            "LicenseInfoInFile: NOASSERTION\nFileCopyrightText: NOASSERTION\n"
            f"Relationship: SPDXRef-Delkuthi CONTAINS SPDXRef-File-{number}\n\n")


def spdx(version, created, kit, folder, template="delkuthi.spdx.in"):
    """Returns the list of parts: every file of the release but this list and the checksums, what is linked in, and what built it."""
    delivered = [path for path in files(folder) if not path.is_symlink()]
    listed = "".join(spdx_file(number, path, folder) for number, path in enumerate(delivered))
    verified = hashlib.sha1("".join(sorted(digest(path, "sha1") for path in delivered)).encode()).hexdigest()
    text = (ROOT / "release" / template).read_text(encoding="utf-8")
    values = {"VERSION": version, "CREATED": created, "KIT": kit, "FILES": listed, "LICENSE": (ROOT / "LICENSE").read_text(),
              "NAME": folder.name, "VERIFIED": verified, "UUID": str(uuid.uuid5(uuid.NAMESPACE_URL, version + verified))}
    return re.sub(r"@([A-Z]+)@", lambda found: values[found[1]], text)


def put_sources(folder):
    """Copies the sources that git lists."""
    for name in said("git", "ls-files", "-z").split("\0"):
        if name and (ROOT / name).exists():
            (folder / name).parent.mkdir(parents=True, exist_ok=True)
            shutil.copy(ROOT / name, folder / name)


def put_answers(folder, build):
    """Writes the proved archive's answers to the script of the portable crate, for comparison with other machines."""
    player = build / "dist/player"
    said(os.environ.get("CC", "cc"), "-std=c99", "-O2", f"-I{folder}/include", f"{folder}/portable/test/player.c", f"{folder}/lib/libdelkuthi.a",
         "-o", str(player))
    (folder / "portable/test/answers").write_text(said(str(player), f"{folder}/portable/test/script"))


def pack(folder, time):
    """Packs a folder into a tarball."""
    def plain(entry):
        entry.uid = entry.gid = 0
        entry.uname = entry.gname = ""
        entry.mtime = time
        entry.mode = 0o755 if entry.isdir() or entry.mode & 0o100 else 0o644
        return entry

    name = folder.with_name(f"{folder.name}.tar.gz")
    with name.open("wb") as file, gzip.GzipFile("", "wb", 9, file, 0) as packed, tarfile.open(fileobj=packed, mode="w") as tar:
        for path in [folder, *sorted(folder.rglob("*"), key=lambda path: path.as_posix())]:
            tar.add(path, path.relative_to(folder.parent).as_posix(), recursive=False, filter=plain)
    return name


def date(time):
    """A time as SPDX has it."""
    return datetime.fromtimestamp(time, timezone.utc).strftime("%Y-%m-%dT%H:%M:%SZ")


def packed_with_sums(folder, time):
    """Writes the checksums of a folder and packs it."""
    sums = "".join(f"{digest(path)}  {path.relative_to(folder)}\n" for path in files(folder) if not path.is_symlink())
    (folder / "SHA256SUMS").write_text(sums, encoding="utf-8")
    return pack(folder, time)


def port(build, folder, machine, emulator, archive, shared, compiler):
    """Finishes the release for another machine, and adds the checksum of its tarball to the file that is signed."""
    version, (of_commit, time) = (ROOT / "VERSION").read_text().strip(), commit()
    values = {"VERSION": version, "MACHINE": machine, "EMULATOR": emulator, "ARCHIVE": archive, "SHARED": shared, "COMMIT": of_commit,
              "COMPILER": compiler}
    text = (ROOT / "release/PORT.md.in").read_text(encoding="utf-8")
    (folder / "README.md").write_text(re.sub(r"@([A-Z]+)@", lambda found: values[found[1]], text), encoding="utf-8")
    for name in ("LICENSE", "NOTICE"):
        shutil.copy(ROOT / name, folder / name)
    (folder / "delkuthi.spdx").write_text(spdx(version, date(time), compiler, folder, "port.spdx.in"), encoding="utf-8")
    packed = packed_with_sums(folder, time)
    with (build / f"delkuthi-{version}.sha256").open("a", encoding="utf-8") as sums:
        sums.write(f"{digest(packed)}  {packed.name}\n")
    print(f"{digest(packed)}  {packed}")


def make(build, gate, of_commit, time):
    """The release: the folder, the tarball, and beside it what the gate said."""
    version = (ROOT / "VERSION").read_text().strip()
    created = date(time)
    folder = build / f"delkuthi-{version}-x86_64-linux"
    shutil.rmtree(folder, ignore_errors=True)
    shutil.move(build / "dist/tree", folder)
    archive = Archive(folder / "lib/libdelkuthi.a")
    shutil.copytree(build / "portable", folder / "portable", ignore=shutil.ignore_patterns("target"))
    shutil.copytree(build / "kit", folder / "kit")
    put_sources(folder / "source")
    put_answers(folder, build)
    (folder / "python").mkdir()
    for wheel in build.glob(f"delkuthi-{version}-py3-none-linux_*.whl"):
        shutil.copy(wheel, folder / "python")
    for name in ("LICENSE", "NOTICE"):
        shutil.copy(ROOT / name, folder / name)
    (folder / "README.md").write_text((ROOT / "release/README.md.in").read_text(encoding="utf-8").replace("@VERSION@", version), encoding="utf-8")
    (folder / "MANIFEST.md").write_text(manifest(version, of_commit, archive, folder, gate.opening()), encoding="utf-8")
    (folder / "delkuthi.spdx").write_text(spdx(version, created, archive.kits[0], folder), encoding="utf-8")
    packed = packed_with_sums(folder, time)
    folder.with_name(f"{folder.name}.gate.txt").write_text(gate.text(of_commit), encoding="utf-8")
    for missing in placeholders():
        print(f"dist.py: not filled in by the seller: {missing}", file=sys.stderr)
    (build / f"delkuthi-{version}.sha256").write_text(f"{digest(packed)}  {packed.name}\n", encoding="utf-8")
    print(f"{digest(packed)}  {packed}")


def main():
    words = sys.argv[1:]
    if len(words) == 8 and words[0] == "port":
        port(Path(words[1]).resolve(), Path(words[2]).resolve(), *words[3:])
        return
    if len(words) not in (2, 3) or words[0] not in ("check", "make") or words[2:] not in ([], ["unchecked"]):
        sys.exit("dist.py check|make BUILD [unchecked]")
    of_commit, time = commit()
    gate = Gate(of_commit, words[2:] == ["unchecked"])
    if words[0] == "make":
        make(Path(words[1]).resolve(), gate, of_commit, time)


if __name__ == "__main__":
    main()
