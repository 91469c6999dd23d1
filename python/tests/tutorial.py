"""The tutorial, done as it is written: its files are written, its commands run in one shell folder, one after the other."""
import os
import re
import subprocess
import sys

_BLOCK = re.compile(r"(?:`(?P<file>[\w.]+)`:\s+)?```(?P<sort>text|console)\n(?P<text>.*?)```\n", re.DOTALL)


def run_through(text, folder):
    """The text of a tutorial with what its commands print in place of what it says."""
    tools = folder / "tools"
    tools.mkdir()
    for name, words in (("delkuthi", "-m delkuthi"), ("python3", "")):
        (tools / name).write_text(f'#!/bin/sh\nexec {sys.executable} {words} "$@"\n', encoding="utf-8")
        (tools / name).chmod(0o755)
    (folder / "work").mkdir(exist_ok=True)
    environment = {**os.environ, "PATH": f"{tools}:{os.environ['PATH']}", "PYTEST_PLUGINS": "delkuthi.pytest_plugin",
                   "COLUMNS": "80", "LC_ALL": "C.UTF-8", "PYTHONDONTWRITEBYTECODE": "1", "PYTEST_ADDOPTS": "-p no:cacheprovider"}
    status = 0

    def done(block):
        nonlocal status
        if block["sort"] == "text":
            if block["file"]:
                (folder / "work" / block["file"]).write_text(block["text"], encoding="utf-8")
            return block[0]
        lines = []
        for line in re.findall(r"^\$ (.*)$", block["text"], re.MULTILINE):
            ran = subprocess.run(["bash", "-c", f"(exit {status}); {line}"], cwd=folder / "work", env=environment, stdout=subprocess.PIPE,
                                 stderr=subprocess.STDOUT, text=True)
            status = ran.returncode
            lines += [f"$ {line}\n", ran.stdout]
        return f"```console\n{''.join(lines)}```\n"

    return _BLOCK.sub(done, text)
