#!/usr/bin/env python3
"""Prints documents on A4 as PDF, with chromium, and says how many pages each has.

    print.py FOLDER FILE.md..

Writes FOLDER/FILE.pdf for each document. It needs chromium and Python's module markdown (Debian: chromium, python3-markdown); the exit
status is 3 if one is missing.
"""
import re
import shutil
import subprocess
import sys
import tempfile
from pathlib import Path

STYLE = """@page { size: A4; margin: 11mm 12mm }
body { font: 8.3pt/1.2 'DejaVu Sans Condensed', 'DejaVu Sans', sans-serif; margin: 0 }
h1 { font-size: 13pt; margin: 0 0 1.5mm } h2 { font-size: 9.5pt; margin: 2.2mm 0 0.8mm } p, ul { margin: 0.8mm 0 } ul { padding-left: 4mm }
table { border-collapse: collapse; width: 100%; margin: 0.8mm 0 } th, td { border: 0.2mm solid #999; padding: 0.25mm 0.9mm; text-align: left;
vertical-align: top } tr { break-inside: avoid } thead:not(:has(th:not(:empty))) { display: none } code { font: 0.92em 'DejaVu Sans Mono', monospace }
pre { margin: 0.8mm 0; padding: 0.6mm; background: #f4f4f4 } a { color: inherit; text-decoration: none }"""


def html(document):
    """A document as a page for the browser."""
    import markdown

    text = markdown.markdown(document.read_text(encoding="utf-8"), extensions=["tables", "fenced_code"])
    return f"<!doctype html><meta charset='utf-8'><style>{STYLE}</style>{text}"


def pages(pdf):
    """The number of pages of a PDF that chromium wrote."""
    return len(re.findall(rb"/Type\s*/Page\b(?!s)", pdf.read_bytes()))


def printed(document, folder):
    """Prints a document. Returns the number of its pages."""
    pdf = folder / f"{document.stem}.pdf"
    with tempfile.TemporaryDirectory() as place:
        page = Path(place, "page.html")
        page.write_text(html(document), encoding="utf-8")
        words = ["chromium", "--headless", "--no-sandbox", "--disable-gpu", f"--user-data-dir={place}/profile", "--no-pdf-header-footer",
                 "--print-to-pdf-no-header", f"--print-to-pdf={pdf}", page.as_uri()]
        done = subprocess.run(words, capture_output=True, text=True, timeout=120)
    if done.returncode != 0 or not pdf.is_file():
        sys.exit(f"print.py: chromium did not print {document}: {done.stderr.strip()[-500:]}")
    return pages(pdf)


def missing():
    """What is not installed, if something is not."""
    if shutil.which("chromium") is None:
        return "chromium (Debian: chromium)"
    try:
        import markdown  # noqa: F401
    except ImportError:
        return "Python's module markdown (Debian: python3-markdown)"
    return None


def main():
    if len(sys.argv) < 3:
        sys.exit("print.py FOLDER FILE.md..")
    if lacking := missing():
        print(f"print.py: {lacking} is not installed", file=sys.stderr)
        return 3
    folder = Path(sys.argv[1])
    folder.mkdir(parents=True, exist_ok=True)
    for name in sys.argv[2:]:
        print(f"{printed(Path(name), folder)} {name}")
    return 0


if __name__ == "__main__":
    sys.exit(main())
