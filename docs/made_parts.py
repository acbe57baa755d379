"""What the scripts share that make parts of the documents: where a made part stands in a file, and how it is put there.

A made part stands between two lines, which are comments of the file they are in, and is never edited by hand:

    <!-- made by docs/make_references.py: statuses -->   (.\\" or # in place of <!-- -->, by the file)
    ..
    <!-- end -->
"""

import difflib
import pathlib
import re
import sys

ROOT = pathlib.Path(__file__).resolve().parent.parent


def read(name: str) -> str:
    return (ROOT / name).read_text("utf-8")


def has_part(text: str, script: str, name: str) -> bool:
    return f"made by docs/{script}: {name}" in text


def put_part(text: str, script: str, name: str, body: str) -> str:
    """The text of a file with this body in its part of this name."""
    opening = rf"^(?P<opening>[^\n]*made by docs/{re.escape(script)}: {re.escape(name)}[^\n]*\n)"
    found = re.search(opening + r'.*?^(?P<end> *(?:<!--|\.\\"|#) end\b[^\n]*)$', text, flags=re.M | re.S)
    if found is None:
        raise SystemExit(f"there is no part '{name}' made by docs/{script}, with an end, to put it in")
    return text[: found.start()] + found["opening"] + body + found["end"] + text[found.end() :]


def finish(texts: dict[str, str]) -> None:
    """Writes the files; with --check shows how they differ from what is there, and ends with 1 where one does."""
    stale = {name: text for name, text in texts.items() if not (ROOT / name).exists() or read(name) != text}
    for name, text in stale.items():
        if "--check" in sys.argv[1:]:
            old = read(name).splitlines() if (ROOT / name).exists() else []
            print(*list(difflib.unified_diff(old, text.splitlines(), name, "as it should be", "", "", 0, ""))[:20], sep="\n")
        else:
            (ROOT / name).write_text(text, "utf-8")
            print(f"{name} was made anew")
    if stale and "--check" in sys.argv[1:]:
        raise SystemExit(f"not current, run docs/{pathlib.Path(sys.argv[0]).name}: {', '.join(stale)}")
