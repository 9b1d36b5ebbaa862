#!/usr/bin/env python3
"""Writes crates/heap_page/src/page_text.rt: the page of crates/heap_page/page/page.html, and the policy that lets a browser run
just its script. `page.py fit` only tells whether they fit, and ends with status 1 if not."""
import base64
import hashlib
import pathlib
import re
import sys

TOP = pathlib.Path(__file__).resolve().parent.parent
PAGE = TOP / "crates/heap_page/page/page.html"
TEXT = TOP / "crates/heap_page/src/page_text.rt"


def hash_of(page, tag):
    """Returns the source expression of the one element with this tag."""
    (inside,) = re.findall(rf"<{tag}>(.*?)</{tag}>", page, re.DOTALL)
    return "'sha256-" + base64.b64encode(hashlib.sha256(inside.encode()).digest()).decode() + "'"


def policy(page):
    """Returns the policy of the page."""
    parts = ("default-src 'none'", "script-src " + hash_of(page, "script"), "style-src " + hash_of(page, "style"), "img-src data:",
             "connect-src 'self'", "base-uri 'none'", "form-action 'none'", "frame-ancestors 'none'")
    return "; ".join(parts)


def literal(data):
    """Returns a byte string, a line for each line of the page."""
    escaped = "".join({34: '\\"', 92: "\\\\", 10: "\\n\\\n    "}.get(b) or (chr(b) if 32 <= b < 127 else f"\\x{b:02x}") for b in data)
    # A line that begins with spaces would lose them.
    return 'b"' + re.sub(r"\\\n    ( +)", lambda m: "\\\n    " + "\\x20" * len(m[1]), escaped) + '"'


def text():
    """Returns the file."""
    page = PAGE.read_text()
    return ("//! The page, as scripts/page.py writes it.\n\n// The policy of the page.\n"
            f'pub(crate) const POLICY: &str =\n    "{policy(page)}";\n\n// The page.\npub(crate) const PAGE: &[u8] = {literal(page.encode())};\n')


if sys.argv[1:] == ["fit"]:
    sys.exit(TEXT.read_text() != text())
TEXT.write_text(text())
