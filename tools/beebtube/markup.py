"""Parts of a page of HTML, in which names and contents are data."""
from __future__ import annotations

import base64
import functools
import hashlib
import html
import os
import re
import zlib
from typing import Iterable, Sequence, Tuple

from .files import read_text
from .words import printable

HERE = os.path.dirname(os.path.realpath(__file__))


def shown(text: str) -> str:
    """A text of somebody else as a page may have it: what cannot be shown is `?`, and signs of HTML are escaped."""
    return html.escape(printable(text))


def grouped(number: int) -> str:
    return "{:,}".format(number)


def element(name: str, inner: str, **attributes: str) -> str:
    """An element with its inner HTML; attributes are texts, a last `_` of their names left out."""
    given = "".join(' %s="%s"' % (key.rstrip("_").replace("_", "-"), html.escape(value)) for key, value in attributes.items())
    return "<%s%s>%s</%s>" % (name, given, inner, name)


def table(heads: Sequence[str], rows: Iterable[Sequence[str]], caption: str) -> str:
    """A table of cells of HTML; the first of a row is its head."""
    lines = ["<tr>%s</tr>" % "".join(element("th", head, scope="col") for head in heads)]
    for row in rows:
        lines.append("<tr>%s%s</tr>" % (element("th", row[0], scope="row"), "".join(element("td", cell) for cell in row[1:])))
    inner = element("caption", caption) + element("thead", lines[0]) + element("tbody", "\n".join(lines[1:]))
    return element("div", element("table", inner), class_="wide", tabindex="0", role="region", aria_label=html.unescape(re.sub("<[^>]*>", "", caption)))


def small(data: bytes) -> str:
    """Bytes made smaller, as the page's script reads them."""
    return base64.b64encode(zlib.compress(data, 6)).decode()


@functools.lru_cache(maxsize=None)
def asset(*names: str) -> Tuple[str, str]:
    """The texts of files of this folder, one after the other, and their checksum as a page's policy has it."""
    text = "".join(read_text(os.path.join(HERE, name)) for name in names)
    return text, "'sha256-%s'" % base64.b64encode(hashlib.sha256(text.encode()).digest()).decode()
