"""SVG written directly: elements, texts, and the file around them."""

import re
from xml.sax.saxutils import escape

# Characters that XML has no place for. They come in with names of folders alone.
_NO_XML = re.compile("[\x00-\x08\x0b-\x1f\ud800-\udfff\ufffe\uffff]")


def coordinate(value):
    """A coordinate as it is written: at most one digit after the point."""
    return ("%.1f" % value).removesuffix(".0")


def _escaped(text):
    return escape(_NO_XML.sub("?", text), {'"': "&quot;"})


def element(name, content=None, **attributes):
    """An element; `kind` is its class attribute, and underscores in names are hyphens."""
    parts = [name]
    for key, value in attributes.items():
        key = "class" if key == "kind" else key.replace("_", "-")
        parts.append('%s="%s"' % (key, _escaped(value) if isinstance(value, str) else coordinate(value)))
    return "<%s/>" % " ".join(parts) if content is None else "<%s>%s</%s>" % (" ".join(parts), content, name)


def title_of(words):
    """What a browser shows with the mouse over the element that this stands in."""
    return element("title", _escaped(words))


def text(x, y, words, **attributes):
    return element("text", _escaped(words), x=x, y=y, **attributes)


def file_of(width, height, head, style, parts, defs=None):
    """A whole file: a picture with a title and a style, and with what its parts refer to, on white ground."""
    return "\n".join([
        '<?xml version="1.0" encoding="UTF-8"?>',
        '<svg xmlns="http://www.w3.org/2000/svg" width="%s" height="%s" viewBox="0 0 %s %s">' % ((coordinate(width), coordinate(height)) * 2),
        title_of(head),
        element("style", style),
        *([] if defs is None else [element("defs", defs)]),
        element("rect", width=width, height=height, fill="#FFFFFF"),
        *parts,
        "</svg>\n",
    ])
