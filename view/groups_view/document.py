"""The page as text: one file, in which no data is read as HTML."""

import base64
import hashlib
import json
import pathlib

from groups_view.names import visible

FOLDER = pathlib.Path(__file__).resolve().parent
SCRIPTS = ("data.js", "parts.js", "list.js", "views.js", "start.js")


def plain(text):
    return text.replace("&", "&amp;").replace("<", "&lt;").replace(">", "&gt;").replace('"', "&quot;")


def data_text(data):
    """JSON in ASCII that no reader of HTML takes for a tag."""
    text = json.dumps(data, separators=(",", ":"))
    return text.replace("&", "\\u0026").replace("<", "\\u003c").replace(">", "\\u003e")


def source(text):
    """What the policy allows: a script or a style with exactly this text."""
    return "'sha256-" + base64.b64encode(hashlib.sha256(text.encode()).digest()).decode() + "'"


def script_text():
    parts = "\n".join((FOLDER / name).read_text("utf-8") for name in SCRIPTS)
    return f'"use strict";\n{{\n{parts}}}\n'


def page(data, svg, caption, small):
    style, script = (FOLDER / "page.css").read_text("utf-8"), script_text()
    allowed = f"script-src {source(script)}; style-src {source(style)}"
    policy = f"default-src 'none'; {allowed}; base-uri 'none'; form-action 'none'"
    title = plain(visible(data["title"]))
    frame = (FOLDER / "page.html").read_text("utf-8")
    values = {
        "POLICY": policy,
        "TITLE": title,
        "STYLE": style,
        "PICTURE": svg,
        "CAPTION": plain(caption),
        "GROUPS": "\n".join(f'<template id="group{at}">{text}</template>' for at, text in small.items()),
        "DATA": data_text(data),
        "SCRIPT": script,
    }
    # The frame is cut before anything is put in, so no data is taken for a name of the frame.
    first, *rest = frame.split("{{")
    parts = [first]
    for it in rest:
        name, _, after = it.partition("}}")
        parts += [values[name], after]
    return "".join(parts)
