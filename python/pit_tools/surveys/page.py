"""The survey as one HTML page with its pictures, which opens without a network."""
from __future__ import annotations

import base64
from html import escape
from typing import Optional, Sequence

from pit_tools.surveys.box import Inputs, box
from pit_tools.surveys.facts import Facts
from pit_tools.surveys.look_at import Finding, look_at, notes
from pit_tools.surveys.pictures import Plane, all_of_them, png_of
from pit_tools.surveys.text import survey_text
from pit_tools.surveys.view import view

STYLE = """
body { font: 15px/1.45 system-ui, sans-serif; max-width: 1280px; margin: 1.5em auto; padding: 0 1em;
  color: #222; }
h1 { font-size: 1.5em; }
h2 { font-size: 1.15em; margin: 1.6em 0 0.3em; border-bottom: 1px solid #ccc; }
table.box { border-collapse: collapse; width: 100%; border: 2px solid #4c78a8;
  table-layout: fixed; }
table.box th { width: 8.5em; text-align: left; }
table.box th, table.box td { vertical-align: top; padding: 0.35em 0.7em;
  border-top: 1px solid #dde5ee; }
table.box td { overflow-wrap: anywhere; } table.box tr:first-child td { font-weight: 600; }
table.box tr.small td { font: 12.5px/1.45 ui-monospace, monospace; white-space: pre-wrap; }
ul.look { background: #fff6e0; border-left: 5px solid #e0a030; padding: 0.6em 0.6em 0.6em 1.8em; }
ul.look b { font-weight: 600; color: #7a4a00; }
ul.note { background: #eef3f8; border-left: 5px solid #4c78a8; padding: 0.6em 0.6em 0.6em 1.8em; }
p.fine { background: #eaf5ea; border-left: 5px solid #72a86b; padding: 0.6em; }
img { max-width: 100%; height: auto; display: block; }
p.view label, p.view span { margin-right: 1.2em; }
p.view span { padding-left: 0.4em; font-size: 13px; }
canvas { width: 100%; height: 32em; border: 1px solid #ccc; touch-action: none; cursor: grab; }
pre { overflow-x: auto; background: #f7f7f5; padding: 0.8em; font-size: 12.5px; line-height: 1.35; }
nav a { margin-right: 1em; }
"""

#: Rows of the box in small letters of one width, whose blanks stay.
SMALL = ("inputs", "plan", "import", "reconciled")


def survey_page(facts: Facts, inputs: Inputs, text: str = "", planes: Sequence[Plane] = ()) -> str:
    """Returns the page; `text` is the survey's text if it is known already, and `planes` are the
    requested sections."""
    title = f"Survey of {facts.plan.name}"
    pictures = all_of_them(facts, planes)
    links = "".join(f'<a href="#{name}">{name}</a>'
                    for name in ["look", *(name for name, _, _ in pictures), "turn", "numbers"])
    figures = "".join(f'<h2 id="{name}">{name}</h2>\n<p>{escape(message)}</p>\n<img alt="{name}" '
                      f'src="data:image/png;base64,{base64.b64encode(png_of(drawn)).decode()}">\n'
                      for name, message, drawn in pictures)
    return ('<!doctype html>\n<html lang="en"><head><meta charset="utf-8">'
            '<meta name="viewport" content="width=device-width">'
            f"<title>{escape(title)}</title>\n<style>{STYLE}</style></head>\n"
            f"<body><h1>{escape(title)}</h1>\n<nav>{links}</nav>\n{_box(facts, inputs)}\n"
            f'<h2 id="look">Look at</h2>\n{_findings(facts)}\n{figures}'
            '<h2 id="turn">To turn</h2>\n<p>The ground with the pit dug, and the ore that '
            f'the pit takes. Drag to turn it; the wheel brings it nearer.</p>\n{view(facts)}'
            f'<h2 id="numbers">Numbers</h2>\n<pre>{escape(text or survey_text(facts))}</pre>\n'
            '</body></html>\n')


def _box(facts: Facts, inputs: Inputs) -> str:
    rows = []
    for entry in box(facts, inputs):
        small = ' class="small"' if entry.name in SMALL else ""
        lines = "<br>".join(map(escape, entry.lines))
        rows.append(f"<tr{small}><th>{escape(entry.name)}</th><td>{lines}</td></tr>\n")
    return f'<table class="box">\n{"".join(rows)}</table>'


def _findings(facts: Facts) -> str:
    found = (_list(look_at(facts), "look") or '<p class="fine">Nothing unusual was found; the '
             'pictures and numbers show how the instance was understood.</p>')
    noted = _list(notes(facts), "note")
    return found + (f"\n<p>Besides:</p>\n{noted}" if noted else "")


def _list(findings: Sequence[Finding], kind: str) -> Optional[str]:
    items = "".join(f"<li><b>{escape(part)}</b>: {escape(message)}</li>\n"
                    for part, message in findings)
    return f'<ul class="{kind}">\n{items}</ul>' if items else None
