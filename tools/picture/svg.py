# SPDX-License-Identifier: MIT
"""What all pictures are made of: elements of SVG, and the style, which has colours for light and for dark screens."""

import html
import re

# The width of a letter in pixels: in a script's own words, whose letters all have the same width, and the greatest in all other
# text.
LETTER = 6.7
PROSE_LETTER = 6.5
# The margin of a picture.
MARGIN = 12
# Characters that XML doesn't allow, and those that would change how the text beside them is shown.
UNSHOWN = re.compile("[\x00-\x1f\x7f-\x9f\u200b-\u200f\u2028-\u202e\u2060-\u206f\ufeff\ufffe\uffff]")
# The colours of entries. They are Paul Tol's light scheme: colour-blind readers can tell them apart, and dark text on them is
# legible.
COLOURS = ("#77aadd", "#ee8866", "#eedd88", "#ffaabb", "#99ddff", "#44bb99", "#bbcc33", "#dddddd")
LIGHT = {"paper": "#ffffff", "stripe": "#f3f5f8", "ink": "#1c2128", "quiet": "#57606a", "rule": "#c5ccd3", "fault": "#b3261e"}
DARK = {"paper": "#0d1117", "stripe": "#181e27", "ink": "#e6edf3", "quiet": "#9aa5b1", "rule": "#3d4652", "fault": "#ff9d94"}


def clean(text):
    """Returns the text as an element or an attribute may have it. A mark replaces each character that can't be shown."""
    return html.escape(UNSHOWN.sub("\ufffd", text))


def tag(name, attributes, *content):
    """Returns an element. Numbers have one decimal at most, so that the same picture is always the same bytes."""
    words = "".join(f' {key}="{short(value)}"' for key, value in attributes.items())
    return f"<{name}{words}>{''.join(content)}</{name}>" if content else f"<{name}{words}/>"


def short(value):
    """Returns the value of an attribute as text."""
    return f"{value:.1f}".rstrip("0").rstrip(".") if isinstance(value, float) else clean(str(value))


def text(x, y, words, kind="", anchor="start"):
    """Returns a text of this class, or nothing if there are no words. The class `prose` is for what isn't a script's own."""
    if not words:
        return ""
    attributes = {"x": x, "y": y, "class": kind, "text-anchor": anchor}
    return tag("text", {key: value for key, value in attributes.items() if value not in ("", "start")}, clean(words))


def line(x1, y1, x2, y2, kind):
    """Returns a line."""
    return tag("line", {"x1": x1, "y1": y1, "x2": x2, "y2": y2, "class": kind})


def box(x, y, width, height, kind, round=0):
    """Returns a rectangle."""
    attributes = {"x": x, "y": y, "width": width, "height": height, "class": kind}
    return tag("rect", {**attributes, "rx": round} if round else attributes)


def told(words, *content, role="graphics-symbol img"):
    """Returns a part together with what it says in words, for readers who point at it and for screen readers."""
    return tag("g", {"role": role}, tag("title", {}, clean(words)), *content)


def shortened(words, most):
    """Returns the words, with their middle left out if they have more than this many letters."""
    if len(words) <= most:
        return words
    kept = most - 1
    return words[: kept - kept // 2] + "…" + words[len(words) - kept // 2 :]


def legend(items, top, width):
    """Returns the legend, which says what marks and colours mean, and its lower edge. Each item has its room, the function that
    draws it, its name, and the class of that."""
    parts, x, y = [], float(MARGIN), top + 14
    for room, form, name, kind in items:
        if x + room > width - MARGIN and x > MARGIN:
            x, y = float(MARGIN), y + 20
        parts += [form(x + 9, y - 2), text(x + 23, y + 2, name, kind)]
        x += room + 14
    return tag("g", {"role": "graphics-object group"}, tag("title", {}, "What marks and colours mean"), *parts), y + 14


def colours(names):
    """Returns the part of the style that sets these colours."""
    rules = (
        ".paper{fill:%(paper)s}.stripe{fill:%(stripe)s}text{fill:%(ink)s}.quiet{fill:%(quiet)s}.wrong{fill:%(fault)s}"
        ".rule{stroke:%(rule)s}.way{stroke:%(quiet)s}.full{fill:%(ink)s;stroke:%(paper)s}.open{fill:%(paper)s;stroke:%(ink)s}"
        ".thick{stroke:%(ink)s}.under{stroke:%(paper)s}.alarm{fill:%(fault)s}.hole{stroke:%(paper)s}.halo{stroke:%(paper)s}"
        ".arrow{stroke:%(quiet)s}.head-of{fill:%(quiet)s}.crate{fill:%(stripe)s;stroke:%(quiet)s}"
    )
    return rules % names


def style():
    """Returns the style of all pictures."""
    entries = "".join(f".c{n}{{fill:{colour}}}" for n, colour in enumerate(COLOURS))
    fixed = (
        'text{font:11px "DejaVu Sans Mono",Menlo,Consolas,monospace}'
        '.prose{font:12px "DejaVu Sans",Verdana,Arial,sans-serif}.head{font-weight:bold;font-size:14px}'
        ".small{font-size:10px}.new{font-weight:bold}text.inside{fill:#14181d;font-size:10px}.hit{fill:transparent}"
        ".arrow,.thick,.under{fill:none}.arrow{stroke-width:1.3}.bar{stroke:#57606a}.open,.thick,.hole{stroke-width:2}"
        ".under{stroke-width:5}.halo{paint-order:stroke;stroke-width:3px}.way{stroke-width:1.5}"
    )
    dark = f"@media (prefers-color-scheme:dark){{{colours(DARK)}}}"
    return tag("style", {}, colours(LIGHT) + entries + fixed + dark)


def picture(width, height, title, description, kind, parts):
    """Returns a whole picture of this kind."""
    size = f"0 0 {short(float(width))} {short(float(height))}"
    attributes = {
        "xmlns": "http://www.w3.org/2000/svg",
        "width": float(width),
        "height": float(height),
        "viewBox": size,
        "role": "graphics-document document",
        "aria-roledescription": kind,
        "aria-labelledby": "title",
        "aria-describedby": "description",
    }
    head = [tag("title", {"id": "title"}, clean(title)), tag("desc", {"id": "description"}, clean(description)), style()]
    paper = box(0, 0, float(width), float(height), "paper")
    return tag("svg", attributes, "\n", "\n".join([*head, paper, *parts]), "\n") + "\n"
