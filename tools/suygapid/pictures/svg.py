"""Elements of SVG pictures, which browsers show by themselves: no script, no file but the picture."""
from xml.etree import ElementTree

Element = ElementTree.Element
LETTER = 6.8  # pixels of a letter at 11 pixels' height
STYLE = """
svg { height: auto; background: #fbfaf7; font: 11px ui-monospace, "DejaVu Sans Mono", Consolas, monospace; }
text { fill: #1e2430; dominant-baseline: middle; }
.title { font-size: 14px; font-weight: 600; }
.soft { fill: #626a7c; }
.edge { stroke: #fbfaf7; stroke-width: .5; }
.bad { fill: #c22f2f; }
"""


def picture(width: float, height: float, label: str) -> Element:
    """An empty picture, as wide as there is room, and as high as it then is: a window shows a part of a high one."""
    made = Element("svg", {"xmlns": "http://www.w3.org/2000/svg", "viewBox": f"0 0 {width:g} {height:g}", "width": "100%",
                           "preserveAspectRatio": "xMinYMin", "role": "img", "aria-label": shown(label)})
    ElementTree.SubElement(made, "style").text = STYLE
    return made


def shown(words: str) -> str:
    """Words in XML, which has no place for most control characters and for bytes that aren't text."""
    return "".join(it if it.isprintable() else repr(it)[1:-1] for it in words)


def add(parent: Element, name: str, **attributes: object) -> Element:
    """A new element. Numbers have two places, and `kind` is its class."""
    named = {"class" if key == "kind" else key.replace("_", "-"): f"{value:.2f}" if isinstance(value, float) else str(value)
             for key, value in attributes.items()}
    return ElementTree.SubElement(parent, name, named)


def text(parent: Element, x: float, y: float, words: str, kind: str = "") -> None:
    made = add(parent, "text", x=x, y=y, **({"kind": kind} if kind else {}))
    made.text = shown(words)


def box(parent: Element, x: float, y: float, width: float, height: float, fill: str, told: str, words: str = "") -> None:
    """A rectangle that tells something under the pointer, with as many letters of some words as it has room for. It can be seen."""
    group = add(parent, "g")
    add(group, "title").text = shown(told)
    add(group, "rect", kind="edge", x=float(x), y=float(y), width=max(1.0, float(width)), height=float(height), fill=fill)
    room = int((width - 6) / LETTER)
    if words and room >= 3:
        text(group, x + 3.0, y + height / 2, words if len(words) <= room else words[: room - 1] + "…")


def written(made: Element) -> str:
    return ElementTree.tostring(made, encoding="unicode") + "\n"
