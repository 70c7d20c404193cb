"""Pictures of rectangles, lines and texts, in pixels from the upper left, written as SVG by plain code, or as PNG by
matplotlib where that is installed."""

from __future__ import annotations

from dataclasses import dataclass, field
from xml.sax.saxutils import escape

from .errors import UNREADABLE, UNWRITABLE, ToolError
from .files import Path_, replacing

FONT = "DejaVu Sans, Verdana, Arial, sans-serif"


@dataclass(slots=True)
class Rectangle:
    """A rectangle, filled or with an outline alone."""

    x: float
    y: float
    width: float
    height: float
    fill: str | None
    outline: str | None = None
    dashed: bool = False
    about: str = ""


@dataclass(slots=True)
class Line:
    """A straight line."""

    x1: float
    y1: float
    x2: float
    y2: float
    colour: str
    width: float = 1


@dataclass(slots=True)
class Words:
    """A text on its base line; `anchor` is `start`, `middle` or `end`."""

    x: float
    y: float
    text: str
    size: float = 12
    anchor: str = "start"
    colour: str = "#222222"
    bold: bool = False


@dataclass
class Drawing:
    """A picture: its size in pixels, and what stands on it, later ones above earlier ones."""

    width: float
    height: float
    title: str
    marks: list[Rectangle | Line | Words] = field(default_factory=list)

    def add(self, *marks: Rectangle | Line | Words) -> None:
        """Adds marks."""
        self.marks.extend(marks)

    def write(self, name: Path_) -> None:
        """Writes the picture, by the end of the name as SVG or PNG."""
        end = str(name).rsplit(".", 1)[-1].lower()
        if end not in ("svg", "png"):
            raise ToolError(f"{name} ends neither in .svg nor in .png: give a name that does", 2)
        with replacing(name) as path:
            if end == "svg":
                path.write_text(svg_of(self), encoding="utf-8")
            else:
                write_png(self, path)


def text_width(text: str, size: float) -> float:
    """About how wide a text is, in pixels."""
    return 0.6 * size * len(text)


# ---- SVG


def svg_of(drawing: Drawing) -> str:
    """The picture as SVG."""
    head = (f'<svg xmlns="http://www.w3.org/2000/svg" width="{drawing.width:g}" height="{drawing.height:g}" '
            f'viewBox="0 0 {drawing.width:g} {drawing.height:g}" font-family="{FONT}">\n'
            f"<title>{escape(drawing.title)}</title>\n"
            f'<rect width="{drawing.width:g}" height="{drawing.height:g}" fill="#ffffff"/>\n')
    return head + "".join(_svg_mark(mark) for mark in drawing.marks) + "</svg>\n"


def _svg_mark(mark: Rectangle | Line | Words) -> str:
    match mark:
        case Rectangle():
            look = f'fill="{mark.fill or "none"}"'
            if mark.outline:
                look += f' stroke="{mark.outline}"' + (' stroke-dasharray="3 2"' if mark.dashed else "")
            place = f'x="{mark.x:.2f}" y="{mark.y:.2f}" width="{mark.width:.2f}" height="{mark.height:.2f}"'
            if mark.about:
                return f"<rect {place} {look}><title>{escape(mark.about)}</title></rect>\n"
            return f"<rect {place} {look}/>\n"
        case Line():
            return (f'<line x1="{mark.x1:.2f}" y1="{mark.y1:.2f}" x2="{mark.x2:.2f}" y2="{mark.y2:.2f}" '
                    f'stroke="{mark.colour}" stroke-width="{mark.width:g}"/>\n')
    weight = ' font-weight="bold"' if mark.bold else ""
    return (f'<text x="{mark.x:.2f}" y="{mark.y:.2f}" font-size="{mark.size:g}" text-anchor="{mark.anchor}" '
            f'fill="{mark.colour}"{weight}>{escape(mark.text)}</text>\n')


# ---- PNG


def write_png(drawing: Drawing, name: Path_) -> None:
    """Writes the picture as PNG, two dots a pixel."""
    try:
        from matplotlib.backends.backend_agg import FigureCanvasAgg
        from matplotlib.figure import Figure
        from matplotlib.lines import Line2D
        from matplotlib.patches import Rectangle as Patch
    except ImportError:
        raise ToolError("a PNG needs matplotlib, which isn't installed: write a name that ends in .svg, or install "
                        "matplotlib (on Debian python3-matplotlib)", UNREADABLE) from None
    wide, high = drawing.width, drawing.height
    figure = Figure(figsize=(wide / 100, high / 100), dpi=200, facecolor="white")
    for order, mark in enumerate(drawing.marks):
        match mark:
            case Rectangle():
                place = (mark.x / wide, 1 - (mark.y + mark.height) / high)
                figure.add_artist(Patch(place, mark.width / wide, mark.height / high, linewidth=0.72,
                                        facecolor=mark.fill or "none", edgecolor=mark.outline or "none",
                                        zorder=order, linestyle=(0, (3, 2)) if mark.dashed else "solid"))
            case Line():
                figure.add_artist(Line2D((mark.x1 / wide, mark.x2 / wide), (1 - mark.y1 / high, 1 - mark.y2 / high),
                                         color=mark.colour, linewidth=0.72 * mark.width, zorder=order))
            case Words():
                figure.text(mark.x / wide, 1 - mark.y / high, mark.text.replace("$", r"\$"), fontsize=0.72 * mark.size,
                            color=mark.colour, fontweight="bold" if mark.bold else "normal", va="baseline", zorder=order,
                            ha={"start": "left", "middle": "center", "end": "right"}[mark.anchor])
    try:
        FigureCanvasAgg(figure).print_png(str(name))
    except ValueError as error:
        raise ToolError(f"{name} can't be drawn: {error}", UNWRITABLE) from None
