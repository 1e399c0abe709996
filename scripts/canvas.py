"""Draws boxes, words and arrows as SVG, for the scripts beside this file."""
import re
from html import escape

INK, RED = "#1f2933", "#b3261e"
PALE, BLUE, AMBER, GREEN, PINK, WHITE = "", "u", "y", "g", "p", "o"  # classes of boxes
FULL, WAITING, CLASHED, CELL = "e", "w", "c", "k"  # of cells
RULES = {  # of each class; a picture has those that it uses
    BLUE: "fill:#dbe9f6", AMBER: "fill:#fdeccb", GREEN: "fill:#dff1e1", PINK: "fill:#f9dedc", WHITE: "fill:#fff",
    "e": "fill:#62b879", "w": "fill:#efb13f", "c": "fill:#d4564e", "k": "stroke:#9aa5b1",
    "b": "font-weight:600", "s": "font-size:11px", "r": f"fill:{RED}", "m": "text-anchor:middle",
    "h": "paint-order:stroke;stroke:#fff;stroke-width:4px", "d": "stroke-dasharray:5 4",
}
LETTER = 6.2  # about how wide a letter of 12 pixels is
STYLE = (
    f"text{{font:12px system-ui,sans-serif;fill:{INK}}}rect{{fill:#f4f6f8}}rect,path{{stroke:{INK}}}path{{fill:none;marker-end:url(#a)}}"
    f"#z,#a path{{stroke:none;fill:#fff;marker-end:none}}#a path{{fill:{INK}}}"
)


class Canvas:
    def __init__(self, width, height, title):
        self.parts = [
            f'<svg xmlns="http://www.w3.org/2000/svg" viewBox="0 0 {width} {height}" width="{width}" height="{height}" role="img">',
            f"<title>{escape(title)}</title><style>{STYLE}@</style>",
            f'<defs><marker id="a" viewBox="0 0 8 8" refX="7" refY="4" markerWidth="7" markerHeight="7" orient="auto"><path d="M0 0L8 4L0 8z"/></marker></defs>',
            f'<path id="z" d="M0 0H{width}V{height}H0z"/>',
        ]

    def box(self, x, y, width, height, fill=PALE, dashed=False, round_by=5, tip=""):
        """A box; a viewer shows the tip of one that is pointed at."""
        kinds = f"{fill} d" if dashed else fill
        classes = f' class="{kinds}"' if kinds else ""
        end = f"><title>{escape(tip)}</title></rect>" if tip else "/>"
        self.parts.append(f'<rect x="{x}" y="{y}" width="{width}" height="{height}" rx="{round_by}"{classes}{end}')

    def text(self, x, y, words, kind="", middle=False):
        kinds = f"{kind} m".strip() if middle else kind
        classes = f' class="{kinds}"' if kinds else ""
        self.parts.append(f'<text x="{round(x)}" y="{round(y)}"{classes}>{escape(words)}</text>')

    def lines(self, x, y, words, width, kind="", middle=False, step=15):
        """Breaks words into lines of this width. Returns where the next line would be."""
        line, out = "", []
        for word in words.split():
            if line and (len(line) + 1 + len(word)) * LETTER > width:
                out.append(line)
                line = ""
            line = f"{line} {word}".strip()
        for it in [*out, line]:
            self.text(x, y, it, kind, middle)
            y += step
        return y

    def path(self, steps):
        self.parts.append(f'<path d="{steps}"/>')

    def done(self):
        text = "\n".join([*self.parts, "</svg>", ""])
        used = {name for classes in re.findall(r' class="([^"]*)"', text) for name in classes.split()}
        rules = "".join(f".{name}{{{rule}}}" for name, rule in RULES.items() if name in used)
        return text.replace("@</style>", f"{rules}</style>")
