"""SVG elements as text."""
from xml.sax.saxutils import escape, quoteattr


def short(number):
    """A coordinate with at most one decimal."""
    text = f"{number:.1f}"
    return text[:-2] if text.endswith(".0") else text


class Svg:
    """Elements in drawing order, each with a class that the style names; texts stand above all shapes."""

    def __init__(self):
        self.parts = []
        self.texts = []

    def _element(self, name, classes, title, **attributes):
        shown = "".join(
            f" {key.replace('_', '-')}={quoteattr(value if isinstance(value, str) else short(value))}"
            for key, value in attributes.items()
        )
        open_tag = f"<{name} class={quoteattr(classes)}{shown}"
        self.parts.append(f"{open_tag}><title>{escape(title)}</title></{name}>" if title else f"{open_tag}/>")

    def rect(self, classes, x, y, width, height, title=""):
        self._element("rect", classes, title, x=x, y=y, width=max(width, 0.3), height=height)

    def line(self, classes, x1, y1, x2, y2, title="", **more):
        self._element("line", classes, title, x1=x1, y1=y1, x2=x2, y2=y2, **more)

    def path(self, classes, steps, title="", **more):
        self._element("path", classes, title, d=steps, **more)

    def text(self, classes, x, y, text):
        self.texts.append(f'<text class={quoteattr(classes)} x="{short(x)}" y="{short(y)}">{escape(text)}</text>')

    def document(self, width, height, style, definitions):
        head = f'<svg xmlns="http://www.w3.org/2000/svg" width="{short(width)}" height="{short(height)}"'
        head += f' viewBox="0 0 {short(width)} {short(height)}">'
        return "\n".join([head, f"<style>{style}</style>", f"<defs>{definitions}</defs>", *self.parts, *self.texts, "</svg>", ""])
