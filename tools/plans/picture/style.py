"""Colours, patterns and letters. Everything is light but what is marked: that is dark, striped and outlined."""

FONT = 11
SMALL = 9
LETTER = 0.62  # mean width of a letter, in parts of its size

# Light tints that differ in lightness too; text on them is black.
TINTS = ("#a6d4f2", "#ffd596", "#98d9bf", "#f5efa0", "#e6bfd7", "#bcc7e0", "#dccbb0", "#d4d4d4")
WINDOW_TINTS = ("#f1f6fc", "#fdf6ec", "#f0f9f2", "#f8f1f8")
MARK = "#b0003a"
ARROW = "#1b3a6b"
CHAIN = "#00704a"

STYLE = "".join(
    [
        f"text{{font-family:'DejaVu Sans',Verdana,Helvetica,Arial,sans-serif;font-size:{FONT}px;fill:#111;"
        "stroke:#fff;stroke-width:2.4px;stroke-opacity:.7;paint-order:stroke;stroke-linejoin:round}",
        ".page{fill:#fff}",
        ".head{font-size:15px;font-weight:bold}",
        ".no{font-weight:bold;font-size:12.5px;fill:" + MARK + "}",
        ".yes{font-weight:bold;font-size:12.5px;fill:#1b5e20}",
        ".mid{text-anchor:middle}.end{text-anchor:end}",
        f".small{{font-size:{SMALL}px;fill:#444}}",
        ".lane{fill:#fff;stroke:#999;stroke-width:.6}.queue{fill:#fbfbfb;stroke-dasharray:2 2}",
        ".past{fill:url(#past)}",
        ".grid{stroke:#ddd;stroke-width:.6}.axis{stroke:#555;stroke-width:1}.cycle{stroke:#333;stroke-width:1.4}",
        ".w{stroke:#777;stroke-width:.8}",
        *(f".w{number}{{fill:{tint}}}" for number, tint in enumerate(WINDOW_TINTS)),
        ".p{stroke:#333;stroke-width:.8}",
        *(f".t{number}{{fill:{tint}}}" for number, tint in enumerate(TINTS)),
        ".v{fill:url(#vcpu)}.d{fill:url(#switch);stroke:#333;stroke-width:.8}",
        ".wait{stroke:#777;stroke-width:.8;fill:url(#wait)}",
        ".h{stroke:#333;stroke-width:.8;fill:url(#hold)}.hs{fill:#fff;opacity:.85}",
        f".m{{fill:url(#mark);stroke:#000;stroke-width:2}}.mt{{fill:{MARK}}}.ml{{font-weight:bold;fill:{MARK}}}",
        ".thin{stroke-width:.15}",
        f".less{{font-size:{SMALL}px}}",
        ".halo{stroke-width:3px;stroke-opacity:1;font-weight:bold;fill:#000}",
        f".a{{stroke:{ARROW};stroke-width:1.2;fill:none}}.ah{{fill:{ARROW}}}.faint{{stroke-width:.6;opacity:.35}}",
        f".am{{stroke:{MARK};stroke-width:2.6;fill:none}}.amh{{fill:{MARK}}}",
        f".c{{stroke:{CHAIN};stroke-width:4;stroke-opacity:.5;fill:none;stroke-linecap:round}}.chain{{fill:{CHAIN}}}",
        f".c.am{{stroke:{MARK};stroke-width:5;stroke-opacity:.8}}.c.faint{{stroke-width:1.5;opacity:.35}}",
        f".delay{{stroke:{ARROW};stroke-width:2}}.p-wait{{stroke:{ARROW};stroke-width:2;stroke-dasharray:1.5 2}}",
        f".arrival{{fill:#d3def0;stroke:{ARROW};stroke-width:1}}",
        f".job{{stroke:{MARK};stroke-width:1.6;fill:none;stroke-dasharray:4 2}}",
    ]
)


def _stripes(name, size, background, stroke, width, angle):
    lines = f'<path d="M0 0V{size}" stroke="{stroke}" stroke-width="{width}"/>'
    ground = f'<rect width="{size}" height="{size}" fill="{background}"/>'
    turn = f'patternTransform="rotate({angle})"'
    return f'<pattern id="{name}" width="{size}" height="{size}" patternUnits="userSpaceOnUse" {turn}>{ground}{lines}</pattern>'


def _head(name, classes):
    return (
        f'<marker id="{name}" viewBox="0 0 8 8" refX="7.5" refY="4" markerWidth="7" markerHeight="7" '
        f'markerUnits="userSpaceOnUse" orient="auto"><path class="{classes}" d="M0 .8L8 4L0 7.2z"/></marker>'
    )


DEFINITIONS = "".join(
    [
        _stripes("vcpu", 5, "#fff", "#555", 1.6, 45),
        _stripes("switch", 3, "#fff", "#333", 1.6, 0),
        _stripes("wait", 4, "#fff", "#a9b8cc", 1.2, 90),
        _stripes("hold", 8, "#e4dcf1", "#c9b8e6", 2, 90),
        _stripes("mark", 9, MARK, "#ffb3c7", 2, 135),
        _stripes("past", 6, "#eee", "#bbb", 1, 135),
        _head("ah", "ah"),
        _head("amh", "amh"),
    ]
)


def text_width(text, size=FONT):
    return len(text) * size * LETTER


def fitting(width, *labels, size=FONT):
    """The first of the labels that fits, or nothing."""
    return next((label for label in labels if text_width(label, size) + 4 <= width), "")


def cut(text, most):
    return text if len(text) <= most else text[:most - 1] + "…"
