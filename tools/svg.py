"""What the scripts that draw pictures share: tools/picture, tools/flow and tools/growth. Widths and places are in pixels."""

import sys
from xml.sax.saxutils import escape

# The four stages of a draw, and the colour of each in all pictures.
COLOURS = {"words": "#dbe9f6", "draws": "#dcefdc", "results": "#fdeccb", "calls": "#f6dcdc"}

HEAD = """<svg xmlns="http://www.w3.org/2000/svg" width="{wide:g}" height="{tall:g}" viewBox="0 0 {wide:g} {tall:g}"
    font-family="DejaVu Sans, Verdana, sans-serif" text-anchor="middle" fill="#222222">
<!-- Made by {script}. -->
<style>.name {{ font-family: "DejaVu Sans Mono", Menlo, monospace; font-weight: bold; }}
.number {{ font-family: "DejaVu Sans Mono", Menlo, monospace; }}</style>
<defs><marker id="tip" viewBox="0 0 8 8" refX="4" refY="4" markerWidth="8" markerHeight="8" markerUnits="userSpaceOnUse" orient="auto">
<path d="M0,0 L8,4 L0,8 z" fill="#333333"/></marker></defs>
<rect width="100%" height="100%" fill="#ffffff"/>"""


def text(x, y, words, size, style=""):
    return f'<text x="{x:g}" y="{y:g}" font-size="{size}" {style}>{escape(words)}</text>'


def rect(x, y, wide, tall, style):
    return f'<rect x="{x:g}" y="{y:g}" width="{wide:g}" height="{tall:g}" {style}/>'


def arrow(points, style):
    path = " ".join(f"{x:g},{y:g}" for x, y in points)
    return f'<polyline points="{path}" fill="none" {style} marker-end="url(#tip)"/>'


def document(wide, tall, script, parts):
    return "\n".join([HEAD.format(wide=wide, tall=tall, script=script), *parts, "</svg>", ""])


def run(usage, path, made, source):
    """Writes the picture, or with --check holds the file to it; `source` names what it is made of."""
    script = sys.argv[0].rpartition("/")[2]
    name = f"{path.parent.name}/{path.name}"
    if sys.argv[1:] == ["--check"]:
        if not path.is_file() or path.read_text() != made:
            sys.exit(f"{script}: {name} is not what tools/{script} makes of {source}: run it")
        print(f"{script}: {name} is that of {source}")
    elif sys.argv[1:]:
        sys.exit(usage)
    else:
        path.write_text(made)
