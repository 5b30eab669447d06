"""What draw-trace and draw-plan share: strict reading of printed lines, and putting together an SVG.

A script gives `run` a function from the words of its command line and the input's bytes to a picture. What the
function refuses is one line on standard error, and nothing is written.
"""

import argparse
import re
import sys
from xml.sax.saxutils import escape

INK, PALE, BAND, RULE = "#222222", "#666666", "#f3f4f6", "#c9ccd1"
# By the number of a group. No two of them have the same grey; from group 8 on the shapes of the marks differ.
COLOURS = ["#1d2f6f", "#f4b63f", "#1f8573", "#e88bb4", "#8c1d40", "#dcea7c", "#4f9fd9", "#7a4fb5"]
SHAPES = ["circle", "square", "diamond", "triangle"]
NUMBER = re.compile(r"0|[1-9][0-9]{0,9}")
NAME = r"[A-Za-z_][A-Za-z0-9_]*"


class Refused(Exception):
    """What is wrong with an input, in one line."""


def refuse(at, what):
    raise Refused(f"line {at}: {what}")


def shown(text):
    """A part of the input as it stands in a refusal: short, and in one line."""
    return ascii(text if len(text) <= 40 else text[:40] + "..")


def lines_of(data):
    """The lines of a text with their numbers from 1 on, or a refusal of what isn't a text of whole lines."""
    lines = data.split(b"\n")
    for at, line in enumerate(lines[:-1], 1):
        if not all(32 <= byte < 127 for byte in line):
            refuse(at, "it has a byte that no printed line has")
        yield at, line.decode("ascii")
    if lines[-1] or len(lines) == 1:
        refuse(len(lines), "it doesn't end with a newline" if lines[-1] else "nothing is there")


def number(at, what, text, least, most):
    """The number that a word is, where it is in its range."""
    if not NUMBER.fullmatch(text):
        refuse(at, f"{what} is {shown(text)}, and no number")
    if not least <= int(text) <= most:
        refuse(at, f"{what} is {text}, and not from {least} to {most}")
    return int(text)


def form(at, pattern, line, what):
    """The parts of a line that has a form."""
    match = re.fullmatch(pattern, line)
    if not match:
        refuse(at, f"{shown(line)} isn't {what}")
    return match.groups()


def plural(count, what):
    return f"{count} {what}{'' if count == 1 else 's'}"


def width_of(words, size):
    """About how wide words are, and not less."""
    return -(-len(words) * size * 5 // 8)


class Picture:
    """The elements of an SVG, in the order in which they are drawn."""

    def __init__(self, width, height, title):
        self.width, self.height, self.title, self.parts = width, height, title, []

    def rect(self, x, y, width, height, fill, stroke="none", round_by=0, dash=""):
        dashed = f' stroke-dasharray="{dash}"' if dash else ""
        corner = f' rx="{round_by}"' if round_by else ""
        self.parts.append(
            f'<rect x="{x}" y="{y}" width="{width}" height="{height}"{corner} fill="{fill}" stroke="{stroke}"{dashed}/>'
        )

    def line(self, x1, y1, x2, y2, stroke=RULE, width=1, dash=""):
        dashed = f' stroke-dasharray="{dash}"' if dash else ""
        self.parts.append(
            f'<line x1="{x1}" y1="{y1}" x2="{x2}" y2="{y2}" stroke="{stroke}" stroke-width="{width}"{dashed}/>'
        )

    def text(self, x, y, words, size=12, anchor="start", fill=INK, bold=False):
        weight = ' font-weight="bold"' if bold else ""
        self.parts.append(
            f'<text x="{x}" y="{y}" font-size="{size}" text-anchor="{anchor}" fill="{fill}"{weight}>{escape(words)}</text>'
        )

    def mark(self, group, x, y, size, hollow=False):
        """The mark of a group, around a point."""
        shape = SHAPES[(group + group // len(COLOURS)) % len(SHAPES)]
        self.shape(shape, x, y, size, f'fill="{COLOURS[group % len(COLOURS)]}" stroke="{INK}"')
        if hollow:
            self.shape(shape, x, y, size - 2 if size > 3 else 2, 'fill="#ffffff"')

    def shape(self, shape, x, y, s, style):
        if shape == "circle":
            self.parts.append(f'<circle cx="{x}" cy="{y}" r="{s}" {style}/>')
            return
        corners = {
            "square": [(-s, -s), (s, -s), (s, s), (-s, s)],
            "diamond": [(0, -s - 1), (s + 1, 0), (0, s + 1), (-s - 1, 0)],
            "triangle": [(0, -s - 1), (s + 1, s), (-s - 1, s)],
        }[shape]
        self.polygon([(x + dx, y + dy) for dx, dy in corners], style)

    def polygon(self, corners, style):
        points = " ".join(f"{x},{y}" for x, y in corners)
        self.parts.append(f'<polygon points="{points}" {style}/>')

    def begin(self, tip):
        """What is drawn up to `end` has a text that is shown where it is pointed at."""
        self.parts.append(f"<g><title>{escape(tip)}</title>")

    def end(self):
        self.parts.append("</g>")

    def svg(self):
        head = (
            f'<svg xmlns="http://www.w3.org/2000/svg" width="{self.width}" height="{self.height}"'
            f' viewBox="0 0 {self.width} {self.height}" role="img"'
            f' font-family="DejaVu Sans, Verdana, Helvetica, sans-serif">'
        )
        ground = f'<rect width="{self.width}" height="{self.height}" fill="#ffffff"/>'
        return "\n".join([head, f"<title>{escape(self.title)}</title>", ground, *self.parts, "</svg>"]) + "\n"


class Words(argparse.ArgumentParser):
    """A command line whose faults are one line."""

    def error(self, message):
        self.exit(2, f"{self.prog}: {message}\n")


def command(doc, what):
    """A command line that takes at most one file."""
    words = Words(description=doc, formatter_class=argparse.RawDescriptionHelpFormatter, allow_abbrev=False)
    words.add_argument("file", metavar=what, nargs="?", help="the file to read; standard input if left out")
    return words


def option(least, most):
    """The type of an option with a number."""

    def read(text):
        if not NUMBER.fullmatch(text) or not least <= int(text) <= most:
            raise argparse.ArgumentTypeError(f"{shown(text)} isn't a number from {least} to {most}")
        return int(text)

    return read


def run(words, draw):
    """Reads the input, draws it, and writes the picture once it is whole; the exit status."""
    asked = words.parse_args()
    try:
        if asked.file is None:
            data = sys.stdin.buffer.read()
        else:
            with open(asked.file, "rb") as file:
                data = file.read()
        sys.stdout.write(draw(asked, data).svg())
        sys.stdout.flush()
    except Refused as refused:
        print(f"{words.prog}: {refused}", file=sys.stderr)
        return 1
    except (OSError, ValueError) as fault:
        print(f"{words.prog}: {fault}", file=sys.stderr)
        return 2
    return 0
