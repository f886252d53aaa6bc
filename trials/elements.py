"""What a picture that `draw` prints has, read as XML: the marks of its entries and its processes; and a check that no two labels cover
each other, nor a mark one of those that say who holds the determinant. The whole text is compared with the model (pictures.py)."""
import itertools
import re
import xml.etree.ElementTree

SVG = "{http://www.w3.org/2000/svg}"
HEAD, END = b"<svg xmlns='http://www.w3.org/2000/svg'", b"</svg>\n"


def marks(printed):
    """The marks of entries that a picture has, in its order: the number of the line, what the entry is called, and whether it is faint.
    None where it is no whole picture."""
    if not (printed.startswith(HEAD) and printed.endswith(END)):
        return None
    found = []
    for mark in xml.etree.ElementTree.fromstring(printed).iter(SVG + "g"):
        title = mark.find(SVG + "title")
        if title is not None and title.text.startswith("line "):
            line, words = title.text.removeprefix("line ").split(": ", 1)
            found.append((int(line), words, "opacity" in mark.attrib))
    return found


def processes(printed):
    """The processes that have a row in a picture, ascending."""
    titles = [title.text for title in xml.etree.ElementTree.fromstring(printed).iter(SVG + "title")]
    return sorted({int(text.removeprefix("process ")) for text in titles if re.fullmatch(r"process \d+", text)})


# How wide letters are, in thousandths of the font's size: those of DejaVu Sans, a wide font. A bold letter is a tenth wider.
WIDTHS = {" ": 318, ",": 318, ":": 337, "=": 838, "l": 278, "i": 278, "f": 352, "t": 392, "r": 411, "s": 521, "c": 550, "m": 974, "w": 818}
OTHERS = 640  # digits, and the other letters
ABOVE, BELOW = 0.76, 0.24  # how far letters reach above and below their line, in parts of the font's size
MARK = 8.5  # how far a mark reaches from its middle


def box_of(text):
    """The left, upper, right and lower end of a label."""
    given = text.attrib
    size = float(given.get("font-size", 12))
    wide = sum(WIDTHS.get(letter, OTHERS) for letter in text.text) * size / 1000 * (1.1 if "font-weight" in given else 1)
    left = {"start": 0, "middle": -wide / 2, "end": -wide}[given.get("text-anchor", "start")] + float(given.get("dx", 0))
    line = float(given.get("dy", 0))
    upper, lower = line - ABOVE * size, line + BELOW * size
    turned = re.fullmatch(r"translate\((\d+),(\d+)\)rotate\(-90\)", given.get("transform", ""))
    if turned:
        x, y = map(float, turned.groups())
        return x + upper, y - left - wide, x + lower, y - left
    x, y = float(given["x"]), float(given["y"])
    return x + left, y + upper, x + left + wide, y + lower


def meet(one, other):
    return one[0] < other[2] and other[0] < one[2] and one[1] < other[3] and other[1] < one[3]


def overlaps(printed):
    """What covers what in a picture: labels each other, or marks of entries the label of a process at the instant. A label is compared with
    those that begin above its lower end, and with marks that reach behind its left end."""
    root = xml.etree.ElementTree.fromstring(printed)
    wide, high = float(root.attrib["width"]), float(root.attrib["height"])
    labels = [(text.text, box_of(text), text.get("fill") == "#0072b2") for text in root.iter(SVG + "text")]
    labels.sort(key=lambda label: label[1][1])
    for i, (words, box, _) in enumerate(labels):
        for others, other, _ in itertools.takewhile(lambda label: label[1][1] < box[3], labels[i + 1 :]):
            if meet(box, other):
                yield f"{words!r} and {others!r}"
    for words, box, _ in labels:
        if box[1] < 0 or box[2] > wide or box[3] > high:
            yield f"{words!r} and the picture's edge"
    roles = [(words, box) for words, box, is_blue in labels if is_blue]
    glyphs = sorted(glyphs_of_entries(root))
    for words, box in roles:
        for x, y in itertools.takewhile(lambda glyph: glyph[0] + MARK > box[0], reversed(glyphs)):
            if meet(box, (x - MARK, y - MARK, x + MARK, y + MARK)):
                yield f"{words!r} and the mark at {x},{y}"


def glyphs_of_entries(root):
    """The points of the marks of entries."""
    for mark in root.iter(SVG + "g"):
        title = mark.find(SVG + "title")
        if title is not None and title.text.startswith("line "):
            for path in mark.iter(SVG + "path"):
                if "transform" in path.attrib:
                    yield tuple(map(int, re.findall(r"\d+", path.attrib["transform"])))
