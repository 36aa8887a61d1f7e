#!/usr/bin/env python3
"""Draws the tree's pictures: docs/pictures/delete_two_children.svg, rotation.svg, empty_side.svg and slot_life.svg."""
import os

ROOT = os.path.dirname(os.path.dirname(os.path.abspath(__file__)))
OUT = f"{ROOT}/docs/pictures"
WIDTH, HEIGHT, RADIUS = 250, 300, 17
INK, GREY, RED, BLUE = "#333333", "#aaaaaa", "#b03030", "#2a5db0"


def words(x, y, text, size=12, colour=INK, anchor="middle", weight="normal"):
    return (f'<text x="{x}" y="{y}" font-family="Helvetica, Arial, sans-serif" font-size="{size}" fill="{colour}" '
            f'text-anchor="{anchor}" font-weight="{weight}">{text}</text>')


def remark(x, y, *texts):
    """What is said beside the tree, in short lines."""
    return [words(x, y + 13 * i, text, 11, BLUE) for i, text in enumerate(texts)]


def node(x, y, key, kind):
    """A node: plain, locked (a thick edge), copy, or gone (marked and unlinked)."""
    edge = {"plain": INK, "locked": INK, "copy": BLUE, "gone": GREY, "marked": RED}[kind]
    thick = 3 if kind in ("locked", "copy", "marked") else 1.2
    dash = ' stroke-dasharray="4 3"' if kind == "gone" else ""
    fill = {"copy": "#e4ecfa", "gone": "#f2f2f2"}.get(kind, "#ffffff")
    return (f'<circle cx="{x}" cy="{y}" r="{RADIUS}" fill="{fill}" stroke="{edge}" stroke-width="{thick}"{dash}/>'
            + words(x, y + 4, key, 13, GREY if kind == "gone" else edge))


def arrow(one, other, kind="plain"):
    (x, y), (u, v) = one, other
    length = ((u - x) ** 2 + (v - y) ** 2) ** 0.5
    dx, dy = (u - x) / length, (v - y) / length
    colour = {"plain": INK, "gone": GREY, "new": BLUE}[kind]
    dash = ' stroke-dasharray="4 3"' if kind == "gone" else ""
    start, stop = RADIUS + 1, RADIUS + 4
    return (f'<line x1="{x + dx * start:.1f}" y1="{y + dy * start:.1f}" x2="{u - dx * stop:.1f}" y2="{v - dy * stop:.1f}" '
            f'stroke="{colour}" stroke-width="{2 if kind == "new" else 1.2}"{dash} marker-end="url(#{kind})"/>')


def empty(x, y, text, colour=INK):
    return (f'<line x1="{x + 12}" y1="{y - 14}" x2="{x}" y2="{y}" stroke="{colour}" stroke-width="1.2"/>'
            f'<line x1="{x - 6}" y1="{y}" x2="{x + 6}" y2="{y}" stroke="{colour}" stroke-width="2"/>' + words(x, y + 15, text, 11, colour))


def reader(x, y, text):
    return f'<path d="M {x} {y} l -9 -5 l 0 10 z" fill="{RED}"/>' + words(x - 13, y + 4, text, 11, RED, "end")


def frame(at, title, parts, below):
    lines = "".join(words(WIDTH / 2, HEIGHT - 14 + 15 * i, line, 11) for i, line in enumerate(below))
    return (f'<g transform="translate({at * WIDTH},0)"><rect x="4" y="4" width="{WIDTH - 8}" height="{HEIGHT + 12}" fill="#fffdf8" '
            f'stroke="#d8d0b8"/>' + words(WIDTH / 2, 24, title, 13, INK, "middle", "bold") + "".join(parts) + lines + "</g>")


def picture(name, title, frames):
    heads = "".join(
        f'<marker id="{kind}" viewBox="0 0 10 10" refX="9" refY="5" markerUnits="userSpaceOnUse" markerWidth="9" '
        f'markerHeight="9" orient="auto">'
        f'<path d="M 0 1 L 10 5 L 0 9 z" fill="{colour}"/></marker>'
        for kind, colour in (("plain", INK), ("gone", GREY), ("new", BLUE)))
    width, height = WIDTH * len(frames), HEIGHT + 20
    with open(f"{OUT}/{name}.svg", "w", encoding="utf-8") as file:
        file.write(f'<svg xmlns="http://www.w3.org/2000/svg" width="{width}" height="{height}" viewBox="0 0 {width} {height}">'
                   f'<title>{title}</title><defs>{heads}</defs><rect width="{width}" height="{height}" fill="#ffffff"/>\n'
                   + "\n".join(frames) + "\n</svg>\n")


def delete_two_children():
    top, above, ten, sixty, forty, last, copy = (125, 52), (95, 95), (50, 150), (165, 150), (120, 200), (160, 240), (155, 95)
    seventy = (212, 200)

    def whole(node_kind, old_kind):
        return [node(*ten, "10", "plain"), node(*seventy, "70", "plain"), node(*last, "45", "plain"), arrow(sixty, seventy),
                node(*top, "root", "locked"), node(*sixty, "60", "locked"), node(*above, "30", node_kind), node(*forty, "40", old_kind)]

    first = whole("locked", "locked") + [arrow(top, above), arrow(above, ten), arrow(above, sixty), arrow(sixty, forty), arrow(forty, last),
                                         reader(140, 150, "get 40")]
    beside = [arrow(above, ten, "gone"), arrow(above, sixty, "gone"), node(*copy, "40", "copy"), arrow(top, copy, "new"),
              arrow(copy, sixty, "new"), arrow(copy, ten, "new")]
    second = whole("gone", "locked") + beside + [arrow(sixty, forty), arrow(forty, last), reader(140, 150, "get 40")]
    third = whole("gone", "locked") + beside + [arrow(sixty, forty), arrow(forty, last), reader(95, 200, "get 40"),
                                                 *remark(203, 57, "later: get", "40 meets", "the copy")]
    fourth = whole("gone", "gone") + beside + [arrow(forty, last, "gone"), arrow(sixty, last)]
    picture("delete_two_children", "A delete of 30, whose successor is 40", [
        frame(0, "1. found and locked", first, ["40 is the next key after 30.", "Thick: locked by the delete."]),
        frame(1, "2. the copy is linked", second, ["This store is the update: 30 is gone.", "Two linked nodes have the key 40."]),
        frame(2, "3. the wait", third, ["It is for readers with keys 31 to 40", "that entered before it. Others may stay."]),
        frame(3, "4. the old one is unlinked", fourth, ["30 and the old 40 are retired. They keep", "their links, for those who stand there."]),
    ])


def rotation():
    top, upper, lower, twenty, forty, seventy = (125, 52), (75, 105), (105, 160), (38, 232), (108, 240), (215, 232)
    new_upper, new_lower = (185, 105), (165, 160)

    def whole(kind, parent_kind):
        return [node(*top, "root", parent_kind), node(*upper, "30", kind), node(*lower, "50", kind), node(*twenty, "20", "plain"),
                node(*forty, "40", "plain"), node(*seventy, "70", "plain")]

    def ways(kind):
        return [arrow(upper, twenty, kind), arrow(upper, lower, kind), arrow(lower, forty, kind), arrow(lower, seventy, kind)]

    def copies(kind):
        return [node(*new_upper, "50", "copy"), node(*new_lower, "30", "copy"), arrow(new_upper, new_lower, kind),
                arrow(new_upper, seventy, kind), arrow(new_lower, twenty, kind), arrow(new_lower, forty, kind)]

    first = whole("locked", "locked") + ways("plain") + [arrow(top, upper), reader(53, 105, "get 40")]
    second = whole("marked", "locked") + ways("plain") + copies("gone") + [arrow(top, upper), reader(53, 105, "get 40")]
    beside = copies("new") + [arrow(top, new_upper, "new")]
    third = whole("gone", "locked") + ways("gone") + beside + [reader(53, 105, "get 40")]
    fourth = whole("gone", "plain") + ways("gone") + beside + [
        reader(96, 259, "get 40"), *remark(210, 50, "later: get", "40 meets", "these two")]
    picture("rotation", "A rotation of 30 and its child 50", [
        frame(0, "1. found and locked", first, ["30 and its child 50 are to change places.", "Thick: locked by the seat."]),
        frame(1, "2. two are filled, two are marked", second,
              ["Two new slots have the pairs and links", "that stand under the locks. Red: marked."]),
        frame(2, "3. one store", third, ["The parent leads to the new 50.", "No pair changed, and no update is made."]),
        frame(3, "4. readers go on", fourth, ["The old 30 and 50 are retired. By their", "links a reader comes back to the tree."]),
    ])


def empty_side():
    top, ten, forty, low = (125, 80), (70, 145), (180, 145), (135, 205)

    def whole(key, kind):
        return [node(*top, key, kind), node(*ten, "10", "plain"), node(*forty, "40", "plain"), arrow(top, ten), arrow(top, forty)]

    picture("empty_side", "An empty side that was filled and emptied again", [
        frame(0, "1. put 31 finds a side", whole("30", "plain") + [empty(158, 190, "tag 0"), reader(145, 172, "put 31")],
              ["31 belongs left of 40. The put keeps", "as a record: 40, left, tag 0."]),
        frame(1, "2. put 32 was faster", whole("30", "plain") + [node(*low, "32", "plain"), arrow(forty, low)],
              ["Another caller links 32 there."]),
        frame(2, "3. del 30 moves 32 up", whole("32", "copy") + [node(*low, "32", "gone")],
              ["The copy of 32 stands in 30's place.", "The old 32 is unlinked."]),
        frame(3, "4. empty again, tag 1", whole("32", "plain") + [empty(162, 190, "tag 1", RED), empty(90, 190, "31 belongs here", BLUE)],
              ["The side is empty as in 1, but 31 doesn't", "belong there. The record says tag 0."]),
    ])


def box(x, y, name, life):
    return (f'<rect x="{x - 62}" y="{y - 24}" width="124" height="48" rx="9" fill="#fdf6e3" stroke="#7a6a3a"/>'
            + words(x, y - 3, name, 13, INK, "middle", "bold") + words(x, y + 14, life, 11))


def way(points, x, y, lines, anchor="middle"):
    path = " L ".join(f"{u} {v}" for u, v in points)
    text = "".join(words(x, y + 13 * i, line, 11, INK, anchor) for i, line in enumerate(lines))
    return f'<path d="M {path}" fill="none" stroke="#555555" stroke-width="1.3" marker-end="url(#way)"/>' + text


def slot_life():
    free, hand, linked, marked = (75, 90), (320, 90), (590, 90), (810, 90)
    spare, over, retired = (320, 260), (590, 260), (810, 260)
    parts = [
        way([(137, 82), (256, 82)], 197, 74, ["Reserve, Seize"]),
        way([(320, 66), (320, 40), (75, 40), (75, 64)], 197, 33, ["RaiseInHand, FreeInHand, CountFree: g + 1"]),
        way([(382, 90), (526, 90)], 454, 70, ["Fill, LinkLeaf", "or Rotate"]),
        way([(652, 90), (746, 90)], 699, 82, ["Mark"]),
        way([(810, 114), (810, 234)], 802, 160, ["Bypass, LinkCopy,", "UnlinkLeft,", "UnlinkRight", "or Rotate"], "end"),
        way([(748, 260), (654, 260)], 701, 276, ["a wait for", "everybody", "ends"]),
        way([(528, 260), (384, 260)], 456, 252, ["RaiseToSpare: g + 1"]),
        way([(540, 236), (375, 116)], 532, 214, ["RaiseToHand: g + 1"], "start"),
        way([(320, 114), (320, 234)], 312, 178, ["KeepAsSpare"], "end"),
        way([(375, 236), (540, 116)], 512, 148, ["Fill, LinkCopy", "or Rotate"], "start"),
        way([(590, 284), (590, 330), (75, 330), (75, 116)], 332, 322, ["RaiseRetired, FreeRetired, CountFree: g + 1"]),
        box(*free, "free", "life 2g"), box(*hand, "in hand", "life 2g"), box(*linked, "linked", "life 2g"),
        box(*marked, "marked", "life 2g + 1"), box(*spare, "spare", "life 2g"), box(*over, "waited for", "life 2g + 1"),
        box(*retired, "retired", "life 2g + 1"),
    ]
    with open(f"{OUT}/slot_life.svg", "w", encoding="utf-8") as file:
        file.write('<svg xmlns="http://www.w3.org/2000/svg" width="890" height="350" viewBox="0 0 890 350"><title>A slot\'s life round</title>'
                   '<defs><marker id="way" viewBox="0 0 10 10" refX="9" refY="5" markerUnits="userSpaceOnUse" markerWidth="9" '
                   'markerHeight="9" orient="auto"><path d="M 0 1 L 10 5 L 0 9 z" fill="#555555"/></marker></defs>'
                   '<rect width="890" height="350" fill="#ffffff"/>\n' + "\n".join(parts) + "\n</svg>\n")


if __name__ == "__main__":
    os.makedirs(OUT, exist_ok=True)
    delete_two_children()
    rotation()
    empty_side()
    slot_life()
