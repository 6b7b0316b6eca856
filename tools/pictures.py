"""The picture of a replayed run: lanes of cores and persists over steps, as SVG or as an HTML page around it."""
import html
import os

import inputs
import names

LABELS = 270  # the width of the names of lanes, at least
LONGEST = 26  # letters of a word's name in a lane
LETTER = 7  # the width of a letter, at most
SCREEN = 1050  # the width that up to 200 steps fill
BEHIND = 70  # room behind the last step, for the cause of a bubble there
PERSISTENT = names.BASES[2]
TOP = 26  # the axis
PLACES = [("queue", "in the core's queue", "#e69f00"), ("buffer", "in a strand buffer", "#56b4e9"),
          ("flight", "in flight", "#cc79a7"), ("memory", "durable", "#79c9ac")]
RED = "#c00000"


def escaped(text):
    return html.escape(str(text), quote=True)


def tag(name, title=None, text=None, **given):
    """An element of SVG. Underlines in the names of attributes stand for hyphens."""
    inside = (f"<title>{escaped(title)}</title>" if title else "") + (escaped(text) if text is not None else "")
    written = "".join(f' {key.rstrip("_").replace("_", "-")}="{escaped(value)}"' for key, value in given.items())
    return f"<{name}{written}>{inside}</{name}>" if inside else f"<{name}{written}/>"


class Picture:
    """What is drawn so far: names of lanes, numbers of steps, what lies in the lanes, and how high it is."""

    def __init__(self, run):
        self.run, self.steps = run, len(run.steps)
        self.step = round(max(5, min(24, SCREEN / max(1, self.steps))), 2)
        self.width = round(self.step * self.steps + BEHIND, 1)
        self.labels, self.numbers, self.back, self.front, self.height = [], [], [], [], TOP
        self.aside = LABELS

    def left(self, step):
        """Where a step begins, from 1 on; the end of the run is the step behind the last."""
        return round((step - 1) * self.step, 2)

    def middle(self, step):
        return round((step - 0.5) * self.step, 2)

    def name(self, text, middle, indent=0, bold=False, title=None):
        self.labels.append(tag("text", title, text, x=8 + indent, y=middle + 4, font_weight="bold" if bold else "normal"))
        self.aside = max(self.aside, 16 + indent + LETTER * len(text))


def digits(number):
    return f"0x{number:x}"


def name_of(run, event):
    """An event in words, as titles have it."""
    text = event.kind
    if event.word is not None:
        text += f" {run.names.whole(event.word)}"
    if event.value is not None:
        text += f" = {digits(event.value)}"
    return text if event.persist is None else f"persist {event.persist}: {text}, strand {event.strand}, epoch {event.epoch}"


def mark(picture, event, y):
    """What a core retired, by its kind."""
    x, half = picture.middle(event.step), min(5, max(2.5, picture.step / 2 - 0.5))
    title = f"step {event.step}: {name_of(picture.run, event)}"
    if event.persist is None and event.moves:
        title += f"; left the queue at step {event.moves[0]}"
    line = {"stroke": "#222", "stroke_width": 1.3}
    if event.kind == "load":
        return tag("circle", title, cx=x, cy=y, r=half, fill="#fff", **line)
    if event.kind == "store":
        return tag("circle", title, cx=x, cy=y, r=half, fill="#222" if event.persist is not None else "#999", **line)
    if event.kind == "barrier":
        return tag("rect", title, x=x - 1.5, y=y - 11, width=3, height=22, fill="#222")
    if event.kind == "newstrand":
        return tag("path", title, d=f"M{x - half} {y - 8}L{x + half} {y}L{x - half} {y + 8}z", fill="#0072b2")
    if event.kind == "join":
        return tag("path", title, d=f"M{x} {y - 10}L{x + half} {y}L{x} {y + 10}L{x - half} {y}z", fill="#222")
    return tag("rect", title, x=x - half, y=y - 5, width=2 * half, height=10, fill="#f0e442", **line)


def core_lane(picture, number):
    """A core's lane: what it retired."""
    run, y = picture.run, picture.height + 18
    life = run.lives[number]
    picture.name(f"core {number}, {' '.join(life.split()[:2])}", y, 0, True, f"core {number}: {life}")
    picture.back.append(tag("line", x1=0, x2=picture.left(picture.steps + 1), y1=y, y2=y, stroke="#bbb"))
    for step, core, text in run.other:
        if core == number:
            x = picture.middle(step)
            picture.front.append(tag("rect", f"step {step}: {text}", x=x - 1.5, y=y - 3, width=3, height=6, fill="#888"))
    picture.front += [mark(picture, event, y) for event in run.events if event.core == number]
    picture.height += 34


def runs_of_bubbles(bubbles):
    """Bubbles that follow one another with one cause: first step, how many, cause."""
    found = []
    for step, cause in sorted(bubbles.items()):
        if found and found[-1][0] + found[-1][1] == step and found[-1][2] == cause:
            found[-1][1] += 1
        else:
            found.append([step, 1, cause])
    return found


def bubble_lane(picture, bubbles, label):
    """Red marks, and under each run of them its cause, on the first line of three that has room there."""
    if not bubbles:
        return
    y, free = picture.height + 7, [0, 0, 0]
    picture.name(label, y, indent=14)
    for step, cause in bubbles.items():
        letters = " ".join(map(str, picture.run.steps[step - 1]))
        picture.front.append(tag("rect", f"step {step}, {letters}: bubble {cause}", x=picture.left(step) + 0.5, y=y - 6,
                                 width=round(picture.step - 1, 2), height=12, fill=RED))
    for step, count, cause in runs_of_bubbles(bubbles):
        text = cause + (f" x{count}" if count > 1 else "")
        x = round(max(0, min(picture.left(step), picture.width - LETTER * len(text))), 2)
        line = next((line for line, begin in enumerate(free) if x >= begin), None)
        if line is not None:
            picture.front.append(tag("text", None, text, x=x, y=y + 17 + 11 * line, fill=RED))
            free[line] = x + LETTER * len(text) + 4
    picture.height += 22 + 11 * sum(begin > 0 for begin in free)


def cut(name):
    """A word's name as a lane has it: of a long one the front, and what is behind it."""
    symbol, plus, behind = name.partition("+")
    return name if len(name) <= LONGEST else f"{symbol[:LONGEST - len(plus + behind) - 2]}..{plus}{behind}"


def persist_lane(picture, event, middles):
    """A persist's lane: a bar for each place where it stayed."""
    y, is_bold = picture.height + 8, event.persist in picture.run.chain
    middles[event.persist] = y
    times = [event.step, *event.moves, picture.steps + 1]
    strand = f" strand {event.strand}" if picture.run.settings["mode"] == "strand" else ""
    text, name = f"{event.persist}: {cut(picture.run.names.short(event.word))} = {digits(event.value)}", name_of(picture.run, event)
    picture.name(text + strand, y, 14, is_bold, name)
    for (_, place, colour), begin, end in zip(PLACES, times, times[1:]):
        last = "the end" if end > picture.steps else f"step {end}"
        picture.back.append(tag("rect", f"{name}: {place} from step {begin} to {last}", x=picture.left(begin),
                                y=y - 5, width=round(picture.left(end) - picture.left(begin), 2), height=10, fill=colour))
    if is_bold:
        x = picture.left(event.step)
        picture.back.append(tag("rect", x=x, y=y - 6, width=round(picture.left(picture.steps + 1) - x, 2), height=12,
                                fill="none", stroke="#000", stroke_width=2))
    picture.height += 16


def chain_lines(picture, middles):
    """The longest chain, from where each of its persists became durable to where the next one did."""
    end = picture.steps + 1
    points = [(picture.left(event.moves[2] if len(event.moves) == 3 else end), middles[event.persist])
              for event in (picture.run.persists[number] for number in picture.run.chain)]
    for (x, y), (to_x, to_y) in zip(points, points[1:]):
        between = to_y - 8 if to_y > y else to_y + 8  # lanes, so that the line crosses no bar but upwards or downwards
        picture.front.append(tag("path", "the longest chain", d=f"M{x} {y}V{between}H{to_x}V{to_y}", fill="none",
                                 stroke="#000", stroke_width=2.5))
    picture.front += [tag("circle", cx=x, cy=y, r=3.5, fill="#000") for x, y in points]


def axis(picture):
    """Numbers of steps, and thin lines down the lanes."""
    apart = next(count for count in (1, 2, 5, 10, 20, 50) if count * picture.step >= 30)
    for step in [1, *range(apart, picture.steps + 1, apart)][apart == 1:]:
        x = picture.middle(step)
        picture.back.insert(0, tag("line", x1=x, x2=x, y1=TOP, y2=picture.height, stroke="#e8e8e8"))
        picture.numbers.append(tag("text", None, step, x=x, y=TOP - 8, fill="#555", text_anchor="middle"))


def is_of_core(step, number):
    return step[0] != "w" and step[1] == number


def drawn(run):
    """The picture of a run."""
    picture, middles = Picture(run), {}
    for number in range(len(run.cores)):
        core_lane(picture, number)
        own = {step: cause for step, cause in run.bubbles.items() if is_of_core(run.steps[step - 1], number)}
        bubble_lane(picture, own, "bubbles")
        for event in run.persists:
            if event.core == number:
                persist_lane(picture, event, middles)
        picture.height += 8
    writes = {step: cause for step, cause in run.bubbles.items() if run.steps[step - 1][0] == "w"}
    bubble_lane(picture, writes, "bubbles of writes")
    picture.height += 6
    chain_lines(picture, middles)
    axis(picture)
    return picture


def files(run):
    """The names of the files that a run is of."""
    machine, image, schedule = (inputs.printable(os.path.basename(name)) for name in run.words)
    return f"{image} by {schedule} on {machine}"


def heading(run):
    durable = sum(len(event.moves) == 3 for event in run.persists)
    chain = " ".join(map(str, run.chain[:16])) + (" .." if len(run.chain) > 16 else "")
    rule = ", conflict tag" if run.settings["conflict"] == "tag" else ""
    return (f"{run.settings['mode']}{rule}: {len(run.steps)} steps, {len(run.bubbles)} of them bubbles; "
            f"{len(run.persists)} persists, {durable} durable; longest chain {len(run.chain)}: {chain}")


def legend(y):
    """What the colours and marks stand for, on one line."""
    parts, x = [], 8
    for _, place, colour in PLACES:
        parts += [tag("rect", x=x, y=y - 5, width=16, height=10, fill=colour), tag("text", None, place, x=x + 21, y=y + 4)]
        x += 36 + 6 * len(place)
    marks = [(tag("circle", cx=0, cy=0, r=4, fill="#222"), "persist"),
             (tag("circle", cx=0, cy=0, r=4, fill="#999", stroke="#222"), "store"),
             (tag("circle", cx=0, cy=0, r=4, fill="#fff", stroke="#222"), "load"),
             (tag("rect", x=-1.5, y=-8, width=3, height=16, fill="#222"), "barrier"),
             (tag("path", d="M-4 -7L4 0L-4 7z", fill="#0072b2"), "newstrand"),
             (tag("path", d="M0 -8L4 0L0 8L-4 0z", fill="#222"), "join"),
             (tag("rect", x=-4, y=-4, width=8, height=8, fill="#f0e442", stroke="#222"), "out"),
             (tag("rect", x=-3, y=-6, width=6, height=12, fill=RED), "bubble"),
             (tag("line", x1=-5, x2=5, y1=0, y2=0, stroke="#000", stroke_width=3), "longest chain")]
    for shape, text in marks:
        parts += [f'<g transform="translate({x + 6} {y})">{shape}</g>', tag("text", None, text, x=x + 15, y=y + 4)]
        x += 32 + 6 * len(text)
    return parts, x


def element(width, parts, top, end):
    """An SVG element that shows what lies between two heights."""
    height = end - top
    return (f'<svg xmlns="http://www.w3.org/2000/svg" width="{width}" height="{height}" viewBox="0 {top} {width} {height}" '
            'font-family="sans-serif" font-size="11">\n' + "\n".join(parts) + "\n</svg>\n")


def block(run, titles, has_legend=True):
    """The parts of a run's picture below these titles, how wide they are, and how high."""
    picture, behind = drawn(run), 6 + 18 * len(titles)
    signs, wide = legend(behind + 18) if has_legend else ([], 0)
    head = behind + (34 if has_legend else 16)
    parts = [*(tag("text", None, text, x=8, y=20 + 18 * at, font_size=13, font_weight="bold") for at, text in enumerate(titles)), *signs,
             f'<g transform="translate(0 {head})">', *picture.labels, "</g>",
             f'<g transform="translate({picture.aside} {head})">', *picture.numbers, *picture.back, *picture.front, "</g>"]
    return parts, max(picture.aside + picture.width, wide, 16 + 9 * max(map(len, titles))), picture.height + head


BACKGROUND = tag("rect", width="100%", height="100%", fill="#fff")


def svg(run):
    """The picture as one SVG file."""
    parts, width, height = block(run, [files(run), heading(run)])
    return element(width, [BACKGROUND, *parts], 0, height)


def svg_of_generations(runs, left):
    """The pictures of generations below each other as one SVG file; `left` tells what a run left."""
    found, widest, top = [], 0, 0
    for number, run in enumerate(runs, 1):
        parts, width, height = block(run, [f"generation {number}: {files(run)}", heading(run), left(run)], number == 1)
        found += [f'<g transform="translate(0 {top})">', *parts, "</g>"]
        widest, top = max(widest, width), top + height
    return element(widest, [BACKGROUND, *found], 0, top)
