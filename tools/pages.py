"""The picture of a replayed run as an HTML page that stands alone: it is made wider and narrower, and shows the persistent words at
each step, with the question whether a crash there may leave them. tools/timeline puts it."""
import json
import os
import shlex

import pictures
from pictures import TOP, element, escaped, files, heading, legend

SCRIPT = os.path.join(os.path.dirname(os.path.realpath(__file__)), "page.js")
STYLE = """body { font-family: sans-serif; background: #fff; margin: 12px } h1 { font-size: 15px; margin: 4px 0 }
svg { display: block; background: #fff } .run { overflow: auto; max-height: max(280px, calc(100vh - 330px)); border: 1px solid #ddd }
.row { display: flex; width: max-content } .row > :first-child { position: sticky; left: 0; z-index: 1 }
.top { position: sticky; top: 0; z-index: 2 } .scaled * { vector-effect: non-scaling-stroke }
#steps { width: 50vw; vertical-align: middle } #asked { width: 98%; font-family: monospace }
#words { max-height: 150px; overflow: auto; font: 12px monospace; margin-top: 6px } #words td { padding: 0 14px 0 0 }
#words .other { color: #c00000 } .narrow .cause, .narrow [stroke="#e8e8e8"] { display: none } .tools { margin: 6px 0; font-size: 13px }"""
CONTROLS = """<div class="tools"><button id="fit" title="key 0">fit</button> <button id="wider" title="key +">+</button>
<button id="narrower" title="key -">-</button> step <input id="steps" type="range" min="0"> <b id="step"></b>
<span>(keys: left, right; or a click on a step)</span></div>
<div class="tools">May a crash there leave what the memory holds?<br><input id="asked" readonly></div><div id="words"></div>"""


def is_scaled(part):
    """Whether a part is as wide as its steps; the others are at a step, and keep their width."""
    return part.startswith("<line") or (part.startswith("<rect") and ("height=\"12\"" in part or " from step " in part)) or \
        (part.startswith("<path") and "the longest chain" in part)


def words_of(run):
    """The persistent words that the run stores to, by their addresses, with what they held before the run."""
    found = sorted({event.word for event in run.persists})
    held = run.image.persistent
    return {word: held[(word - pictures.PERSISTENT) // 8] for word in found}


def data_of(run):
    """What the page's script works with: of each persist its word, value, and the steps that stored and wrote it."""
    machine, image, schedule = map(shlex.quote, run.words)
    words = words_of(run)
    place = {word: at for at, word in enumerate(words)}
    return {"steps": len(run.steps), "step": pictures.Picture(run).step,
            "words": [[run.names.short(word), f"0x{held:x}"] for word, held in words.items()],
            "persists": [[place[event.word], f"0x{event.value:x}", event.step, event.moves[2] if len(event.moves) == 3 else None]
                         for event in run.persists],
            "crash": f"strand-crash-image --image {image}", "judge": f"strand judge {machine} {image} {schedule}"}


def page(run):
    """The picture as an HTML page: names of lanes and numbers of steps stay in sight while the lanes scroll."""
    picture = pictures.drawn(run)
    signs, wide = legend(12)
    end, parts = picture.height, picture.back + picture.front
    scaled = [part for part in parts if is_scaled(part)]
    placed = [part.replace("<text ", '<text class="cause" ', 1) for part in parts if not is_scaled(part)]
    with open(SCRIPT, encoding="ascii") as file:
        script = file.read()
    lanes = ['<g class="scaled">', *scaled, "</g>", '<g class="placed">', *placed, "</g>",
             f'<line id="at" y1="{TOP}" y2="{end}" stroke="#0072b2"/>']
    return "\n".join([
        '<!DOCTYPE html>', '<html lang="en">', '<head><meta charset="utf-8">', f"<title>{escaped(files(run))}</title>",
        f"<style>{STYLE}</style></head>", f"<body><h1>{escaped(files(run))}</h1><h1>{escaped(heading(run))}</h1>",
        element(wide, signs, 0, 24), f'<div class="run"><div class="row top">{element(picture.aside, [], 0, TOP)}',
        element(picture.width, ['<g class="placed">', *picture.numbers, "</g>"], 0, TOP), '</div>',
        f'<div class="row">{element(picture.aside, picture.labels, TOP, end)}', f'{element(picture.width, lanes, TOP, end)}</div></div>',
        CONTROLS, f'<script type="application/json" id="data">{json.dumps(data_of(run)).replace("</", "<" + chr(92) + "/")}</script>',
        f"<script>\n{script}</script>", "</body></html>", ""])
