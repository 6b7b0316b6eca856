// The page of tools/timeline: how wide a step is, and what the persistent words are behind a step.
"use strict";
const data = JSON.parse(document.getElementById("data").textContent);
const [numbers, lanes] = [1, 3].map(at => document.querySelectorAll(".run svg")[at]);
const scroller = document.querySelector(".run"), slider = document.getElementById("steps");
const width = +lanes.getAttribute("width"), placed = [...document.querySelectorAll(".placed > *")];
const centers = placed.map(part => {
    if (part.tagName === "text") return +part.getAttribute("x");
    const box = part.getBBox();
    return box.x + box.width / 2;
});
const room = 24; // for the last step's number
let zoom = 1;

// Shows steps so many times as wide as at first. What is as wide as its steps is stretched, and marks and texts are moved.
function stretch(wanted) {
    const middle = (scroller.scrollLeft + scroller.clientWidth / 2) / zoom;
    zoom = Math.min(40 / data.step, Math.max(0.002, wanted));
    const far = [1, 2, 5, 10, 20, 50, 100, 200, 500, 1000, 2000, 5000].find(count => count * data.step * zoom >= 40) || 10000;
    for (const part of [numbers, lanes]) {
        part.setAttribute("width", width * zoom + room);
        part.setAttribute("viewBox", part.getAttribute("viewBox").replace(/^0 (\S+) \S+/, `0 $1 ${width * zoom + room}`));
    }
    document.querySelector(".scaled").setAttribute("transform", `scale(${zoom} 1)`);
    placed.forEach((part, at) => {
        part.setAttribute("transform", `translate(${centers[at] * (zoom - 1)} 0)`);
        if (part.ownerSVGElement === numbers) part.style.display = +part.textContent % far && part.textContent !== "1" ? "none" : "";
    });
    lanes.classList.toggle("narrow", zoom < 1);
    scroller.scrollLeft = middle * zoom - scroller.clientWidth / 2;
    mark();
}

// What programs see and what the memory holds behind a step, word by word.
function wordsAt(step) {
    const seen = data.words.map(word => word[1]), held = seen.slice(), written = seen.map(() => 0);
    for (const [word, value, stored, durable] of data.persists) {
        if (stored <= step) seen[word] = value;
        if (durable !== null && durable <= step && durable >= written[word]) [held[word], written[word]] = [value, durable];
    }
    return [seen, held];
}

function mark() {
    const line = document.getElementById("at"), x = slider.value * data.step * zoom;
    line.setAttribute("x1", x);
    line.setAttribute("x2", x);
}

function cell(text, kind) {
    const made = document.createElement("td");
    made.textContent = text;
    made.className = kind || "";
    return made;
}

// Goes to a step: shows the words, and asks the judge about a crash there.
function go(step) {
    slider.value = step;
    const [seen, held] = wordsAt(step), table = document.createElement("table");
    const rows = [["word", "as programs see it", "as the memory holds it"], ...data.words.map((word, at) => [word[0], seen[at], held[at]])];
    rows.forEach((texts, number) => {
        const row = table.insertRow();
        texts.forEach((text, at) => row.append(cell(text, number && at === 2 && seen[number - 1] !== text ? "other" : "")));
    });
    document.getElementById("words").replaceChildren(table);
    document.getElementById("step").textContent = `${step} of ${data.steps}`;
    const given = data.words.flatMap((word, at) => held[at] === word[1] ? [] : [`${word[0]}=${held[at]}`]);
    document.getElementById("asked").value = `${[data.crash, ...given].join(" ")} | ${data.judge} ${step} -`;
    mark();
}

function fit() {
    stretch((scroller.clientWidth - document.querySelector(".run svg").clientWidth - room - 4) / width);
}

slider.max = data.steps;
slider.oninput = () => go(+slider.value);
document.getElementById("fit").onclick = fit;
document.getElementById("wider").onclick = () => stretch(zoom * 1.5);
document.getElementById("narrower").onclick = () => stretch(zoom / 1.5);
document.getElementById("asked").onclick = event => event.target.select();
for (const part of [numbers, lanes]) {
    part.onclick = event => {
        const x = event.clientX - part.getBoundingClientRect().left;
        go(Math.min(data.steps, Math.max(1, Math.ceil(x / (data.step * zoom)))));
    };
}
document.onkeydown = event => {
    const keys = {"0": fit, "+": () => stretch(zoom * 1.5), "-": () => stretch(zoom / 1.5),
                  ArrowLeft: () => go(Math.max(0, slider.value - 1)), ArrowRight: () => go(Math.min(data.steps, +slider.value + 1))};
    if (event.ctrlKey || event.metaKey || event.altKey || !keys[event.key] || event.target === slider) return;
    keys[event.key]();
    event.preventDefault();
};
go(data.steps);
