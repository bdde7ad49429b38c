// The page of a chip. Lengths are nanometres, y grows upward; `scale` is pixels of the canvas for a nanometre. What
// does not move is drawn on square tiles, in levels of twice the scale each, and tiles are kept; what lights or moves
// is drawn over them. Each frame draws what is visible alone.

const TILE = 512;            // pixels of a tile's side
const KEPT_TILES = 120;      // tiles that are kept beside those of the whole chip
const TILE_TIME = 9;         // milliseconds of a frame for new tiles
const GLIDE_TIME = 180;      // milliseconds of a move by keys
const MOST_SCALE = 0.3;      // the nearest view
const LEAST_WIDTH = 0.4;     // pixels of a shape's width on a tile, so that thin wires are seen from afar
const TAKES = "#00857a", GIVES = "#c0009a", PLUS = "#f04020", MINUS = "#2060ff";
const ROWS_OF_TABLE = 400;   // words that the table shows at once

const element = Object.fromEntries(["stage", "sheet", "hint", "scale", "title", "counts", "find", "names", "about",
    "words", "play", "back", "on", "speed", "time", "table", "layers"]
    .map(name => [name, document.getElementById(name)]));
const sheet = element.sheet.getContext("2d", {alpha: false});
const still = matchMedia("(prefers-reduced-motion: reduce)").matches;

// ---- The view

let chip = null;
let view = {x: 0, y: 0, scale: 1e-3};   // the middle, and pixels of the canvas for a nanometre
let glide = null;                       // a move that goes on
let chosen = -1, pointed = -1;          // the cell that was clicked or found, and the one under the pointer
let scheduled = false;

const size = () => ({width: element.sheet.width, height: element.sheet.height});
const density = () => window.devicePixelRatio || 1;

function redraw() {
    if (!scheduled && chip) {
        scheduled = true;
        requestAnimationFrame(frame);
    }
}

/** The view that shows the whole chip. */
function wholeView() {
    const [x0, y0, x1, y1] = facts.extent, {width, height} = size();
    return {x: (x0 + x1) / 2, y: (y0 + y1) / 2,
        scale: Math.min(MOST_SCALE, 0.88 * Math.min(width / (x1 - x0), height / (y1 - y0)))};
}

function bounded(next) {
    const [x0, y0, x1, y1] = facts.extent;
    return {x: Math.min(x1, Math.max(x0, next.x)), y: Math.min(y1, Math.max(y0, next.y)),
        scale: Math.min(MOST_SCALE * density(), Math.max(wholeView().scale / 2, next.scale))};
}

function show(next) {
    glide = null;
    view = bounded(next);
    redraw();
}

function glideTo(next) {
    if (still) return show(next);
    glide = {from: view, to: bounded(next), start: performance.now()};
    redraw();
}

/** Moves by pixels of the canvas. */
const panBy = (dx, dy) => show({...view, x: view.x - dx / view.scale, y: view.y + dy / view.scale});

/** The point of the chip under a pixel of the canvas. */
function pointAt(px, py) {
    const {width, height} = size();
    return {x: view.x + (px - width / 2) / view.scale, y: view.y - (py - height / 2) / view.scale};
}

/** The view that is nearer by a factor and keeps the point under a pixel. */
function zoomed(factor, px, py) {
    const {x, y} = pointAt(px, py);
    const scale = bounded({...view, scale: view.scale * factor}).scale, kept = view.scale / scale;
    return {x: x + (view.x - x) * kept, y: y + (view.y - y) * kept, scale};
}

function moveOn(now) {
    if (!glide) return;
    const part = Math.min(1, Math.max(0, (now - glide.start) / GLIDE_TIME)), {from, to} = glide;
    const eased = part * (2 - part);
    const scale = from.scale * (to.scale / from.scale) ** eased;
    // Between two scales the middle goes with the inverse of the scale, so that the aim stays where it is seen.
    const way = from.scale === to.scale ? eased : (1 / scale - 1 / from.scale) / (1 / to.scale - 1 / from.scale);
    view = {x: from.x + (to.x - from.x) * way, y: from.y + (to.y - from.y) * way, scale};
    if (part === 1) glide = null;
}

// ---- Tiles

const tiles = new Map();
let firstTiles = new Set();

/** The box of the chip that a tile shows. */
function boxOfTile(level, column, row) {
    const side = TILE / 2 ** level;
    return {x0: column * side, y0: row * side, x1: (column + 1) * side, y1: (row + 1) * side};
}

function drawCells(context, layer, box, scale) {
    const {x0, y0, x1, y1} = chip.cells;
    const [first, past] = chip.rowsIn(box);
    context.lineWidth = 1 / scale;
    context.strokeStyle = layer.edge;
    for (let row = first; row < past; row++) {
        const [from, to] = chip.cellsIn(row, box);
        const outlined = from < to && (y1[from] - y0[from]) * scale > 8;
        for (let cell = from; cell < to; cell++) {
            context.fillStyle = facts.kinds[chip.kind[cell]].fill;
            context.fillRect(x0[cell], y0[cell], x1[cell] - x0[cell], y1[cell] - y0[cell]);
            if (outlined) context.strokeRect(x0[cell], y0[cell], x1[cell] - x0[cell], y1[cell] - y0[cell]);
        }
    }
}

function drawShapes(context, layer, box, scale) {
    const {x0, y0, x1, y1, thin} = layer.shapes, least = {vias: 1, inputs: 0.6, outputs: 0.6}[layer.key] ?? 0;
    if (thin * scale < least) return;
    const isLine = layer.key === "even" || layer.key === "odd";
    context.globalAlpha = isLine ? 0.45 : 0.75;
    context.fillStyle = layer.fill;
    const fine = LEAST_WIDTH / scale;
    layer.shapes.each(box, shape => context.fillRect(x0[shape], y0[shape],
        Math.max(fine, x1[shape] - x0[shape]), Math.max(fine, y1[shape] - y0[shape])));
    context.globalAlpha = 1;
    if (thin * scale < 5 || isLine && thin * scale < 60) return;
    context.lineWidth = 1 / scale;
    context.strokeStyle = layer.edge;
    layer.shapes.each(box, shape => context.strokeRect(x0[shape], y0[shape],
        x1[shape] - x0[shape], y1[shape] - y0[shape]));
}

/** Draws a tile anew, and keeps it; a canvas that is no longer wanted is used again. */
function drawTile(level, column, row, key) {
    let canvas = null;
    if (tiles.size >= KEPT_TILES + firstTiles.size) {
        const oldest = [...tiles.keys()].find(each => !firstTiles.has(each));
        canvas = tiles.get(oldest);
        tiles.delete(oldest);
    }
    canvas ??= document.createElement("canvas");
    canvas.width = canvas.height = TILE;
    const context = canvas.getContext("2d", {alpha: false}), scale = 2 ** level, box = boxOfTile(level, column, row);
    context.fillStyle = "#ffffff";
    context.fillRect(0, 0, TILE, TILE);
    context.setTransform(scale, 0, 0, -scale, -box.x0 * scale, box.y1 * scale);
    for (const layer of chip.layers) {
        if (layer.shown) (layer.key === "cells" ? drawCells : drawShapes)(context, layer, box, scale);
    }
    tiles.set(key, canvas);
    return canvas;
}

/** The part of a coarser tile that shows a tile, if one is kept. */
function coarser(level, column, row) {
    for (let up = 1; up <= 14; up++) {
        const canvas = tiles.get(`${level - up} ${column >> up} ${row >> up}`), side = TILE / 2 ** up;
        if (canvas) {
            const [across, low] = [column - (column >> up << up), row - (row >> up << up)];
            return {canvas, x: across * side, y: TILE - (low + 1) * side, side};
        }
    }
    return null;
}

/** Puts all visible tiles onto the canvas; true where none was missing. */
function drawTiles(box) {
    const level = Math.ceil(Math.log2(view.scale) - 0.1), side = TILE / 2 ** level, {width, height} = size();
    const began = performance.now(), [x0, y0, x1, y1] = facts.extent;
    const across = column => Math.round((column * side - view.x) * view.scale + width / 2);
    const down = row => Math.round(height / 2 - (row * side - view.y) * view.scale);
    const from = Math.floor(Math.max(box.x0, x0) / side), to = Math.floor(Math.min(box.x1, x1) / side);
    const low = Math.floor(Math.max(box.y0, y0) / side), high = Math.floor(Math.min(box.y1, y1) / side);
    let whole = true;
    for (let row = low; row <= high; row++) {
        for (let column = from; column <= to; column++) {
            const key = `${level} ${column} ${row}`;
            let canvas = tiles.get(key);
            if (canvas && !firstTiles.has(key)) {
                tiles.delete(key);
                tiles.set(key, canvas);
            }
            if (!canvas && performance.now() - began < TILE_TIME) canvas = drawTile(level, column, row, key);
            const other = canvas ? {canvas, x: 0, y: 0, side: TILE} : coarser(level, column, row);
            whole &&= Boolean(canvas);
            const left = across(column), top = down(row + 1);
            if (other) {
                sheet.drawImage(other.canvas, other.x, other.y, other.side, other.side,
                    left, top, across(column + 1) - left, down(row) - top);
            }
        }
    }
    return whole;
}

function forgetTiles() {
    tiles.clear();
    firstTiles = new Set();
    redraw();
}

// ---- What is drawn over the tiles

/** Fills a rectangle of the chip, at least so many pixels wide and high. */
function fillBox(shapes, shape, least) {
    const {width, height} = size(), {scale} = view;
    const wide = Math.max(least, (shapes.x1[shape] - shapes.x0[shape]) * scale);
    const high = Math.max(least, (shapes.y1[shape] - shapes.y0[shape]) * scale);
    const left = (shapes.x0[shape] - view.x) * scale + width / 2;
    sheet.fillRect(left, height / 2 - (shapes.y1[shape] - view.y) * scale, wide, high);
}

function frameBox(cell, colour, thick) {
    const {width, height} = size(), {scale} = view, {x0, y0, x1, y1} = chip.cells;
    sheet.strokeStyle = colour;
    sheet.lineWidth = thick;
    const wide = Math.max(4, (x1[cell] - x0[cell]) * scale), high = Math.max(4, (y1[cell] - y0[cell]) * scale);
    sheet.strokeRect((x0[cell] - view.x) * scale + width / 2, height / 2 - (y1[cell] - view.y) * scale, wide, high);
}

function lightWire(wire, colour) {
    sheet.fillStyle = colour;
    for (const {shapes, places} of chip.metals) {
        for (const shape of places.of(wire)) fillBox(shapes, shape, 1.5);
    }
}

/** Lights a cell, what it takes and what takes it. */
function drawLit(cell) {
    for (const wire of chip.taken.of(cell)) {
        lightWire(wire, TAKES);
        frameBox(chip.wires.source[wire], TAKES, 2.5 * density());
    }
    for (const wire of chip.given.of(cell)) {
        lightWire(wire, GIVES);
        frameBox(chip.wires.target[wire], GIVES, 2.5 * density());
    }
    frameBox(cell, "#000000", 3 * density());
}

/** Fills the cells of a row that show a word, and their wires where these can be told apart. */
function drawPulse(row, word, age, box) {
    const [from, to] = chip.cellsIn(row, box), wired = view.scale * 1000 > 1 && age === 1;
    const shadow = age === 0 ? "" : "a0";
    for (let cell = from; cell < to; cell++) {
        const colour = (chip.isPlus(word, cell) ? PLUS : MINUS) + shadow;
        if (wired) for (const wire of chip.given.of(cell)) lightWire(wire, colour);
        sheet.fillStyle = colour;
        fillBox(chip.cells, cell, 1);
    }
}

/** A cell switches at time 4 * word + row, holds its sign for that time and the next one, and then has none. */
function drawPulses(box) {
    const [first, past] = chip.rowsIn(box);
    for (let row = first; row < past; row++) {
        const word = Math.floor((play.time - row) / 4), age = play.time - row - 4 * word;
        if (age <= 1 && word >= 0 && word < facts.words.length) drawPulse(row, word, age, box);
    }
}

/** Names of cells where there is room for them. */
function drawNames(box) {
    const {width, height} = size(), {scale} = view, {x0, y0, x1, y1} = chip.cells;
    sheet.font = `${12 * density()}px system-ui, sans-serif`;
    sheet.textAlign = "center";
    sheet.textBaseline = "middle";
    const [first, past] = chip.rowsIn(box);
    for (let row = first; row < past; row++) {
        const [from, to] = chip.cellsIn(row, box), high = (y1[from] - y0[from]) * scale;
        if (from === to || high < 24 * density()) continue;
        for (let cell = from; cell < to; cell++) {
            const room = (x1[cell] - x0[cell]) * scale - 2, {title} = facts.kinds[chip.kind[cell]];
            const x = ((x0[cell] + x1[cell]) / 2 - view.x) * scale + width / 2;
            const y = height / 2 - ((y0[cell] + y1[cell]) / 2 - view.y) * scale;
            const isTold = high > 36 * density() && sheet.measureText(title).width < room;
            if (sheet.measureText(`n${cell}`).width < room) write(`n${cell}`, x, isTold ? y - 7 * density() : y);
            if (isTold) write(title, x, y + 8 * density());
        }
    }
    drawPortNames(box, facts.inputs, 16 * density());
    drawPortNames(box, facts.outputs, -14 * density());
}

/** Names of inputs below their pins, or of outputs above them: on two lines, so that more find room. */
function drawPortNames(box, ports, shift) {
    const {width, height} = size(), {scale} = view, ends = [-Infinity, -Infinity];
    if (8000 * scale < 10 * density()) return;
    for (const port of ports.toSorted((one, other) => one.x - other.x)) {
        if (port.x < box.x0 || port.x > box.x1 || port.y < box.y0 || port.y > box.y1) continue;
        const text = port.name ?? port.label, half = sheet.measureText(text).width / 2 + 3;
        const x = (port.x - view.x) * scale + width / 2, line = ends.findIndex(end => end <= x - half);
        if (line < 0) continue;
        ends[line] = x + half;
        write(text, x, height / 2 - (port.y - view.y) * scale + shift * (1 + line));
    }
}

function write(text, x, y) {
    sheet.lineWidth = 3 * density();
    sheet.strokeStyle = "#ffffffd0";
    sheet.strokeText(text, x, y);
    sheet.fillStyle = "#111111";
    sheet.fillText(text, x, y);
}

function drawScale() {
    const wanted = 120 * density() / view.scale, power = 10 ** Math.floor(Math.log10(wanted));
    const length = [5, 2, 1].map(times => times * power).find(each => each <= wanted);
    element.scale.style.width = `${length * view.scale / density()}px`;
    const [unit, name] = length >= 1e6 ? [1e6, "mm"] : length >= 1000 ? [1000, "µm"] : [1, "nm"];
    element.scale.textContent = `${length / unit} ${name}`;
}

function frame(now) {
    scheduled = false;
    moveOn(now);
    playOn(now);
    const {width, height} = size(), {scale} = view;
    const box = {x0: view.x - width / 2 / scale, x1: view.x + width / 2 / scale,
        y0: view.y - height / 2 / scale, y1: view.y + height / 2 / scale};
    sheet.fillStyle = "#ffffff";
    sheet.fillRect(0, 0, width, height);
    const whole = drawTiles(box);
    if (facts.words.length) drawPulses(box);
    const lit = pointed >= 0 ? pointed : chosen;
    if (lit >= 0) drawLit(lit);
    drawNames(box);
    drawScale();
    if (whole && firstTiles.size === 0) firstTiles = new Set(tiles.keys());
    if (whole && !page.opened) page.opened = performance.now();
    if (!whole || glide || play.runs) redraw();
}

// ---- What is said of a cell

function nameOf(port) {
    return port.name === null ? port.label : `${port.name} (${port.label})`;
}

/** Lines about a cell: its kind and place, and what it takes and gives. */
function linesOf(cell) {
    const {source, target, length} = chip.wires, kind = facts.kinds[chip.kind[cell]];
    const ports = chip.ports.get(cell) ?? [];
    const inputs = ports.filter(port => port.label[0] === "I"), outputs = ports.filter(port => port.label[0] === "O");
    const ends = (wires, end) => Array.from(wires, wire => `n${end[wire]} (${length[wire] / 1000} µm)`);
    const takes = [...inputs.map(nameOf), ...ends(chip.taken.of(cell), source)];
    const gives = [...ends(chip.given.of(cell), target), ...outputs.map(nameOf)];
    const word = wordIn(chip.row[cell]);
    return {
        head: `n${cell}: ${kind.title}`,
        row: `row ${chip.row[cell]}, phase ${chip.row[cell] % 4}`,
        place: `at ${chip.cells.x0[cell] / 1000}, ${chip.cells.y0[cell] / 1000} µm`,
        takes: takes.length ? `takes ${takes.join(", ")}` : "takes nothing",
        gives: gives.length ? `gives ${gives.join(", ")}` : "gives nothing",
        sign: word < 0 ? "" : `shows ${chip.isPlus(word, cell) ? "1" : "0"} for word ${word}`,
    };
}

function tellAbout() {
    const cell = pointed >= 0 ? pointed : chosen;
    element.about.replaceChildren();
    if (cell < 0) {
        element.about.textContent = "Point at a cell; a click keeps it.";
        return;
    }
    const colours = {takes: TAKES, gives: GIVES};
    for (const [key, text] of Object.entries(linesOf(cell))) {
        if (!text) continue;
        const line = document.createElement(key === "head" ? "b" : "span");
        line.style.color = colours[key] ?? "";
        line.textContent = text;
        element.about.append(line, "\n");
    }
}

function point(cell, x, y) {
    if (cell !== pointed) {
        pointed = cell;
        tellAbout();
        redraw();
    }
    element.hint.style.display = cell >= 0 ? "block" : "none";
    if (cell < 0) return;
    const lines = linesOf(cell);
    element.hint.textContent = [lines.head, lines.row, lines.takes, lines.gives, lines.sign].filter(Boolean).join("\n");
    const {clientWidth, clientHeight} = element.stage;
    element.hint.style.left = `${Math.max(0, Math.min(x + 14, clientWidth - element.hint.offsetWidth - 6))}px`;
    element.hint.style.top = `${Math.max(0, Math.min(y + 18, clientHeight - element.hint.offsetHeight - 6))}px`;
}

function choose(cell) {
    chosen = cell;
    tellAbout();
    redraw();
}

// ---- Finding

/** The cells that a text names: a cell, an input or an output of that name, or else those whose names begin so, or
 * hold it. */
function found(text) {
    const wanted = text.trim().toLowerCase(), cell = /^n(\d+)$/.exec(wanted);
    if (!wanted) return [];
    const names = [...facts.inputs, ...facts.outputs].map(port => [port.cell, [port.label, port.name ?? ""]
        .map(name => name.toLowerCase())]);
    const tests = [name => name === wanted, name => name.startsWith(wanted), name => name.includes(wanted)];
    const places = tests.map(test => names.filter(([, each]) => each.some(test)).map(([place]) => place));
    const exact = cell && Number(cell[1]) < chip.cells.count ? [Number(cell[1])] : [];
    return [...new Set([...exact, ...(places.find(each => each.length) ?? [])])];
}

const search = {text: "", place: 0};

function find() {
    const text = element.find.value, cells = found(text);
    search.place = text === search.text ? search.place + 1 : 0;
    search.text = text;
    if (!cells.length) {
        chosen = -1;
        element.about.textContent = text.trim() ? `Nothing is called ${text.trim()}.` : "";
        return redraw();
    }
    const cell = cells[search.place % cells.length], {x0, y0, x1, y1} = chip.cells;
    choose(cell);
    const near = 70 * density() / (x1[cell] - x0[cell]);
    glideTo({x: (x0[cell] + x1[cell]) / 2, y: (y0[cell] + y1[cell]) / 2, scale: Math.max(view.scale, near)});
}

// ---- Words

const play = {time: -1, runs: false, last: 0};
const endTime = () => 4 * (facts.words.length - 1) + facts.counts.rows + 1;

/** The word that a row shows now, or -1. */
function wordIn(row) {
    const word = Math.floor((play.time - row) / 4);
    return word >= 0 && word < facts.words.length && play.time - row - 4 * word <= 1 ? word : -1;
}

function goTo(time) {
    play.time = Math.max(-1, Math.min(endTime(), time));
    tellTime();
    tellAbout();
    redraw();
}

function run(runs) {
    if (!facts.words.length) return;
    if (runs && play.time >= endTime()) play.time = -1;
    play.runs = runs;
    play.last = performance.now();
    element.play.textContent = runs ? "stop" : "play";
    redraw();
}

function playOn(now) {
    if (!play.runs) return;
    const step = 1000 / 2 ** Number(element.speed.value), steps = Math.floor((now - play.last) / step);
    if (steps <= 0) return;
    play.last += steps * step;
    goTo(play.time + steps);
    if (play.time >= endTime()) run(false);
}

/** The table's lines, with those words marked that are in the chip, and answers hidden that are still to come. */
function tellTime() {
    const {rows} = facts.counts, {time} = play;
    const entered = Math.min(facts.words.length, Math.max(0, Math.floor(time / 4) + 1));
    const left = Math.min(facts.words.length, Math.max(0, Math.floor((time - rows + 1) / 4) + 1));
    element.time.textContent = time < 0 ? `${facts.words.length} words are to go through ${rows} rows`
        : `phase ${time} of ${endTime()}: ${entered} words in, ${left} out`;
    for (const line of element.table.querySelectorAll("tr[data-word]")) {
        const word = Number(line.dataset.word);
        line.className = word < left ? "" : word < entered ? "waiting inside" : "waiting";
        if (word === Math.max(0, left - 1)) element.table.scrollTop = line.offsetTop - line.offsetHeight;
    }
}

function makeTable() {
    if (!facts.words.length) return;
    element.words.style.display = "block";
    const table = document.createElement("table"), head = table.insertRow();
    for (const text of ["", "goes in", "comes out"]) {
        const cell = document.createElement("th");
        cell.textContent = text;
        head.append(cell);
    }
    facts.words.slice(0, ROWS_OF_TABLE).forEach((word, number) => {
        const line = table.insertRow();
        line.dataset.word = number;
        for (const text of [number, word.given, word.answer]) line.insertCell().textContent = text;
    });
    element.table.append(table);
    if (facts.words.length > ROWS_OF_TABLE) element.table.append(`and ${facts.words.length - ROWS_OF_TABLE} more`);
    tellTime();
}

// ---- The panel

function makeLayers() {
    for (const layer of chip.layers) {
        const label = document.createElement("label"), box = document.createElement("input");
        const sample = document.createElement("span");
        Object.assign(box, {type: "checkbox", checked: true, id: `layer-${layer.key}`});
        box.addEventListener("change", () => {
            layer.shown = box.checked;
            forgetTiles();
        });
        sample.className = "sample";
        Object.assign(sample.style, {background: layer.fill, borderColor: layer.edge});
        label.append(box, sample, layer.name);
        element.layers.append(label);
    }
}

function fillPanel() {
    const {counts} = facts, thousands = number => number.toLocaleString("en");
    element.title.textContent = facts.title;
    element.counts.textContent = `${thousands(counts.cells)} cells in ${counts.rows} rows, `
        + `${thousands(counts.wires)} wires, ${thousands(counts.junctions)} junctions, `
        + `${counts.width / 1000} × ${counts.height / 1000} µm, `
        + `longest wire ${counts.longest / 1000} of ${counts.limit / 1000} µm`;
    for (const port of [...facts.inputs, ...facts.outputs].slice(0, 500)) {
        const option = document.createElement("option");
        option.value = port.name ?? port.label;
        element.names.append(option);
    }
    makeLayers();
    makeTable();
    tellAbout();
}

// ---- Pointer and keys

const pointers = new Map();
let moved = 0;

/** The pixel of the canvas under a pointer. */
function pixelOf(event) {
    const box = element.sheet.getBoundingClientRect();
    return {px: (event.clientX - box.left) * density(), py: (event.clientY - box.top) * density()};
}

function startDrag(event) {
    element.sheet.setPointerCapture(event.pointerId);
    pointers.set(event.pointerId, pixelOf(event));
    moved = 0;
}

function drag(event) {
    const at = pixelOf(event), before = pointers.get(event.pointerId);
    if (!before) {
        const {x, y} = pointAt(at.px, at.py), box = element.sheet.getBoundingClientRect();
        return point(chip.cellAt(x, y), event.clientX - box.left, event.clientY - box.top);
    }
    moved += Math.abs(at.px - before.px) + Math.abs(at.py - before.py);
    const other = [...pointers.entries()].find(([id]) => id !== event.pointerId)?.[1];
    pointers.set(event.pointerId, at);
    if (moved > 4) {
        element.sheet.classList.add("dragged");
        point(-1);
    }
    if (!other) return panBy(at.px - before.px, at.py - before.py);
    const apart = one => Math.hypot(one.px - other.px, one.py - other.py) || 1;
    show(zoomed(apart(at) / apart(before), (at.px + other.px) / 2, (at.py + other.py) / 2));
    panBy((at.px - before.px) / 2, (at.py - before.py) / 2);
}

function endDrag(event) {
    const at = pixelOf(event);
    if (pointers.delete(event.pointerId) && moved <= 4 && event.type === "pointerup") {
        const {x, y} = pointAt(at.px, at.py);
        choose(chip.cellAt(x, y));
    }
    element.sheet.classList.remove("dragged");
}

function turnWheel(event) {
    event.preventDefault();
    const {px, py} = pixelOf(event), lines = event.deltaMode === 1 ? 30 : 1;
    show(zoomed(Math.exp(-event.deltaY * lines * (event.ctrlKey ? 0.01 : 0.0018)), px, py));
}

/** What a key does, or nothing. */
function actionOf(key) {
    const {width, height} = size(), aim = glide?.to ?? view, across = width * 0.15, down = height * 0.15;
    const move = (dx, dy) => glideTo({...aim, x: aim.x + dx / aim.scale, y: aim.y + dy / aim.scale});
    const nearer = factor => glideTo({...aim, scale: aim.scale * factor});
    return {
        ArrowLeft: () => move(-across, 0), ArrowRight: () => move(across, 0),
        ArrowUp: () => move(0, down), ArrowDown: () => move(0, -down),
        "+": () => nearer(1.5), "=": () => nearer(1.5), "-": () => nearer(1 / 1.5),
        "0": () => glideTo(wholeView()), Home: () => glideTo(wholeView()),
        f: () => { element.find.focus(); element.find.select(); },
        " ": () => run(!play.runs),
        ",": () => { run(false); goTo(play.time - 1); }, ".": () => { run(false); goTo(play.time + 1); },
        Escape: () => { element.find.value = ""; point(-1); choose(-1); },
    }[key];
}

function pressKey(event) {
    if (event.ctrlKey || event.metaKey || event.altKey) return;
    if (event.target === element.find) {
        if (event.key === "Enter") find();
        if (event.key === "Escape") element.sheet.focus();
        return;
    }
    const native = event.target instanceof HTMLInputElement || event.target instanceof HTMLButtonElement;
    if (native && (event.key === " " || event.target.type === "range" && event.key.startsWith("Arrow"))) return;
    const action = actionOf(event.key);
    if (action) {
        event.preventDefault();
        action();
    }
}

function resize() {
    const {clientWidth, clientHeight} = element.stage;
    const [width, height] = [clientWidth, clientHeight].map(side => Math.max(1, Math.round(side * density())));
    if (width === element.sheet.width && height === element.sheet.height) return;
    const wasWhole = view.scale === wholeView().scale;
    Object.assign(element.sheet, {width, height});
    show(wasWhole ? wholeView() : view);
}

function listen() {
    const {sheet: canvas} = element;
    canvas.addEventListener("pointerdown", startDrag);
    canvas.addEventListener("pointermove", drag);
    canvas.addEventListener("pointerup", endDrag);
    canvas.addEventListener("pointercancel", endDrag);
    canvas.addEventListener("pointerleave", () => point(-1));
    canvas.addEventListener("wheel", turnWheel, {passive: false});
    document.addEventListener("keydown", pressKey);
    element.play.addEventListener("click", () => run(!play.runs));
    element.back.addEventListener("click", () => { run(false); goTo(play.time - 1); });
    element.on.addEventListener("click", () => { run(false); goTo(play.time + 1); });
    new ResizeObserver(resize).observe(element.stage);
}

/** What trials ask for. */
const page = {opened: 0, panBy,
    state: () => ({...view, chosen, pointed, time: play.time, runs: play.runs, glides: Boolean(glide)}),
    pixelOfCell: cell => {
        const {x0, y0, x1, y1} = chip.cells, {width, height} = size();
        return {x: (((x0[cell] + x1[cell]) / 2 - view.x) * view.scale + width / 2) / density(),
            y: (height / 2 - ((y0[cell] + y1[cell]) / 2 - view.y) * view.scale) / density()};
    }};
window.chipPage = page;

async function open() {
    const parts = await unpack();
    document.getElementById("data").remove();
    chip = new Chip(parts);
    page.chip = chip;
    resize();
    view = wholeView();
    fillPanel();
    listen();
    redraw();
}

open().catch(error => { element.counts.textContent = `The page could not be opened: ${error.message}`; });
