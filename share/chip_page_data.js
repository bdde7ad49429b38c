"use strict";
// What the page of a chip knows of it: its shapes, found by place, and its cells and wires. Lengths are nanometres.

const facts = JSON.parse(document.getElementById("facts").textContent);

/** The page's data by name: lists of numbers of four bytes, and bytes for signs. */
async function unpack() {
    const text = atob(document.getElementById("data").textContent);
    const packed = new Uint8Array(text.length);
    for (let place = 0; place < text.length; place++) packed[place] = text.charCodeAt(place);
    const stream = new Blob([packed]).stream().pipeThrough(new DecompressionStream("deflate"));
    const buffer = await new Response(stream).arrayBuffer();
    const parts = {};
    let place = 0;
    for (const [name, length] of facts.parts) {
        parts[name] = name.startsWith("signs.") ? new Uint8Array(buffer, place, length)
            : new Int32Array(buffer, place, length / 4);
        place += length;
    }
    return parts;
}

/** Rectangles that are found by place: each is filed in a square of a grid by its middle, large ones apart. */
class Shapes {
    constructor(parts, key) {
        [this.x0, this.y0, this.x1, this.y1] = ["x0", "y0", "x1", "y1"].map(side => parts[`${key}.${side}`]);
        this.wire = parts[`${key}.wire`];
        this.count = this.x0.length;
        const [left, low, right, high] = facts.extent;
        const area = Math.max(1, right - left) * Math.max(1, high - low);
        this.side = Math.max(1000, Math.sqrt(area * 64 / Math.max(64, this.count)));
        [this.left, this.low] = [left, low];
        this.columns = Math.floor((right - left) / this.side) + 1;
        this.rows = Math.floor((high - low) / this.side) + 1;
        this.thin = Infinity;
        this.file();
    }

    /** The square in which the middle of a shape lies. */
    square(shape) {
        const column = Math.floor(((this.x0[shape] + this.x1[shape]) / 2 - this.left) / this.side);
        const row = Math.floor(((this.y0[shape] + this.y1[shape]) / 2 - this.low) / this.side);
        return row * this.columns + column;
    }

    file() {
        this.begin = new Uint32Array(this.columns * this.rows + 1);
        this.large = [];
        this.reach = 0;
        const isLarge = new Uint8Array(this.count);
        for (let shape = 0; shape < this.count; shape++) {
            const wide = this.x1[shape] - this.x0[shape], high = this.y1[shape] - this.y0[shape];
            this.thin = Math.min(this.thin, wide, high);
            if (Math.max(wide, high) > 4 * this.side) {
                isLarge[shape] = 1;
                this.large.push(shape);
            } else {
                this.reach = Math.max(this.reach, wide / 2, high / 2);
                this.begin[this.square(shape) + 1]++;
            }
        }
        for (let square = 1; square < this.begin.length; square++) this.begin[square] += this.begin[square - 1];
        this.filed = new Uint32Array(this.begin[this.begin.length - 1]);
        const next = this.begin.slice();
        for (let shape = 0; shape < this.count; shape++) {
            if (!isLarge[shape]) this.filed[next[this.square(shape)]++] = shape;
        }
    }

    /** Visits each shape that meets a box. */
    each(box, visit) {
        const {x0, y0, x1, y1} = this;
        const meets = shape => x0[shape] <= box.x1 && x1[shape] >= box.x0 && y0[shape] <= box.y1 && y1[shape] >= box.y0;
        for (const shape of this.large) if (meets(shape)) visit(shape);
        const limit = (number, count) => Math.min(count - 1, Math.max(0, Math.floor(number / this.side)));
        const first = limit(box.x0 - this.reach - this.left, this.columns);
        const last = limit(box.x1 + this.reach - this.left, this.columns);
        const lowest = limit(box.y0 - this.reach - this.low, this.rows);
        const highest = limit(box.y1 + this.reach - this.low, this.rows);
        for (let row = lowest; row <= highest; row++) {
            const from = this.begin[row * this.columns + first], to = this.begin[row * this.columns + last + 1];
            for (let place = from; place < to; place++) {
                if (meets(this.filed[place])) visit(this.filed[place]);
            }
        }
    }
}

/** The places of each number in a list, in the order of the numbers: those of n are from begin[n] to begin[n + 1]. */
function placesOf(list, count) {
    const begin = new Uint32Array(count + 1);
    for (const number of list) if (number >= 0) begin[number + 1]++;
    for (let number = 0; number < count; number++) begin[number + 1] += begin[number];
    const places = new Uint32Array(begin[count]), next = begin.slice();
    list.forEach((number, place) => { if (number >= 0) places[next[number]++] = place; });
    return {of: number => places.subarray(begin[number], begin[number + 1])};
}

/** The least place from `from` on, before `to`, at which a test of rising values is true. */
function firstWhere(from, to, test) {
    while (from < to) {
        const middle = (from + to) >> 1;
        if (test(middle)) to = middle; else from = middle + 1;
    }
    return from;
}

class Chip {
    constructor(parts) {
        this.cells = new Shapes(parts, "cells");
        this.kind = parts["cells.kind"];
        this.row = parts["cells.row"];
        this.wires = Object.fromEntries(["source", "source_pin", "target", "target_pin", "length"]
            .map(field => [field, parts[`wires.${field}`]]));
        this.layers = facts.layers.map(layer => ({...layer, shown: true,
            shapes: layer.key === "cells" ? this.cells : new Shapes(parts, layer.key)}));
        const count = this.cells.count;
        this.taken = placesOf(this.wires.target, count);
        this.given = placesOf(this.wires.source, count);
        this.metals = this.layers.filter(layer => layer.shapes.wire)
            .map(layer => ({shapes: layer.shapes, places: placesOf(layer.shapes.wire, this.wires.source.length)}));
        this.rowBegin = new Uint32Array(facts.counts.rows + 1);
        for (let cell = count - 1; cell >= 0; cell--) this.rowBegin[this.row[cell]] = cell;
        this.rowBegin[facts.counts.rows] = count;
        this.signs = facts.words.map((_, number) => parts[`signs.${number}`]);
        this.ports = new Map();
        for (const port of [...facts.inputs, ...facts.outputs]) {
            this.ports.set(port.cell, [...this.ports.get(port.cell) ?? [], port]);
        }
    }

    /** Whether the sign of a cell under a word is plus. */
    isPlus(word, cell) {
        return this.signs[word][cell >> 3] >> (cell & 7) & 1;
    }

    /** The rows that a box meets, from the first up to one before the second. */
    rowsIn(box) {
        const {y0, y1} = this.cells, rows = facts.counts.rows;
        const first = firstWhere(0, rows, row => y1[this.rowBegin[row]] >= box.y0);
        return [first, firstWhere(first, rows, row => y0[this.rowBegin[row]] > box.y1)];
    }

    /** The cells of a row that a box meets, from the first up to one before the second. */
    cellsIn(row, box) {
        const {x0, x1} = this.cells, end = this.rowBegin[row + 1];
        const first = firstWhere(this.rowBegin[row], end, cell => x1[cell] >= box.x0);
        return [first, firstWhere(first, end, cell => x0[cell] > box.x1)];
    }

    /** The cell in whose frame a point lies, or -1. */
    cellAt(x, y) {
        const box = {x0: x, y0: y, x1: x, y1: y};
        const [row, past] = this.rowsIn(box);
        if (row >= past) return -1;
        const [cell, end] = this.cellsIn(row, box);
        return cell < end ? cell : -1;
    }
}

