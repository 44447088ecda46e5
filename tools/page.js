"use strict";
// Draws all events of a history, or those that the filters leave. A row may have several transactions in turn.
const data = JSON.parse(document.getElementById("data").textContent);
const whole = document.getElementById("whole");
const TITLE = 11 * data.letter;  // room for the title of a transaction, to the left of its first box
const RIGHT = 14;
const LABEL = 0.25;  // where the label of an arrow stands: near its start, where few others run

function element(parent, name, attributes, text) {
  const made = document.createElementNS("http://www.w3.org/2000/svg", name);
  for (const [key, value] of Object.entries(attributes)) made.setAttribute(key, value);
  if (text !== undefined) made.textContent = text;
  parent.appendChild(made);
  return made;
}

// Words separated by spaces or commas.
function listed(id) {
  return document.getElementById(id).value.split(/[\s,]+/).filter(word => word);
}

// Whether an event with these keys and this range meets the key, or a key with the beginning before the star.
function meets(keys, range, word) {
  if (word.endsWith("*")) return keys.concat(range).some(key => key.startsWith(word.slice(0, -1)));
  return keys.includes(word) || range.length === 2 && range[0] <= word && word <= range[1];
}

function chosen() {
  const txns = new Set(listed("txns").map(word => word.replace(/^T/i, "")));
  const keys = listed("keys");
  return data.events.filter(([, txn, , , own, range]) => (!txns.size || txns.has(String(txn)))
    && (!keys.length || keys.some(word => meets(own, range, word))));
}

// The boxes of these events: a transaction takes the first row that is free when it begins.
function placed(events) {
  const last = new Map(events.map(([at, txn]) => [txn, at]));
  const rows = [], rowOf = new Map();
  let left = 0;
  return events.map(([at, txn, hover, lines, , , fill]) => {
    const width = data.letter * Math.max(...lines.map(line => line.length)) + 2 * data.pad;
    const isFirst = !rowOf.has(txn);
    if (isFirst) {
      const free = rows.findIndex(row => row.free);
      rowOf.set(txn, free < 0 ? rows.push({right: -data.gap}) - 1 : free);
    }
    const row = rows[rowOf.get(txn)];
    left = Math.max(left + data.step, row.right + data.gap + (isFirst ? TITLE : 0));
    row.right = left + width;
    row.free = last.get(txn) === at;
    const top = data.pad + data.row * rowOf.get(txn);
    return {at, txn, hover, lines, fill, left, width, top, isFirst};
  });
}

// A line along the boxes of each transaction.
function drawRows(svg, boxes) {
  const firsts = new Map(boxes.filter(box => box.isFirst).map(box => [box.txn, box]));
  const lasts = new Map(boxes.map(box => [box.txn, box]));
  for (const [txn, first] of firsts) {
    const y = first.top + data.high / 2;
    element(svg, "line", {x1: first.left, y1: y, x2: lasts.get(txn).left, y2: y, stroke: data.ends[txn][0]});
  }
}

function drawBox(svg, box) {
  const [colour, end] = data.ends[box.txn];
  const dashes = end === "committed" ? "none" : "4 4";
  if (box.isFirst) {
    const common = {x: box.left - data.pad, fill: colour, "text-anchor": "end"};
    element(svg, "text", {...common, y: box.top + data.high / 2 - 4, "font-weight": "bold"}, "T" + box.txn);
    element(svg, "text", {...common, y: box.top + data.high / 2 + data.line - 4}, end);
  }
  const group = element(svg, "g", {});
  element(group, "title", {}, box.hover);
  element(group, "rect", {x: box.left, y: box.top, width: box.width, height: data.high, rx: 4, fill: box.fill,
    stroke: colour, "stroke-dasharray": dashes});
  const down = box.top + data.high / 2 + 5 - data.line / 2 * (box.lines.length - 1);
  box.lines.forEach((line, number) =>
    element(group, "text", {x: box.left + data.pad, y: down + data.line * number}, line));
  group.addEventListener("mouseenter", () => { document.getElementById("line").textContent = box.hover; });
}

function drawArrow(svg, start, end, label) {
  const x1 = start.left + start.width / 2, x2 = end.left + end.width / 2;
  const isBelow = start.top <= end.top;
  const y1 = start.top + (isBelow ? data.high : 0), y2 = end.top + (start.top < end.top ? 0 : data.high);
  const bend = start.top === end.top ? y1 + data.row / 2 : (y1 + y2) / 2;
  element(svg, "path", {d: `M ${x1} ${y1} C ${x1} ${bend} ${x2} ${bend} ${x2} ${y2}`, fill: "none", stroke: data.red,
    "stroke-width": 2, "marker-end": "url(#head)"});
  const wide = data.letter * label.length + 6, near = (1 - LABEL) ** 2 * (1 + 2 * LABEL);  // the share of the start
  const x = near * x1 + (1 - near) * x2;
  const y = (1 - LABEL) ** 3 * y1 + 3 * LABEL * (1 - LABEL) * bend + LABEL ** 3 * y2;
  element(svg, "rect", {x: x - wide / 2, y: y - 9, width: wide, height: data.line, fill: "#fff"});
  element(svg, "text", {x, y: y + 5, fill: data.red, "text-anchor": "middle"}, label);
}

function draw() {
  const boxes = placed(chosen()), byLine = new Map(boxes.map(box => [box.at, box]));
  const right = boxes.reduce((most, box) => Math.max(most, box.left + box.width), 0);
  const low = boxes.reduce((most, box) => Math.max(most, box.top), 0);
  whole.replaceChildren();
  const svg = element(whole, "svg", {width: right + RIGHT, height: low + data.row});
  drawRows(svg, boxes);
  boxes.forEach(box => drawBox(svg, box));
  for (const [first, second, label] of data.arrows) {
    if (byLine.has(first) && byLine.has(second)) drawArrow(svg, byLine.get(first), byLine.get(second), label);
  }
  document.getElementById("count").textContent = `${boxes.length} of ${data.events.length} events`;
}

document.getElementById("txns").addEventListener("input", draw);
document.getElementById("keys").addEventListener("input", draw);
draw();
const named = whole.querySelector("path");  // an arrow
if (named) whole.scrollLeft = named.getBBox().x - whole.clientWidth / 3;
