"use strict";
(() => {
  const data = JSON.parse(document.getElementById("data").textContent);
  const { core, degree, layer } = data;
  const byId = (id) => document.getElementById(id);
  const count = core.length;
  const top = data.shells.length - 1;
  const nameOf = (v) => (data.names ? data.names[v] : String(v));
  const written = (number) => number.toLocaleString("en");
  const some = (number, one, more) => `${written(number)} ${number === 1 ? one : more}`;
  const vertices = (number) => some(number, "vertex", "vertices");
  const shade = (k) => (top > 0 ? Math.round((8 * k) / top) : 4);
  const range = (from, to) => (from === to ? written(from) : `${written(from)} to ${written(to)}`);
  const most = (numbers, least) => numbers.reduce((a, b) => Math.max(a, b), least);

  // What the table and the pictures show: vertices within these ranges, or all where it is null.
  let chosen = null;
  // Each mark of a picture, with the ranges of the vertices that it stands for.
  let marks = [];

  // The first vertices of some, by name, and how many more there are.
  function who(first, members) {
    const rest = members > 3 ? ` and ${written(members - 3)} more` : "";
    return first.slice(0, 3).map(nameOf).join(", ") + rest;
  }

  const firstOfShell = data.shells.map(() => []);
  core.forEach((k, v) => { if (firstOfShell[k].length < 3) firstOfShell[k].push(v); });

  // ---- small helpers for SVG ----

  function make(tag, attributes = {}, ...children) {
    const element = document.createElementNS("http://www.w3.org/2000/svg", tag);
    for (const [key, value] of Object.entries(attributes)) element.setAttribute(key, value);
    element.append(...children);
    return element;
  }

  function canvas(figure, height, label) {
    const place = byId(figure).querySelector(".picture");
    const width = Math.max(place.clientWidth, 200);
    const svg = make("svg", { viewBox: `0 0 ${width} ${height}`, height, role: "group", "aria-label": label });
    place.replaceChildren(svg);
    marks = marks.filter((mark) => mark.figure !== figure);
    return { svg, width, height, figure };
  }

  const logScale = (least, greatest, from, to) => {
    const [a, b] = [Math.log(least), Math.log(Math.max(greatest, least * 2))];
    return (value) => from + ((Math.log(Math.max(value, least)) - a) / (b - a)) * (to - from);
  };

  // The numbers that an axis names: powers of ten, and of few of them also twice and five times as much.
  function ticks(greatest) {
    const listed = [];
    for (let power = 1; power <= greatest; power *= 10) {
      for (const times of greatest < 300 ? [1, 2, 5] : [1]) if (times * power <= greatest) listed.push(times * power);
    }
    return listed;
  }

  function wholeStep(span, room) {
    const wanted = Math.max(span / Math.max(room, 1), 1);
    const power = 10 ** Math.floor(Math.log10(wanted));
    return Math.ceil([1, 2, 5, 10].find((step) => step * power >= wanted) * power);
  }

  function countAxis({ svg, width }, y, greatest, left, right) {
    for (const power of ticks(greatest)) {
      svg.append(make("line", { class: "grid", x1: left, x2: width - right, y1: y(power), y2: y(power) }));
      svg.append(make("text", { x: left - 6, y: y(power) + 4, "text-anchor": "end" }, written(power)));
    }
  }

  function title({ svg, width, height }, words) {
    svg.append(make("text", { x: width / 2, y: height - 4, "text-anchor": "middle" }, words));
  }

  // ---- the tip beside the pointer, or beside what has the focus ----

  const tip = byId("tip");

  function tell(lines, x, y) {
    tip.replaceChildren(...lines.map((line) => Object.assign(document.createElement("div"), { textContent: line })));
    tip.hidden = false;
    const box = tip.getBoundingClientRect();
    tip.style.left = `${Math.max(4, Math.min(x + 14, innerWidth - box.width - 4))}px`;
    tip.style.top = `${y + 18 + box.height > innerHeight ? Math.max(4, y - box.height - 10) : y + 18}px`;
  }

  const hush = () => { tip.hidden = true; };

  function tellAt(element, lines) {
    const box = element.getBoundingClientRect();
    tell(lines, box.left + box.width / 2, box.top + Math.min(box.height / 2, 60));
  }

  // An element that tells something, and does something where it is clicked or gets Enter or space.
  function active(element, lines, act) {
    element.setAttribute("role", "button");
    element.setAttribute("tabindex", "-1");
    element.setAttribute("aria-label", lines().join(". "));
    element.addEventListener("pointermove", (event) => tell(lines(), event.clientX, event.clientY));
    element.addEventListener("pointerleave", hush);
    element.addEventListener("focus", () => { if (element.matches(":focus-visible")) tellAt(element, lines()); });
    element.addEventListener("blur", hush);
    element.addEventListener("click", act);
    element.addEventListener("keydown", (event) => {
      if (event.key === "Enter" || event.key === " ") {
        event.preventDefault();
        act();
      }
    });
  }

  // Of these elements one is reached by Tab, and the others by the arrow keys.
  function roving(elements) {
    if (elements.length) elements[0].setAttribute("tabindex", "0");
    elements.forEach((element, place) => element.addEventListener("keydown", (event) => {
      const steps = { ArrowRight: 1, ArrowUp: 1, ArrowLeft: -1, ArrowDown: -1, Home: -elements.length, End: elements.length };
      if (!(event.key in steps)) return;
      event.preventDefault();
      const next = elements[Math.max(0, Math.min(elements.length - 1, place + steps[event.key]))];
      element.setAttribute("tabindex", "-1");
      next.setAttribute("tabindex", "0");
      next.focus();
    }));
  }

  // ---- what is chosen ----

  const same = (a, b) => JSON.stringify(a) === JSON.stringify(b);

  function choose(ranges) {
    chosen = ranges === null || same(ranges, chosen) ? null : ranges;
    paint();
    list();
  }

  function toldChoice() {
    const words = { core: "core number", degree: "degree", layer: "layer" };
    return Object.entries(chosen).map(([key, [from, to]]) => `${words[key]} ${range(from, to)}`).join(", ");
  }

  function paint() {
    const fits = (mark) => chosen === null || Object.entries(chosen).every(
      ([key, [from, to]]) => !(key in mark.ranges) || (mark.ranges[key][0] <= to && mark.ranges[key][1] >= from));
    for (const mark of marks) mark.element.classList.toggle("dim", !fits(mark));
    const clear = byId("clear");
    clear.hidden = chosen === null;
    if (chosen !== null) clear.textContent = toldChoice();
  }

  function toldShell(k) {
    const own = data.shells[k][1];
    return [`Core number ${written(k)}`, own ? `${vertices(own)}: ${who(firstOfShell[k], own)}` : "no vertices"];
  }

  // ---- vertices per core number ----

  function drawSizes() {
    const place = canvas("sizes", 300, "Vertices per core number");
    const { svg, width, height } = place;
    const [left, right, low, high] = [56, 8, height - 40, 10];
    const greatest = data.shells.length ? data.shells[0][2] : 1;
    const band = (width - left - right) / Math.max(data.shells.length, 1);
    const y = logScale(0.7, greatest * 1.3, low, high);
    countAxis(place, y, greatest * 1.3, left, right);
    let step = "";
    const hits = data.shells.map(([k, own, members, edges]) => {
      const x = left + k * band;
      if (own) {
        const gap = band > 4 ? band * 0.12 : 0;
        const bar = make("rect", { class: `shape f${shade(k)}`, x: x + gap, width: band - 2 * gap, y: y(own), height: low - y(own) });
        marks.push({ figure: "sizes", element: bar, ranges: { core: [k, k] } });
        svg.append(bar);
      }
      step += `${step ? "L" : "M"}${x} ${y(members)}H${x + band}`;
      const hit = make("rect", { class: "hit", x, width: band, y: high, height: low - high, "data-core": k });
      const inside = `${written(k)}-core: ${vertices(members)}, ${some(edges, "edge", "edges")}`;
      active(hit, () => [...toldShell(k), inside], () => choose({ core: [k, k] }));
      return hit;
    });
    svg.append(make("path", { class: "step", d: step }), make("path", { class: "axis", d: `M${left} ${low}H${width - right}` }), ...hits);
    const every = wholeStep(top + 1, (width - left - right) / 44);
    for (let k = 0; k <= top; k += every) {
      svg.append(make("text", { x: left + (k + 0.5) * band, y: low + 16, "text-anchor": "middle" }, written(k)));
    }
    title(place, "k");
    roving(hits);
  }

  // ---- core number against degree ----

  function groups(x, y) {
    const found = new Map();
    for (let v = 0; v < count; v += 1) {
      if (!degree[v]) continue;
      const key = `${Math.round(x(degree[v]) / 4)} ${Math.round(y(core[v]) / 4)}`;
      const group = found.get(key);
      if (!group) {
        found.set(key, { degree: [degree[v], degree[v]], core: [core[v], core[v]], members: 1, first: [v] });
        continue;
      }
      group.degree = [Math.min(group.degree[0], degree[v]), Math.max(group.degree[1], degree[v])];
      group.core = [Math.min(group.core[0], core[v]), Math.max(group.core[1], core[v])];
      group.members += 1;
      if (group.first.length < 3) group.first.push(v);
    }
    return [...found.values()].sort((a, b) => a.degree[0] - b.degree[0] || a.core[0] - b.core[0]);
  }

  function toldGroup(group) {
    const place = `Degree ${range(...group.degree)}, core number ${range(...group.core)}`;
    return [place, `${vertices(group.members)}: ${who(group.first, group.members)}`];
  }

  // Circles the vertices that are farthest off, and writes the name of each beside it: where no other name and no circle is and the fewest
  // dots are, or not at all.
  function nameFar(svg, x, y, least, greatest, dots) {
    const under = ([left, high, right, low]) => dots.filter(({ cx, cy }) => cx > left && cx < right && cy > high && cy < low).length;
    const meet = (box, other) => other[0] < box[2] && box[0] < other[2] && other[1] < box[3] && box[1] < other[3];
    const boxes = data.far.map((v) => [x(degree[v]) - 7, y(core[v]) - 7, x(degree[v]) + 7, y(core[v]) + 7]);
    for (const v of data.far) {
      const [cx, cy] = [x(degree[v]), y(core[v])];
      svg.append(make("circle", { class: "far", cx, cy, r: 7 }));
      const name = nameOf(v);
      const text = make("text", { class: "name shape" }, name.length > 24 ? `${name.slice(0, 11)}…${name.slice(-12)}` : name);
      svg.append(text);
      const wide = text.getComputedTextLength();
      const over = Math.max(least, Math.min(cx - wide / 2, greatest - wide));
      const boxOf = ([left, base]) => [left, base - 10, left + wide, base + 3];
      const free = [[cx + 10, cy + 4], [over, cy + 20], [over, cy - 11], [cx - 10 - wide, cy + 4]]
        .filter((one) => one[0] >= least && one[0] + wide <= greatest && !boxes.some((other) => meet(boxOf(one), other)))
        .map((one) => ({ place: one, covers: under(boxOf(one)) }))
        .filter(({ covers }) => covers < 4)
        .sort((one, other) => one.covers - other.covers);
      if (!free.length) {
        text.remove();
        continue;
      }
      const [{ place }] = free;
      boxes.push(boxOf(place));
      text.setAttribute("x", place[0]);
      text.setAttribute("y", place[1]);
    }
  }

  function drawDegrees() {
    const place = canvas("degrees", 300, "Core number against degree");
    const { svg, width, height } = place;
    const [left, right, low, high] = [56, 12, height - 40, 24];
    const widest = most(degree, 1);
    const x = logScale(0.8, widest * 1.25, left, width - right);
    const y = logScale(0.8, Math.max(top, 1) * 1.25, low, high);
    countAxis(place, y, top * 1.25, left, right);
    for (const power of ticks(widest * 1.25)) {
      svg.append(make("line", { class: "grid", x1: x(power), x2: x(power), y1: low, y2: high }));
      svg.append(make("text", { x: x(power), y: low + 16, "text-anchor": "middle" }, written(power)));
    }
    svg.append(make("path", { class: "axis", d: `M${left} ${high}V${low}H${width - right}` }));
    const listed = groups(x, y);
    const dots = listed.map((group) => {
      const middle = ([from, to]) => Math.sqrt(from * to);
      const [cx, cy] = [x(middle(group.degree)), y(Math.max(middle(group.core), group.core[0]))];
      const dot = make("circle", { class: `dot f${shade(group.core[1])}`, cx, cy, r: (listed.length < 150 ? 3.5 : 2.2) + 1.5 * Math.log10(group.members) });
      Object.assign(group, { cx, cy, dot });
      active(dot, () => toldGroup(group), () => choose({ core: group.core, degree: group.degree }));
      marks.push({ figure: "degrees", element: dot, ranges: { core: group.core, degree: group.degree } });
      return dot;
    });
    svg.append(...dots);
    nameFar(svg, x, y, left, width, listed);
    title(place, "degree");
    svg.append(make("text", { x: 12, y: (low + high) / 2, "text-anchor": "middle", transform: `rotate(-90 12 ${(low + high) / 2})` }, "core number"));
    roving(dots);
    nearest(svg, listed, toldGroup, (group) => choose({ core: group.core, degree: group.degree }));
  }

  // Small dots answer the pointer from some way off: the nearest one does.
  function nearest(svg, listed, told, act) {
    let at = null;
    const find = (event) => {
      const box = svg.getBoundingClientRect();
      const [x, y] = [event.clientX - box.left, event.clientY - box.top];
      let best = null;
      let least = 14 ** 2;
      for (const one of listed) {
        const far = (one.cx - x) ** 2 + (one.cy - y) ** 2;
        if (far < least) [best, least] = [one, far];
      }
      return best;
    };
    const mark = (one) => {
      if (at) at.dot.classList.remove("at");
      at = one;
      if (at) at.dot.classList.add("at");
    };
    svg.addEventListener("pointermove", (event) => {
      mark(find(event));
      if (at) tell(told(at), event.clientX, event.clientY);
      else if (!event.target.closest(".band")) hush();
    });
    svg.addEventListener("pointerleave", () => { mark(null); hush(); });
    svg.addEventListener("click", (event) => {
      const one = find(event);
      if (one && !event.target.closest(".dot")) {
        event.stopPropagation();
        act(one);
      }
    }, true);
  }

  // ---- shells as rings ----

  const toldVertex = (v) => [nameOf(v), `core number ${written(core[v])}, degree ${written(degree[v])}, layer ${written(layer[v])}`];
  function ringBands({ svg }, middle, half) {
    const shells = data.shells.filter((shell) => shell[1]).map((shell) => shell[0]).reverse();
    const wide = (half - 6) / Math.max(shells.length - 0.4, 0.6);
    const bands = shells.map((k, place) => {
      const from = place === 0 ? 0 : (place - 0.15) * wide;
      const to = Math.min((place + 0.85) * wide, half);
      const band = make("circle", { class: "band", cx: middle, cy: half, r: (from + to) / 2, "stroke-width": to - from, "data-core": k });
      active(band, () => toldShell(k), () => choose({ core: [k, k] }));
      return band;
    });
    svg.append(...bands);
    roving(bands);
  }

  const ringSize = () => Math.min(Math.max(byId("rings").querySelector(".picture").clientWidth, 200), 420);

  function drawRings() {
    const { v: drawn, x, y, edges } = data.rings;
    const size = ringSize();
    const place = canvas("rings", size + 34, "Shells as rings, the main core in the middle");
    const { svg, width } = place;
    const [middle, half] = [width / 2, size / 2];
    const at = (i) => [middle + x[i] * (half - 6), half + y[i] * (half - 6)];
    ringBands(place, middle, half);
    let lines = "";
    for (let i = 0; i < edges.length; i += 2) {
      const [from, to] = [at(edges[i]), at(edges[i + 1])];
      lines += `M${from[0].toFixed(1)} ${from[1].toFixed(1)}L${to[0].toFixed(1)} ${to[1].toFixed(1)}`;
    }
    svg.append(make("path", { class: "edges", d: lines, opacity: Math.min(Math.max(200 / (edges.length + 1), 0.06), 0.5) }));
    const [least, grow] = drawn.length > 600 ? [1.4, 0.6] : drawn.length > 100 ? [1.4, 2] : [2.5, 3];
    const listed = drawn.map((vertex, i) => {
      const [cx, cy] = at(i);
      const dot = make("circle", { class: `dot f${shade(core[vertex])}`, cx, cy, r: least + grow * Math.log10(1 + degree[vertex]) });
      const own = (list) => [list[vertex], list[vertex]];
      marks.push({ figure: "rings", element: dot, ranges: { core: own(core), degree: own(degree), layer: own(layer) } });
      return { cx, cy, dot, vertex };
    });
    svg.append(...listed.map((one) => one.dot));
    nearest(svg, listed, (one) => toldVertex(one.vertex), (one) => choose({ core: [core[one.vertex], core[one.vertex]] }));
    for (const one of listed) one.dot.addEventListener("click", () => choose({ core: [core[one.vertex], core[one.vertex]] }));
    legend(place, size + 12);
    const share = drawn.length < count ? ` Drawn are ${written(drawn.length)} of ${vertices(count)}, evenly taken from each shell.` : "";
    byId("rings").querySelector("figcaption").textContent =
      `The main core lies in the middle, a vertex the farther out the lesser its core number (Alvarez-Hamelin and others 2005).${share}`;
  }

  function legend({ svg, width }, y) {
    const [wide, left] = [16, width / 2 - 72];
    for (let i = 0; i < 9; i += 1) svg.append(make("rect", { class: `shape f${i}`, x: left + i * wide, y, width: wide, height: 10 }));
    svg.append(make("text", { x: left - 6, y: y + 9, "text-anchor": "end" }, "core number 0"));
    svg.append(make("text", { x: left + 9 * wide + 6, y: y + 9 }, written(Math.max(top, 0))));
  }

  // ---- onion spectrum ----

  function layerBins(room) {
    const layers = most(layer, 0);
    const each = Math.max(1, Math.ceil(layers / room));
    const bins = Array.from({ length: Math.ceil(layers / each) }, (_, place) => (
      { layer: [place * each + 1, Math.min((place + 1) * each, layers)], members: 0, core: null, first: [] }));
    for (let v = 0; v < count; v += 1) {
      const bin = bins[Math.floor((layer[v] - 1) / each)];
      bin.members += 1;
      if (bin.first.length < 3) bin.first.push(v);
      bin.core = bin.core ? [Math.min(bin.core[0], core[v]), Math.max(bin.core[1], core[v])] : [core[v], core[v]];
    }
    return bins.filter((bin) => bin.members);
  }

  function drawSpectrum() {
    const place = canvas("spectrum", Math.max(ringSize() + 34, 280), "Vertices per layer");
    const { svg, width, height } = place;
    const [left, right, low, high] = [56, 8, height - 40, 10];
    const bins = layerBins((width - left - right) / 2);
    const each = bins.length ? bins[0].layer[1] - bins[0].layer[0] + 1 : 1;
    const greatest = bins.reduce((a, bin) => Math.max(a, bin.members / each), 1);
    const band = (width - left - right) / Math.max(bins.length, 1);
    const y = logScale(0.7 / each, greatest * 1.3, low, high);
    countAxis(place, y, greatest * 1.3, left, right);
    const hits = bins.map((bin, i) => {
      const x = left + i * band;
      const tall = bin.members / (bin.layer[1] - bin.layer[0] + 1);
      const wide = Math.max(band * (band > 4 ? 0.86 : 1), 0.8);
      const bar = make("rect", { class: `shape f${shade(bin.core[1])}`, x, width: wide, y: y(tall), height: low - y(tall) });
      marks.push({ figure: "spectrum", element: bar, ranges: { layer: bin.layer, core: bin.core } });
      svg.append(bar);
      const hit = make("rect", { class: "hit", x, width: band, y: high, height: low - high });
      const place = `Layer ${range(...bin.layer)}, core number ${range(...bin.core)}`;
      active(hit, () => [place, `${vertices(bin.members)}: ${who(bin.first, bin.members)}`], () => choose({ layer: bin.layer }));
      return hit;
    });
    svg.append(make("path", { class: "axis", d: `M${left} ${low}H${width - right}` }), ...hits);
    const layers = bins.length ? bins[bins.length - 1].layer[1] : 0;
    const every = wholeStep(layers, (width - left - right) / 44);
    for (let number = every === 1 ? 1 : every; number <= layers; number += every) {
      svg.append(make("text", { x: left + ((number - 0.5) / each) * band, y: low + 16, "text-anchor": "middle" }, written(number)));
    }
    title(place, each > 1 ? `layer; a bar is the mean of ${written(each)} layers` : "layer");
    roving(hits);
  }

  // ---- the table of vertices ----

  const ROW = 28;
  const TALLEST = 12_000_000;
  const scroller = byId("scroller");
  const body = byId("table").tBodies[0];
  const keys = { core, degree, layer };
  let sorted = { key: "core", down: true };
  let shown = new Uint32Array(0);
  let folded = null;
  let ranks = null;

  function nameRanks() {
    if (ranks) return ranks;
    ranks = new Uint32Array(count);
    const order = Uint32Array.from(core, (_, v) => v);
    if (data.names) {
      const numbers = data.names.every((name) => /^\d{1,15}$/.test(name)) ? data.names.map(Number) : null;
      const collator = new Intl.Collator("en", { numeric: true });
      order.sort(numbers ? (a, b) => numbers[a] - numbers[b] : (a, b) => collator.compare(data.names[a], data.names[b]));
    }
    order.forEach((v, place) => { ranks[v] = place; });
    return ranks;
  }

  function found() {
    const wanted = byId("search").value.trim().toLowerCase();
    if (!wanted) return () => true;
    if (!folded) folded = Array.from({ length: count }, (_, v) => nameOf(v).toLowerCase());
    return (v) => folded[v].includes(wanted);
  }

  function list() {
    const fits = found();
    const ranges = Object.entries(chosen || {}).map(([key, [from, to]]) => [keys[key], from, to]);
    const every = Uint32Array.from(core, (_, v) => v);
    shown = every.filter((v) => fits(v) && ranges.every(([values, from, to]) => values[v] >= from && values[v] <= to));
    const values = sorted.key === "name" ? nameRanks() : keys[sorted.key];
    const sign = sorted.down ? -1 : 1;
    // Equal ones stand by name, or as they came where sorting many names would take long.
    const ties = data.names && count > 20_000 ? null : nameRanks();
    shown.sort((a, b) => sign * (values[a] - values[b]) || (ties ? ties[a] - ties[b] : a - b));
    for (const head of byId("table").tHead.querySelectorAll("th")) {
      if (head.dataset.key === sorted.key) head.setAttribute("aria-sort", sorted.down ? "descending" : "ascending");
      else head.removeAttribute("aria-sort");
    }
    byId("table").setAttribute("aria-rowcount", shown.length + 1);
    byId("count").textContent = shown.length === count ? vertices(count) : `${written(shown.length)} of ${vertices(count)}`;
    scroller.scrollTop = 0;
    rows();
  }

  function gap(height) {
    const row = document.createElement("tr");
    row.className = "gap";
    row.setAttribute("aria-hidden", "true");
    const cell = document.createElement("td");
    cell.colSpan = 4;
    cell.style.height = `${height}px`;
    row.append(cell);
    return row;
  }

  function rowOf(place) {
    const v = shown[place];
    const row = document.createElement("tr");
    row.className = "row";
    row.setAttribute("aria-rowindex", place + 2);
    for (const text of [nameOf(v), written(core[v]), written(degree[v]), written(layer[v])]) {
      row.append(Object.assign(document.createElement("td"), { textContent: text }));
    }
    row.firstChild.title = nameOf(v);
    return row;
  }

  // Only the rows that can be seen, and some more, are there. Browsers have no elements of any height, so a long table is scrolled faster.
  function rows() {
    const seen = Math.ceil(scroller.clientHeight / ROW) + 1;
    const tall = Math.min(shown.length * ROW, TALLEST);
    const exact = tall === shown.length * ROW;
    const share = Math.min(scroller.scrollTop / Math.max(tall - seen * ROW, 1), 1);
    const first = exact ? Math.floor(scroller.scrollTop / ROW) : Math.floor(share * (shown.length - seen + 1));
    const from = Math.max(0, Math.min(first, shown.length - seen) - 6);
    const to = Math.min(shown.length, first + seen + 6);
    const height = (to - from) * ROW;
    const above = exact ? from * ROW : Math.max(0, Math.min(scroller.scrollTop - (first - from) * ROW, tall - height));
    const listed = [];
    for (let place = from; place < to; place += 1) listed.push(rowOf(place));
    body.replaceChildren(gap(above), ...listed, gap(Math.max(0, tall - above - height)));
  }

  function openTable() {
    let waiting = false;
    scroller.addEventListener("scroll", () => {
      if (waiting) return;
      waiting = true;
      requestAnimationFrame(() => { waiting = false; rows(); });
    });
    for (const head of byId("table").tHead.querySelectorAll("th")) {
      head.firstChild.addEventListener("click", () => {
        const { key } = head.dataset;
        sorted = { key, down: sorted.key === key ? !sorted.down : key !== "name" };
        list();
      });
    }
    byId("search").addEventListener("input", list);
    byId("clear").addEventListener("click", () => choose(null));
  }

  // ---- over time ----

  const time = data.time;
  let batch = 0;

  function levels() {
    const greatest = most(time.sizes.map((sizes) => sizes.length - 1), 0);
    if (greatest <= 8) return Array.from({ length: greatest }, (_, place) => place + 1);
    const listed = [];
    for (let k = 1; k < greatest; k *= 2) listed.push(k);
    if (greatest / listed[listed.length - 1] < 1.25) listed.pop();
    return [...listed, greatest];
  }

  const sizeAt = (place, k) => (k < time.sizes[place].length ? time.sizes[place][k] : 0);
  const interval = (place) => `${time.begin[place]} to ${time.end[place]}`;

  // A line with a step for each batch, and none where no vertex is in the k-core.
  function stepsOf(k, x, y) {
    let path = "";
    for (let i = 0; i < time.sizes.length; i += 1) {
      const size = sizeAt(i, k);
      const joins = i > 0 && sizeAt(i - 1, k) > 0;
      if (size) path += `${joins ? "L" : "M"}${x(i).toFixed(1)} ${y(size).toFixed(1)}H${x(i + 1).toFixed(1)}`;
    }
    return path;
  }

  function apart(labels, least, greatest) {
    labels.sort((a, b) => a.y - b.y);
    labels.forEach((label, place) => { if (place) label.y = Math.max(label.y, labels[place - 1].y + 13); });
    let most = greatest;
    for (const label of [...labels].reverse()) {
      label.y = Math.max(Math.min(label.y, most), least);
      most = label.y - 13;
    }
  }

  function drawTimeline() {
    const place = canvas("timeline", 260, "Sizes of the k-cores over time");
    const { svg, width, height } = place;
    const [left, right, low, high] = [56, 62, height - 40, 10];
    const listed = levels();
    const batches = time.sizes.length;
    const band = (width - left - right) / batches;
    const greatest = most(time.sizes.map((sizes) => sizes[Math.min(1, sizes.length - 1)] || 0), 1);
    const y = logScale(0.7, greatest * 1.3, low, high);
    countAxis(place, y, greatest * 1.3, left, right);
    const labels = listed.map((k) => {
      svg.append(make("path", { class: `curve s${shadeOver(k, listed)}`, d: stepsOf(k, (i) => left + i * band, y) }));
      let last = batches - 1;
      while (last > 0 && !sizeAt(last, k)) last -= 1;
      return { k, y: y(sizeAt(last, k)) + 4, gone: last < batches - 1 };
    });
    apart(labels, high + 4, low + 2);
    for (const label of labels) svg.append(make("text", { x: width - right + 6, y: label.y, class: label.gone ? "gone" : "" }, `${written(label.k)}-core`));
    svg.append(make("path", { class: "axis", d: `M${left} ${low}H${width - right}` }));
    const hits = time.sizes.map((_, i) => {
      const hit = make("rect", { class: "hit", x: left + i * band, width: band, y: high, height: low - high });
      active(hit, () => [`Batch ${written(i + 1)}: ${interval(i)}`, ...listed.map((k) => `${written(k)}-core: ${vertices(sizeAt(i, k))}`)], () => go(i));
      return hit;
    });
    svg.append(...hits);
    hits[batch].classList.add("at");
    svg.append(make("text", { x: left, y: low + 16 }, time.begin[0]));
    svg.append(make("text", { x: width - right, y: low + 16, "text-anchor": "end" }, time.end[batches - 1]));
    title(place, "time");
    roving(hits);
  }

  const shadeOver = (k, listed) => Math.round((8 * (listed.indexOf(k) + 1)) / listed.length);

  function changeList(id, changes, all, none) {
    const items = changes.map(([v, before, after]) => {
      const item = document.createElement("li");
      const name = Object.assign(document.createElement("button"), { type: "button", textContent: nameOf(v) });
      name.addEventListener("click", () => {
        byId("search").value = nameOf(v);
        chosen = null;
        paint();
        list();
        byId("vertices-title").scrollIntoView();
      });
      item.append(name, Object.assign(document.createElement("span"), { textContent: `${before < 0 ? "new" : written(before)} → ${written(after)}` }));
      return item;
    });
    const last = all > changes.length ? `and ${written(all - changes.length)} more` : all ? "" : none;
    if (last) items.push(Object.assign(document.createElement("li"), { textContent: last, className: "none" }));
    byId(id).replaceChildren(...items);
    byId(id).scrollTop = 0;
  }

  function toldBatch() {
    const sizes = time.sizes[batch];
    const inside = sizes[sizes.length - 1] || 0;
    return `${interval(batch)}: ${some(time.inserted[batch], "edge", "edges")} came and ${written(time.removed[batch])} went, `
      + `which leaves ${written(time.edges[batch])} among ${vertices(sizes[0] || 0)}. `
      + `The greatest core number is ${written(Math.max(sizes.length - 1, 0))}; ${vertices(inside)} ${inside === 1 ? "has" : "have"} it. `
      + `${written(time.rose[batch])} rose and ${written(time.fell[batch])} fell.`;
  }

  function go(place) {
    const hits = byId("timeline").querySelectorAll(".hit");
    hits[batch].classList.remove("at");
    batch = place;
    hits[batch].classList.add("at");
    byId("batch").value = batch + 1;
    byId("batch").setAttribute("aria-valuetext", `batch ${batch + 1}, ${interval(batch)}`);
    byId("batch-place").textContent = `${written(batch + 1)} of ${written(time.sizes.length)}`;
    byId("batch-told").textContent = toldBatch();
    changeList("rose", time.up[batch], time.rose[batch], "No vertex rose.");
    changeList("fell", time.down[batch], time.fell[batch], "No vertex fell.");
  }

  function openTimeline() {
    if (!time || !time.sizes.length) return;
    byId("over-time").hidden = false;
    byId("batch").max = time.sizes.length;
    batch = time.sizes.length - 1;
    drawTimeline();
    byId("batch").addEventListener("input", () => go(Number(byId("batch").value) - 1));
    go(batch);
  }

  // ---- all of it ----

  function draw() {
    if (!byId("over-time").hidden) drawTimeline();
    drawSizes();
    drawDegrees();
    drawRings();
    drawSpectrum();
    paint();
  }

  openTimeline();
  openTable();
  draw();
  list();
  let width = innerWidth;
  addEventListener("resize", () => {
    if (innerWidth === width) return;
    width = innerWidth;
    requestAnimationFrame(draw);
  });
  document.addEventListener("keydown", (event) => { if (event.key === "Escape") hush(); });
})();
