// The page at the bench. It keeps no case: each answer of the server is the whole state, and all of it is drawn.
// Names of wires and parts come from a file, so they are put in as text alone, and kept in Maps, never as properties.
"use strict";

const byId = (id) => document.getElementById(id);
const RADIUS = 11;
// A finger needs marks of 24 pixels, and those that are nearest to each other are 28 apart.
const FINGER = 12.5, MOST_FINGER = 14;
// A drawing that would have to be smaller than OVERVIEW to be seen whole is first shown in part, at the scale READABLE.
const LEAST_SCALE = 0.02, MOST_SCALE = 4, OVERVIEW = 0.25, READABLE = 0.6;

let drawing = null;
let state = null;
let time = 1;
let openBlocks = null;
let coneOf = "";
const view = { x: 0, y: 0, scale: 1 };
const wires = new Map();   // wire: its group of lines
const marks = new Map();   // wire: { group, x, y }
const boxes = new Map();   // box name: { group, box }
const boxOf = new Map();   // part: the name of the box that shows it

// Elements.

function make(tag, fields = {}, ...children) {
  const element = document.createElement(tag);
  Object.assign(element, fields);
  element.append(...children);
  return element;
}

function draw(tag, fields = {}, ...children) {
  const element = document.createElementNS("http://www.w3.org/2000/svg", tag);
  for (const [name, value] of Object.entries(fields)) element.setAttribute(name, value);
  element.append(...children);
  return element;
}

function short(name, most) {
  return name.length <= most ? name : name.slice(0, most - 4) + "…" + name.slice(-3);
}

// A block's own name, without those of the blocks around it.
const last = (path) => (drawing.is_design ? path.slice(path.lastIndexOf(".") + 1) : path);

function titled(text) {
  const title = draw("title");
  title.textContent = text;
  return title;
}

function written(text, fields) {
  const element = draw("text", fields);
  element.textContent = text;
  return element;
}

function say(text, isGood = false) {
  byId("message-text").textContent = text;
  byId("message").className = isGood ? "good" : "";
  byId("message").hidden = !text;
}

// Questions to the server, one after the other.

let queue = Promise.resolve();
let adviceTimer = 0;

async function post(where, act, isQuiet = false) {
  let answer;
  try {
    answer = await fetch(where, { method: "POST", headers: { "Content-Type": "application/json" }, body: JSON.stringify(act), keepalive: act.act === "replaced" });
  } catch {
    say("The program does not answer. Is it still running? Save keeps what was entered so far.");
    return null;
  }
  const got = await answer.json();
  if (!isQuiet || got.error) say(got.error || got.said || "", !got.error);
  return got;
}

// A click goes by what was shown when it was pressed: one that another tab has overtaken is refused. All else goes by what is shown now:
// a press is over after its click, and counts for no key and no paste.
const tab = String(Math.random());
let pressed = null;
addEventListener("pointerdown", () => { pressed = state && state.version; }, true);
addEventListener("click", () => { pressed = null; });
for (const other of ["keydown", "paste"]) addEventListener(other, () => { pressed = null; }, true);

function ask(act) {
  const seen = { tab, version: pressed ?? state?.version };
  queue = queue.then(async () => {
    const got = await post("do", { ...seen, ...act }, act.act === "state");
    if (got && got.version !== undefined) await show(got);
    return got;
  });
  return queue;
}

// No click waits for the next measurement: it is asked apart, and comes without an answer if a click came first.
async function advise() {
  const got = await post("do", { act: "advise" }, true);
  if (got && got.version !== undefined) await show(got);
}

async function load(options = {}) {
  const wrong = byId("cone").checked;
  const got = await post("drawing", { open: openBlocks, wrong }, true);
  if (!got || !got.lines) return;
  drawing = got;
  openBlocks = got.open;
  build();
  if (options.fit) fit(true);
  if (state) paint();
}

const nameOf = (wire, at = time) => (drawing.frames === null ? wire : `${wire}@${String(at).padStart(4, "0")}`);
const wireOf = (name) => (drawing.frames === null ? name : name.slice(0, name.lastIndexOf("@")));
const timeOf = (name) => (drawing.frames === null ? 1 : Number(name.slice(name.lastIndexOf("@") + 1)));
const spoken = (name) => (drawing.frames === null ? name : `${wireOf(name)} at time ${timeOf(name)}`);
const pattern = () => state.patterns[state.now];
const canEdit = () => !state.read_only;

// The drawing, once for each layout.

function build() {
  const world = byId("world");
  world.replaceChildren();
  for (const map of [wires, marks, boxes, boxOf]) map.clear();
  for (const frame of drawing.blocks) world.append(frameOf(frame));
  for (const line of drawing.lines) world.append(lineOf(line));
  for (const box of drawing.boxes) world.append(boxOfPart(box));
  for (const pin of drawing.pins) pinOf(pin, world);
  for (const end of drawing.apart) world.append(apartOf(end));
  for (const line of drawing.lines) if (line.mark) addMark(world, line.wire, line.mark[0] + 22, line.mark[1]);
  buildChips();
  document.title = `${drawing.title} – bench`;
  byId("title").textContent = drawing.title;
  byId("times").hidden = drawing.frames === null;
  byId("time").max = drawing.frames ?? 1;
  byId("levels-row").hidden = !drawing.has_levels;
  const names = [...new Set([...marks.keys(), ...boxes.keys(), ...Object.keys(drawing.others)])].slice(0, 3000);
  byId("names").replaceChildren(...names.map((name) => make("option", { value: name })));
}

// Where a wire would run backwards its name says where it goes on.
function apartOf(end) {
  const text = end.drives ? `→ ${short(end.wire, 14)}` : `${short(end.wire, 14)} →`;
  return written(text, { x: end.x + (end.drives ? 5 : -5), y: end.y + 4, class: "port", "text-anchor": end.drives ? "start" : "end" });
}

function frameOf(frame) {
  const group = draw("g", { class: "frame", tabindex: 0, role: "button", "aria-label": `close block ${frame.path}` });
  const bar = draw("rect", { class: "bar", x: frame.x, y: frame.y, width: frame.w, height: 20 });
  const text = `− ${last(frame.path)} (${frame.kind})`;
  group.append(bar, draw("rect", { x: frame.x, y: frame.y, width: frame.w, height: frame.h, "pointer-events": "none" }),
    written(short(text, Math.max(6, Math.floor(frame.w / 7))), { x: frame.x + 6, y: frame.y + 14 }), titled(`Close ${frame.path}`));
  const close = () => { openBlocks = openBlocks.filter((path) => path !== frame.path); load(); };
  bar.addEventListener("click", close);
  group.addEventListener("keydown", (event) => { if (event.key === "Enter" || event.key === " ") { event.preventDefault(); close(); } });
  return group;
}

function lineOf(line) {
  const group = draw("g", { class: "wire" }, draw("path", { class: "line", d: line.path }));
  for (const [x, y] of line.dots) group.append(draw("circle", { class: "dot", cx: x, cy: y, r: 3 }));
  const hit = draw("path", { class: "hit", d: line.path });
  hit.append(titled(line.wire));
  hit.addEventListener("click", () => turn(line.wire));
  group.append(hit);
  wires.set(line.wire, group);
  return group;
}

function boxOfPart(box) {
  const group = draw("g", { class: box.is_block ? "part block" : "part", tabindex: 0, role: "button" });
  const middle = box.x + box.w / 2, centre = box.y + box.h / 2, most = Math.floor((box.w > 100 ? box.w - 76 : box.w) / 8);
  group.append(draw("rect", { x: box.x, y: box.y, width: box.w, height: box.h, rx: 4 }));
  group.append(written(short(last(box.name), most), { x: middle, y: centre - 2, class: "name", "text-anchor": "middle" }));
  group.append(written(short(box.kind, most + 2), { x: middle, y: centre + 13, class: "kind", "text-anchor": "middle" }));
  const portOf = (port, x, anchor) => written(short(port.port, 5), { x, y: box.y + port.y + 4, class: "port", "text-anchor": anchor });
  for (const port of box.ins) group.append(portOf(port, box.x + 4, "start"));
  for (const port of box.outs) group.append(portOf(port, box.x + box.w - 4, "end"));
  group.append(written("", { x: box.x + box.w - 4, y: box.y + 14, class: "badge" }), titled(box.name));
  group.addEventListener("click", (event) => openMenu(box, event.clientX, event.clientY));
  group.addEventListener("contextmenu", (event) => { event.preventDefault(); openMenu(box, event.clientX, event.clientY); });
  group.addEventListener("keydown", (event) => keyAtPart(event, box, group));
  boxes.set(box.name, { group, box });
  for (const part of box.parts) boxOf.set(part, box.name);
  return group;
}

function pinOf(pin, world) {
  const isRight = pin.side === "right";
  const text = pin.side === "state" ? `${short(pin.wire, 18)} (flip-flop)` : short(pin.wire, 22);
  const label = written(text, { x: pin.x + (isRight ? 6 : -6), y: pin.y + 4, "text-anchor": isRight ? "start" : "end" });
  world.append(draw("g", { class: "pin" }, label));
  if (!isRight && !drawing.lines.some((line) => line.wire === pin.wire)) addMark(world, pin.wire, pin.x + 12, pin.y);
}

function addMark(world, wire, x, y) {
  const group = draw("g", { class: "mark", tabindex: 0, role: "button", transform: `translate(${x} ${y})` });
  group.addEventListener("click", () => turn(wire));
  group.addEventListener("keydown", (event) => keyAtMark(event, wire));
  marks.set(wire, { group, x, y });
  world.append(group);
}

// What changes with the case.

async function show(got) {
  if (state && got.version < state.version) return;
  state = got;
  document.body.classList.toggle("read-only", state.read_only);
  const cone = JSON.stringify([state.patterns.map((row) => row.against), state.blame.map(([part]) => part)]);
  if (byId("cone").checked && cone !== coneOf) {
    coneOf = cone;
    await load();
  }
  coneOf = cone;
  if (drawing) paint();
  if (isFollowing && state.advice !== null) {
    isFollowing = false;
    if (state.advice.length) visit(state.advice[0]);
  }
  clearTimeout(adviceTimer);
  if (state.advice === null && canEdit()) adviceTimer = setTimeout(advise, 200);
}

function paint() {
  const seen = new Map(pattern().seen), expected = new Map(pattern().expected), against = new Set(pattern().against);
  const ranks = new Map((state.advice ?? []).filter((row) => row.pattern === pattern().name).map((row, rank) => [row.wire, rank + 1]));
  for (const [wire, mark] of marks) paintMark(wire, mark, seen, expected, against, ranks);
  for (const [wire, group] of wires) {
    const name = nameOf(wire);
    group.setAttribute("class", `wire ${bitClass(seen.get(name))} ${against.has(name) ? "against" : ""}`);
  }
  const blame = new Map(state.blame), held = new Map(state.held);
  for (const { group, box } of boxes.values()) paintBox(group, box, blame, held);
  paintChips(seen, expected, against, ranks, blame);
  paintPatterns();
  paintInputs(seen);
  paintStatus();
  paintAdvice();
  paintProbe();
  paintCandidates();
  paintRest(held);
}

const bitClass = (bit) => (bit === undefined ? "" : bit === 0 ? "zero" : "one");

function paintMark(wire, mark, seen, expected, against, ranks) {
  const name = nameOf(wire), bit = seen.get(name), should = expected.get(name), rank = ranks.get(name);
  const { group } = mark;
  group.setAttribute("class", `mark ${bitClass(bit)} ${against.has(name) ? "against" : ""}`);
  const parts = [draw("circle", { r: RADIUS }), draw("circle", { class: "touch" }), written(bit ?? should ?? "–", { y: 4, class: bit === undefined ? "should" : "" })];
  if (against.has(name)) parts.push(written("≠", { x: 0, y: -RADIUS - 4, class: "sign" }));
  if (rank !== undefined) {
    parts.push(draw("circle", { r: RADIUS + 5, class: "ring" }), written(`${rank}.`, { y: -RADIUS - 9, class: "rank" }));
  }
  const read = bit === undefined ? "not measured" : `read as ${bit}`;
  const wanted = should === undefined ? "" : against.has(name) ? `, should be ${should}: wrong` : `, should be ${should}`;
  const text = `wire ${spoken(name)}, ${read}${wanted}${rank === undefined ? "" : `, measure next, number ${rank}`}`;
  group.setAttribute("aria-label", text);
  group.replaceChildren(...parts, titled(text));
}

// What is said of a box: of a block whatever is so of the worst of its parts.
function verdictOf(box, blame) {
  const verdicts = box.parts.map((part) => blame.get(part));
  return verdicts.includes("always") ? "always" : verdicts.includes("sometimes") ? "sometimes" : "";
}

function paintBox(group, box, blame, held) {
  const verdict = verdictOf(box, blame);
  const tested = box.is_block ? undefined : held.get(box.name);
  group.setAttribute("class", `part ${box.is_block ? "block" : ""} ${verdict} ${tested ? `tested-${tested}` : ""}`);
  const sign = { always: "!", sometimes: "?", "": "" }[verdict] + ({ ok: " ✓", bad: " ✗" }[tested] ?? "");
  group.querySelector(".badge").textContent = sign;
  group.setAttribute("aria-label", `${box.is_block ? "block" : "part"} ${box.name}, ${box.kind}${sentence(box, verdict, tested)}`);
}

function sentence(box, verdict, tested) {
  const share = new Map(state.shares).get(box.name);
  const count = state.candidates.filter((row) => row.cost === state.cost).length;
  const some = share && state.complete ? `, faulty in ${share} of ${count} explanations` : ", faulty in some explanations";
  const said = { always: ", faulty in every explanation", sometimes: some, "": "" }[verdict];
  return said + (tested ? `, tested ${tested}` : "");
}

function paintPatterns() {
  byId("patterns").replaceChildren(...state.patterns.map((row, index) => {
    const wrong = row.against.length ? " ≠" : "";
    const title = `${row.seen.length} readings, ${row.against.length} not as they should be`;
    const button = make("button", { textContent: row.name + wrong, title });
    button.setAttribute("aria-pressed", String(index === state.now));
    button.addEventListener("click", () => ask({ act: "pattern", how: "choose", name: row.name }));
    return button;
  }));
  if (state.patterns.length > 1 && canEdit()) {
    const remove = make("button", { textContent: "×", title: `Remove pattern ${pattern().name}` });
    remove.setAttribute("aria-label", `remove pattern ${pattern().name}`);
    remove.addEventListener("click", () => ask({ act: "pattern", how: "remove", name: pattern().name }));
    byId("patterns").append(remove);
  }
}

function paintInputs(seen) {
  const focused = document.activeElement?.dataset?.wire;
  byId("inputs").replaceChildren(...drawing.inputs.map((wire) => {
    const bit = seen.get(nameOf(wire));
    const shown = make("span", { className: `bit ${bitClass(bit)}`, textContent: bit ?? "–" });
    const button = make("button", { title: wire, disabled: !canEdit() }, short(wire, 16), shown);
    button.dataset.wire = wire;
    button.setAttribute("aria-label", `input ${wire}, ${bit ?? "no reading"}`);
    button.addEventListener("click", () => turn(wire));
    button.addEventListener("keydown", (event) => keyAtMark(event, wire));
    return button;
  }));
  if (focused !== undefined) [...byId("inputs").children].find((button) => button.dataset.wire === focused)?.focus();
}

function paintStatus() {
  const best = state.candidates.filter((row) => row.cost === state.cost);
  const count = state.complete || best.length < state.candidates.length ? String(best.length) : `more than ${state.candidates.length}`;
  const isCount = best.every((row) => row.parts.length === state.cost);
  const need = isCount ? `${state.cost} faulty ${state.cost === 1 ? "part" : "parts"}` : `faulty parts of cost ${state.cost}`;
  const readings = state.patterns.reduce((sum, row) => sum + row.seen.length, 0);
  let text = `${count} explanations, each with ${need}.`;
  if (state.late) text = "It takes too long to explain all patterns together. Take a pattern away, or say which parts were tested.";
  else if (state.cost === null) text = "Nothing explains this. Check the readings, and the parts that were tested" + (state.clash.length ? ": these clash." : ".");
  else if (!readings) text = "Enter the inputs and what you read: click the wires.";
  else if (state.cost === 0) text = "Nothing is wrong, as far as was read.";
  else if (count === "1") text = `1 explanation: ${best[0].parts.map(partName).join(", ")} ${best[0].parts.length === 1 ? "is" : "are"} faulty.`;
  byId("status").textContent = text;
  // Each may be taken back where it is named.
  byId("clash").replaceChildren(...state.clash.flatMap(([name, seen, held]) => [
    ...seen.map(([wire, bit]) => chip(`${state.patterns.length > 1 ? `${name}: ` : ""}${spoken(wire)}=${bit}`, `${spoken(wire)} was not read`, async () => {
      await ask({ act: "pattern", how: "choose", name });
      ask({ act: "see", wire, bit: null });
    })),
    ...held.map(([part, mode]) => chip(`${part} tested ${mode}`, `${part} was not tested`, () => ask({ act: "hold", part, mode: null }))),
  ]));
}

function paintAdvice() {
  const rows = state.advice ?? [];
  byId("advice").replaceChildren(...rows.map((row, rank) => {
    const go = make("button", { className: "go", title: "Show it in the drawing" }, make("b", { textContent: `${rank + 1}. ${placeOfProbe(row)}` }),
      make("br"), make("small", { textContent: leftAfter(row) }));
    go.addEventListener("click", () => visit(row));
    const cannot = make("button", { className: "edit", textContent: "Cannot reach", title: `Leave ${wireOf(row.wire)} out` });
    cannot.addEventListener("click", () => ask({ act: "reach", wire: row.wire, can: false }));
    return make("li", {}, go, cannot);
  }));
  let text = "";
  if (state.advice === null) text = canEdit() ? "…" : "";
  else if (!rows.length) text = state.cost ? "No further measurement splits the explanations." : "";
  byId("no-advice").textContent = text;
  byId("advice-section").hidden = !rows.length && !text && !state.unreachable.length;
  const reach = (wire) => ask({ act: "reach", wire, can: true });
  byId("unreachable").replaceChildren(...state.unreachable.map((wire) => chip(`cannot reach ${wire}`, `can reach ${wire}`, () => reach(wire))));
}

// The first measurement stands below the drawing, with a large button for each answer; or else how things are.
function paintProbe() {
  const [row] = state.advice ?? [];
  byId("probe-go").replaceChildren(...(row ? [make("b", { textContent: `Measure ${placeOfProbe(row)}` }), ` ${leftAfter(row)}`] : [byId("status").textContent]));
  byId("probe-go").disabled = !row;
  byId("probe-answers").hidden = !row;
}

const placeOfProbe = (row) => probePlace(row.wire) + (state.patterns.length > 1 ? ` in ${row.pattern}` : "");
const leftAfter = (row) => `if 0: ${row.zero} left, if 1: ${row.one} left${row.complete ? "" : ` of the first ${row.of}`}`;

// Enters what was read at the first measurement, and goes to the next.
let isFollowing = false;

async function answer(bit) {
  const [row] = state.advice ?? [];
  if (!row) { say(state.advice === null ? "The next measurement is not known yet." : "There is no measurement to answer: click the wire."); return; }
  if (row.pattern !== pattern().name) await ask({ act: "pattern", how: "choose", name: row.pattern });
  isFollowing = true;
  ask({ act: "see", wire: row.wire, bit });
}

function nextWrong() {
  const count = state.patterns.length;
  const order = state.patterns.map((_, index) => (state.now + 1 + index) % count);
  const found = order.find((index) => state.patterns[index].against.length);
  if (found === undefined) say("No reading is wrong.");
  else if (found !== state.now) ask({ act: "pattern", how: "choose", name: state.patterns[found].name });
  else goTo(wireOf(pattern().against[0]));
}

async function visit(row) {
  if (row.pattern !== pattern().name) await ask({ act: "pattern", how: "choose", name: row.pattern });
  if (drawing.frames !== null) setTime(timeOf(row.wire));
  showPin(wireOf(row.wire));
  if (!goTo(wireOf(row.wire))) say(`${wireOf(row.wire)} is not in this part of the drawing: open its block, or show the whole device.`);
}

function chip(text, label, forget) {
  const element = make("span", { className: "chip" }, text);
  if (canEdit()) {
    const button = make("button", { textContent: "×", title: label });
    button.setAttribute("aria-label", label);
    button.addEventListener("click", forget);
    element.append(button);
  }
  return element;
}

function paintCandidates() {
  const areMany = state.patterns.filter((row) => row.seen.length).length > 1;
  byId("candidates").replaceChildren(...state.candidates.map((row) => {
    const names = row.parts.map(partName).join(", ") || "nothing is faulty";
    const button = make("button", { textContent: state.levels && !areMany ? `${names} (cost ${row.cost})` : names });
    for (const [name, on] of [["mouseenter", true], ["focus", true], ["mouseleave", false], ["blur", false]])
      button.addEventListener(name, () => light(row.parts, on));
    button.addEventListener("click", () => row.parts.length && goTo(boxOf.get(row.parts[0])));
    return make("li", {}, button);
  }));
  byId("more").hidden = state.complete || !canEdit();
  byId("levels").checked = state.levels;
  byId("levels").disabled = areMany || !canEdit();
  byId("levels-text").textContent = `also those that cost more${areMany ? " (if one pattern has readings, not with several)" : ""}`;
}

function light(parts, on) {
  for (const part of parts) boxes.get(boxOf.get(part))?.group.classList.toggle("lit", on);
}

function paintRest(held) {
  const forget = (part) => ask({ act: "hold", part, mode: null });
  byId("tested").replaceChildren(...[...held].map(([part, mode]) => chip(`${part}: ${mode}`, `${part} was not tested`, () => forget(part))));
  byId("tested-section").hidden = !held.size;
  if (document.activeElement !== byId("replaced") && !noteTimer) byId("replaced").value = state.replaced;
  byId("saved").textContent = state.unsaved || (state.undo ? `Saved in ${state.saved}` : "");
  byId("earlier-section").hidden = !state.earlier?.length;
  byId("earlier").replaceChildren(...(state.earlier ?? []).map(([at, board, count]) =>
    make("li", {}, make("a", { href: `../${board}/`, textContent: `${new Date(at * 1000).toLocaleString()}: ${count} readings` }))));
  byId("log").textContent = state.log.join("\n");
  byId("undo").disabled = !state.undo;
  byId("redo").disabled = !state.redo;
  byId("watch").hidden = !state.watch;
  if (state.watch) byId("watch-link").href = state.watch;
  byId("time-shown").textContent = drawing.frames === null ? "" : `${time} of ${drawing.frames}`;
}

// What people do.

function turn(wire, isApart = false) {
  if ((isApart || !wasDragged) && canEdit()) ask({ act: "turn", wire: nameOf(wire) });
}

function keyAtMark(event, wire) {
  const bits = new Map([["0", 0], ["1", 1], ["x", null], ["-", null], ["Delete", null], ["Backspace", null]]);
  if (event.ctrlKey || event.metaKey || event.altKey) return;
  const [first] = state.advice ?? [];
  if (bits.has(event.key) && canEdit()) {
    isFollowing = first?.wire === nameOf(wire) && first.pattern === pattern().name && bits.get(event.key) !== null;
    ask({ act: "see", wire: nameOf(wire), bit: bits.get(event.key) });
  } else if ((event.key === "Enter" || event.key === " ") && event.currentTarget.tagName !== "BUTTON") turn(wire);
  else if (event.key.startsWith("Arrow") && marks.has(wire)) step(event.key, wire);
  else return;
  event.preventDefault();
}

// The nearest mark in a direction.
function step(key, wire) {
  const from = marks.get(wire);
  const [x, y] = { ArrowLeft: [-1, 0], ArrowRight: [1, 0], ArrowUp: [0, -1], ArrowDown: [0, 1] }[key];
  let best = null, least = Infinity;
  for (const [name, to] of marks) {
    const along = (to.x - from.x) * x + (to.y - from.y) * y, across = Math.abs((to.x - from.x) * y) + Math.abs((to.y - from.y) * x);
    if (along > 1 && along + 2 * across < least) [best, least] = [name, along + 2 * across];
  }
  if (best !== null) goTo(best);
}

function keyAtPart(event, box, group) {
  if (event.ctrlKey || event.metaKey || event.altKey) return;
  const modes = new Map([["o", "ok"], ["b", "bad"], ["u", null]]);
  if (modes.has(event.key) && !box.is_block && canEdit()) ask({ act: "hold", part: box.name, mode: modes.get(event.key) });
  else if (event.key === "Enter" || event.key === " ") {
    const at = group.getBoundingClientRect();
    openMenu(box, at.right, at.top);
  } else return;
  event.preventDefault();
}

let menuBox = null, menuFrom = null;

function openMenu(box, x, y) {
  if (wasDragged) return;
  menuBox = box;
  menuFrom = boxes.get(box.name)?.group;
  byId("menu-name").textContent = box.name;
  const tested = new Map(state.held).get(box.name);
  byId("menu-text").textContent = `${box.kind}${sentence(box, verdictOf(box, new Map(state.blame)), tested)}`;
  for (const id of ["menu-ok", "menu-bad", "menu-forget"]) byId(id).hidden = box.is_block;
  byId("menu-open").hidden = !box.is_block;
  const menu = byId("menu");
  menu.hidden = false;
  menu.style.left = `${Math.max(4, Math.min(x + 8, innerWidth - menu.offsetWidth - 8))}px`;
  menu.style.top = `${Math.max(4, Math.min(y + 8, innerHeight - menu.offsetHeight - 8))}px`;
  [...menu.querySelectorAll("button")].find((button) => button.offsetParent !== null)?.focus();
}

function closeMenu() {
  if (byId("menu").hidden) return;
  byId("menu").hidden = true;
  menuFrom?.focus({ preventScroll: true });
}

function hold(mode) {
  ask({ act: "hold", part: menuBox.name, mode });
  closeMenu();
}

// Pan and zoom.

let wasDragged = false;
const pointers = new Map();

function place() {
  byId("world").setAttribute("transform", `translate(${view.x} ${view.y}) scale(${view.scale})`);
  byId("world").style.setProperty("--finger", `${Math.min(MOST_FINGER, Math.max(RADIUS, FINGER / view.scale))}px`);
}

function zoom(factor, x = byId("sheet").clientWidth / 2, y = byId("sheet").clientHeight / 2) {
  const scale = Math.min(MOST_SCALE, Math.max(LEAST_SCALE, view.scale * factor));
  view.x = x - ((x - view.x) * scale) / view.scale;
  view.y = y - ((y - view.y) * scale) / view.scale;
  view.scale = scale;
  place();
}

// All of the drawing; at first, if that is too small, its left end.
function fit(isFirst = false) {
  const sheet = byId("sheet"), box = byId("world").getBBox(), margin = 24;
  const scale = Math.min((sheet.clientWidth - 2 * margin) / box.width, (sheet.clientHeight - 2 * margin) / box.height);
  const isPart = isFirst && scale < OVERVIEW;
  view.scale = Math.min(1.4, isPart ? READABLE : Math.max(LEAST_SCALE, scale || 1));
  view.x = (sheet.clientWidth - box.width * view.scale) / 2 - box.x * view.scale;
  view.y = (sheet.clientHeight - box.height * view.scale) / 2 - box.y * view.scale;
  place();
  const first = drawing.pins[0];
  if (isPart && first) {
    view.x = margin - box.x * view.scale;
    // The first pin in the middle, unless that leaves room above or below the drawing.
    const top = margin - box.y * view.scale, bottom = sheet.clientHeight - margin - (box.y + box.height) * view.scale;
    view.y = Math.min(top, Math.max(bottom, sheet.clientHeight / 2 - first.y * view.scale));
    place();
  }
}

function goTo(name) {
  const mark = marks.get(name), shown = boxes.get(name);
  const group = (mark ?? shown)?.group;
  if (!group) return false;
  const at = group.getBoundingClientRect(), sheet = byId("sheet").getBoundingClientRect();
  const least = matchMedia("(pointer: coarse)").matches ? 1.1 : 0.8, isSmall = view.scale < (least > 1 ? least : 0.5);
  if (isSmall) view.scale = least;
  const [x, y] = mark ? [mark.x, mark.y] : [shown.box.x + shown.box.w / 2, shown.box.y + shown.box.h / 2];
  const isInside = at.left > sheet.left + 20 && at.right < sheet.right - 20 && at.top > sheet.top + 20 && at.bottom < sheet.bottom - 20;
  if (!isInside || isSmall) {
    view.x = sheet.width / 2 - x * view.scale;
    view.y = sheet.height / 2 - y * view.scale;
    place();
  }
  // On a small screen the drawing may be scrolled away.
  byId("sheet").scrollIntoView({ block: "nearest" });
  group.focus({ preventScroll: true });
  return true;
}

function dragging() {
  const sheet = byId("sheet");
  const distance = () => { const [a, b] = [...pointers.values()]; return Math.hypot(a.x - b.x, a.y - b.y); };
  sheet.addEventListener("pointerdown", (event) => {
    if (pointers.size === 0) wasDragged = false;
    pointers.set(event.pointerId, { x: event.clientX, y: event.clientY, startX: event.clientX, startY: event.clientY });
  });
  addEventListener("pointermove", (event) => {
    const from = pointers.get(event.pointerId);
    if (!from) return;
    if (Math.hypot(event.clientX - from.startX, event.clientY - from.startY) > 5) { wasDragged = true; sheet.classList.add("dragging"); }
    const before = pointers.size === 2 ? distance() : 0;
    const [x, y] = [event.clientX - from.x, event.clientY - from.y];
    [from.x, from.y] = [event.clientX, event.clientY];
    if (!wasDragged) return;
    if (pointers.size === 2) {
      const at = sheet.getBoundingClientRect(), [a, b] = [...pointers.values()];
      zoom(distance() / (before || 1), (a.x + b.x) / 2 - at.left, (a.y + b.y) / 2 - at.top);
    } else { view.x += x; view.y += y; place(); }
  });
  const drop = (event) => { pointers.delete(event.pointerId); sheet.classList.remove("dragging"); };
  addEventListener("pointerup", drop);
  addEventListener("pointercancel", drop);
  sheet.addEventListener("wheel", (event) => {
    event.preventDefault();
    const at = sheet.getBoundingClientRect();
    zoom(Math.exp(-event.deltaY / 500), event.clientX - at.left, event.clientY - at.top);
  }, { passive: false });
}

function find() {
  const given = byId("search").value.trim();
  if (!given) return;
  const text = Object.hasOwn(drawing.others, given) ? drawing.others[given] : given;
  const names = [...marks.keys(), ...boxes.keys()];
  const lower = text.toLowerCase();
  const found = names.find((name) => name === text) ?? names.find((name) => name.toLowerCase() === lower)
    ?? names.find((name) => name.toLowerCase().startsWith(lower)) ?? names.find((name) => name.toLowerCase().includes(lower));
  if (found === undefined || !goTo(found)) { say(`No wire and no part in the drawing is named ${given}.`); return; }
  say("");
  const group = (marks.get(found) ?? boxes.get(found)).group;
  group.classList.add("found");
  setTimeout(() => group.classList.remove("found"), 2500);
}

function setTime(at) {
  time = at;
  byId("time").value = at;
  paint();
}

// Files and paper.

function save() {
  const link = make("a", { href: URL.createObjectURL(new Blob([state.log.join("\n") + "\n"], { type: "text/plain" })) });
  link.download = `${drawing.title.split(":")[0]}.script`;
  link.click();
  setTimeout(() => URL.revokeObjectURL(link.href), 10000);
}

// All of the drawing, whatever is shown of it.
function picture() {
  const { x, y, width, height } = byId("world").getBBox(), world = byId("world").cloneNode(true);
  for (const name of ["id", "transform"]) world.removeAttribute(name);
  return draw("svg", { class: "sheet picture", viewBox: `${x - 4} ${y - 4} ${width + 8} ${height + 8}` }, world);
}

function paper() {
  const row = (tag, cells) => make("tr", {}, ...cells.map((text) => make(tag, { textContent: text })));
  const readings = state.patterns.flatMap((one) => one.seen.map(([wire, bit]) => {
    const should = new Map(one.expected).get(wire);
    return row("td", [one.name, spoken(wire), bit, should ?? "", one.against.includes(wire) ? "wrong" : ""]);
  }));
  const found = state.candidates.map((one) => make("li", { textContent: one.parts.map(partName).join(", ") || "nothing is faulty" }));
  const advice = (state.advice ?? []).map((one) => make("li", { textContent: `${placeOfProbe(one)}: ${leftAfter(one)}` }));
  byId("paper").replaceChildren(
    make("h1", { textContent: drawing.title }), make("p", { textContent: `Date: ${new Date().toLocaleString()}` }),
    make("h2", { textContent: "Readings" }), make("table", {}, row("th", ["pattern", "wire", "read", "should be", ""]), ...readings),
    make("h2", { textContent: "Explanations" }), make("p", { textContent: byId("status").textContent }), make("ul", {}, ...found),
    make("h2", { textContent: "Measure next" }), make("ol", {}, ...advice), picture(),
    make("div", {}, ...[...byId("chips").children].map((shape) => shape.cloneNode(true))),
    make("h2", { textContent: "Tested parts" }), make("p", { textContent: state.held.map(([part, mode]) => `${part}: ${mode}`).join(", ") || "none" }),
    make("h2", { textContent: "What was replaced" }), make("div", { className: "write", textContent: byId("replaced").value }),
    make("p", { textContent: "Name and date:" }));
}

// What is typed is sent once the hand rests, and when the page is left.
let noteTimer = 0;

function note() {
  clearTimeout(noteTimer);
  noteTimer = 0;
  if (state && canEdit() && byId("replaced").value !== state.replaced) ask({ act: "replaced", text: byId("replaced").value });
}

// The box keeps its text until all of it is taken, and shows what is wrong with it.
async function take(text) {
  const box = byId("paste-text");
  if (!text.trim()) return;
  const got = await ask({ act: "readings", text, here: byId("paste-here").checked });
  if (got && !got.error) {
    box.value = "";
    byId("paste-error").textContent = "";
    byId("paste-dialog").close();
    return;
  }
  box.value = text;
  if (!byId("paste-dialog").open) byId("paste-dialog").showModal();
  const why = got ? got.error : "The program does not answer. The text stays here.";
  byId("paste-error").textContent = why;
  say("");
  box.focus();
  box.setSelectionRange(...placeOf(why, text));
}

// Where in a text the words of a refusal point to: a line by its number, or a reading by itself or its wire.
function placeOf(why, text) {
  const line = /(?:row|line) (\d+)/.exec(why);
  let at = 0;
  for (const [number, row] of text.split("\n").entries()) {
    if (line && number + 1 === Number(line[1])) return [at, at + row.length];
    at += row.length + 1;
  }
  for (const { 0: word, index } of text.matchAll(/[^\s,;]+/g)) {
    const wire = word.slice(0, word.lastIndexOf("="));
    if (why.startsWith(word) || why.startsWith(`'${word}'`) || why.includes(` ${word} `) || (wire && why.includes(`wire ${wire}:`)))
      return [index, index + word.length];
  }
  return [text.length, text.length];
}

function buttons() {
  const on = (id, act) => byId(id).addEventListener("click", act);
  on("new-pattern", () => ask({ act: "pattern", how: "new" }));
  on("undo", () => ask({ act: "undo" }));
  on("redo", () => ask({ act: "redo" }));
  on("clear", () => ask({ act: "clear" }));
  on("more", () => ask({ act: "show", shown: Math.min(500, state.shown * 3) }));
  on("levels", () => ask({ act: "show", levels: byId("levels").checked }));
  on("save", save);
  on("load", () => byId("file").click());
  on("print", () => { paper(); print(); });
  on("help", () => {
    byId("words").hidden = !byId("words").hidden;
    byId("help").setAttribute("aria-expanded", String(!byId("words").hidden));
  });
  on("probe-go", () => visit(state.advice[0]));
  on("probe-0", () => answer(0));
  on("probe-1", () => answer(1));
  on("closer", () => zoom(1.3));
  on("farther", () => zoom(1 / 1.3));
  on("fit", () => fit());
  on("with-chips", () => { showChips(); fit(true); });
  on("cone", () => load({ fit: true }));
  on("menu-ok", () => hold("ok"));
  on("menu-bad", () => hold("bad"));
  on("menu-forget", () => hold(null));
  on("menu-open", () => { openBlocks = [...openBlocks, menuBox.name]; closeMenu(); load(); });
  on("menu-close", closeMenu);
  on("paste", () => byId("paste-dialog").showModal());
  on("paste-take", () => take(byId("paste-text").value));
  on("message-close", () => say(""));
}

function listeners() {
  byId("file").addEventListener("change", async () => {
    const [file] = byId("file").files;
    if (file) ask({ act: "load", text: await file.text() });
    byId("file").value = "";
  });
  byId("search").addEventListener("change", find);
  byId("time").addEventListener("input", () => setTime(Number(byId("time").value)));
  byId("replaced").addEventListener("input", () => { clearTimeout(noteTimer); noteTimer = setTimeout(note, 300); });
  byId("replaced").addEventListener("change", note);
  addEventListener("pagehide", note);
  addEventListener("beforeprint", paper);
  addEventListener("focus", () => state && ask({ act: "state", version: state.version }));
  addEventListener("pointerdown", (event) => { if (!byId("menu").contains(event.target)) byId("menu").hidden = true; });
  addEventListener("paste", (event) => {
    if (["INPUT", "TEXTAREA"].includes(event.target.tagName) || !canEdit()) return;
    take(event.clipboardData.getData("text"));
  });
  addEventListener("keydown", keyAnywhere);
}

// The keys that hold wherever the focus is, unless a wire or a part has taken them, or text is typed.
function keyAnywhere(event) {
  const isTyping = ["INPUT", "TEXTAREA"].includes(event.target.tagName) && event.target.type !== "checkbox";
  if (event.key === "Escape") {
    if (byId("menu").hidden && !byId("paste-dialog").open) document.activeElement?.blur();
    closeMenu();
  }
  if (isTyping || event.defaultPrevented || event.altKey || !state || byId("paste-dialog").open || !byId("menu").hidden) return;
  const key = event.ctrlKey || event.metaKey ? `ctrl-${event.key.toLowerCase()}${event.shiftKey ? "-shift" : ""}` : event.key;
  const undo = () => ask({ act: "undo" }), redo = () => ask({ act: "redo" });
  const acts = { "0": () => answer(0), "1": () => answer(1), u: undo, "ctrl-z": undo, "ctrl-y": redo, "ctrl-z-shift": redo };
  const looks = { "/": () => byId("search").focus(), n: nextWrong };
  const act = looks[key] ?? (canEdit() ? acts[key] : undefined);
  if (!act) return;
  event.preventDefault();
  act();
}

async function begin() {
  buttons();
  listeners();
  dragging();
  await load();
  await ask({ act: "state" });
  fit(true);
  setInterval(() => { if (state?.read_only && !document.hidden) ask({ act: "state", version: state.version }); }, 1500);
}

begin();
