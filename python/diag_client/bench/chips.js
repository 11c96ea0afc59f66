// The chips of a board as they are seen from above, with their numbered pins. A click on a pin takes a reading.
"use strict";

const PITCH = 27, BODY = 104, STUB = 34;
let pins = [];              // { wire, group } of each pin at which a probe tells something
const chipOf = new Map();   // part: its chip
const pinsOf = new Map();   // wire: its pins, such as U3.6; the one that drives it is the first

function buildChips() {
  pins = [];
  chipOf.clear();
  pinsOf.clear();
  for (const chip of drawing.chips) {
    for (const part of chip.parts) chipOf.set(part, chip.name);
    for (const leg of [...chip.left, ...chip.right].filter((one) => one.wire)) {
      const known = pinsOf.get(leg.wire) ?? [], pin = { chip: chip.name, number: leg.number };
      pinsOf.set(leg.wire, leg.drives ? [pin, ...known] : [...known, pin]);
    }
  }
  byId("chips-row").hidden = !drawing.chips.length;
  byId("chips").replaceChildren(...drawing.chips.map(chipShape));
  showChips();
}

function showChips() {
  byId("chips").hidden = !drawing.chips.length || !byId("with-chips").checked;
}

function chipShape(chip) {
  const rows = Math.max(chip.left.length, chip.right.length), height = rows * PITCH + 40, width = BODY + 2 * STUB;
  const shape = draw("svg", { class: "sheet chip-shape", width, height, viewBox: `0 0 ${width} ${height}`, role: "group", "aria-label": `chip ${chip.name}` });
  const body = draw("g", { class: "part" }, draw("rect", { x: STUB, y: 24, width: BODY, height: height - 28, rx: 4 }),
    draw("path", { class: "notch", d: `M${width / 2 - 9} 24a9 9 0 0 0 18 0` }), titled(`${chip.name}: ${chip.printed} ${chip.title}`));
  body.dataset.chip = chip.name;
  shape.append(written(`${chip.name} ${short(chip.printed, 12)}`, { x: width / 2, y: 15, class: "name", "text-anchor": "middle" }), body,
    written("", { x: width / 2, y: height - 12, class: "badge chip-badge" }));
  for (const [legs, isLeft] of [[chip.left, true], [chip.right, false]])
    for (const [row, leg] of legs.entries()) shape.append(...legShape(leg, isLeft ? STUB : STUB + BODY, 40 + row * PITCH, isLeft, chip));
  return shape;
}

function legShape(leg, x, y, isLeft, chip) {
  const side = isLeft ? -1 : 1, anchor = isLeft ? "start" : "end";
  const shapes = [draw("path", { class: "line", d: `M${x} ${y}h${side * 8}` }),
    written(`${leg.number}`, { x: x - side * 5, y: y + 4, class: "number", "text-anchor": anchor }),
    written(short(leg.name, 5), { x: x - side * 24, y: y + 4, class: "port", "text-anchor": anchor })];
  if (!leg.wire) return shapes;
  const group = draw("g", { class: "mark", tabindex: 0, role: "button", transform: `translate(${x + side * 20} ${y})` });
  group.dataset.pin = `${chip.name}.${leg.number}`;
  group.addEventListener("click", () => turn(leg.wire, true));
  group.addEventListener("keydown", (event) => keyAtMark(event, leg.wire));
  pins.push({ wire: leg.wire, group });
  return [...shapes, group];
}

// A chip is to be replaced for certain if all suspects are in it, though perhaps no single gate of it is faulty in all explanations.
function paintChips(seen, expected, against, ranks, blame) {
  for (const { wire, group } of pins) {
    paintMark(wire, { group }, seen, expected, against, ranks);
    group.setAttribute("aria-label", `${group.dataset.pin.replace(".", " pin ")}, ${group.getAttribute("aria-label")}`);
  }
  for (const chip of drawing.chips) {
    const own = chip.parts.filter((part) => blame.has(part));
    const isSure = own.length > 0 && (own.length === blame.size || own.some((part) => blame.get(part) === "always"));
    const body = document.querySelector(`#chips [data-chip="${CSS.escape(chip.name)}"]`);
    body.setAttribute("class", `part ${isSure ? "always" : own.length ? "sometimes" : ""}`);
    body.parentElement.querySelector(".chip-badge").textContent = isSure ? "!" : own.length ? "?" : "";
  }
}

// A wire by the pin that a probe goes to, and a part by its chip.
function probePlace(name) {
  const [pin] = pinsOf.get(wireOf(name)) ?? [];
  return pin ? `${pin.chip} pin ${pin.number} (${spoken(name)})` : spoken(name);
}

function partName(part) {
  const chip = chipOf.get(part);
  return chip === undefined || part === chip || part.startsWith(`${chip}.`) ? part : `${part} (${chip})`;
}

function showPin(wire) {
  pins.find((pin) => pin.wire === wire)?.group.scrollIntoView({ block: "nearest", inline: "nearest" });
}
