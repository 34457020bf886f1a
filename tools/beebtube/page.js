
"use strict";
// What a page of a run does. All that it shows is data of the block `data`, and becomes text, never a part of a document.

const data = JSON.parse(document.getElementById("data").textContent);
const at = (id) => document.getElementById(id);
const hex = (number, digits) => number.toString(16).toUpperCase().padStart(digits, "0");
const limited = (number, least, most) => Math.min(Math.max(number, least), most);
const seconds = (tick) => (tick / data.second).toFixed(3) + " s";

async function inflated(text) {
  const bytes = Uint8Array.from(atob(text), (letter) => letter.charCodeAt(0));
  const stream = new Blob([bytes]).stream().pipeThrough(new DecompressionStream("deflate"));
  return new Response(stream).arrayBuffer();
}

function drawn(parent, name, attributes, text) {
  const element = document.createElementNS("http://www.w3.org/2000/svg", name);
  for (const [key, value] of Object.entries(attributes)) element.setAttribute(key, value);
  if (text !== undefined) element.textContent = text;
  return parent.appendChild(element);
}

// --- Screens ---

function screens() {
  const thumbs = [...document.querySelectorAll(".thumb")];
  const play = at("shot-play");
  let now = 0, timer = 0;
  const keysDown = () => {
    const tick = (data.shots || [])[now];
    const held = (data.keys || []).filter(([first, last]) => first <= tick && tick < last).map((press) => press[2]);
    return held.length ? "; down: " + held.join(", ") : "";
  };
  const show = (next) => {
    now = (next + thumbs.length) % thumbs.length;
    const image = thumbs[now].querySelector("img");
    for (const id of ["shot", "large-image"]) {
      at(id).src = image.src;
      at(id).alt = image.alt;
    }
    at("shot-at").value = now;
    at("shot-at").setAttribute("aria-valuetext", image.alt);
    at("shot-told").textContent = image.alt + keysDown();
  };
  const stop = () => {
    clearInterval(timer);
    timer = 0;
    play.textContent = "Play";
    play.setAttribute("aria-pressed", "false");
  };
  const enlarge = (next) => {
    show(next);
    at("large").showModal();
  };
  thumbs.forEach((thumb, index) => thumb.addEventListener("click", () => enlarge(index)));
  at("shot-large").addEventListener("click", () => enlarge(now));
  at("large-close").addEventListener("click", () => at("large").close());
  at("large").addEventListener("keydown", (event) => {
    const step = { ArrowLeft: -1, ArrowRight: 1 }[event.key];
    if (step) show(now + step);
  });
  at("shot-back").addEventListener("click", () => show(now - 1));
  at("shot-on").addEventListener("click", () => show(now + 1));
  at("shot-at").addEventListener("input", () => show(Number(at("shot-at").value)));
  play.addEventListener("click", () => {
    if (timer) return stop();
    timer = setInterval(() => show(now + 1), 500);
    play.textContent = "Stop";
    play.setAttribute("aria-pressed", "true");
  });
  show(0);
}

// --- Sound ---

async function sound() {
  at("heard").src = URL.createObjectURL(new Blob([await inflated(data.wav)], { type: "audio/wav" }));
}

// --- The Tube ---

const SIDES = ["the host", "the second processor"];

// An access in the words of `tools/tube --all`. A code has the register in bits 0 to 2, then the second processor, writing, and BREAK.
function wordsOf(code, byte) {
  const who = SIDES[code >> 3 & 1], place = code & 7, name = "register " + ((place >> 1) + 1), writes = code & 16;
  const letter = byte >= 32 && byte < 127 ? " '" + String.fromCharCode(byte) + "'" : "";
  const flags = (names, none) => [...names].map((flag, index) => byte >> (names.length - 1 - index) & 1 ? flag : none).join("");
  if (code & 32) return "BREAK: the Tube and the second processor are reset";
  if (place & 1) return writes ? `${who} gives ${hex(byte, 2)}${letter} to ${name}` : `${who} takes ${hex(byte, 2)}${letter} from ${name}`;
  if (!writes) {
    const told = (byte & 128 ? "a byte is there" : "no byte") + (byte & 64 ? ", room" : ", no room");
    return `${who} reads the status of ${name}: ${told}` + (place ? "" : ", flags " + flags("PVMJIQ", "-"));
  }
  if (code === 16) return `${who} ${byte & 128 ? "sets" : "clears"} flags: ${flags("TPVMJIQ", "") || "none"}`;
  return `${who} writes ${hex(byte, 2)} where the status of ${name} stands`;
}

async function tube() {
  const [steps, codes, values] = await Promise.all(["steps", "codes", "values"].map((name) => inflated(data.accesses[name])));
  const view = new DataView(steps), code = new Uint8Array(codes), value = new Uint8Array(values);
  const number = data.accesses.number, orders = new Float64Array(number);
  for (let index = 0, order = 0; index < number; index++) orders[index] = order += view.getUint32(4 * index, true);
  const chart = at("chart"), stretches = data.lanes.length ? data.lanes[0].values.length : 1, each = data.span / stretches;
  let from = 0, to = data.span, cursor = -1, svg;

  const tickOf = (index) => Math.floor(orders[index] / 2);
  // The first access at a tick or behind it.
  const firstFrom = (tick) => {
    let low = 0, high = number;
    while (low < high) {
      const middle = low + high >> 1;
      if (tickOf(middle) < tick) low = middle + 1; else high = middle;
    }
    return low;
  };
  const lineOf = (index) => (tickOf(index) * 1e6 / data.second).toFixed(3).padStart(14) + " us  " + wordsOf(code[index], value[index]);
  const numberInTrace = (index) => {
    for (const [first, length] of data.accesses.spans) {
      if (index < length) return first + index + 1;
      index -= length;
    }
  };

  const LABEL = 16, BAR = 22, LANE = LABEL + BAR + 4;
  const place = (tick, width) => (tick - from) / (to - from) * width;
  // Bars, each from a tick to another with a sum. The bytes of a register are counted access by access where a stretch is wide and
  // the page has all accesses; what else there is goes by stretches.
  function barsOf(entry, width) {
    const first = Math.max(Math.floor(from / each), 0), last = Math.min(Math.ceil(to / each), stretches), columns = Math.max(Math.round(width / 2), 1);
    const bars = [];
    if (entry.code >= 0 && number === data.accesses.all && last - first < columns) {
      for (let column = 0; column < columns; column++) bars.push([from + (to - from) * column / columns, from + (to - from) * (column + 1) / columns, 0]);
      for (let index = firstFrom(from); index < number && tickOf(index) < to; index++) {
        if (code[index] === entry.code) bars[Math.floor((tickOf(index) - from) / (to - from) * columns)][2]++;
      }
      return bars;
    }
    const wide = Math.min(columns, last - first);
    for (let column = 0; column < wide; column++) {
      const begin = first + Math.floor((last - first) * column / wide), end = first + Math.floor((last - first) * (column + 1) / wide);
      bars.push([begin * each, end * each, entry.values.slice(begin, end).reduce((sum, value) => sum + value, 0)]);
    }
    return bars;
  }
  function lane(parent, entry, top, width) {
    const bars = barsOf(entry, width);
    const most = Math.max(...bars.map((bar) => bar[2] / (bar[1] - bar[0])));
    let path = "";
    for (const [begin, end, sum] of bars) {
      if (!sum) continue;
      const left = limited(place(begin, width), 0, width), right = limited(place(end, width), 0, width);
      const high = Math.max(BAR * sum / (end - begin) / most, 1);
      path += `M${left.toFixed(1)} ${top + LABEL + BAR}h${Math.max(right - left, 1).toFixed(1)}v${-high.toFixed(1)}h${-Math.max(right - left, 1).toFixed(1)}z`;
    }
    const all = bars.reduce((sum, bar) => sum + bar[2], 0);
    const told = entry.unit === "ticks" ? (1000 * all / data.second).toFixed(3) + " ms" : all + " " + entry.unit;
    drawn(parent, "text", { x: 2, y: top + 12 }, `${entry.name}: ${told}`);
    drawn(parent, "line", { x1: 0, x2: width, y1: top + LABEL + BAR, y2: top + LABEL + BAR, class: "base" });
    drawn(parent, "path", { d: path, class: "lane" });
  }

  function draw() {
    const width = Math.max(chart.clientWidth, 200), height = LANE * data.lanes.length + 64;
    const next = drawn(document.createDocumentFragment(), "svg", { viewBox: `0 0 ${width} ${height}`, height, role: "img" });
    next.setAttribute("aria-label", `Chart from ${seconds(from)} to ${seconds(to)}`);
    data.lanes.forEach((entry, index) => lane(next, entry, LANE * index, width));
    const top = LANE * data.lanes.length;
    drawn(next, "text", { x: 2, y: top + 12 }, "accesses");
    const first = firstFrom(from), last = firstFrom(to), marks = new Map();
    for (let index = first; index < last; index++) marks.set(Math.round(place(tickOf(index), width)), index);
    drawn(next, "path", { d: [...marks.keys()].map((x) => `M${x} ${top + 18}h1v14h-1z`).join(""), class: "lane" });
    for (let mark = 0; mark <= 4; mark++) {
      const anchor = ["start", "middle", "middle", "middle", "end"][mark];
      if (width > 500 || mark % 2 === 0) {
        drawn(next, "text", { x: width * mark / 4, y: top + 52, "text-anchor": anchor }, scale(from + (to - from) * mark / 4));
      }
    }
    if (cursor >= 0 && tickOf(cursor) >= from && tickOf(cursor) <= to) {
      const x = place(tickOf(cursor), width);
      drawn(next, "line", { x1: x, x2: x, y1: 0, y2: top + 36, class: "cursor" });
    }
    if (svg) svg.remove();
    svg = chart.appendChild(next);
  }
  const scale = (tick) => to - from < data.second / 100 ? (tick * 1e6 / data.second).toFixed(1) + " us" : seconds(tick);

  function look(begin, end) {
    const wide = limited(end - begin, 24, data.span);
    from = limited(begin, 0, data.span - wide);
    to = from + wide;
    draw();
    if (cursor < 0) at("chart-told").textContent = `From ${scale(from)} to ${scale(to)}: ${firstFrom(to) - firstFrom(from)} accesses of the page.`;
  }
  const zoom = (factor, around) => {
    const middle = around === undefined ? (cursor >= 0 ? tickOf(cursor) : (from + to) / 2) : around;
    look(middle - (middle - from) * factor, middle + (to - middle) * factor);
  };
  const move = (part) => look(from + (to - from) * part, to + (to - from) * part);

  function go(index) {
    if (!number) return;
    cursor = limited(index, 0, number - 1);
    at("chart-told").textContent = `Access ${numberInTrace(cursor)} of ${data.accesses.all}: at ${lineOf(cursor).trim()}`;
    const lines = [];
    for (let line = Math.max(cursor - 6, 0); line < Math.min(cursor + 7, number); line++) lines.push((line === cursor ? "> " : "  ") + lineOf(line));
    at("accesses").textContent = lines.join("\n");
    const tick = tickOf(cursor);
    if (tick < from || tick > to) look(tick - (to - from) / 2, tick + (to - from) / 2); else draw();
  }
  const tickAt = (event) => {
    const box = chart.getBoundingClientRect();
    return from + (to - from) * limited((event.clientX - box.left) / box.width, 0, 1);
  };
  const nearest = (tick) => {
    const index = firstFrom(tick);
    return index > 0 && (index === number || tick - tickOf(index - 1) < tickOf(index) - tick) ? index - 1 : index;
  };
  let waiting = 0;
  chart.addEventListener("pointermove", (event) => {
    cancelAnimationFrame(waiting);
    waiting = requestAnimationFrame(() => go(nearest(tickAt(event))));
  });
  chart.addEventListener("wheel", (event) => {
    if (!event.ctrlKey) return;
    event.preventDefault();
    zoom(event.deltaY < 0 ? 0.5 : 2, tickAt(event));
  }, { passive: false });
  const keys = {
    "+": () => zoom(0.5), "=": () => zoom(0.5), "-": () => zoom(2), 0: () => look(0, data.span), PageUp: () => move(-0.5), PageDown: () => move(0.5),
    ArrowLeft: () => go(cursor - 1), ArrowRight: () => go(cursor + 1), Home: () => go(0), End: () => go(number - 1),
  };
  chart.addEventListener("keydown", (event) => {
    if (!keys[event.key] || event.ctrlKey || event.altKey || event.metaKey) return;
    event.preventDefault();
    keys[event.key]();
  });
  const buttons = { "zoom-in": "+", "zoom-out": "-", "zoom-all": 0, "move-left": "PageUp", "move-right": "PageDown", "access-back": "ArrowLeft", "access-on": "ArrowRight" };
  for (const [id, key] of Object.entries(buttons)) at(id).addEventListener("click", () => keys[key]());
  addEventListener("resize", draw);
  look(0, data.span);
}

// --- Memories ---

async function memories() {
  const all = await Promise.all(data.memories.map(async (memory) => new Uint8Array(await inflated(memory.bytes))));
  const ROWS = 24;
  let memory = all[0], first = 0;
  const isLetter = (byte) => byte >= 32 && byte < 127;

  function instruction(forms, place) {
    const byte = (ahead) => place + ahead < memory.length ? memory[place + ahead] : 0;
    const form = forms[memory[place]];
    const target = place + 2 + (byte(1) ^ 128) - 128 & 65535;
    const length = form.includes("{2}") ? 3 : form.includes("{1}") || form.includes("{r}") ? 2 : 1;
    const word = hex(byte(1) | byte(2) << 8, 4);
    return [length, form.replace("{1}", hex(byte(1), 2)).replace("{2}", word).replace("{r}", hex(target, 4))];
  }
  function code() {
    const forms = data.instructions[data.memories[at("memory").value].part];
    if (!forms) return "There are no instructions here.";
    const lines = [];
    for (let place = first; lines.length < ROWS && place < memory.length;) {
      const [length, text] = instruction(forms, place);
      const bytes = [...memory.slice(place, place + length)].map((byte) => hex(byte, 2)).join(" ");
      lines.push(hex(place, 4) + "  " + bytes.padEnd(10) + text);
      place += length;
    }
    return lines.join("\n");
  }
  function bytes() {
    const lines = [];
    for (let place = first; place < Math.min(first + 16 * ROWS, memory.length); place += 16) {
      const row = [...memory.slice(place, place + 16)];
      lines.push(hex(place, 4) + "  " + row.map((byte) => hex(byte, 2)).join(" ").padEnd(49)
        + row.map((byte) => isLetter(byte) ? String.fromCharCode(byte) : ".").join(""));
    }
    return lines.join("\n");
  }
  const show = (place) => {
    first = limited(place, 0, memory.length - 1);
    at("address").value = hex(first, 4);
    at("bytes").textContent = bytes();
    at("code").textContent = code();
  };

  function map() {
    const canvas = at("map"), style = getComputedStyle(document.documentElement);
    const colour = (name) => /^#(..)(..)(..)$/.exec(style.getPropertyValue(name).trim()).slice(1).map((digits) => parseInt(digits, 16));
    const letter = colour("--letter"), other = colour("--mark");
    canvas.height = memory.length / 256;
    const context = canvas.getContext("2d"), image = context.createImageData(256, canvas.height);
    memory.forEach((byte, place) => {
      if (byte) image.data.set([...(isLetter(byte) ? letter : other), 255], 4 * place);
    });
    context.putImageData(image, 0, 0);
  }
  const choose = () => {
    memory = all[at("memory").value];
    map();
    show(0);
  };

  function wanted() {
    const text = at("find").value, quoted = /^"(.+)"$/.exec(text), digits = text.replace(/[ &]/g, "");
    if (quoted) return [...quoted[1]].map((letter) => letter.charCodeAt(0));
    if (!digits || !/^([0-9A-Fa-f]{2})+$/.test(digits)) return null;
    return digits.match(/../g).map((pair) => parseInt(pair, 16));
  }
  function find() {
    const sought = wanted();
    if (!sought) return "Bytes are pairs of digits; text has quotes around it.";
    const fits = (place) => sought.every((byte, index) => memory[place + index] === byte);
    for (let step = 1; step <= memory.length; step++) {
      const place = (first + step) % memory.length;
      if (fits(place)) {
        const again = step + first >= memory.length ? ", from the start again." : ".";
        show(place);
        return "Found at " + hex(place, 4) + again;
      }
    }
    return "Not found.";
  }
  const search = () => { at("found").textContent = find(); };
  const onEnter = (id, done) => at(id).addEventListener("keydown", (event) => { if (event.key === "Enter") done(); });
  const goToAddress = () => { if (/^[0-9A-Fa-f]{1,4}$/.test(at("address").value)) show(parseInt(at("address").value, 16)); };

  at("memory").addEventListener("change", choose);
  at("address").addEventListener("change", goToAddress);
  onEnter("address", goToAddress);
  onEnter("find", search);
  at("find-next").addEventListener("click", search);
  at("page-back").addEventListener("click", () => show(first - 16 * ROWS));
  at("page-on").addEventListener("click", () => show(first + 16 * ROWS));
  at("map").addEventListener("click", (event) => {
    const box = at("map").getBoundingClientRect();
    const column = Math.floor((event.clientX - box.left) / box.width * 16), row = Math.floor((event.clientY - box.top) / box.height * at("map").height);
    show(256 * row + 16 * column);
  });
  matchMedia("(prefers-color-scheme: dark)").addEventListener("change", map);
  choose();
}

// --- Tests ---

// A test presses what a reader may press: the address ends in `#press=` and steps between `;`, each `id`, `id=value` or `id!key`.
function press() {
  const steps = decodeURIComponent(location.hash).split("#press=")[1];
  for (const step of steps ? steps.split(";") : []) {
    const [, id, sign, value] = /^([a-z0-9-]+)(?:([=!])(.*))?$/.exec(step);
    if (!sign) at(id).click();
    if (sign === "!") at(id).dispatchEvent(new KeyboardEvent("keydown", { key: value }));
    if (sign !== "=") continue;
    at(id).value = value;
    for (const name of ["input", "change"]) at(id).dispatchEvent(new Event(name));
  }
}

async function begin() {
  if (at("shot")) screens();
  await Promise.all([data.wav && sound(), data.accesses && tube(), data.memories && memories()]);
  press();
  const { dataset, scrollWidth, clientWidth } = document.documentElement;
  dataset.ready = scrollWidth > clientWidth ? "too wide" : "yes";
}
begin().catch((fault) => { at("fault").textContent = "The page's script ended: " + fault.message; });
