// The page of a proof or a run. Everything that comes from a protocol is written as text, never as markup.
"use strict";
const data = JSON.parse(document.getElementById("data").textContent);
const sections = data.sections.map(([kind, name, letters]) => ({ kind, name, letters }));
const one = (where, what) => where.querySelector(what);
const all = (where, what) => [...where.querySelectorAll(what)];
document.documentElement.classList.add("js");

function element(tag, kind, ...inner) {
  const made = document.createElement(tag);
  if (kind) made.className = kind;
  made.append(...inner);
  return made;
}

// A configuration, as a list of places of letters for each section, drawn by the kinds of its sections.

const MOST_BOXES = 300;

function box(section, letter, kind) {
  const made = element("span", "box " + kind + (letter ? "" : " first-letter"), section.letters[letter]);
  made.style.setProperty("--hue", String((letter * 137 + 35) % 360));
  return made;
}

// What a step did to a section: the letters that were replaced by place, those that are new, and the letters that are gone, each before a place.
function marks(edit, before) {
  const found = { was: new Map(), fresh: new Set(), gone: [] };
  if (!edit) return found;
  const [how, first, letters] = edit;
  if (how === "r") first.forEach((place) => found.was.set(place, before[place]));
  if (how === "a") first.forEach((_, k) => found.fresh.add(before.length + k));
  if (how === "d") found.gone.push([first, before[first]]);
  if (how === "s") {
    letters.forEach((_, k) => found.fresh.add(k));
    if (first) found.gone.push([0, before[0]]);
  }
  return found;
}

function boxes(section, list, marked, matters) {
  const made = [], numbered = section.kind === "array";
  const put = (inner, below) => made.push(section.kind === "array" || section.kind === "cell" ? element("span", "place", inner, ...below) : inner);
  const ghosts = (place) => marked.gone.filter((each) => each[0] === place).forEach((each) => put(box(section, each[1], "gone"), numbered ? ["gone"] : []));
  list.slice(0, MOST_BOXES).forEach((letter, place) => {
    ghosts(place);
    const was = marked.was.get(place), changed = was !== undefined || marked.fresh.has(place);
    const below = [numbered ? String(place + 1) : "", was === undefined ? "" : element("span", "was", "was ", element("s", "", section.letters[was]))];
    put(box(section, letter, (changed ? "changed" : "") + (matters.has(place) ? " matters" : "")), below.filter(Boolean));
  });
  ghosts(list.length);
  if (list.length > MOST_BOXES) made.push(element("span", "empty", `${list.length - MOST_BOXES} more are left out here`));
  return made;
}

const KINDS = { cell: "", array: "array", channel: "channel", "lossy channel": "lossy channel", stack: "stack" };

function drawn(section, list, edit, before, matters, most) {
  const marked = marks(edit, before), places = new Set(matters || []);
  const made = boxes(section, list, marked, places);
  if (!list.length) made.push(element("span", matters ? "empty matters" : "empty", "empty"));
  const name = element("span", "name", section.name, element("span", "kind", KINDS[section.kind] ? `, ${KINDS[section.kind]}` : ""));
  if (section.kind === "cell") return element("div", "part cell", name, ...made);
  if (section.kind === "array") return element("div", "part list", name, element("div", "row-of-boxes", ...made));
  if (section.kind === "stack") {
    const stack = element("div", "stack", element("span", "end", "top"), ...made);
    // (room for one letter more, that is gone)
    stack.style.minHeight = `${1.6 + 2.2 * Math.min(most + 1, 12)}rem`;
    return element("div", "part", name, stack);
  }
  const pipe = element("div", "pipe" + (section.kind === "channel" ? "" : " lossy"), element("span", "end", "\u2190 front"),
    element("div", "tube", element("div", "row-of-boxes", ...made)), element("span", "end", "back \u2190"));
  return element("div", "part list", name, pipe);
}

function applied(list, edit) {
  const [how, first, letters] = edit;
  if (how === "a") return [...list, ...first];
  if (how === "d") return [...list.slice(0, first), ...list.slice(first + 1)];
  if (how === "s") return [...letters, ...list.slice(first)];
  const after = [...list];
  first.forEach((place, k) => { after[place] = letters[k]; });
  return after;
}

// The rows of the protocol's text.

// The box of the protocol ends above the lower edge of the window, also while the head of the page is above it.
function fitProtocol() {
  const pane = one(document, "aside"), above = Math.max(16, pane.getBoundingClientRect().top);
  pane.style.setProperty("--room", `${Math.max(160, window.innerHeight - above - 16)}px`);
}

function rowsNamed(names) {
  return names.map((name) => one(document, `.source [data-row="${name}"]`)).filter(Boolean);
}

function markRows(kind, names) {
  all(document, ".source .row").forEach((row) => row.classList.remove("fired", "met", "begun"));
  rowsNamed(names).forEach((row) => row.classList.add(kind));
}

// Scrolls the box of the protocol, so that the first of these rows is in it.
function followRows(names) {
  const [row] = rowsNamed(names), pane = one(document, "aside");
  fitProtocol();
  if (!row || pane.scrollHeight <= pane.clientHeight) return;
  const [inner, outer] = [row.getBoundingClientRect(), pane.getBoundingClientRect()];
  if (inner.top < outer.top + 8 || inner.bottom > outer.bottom - 8) pane.scrollTop += inner.top - outer.top - Math.max(8, (pane.clientHeight - inner.height) / 3);
}

// A run.

function player() {
  const place = one(document, ".player"), slider = one(place, "input"), stage = one(place, ".stage"), caption = one(place, ".caption");
  const speed = one(place, "select"), configurations = [data.start], last = data.steps.length;
  for (const [, edits] of data.steps) {
    const after = [...configurations[configurations.length - 1]];
    edits.forEach(([k, ...edit]) => { after[k] = applied(after[k], edit); });
    configurations.push(after);
  }
  const most = sections.map((_, k) => configurations.reduce((found, each) => Math.max(found, each[k].length), 0));
  let at = 0, timer = 0;

  function told() {
    const atEnd = at === last && (data.met.length || data.stuck);
    const rule = at ? data.rules[data.steps[at - 1][0]] : "";
    const row = at && one(document, `.source [data-row="rule-${data.steps[at - 1][0]}"]`);
    caption.replaceChildren(element("b", "", at ? `Step ${at} of ${last}: ${rule}` : `The start, before ${last} step${last === 1 ? "" : "s"}`));
    if (atEnd) caption.append(element("span", "bad", data.stuck ? ". Here no rule can fire." : ". This configuration is bad."));
    if (row) caption.append(element("code", "", ...row.cloneNode(true).childNodes));
    else if (!at) caption.append(element("code", "", "an initial configuration"));
    if (atEnd) data.met.forEach((each) => caption.append(element("code", "bad", each[1])));
  }

  function show(fresh, follow = true) {
    const matters = new Map(at === last ? data.met.flatMap((each) => each[2]) : []);
    const edits = new Map(at ? data.steps[at - 1][1].map(([k, ...edit]) => [k, edit]) : []);
    stage.classList.toggle("fresh", fresh);
    stage.replaceChildren(...sections.map((section, k) =>
      drawn(section, configurations[at][k], edits.get(k), at ? configurations[at - 1][k] : [], matters.get(k), most[k])));
    told();
    slider.value = String(at);
    slider.setAttribute("aria-valuetext", `step ${at} of ${last}`);
    all(place, "[data-go=first], [data-go=back]").forEach((button) => { button.disabled = at === 0; });
    all(place, "[data-go=next], [data-go=last]").forEach((button) => { button.disabled = at === last; });
    const now = one(document, "tr.now"), next = one(document, `tr[data-step="${at}"]`);
    if (now) now.classList.remove("now");
    if (next) next.classList.add("now");
    const rows = at ? [`rule-${data.steps[at - 1][0]}`] : data.inits.map((k) => `init-${k}`), bad = at === last ? data.met.map((each) => `bad-${each[0]}`) : [];
    markRows(at ? "fired" : "begun", rows);
    rowsNamed(bad).forEach((row) => row.classList.add("met"));
    if (follow) followRows([...bad, ...rows]);
  }

  function go(to, fresh = true) {
    at = Math.max(0, Math.min(last, to));
    show(fresh);
  }

  function pause() {
    clearTimeout(timer);
    timer = 0;
    place.classList.remove("playing");
    one(place, "[data-go=play]").setAttribute("aria-label", "Play");
  }

  function tick() {
    go(at + 1);
    if (at === last) pause(); else timer = setTimeout(tick, Number(speed.value));
  }

  function play() {
    if (timer) return pause();
    if (at === last) go(0);
    place.classList.add("playing");
    one(place, "[data-go=play]").setAttribute("aria-label", "Pause");
    timer = setTimeout(tick, Number(speed.value) / 2);
  }

  const moves = { first: () => go(0), back: () => go(at - 1), next: () => go(at + 1), last: () => go(last), play };
  const act = (what) => { if (what !== "play") pause(); moves[what](); };
  all(place, "[data-go]").forEach((button) => button.addEventListener("click", () => act(button.dataset.go)));
  slider.max = String(last);
  slider.addEventListener("input", () => { pause(); go(Number(slider.value), false); });
  const keys = new Map([["ArrowRight", "next"], ["ArrowLeft", "back"], ["Home", "first"], ["End", "last"], [" ", "play"]]);
  document.addEventListener("keydown", (event) => {
    const what = keys.get(event.key);
    if (!what || event.ctrlKey || event.metaKey || event.altKey || event.target.closest("select, input, a") || (what === "play" && event.target.closest("button"))) return;
    event.preventDefault();
    act(what);
  });
  all(document, "tr[data-step]").forEach((row) => row.addEventListener("click", () => {
    pause();
    go(Number(row.dataset.step));
    place.scrollIntoView({ block: "nearest" });
  }));
  place.hidden = false;
  show(false, false);
}

// A proof.

const MOST_OF_PATH = 40;

function letterName(k, place) {
  return k < 0 ? "|" : (sections.length > 1 ? `${sections[k].name}.` : "") + sections[k].letters[place];
}

// The letters of a typed configuration, as pairs of a section and a place, or a text that says what is wrong.
function readConfiguration(text) {
  const words = text.replace(/#[^\n]*/g, " ").match(/[A-Za-z0-9_]+|[^\sA-Za-z0-9_]/g) || [];
  const parts = [[]];
  words.forEach((word) => word === ";" ? parts.push([]) : parts[parts.length - 1].push(word));
  if (parts.length > 1 && !parts[parts.length - 1].length) parts.pop();
  const word = [];
  for (const [k, section] of sections.entries()) {
    const part = parts[k] || [];
    if (!part.length) return `${section.name} has no part: it is written ${example()}.`;
    if (part[0] === section.name && part[1] !== ":") return `A colon is missing behind ${section.name}: it is written ${example()}.`;
    if (part[0] !== section.name || part[1] !== ":") return `${section.name}: must come where ${part.slice(0, 2).join(" ")} stands; the sections stand in the order of the protocol.`;
    if (part.includes(":", 2)) return `The parts of the sections are separated by semicolons: it is written ${example()}.`;
    const letters = part.length === 3 && part[2] === "empty" ? [] : part.slice(2);
    if (part.length === 2) return `${section.name} has no letters: an empty list is written ${section.name}: empty.`;
    const unknown = letters.find((letter) => !section.letters.includes(letter));
    if (unknown !== undefined) return `${section.name} has no letter ${unknown}. Its letters are ${section.letters.join(", ")}.`;
    if (section.kind === "cell" && letters.length !== 1) return `${section.name} is a cell, with exactly one letter.`;
    if (k) word.push([-1, -1]);
    letters.forEach((letter) => word.push([k, section.letters.indexOf(letter)]));
  }
  return parts.length > sections.length ? `More stands behind ${sections[sections.length - 1].name} than a configuration has.` : word;
}

// How a configuration is written: one of the proof, where there is one.
function example() {
  const [known] = data.examples.filter((each) => each[0] === "one of the proof");
  return known ? known[1][0] : sections.map((section) => `${section.name}: ${section.kind === "cell" ? section.letters[0] : section.letters.slice(0, 2).join(" ")}`).join("; ");
}

function member() {
  const place = one(document, ".member"), field = one(place, "input"), answer = one(place, ".answer"), moves = new Map();
  const picked = one(document, ".picked"), finals = new Set(data.finals), leftOut = new Set(data.leftOut);
  data.edges.forEach(([p, k, letter, q]) => {
    if (!moves.has(p)) moves.set(p, new Map());
    moves.get(p).set(`${k}.${letter}`, q);
  });
  const pictured = picturedStates(), arrows = picturedArrows();

  // The states on the way, and how many letters were read.
  function walked(word) {
    const states = data.states ? [0] : [];
    for (const [k, letter] of word) {
      const next = states.length ? (moves.get(states[states.length - 1]) || new Map()).get(`${k}.${letter}`) : undefined;
      if (next === undefined) return states;
      states.push(next);
    }
    return states;
  }

  function said(word, states) {
    const end = states[states.length - 1];
    if (!states.length) return [false, "It is not in the proof: the automaton accepts nothing."];
    if (states.length <= word.length) {
      const read = word.slice(0, states.length), [k, letter] = read[states.length - 1];
      const nth = read.filter((each) => each[0] === k).length;
      const where = k < 0 ? `where ${sections[nth - 1].name} ends` : `at letter ${nth} of ${sections[k].name}, ${sections[k].letters[letter]}`;
      return [false, `It is not in the proof: it leaves the automaton ${where}, in state ${end}.`];
    }
    return finals.has(end) ? [true, "It is in the proof."] : [false, `It is not in the proof: it ends in state ${end}, which does not accept.`];
  }

  // The states and the letters between them; of a long path the beginning, and what is around its end or the state that was picked.
  function path(word, states, through, inside) {
    const made = element("div", "path"), end = through === undefined ? states.length - 1 : through;
    const shown = (at) => at < MOST_OF_PATH || Math.abs(at - end) < MOST_OF_PATH;
    const chip = (state, kind) => element("span", "chip" + (finals.has(state) ? " final" : "") + kind, String(state));
    if (states.length) made.append(chip(states[0], through === 0 ? " through" : ""));
    let left = 0;
    const tellLeft = () => { if (left) made.append(element("span", "soft", ` \u2026 ${left} letters are left out \u2026 `)); left = 0; };
    word.forEach((letter, at) => {
      if (!shown(at)) { left += 1; return; }
      tellLeft();
      const read = at + 1 < states.length;
      made.append(element("span", "step-letter" + (read ? "" : at + 1 === states.length ? " no" : " unread"), letterName(...letter)));
      if (read) made.append(chip(states[at + 1], through === at + 1 ? " through" : at + 2 === states.length && at + 1 === word.length && !inside ? " no" : ""));
    });
    tellLeft();
    return made;
  }

  function look(through) {
    const word = readConfiguration(field.value);
    [...pictured.values(), ...arrows.values()].forEach((node) => node.classList.remove("on-way", "at-end", "no"));
    if (typeof word === "string") {
      answer.replaceChildren(element("p", "note", word));
      return;
    }
    const states = walked(word), [inside, text] = said(word, states);
    states.forEach((state) => pictured.has(state) && pictured.get(state).classList.add("on-way"));
    states.slice(1).forEach((state, at) => arrows.get(`${states[at]}-${state}`)?.classList.add("on-way"));
    const end = through === undefined ? states[states.length - 1] : states[through];
    if (pictured.has(end)) pictured.get(end).classList.add("at-end", ...(inside ? [] : ["no"]));
    answer.replaceChildren(element("p", "verdict " + (inside ? "good" : "bad"), text), path(word, states, through, inside));
  }

  function pick(state) {
    const least = data.least[state];
    if (picked) picked.replaceChildren(...(least ? [`The least configuration through state ${state}: `, element("code", "", least[0])] : [`No configuration through state ${state}.`]));
    if (!least) {
      field.value = "";
      answer.replaceChildren(element("p", "note", leftOut.has(state) ? `The least configuration through state ${state} is left out here, since the page would be too long.`
        : `State ${state} is on the way of no configuration.`));
      return;
    }
    field.value = least[0];
    look(least[1]);
    answer.prepend(element("p", "soft", `The least configuration through state ${state}:`));
  }

  pictured.forEach((node, state) => {
    node.classList.add("pickable");
    node.setAttribute("tabindex", "0");
    node.setAttribute("role", "button");
    node.setAttribute("aria-label", `State ${state}: show the least configuration through it`);
    node.addEventListener("click", () => pick(state));
    node.addEventListener("keydown", (event) => { if (event.key === "Enter" || event.key === " ") { event.preventDefault(); pick(state); } });
  });
  if (picked) picked.hidden = false;
  all(document, ".states tr[data-state]").forEach((row) => {
    const go = () => { pick(Number(row.dataset.state)); field.scrollIntoView({ block: "nearest" }); };
    row.addEventListener("click", go);
    if (pictured.size) return;
    row.setAttribute("tabindex", "0");
    row.addEventListener("keydown", (event) => { if (event.key === "Enter") go(); });
  });
  one(place, ".example").textContent = example();
  one(place, "form").addEventListener("submit", (event) => { event.preventDefault(); look(); });
  if (data.examples.length) one(place, ".examples").append("Try ", ...data.examples.map(([name, texts]) => {
    const button = element("button", "", name);
    button.type = "button";
    button.addEventListener("click", () => {
      field.value = texts[(texts.indexOf(field.value) + 1) % texts.length];
      look();
    });
    return button;
  }));
  place.hidden = false;
  if (data.examples.length) {
    field.value = data.examples[0][1][0];
    look();
  }
}

// The states in the picture, by their numbers: a group of Graphviz, or the group of a circle and its number.
function picturedStates() {
  const found = new Map();
  all(document, ".picture .node").forEach((node) => found.set(Number(one(node, "title").textContent), node));
  all(document, ".picture circle.state").forEach((circle) => {
    const text = circle.nextElementSibling;
    if (!text || text.tagName !== "text" || !/^\d+$/.test(text.textContent)) return;
    const group = document.createElementNS("http://www.w3.org/2000/svg", "g"), inner = circle.previousElementSibling;
    circle.before(group);
    if (inner && inner.matches("circle.state") && inner.getAttribute("cx") === circle.getAttribute("cx")) group.append(inner);
    group.append(circle, text);
    found.set(Number(text.textContent), group);
  });
  found.delete(NaN);
  return found;
}

// Says below a picture that is wider than its place that it scrolls.
function tellWide() {
  const picture = one(document, ".picture"), hint = one(document, ".wider");
  if (picture && hint) hint.hidden = picture.scrollWidth <= picture.clientWidth + 2;
}

// The arrows in the picture, by the states between which they lead.
function picturedArrows() {
  const found = new Map();
  all(document, ".picture g.edge").forEach((group) => found.set(one(group, "title").textContent.replace("->", "-"), group));
  all(document, ".picture [data-edge]").forEach((path) => found.set(path.dataset.edge, path));
  return found;
}

["scroll", "resize"].forEach((what) => window.addEventListener(what, fitProtocol, { passive: true }));
fitProtocol();
if (one(document, ".player")) player();
if (one(document, ".member")) member();
window.addEventListener("resize", tellWide);
tellWide();
