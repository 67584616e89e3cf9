"use strict";
// The page: at which step the run is shown, and what is seen of it there.

const FOLDED_FROM = 5000, MOST_CELLS = 300, MOST_PRINTS = 2000, PAGE = 20;
const THEMES = ["", "light", "dark"];
const element = (id) => document.getElementById(id);

class View {
  constructor(data) {
    this.run = new Run(data.events);
    this.conflicts = markConflicts(this.run);
    this.chosen = null;
    this.relation = null;
    this.opened = new Set();
    this.isFolding = this.run.events.length > FOLDED_FROM;
    this.isGathered = false;
    this.source = new Source(data.source, element("source"));
    this.lanes = new Lanes(this.run, this, () => this.at());
    this.tell(data);
    this.listen();
    const asked = new URLSearchParams(location.hash.slice(1));
    this.theme = asked.get("theme") ?? remembered();
    if (asked.get("order") === "gathered") this.isGathered = this.run.blocks.length > 0;
    if (asked.has("fold")) this.isFolding = asked.get("fold") === "yes";
    this.made = 0;
    this.dress();
    this.arrange();
    this.go(Math.min(Number(asked.get("step") ?? 1) || 0, this.run.events.length));
    if (asked.has("chosen")) this.choose(Number(asked.get("chosen")) - 1);
  }

  // What the lanes show at this step.
  at() {
    const { chosen, relation } = this;
    return { made: this.made, event: this.event(), chosen, dims: (index) => relation !== null && (relation[index] === BEFORE || relation[index] === AFTER) };
  }

  // The event that was made last; none before the first one.
  event() {
    return this.made ? this.run.events[this.order[this.made - 1]] : null;
  }

  arrange() {
    this.order = orderOf(this.run, this.isGathered);
    this.place = new Uint32Array(this.order.length);
    this.order.forEach((index, place) => (this.place[index] = place));
    this.heap = new Heap(this.run, this.order);
    this.layRows();
    element("recorded").setAttribute("aria-pressed", !this.isGathered);
    element("gathered").setAttribute("aria-pressed", this.isGathered);
  }

  layRows() {
    this.lanes.arrange(this.order, rowsOf(this.run, this.order, this.isFolding, this.opened));
    element("fold").setAttribute("aria-pressed", this.isFolding);
  }

  // Shows the run behind so many events.
  go(made) {
    this.made = Math.max(0, Math.min(made, this.order.length));
    this.show();
    if (this.event()) this.lanes.reveal(this.event());
    else element("scroller").scrollTop = 0;
  }

  show() {
    const event = this.event();
    this.heap.move(this.made);
    element("slider").value = this.made;
    element("slider").setAttribute("aria-valuetext", event ? `${this.made} of ${this.order.length}: task ${event.task} ${inWords(this.run, event)}` : "before the first event");
    element("count").textContent = `${this.made} of ${this.order.length}`;
    for (const id of ["first", "back"]) element(id).disabled = this.made === 0;
    for (const id of ["on", "last"]) element(id).disabled = this.made === this.order.length;
    this.source.light(event?.line, event?.column, event?.kind);
    this.lanes.soon();
    element("step").replaceChildren(...this.stepParts(event));
    this.showChoice();
    this.showPrinted();
    this.showCells(event);
  }

  // Steps to the event before or behind this one that the same task has made.
  goWithin(way) {
    const event = this.event();
    if (!event) return this.go(this.made + way);
    for (let at = this.made - 1 + way; at >= 0 && at < this.order.length; at += way)
      if (this.run.events[this.order[at]].task === event.task) return this.go(at + 1);
  }

  goTo(index) {
    this.go(this.place[index] + 1);
  }

  // Chooses an event, or drops the choice where it is chosen already.
  choose(index) {
    if (!this.run.events[index]) return;
    if (this.chosen === index) return this.drop();
    this.chosen = index;
    this.relation = relationTo(this.run, index);
    this.goTo(index);
  }

  drop() {
    [this.chosen, this.relation] = [null, null];
    this.show();
  }

  open(index) {
    this.opened.add(index);
    this.layRows();
    this.goTo(index);
  }

  close(index) {
    this.opened.delete(index);
    this.layRows();
    this.show();
  }

  fold() {
    this.isFolding = !this.isFolding;
    this.opened.clear();
    this.layRows();
    this.go(this.made);
  }

  // Shows the other order, at the same event.
  gather(isGathered) {
    if (!this.run.blocks.length || isGathered === this.isGathered) return;
    const event = this.event();
    this.isGathered = isGathered;
    this.arrange();
    if (event) this.goTo(event.index);
    else this.go(0);
  }

  stepParts(event) {
    if (!event) return [node("p", "says", "Before the first event.")];
    const words = node("p", "says", node("b", "", `Task ${event.task}`), ` ${inWords(this.run, event)}.`);
    const facts = [`event ${event.index + 1}`];
    if (event.line) facts.push(`at ${event.line}:${event.column}`);
    if (event.block >= 0) {
      const block = this.run.blocks[event.block];
      facts.push(`in the block that task ${block.task} entered at event ${block.events[0] + 1}`);
    }
    const parts = [words, node("p", "more", facts.join(", "))];
    const others = event.clash ? partners(this.run, event) : [];
    if (others.length) {
      const links = others.slice(0, 12).map((index) => {
        const link = node("button", "", `${index + 1}: task ${this.run.events[index].task} ${this.run.events[index].kind}s`);
        link.addEventListener("click", () => this.goTo(index));
        return link;
      });
      const many = `Conflicts with ${counted(others.length, "access", "accesses")} of ${event.cell} in no order with it, all in atomic blocks:`;
      const free = [event.index, ...others].some((index) => this.run.events[index].block < 0);
      parts.push(node("div", "clashes", free ? many.replace(", all in atomic blocks", "") : many, node("br"), ...links, others.length > 12 ? ` and ${others.length - 12} more` : ""));
    }
    return parts;
  }

  showChoice() {
    const place = element("choice");
    if (this.chosen === null) return place.replaceChildren();
    const counts = [0, 0, 0, 0];
    for (const which of this.relation) counts[which] += 1;
    const event = this.run.events[this.chosen];
    const button = node("button", "", "Drop the choice");
    button.addEventListener("click", () => this.drop());
    place.replaceChildren(
      node("p", "says", `Chosen: event ${event.index + 1}, where task ${event.task} ${inWords(this.run, event)}. ` +
        `${counted(counts[BEFORE], "event comes", "events come")} before it in every order, ${counted(counts[AFTER], "event", "events")} after it, ` +
        `and ${counted(counts[NONE], "event is", "events are")} in no order with it.`), button);
  }

  showPrinted() {
    const event = this.event(), atEnd = this.made === this.order.length;
    const lines = this.run.printed.filter((it) => this.place[it.index] < this.made);
    const parts = lines.slice(-MOST_PRINTS).map((it) => {
      const line = node("li", "", printedLine(this.run.events[it.index]));
      if (event?.index === it.index) line.classList.add("new");
      if (it.dropped) line.classList.add("dropped");
      return line;
    });
    if (lines.length > MOST_PRINTS) parts.unshift(node("li", "none", `${lines.length - MOST_PRINTS} lines before`));
    if (atEnd) parts.push(node("li", "ending", this.run.ending));
    element("printed").replaceChildren(parts.length ? node("ol", "", ...parts) : node("p", "none", "nothing"));
    element("printed").querySelector(".new")?.scrollIntoView({ block: "nearest" });
  }

  // The cells that were written last, by their objects.
  showCells(event) {
    const objects = new Map(), seen = new Set();
    for (let at = this.made - 1; at >= 0 && seen.size < MOST_CELLS; at -= 1) {
      const { kind, cell } = this.run.events[this.order[at]];
      if (kind !== "write" || !cell || seen.has(cell)) continue;
      seen.add(cell);
      const [, object, name] = /^(.*#\d+)(.*)$/.exec(cell);
      if (!objects.has(object)) objects.set(object, []);
      objects.get(object).push({ cell, name: name.replace(/^\./, ""), value: this.heap.values.get(cell) });
    }
    const number = (object) => Number(object.slice(object.lastIndexOf("#") + 1));
    const parts = [...objects].sort((one, other) => number(one[0]) - number(other[0])).map(([object, cells]) => {
      cells.sort((one, other) => one.name.localeCompare(other.name, "en", { numeric: true }));
      return node("div", "object", node("span", "", object), node("div", "", ...cells.map(({ cell, name, value }) => {
        const how = event?.cell === cell ? (event.kind === "write" ? " new" : " read") : "";
        return node("span", `cell${how}`, `${name} = `, node("b", "", value));
      })));
    });
    const left = this.heap.values.size - seen.size;
    if (left) parts.push(node("p", "none", `and ${counted(left, "cell that was", "cells that were")} written before these`));
    element("cells").replaceChildren(...(parts.length ? parts : [node("p", "none", "none")]));
  }

  // What is told of the whole run.
  tell(data) {
    const { run } = this;
    document.title = `${data.name}: a run`;
    element("name").textContent = data.name;
    const facts = [data.settings.join(" "), `${counted(run.events.length, "event", "events")} of ${counted(run.tasks.length, "task", "tasks")}`];
    if (run.blocks.length) facts.push(counted(run.blocks.length, "atomic block", "atomic blocks"));
    if (this.conflicts) facts.push(counted(this.conflicts, "access in conflict", "accesses in conflict"));
    element("about").replaceChildren(facts.filter(Boolean).join(" · ") + " · ", node("b", "", run.ending));
    element("slider").max = run.events.length;
    element("stage").style.setProperty("--figures", String(run.events.length).length);
    element("gathered").disabled = !run.blocks.length;
    if (!run.blocks.length) element("gathered").title = "This run has no atomic blocks";
    element("scroller").setAttribute("aria-label", `${run.events.length} events, in ${run.tasks.length} lanes`);
    element("legend").innerHTML = legend();
  }

  listen() {
    const pressed = { recorded: () => this.gather(false), gathered: () => this.gather(true), fold: () => this.fold(), first: () => this.go(0),
      back: () => this.go(this.made - 1), on: () => this.go(this.made + 1), last: () => this.go(this.order.length), theme: () => this.redress() };
    for (const [id, what] of Object.entries(pressed)) element(id).addEventListener("click", what);
    element("slider").addEventListener("input", () => this.go(Number(element("slider").value)));
    document.addEventListener("keydown", (key) => this.keyed(key));
  }

  keyed(key) {
    if (key.ctrlKey || key.altKey || key.metaKey) return;
    const way = key.key === "ArrowRight" ? 1 : -1;
    const keys = {
      ArrowLeft: () => (key.shiftKey ? this.goWithin(way) : this.go(this.made + way)), ArrowRight: () => keys.ArrowLeft(),
      Home: () => this.go(0), End: () => this.go(this.order.length), PageUp: () => this.go(this.made - PAGE), PageDown: () => this.go(this.made + PAGE),
      Escape: () => this.drop(), g: () => this.gather(!this.isGathered), f: () => this.fold(),
      Enter: () => this.event() && this.choose(this.event().index),
    };
    if (!keys[key.key] || (key.key === "Enter" && key.target.closest("button, summary"))) return;
    key.preventDefault();
    keys[key.key]();
  }

  redress() {
    this.theme = THEMES[(THEMES.indexOf(this.theme) + 1) % THEMES.length];
    try {
      localStorage.setItem("dpj-theme", this.theme);
    } catch { /* Then it isn't remembered. */ }
    this.dress();
  }

  dress() {
    if (this.theme) document.documentElement.dataset.theme = this.theme;
    else delete document.documentElement.dataset.theme;
    element("theme").textContent = `colours: ${this.theme || "auto"}`;
  }
}

// What each mark and each kind of line means.
function legend() {
  const marks = {
    new: "an object or an array is made", read: "of a field or an element", write: "of a field or an element", look: "for a class or a length",
    print: "a line is printed", fork: "branches are to begin", begin: "a branch begins", join: "all branches have ended", enter: "of an atomic block",
    exit: "of an atomic block", rest: "before a block: others may go on", end: "of a task", fold: "events of one task",
  };
  const lines = { "goes own": "the task of this step", goes: "a task at work", waits: "waits for its branches", ended: "has ended, not joined yet" };
  const entry = (drawn, word, says) => `<span><svg viewBox="0 0 22 22">${drawn}</svg><b>${word}</b> ${says}</span>`;
  const parts = Object.entries(marks).map(([kind, says]) => entry(`<g class="mark ${kind}">${markOf(kind, 11, 11)}</g>`, kind === "fold" ? "folded" : kind, says));
  parts.push(entry('<rect class="band" x="2" y="2" width="18" height="18" rx="5"/>', "block", "that is atomic"));
  parts.push(entry('<g class="mark write"><circle cx="11" cy="11" r="5"/><path class="clash" d="M16 2h6v6z"/></g>', "conflict", "with one in no order"));
  for (const [kind, says] of Object.entries(lines)) parts.push(entry(`<path class="line ${kind}" d="M11 1V21"/>`, "line", says));
  return parts.join("");
}

function remembered() {
  try {
    const theme = localStorage.getItem("dpj-theme") ?? "";
    return THEMES.includes(theme) ? theme : "";
  } catch {
    return "";
  }
}

function counted(number, one, more) {
  return `${number} ${number === 1 ? one : more}`;
}

function node(name, classes, ...parts) {
  const made = document.createElement(name);
  if (classes) made.className = classes;
  made.append(...parts.filter((part) => part !== "" && part !== undefined));
  return made;
}

let view;
try {
  view = new View(JSON.parse(element("data").textContent));
} catch (fault) {
  element("name").textContent = "This run can't be shown";
  element("about").textContent = fault.message;
  throw fault;
}
