"use strict";
// The lanes: a row for each event or folded stretch, from top to bottom in the order that is shown, and a lane for each task. Only what is in view is
// drawn, since a run may have many events.

const ROW = 22, HEAD = 26, EDGE = 10, CURVE = 7;
const NARROW_TEXT = 200, FAIR_TEXT = 240, WIDE_TEXT = 300;

class Lanes {
  constructor(run, view, asked) {
    [this.run, this.view, this.asked] = [run, view, asked];
    this.scroller = document.getElementById("scroller");
    this.tall = document.getElementById("tall");
    this.stage = document.getElementById("stage");
    this.graph = document.getElementById("graph");
    this.heads = document.getElementById("heads");
    this.texts = document.getElementById("texts");
    this.width = run.columns.length <= 12 ? 26 : run.columns.length <= 40 ? 20 : run.columns.length <= 100 ? 15 : 11;
    this.graph.classList.toggle("small", this.width < 15);
    this.bands = bandsOf(run);
    this.scroller.addEventListener("scroll", () => this.soon());
    new ResizeObserver(() => this.draw()).observe(this.scroller);
    this.stage.addEventListener("click", (click) => this.clicked(click));
  }

  // Takes an order and its rows.
  arrange(order, rows) {
    [this.order, this.rows] = [order, rows];
    this.rowOf = new Uint32Array(order.length);
    rows.forEach((row, number) => {
      for (let at = row.first; at <= row.last; at += 1) this.rowOf[order[at]] = number;
    });
    this.soon();
  }

  soon() {
    if (this.isDue) return;
    this.isDue = true;
    requestAnimationFrame(() => {
      this.isDue = false;
      this.draw();
    });
  }

  // Where things are in the view as it is scrolled now.
  measure() {
    const { clientWidth, clientHeight } = this.scroller;
    const all = 2 * EDGE + this.run.columns.length * this.width;
    // The texts give way a little where all lanes can be seen then.
    const least = clientWidth < 480 ? NARROW_TEXT : Math.max(FAIR_TEXT, Math.min(WIDE_TEXT, clientWidth - all));
    this.shown = Math.min(all, Math.max(clientWidth - least, this.width + 2 * EDGE));
    const text = clientWidth - this.shown;
    this.tall.style.width = `${all + text}px`;
    this.tall.style.height = `${HEAD + this.rows.length * ROW + EDGE}px`;
    this.stage.style.width = `${clientWidth}px`;
    this.stage.style.height = `${clientHeight}px`;
    [this.left, this.top] = [this.scroller.scrollLeft, this.scroller.scrollTop];
    this.high = clientHeight - HEAD;
    this.firstRow = Math.max(0, Math.floor(this.top / ROW) - 1);
    this.lastRow = Math.min(this.rows.length - 1, Math.ceil((this.top + this.high) / ROW));
    this.firstColumn = Math.max(0, Math.floor((this.left - EDGE) / this.width) - 1);
    this.lastColumn = Math.min(this.run.columns.length - 1, Math.ceil((this.left + this.shown) / this.width));
  }

  x(column) {
    return EDGE + (column + 0.5) * this.width - this.left;
  }

  y(row) {
    return (row + 0.5) * ROW - this.top;
  }

  // The row of an event; that of the last one where a run ended before it.
  row(index) {
    return index < 0 ? this.rows.length - 1 : this.rowOf[index];
  }

  draw() {
    this.measure();
    const at = this.asked();
    const parts = [this.stripes(at)];
    for (const band of this.bands) parts.push(this.band(band));
    for (let column = this.firstColumn; column <= this.lastColumn; column += 1)
      for (const task of this.run.columns[column]) if (this.isInView(task)) parts.push(this.lane(task, at));
    const marks = [];
    for (let number = this.firstRow; number <= this.lastRow; number += 1) this.drawRow(this.rows[number], number, at, parts, marks);
    this.graph.setAttribute("width", this.shown);
    this.graph.setAttribute("height", this.high);
    this.graph.innerHTML = HATCH + parts.join("") + marks.join("");
    this.drawHeads(at);
    this.drawTexts(at);
  }

  // The grounds of the rows: of those that are in no order with the chosen event, and of the one that is shown.
  stripes(at) {
    const parts = [];
    const ground = (row, what) => parts.push(`<rect class="${what}" x="0" y="${this.y(row) - ROW / 2}" width="${this.shown}" height="${ROW}"/>`);
    for (let row = this.firstRow; row <= this.lastRow; row += 1) if (this.isFree(this.rows[row], at)) ground(row, "free");
    if (at.event) ground(this.rowOf[at.event.index], "now");
    return parts.join("");
  }

  // Whether an event is chosen with which a row is in no order.
  isFree(row, at) {
    return at.chosen !== null && !this.isDim(row, at) && this.order[row.first] !== at.chosen;
  }

  isDim(row, at) {
    return row.fold ? this.order.slice(row.first, row.last + 1).every((index) => at.dims(index)) : at.dims(this.order[row.first]);
  }

  isInView(task) {
    return (task.begin < 0 || this.row(task.begin) <= this.lastRow) && this.row(task.join < 0 ? task.end : task.join) >= this.firstRow;
  }

  // A task's line from its begin to its end, thin where it waits, and dotted from there to the join.
  lane(task, at) {
    const x = this.x(task.column);
    const start = task.begin < 0 ? 0 : this.row(task.begin), end = this.row(task.end), parts = [];
    const line = (from, to, how) => {
      if (to >= this.firstRow && from <= this.lastRow && to > from) {
        const top = Math.max(this.y(from), -ROW) + (from === start && task.begin >= 0 && how !== "ended" ? CURVE : 0);
        const bottom = Math.min(this.y(to), this.high + ROW) - (how === "ended" && this.y(to) < this.high + ROW ? CURVE : 0);
        parts.push(`<path class="line ${how}${at.event?.task === task.number ? " own" : ""}" d="M${x} ${top}V${bottom}"/>`);
      }
    };
    let from = start;
    for (const group of task.groups) {
      const waits = this.row(group.children.at(-1) === undefined ? group.fork : this.run.tasks[group.children.at(-1)].begin);
      line(from, waits, "goes");
      from = this.row(group.join);
      line(waits, from, "waits");
    }
    line(from, end, "goes");
    if (task.join >= 0) line(end, this.row(task.join), "ended");
    return `<g data-task="${task.number}">${parts.join("")}</g>`;
  }

  band({ task, first, last, block }) {
    const from = this.row(first), to = this.row(last);
    const { column } = this.run.tasks[task];
    if (to < this.firstRow || from > this.lastRow || column < this.firstColumn || column > this.lastColumn) return "";
    const wide = Math.max(this.width - 4, 9), top = Math.max(this.y(from) - ROW / 2 + 2, -ROW), bottom = Math.min(this.y(to) + ROW / 2 - 2, this.high + ROW);
    const shape = `x="${this.x(column) - wide / 2}" y="${top}" width="${wide}" height="${bottom - top}" rx="5"`;
    const isClash = this.run.blocks[block].clash;
    return `<rect class="band" ${shape}/>` + (isClash ? `<rect class="hatch" ${shape}/>` : "");
  }

  drawRow(row, number, at, parts, marks) {
    const event = this.run.events[this.order[row.first]];
    const x = this.x(this.run.tasks[event.task].column), y = this.y(number);
    if (event.kind === "begin") parts.push(this.fork(x, y, this.run.tasks[event.began]));
    if (event.group) for (const piece of this.join(x, y, event.group)) parts.push(piece);
    const classes = ["mark", row.fold ? "fold" : event.kind, this.isDim(row, at) ? "dim" : ""];
    const clash = row.fold ? this.order.slice(row.first, row.last + 1).some((index) => this.run.events[index].clash) : event.clash;
    const ring = at.chosen !== null && this.rowOf[at.chosen] === number ? `<circle class="ring" cx="${x}" cy="${y}" r="9.5"/>` : "";
    const flag = clash ? `<path class="clash" d="M${x + 5} ${y - 9}h6v6z"/>` : "";
    marks.push(`<g class="${classes.join(" ").trim()}" data-event="${event.index + 1}">${ring}${markOf(row.fold ? "fold" : event.kind, x, y)}${flag}</g>`);
  }

  fork(x, y, child) {
    const to = this.x(child.column);
    return `<path class="line forks" d="M${x} ${y}H${Math.max(x, to - CURVE)}Q${to} ${y} ${to} ${y + CURVE}"/>`;
  }

  *join(x, y, group) {
    for (const child of group.children) {
      const { column } = this.run.tasks[child], from = this.x(column);
      if (column < this.firstColumn || (column > this.lastColumn && child !== group.children.at(-1))) continue;
      yield `<path class="line forks" d="M${from} ${y - CURVE}Q${from} ${y} ${from - CURVE} ${y}H${x}"/>`;
    }
  }

  // Over each column the task that is there at this step.
  drawHeads(at) {
    const each = String(this.run.tasks.length - 1).length * 7 + 4 > this.width ? 4 : 1, parts = [];
    const row = at.event ? this.rowOf[at.event.index] : 0, own = at.event ? this.run.tasks[at.event.task].column : 0;
    for (let column = this.firstColumn; column <= this.lastColumn; column += 1) {
      const task = this.run.columns[column].findLast((it) => it.begin < 0 || this.row(it.begin) <= row), x = this.x(column);
      if (!task || this.row(task.join < 0 ? task.end : task.join) < row || x < 6 || x > this.shown - 6) continue;
      const isOwn = task.number === (at.event?.task ?? 0);
      if (isOwn || each === 1 || (column % each === 0 && Math.abs(column - own) > 2))
        parts.push(`<text x="${x}" y="17"${isOwn ? ' class="own"' : ""}>${task.number}</text>`);
    }
    this.heads.setAttribute("width", this.shown);
    this.heads.innerHTML = parts.join("");
  }

  drawTexts(at) {
    const parts = [];
    for (let number = this.firstRow; number <= this.lastRow; number += 1) {
      const row = this.rows[number], event = this.run.events[this.order[row.first]];
      const isNow = at.event && this.rowOf[at.event.index] === number;
      const classes = ["row", isNow ? "now" : "", this.isDim(row, at) ? "dim" : "", this.isFree(row, at) ? "free" : ""].join(" ");
      parts.push(`<div class="${classes}" data-row="${number}" style="top:${number * ROW - this.top}px">${this.text(row, event, isNow && at)}</div>`);
    }
    this.texts.innerHTML = parts.join("");
  }

  text(row, event, at) {
    const number = `<span class="number">${event.index + 1}</span><span class="task" title="task ${event.task}">${event.task}</span>`;
    if (row.fold) {
      const size = row.last - row.first + 1, own = at ? `, at the ${ordinal(at.made - row.first)}` : "";
      return `${number}<span class="what"><button class="opens" title="Open these events" aria-label="Open these ${size} events">${size} events${own}</button></span>`;
    }
    const close = row.opens ? `<button class="closes" title="Fold these events again" aria-label="Fold these events again">−</button>` : "";
    const flag = event.clash ? '<span class="flag" title="This access conflicts with one of another task that is in no order with it">conflict</span>' : "";
    const what = escaped(event.what);
    return `${number}<span class="what" title="${event.kind} ${what}"><b class="${event.kind}">${event.kind}</b> ${what}</span>${flag}${close}`;
  }

  // A click on a row, also one by a key on its button, which has no place, or on the lanes beside it.
  clicked(click) {
    const high = click.clientY - this.stage.getBoundingClientRect().top - HEAD;
    const clicked = click.target.closest(".row");
    const row = clicked ? Number(clicked.dataset.row) : Math.floor((high + this.top) / ROW);
    if (row >= this.rows.length || (!clicked && high < 0)) return;
    const index = this.order[this.rows[row].first];
    if (this.rows[row].fold) this.view.open(index);
    else if (click.target.closest(".closes")) this.view.close(index);
    else this.view.choose(index);
  }

  // Scrolls so far that an event is in view.
  reveal(event) {
    this.measure();
    const top = this.rowOf[event.index] * ROW, left = this.run.tasks[event.began ?? event.task].column * this.width;
    const { scroller } = this, high = scroller.clientHeight - HEAD, wide = this.shown;
    if (top < scroller.scrollTop + ROW || top > scroller.scrollTop + high - 2 * ROW) scroller.scrollTop = top - high / 3;
    if (left < scroller.scrollLeft || left > scroller.scrollLeft + wide - 2 * this.width) scroller.scrollLeft = left - wide / 2;
  }
}

// Where each block has events: a band in each lane, from its first to its last one there.
function bandsOf(run) {
  return run.blocks.flatMap((block) => {
    const bands = new Map();
    for (const index of block.events) {
      const { task } = run.events[index];
      if (bands.has(task)) bands.get(task).last = index;
      else bands.set(task, { task, first: index, last: index, block: block.number });
    }
    return [...bands.values()];
  });
}

const HATCH =
  '<defs><pattern id="hatched" width="5" height="5" patternUnits="userSpaceOnUse" patternTransform="rotate(45)"><path d="M0 0V5"/></pattern></defs>';

// The mark of each kind. They differ in their shapes, and not in colour alone.
function markOf(kind, x, y) {
  const path = (d) => `<path d="M${x} ${y}${d}"/>`;
  switch (kind) {
    case "read": return `<circle class="hollow" cx="${x}" cy="${y}" r="4.2"/>`;
    case "write": return `<circle cx="${x}" cy="${y}" r="5"/>`;
    case "new": return `<rect x="${x - 4.5}" y="${y - 4.5}" width="9" height="9" rx="1"/>`;
    case "look": return `<circle class="hollow" cx="${x}" cy="${y}" r="2.4"/>`;
    case "print": return path("m-4.5-5.5l10 5.5l-10 5.5z");
    case "fork": case "fork_nd": return path("m0-5.5l5.5 5.5l-5.5 5.5l-5.5-5.5z");
    case "begin": return `<circle cx="${x}" cy="${y}" r="2.2"/>`;
    case "join": return `<path class="hollow" d="M${x} ${y - 5}l5 5l-5 5l-5-5z"/>`;
    case "enter": return `<path class="stroke" d="M${x - 5} ${y + 3}v-6h10v6"/>`;
    case "exit": return `<path class="stroke" d="M${x - 5} ${y - 3}v6h10v-6"/>`;
    case "rest": return `<path class="stroke" d="M${x - 3} ${y}h6"/>`;
    case "end": return `<rect x="${x - 5.5}" y="${y - 1.8}" width="11" height="3.6" rx="1"/>`;
    case "fold": return `<rect x="${x - 4.5}" y="${y - 8}" width="9" height="16" rx="4.5"/><path class="inner" d="M${x - 2} ${y - 3}h4m-4 3h4m-4 3h4"/>`;
    default: return `<circle cx="${x}" cy="${y}" r="3"/>`;
  }
}

function escaped(text) {
  return text.replace(/[&<>"]/g, (mark) => ({ "&": "&amp;", "<": "&lt;", ">": "&gt;", '"': "&quot;" })[mark]);
}

function ordinal(number) {
  const end = number % 100 > 10 && number % 100 < 14 ? 0 : number % 10;
  return number + (["th", "st", "nd", "rd"][end] ?? "th");
}
