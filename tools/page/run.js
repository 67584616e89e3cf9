"use strict";
// A run as `dpj events` writes it: its events, the tasks that made them, the blocks in which they stand, and what was printed.

const FORKS = new Set(["fork", "fork_nd"]);
const HEADER = /^dpj-events 1\narg (-?\d+) steps (\d+) cells (\d+)\nevents (\d+)\n/;
const PLACE = / at (\d+):(\d+)$/;
const ACCESS = /^(\S+?)(?: = (\S+))?( out)?$/;

// The number of an event is its index here, from 0; a person sees it from 1.
class Run {
  constructor(text) {
    const header = HEADER.exec(text);
    if (!header) throw new Error("these are no events of dpj");
    [this.argument, this.steps, this.cells] = header.slice(1, 4).map(Number);
    this.events = [];
    this.tasks = [newTask(0, null)];
    this.blocks = [];
    const rest = this.readEvents(text, header[0].length, Number(header[4]));
    this.ending = text.slice(rest).trimEnd();
    this.joinRest();
    this.placeLanes();
    this.rankPrints();
  }

  readEvents(text, at, count) {
    while (this.events.length < count) {
      const end = text.indexOf("\n", at);
      if (end < 0) throw new Error(`event ${this.events.length + 1} is missing`);
      this.add(text.slice(at, end));
      at = end + 1;
    }
    return at;
  }

  add(line) {
    const place = PLACE.exec(line);
    const [number, task, kind, ...words] = (place ? line.slice(0, place.index) : line).split(" ");
    const index = this.events.length;
    if (Number(number) !== index + 1 || !this.tasks[task]) throw new Error(`event ${index + 1} can't be read: ${line}`);
    const event = { index, task: Number(task), kind, what: words.join(" "), line: 0, column: 0, block: -1, clash: false };
    if (place) [event.line, event.column] = [Number(place[1]), Number(place[2])];
    this.events.push(event);
    this.take(event, this.tasks[event.task]);
  }

  // What an event does to its task.
  take(event, task) {
    const before = task.inside;
    task.events += 1;
    if (event.kind === "read" || event.kind === "write") {
      const [, cell, value, out] = ACCESS.exec(event.what);
      Object.assign(event, { cell: out ? null : cell, value: value ?? null, out: Boolean(out) });
    } else if (event.kind === "new") {
      event.object = event.what.replace(/\[-?\d+\]#/, "[]#");
    } else if (FORKS.has(event.kind)) {
      task.group = { task: task.number, fork: event.index, wanted: Number(event.what), children: [], join: -1 };
    } else if (event.kind === "begin") {
      event.began = Number(event.what);
      const child = newTask(event.began, task);
      child.begin = event.index;
      task.group.children.push(child.number);
      task.groups.at(-1) === task.group || task.groups.push(task.group);
      this.tasks[child.number] = child;
    } else if (event.kind === "join") {
      task.group.join = event.index;
      event.group = task.group;
    } else if (event.kind === "enter") {
      if (task.inside < 0) task.inside = this.open(event);
      task.entries += 1;
    } else if (event.kind === "exit") {
      task.entries -= 1;
    } else if (event.kind === "print") {
      task.prints.push(event.index);
    }
    event.block = before >= 0 ? before : task.inside;
    if (event.block >= 0) this.blocks[event.block].events.push(event.index);
    if (event.kind === "end") [task.end, task.trapped] = [event.index, event.what.startsWith("trap")];
    const block = this.blocks[task.inside];
    if (block?.task === task.number && (event.kind === "end" || (event.kind === "exit" && !task.entries))) {
      block.closed = true;
      task.inside = -1;
    }
  }

  open(event) {
    this.blocks.push({ number: this.blocks.length, task: event.task, effects: event.what, events: [], closed: false, clash: false });
    return this.blocks.length - 1;
  }

  // The join of a construct is that of each of its branches.
  joinRest() {
    for (const task of this.tasks)
      for (const group of task.groups)
        for (const child of group.children) {
          const branch = this.tasks[child];
          [branch.of, branch.join] = [group, group.join];
        }
  }

  // Each task's lane stands in a column: right of the task that has begun it, behind all that its earlier siblings begin. Constructs that one task
  // makes one after another share columns, so what stands in one column is never there at one time.
  placeLanes() {
    const widths = new Uint32Array(this.tasks.length);
    for (const task of this.tasks.toReversed()) {
      const wide = task.groups.map((group) => group.children.reduce((sum, child) => sum + widths[child], 0));
      widths[task.number] = 1 + wide.reduce((most, each) => Math.max(most, each), 0);
    }
    this.columns = Array.from({ length: widths[0] }, () => []);
    for (const task of this.tasks) {
      this.columns[task.column].push(task);
      for (const group of task.groups) {
        let column = task.column + 1;
        for (const child of group.children) {
          this.tasks[child].column = column;
          column += widths[child];
        }
      }
    }
  }

  // The prints in the order of the output, which is that of the branches, and not that of the events. Behind a branch that trapped, what its
  // later siblings have printed is dropped.
  rankPrints() {
    this.printed = [];
    const steps = [{ task: this.tasks[0], dropped: false }];
    while (steps.length) {
      const { task, dropped, print } = steps.pop();
      if (print !== undefined) {
        this.printed.push({ index: print, dropped });
        continue;
      }
      const parts = [
        ...task.prints.map((index) => ({ at: index, print: index, dropped })),
        ...task.groups.map((group) => ({ at: group.fork, group })),
      ].sort((one, other) => one.at - other.at);
      const own = [];
      for (const part of parts) {
        if (!part.group) own.push(part);
        else {
          let drops = dropped;
          for (const child of part.group.children) {
            own.push({ task: this.tasks[child], dropped: drops });
            drops = drops || this.tasks[child].trapped;
          }
        }
      }
      while (own.length) steps.push(own.pop());
    }
  }

  // What `run` writes.
  output() {
    if (this.ending === "limit") return "limit\n";
    return [...this.printed.filter((it) => !it.dropped).map((it) => printedLine(this.events[it.index])), this.ending].map((line) => line + "\n").join("");
  }
}

function newTask(number, parent) {
  return {
    number, parent: parent ? parent.number : -1, depth: parent ? parent.depth + 1 : 0, begin: -1, end: -1, join: -1, column: 0, events: 0,
    groups: [], group: null, of: null, prints: [], inside: parent ? parent.inside : -1, entries: 0, trapped: false,
  };
}

// The line that an event has printed, which it tells with its line feeds and backslashes escaped.
function printedLine(event) {
  return event.what.replace(/\\(.)/g, (_, letter) => (letter === "n" ? "\n" : letter));
}

// Each event in words.
function inWords(run, event) {
  const what = event.what;
  switch (event.kind) {
    case "new": return `makes ${what}`;
    case "read": return event.out ? `reads ${what.slice(0, -4)}, out of bounds` : `reads ${event.cell} and finds ${event.value}`;
    case "write": return event.out ? `writes ${what.slice(0, -4)}, out of bounds` : `sets ${event.cell} to ${event.value}`;
    case "look": return what.includes(" = ") ? `asks the length of ${what.replace(" = ", ", which is ")}` : `calls a method of ${what}`;
    case "print": return `prints ${what}`;
    case "fork": return `forks into ${what} ${what === "1" ? "branch" : "branches"}`;
    case "fork_nd": return `forks into ${what} ${what === "1" ? "branch" : "branches"} that may come in any order`;
    case "begin": return `begins its branch, task ${what}`;
    case "join": return "has waited for its branches, and goes on";
    case "rest": return "rests before it goes on";
    case "enter": return what === "pure" ? "enters an atomic block without effects" : `enters an atomic block that ${what}`;
    case "exit": return "leaves its atomic block";
    case "end": return what.startsWith("trap") ? `ends by a trap: ${what.slice(5)}` : what ? `ends with ${what}` : "ends";
    default: return `${event.kind} ${what}`;
  }
}
