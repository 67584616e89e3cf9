"use strict";
// What of a run is in which order: what comes before and after an event, which accesses conflict, and the run with its blocks gathered.

const NONE = 0, BEFORE = 1, AFTER = 2, ITSELF = 3;

// Of each event whether it is ordered before or after a chosen one, by the order within each task, from a begin to its branch, and from the end of
// a branch to the join.
function relationTo(run, chosen) {
  const relation = new Uint8Array(run.events.length);
  const start = run.events[chosen];
  relation[chosen] = ITSELF;
  const reached = new Uint8Array(run.tasks.length);
  reached[start.task] = 1;
  if (start.began) reached[start.began] = 1;
  for (let index = chosen + 1; index < run.events.length; index += 1) {
    const event = run.events[index];
    if (!reached[event.task] && event.group?.children.some((child) => reached[child])) reached[event.task] = 1;
    if (!reached[event.task]) continue;
    relation[index] = AFTER;
    if (event.began) reached[event.began] = 1;
  }
  const needed = new Uint8Array(run.tasks.length);
  const need = (event) => {
    needed[event.task] = 1;
    if (event.group) for (const child of event.group.children) needed[child] = 1;
  };
  need(start);
  for (let index = chosen - 1; index >= 0; index -= 1) {
    const event = run.events[index];
    if (!needed[event.task] && !(event.began && needed[event.began])) continue;
    relation[index] = BEFORE;
    need(event);
  }
  return relation;
}

// Whether the accesses of two tasks are in no order: these lie below two branches of one construct. (A task makes no access between the fork of
// its branches and their join, so with those above and below it all its accesses are ordered.)
function areApart(run, one, other) {
  let left = run.tasks[one], right = run.tasks[other];
  while (left.depth > right.depth) left = run.tasks[left.parent];
  while (right.depth > left.depth) right = run.tasks[right.parent];
  if (left === right) return false;
  while (left.parent !== right.parent) [left, right] = [run.tasks[left.parent], run.tasks[right.parent]];
  return left.of === right.of;
}

function conflict(run, one, other) {
  return one.cell && one.cell === other.cell && (one.kind === "write" || other.kind === "write") && areApart(run, one.task, other.task);
}

// The events that conflict with one.
function partners(run, event) {
  return event.cell ? run.events.filter((other) => conflict(run, event, other)).map((other) => other.index) : [];
}

// Marks the accesses and the blocks that conflict with others; gives how many accesses do.
function markConflicts(run) {
  const cells = new Map();
  for (const event of run.events) {
    if (!event.cell) continue;
    let users = cells.get(event.cell);
    if (!users) cells.set(event.cell, (users = { tasks: new Map(), written: false }));
    let user = users.tasks.get(event.task);
    if (!user) users.tasks.set(event.task, (user = { task: event.task, reads: [], writes: [], hit: false, met: false }));
    (event.kind === "write" ? user.writes : user.reads).push(event);
    users.written ||= event.kind === "write";
  }
  let count = 0;
  for (const { tasks, written } of cells.values()) {
    if (!written || tasks.size < 2) continue;
    const users = [...tasks.values()];
    for (const user of users) {
      meet(run, user, users);
      for (const event of [...(user.met ? user.writes : []), ...(user.hit ? user.reads : [])]) {
        event.clash = true;
        count += 1;
        if (event.block >= 0) run.blocks[event.block].clash = true;
      }
    }
  }
  return count;
}

// Of a user of a cell, whether another one that is in no order with it writes the cell (`hit`), or uses it at all (`met`).
function meet(run, user, users) {
  for (const other of users) {
    if (other === user || (user.met && !other.writes.length) || !areApart(run, user.task, other.task)) continue;
    user.met = true;
    user.hit ||= other.writes.length > 0;
    if (user.hit) return;
  }
}

// The events in their order, or with the events of each block together at its entry.
function orderOf(run, isGathered) {
  if (!isGathered) return run.events.map((event) => event.index);
  const order = [];
  for (const event of run.events) {
    if (event.block < 0) order.push(event.index);
    else if (run.blocks[event.block].events[0] === event.index) for (const index of run.blocks[event.block].events) order.push(index);
  }
  return order;
}

// The rows that are shown of an order: each an event, or a stretch of one task that is folded.
const UNFOLDED = new Set(["fork", "fork_nd", "begin", "join", "enter", "exit", "end"]);
const SHORTEST_FOLD = 3;

function rowsOf(run, order, isFolding, opened) {
  const rows = [];
  let at = 0;
  while (at < order.length) {
    const first = run.events[order[at]];
    let last = at;
    if (isFolding && !UNFOLDED.has(first.kind)) {
      while (last + 1 < order.length && run.events[order[last + 1]].task === first.task && !UNFOLDED.has(run.events[order[last + 1]].kind)) last += 1;
    }
    const size = last - at + 1;
    if (size >= SHORTEST_FOLD && !opened.has(first.index)) rows.push({ first: at, last, fold: true });
    else for (let each = at; each <= last; each += 1) rows.push({ first: each, last: each, fold: false, opens: size >= SHORTEST_FOLD && each === at });
    at = last + 1;
  }
  return rows;
}

// What has changed when the run stands behind its first events in some order: the cells with their latest values. It is moved step by step.
class Heap {
  constructor(run, order) {
    [this.run, this.order, this.made, this.values] = [run, order, 0, new Map()];
    const latest = new Map();
    this.before = new Map();
    for (const index of order) {
      const event = run.events[index];
      if (event.kind !== "write" || !event.cell) continue;
      this.before.set(index, latest.get(event.cell));
      latest.set(event.cell, event.value);
    }
  }

  move(count) {
    for (; this.made < count; this.made += 1) {
      const event = this.run.events[this.order[this.made]];
      if (this.before.has(event.index)) this.values.set(event.cell, event.value);
    }
    while (this.made > count) {
      this.made -= 1;
      const event = this.run.events[this.order[this.made]];
      if (!this.before.has(event.index)) continue;
      const old = this.before.get(event.index);
      if (old === undefined) this.values.delete(event.cell);
      else this.values.set(event.cell, old);
    }
  }
}
