// Goes through a page as a person would, and notes what is seen, for tests/slow/pages.py.
const step = (key) => document.body.dispatchEvent(new KeyboardEvent("keydown", { key, bubbles: true }));
const lit = () => Number(document.querySelector("#source .lit")?.id.slice(5) ?? 0);

// Steps through the run, event by event, or through a longer one by as many as a key takes.
function through() {
  const lanes = new Set(), marks = new Set(), lines = [], key = view.order.length > 800 ? "PageDown" : "ArrowRight";
  const look = () => {
    // Also a little above what a step brings into view.
    for (const above of [0, 10 * ROW]) {
      document.getElementById("scroller").scrollTop -= above;
      view.lanes.draw();
      for (const lane of document.querySelectorAll("#graph [data-task]")) lanes.add(Number(lane.dataset.task));
      for (const mark of document.querySelectorAll("#graph [data-event]")) marks.add(Number(mark.dataset.event));
    }
  };
  step("Home");
  const first = [document.getElementById("count").textContent, lit()];
  look();
  while (view.made < view.order.length) {
    step(key);
    look();
    lines.push([view.made, lit()]);
  }
  return { first, lanes: lanes.size, marks: marks.size, lines };
}

function printed() {
  return [...document.querySelectorAll("#printed li:not(.dropped)")].map((line) => line.textContent);
}

// What is chosen, and how many events are before, after and in no order with it.
function chosen(index) {
  view.choose(index);
  const counts = /(\d+) events? comes? before it in every order, (\d+) events? after it, and (\d+) events? (?:is|are) in/.exec(document.getElementById("choice").textContent);
  step("Escape");
  return [index, ...counts.slice(1).map(Number)];
}

// A row is clicked, and then once more; what is chosen meanwhile and afterwards.
function clicked() {
  const row = () => document.querySelector("#texts .row .what");
  const chosen = () => (view.chosen === null ? null : view.chosen + 1);
  step("Home");
  view.lanes.draw();
  row().click();
  const found = [chosen()];
  view.lanes.draw();
  row().click();
  return [...found, chosen()];
}

// A folded stretch is opened and closed again: the rows before that, in it, and after each.
function unfolded() {
  step("Home");
  view.lanes.draw();
  const button = document.querySelector("#texts .opens");
  if (!button) return null;
  const found = [view.lanes.rows.length, parseInt(button.textContent, 10)];
  button.click();
  found.push(view.lanes.rows.length);
  view.lanes.draw();
  document.querySelector("#texts .closes").click();
  return [...found, view.lanes.rows.length];
}

function slid(made) {
  const slider = document.getElementById("slider");
  slider.value = made;
  slider.dispatchEvent(new Event("input"));
  return [document.getElementById("count").textContent, lit()];
}

function looked() {
  const loaded = performance.now();
  const { run } = view, count = run.events.length;
  if (view.isFolding) step("f");
  const found = { through: through(), printed: printed(), slid: [], chosen: [] };
  found.cells = Object.fromEntries(view.heap.values);
  for (let part = 0; part <= 4; part += 1) found.slid.push(slid(Math.floor((count * part) / 4)));
  for (let part = 0; part < 6; part += 1) found.chosen.push(chosen(Math.min(count - 1, Math.floor((count * part) / 5))));
  found.clicked = clicked();
  found.clashes = run.events.filter((event) => event.clash).map((event) => event.index + 1);
  step("g");
  found.gathered = view.order.map((index) => index + 1);
  step("End");
  found.printed_gathered = printed();
  step("f");
  found.unfolded = unfolded();
  found.rows = view.lanes.rows.map((row) => row.last - row.first + 1);
  return { ...found, loaded };
}

let looking;
try {
  looking = looked();
} catch (error) {
  heard.push(String(error.stack ?? error));
}
const seen = document.createElement("script");
seen.type = "application/json";
seen.id = "seen";
seen.textContent = JSON.stringify({ ...looking, heard }).replaceAll("<", "\\u003c");
document.body.append(seen);
