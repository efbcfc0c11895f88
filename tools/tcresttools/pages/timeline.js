"use strict";
// The timeline of all cores: zoomed by wheel and keys, and read off by mouse and keys.
(() => {
  const canvas = document.getElementById("timeline");
  if (!canvas || !run) return;
  const reading = document.getElementById("reading");
  const drawing = drawingOf(canvas, run);
  const { view, cursor, scale, look, zoom } = drawing;

  // Says what the core of the cursor does, and in which part of its text.
  function read() {
    if (cursor.cycle === null) return;
    const core = run.cores[cursor.row];
    reading.className = "";
    reading.textContent = run.words(core, cursor.cycle, Math.max(0.5, 2 / scale()));
    const part = document.getElementById(run.partAt(core, cursor.cycle) || "");
    if (part) {
      const code = document.createElement("code");
      code.textContent = part.querySelector("a").textContent;
      const isC = part.closest("table").classList.contains("time");
      const line = isC ? part.querySelector("th").textContent : "";
      reading.append(isC ? " · in " : " · at ", code, line ? ` (line ${line})` : "");
    }
    canvas.dataset.cycle = cursor.cycle;
    canvas.dataset.core = core.core;
  }

  function pointAt(cycle, row) {
    cursor.cycle = Math.min(Math.max(Math.floor(cycle), 0), Math.ceil(run.last));
    cursor.row = Math.min(Math.max(row, 0), run.cores.length - 1);
    drawing.draw();
    read();
  }

  const isSeen = () => cursor.cycle !== null && cursor.cycle >= view.from && cursor.cycle < view.to;
  const middle = () => (isSeen() ? cursor.cycle + 0.5 : (view.from + view.to) / 2);
  const whole = () => look(0, run.last);

  // Keeps the cursor in the view.
  function follow() {
    const half = (view.to - view.from) / 2;
    if (!isSeen()) look(cursor.cycle - half, cursor.cycle + half);
  }

  function moveBy(step, far) {
    if (cursor.cycle === null) return pointAt(view.from, cursor.row);
    const core = run.cores[cursor.row];
    pointAt(far ? run.nextChange(core, cursor.cycle, step) : cursor.cycle + step, cursor.row);
    follow();
  }

  function pan(share) {
    const by = (view.to - view.from) * share;
    look(view.from + by, view.to + by);
  }

  function markHere() {
    const part = cursor.cycle === null ? null : run.partAt(run.cores[cursor.row], cursor.cycle);
    if (part) links.mark(part, null);
  }

  const keys = {
    "+": () => zoom(0.7, middle()), "=": () => zoom(0.7, middle()), "-": () => zoom(1 / 0.7, middle()), "0": whole,
    ArrowLeft: (far) => moveBy(-1, far), ArrowRight: (far) => moveBy(1, far),
    ArrowUp: () => pointAt(cursor.cycle ?? view.from, cursor.row - 1),
    ArrowDown: () => pointAt(cursor.cycle ?? view.from, cursor.row + 1),
    PageUp: () => pan(-0.8), PageDown: () => pan(0.8),
    Home: () => { pointAt(0, cursor.row); follow(); }, End: () => { pointAt(run.last, cursor.row); follow(); },
    Enter: markHere,
  };
  canvas.addEventListener("keydown", (event) => {
    const act = keys[event.key];
    if (!act || event.ctrlKey || event.altKey || event.metaKey) return;
    event.preventDefault();
    act(event.shiftKey);
    read();
  });

  canvas.addEventListener("wheel", (event) => {
    const out = event.deltaY > 0;
    if (out && view.to - view.from >= run.last) return; // all is shown: the page scrolls on
    event.preventDefault();
    if (event.shiftKey || Math.abs(event.deltaX) > Math.abs(event.deltaY)) {
      const by = ((event.deltaX || event.deltaY) / 4) / scale();
      look(view.from + by, view.to + by);
    } else {
      zoom(out ? 1.25 : 0.8, Math.max(drawing.cycleAt(event.offsetX), 0));
    }
  }, { passive: false });

  let dragged = null, moving = false;
  canvas.addEventListener("pointerdown", (event) => {
    dragged = event.offsetX;
    moving = false;
    canvas.setPointerCapture(event.pointerId);
  });
  canvas.addEventListener("pointerup", () => {
    if (dragged !== null && !moving) markHere();
    dragged = null;
  });
  canvas.addEventListener("pointermove", (event) => {
    if (dragged !== null && (moving || Math.abs(event.offsetX - dragged) > 3)) {
      const by = (dragged - event.offsetX) / scale();
      moving = true;
      dragged = event.offsetX;
      look(view.from + by, view.to + by);
    } else if (event.offsetX >= drawing.left) {
      pointAt(drawing.cycleAt(event.offsetX), drawing.rowAt(event.offsetY));
    }
  });

  const buttons = { in: () => zoom(0.5, middle()), out: () => zoom(2, middle()), whole };
  document.querySelectorAll("[data-zoom]").forEach((button) => {
    button.addEventListener("click", () => buttons[button.dataset.zoom]());
  });
  whole();
})();
