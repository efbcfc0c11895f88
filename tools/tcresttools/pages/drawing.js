"use strict";
// The picture of a run on a canvas: a row for each core, from the first to the last cycle of a view.
const drawingOf = (canvas, run) => {
  const pen = canvas.getContext("2d");
  const LEFT = 112, RIGHT = 16, TOP = 8, AXIS = 26, ROW = 64, BAR_TOP = 14, BAR = 26, STRIP = 5;
  const LEAST_CYCLES = 12;
  const BOXED_SLOT = 1.2; // from so many pixels of a slot on, each span is a box
  const STACK = ["run", "code", "data", "read", "write", "unknown", "maybe", "wait"];
  const { cores, packets, shown, firstBehind } = run;
  const most = Math.max(run.last, LEAST_CYCLES);
  const view = { from: 0, to: most };
  const cursor = { cycle: null, row: 0 };
  const rowOf = new Map(cores.map((core, row) => [core.core, row]));
  let wide = 0;
  let colours = {};

  const scale = () => (wide - LEFT - RIGHT) / (view.to - view.from);
  const across = (cycle) => LEFT + (cycle - view.from) * scale();
  const cycleAt = (x) => view.from + (x - LEFT) / scale();
  const top = (row) => TOP + row * ROW;
  const rowAt = (y) => Math.min(Math.max(Math.floor((y - TOP) / ROW), 0), cores.length - 1);

  function readColours() {
    const style = getComputedStyle(document.documentElement);
    for (const name of [...run.kinds, "slot", "packet", "ink", "soft", "edge", "paper", "link"]) {
      colours[name] = style.getPropertyValue(`--${name}`).trim();
    }
  }

  function fitCanvas() {
    const ratio = window.devicePixelRatio || 1;
    const tall = TOP + ROW * cores.length + AXIS;
    wide = canvas.clientWidth;
    canvas.style.height = `${tall}px`;
    canvas.width = Math.round(wide * ratio);
    canvas.height = Math.round(tall * ratio);
    pen.setTransform(ratio, 0, 0, ratio, 0, 0);
  }

  // How many cycles lie between two numbers of the axis: slots where they are wide, else 1, 2 or 5 with zeros.
  function tickStep() {
    const least = 78 / scale();
    if (least <= run.slot * 4) return run.slot * Math.max(1, Math.ceil(least / run.slot));
    const power = 10 ** Math.floor(Math.log10(least));
    return power * [1, 2, 5, 10].find((factor) => factor * power >= least);
  }

  function drawAxis() {
    const step = tickStep(), bottom = TOP + ROW * cores.length;
    pen.textAlign = "center";
    for (let cycle = Math.ceil(view.from / step) * step; cycle <= view.to; cycle += step) {
      pen.fillStyle = colours.edge;
      pen.fillRect(Math.round(across(cycle)), TOP, 1, bottom - TOP);
      pen.fillStyle = colours.soft;
      pen.fillText(shown(cycle), across(cycle), bottom + 17);
    }
    pen.textAlign = "left";
    pen.fillStyle = colours.soft;
    pen.fillText("cycle", 0, bottom + 17);
  }

  function drawSlots(core, y) {
    if (run.slot * scale() < 1.5) return;
    pen.fillStyle = colours.slot;
    for (let number = Math.floor(view.from / run.slot); number * run.slot < view.to; number++) {
      if (run.table[number % run.table.length] !== core.core) continue;
      const left = Math.max(across(number * run.slot), LEFT);
      const right = Math.min(across((number + 1) * run.slot), wide - RIGHT);
      const gap = run.slot * scale() > 6 ? 1 : 0;
      pen.fillRect(left, y + BAR_TOP - STRIP - 3, right - left - gap, STRIP);
    }
  }

  // Each span as a box, where a slot is wide enough to be seen.
  function drawBoxes(core, y) {
    for (let at = firstBehind(core.spans, view.from); at < core.spans.length; at++) {
      const span = core.spans[at];
      if (span.start >= view.to) break;
      const left = Math.max(across(span.start), LEFT), right = Math.min(across(span.end), wide - RIGHT);
      pen.fillStyle = colours[span.kind];
      const gap = span.words && right - left > 4 ? 1 : 0;
      pen.fillRect(left, y + BAR_TOP, Math.max(right - left - gap, 0.75), BAR);
      if (span.words && right - left > 12) {
        pen.fillStyle = span.kind === "data" ? "#10233a" : "#ffffff";
        pen.textAlign = "center";
        pen.fillText(String(span.words), (left + right) / 2, y + BAR_TOP + 17);
      }
    }
    pen.textAlign = "left";
  }

  // In each column of pixels the shares of what is done there, where many spans fall into one.
  function drawShares(core, y) {
    const columns = Math.floor(wide - LEFT - RIGHT), perPixel = 1 / scale();
    const shares = STACK.map(() => new Float32Array(columns));
    for (let at = firstBehind(core.spans, view.from); at < core.spans.length; at++) {
      const span = core.spans[at];
      if (span.start >= view.to) break;
      const share = shares[STACK.indexOf(span.kind)];
      const from = Math.max((span.start - view.from) / perPixel, 0);
      const to = Math.min((span.end - view.from) / perPixel, columns);
      for (let column = Math.floor(from); column < to; column++) {
        share[column] += Math.min(to, column + 1) - Math.max(from, column);
      }
    }
    for (let column = 0; column < columns; column++) {
      let bottom = y + BAR_TOP + BAR;
      STACK.forEach((kind, number) => {
        const tall = shares[number][column] * BAR;
        if (tall <= 0) return;
        pen.fillStyle = colours[kind];
        pen.fillRect(LEFT + column, bottom - tall, 1, tall);
        bottom -= tall;
      });
    }
  }

  // A mark at the cycle at which a task starts or ends, and what became of it beside the end.
  function drawEnds(core, y) {
    const seen = (cycle) => cycle !== null && cycle >= view.from && cycle <= view.to;
    const mark = (cycle) => pen.fillRect(across(cycle) - 0.75, y + BAR_TOP - 3, 1.5, BAR + 6);
    pen.fillStyle = colours.ink;
    if (core.start && seen(core.start)) mark(core.start);
    if (core.start === null) {
      pen.fillStyle = colours.soft;
      pen.fillText(core.ended, LEFT + 4, y + BAR_TOP + 17);
    } else if (core.end === null) {
      pen.fillText(core.ended, LEFT + 4, y + BAR_TOP + BAR + 14);
    } else if (seen(core.end)) {
      mark(core.end);
      const words = core.ended.startsWith("trap") ? core.ended : `${core.ended} at ${shown(core.end)}`;
      const x = across(core.end), size = pen.measureText(words).width;
      if (x + size + 6 < wide - RIGHT) pen.fillText(words, x + 6, y + BAR_TOP + 17);
      else pen.fillText(words, Math.max(x - size - 3, LEFT), y + BAR_TOP + BAR + 14);
    }
  }

  function drawRow(core, row) {
    const y = top(row);
    pen.fillStyle = colours.ink;
    pen.font = "600 13px system-ui, sans-serif";
    pen.fillText(`core ${core.core}`, 0, y + BAR_TOP + 12);
    pen.font = "12px system-ui, sans-serif";
    pen.fillStyle = colours.soft;
    pen.fillText(core.name, 0, y + BAR_TOP + 27);
    drawSlots(core, y);
    if (scale() * run.slot < BOXED_SLOT) drawShares(core, y); else drawBoxes(core, y);
    drawEnds(core, y);
  }

  function drawPackets() {
    pen.save();
    pen.beginPath();
    pen.rect(LEFT - 4, 0, wide - LEFT - RIGHT + 8, TOP + ROW * cores.length);
    pen.clip();
    pen.strokeStyle = pen.fillStyle = colours.packet;
    pen.lineWidth = 1.5;
    for (const packet of packets) {
      if (packet.due < view.from || packet.sent > view.to) continue;
      const down = rowOf.get(packet.target) > rowOf.get(packet.sender);
      const edge = (row, lower) => top(row) + BAR_TOP + (lower ? BAR + 1 : -1);
      const from = [across(packet.sent), edge(rowOf.get(packet.sender), down)];
      const to = [across(packet.due), edge(rowOf.get(packet.target), !down)];
      pen.beginPath();
      pen.moveTo(...from);
      pen.lineTo(...to);
      pen.stroke();
      pen.beginPath();
      pen.arc(...from, 2.5, 0, 7);
      pen.fill();
      const angle = Math.atan2(to[1] - from[1], to[0] - from[0]);
      pen.beginPath();
      pen.moveTo(...to);
      for (const turn of [2.7, -2.7]) pen.lineTo(to[0] + 8 * Math.cos(angle + turn), to[1] + 8 * Math.sin(angle + turn));
      pen.fill();
    }
    pen.restore();
  }

  function drawCursor() {
    if (cursor.cycle === null || cursor.cycle < view.from || cursor.cycle >= view.to) return;
    pen.fillStyle = colours.link;
    const x = across(cursor.cycle + 0.5);
    pen.fillRect(x - 0.5, TOP, 1, ROW * cores.length);
    pen.fillRect(x - 4, top(cursor.row) + BAR_TOP + BAR + 2, 8, 3);
  }

  function draw() {
    if (wide <= LEFT + RIGHT) return; // the page is hidden, or about to go
    pen.clearRect(0, 0, wide, canvas.height);
    pen.font = "12px system-ui, sans-serif";
    drawAxis();
    cores.forEach(drawRow);
    drawPackets();
    drawCursor();
  }

  function redraw() {
    readColours();
    fitCanvas();
    draw();
  }

  // Shows these cycles, as far as there are such, and at least some.
  function look(from, to) {
    const size = Math.min(Math.max(to - from, LEAST_CYCLES), most);
    view.from = Math.min(Math.max(from, 0), most - size);
    view.to = view.from + size;
    canvas.dataset.from = view.from;
    canvas.dataset.to = view.to;
    draw();
  }

  // Shows so many times as many cycles, with one of them at its place.
  function zoom(factor, cycle) {
    const size = Math.min(Math.max((view.to - view.from) * factor, LEAST_CYCLES), most);
    const share = (cycle - view.from) / (view.to - view.from);
    look(cycle - share * size, cycle + (1 - share) * size);
  }

  new ResizeObserver(redraw).observe(canvas);
  matchMedia("(prefers-color-scheme: dark)").addEventListener("change", redraw);
  addEventListener("beforeprint", () => { document.documentElement.dataset.print = "1"; redraw(); });
  addEventListener("afterprint", () => { delete document.documentElement.dataset.print; redraw(); });
  redraw();
  return { view, cursor, left: LEFT, scale, cycleAt, rowAt, draw, look, zoom };
};
