"use strict";
// What the cores of a job do from cycle to cycle: the data of the page, and what they say in words.
const run = (() => {
  const given = document.getElementById("timeline-data");
  if (!given) return null;
  const data = JSON.parse(given.textContent);

  const cores = data.cores.map((core) => {
    const spans = [];
    for (let at = 0; at < core.spans.length; at += 4) {
      const [start, end, kind, words] = core.spans.slice(at, at + 4);
      spans.push({ start, end, kind: data.kinds[kind], words });
    }
    return { ...core, spans };
  });
  const packets = data.packets.map(([sender, target, sent, due, source, first, words]) =>
    ({ sender, target, sent, due, source, first, words }));
  const shown = (number) => number.toLocaleString("en-US");

  // The number of the first span that ends behind a cycle.
  function firstBehind(spans, cycle) {
    let low = 0, high = spans.length;
    while (low < high) {
      const middle = (low + high) >> 1;
      if (spans[middle].end > cycle) high = middle; else low = middle + 1;
    }
    return low;
  }

  // What a transaction moves, in words.
  function moved(span) {
    const what = { code: " of code", data: " of data", read: "", write: "" }[span.kind];
    const verb = span.kind === "write" ? "write" : "read";
    return [verb, `${span.words} word${span.words === 1 ? "" : "s"}${what}`];
  }

  // What a core does in a cycle.
  function spanWords(core, cycle) {
    if (core.start === null) return "idle";
    if (cycle < core.start) return `not started: it starts at ${shown(core.start)}`;
    if (core.end !== null && cycle >= core.end) return core.ended;
    const at = firstBehind(core.spans, cycle), span = core.spans[at];
    if (!span || span.start > cycle) return core.ended;
    const range = `${shown(span.start)} to ${shown(span.end - 1)}`;
    if (span.words) {
      const [verb, words] = moved(span);
      return `${verb}s ${words} (${range})`;
    }
    const next = core.spans[at + 1];
    const goal = next && next.words ? ` at ${shown(next.start)}, to ${moved(next).join(" ")}` : "";
    if (span.kind === "wait") return `waits for its slot${goal}`;
    if (span.kind === "maybe") return `waits for its slot${goal}, or still does bundles`;
    if (span.kind === "unknown") return "its transactions are not listed any more";
    return `does bundles (${range})`;
  }

  // The packets that a core sends or that come to it in a cycle, give or take some cycles.
  function packetWords(core, cycle, near) {
    const found = [];
    for (const packet of packets) {
      const words = packet.words === 1 ? `word ${packet.first}` : `words ${packet.first} and ${packet.first + 1}`;
      if (packet.sender === core.core && Math.abs(packet.sent - cycle) <= near) {
        found.push(`sends a packet at ${shown(packet.sent)} to ${words} of core ${packet.target}, which comes at ${shown(packet.due)}`);
      }
      if (packet.target === core.core && Math.abs(packet.due - cycle) <= near) {
        found.push(`a packet from core ${packet.sender} comes at ${shown(packet.due)} to ${words}`);
      }
    }
    return found;
  }

  // All that is read off of a core at a cycle.
  function words(core, cycle, near) {
    const owner = data.table[Math.floor(cycle / data.slot) % data.table.length];
    const slot = owner === core.core ? "in its own slot" : `in a slot of core ${owner}`;
    const what = [spanWords(core, cycle), ...packetWords(core, cycle, near), slot];
    return [`cycle ${shown(cycle)}`, `core ${core.core}`, ...what].join(" · ");
  }

  // The part of the text that a core is in: marks are pairs of a cycle and a part.
  function partAt(core, cycle) {
    let low = 0, high = core.marks.length / 2;
    while (low < high) {
      const middle = (low + high) >> 1;
      if (core.marks[2 * middle] > cycle) high = middle; else low = middle + 1;
    }
    return low && core.start !== null && cycle >= core.start && (core.end === null || cycle < core.end)
      ? `core-${core.core}-part-${core.marks[2 * low - 1]}` : null;
  }

  // The next cycle, in a direction, at which a core begins something else.
  function nextChange(core, cycle, step) {
    const at = firstBehind(core.spans, cycle);
    if (step > 0) return core.spans[at] ? core.spans[at].end : cycle;
    const span = core.spans[at];
    if (span && span.start < cycle) return span.start;
    return at > 0 ? core.spans[at - 1].start : cycle;
  }

  return { slot: data.slot, table: data.table, last: data.last, kinds: data.kinds, cores, packets,
    shown, firstBehind, words, partAt, nextChange };
})();
