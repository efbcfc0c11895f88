"use strict";
// Links between the parts of a page: what belongs together is marked together, by the mouse or by keys.
// Each element that stands for a part of a task has its key in `data-part`, a line of C several keys, the innermost first.
const links = (() => {
  const keysOf = (element) => (element.dataset.part || "").split(" ").filter(Boolean);

  // Scrolls a pane, and nothing around it, so that an element is seen.
  function show(pane, element) {
    const box = pane.getBoundingClientRect();
    const inside = element.getBoundingClientRect();
    if (inside.top < box.top + 30 || inside.bottom > box.bottom) {
      pane.scrollTop += inside.top - box.top - pane.clientHeight / 3;
    }
  }

  // Marks all that has this key, and shows the first of it in each pane but the one of `from`.
  function mark(key, from) {
    document.querySelectorAll(".marked").forEach((element) => {
      element.classList.remove("marked");
      element.removeAttribute("aria-current");
    });
    const shown = new Set(from ? [from.closest(".pane")] : []);
    document.querySelectorAll(`[data-part~="${key}"]`).forEach((element) => {
      element.classList.add("marked");
      element.setAttribute("aria-current", "true");
      const pane = element.closest(".pane");
      if (pane && !shown.has(pane)) {
        shown.add(pane);
        show(pane, element);
      }
    });
  }

  document.addEventListener("click", (event) => {
    const from = event.target.closest("[data-part]");
    if (!from || event.ctrlKey || event.metaKey || event.shiftKey) return;
    event.preventDefault();
    mark(keysOf(from)[0], from);
  });

  // In a pane one link is reached by Tab, and the arrow keys go from link to link.
  document.querySelectorAll(".pane").forEach((pane) => {
    const all = [...pane.querySelectorAll("a[data-part]")];
    all.forEach((link, at) => { link.tabIndex = at === 0 ? 0 : -1; });
    pane.addEventListener("keydown", (event) => {
      const step = { ArrowDown: 1, ArrowUp: -1 }[event.key];
      const at = all.indexOf(document.activeElement);
      if (!step || at < 0) return;
      event.preventDefault();
      const goal = all[Math.min(Math.max(at + step, 0), all.length - 1)];
      all[at].tabIndex = -1;
      goal.tabIndex = 0;
      goal.focus({ preventScroll: true });
      show(pane, goal);
    });
  });

  // A fragment names a part of the page.
  const start = document.getElementById(location.hash.slice(1));
  if (start && start.dataset.part) mark(keysOf(start)[0], null);
  return { mark };
})();
