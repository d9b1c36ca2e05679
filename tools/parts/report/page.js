// The filter: a thread or a set is picked, and what belongs to another one is hidden. What belongs to none stays. So it is with events. In a flame graph a
// function is picked, which gets the whole width.
"use strict";
(function () {
  const chips = Array.from(document.querySelectorAll(".filter button"));
  const parts = Array.from(document.querySelectorAll("main [data-thread]"));
  const ofEvents = Array.from(document.querySelectorAll("main [data-event]"));

  function belongs(part, thread, set) {
    if (thread !== null && part.dataset.thread !== thread) return false;
    return set === null || !part.dataset.set || part.dataset.set === set;
  }

  function showEvent(event) {
    for (const part of ofEvents) part.hidden = part.dataset.event !== event;
  }

  // What is beside the picked function and beside those around it is hidden.
  function widen(label) {
    const flame = label.closest(".flame");
    for (const part of flame.querySelectorAll(".part")) {
      part.hidden = false;
      part.style.width = part.dataset.width = part.dataset.width || part.style.width;
    }
    for (let part = label.parentElement; part !== flame; part = part.parentElement) {
      if (!part.classList.contains("part")) continue;
      for (const other of part.parentElement.children) if (other !== part) other.hidden = true;
      part.style.width = "100%";
    }
  }

  function show(chosen) {
    if (chosen.dataset.pickEvent !== undefined) showEvent(chosen.dataset.pickEvent);
    const set = chosen.dataset.pickSet === undefined ? null : chosen.dataset.pickSet;
    const thread = set !== null ? set.split(".")[0] : chosen.dataset.pickThread === undefined ? null : chosen.dataset.pickThread;
    for (const part of parts) {
      const off = !belongs(part, thread, set);
      if (part instanceof SVGElement) part.toggleAttribute("data-off", off);
      else part.hidden = off;
    }
    for (const chip of chips) chip.setAttribute("aria-pressed", String(chip === chosen));
  }

  for (const chip of chips) chip.addEventListener("click", function () { show(chip); });
  if (chips.length) show(chips[0]);
  for (const label of document.querySelectorAll(".bar-of")) label.addEventListener("click", function () { widen(label); });

  // All is open on paper.
  window.addEventListener("beforeprint", function () {
    for (const part of document.querySelectorAll("details")) part.open = true;
  });
})();
