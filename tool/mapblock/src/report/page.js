"use strict";
// Moves and enlarges the map under its scale bar, and tells the tags of what
// is pointed at. Without this script the page shows the whole map, and the
// browser tells an element's tags by itself.
(() => {
  const drawing = document.getElementById("drawing");
  const svg = drawing.querySelector("svg");
  const map = svg.querySelector("#map");
  if (!map) return;
  const tags = document.getElementById("tags");
  const scale = svg.querySelector("#scale");
  const STEP = 1.25, LARGEST = 400;
  // Offsets, in pixels, at which a thin line near the pointer still counts.
  const NEAR = [[0, 0], [3, 0], [-3, 0], [0, 3], [0, -3], [5, 5], [-5, 5], [5, -5], [-5, -5]];
  const view = { x: 0, y: 0, k: 1 };

  // The browser's own hints would cover this page's.
  const titled = [...map.querySelectorAll("title")].map((title) => {
    const element = title.parentNode;
    element.dataset.tags = title.textContent;
    title.remove();
    return element;
  });
  svg.querySelector("title")?.remove();
  const labels = [...map.querySelectorAll(".label")].map((label) => [label, label.getAttribute("transform")]);
  const points = titled.filter((element) => element.tagName === "circle");

  // Letters and points keep their size, however large the map is.
  function show() {
    const { x, y, k } = view;
    map.setAttribute("transform", `translate(${x.toFixed(2)} ${y.toFixed(2)}) scale(${k.toFixed(4)})`);
    for (const [label, place] of labels) label.setAttribute("transform", `${place} scale(${1 / k})`);
    for (const point of points) point.setAttribute("r", 2.5 / k);
    showScale();
  }

  // The longest round distance that fits, as the drawing itself has it.
  function showScale() {
    const metre = Number(scale.dataset.metre) * view.k;
    const metres = Number(scale.dataset.longest) / metre;
    const power = 10 ** Math.floor(Math.log10(metres));
    const round = power * [5, 2, 1].find((step) => step * power <= metres);
    const bar = scale.querySelector(".bar");
    const words = scale.querySelector(".words");
    const [, y, right] = /M\S+ (\S+) v6 H(\S+)/.exec(bar.getAttribute("d"));
    const left = (right - round * metre).toFixed(1);
    bar.setAttribute("d", `M${left} ${y} v6 H${right} v-6`);
    words.setAttribute("x", left);
    words.textContent = round >= 1000 ? `${round / 1000} km` : `${Number(round.toPrecision(1))} m`;
  }

  // A place of the window in the picture's own units.
  function placeOf(event) {
    const box = svg.getBoundingClientRect();
    const unit = svg.viewBox.baseVal.width / box.width;
    return { x: (event.clientX - box.left) * unit, y: (event.clientY - box.top) * unit, unit };
  }

  // Enlarges around a place, which stays where it is.
  function zoom(factor, at) {
    const k = Math.min(LARGEST, Math.max(1, view.k * factor));
    view.x = at.x - ((at.x - view.x) * k) / view.k;
    view.y = at.y - ((at.y - view.y) * k) / view.k;
    view.k = k;
    show();
  }

  function move(dx, dy) {
    view.x += dx;
    view.y += dy;
    show();
  }

  function whole() {
    Object.assign(view, { x: 0, y: 0, k: 1 });
    show();
  }

  let under = null;
  function point(event) {
    under?.classList.remove("under");
    under = null;
    for (const [dx, dy] of NEAR) {
      const found = document.elementFromPoint(event.clientX + dx, event.clientY + dy);
      if (found?.dataset?.tags) {
        under = found;
        break;
      }
    }
    tags.hidden = !under;
    if (!under) return;
    under.classList.add("under");
    tags.textContent = under.dataset.tags;
    const box = drawing.getBoundingClientRect();
    const right = box.width - tags.offsetWidth - 4, bottom = box.height - tags.offsetHeight - 4;
    tags.style.left = `${Math.max(0, Math.min(event.clientX - box.left + 14, right))}px`;
    tags.style.top = `${Math.max(0, Math.min(event.clientY - box.top + 14, bottom))}px`;
  }

  let held = null;
  svg.addEventListener("pointerdown", (event) => {
    held = placeOf(event);
    try {
      svg.setPointerCapture(event.pointerId);
    } catch {
      // The pointer has gone; the next event tells.
    }
  });
  svg.addEventListener("pointermove", (event) => {
    if (!held) return point(event);
    const now = placeOf(event);
    move(now.x - held.x, now.y - held.y);
    held = now;
  });
  for (const end of ["pointerup", "pointercancel"]) svg.addEventListener(end, () => { held = null; });
  svg.addEventListener("wheel", (event) => {
    event.preventDefault();
    zoom(event.deltaY < 0 ? STEP : 1 / STEP, placeOf(event));
  }, { passive: false });
  drawing.addEventListener("keydown", (event) => {
    const { width, height } = svg.viewBox.baseVal;
    const middle = { x: width / 2, y: height / 2 };
    const keys = {
      "+": () => zoom(STEP, middle),
      "-": () => zoom(1 / STEP, middle),
      "0": whole,
      ArrowLeft: () => move(50, 0),
      ArrowRight: () => move(-50, 0),
      ArrowUp: () => move(0, 50),
      ArrowDown: () => move(0, -50),
    };
    if (!keys[event.key]) return;
    event.preventDefault();
    keys[event.key]();
  });
})();
