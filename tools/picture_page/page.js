// Shows the steps of a run. Each step of the data has only what it changed; a state is made by taking the steps in order.
"use strict";
(() => {
  const data = JSON.parse(document.getElementById("data").textContent);
  const byId = (id) => document.getElementById(id);
  const buttons = [...document.querySelectorAll(".script button")];

  // ---- states

  const countOf = (format) => (format === 1 ? 273 : 4369);
  const leafStart = (format) => (format === 1 ? 17 : 273);

  function leafOf(ring, key) {
    return data.leaves[`${ring.format} ${ring.ranges} ${key}`];
  }

  function begin(ring) {
    const state = { ring, up: {}, hints: {}, slots: { free: 8, lent: 0, target: 8 }, entries: {}, digests: {}, rows: {}, changed: {}, leaf: null };
    for (const node of ring.nodes) state.up[node] = 1;
    for (const node of ring.shown) {
      state.digests[node] = new Array(countOf(ring.format)).fill(-1);
      state.rows[node] = {};
    }
    return state;
  }

  function take(state, step) {
    if (step.ring) state = begin(step.ring);
    state.changed = {};
    Object.assign(state.up, step.up);
    Object.assign(state.slots, step.slots);
    Object.assign(state.entries, step.entries);
    if (step.hints) state.hints = step.hints;
    for (const [node, runs] of Object.entries(step.trees || {})) {
      state.changed[node] = new Set();
      for (const [place, count, digest] of runs) {
        for (let at = place; at < place + count; at++) {
          state.digests[node][at] = digest;
          state.changed[node].add(at);
        }
      }
    }
    for (const [node, rows] of Object.entries(step.rows || {})) {
      Object.assign(state.rows[node], rows);
      state.leaf = leafOf(state.ring, Object.keys(rows)[0]);
    }
    return state;
  }

  let state = begin(data.first);
  let taken = 0;

  // Makes the state after a step, from that of the page or from the beginning.
  function reach(number) {
    if (number < taken - 1 || taken === 0) {
      state = begin(data.first);
      taken = 0;
    }
    while (taken <= number && taken < data.steps.length) state = take(state, data.steps[taken++]);
  }

  // ---- trees

  const parentOf = (at) => (at < 17 ? 0 : at < 273 ? 1 + Math.floor((at - 17) / 16) : 17 + Math.floor((at - 273) / 16));

  // The nodes at which two clean trees differ: those whose digests differ, and those of all nodes above them.
  function differing() {
    const [a, b] = state.ring.shown.map((node) => state.digests[node]);
    const found = new Set();
    if (!b || a[0] < 0 || b[0] < 0) return found;
    for (let at = 0; at < a.length; at++) {
      if (a[at] !== b[at] && (at === 0 || found.has(parentOf(at)))) found.add(at);
    }
    return found;
  }

  function nameOf(at) {
    return at === 0 ? "(0,0)" : at < 17 ? `(1,${at - 1})` : at < 273 ? `(2,${at - 17})` : `(3,${at - 273})`;
  }

  const svgNames = "http://www.w3.org/2000/svg";
  const made = (name, attributes) => {
    const element = document.createElementNS(svgNames, name);
    for (const [key, value] of Object.entries(attributes)) element.setAttribute(key, value);
    return element;
  };

  // Draws the trees anew after a ring line.
  function drawTrees() {
    const { shown, format } = state.ring;
    const figures = [...byId("trees").querySelectorAll("figure")];
    const same = figures.length === shown.length
      && figures.every((it, i) => it.dataset.node === String(shown[i]) && it.querySelector(`.format${format}`));
    if (same && figures.length) return;
    byId("trees").textContent = shown.length ? "" : "The nodes shown don't keep this range.";
    for (const node of shown) {
      const figure = document.createElement("figure");
      figure.dataset.node = node;
      figure.append(document.createElement("figcaption"));
      const cells = data.cells[format];
      const svg = made("svg", { class: `tree format${format}`, viewBox: `0 0 352 ${format === 1 ? 300 : 428}`, role: "img", "aria-label": `The tree at node ${node}` });
      const links = made("g", { class: "links" });
      const [rx, ry, rw, rh] = cells[0];
      for (const [x, y, w] of cells.slice(1, 17)) links.append(made("line", { x1: rx + rw / 2, y1: ry + rh, x2: x + w / 2, y2: y }));
      const rects = made("g", { class: "cells" });
      for (const [x, y, width, height] of cells) rects.append(made("rect", { x, y, width, height }));
      svg.append(links, rects);
      figure.append(svg);
      byId("trees").append(figure);
    }
  }

  function showTrees() {
    drawTrees();
    const { shown, format } = state.ring;
    const differs = differing();
    for (const figure of byId("trees").querySelectorAll("figure")) {
      const node = figure.dataset.node;
      const digests = state.digests[node];
      const changed = state.changed[node] || new Set();
      const clean = digests.filter((it) => it >= 0).length;
      const entries = state.entries[node];
      figure.querySelector("figcaption").textContent =
        `Node ${node}${state.up[node] ? "" : " (down, as it was)"}: ${clean === digests.length ? "all clean" : `${digests.length - clean} of ${digests.length} dirty`}`
        + (entries === undefined ? "" : `; ${entries} ${entries === 1 ? "entry" : "entries"} at its last put`);
      const rects = figure.querySelectorAll(".cells rect");
      rects.forEach((rect, at) => {
        const kind = digests[at] < 0 ? "dirty" : differs.has(at) ? "differs" : "clean";
        const frame = format === 2 && at >= 17 && at < 273 ? " frame" : "";
        rect.setAttribute("class", kind + frame + (changed.has(at) ? " changed" : "") + (at === chosenPlace() ? " chosen" : ""));
      });
      figure.querySelectorAll(".links line").forEach((line, i) => line.setAttribute("class", differs.has(i + 1) ? "differs" : ""));
    }
    const [a, b] = shown;
    const ready = shown.length === 2 && state.digests[a][0] >= 0 && state.digests[b][0] >= 0;
    const leaves = [...differs].filter((at) => at >= leafStart(format));
    byId("compare").textContent = shown.length < 2 ? "" : !ready ? "A tree is dirty at its root: a sync of these two is refused."
      : differs.size === 0 ? "Both roots are equal: a sync asks nothing."
      : `The trees differ in ${differs.size} nodes; a sync asks these: ${[...differs].slice(0, 12).map(nameOf).join(", ")}${differs.size > 12 ? ", .." : ""}. ${leaves.length} ${leaves.length === 1 ? "is a leaf" : "are leaves"}.`;
  }

  function tellOf(figure, at) {
    const digest = state.digests[figure.dataset.node][at];
    byId("about").textContent = `Node ${figure.dataset.node}, ${nameOf(at)}: ${digest < 0 ? "dirty" : `digest ${data.digests[digest]}..`}`;
  }

  byId("trees").addEventListener("mousemove", (event) => {
    const rect = event.target.closest(".cells rect");
    if (rect) tellOf(rect.closest("figure"), [...rect.parentNode.children].indexOf(rect));
  });
  byId("trees").addEventListener("click", (event) => {
    const rect = event.target.closest(".cells rect");
    if (!rect) return;
    const at = [...rect.parentNode.children].indexOf(rect);
    const start = leafStart(state.ring.format);
    if (at >= start) chooseLeaf(at - start);
  });

  // ---- rows

  // The leaf that was chosen by hand; if none was, the leaf that changed last is shown.
  let chosen = null;

  const leafNow = () => (chosen === null ? state.leaf : chosen);
  const chosenPlace = () => (leafNow() === null ? -1 : leafStart(state.ring.format) + leafNow());

  function leavesToChoose() {
    const start = leafStart(state.ring.format);
    const found = new Set([...differing()].filter((at) => at >= start).map((at) => at - start));
    for (const node of state.ring.shown) {
      for (const [key, versions] of Object.entries(state.rows[node])) if (versions.length) found.add(leafOf(state.ring, key));
    }
    if (leafNow() !== null) found.add(leafNow());
    return [...found].sort((x, y) => x - y);
  }

  function showLeaves() {
    const all = leavesToChoose();
    byId("leaf").replaceChildren(...all.map((it) => new Option(String(it), String(it), false, it === leafNow())));
    byId("leaf").disabled = all.length === 0;
  }

  function versionOf(number) {
    const [clock, value] = data.versions[number];
    const part = document.createElement("div");
    part.className = value === null ? "version tombstone" : "version";
    const shown = document.createElement("span");
    shown.textContent = value === null ? "deleted" : value;
    const when = document.createElement("span");
    when.className = "clock";
    when.textContent = clock;
    part.append(shown, when);
    return part;
  }

  function showRows() {
    const { shown } = state.ring;
    const keys = [...new Set(shown.flatMap((node) => Object.keys(state.rows[node])))].filter((key) => leafOf(state.ring, key) === leafNow()).sort();
    if (!keys.length) {
      byId("rows").textContent = leafNow() === null ? "No row is held yet." : "This leaf has no rows.";
      return;
    }
    const table = document.createElement("table");
    const head = table.createTHead().insertRow();
    for (const text of ["Key", ...shown.map((node) => `Node ${node}`)]) {
      const cell = document.createElement("th");
      cell.scope = "col";
      cell.textContent = text;
      head.append(cell);
    }
    const body = table.createTBody();
    for (const key of keys) {
      const row = body.insertRow();
      row.insertCell().textContent = data.names[key];
      for (const node of shown) {
        const cell = row.insertCell();
        const versions = state.rows[node][key] || [];
        const list = document.createElement("div");
        list.className = "versions";
        list.append(...versions.map(versionOf));
        cell.append(versions.length ? list : "nothing held");
        if (versions.length > 1) {
          const word = document.createElement("div");
          word.className = "concurrent";
          word.textContent = `${versions.length} concurrent versions`;
          cell.append(word);
        }
      }
    }
    byId("rows").replaceChildren(table);
  }

  function chooseLeaf(number) {
    chosen = number;
    showLeaves();
    showRows();
    showTrees();
  }

  byId("leaf").addEventListener("change", (event) => chooseLeaf(Number(event.target.value)));

  // ---- ring

  function drawRing() {
    const { nodes } = state.ring;
    const present = [...byId("ring").querySelectorAll(".node")].map((it) => Number(it.dataset.node));
    if (present.join() === nodes.join()) return;
    const svg = made("svg", { class: "ring", viewBox: "0 0 320 260", role: "img", "aria-label": "The nodes of the ring" });
    svg.append(made("circle", { class: "round", cx: 160, cy: 130, r: 88 }));
    nodes.forEach((node, at) => {
      const angle = (2 * Math.PI * at) / nodes.length - Math.PI / 2;
      const [x, y] = [160 + 88 * Math.cos(angle), 130 + 88 * Math.sin(angle)];
      const part = made("g", { class: "node up", "data-node": node });
      part.append(made("circle", { cx: x, cy: y, r: nodes.length <= 12 ? 14 : 9 }));
      part.append(made("path", { d: `M${x - 9} ${y - 9}L${x + 9} ${y + 9}M${x - 9} ${y + 9}L${x + 9} ${y - 9}` }));
      const name = made("text", { x, y: y + 4 });
      name.textContent = node;
      const side = x < 150 ? " left" : x > 170 ? " right" : "";
      part.append(name, made("text", { class: `hints${side}`, x: 160 + 106 * Math.cos(angle), y: 134 + 110 * Math.sin(angle) }));
      svg.append(part);
    });
    byId("ring").replaceChildren(svg);
  }

  function showRing() {
    drawRing();
    const { ring, hints, slots } = state;
    for (const part of byId("ring").querySelectorAll(".node")) {
      const node = part.dataset.node;
      part.setAttribute("class", `node ${state.up[node] ? "up" : "down"}${ring.replicas.includes(Number(node)) ? " keeps" : ""}`);
      const count = (hints[node] || []).length;
      part.querySelector(".hints").textContent = count ? `${count} ${count === 1 ? "hint" : "hints"}` : "";
    }
    const down = ring.nodes.filter((node) => !state.up[node]);
    byId("ring-text").textContent =
      `${ring.nodes.length} ${ring.nodes.length === 1 ? "node" : "nodes"}, ${ring.ranges} ${ring.ranges === 1 ? "range" : "ranges"}, format ${ring.format}. `
      + (ring.replicas.length ? `Range ${data.range} is kept by ${ring.replicas.join(", ")} (thick). ` : `There is no range ${data.range}. `)
      + (down.length ? `Down: ${down.join(", ")}. ` : "All nodes are up. ")
      + `Slots, by the last slot line: ${slots.free} free, ${slots.lent} lent, target ${slots.target}.`;
    const lists = Object.entries(hints).map(([carrier, waiting]) => {
      const list = document.createElement("ul");
      for (const [owner, key] of waiting.slice(0, 8)) {
        const item = document.createElement("li");
        item.textContent = `key ${key} for node ${owner}`;
        list.append(item);
      }
      if (waiting.length > 8) {
        const item = document.createElement("li");
        item.textContent = `and ${waiting.length - 8} more`;
        list.append(item);
      }
      const part = document.createElement("div");
      part.append(`Hints that wait at node ${carrier}:`, list);
      return part;
    });
    byId("hints").replaceChildren(...lists);
  }

  // ---- steps

  let current = -1;

  function show(number) {
    if (!data.steps.length) return;
    number = Math.max(0, Math.min(number, data.steps.length - 1));
    reach(number);
    const step = data.steps[number];
    if (step.rows || step.ring) chosen = null;
    if (current >= 0) buttons[current].removeAttribute("aria-current");
    current = number;
    buttons[number].setAttribute("aria-current", "step");
    const list = document.querySelector(".script");
    const item = buttons[number].parentNode;
    if (item.offsetTop - list.offsetTop < list.scrollTop || item.offsetTop - list.offsetTop + item.offsetHeight > list.scrollTop + list.clientHeight) {
      list.scrollTop = item.offsetTop - list.offsetTop - 60;
    }
    byId("step").value = number;
    byId("said").textContent = `Line ${step.line} (step ${number + 1} of ${data.steps.length})${step.refused ? `: refused, ${step.refused}` : ""}`;
    showLeaves();
    showRing();
    showTrees();
    showRows();
  }

  byId("back").addEventListener("click", () => show(current - 1));
  byId("next").addEventListener("click", () => show(current + 1));
  byId("step").addEventListener("input", (event) => show(Number(event.target.value)));
  buttons.forEach((button, number) => button.addEventListener("click", () => show(number)));
  document.addEventListener("keydown", (event) => {
    if (event.altKey || event.ctrlKey || event.metaKey || event.target.closest("select, input")) return;
    if (event.key === "ArrowRight" || event.key === "ArrowDown" && event.target.closest(".script")) show(current + 1);
    else if (event.key === "ArrowLeft" || event.key === "ArrowUp" && event.target.closest(".script")) show(current - 1);
    else if (event.key === "Home") show(0);
    else if (event.key === "End") show(data.steps.length - 1);
    else return;
    event.preventDefault();
    if (document.activeElement.closest(".script")) buttons[current].focus();
  });
  show(0);
})();
