"""The script of a page. It is fixed, and has no text of a report in it.

It filters the faults. The end of the address sets the filters: `#table=2&fault=40`. Faults past the
first group are a text at first. The script makes their elements once they are near, and else while
the browser is idle.

The browser never reads that text as HTML. `read` makes only elements of `NAMES`, with attributes
and values of `VALUES`: none of them runs, loads or leads out of the page. All else is shown as it
is, and so is the tag of an element without an end. So even a cell that is not escaped runs nothing.
"""

from __future__ import annotations

SCRIPT = r"""
"use strict";
(() => {
  const NAMES = "article|h3|p|div|table|caption|thead|tbody|tr|th|td|span|mark|code|pre|bdi|a|b|i";
  const VALUES = { class: "[a-z ]+", id: "f\\d+", href: "#n\\d+", scope: "row|col", role: "group",
    tabindex: "0", "aria-label": "Rows of fault \\d+" };
  const LETTERS = { lt: "<", gt: ">", amp: "&", quot: '"', "#x27": "'" };
  const pairs = Object.entries(VALUES).map(([name, value]) => ` ${name}="(?:${value})"`).join("|");
  const TAG = new RegExp(`</(${NAMES})>|<(${NAMES})((?:${pairs})*)>`, "g");
  const plain = (text) => text.replace(/&(lt|gt|amp|quot|#x27);/g, (_, name) => LETTERS[name]);
  const read = (text) => {
    const top = document.createDocumentFragment();
    const open = [];
    const add = (node) => (open.length ? open[open.length - 1].made : top).append(node);
    const asText = ({ made, tag }) => made.replaceWith(tag, ...made.childNodes);
    const start = (tag, name, attributes) => {
      const made = document.createElement(name);
      for (const [, key, value] of attributes.matchAll(/ ([a-z-]+)="([^"]*)"/g)) {
        made.setAttribute(key, value);
      }
      add(made);
      open.push({ made, tag, name });
    };
    const end = (tag, name) => {
      const last = open.map((one) => one.name).lastIndexOf(name);
      if (last < 0) return add(tag);
      open.splice(last + 1).forEach(asText);
      open.pop();
    };
    let at = 0;
    for (const found of text.matchAll(TAG)) {
      const [tag, ended, name, attributes] = found;
      if (at < found.index) add(plain(text.slice(at, found.index)));
      at = found.index + tag.length;
      if (ended) end(tag, ended); else start(tag, name, attributes);
    }
    add(plain(text.slice(at)));
    open.forEach(asText);
    return top;
  };
  const form = document.querySelector(".filters");
  if (!form) return;
  const kinds = [...form.querySelectorAll("select")];
  const told = form.querySelector("output");
  for (const note of document.querySelectorAll(".blocked")) note.hidden = true;
  const group = (box) => {
    const waits = box.classList.contains("later");
    const items = waits ? [] : [...box.children];
    const keys = box.dataset.keys
      ? box.dataset.keys.split(",").map((key) => key.split(" "))
      : items.map((item) => kinds.map((kind) => item.dataset[kind.name]));
    return { box, items, keys, waits };
  };
  const groups = [...document.querySelectorAll(".group")].map(group);
  const total = groups.reduce((sum, group) => sum + group.keys.length, 0);
  const mark = (group) => {
    const wanted = kinds.map((kind) => kind.value);
    const fits = group.keys.map((key) => wanted.every((value, at) => !value || value === key[at]));
    const shown = fits.filter(Boolean).length;
    group.box.hidden = shown === 0;
    group.items.forEach((item, at) => { item.hidden = !fits[at]; });
    return shown;
  };
  const show = () => {
    const shown = groups.reduce((sum, group) => sum + mark(group), 0);
    const [some, all] = [shown, total].map((number) => number.toLocaleString("en"));
    told.textContent = `${some} of ${all} shown`;
  };
  const make = (group) => {
    if (!group.waits) return;
    group.waits = false;
    group.box.replaceChildren(read(group.box.textContent));
    group.items = [...group.box.children];
    group.box.classList.remove("later");
    mark(group);
  };
  const follow = () => {
    const name = location.hash.slice(1);
    const wanted = new URLSearchParams(name);
    for (const kind of kinds) {
      if (wanted.has(kind.name)) kind.value = wanted.get(kind.name);
      if (kind.selectedIndex < 0) kind.value = "";
    }
    const has = (group) => group.waits && group.box.textContent.includes(` id="${name}"`);
    if (/^f\d+$/.test(name)) groups.filter(has).forEach(make);
    const target = document.getElementById(name);
    if (target && target.hidden) form.reset();
    show();
    if (target) target.scrollIntoView();
  };
  const idle = window.requestIdleCallback || ((work) => setTimeout(work, 50));
  const makeNext = () => {
    const next = groups.find((group) => group.waits);
    if (!next) return;
    make(next);
    idle(makeNext);
  };
  const near = new IntersectionObserver((seen) => {
    const boxes = new Set(seen.filter((one) => one.isIntersecting).map((one) => one.target));
    groups.filter((group) => boxes.has(group.box)).forEach(make);
  }, { rootMargin: "100% 0px" });
  for (const group of groups) if (group.waits) near.observe(group.box);
  addEventListener("beforeprint", () => groups.forEach(make));
  form.addEventListener("change", show);
  form.addEventListener("reset", () => setTimeout(show));
  addEventListener("hashchange", follow);
  form.hidden = false;
  follow();
  idle(makeNext);
})();
"""
