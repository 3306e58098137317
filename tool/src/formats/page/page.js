"use strict";
(function () {
  const data = JSON.parse(document.getElementById("data").textContent);
  const types = data.types;
  const tree = document.getElementById("tree");
  const found = document.getElementById("found");
  const search = document.getElementById("search");
  const MOST = 200;

  function put(parent, tag, kind, text) {
    const made = document.createElement(tag);
    if (kind) made.className = kind;
    if (text !== undefined) made.textContent = text;
    parent.appendChild(made);
    return made;
  }

  function link(parent, type) {
    const made = put(parent, "a", "", types[type].name);
    made.href = "#t" + type;
    return made;
  }

  // What one line of the tree shows of a field: XML name, how often, type, facets or codes, marks.
  function line(parent, field) {
    put(parent, "span", "xml", field.xml);
    put(parent, "span", "often", " " + field.often + " ");
    if (field.type === null) put(parent, "span", "kind", field.name);
    else link(parent, field.type);
    const more = field.type === null ? [] : types[field.type].more;
    if (more.length) put(parent, "span", "more", " " + more.join(", "));
    if (field.marks.length) put(parent, "span", "mark", " \u26A0 " + field.marks.join("; "));
  }

  // A node of the tree; what is below is made when it is opened.
  function node(parent, field) {
    const below = field.type === null ? [] : types[field.type].fields;
    if (!below.length) {
      const leaf = put(parent, "div", "leaf");
      line(leaf, field);
      return leaf;
    }
    const made = put(parent, "details", "");
    line(put(made, "summary", ""), field);
    made.fill = function () {
      if (made.filled) return made.filled;
      made.filled = below.map(function (inner) { return node(made, inner); });
      return made.filled;
    };
    made.addEventListener("toggle", function () { if (made.open) made.fill(); });
    return made;
  }

  const roots = data.roots.map(function (root) { return node(tree, root); });
  if (roots.length === 1 && roots[0].fill) { roots[0].open = true; roots[0].fill(); }

  // The shortest way from a root to each type: the numbers of the fields.
  const ways = new Map();
  const rest = [];
  data.roots.forEach(function (root, index) {
    if (root.type !== null && !ways.has(root.type)) { ways.set(root.type, [index]); rest.push(root.type); }
  });
  while (rest.length) {
    const type = rest.shift();
    types[type].fields.forEach(function (field, index) {
      if (field.type !== null && !ways.has(field.type)) {
        ways.set(field.type, ways.get(type).concat(index));
        rest.push(field.type);
      }
    });
  }

  function names(way) {
    let fields = data.roots;
    return way.map(function (index) {
      const field = fields[index];
      fields = field.type === null ? [] : types[field.type].fields;
      return field.xml;
    });
  }

  // Opens the tree along a way.
  function open(way) {
    let level = roots;
    let last = null;
    way.forEach(function (index) {
      last = level[index];
      if (last && last.fill) { last.open = true; level = last.fill(); }
    });
    document.querySelectorAll(".open-now").forEach(function (old) { old.classList.remove("open-now"); });
    if (last) { last.classList.add("open-now"); if (last.scrollIntoView) last.scrollIntoView({ block: "center" }); }
  }

  function hits(words) {
    const all = [];
    const has = function (text) { return text.toLowerCase().includes(words); };
    types.forEach(function (type, number) {
      const way = ways.get(number);
      if (has(type.name) || type.more.some(has)) all.push({ type: number, way: way, field: null });
      type.fields.forEach(function (field, index) {
        if (has(field.xml) || has(field.rust)) all.push({ type: number, way: way ? way.concat(index) : undefined, field: field });
      });
    });
    return all;
  }

  function look() {
    const words = search.value.trim().toLowerCase();
    found.textContent = "";
    if (!words) return;
    const all = hits(words);
    put(found, "p", "", all.length + (all.length === 1 ? " place" : " places") + (all.length > MOST ? ", the first " + MOST : ""));
    const list = put(found, "ul", "");
    all.slice(0, MOST).forEach(function (hit) {
      const item = put(list, "li", "");
      link(item, hit.type);
      if (hit.field) put(item, "span", "xml", " " + hit.field.xml);
      if (hit.way) {
        const way = put(item, "a", "way", " " + names(hit.way).join("."));
        way.href = "#tree";
        way.addEventListener("click", function (event) { event.preventDefault(); open(hit.way); });
      }
    });
  }

  search.addEventListener("input", look);
})();
