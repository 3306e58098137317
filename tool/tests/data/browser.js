// Run behind the page's own script: the tree is opened, a name is searched, what is found is clicked. What is seen is left in the page as JSON.
(function () {
  const seen = { dark: matchMedia("(prefers-color-scheme: dark)").matches, back: getComputedStyle(document.body).backgroundColor };
  const words = function (element) { return element ? element.innerText.trim() : ""; };
  const all = function (inside, what) { return Array.from(inside.querySelectorAll(what)); };

  // The sections as they are shown: name and kind, the cells of each field, facets or codes.
  seen.sections = all(document, "article section").map(function (section) {
    return {
      head: words(section.querySelector("h2")),
      rows: all(section, "tr").slice(1).map(function (row) { return all(row, "td").map(words); }),
      more: all(section, "ul > li").map(words),
    };
  });

  // The tree, opened so many levels deep, as it is shown.
  function shown(node, levels) {
    const line = node.tagName === "DETAILS" ? node.querySelector("summary") : node;
    const told = { xml: words(line.querySelector(".xml")), often: words(line.querySelector(".often")), inside: [] };
    if (node.tagName === "DETAILS" && levels > 0) {
      node.open = true;
      node.fill();
      told.inside = Array.from(node.children).slice(1).map(function (inner) { return shown(inner, levels - 1); });
    }
    return told;
  }
  seen.tree = Array.from(document.getElementById("tree").children).map(function (node) { return shown(node, 3); });

  // A search, and a click on the first way that is found.
  const search = document.getElementById("search");
  search.value = SEARCHED;
  search.dispatchEvent(new Event("input"));
  seen.places = words(document.querySelector("#found p"));
  const ways = all(document, "#found .way");
  seen.ways = ways.map(words);
  if (ways.length) ways[0].click();
  const open = document.querySelector(".open-now");
  const place = open ? open.getBoundingClientRect() : null;
  seen.open = open ? words(open.querySelector(".xml")) : "";
  seen.inView = place !== null && place.height > 0 && place.top < innerHeight && place.bottom > 0;

  // Every link leads somewhere; a click on the last one marks its section.
  const links = all(document, "article a");
  seen.links = links.length;
  seen.dead = links.filter(function (link) { return !document.getElementById(link.getAttribute("href").slice(1)); }).length;
  if (links.length) links[links.length - 1].click();
  seen.at = location.hash;

  const out = document.createElement("script");
  out.id = "seen";
  out.type = "application/json";
  out.textContent = JSON.stringify(seen).replace(/</g, "\\u003c");
  document.body.appendChild(out);
})();
