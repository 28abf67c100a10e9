"""The style and the script of a page: they need nothing from elsewhere, so the page works from a file."""

STYLE = """
:root{color-scheme:light dark;--paper:#fff;--back:#f2f4f6;--ink:#1b1f24;--soft:#57606a;--line:#d0d7de;--lit:#6d2a86;
--glow:#efe0f5}
*{box-sizing:border-box}
body{margin:0;background:var(--back);color:var(--ink)}
body{font:15px/1.45 Helvetica,Arial,'Liberation Sans','DejaVu Sans',sans-serif}
main{display:flex;flex-wrap:wrap;gap:20px;padding:20px;align-items:flex-start;max-width:1700px;margin:auto}
figure{flex:3 1 560px;margin:0;position:sticky;top:20px}
figure svg{width:100%;height:auto;max-height:calc(100vh - 40px);border:1px solid var(--line);border-radius:8px;
background:var(--paper)}
section{flex:2 1 360px;background:var(--paper);border:1px solid var(--line);border-radius:8px;padding:6px 18px 18px}
h1,h2{font-size:17px;margin:12px 0 6px}p{margin:8px 0;color:var(--soft)}
ol,ul{list-style:none;margin:8px 0;padding:0}
li>div{padding:0 10px}li>span{display:block;padding:5px 10px;color:var(--soft);font-weight:bold}
li button{display:block;width:100%;text-align:left;padding:5px 10px;border:1px solid transparent;border-radius:6px;
background:none;color:inherit;
font:inherit;cursor:pointer}
li button:hover{background:var(--back)}li button.cited{border:1px dashed var(--lit)}
li button[aria-pressed=true]{background:var(--glow);border-color:var(--lit)}
button:focus-visible,input:focus-visible{outline:3px solid var(--lit);outline-offset:1px}
.tools button{padding:7px 14px;border:1px solid var(--soft);border-radius:6px;background:var(--back);color:inherit;
font:inherit;cursor:pointer}
.tools label{margin-left:14px}
output{display:block;font-size:18px;font-weight:bold;margin:12px 0}
kbd{border:1px solid var(--line);border-radius:4px;padding:0 5px;font-size:13px}
.wf [hidden],.wf .ring{display:none}.wf .ring.lit,.wf .ring.cited{display:inline}
.wf .at:not(.empty)>.halo{display:none}.wf .near>.spot{stroke:var(--lit);stroke-width:4}
.wf .from>.spot{stroke:var(--lit);stroke-width:2.6;stroke-dasharray:4 2}.wf .cell,.wf .mark{cursor:pointer}
@media (prefers-color-scheme:dark){
:root{--paper:#14181d;--back:#1f252c;--ink:#e8ebee;--soft:#aab3bd;--line:#3a434d;--lit:#d9a5ee;--glow:#43264f}
figure .wf text{fill:#e8ebee}figure .wf .paper{fill:#14181d}figure .wf .cell{fill:#20272e;stroke:#86919d}
figure .wf line.cell{stroke:#c3cad2}
figure .wf .lit{fill:#4c2b5a;stroke:#d9a5ee}figure .wf line.lit{stroke:#d9a5ee}
figure .wf .cited{fill:#33233b;stroke:#b184c4}figure .wf line.cited{stroke:#b184c4}
figure .wf .ring{fill:none;stroke:#d9a5ee}figure .wf .spot{stroke:#c3cad2}figure .wf .dim .spot{stroke:#6b7580}
figure .wf .halo{fill:#d9a5ee}
figure .wf .corner{stroke:#14181d}figure .wf .badge{fill:#14181d;stroke:#d9a5ee}figure .wf .badge.plus{fill:#e8ebee}
figure .wf .number.plus{fill:#14181d}
figure .wf .about,figure .wf .key,figure .wf .line,figure .wf .face{fill:#aab3bd}}
"""

SCRIPT = """
(function () {
  "use strict";
  var data = JSON.parse(document.getElementById("data").textContent);
  var find = function (rule) { return Array.prototype.slice.call(document.querySelectorAll(rule)); };
  var cells = find(".wf [data-e]"), spots = find(".wf [data-v]"), buttons = find("button[data-item]");
  var kept = cells.concat(spots).map(function (it) { return [it, it.getAttribute("class"), it.hasAttribute("hidden")]; });
  function looks(spot) {
    var value = spot.querySelector(".value"), text = spot.querySelector("text");
    var look = [value.style.display, value.getAttribute("fill")];
    if (!text) { return look; }
    return look.concat([text.textContent, text.getAttribute("style"), text.getAttribute("font-size"), text.getAttribute("y")]);
  }
  var shown = data.live ? spots.map(looks) : [];
  var chosen = -1;

  // a spot shows a text, in the colour of a value if it is one
  function show(spot, told) {
    var value = spot.querySelector(".value"), text = spot.querySelector("text"), colours = data.colours[told];
    value.style.display = colours ? "" : "none";
    if (colours) { value.setAttribute("fill", colours[0]); }
    if (text) {
      var size = spot.dataset.r * (told === "\u00d7" ? 1.7 : [0.62, 1.15, 1, 0.84][told.length] || 0.62);
      text.textContent = told;
      text.setAttribute("font-size", size);
      text.setAttribute("y", Number(spot.dataset.y) + 0.36 * size);
      text.setAttribute("style", "fill:" + (colours ? colours[1] : spot.dataset.ink));
    }
  }

  // what is lit stands above its neighbours, and edges above triangles
  function raise(it) {
    if (it.classList.contains("cell") && it.classList.contains("lit")) {
      it.parentNode.insertBefore(it, it.tagName === "path" ? it.parentNode.querySelector("line") : null);
    }
  }

  function restore() {
    chosen = -1;
    kept.forEach(function (it) {
      it[0].setAttribute("class", it[1]);
      if (it[2]) { it[0].setAttribute("hidden", ""); } else { it[0].removeAttribute("hidden"); }
    });
    shown.forEach(function (it, at) {
      var value = spots[at].querySelector(".value"), text = spots[at].querySelector("text");
      value.style.display = it[0];
      value.setAttribute("fill", it[1]);
      if (text) {
        text.textContent = it[2];
        text.setAttribute("style", it[3]);
        text.setAttribute("font-size", it[4]);
        text.setAttribute("y", it[5]);
      }
    });
    buttons.forEach(function (it) { it.setAttribute("aria-pressed", "false"); it.classList.remove("cited"); });
  }

  // what is known at the points once a step is taken, in its case and in those about it
  function known(number) {
    var inside = {}, entered = {}, found = {}, at = data.items[number].k;
    while (at >= 0) { inside[at] = true; at = data.cases[at][0]; }
    function enter(at) {
      if (at < 0 || entered[at]) { return; }
      entered[at] = true;
      enter(data.cases[at][0]);
      if (data.cases[at][1] !== null) { found[data.cases[at][1]] = String(data.cases[at][2]); }
    }
    data.items.slice(0, number + 1).forEach(function (it) {
      if (!inside[it.k]) { return; }
      enter(it.k);
      if (it.left !== null) { found[it.about] = it.left; }
    });
    return found;
  }

  function choose(number) {
    restore();
    chosen = number;
    var item = data.items[number], lit = {}, cited = {}, near = {}, from = {};
    item.e.forEach(function (it) { lit[it] = true; });
    item.v.forEach(function (it) { near[it] = true; });
    item.c.forEach(function (other) {
      data.items[other].e.forEach(function (it) { cited[it] = true; });
      data.items[other].v.forEach(function (it) { from[it] = true; });
    });
    cells.forEach(function (it) {
      var is = it.dataset.e in lit, was = !is && it.dataset.e in cited;
      if (it.classList.contains("mark")) {
        it.toggleAttribute("hidden", !(is || was) || !it.textContent);
      } else {
        it.classList.toggle("lit", is);
        it.classList.toggle("cited", was);
      }
    });
    cells.forEach(raise);
    var told = data.cases ? known(number) : null;
    spots.forEach(function (it) {
      it.classList.remove("empty");
      it.classList.toggle("near", it.dataset.v in near);
      it.classList.toggle("from", it.dataset.v in from && !(it.dataset.v in near));
      if (told) { show(it, told[it.dataset.v] || ""); }
    });
    buttons.forEach(function (it) {
      it.setAttribute("aria-pressed", String(Number(it.dataset.item) === number));
      it.classList.toggle("cited", item.c.indexOf(Number(it.dataset.item)) >= 0);
    });
  }

  buttons.forEach(function (it, at) {
    it.addEventListener("click", function () { if (chosen === at) { restore(); } else { choose(at); } });
  });
  document.addEventListener("keydown", function (event) {
    if (event.key === "Escape") { restore(); }
    var at = buttons.indexOf(document.activeElement);
    var to = { ArrowDown: at + 1, ArrowUp: at - 1, Home: 0, End: buttons.length - 1 }[event.key];
    if (at >= 0 && to !== undefined && buttons[to]) { event.preventDefault(); buttons[to].focus(); choose(to); }
  });
  cells.forEach(function (it) {
    it.addEventListener("click", function () {
      var all = data.items.map(function (item, at) { return item.e.indexOf(Number(it.dataset.e)) >= 0 ? at : -1; });
      all = all.filter(function (at) { return at >= 0; });
      if (all.length && buttons.length) {
        var next = all[(all.indexOf(chosen) + 1) % all.length];
        choose(next);
        buttons[next].scrollIntoView({ block: "nearest" });
      }
    });
  });

  // a badge with a sign and a weight, as wide as its text
  function mark(it, found) {
    var text = it.querySelector("text"), badge = it.querySelector("rect"), size = Number(text.getAttribute("font-size"));
    text.textContent = (found[0] > 0 ? "+" : "\\u2212") + found[1];
    var wide = Math.max(1.55 * size, size * (0.62 * text.textContent.length + 0.7));
    badge.setAttribute("width", wide);
    badge.setAttribute("x", Number(text.getAttribute("x")) - wide / 2);
    [badge, text].forEach(function (part) { part.classList.toggle("plus", found[0] > 0); });
  }

  // other values at the points: the executions that count, and the count
  function draw() {
    var any = document.getElementById("any").checked;
    var values = data.choices.map(function (it) {
      var from = any ? data.values : it;
      return from[Math.floor(Math.random() * from.length)];
    });
    var sums = { "1": 0, "-1": 0 }, counts = {}, many = 0;
    data.executions.forEach(function (it, at) {
      var weight = data.weights[it[0] + ":" + it.slice(2).map(function (point) { return values[point]; }).join(",")];
      if (weight) { counts[at] = [it[1], weight]; sums[it[1]] += weight; many += 1; }
    });
    cells.forEach(function (it) {
      var found = counts[it.dataset.e];
      if (!it.classList.contains("mark")) {
        it.classList.toggle("lit", Boolean(found));
      } else {
        it.toggleAttribute("hidden", !found);
        if (found) { mark(it, found); }
      }
    });
    cells.forEach(raise);
    spots.forEach(function (it) { show(it, String(values[it.dataset.v])); });
    var plus = sums["1"], minus = sums["-1"], rest = ((plus - minus) % data.modulus + data.modulus) % data.modulus;
    document.getElementById("count").textContent =
      plus + " - " + minus + " = " + (plus - minus) + ", and " + (plus - minus) + " modulo " + data.modulus + " is " + rest;
  }
  if (data.executions) {
    document.getElementById("draw").addEventListener("click", draw);
    document.getElementById("any").addEventListener("change", draw);
  } else if (data.first !== undefined) {
    choose(data.first);
  }
}());
"""
