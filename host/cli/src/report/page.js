"use strict";
(function () {
  var data = JSON.parse(document.getElementById("data").textContent);
  var svg = document.getElementById("wave"), seen = document.getElementById("seen");
  var W = 1200, LEFT = 92, TOP = 22, STEP = 25, HIGH = 13, second = 783360;
  var count = data.masks.length, items = new Array(count), ticks = new Array(count);
  var i, item = 0, tick = 0;
  for (i = 0; i < count; i++) {
    item += data.items[i]; tick += data.ticks[i];
    items[i] = item; ticks[i] = tick;
  }
  // Samples at one place are drawn one after the other within it, so that their order shows.
  function spread(places) {
    var out = new Array(places.length), from = 0;
    for (var to = 1; to <= places.length; to++) {
      if (to === places.length || places[to] !== places[from]) {
        for (var k = from; k < to; k++) out[k] = places[from] + (k - from) / (to - from + 1);
        from = to;
      }
    }
    return out;
  }
  var xs = { item: spread(items), time: spread(ticks) };
  var mode = "item", view = [0, 1], here = 0;
  function span() {
    var x = xs[mode];
    var end = mode === "item" ? data.end_item : data.end_tick;
    return [count ? x[0] : 0, Math.max(end, count ? x[count - 1] : 0) + 1];
  }
  function at(t, end) {
    if (mode === "item") return end ? t.end_item : t.start_item;
    return end ? t.end_tick : t.start_tick;
  }
  function px(x) { return LEFT + (x - view[0]) / (view[1] - view[0]) * (W - LEFT); }
  function first(x) {
    var list = xs[mode], low = 0, high = list.length;
    while (low < high) { var mid = (low + high) >> 1; if (list[mid] <= x) low = mid + 1; else high = mid; }
    return low - 1;
  }
  function esc(s) { return String(s).replace(/&/g, "&amp;").replace(/</g, "&lt;").replace(/"/g, "&quot;"); }
  function group(n) { return String(n).replace(/\B(?=(\d{3})+$)/g, ","); }
  function level(track, mask) { return (mask >> track.bit) & track.most; }
  function wave(track, y) {
    var list = xs[mode], k = Math.max(first(view[0]), 0), d = "", last = -1, value;
    if (!count) return "";
    value = level(track, data.masks[k]);
    function height(v) { return y - HIGH * v / track.most; }
    d = "M" + LEFT + " " + height(value);
    for (k++; k < count && list[k] <= view[1]; k++) {
      var next = level(track, data.masks[k]);
      if (next === value) continue;
      var x = Math.round(px(list[k]) * 4) / 4;
      if (x - last < 1 && last >= 0) { d += "V" + y + "V" + (y - HIGH) + "V" + height(next); }
      else { d += "H" + x + "V" + height(next); last = x; }
      value = next;
    }
    return '<path class="w" d="' + d + "H" + W + '"/>';
  }
  function ruler(bottom) {
    var out = "", wide = view[1] - view[0], unit = Math.pow(10, Math.floor(Math.log10(wide / 4)));
    if (wide / unit > 20) unit *= 5; else if (wide / unit > 9) unit *= 2;
    if (mode === "item") unit = Math.max(unit, 1);
    for (var x = Math.ceil(view[0] / unit) * unit; x < view[1]; x += unit) {
      var p = px(x);
      var text = mode === "item" ? "item " + group(Math.round(x)) : group(Math.round(x)) + " VIA ticks";
      out += '<line class="g" x1="' + p + '" x2="' + p + '" y1="' + (TOP - 4) + '" y2="' + bottom + '"/>';
      if (p < W - 80) out += '<text x="' + (p + 2) + '" y="12">' + text + "</text>";
    }
    return out;
  }
  function boxes(y) {
    var out = "", last = -9;
    data.transactions.forEach(function (t) {
      var a = at(t, false), b = Math.max(at(t, true), a);
      if (b < view[0] || a > view[1]) return;
      var left = Math.max(px(a), LEFT), right = Math.min(px(b), W), wide = Math.max(right - left, 2);
      if (wide < 3 && left - last < 1 && t.number !== here) return;
      last = left;
      out += '<rect class="box' + (t.bad ? " bad" : "") + (t.number === here ? " here" : "") + '" data-t="' + t.number +
        '" x="' + left + '" y="' + (y - 16) + '" width="' + wide + '" height="20"><title>' + esc(t.words) + "</title></rect>";
      var room = Math.floor((wide - 8) / 7), label = t.label;
      if (room >= 3) {
        if (label.length > room) label = label.slice(0, room - 1) + "…";
        out += '<text pointer-events="none" x="' + (left + 4) + '" y="' + (y - 1) + '">' + esc(label) + "</text>";
      }
    });
    return out;
  }
  function marks(y) {
    var out = "", last = -9;
    data.refused.forEach(function (r) {
      var x = mode === "item" ? r.item : r.tick;
      if (x < view[0] || x > view[1]) return;
      var p = px(x);
      if (p - last < 1) return;
      last = p;
      out += '<g><title>NO ' + r.number + ", item " + group(r.item) + '</title><line class="no" x1="' + p + '" x2="' + p +
        '" y1="' + (y - HIGH) + '" y2="' + y + '"/><text x="' + (p + 3) + '" y="' + y + '">' + r.number + "</text></g>";
    });
    return out;
  }
  function draw() {
    var rows = data.tracks.length + 2, bottom = TOP + rows * STEP, y = TOP + STEP - 6, out;
    svg.setAttribute("viewBox", "0 0 " + W + " " + (bottom + 4));
    out = '<defs><pattern id="hatch" width="7" height="7" patternUnits="userSpaceOnUse" patternTransform="rotate(45)">' +
      '<rect width="7" height="7" fill="#fff"/><line x1="0" y1="0" x2="0" y2="7" stroke="#bbb" stroke-width="2"/></pattern></defs>' +
      '<rect x="0" y="0" width="' + W + '" height="' + (bottom + 4) + '" fill="#fff"/>' + ruler(bottom);
    function name(text) { out += '<text x="6" y="' + y + '">' + text + "</text>"; }
    data.tracks.forEach(function (track, k) {
      if (k === 3) { name("transaction"); out += boxes(y); y += STEP; }
      name(track.name); out += wave(track, y); y += STEP;
    });
    name("refused"); out += marks(y);
    out += '<line id="cursor" class="cursor" x1="-9" x2="-9" y1="' + (TOP - 4) + '" y2="' + bottom + '"/>';
    svg.innerHTML = out;
    var all = span(), wide = all[1] - all[0];
    var part = document.getElementById("part");
    part.style.left = 100 * (view[0] - all[0]) / wide + "%";
    part.style.width = 100 * (view[1] - view[0]) / wide + "%";
    document.body.dataset.view = view[0].toFixed(2) + " " + view[1].toFixed(2);
    document.body.dataset.mode = mode;
  }
  function show(from, to) {
    var all = span(), least = mode === "item" ? 4 : 2, wide = Math.min(Math.max(to - from, least), all[1] - all[0]);
    if (!(wide > 0)) wide = 1;
    from = Math.min(Math.max(from, all[0]), Math.max(all[1] - wide, all[0]));
    view = [from, from + wide];
    draw();
  }
  function zoom(factor, x) {
    if (x === undefined) x = (view[0] + view[1]) / 2;
    show(x - (x - view[0]) * factor, x + (view[1] - x) * factor);
  }
  function move(part) { var wide = view[1] - view[0]; show(view[0] + part * wide, view[1] + part * wide); }
  function jump(number, quiet) {
    var t = data.transactions.find(function (t) { return t.number === number; });
    if (!t) return;
    here = number;
    var a = at(t, false), b = Math.max(at(t, true), a), margin = Math.max((b - a) * 0.15, 2);
    if (a > span()[1]) seen.textContent = "transaction " + number + ": " + t.words + "\nIt is not drawn: the waveform ends before it.";
    else show(a - margin, b + margin);
    document.querySelectorAll("tr.here").forEach(function (row) { row.classList.remove("here"); });
    var row = document.getElementById("t" + number);
    if (row) { row.classList.add("here"); if (!quiet) row.scrollIntoView({ block: "nearest" }); }
    document.body.dataset.here = number;
  }
  function place(event) {
    var box = svg.getBoundingClientRect(), p = (event.clientX - box.left) / box.width * W;
    return view[0] + (p - LEFT) / (W - LEFT) * (view[1] - view[0]);
  }
  function hover(x) {
    if (!count) return;
    var k = Math.max(first(x), 0), mask = data.masks[k], cursor = document.getElementById("cursor"), p = px(x);
    if (cursor && p >= LEFT) { cursor.setAttribute("x1", p); cursor.setAttribute("x2", p); }
    var t = data.transactions.find(function (t) { return at(t, false) <= x && x <= at(t, true) + 1; });
    var words = data.tracks.map(function (track) { return track.name + " " + level(track, mask); }).join("  ");
    seen.textContent = "since item " + group(items[k]) + ", VIA tick " + group(ticks[k]) + " (" +
      (ticks[k] / second).toFixed(6) + " seconds): " + words + "\n" + (t ? "transaction " + t.number + ": " + t.words : " ");
  }
  var drag = null;
  svg.addEventListener("mousemove", function (event) {
    if (drag) {
      var box = svg.getBoundingClientRect(), scale = (drag.view[1] - drag.view[0]) / ((W - LEFT) / W * box.width);
      var by = (drag.x - event.clientX) * scale;
      if (Math.abs(drag.x - event.clientX) > 3) drag.moved = true;
      if (drag.moved) show(drag.view[0] + by, drag.view[1] + by);
    } else hover(place(event));
  });
  svg.addEventListener("mousedown", function (event) { drag = { x: event.clientX, view: view.slice(), moved: false }; event.preventDefault(); });
  window.addEventListener("mouseup", function () { setTimeout(function () { drag = null; }, 0); });
  svg.addEventListener("click", function (event) {
    if (drag && drag.moved) return;
    var box = event.target.closest("[data-t]");
    if (box) jump(Number(box.dataset.t));
  });
  svg.addEventListener("wheel", function (event) { event.preventDefault(); zoom(event.deltaY > 0 ? 1.25 : 0.8, place(event)); }, { passive: false });
  document.getElementById("whole").addEventListener("click", function (event) {
    var box = this.getBoundingClientRect(), all = span(), wide = view[1] - view[0];
    var x = all[0] + (event.clientX - box.left) / box.width * (all[1] - all[0]);
    show(x - wide / 2, x + wide / 2);
  });
  function everything() { var all = span(); show(all[0], all[1]); }
  function change(to) {
    var was = first((view[0] + view[1]) / 2);
    mode = to;
    document.querySelectorAll("[data-mode]").forEach(function (b) { if (b.tagName === "BUTTON") b.setAttribute("aria-pressed", String(b.dataset.mode === to)); });
    if (here) jump(here, true); else { everything(); if (was > 0 && count > 60) { var x = xs[mode], n = Math.min(was + 30, count - 1); show(x[Math.max(was - 30, 0)], x[n]); } }
  }
  var acts = {
    "in": function () { zoom(0.5); }, "out": function () { zoom(2); }, all: everything,
    left: function () { move(-0.5); }, right: function () { move(0.5); },
    before: function () { step(-1); }, after: function () { step(1); }
  };
  function step(by) {
    var list = data.transactions, k = list.findIndex(function (t) { return t.number === here; });
    k = k < 0 ? (by > 0 ? 0 : list.length - 1) : k + by;
    if (list[k]) jump(list[k].number);
  }
  document.querySelectorAll("[data-act]").forEach(function (b) { b.addEventListener("click", function () { acts[b.dataset.act](); }); });
  document.querySelectorAll("button[data-mode]").forEach(function (b) { b.addEventListener("click", function () { change(b.dataset.mode); }); });
  document.addEventListener("keydown", function (event) {
    if (event.target.tagName === "INPUT") return;
    var act = { "+": "in", "-": "out", ArrowLeft: "left", ArrowRight: "right", "0": "all", n: "after", p: "before" }[event.key];
    if (act) { acts[act](); event.preventDefault(); }
  });
  document.querySelectorAll("tr.t").forEach(function (row) {
    row.addEventListener("click", function () { jump(Number(row.id.slice(1)), true); svg.scrollIntoView({ block: "nearest" }); });
  });
  var find = document.getElementById("find");
  if (find) find.addEventListener("input", function () {
    var word = find.value.toLowerCase();
    document.querySelectorAll("tr.t").forEach(function (row) { row.hidden = row.textContent.toLowerCase().indexOf(word) < 0; });
  });
  function hashed() { var m = /^#t(\d+)$/.exec(location.hash); if (m) jump(Number(m[1])); return !!m; }
  window.addEventListener("hashchange", hashed);
  everything();
  if (!hashed() && data.transactions.length > 6) {
    var few = data.transactions;
    show(at(few[0], false) - 3, at(few[2], true) + 3);
  }
  document.body.dataset.ready = "yes";
})();
