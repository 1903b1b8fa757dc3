"""What each report has in common: its frame, its looks on screen and paper, and what answers to the pointer."""

STYLE = """
:root { color-scheme: light; }
body { font: 15px/1.5 system-ui, sans-serif; color: #1b1b1b; background: #fff; max-width: 1240px; margin: 0 auto;
  padding: 1.2rem; }
h1 { font-size: 1.5rem; margin: 0 0 .4rem; }
h2 { font-size: 1.1rem; margin: 2rem 0 .6rem; border-bottom: 1px solid #ccc; }
.answer { font-size: 1.15rem; }
.note { color: #555; font-size: .87rem; max-width: 60rem; }
table { border-collapse: collapse; font-variant-numeric: tabular-nums; }
th, td { padding: .15rem .7rem; text-align: right; font-weight: normal; white-space: nowrap; }
thead th { color: #555; border-bottom: 1px solid #ccc; }
tbody th { text-align: left; font-weight: bold; padding-top: .8rem; }
.times td:nth-child(2), .words td, .words th { text-align: left; }
.words td { white-space: normal; }
.pairs td:first-child { text-align: left; color: #555; }
.load { position: relative; width: 9rem; background: #eee; text-align: center; }
.load i { position: absolute; left: 0; top: 0; bottom: 0; background: #b9d4e8; }
.load b { position: relative; font-weight: normal; }
.picture, section table { max-width: 100%; overflow-x: auto; }
section table { display: block; }
.picture svg { width: 100%; min-width: 620px; height: auto; }
.map svg { min-width: 0; cursor: grab; }
.zoom { margin: 0 0 .3rem; }
.zoom button { font: inherit; min-width: 2.2rem; margin-right: .3rem; }
.push { display: none; }
.bars { background: linear-gradient(to right, #fff 30%, #fff0) left / 3rem 100% local no-repeat,
  linear-gradient(to left, #fff 30%, #fff0) right / 3rem 100% local no-repeat,
  linear-gradient(to right, #0003, #0000) left / .8rem 100% scroll no-repeat,
  linear-gradient(to left, #0003, #0000) right / .8rem 100% scroll no-repeat; }
#in-figures, #vehicles { display: inline-block; vertical-align: top; margin-right: 3rem; max-width: 100%; }
#vehicles .note { max-width: 36rem; }
.figures th:nth-child(4) { text-align: center; }
li { overflow-wrap: anywhere; }
code { overflow-wrap: anywhere; background: #f4f4f4; padding: 0 .2rem; font-size: .9em; }
.tree svg { max-width: 860px; }
pre { background: #f4f4f4; padding: .7rem; overflow-x: auto; }
.route { transition: opacity .12s; }
tr.route, tbody.route, g.route { cursor: pointer; }
.one .route { opacity: .12; }
.one .route.lit { opacity: 1; }
tr.route.lit, tbody.route.lit { background: #fff6d6; }
tr.route:focus { outline: 2px solid #0072b2; }
@media (max-width: 640px) {
  body { padding: .6rem; }
  th, td { padding: .15rem .28rem; font-size: .8rem; }
  .pairs td { white-space: normal; overflow-wrap: anywhere; }
  .push { display: block; }
  pre { white-space: pre-wrap; overflow-wrap: anywhere; }
  .figures, .figures tbody, .figures tr, .times, .times tbody, .times tr, .words, .words tbody, .words tr {
    display: block; }
  .figures thead, .times thead, .words thead { display: none; }
  .figures tr, .times tr, .words tr { border-bottom: 1px solid #ddd; padding: .35rem 0; }
  .figures td, .times td, .words td { display: inline-block; padding: .05rem .7rem .05rem 0; white-space: normal;
    overflow-wrap: anywhere; font-size: .9rem; }
  .times th { display: block; padding: .6rem 0 0; }
  .times td:nth-child(2) { display: inline; font-weight: bold; }
  .times td:nth-child(2)::after { content: "\\A"; white-space: pre; }
  td[data-what]::before { content: attr(data-what) " "; color: #555; }
  td:empty { display: none; }
  .load { display: inline-block; width: 6rem; }
}
@media print {
  @page { margin: 13mm; }
  body { max-width: none; padding: 0; font-size: 10pt; }
  h2 { margin-top: 1.2rem; break-after: avoid; }
  .zoom, .push { display: none; }
  #in-figures, #vehicles { display: block; margin: 0; }
  .picture, tr, pre, .note, tbody.route, #how-to-check { break-inside: avoid; }
  .route { opacity: 1 !important; }
  .picture, section table { overflow: visible; }
  section table { display: table; }
  .times { font-size: 8.5pt; }
  .times th, .times td { padding: 0 .5rem; }
  .picture svg { min-width: 0; max-height: 23cm; }
  * { print-color-adjust: exact; -webkit-print-color-adjust: exact; }
}
"""

# A route is lit while a pointer rests on it or a key has come to it; a click or Enter keeps it lit. The map is zoomed
# by buttons or the wheel with Ctrl, and moved by dragging once it is zoomed.
SCRIPT = """
(function () {
  var kept = null;
  function light(route) {
    document.body.classList.toggle('one', route !== null);
    document.querySelectorAll('.route').forEach(function (part) {
      part.classList.toggle('lit', part.getAttribute('data-route') === route);
    });
  }
  function routeOf(event) {
    var part = event.target.closest ? event.target.closest('.route') : null;
    return part ? part.getAttribute('data-route') : null;
  }
  function keep(route) {
    kept = route === kept ? null : route;
    light(kept);
  }
  document.addEventListener('mouseover', function (event) {
    if (kept === null) { light(routeOf(event)); }
  });
  document.addEventListener('focusin', function (event) {
    if (kept === null) { light(routeOf(event)); }
  });
  document.addEventListener('click', function (event) { keep(routeOf(event)); });
  document.addEventListener('keydown', function (event) {
    if (event.key === 'Escape') { keep(null); }
    if (event.key === 'Enter') { keep(routeOf(event)); }
  });
}());
(function () {
  document.querySelectorAll('.map').forEach(function (map) {
    var svg = map.querySelector('svg'), whole = svg.viewBox.baseVal;
    var all = [whole.x, whole.y, whole.width, whole.height], seen = all.slice(), held = null;
    function show() {
      var isZoomed = all[2] > seen[2];
      svg.setAttribute('viewBox', seen.map(function (part) { return part.toFixed(1); }).join(' '));
      svg.style.touchAction = isZoomed ? 'none' : 'auto';
    }
    function shut(value, least, most) { return Math.min(Math.max(value, least), most); }
    function go(x, y, part) {
      var wide = shut(all[2] * part, all[2] / 16, all[2]), high = all[3] * wide / all[2];
      seen = [shut(x, all[0], all[0] + all[2] - wide), shut(y, all[1], all[1] + all[3] - high), wide, high];
      show();
    }
    function zoom(times, x, y) {
      var part = shut(seen[2] / times / all[2], 1 / 16, 1), scale = part * all[2] / seen[2];
      go(x - (x - seen[0]) * scale, y - (y - seen[1]) * scale, part);
    }
    function at(event) {
      var place = svg.getBoundingClientRect();
      return [seen[0] + (event.clientX - place.left) / place.width * seen[2],
        seen[1] + (event.clientY - place.top) / place.height * seen[3]];
    }
    function button(sign, told, act) {
      var found = document.createElement('button');
      found.textContent = sign; found.title = told; found.type = 'button';
      found.addEventListener('click', function (event) { event.stopPropagation(); act(); });
      bar.appendChild(found);
    }
    var bar = document.createElement('p');
    bar.className = 'zoom';
    map.parentNode.insertBefore(bar, map);
    button('+', 'zoom in', function () { zoom(1.6, seen[0] + seen[2] / 2, seen[1] + seen[3] / 2); });
    button('\u2212', 'zoom out', function () { zoom(1 / 1.6, seen[0] + seen[2] / 2, seen[1] + seen[3] / 2); });
    button('\u2922', 'all of the map', function () { go(all[0], all[1], 1); });
    svg.addEventListener('wheel', function (event) {
      if (event.ctrlKey) { event.preventDefault(); zoom(0 > event.deltaY ? 1.2 : 1 / 1.2, at(event)[0], at(event)[1]); }
    }, {passive: false});
    svg.addEventListener('pointerdown', function (event) { if (all[2] > seen[2]) { held = at(event); } });
    svg.addEventListener('pointermove', function (event) {
      if (held !== null) {
        var now = at(event);
        go(seen[0] + held[0] - now[0], seen[1] + held[1] - now[1], seen[2] / all[2]);
      }
    });
    ['pointerup', 'pointerleave', 'pointercancel'].forEach(function (kind) {
      svg.addEventListener(kind, function () { held = null; });
    });
  });
}());
"""

SHELL = """<!DOCTYPE html>
<html lang="en" xmlns="http://www.w3.org/1999/xhtml">
<head>
<meta charset="utf-8"/>
<meta name="viewport" content="width=device-width, initial-scale=1"/>
<meta http-equiv="Content-Security-Policy"
  content="default-src 'none'; style-src 'unsafe-inline'; script-src 'unsafe-inline'"/>
<title>%(name)s</title>
<style>%(style)s</style>
</head>
<body>
<h1>%(name)s</h1>
<p>%(asked)s</p>
<p class="answer">%(answer)s</p>
%(body)s
<script>%(script)s</script>
</body>
</html>
"""
