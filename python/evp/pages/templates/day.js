(function () {
  var data = JSON.parse(document.getElementById("data").textContent);
  function get(id) { return document.getElementById(id); }
  function clock(mark) { mark %= 48; return (mark >> 1) + ":" + (mark % 2 ? "30" : "00"); }
  function bold(words) { var b = document.createElement("b"); b.textContent = words; return b; }
  function grams(row, season, end, lasts) { return data.grams[row][season][end - 1][lasts - 1]; }
  function state() {
    var season = +document.querySelector("[name=season]:checked").value, end = +get("end").value;
    var lasts = +get("lasts").value, start = (2 * end - lasts + 48) % 48, day = data.days[season];
    var steps = [], up = [], rise = 0;
    for (var k = 0; k < lasts; k++) {
      var i = (start + k) % 48, more = day[(i + 1) % 48] - day[i];
      steps[i] = more > 0 ? "up" : "down";
      if (more > 0) { up.push(i); rise += more; }
    }
    return { season: season, end: end, lasts: lasts, start: start, steps: steps, up: up, rise: rise };
  }
  function draw(svg, chart, s) {
    var x = chart.x, y = chart.y[s.season], base = chart.base, foot = base + 34;
    var over = s.start + s.lasts > 48, end = over ? s.start + s.lasts - 48 : s.start + s.lasts;
    function set(name, values) {
      var found = svg.querySelector(name);
      for (var key in values) found.setAttribute(key, values[key]);
      return found;
    }
    svg.querySelectorAll(".st").forEach(function (path, i) {
      path.setAttribute("class", "st " + (s.steps[i] || ""));
      var next = x[i + 1] + " " + y[(i + 1) % 48];
      path.setAttribute("d", "M" + x[i] + " " + base + "V" + y[i] + "L" + next + "V" + base + "Z");
    });
    svg.querySelectorAll(".curve").forEach(function (path, i) { path.classList.toggle("on", i === s.season); });
    svg.querySelectorAll(".lb").forEach(function (text, i) { text.classList.toggle("on", i === s.season); });
    var first = s.up[0], last = s.up[s.up.length - 1] + 1, some = s.up.length > 0;
    set(".rise", { d: some ? "M" + x[first] + " " + y[first] + "H" + x[last] + "V" + y[last % 48] : "M0 0" });
    set(".amt", { x: some ? (x[first] + x[last]) / 2 : 0, y: some ? y[first] + 18 : 0 })
      .textContent = some ? "+" + s.rise.toFixed(1) + " °C" : "";
    set(".park", { d: over ? "M" + x[s.start] + " " + foot + "H" + x[48] + "M" + x[0] + " " + foot + "H" + x[end]
      : "M" + x[s.start] + " " + foot + "H" + x[end] });
    var before = 48 - s.start > end, room = over ? 75 : 34;
    var middle = (!over ? x[s.start] + x[end] : before ? x[s.start] + x[48] : x[0] + x[end]) / 2;
    set(".parked", { x: Math.min(Math.max(middle, x[0] + room), x[48] - room + 20) })
      .textContent = "parked " + s.lasts / 2 + " h" + (over ? ", over midnight" : "");
    set(".p1", { cx: x[s.start], cy: y[s.start] });
    set(".p2", { cx: x[end], cy: y[end % 48] });
  }
  function tell(s) {
    var rows = data.grams.map(function (_, row) { return grams(row, s.season, s.end, s.lasts); });
    var told = get("tell");
    told.replaceChildren("Parked from ", bold(clock(s.start)), " to ", bold(clock(2 * s.end)),
      " in season " + (s.season + 1) + ": ", bold(s.up.length + " of " + s.lasts), " half-hours rise");
    if (s.up.length) told.append(", by ", bold(s.rise.toFixed(1) + " °C"), " in all");
    told.append(". One such parking lets go of ");
    rows.forEach(function (mass, i) {
      told.append(i ? ", " : "", bold(mass + " g"), " from " + data.rows[i]);
    });
    told.append(".");
    document.querySelectorAll("#factors tr").forEach(function (line, season) {
      line.querySelectorAll(".factor").forEach(function (cell, row) {
        cell.textContent = grams(row, season, s.end, s.lasts);
      });
    });
    get("end-told").textContent = s.end + ":00";
    get("lasts-told").textContent = s.lasts / 2 + " h";
  }
  function show() {
    var s = state();
    document.querySelectorAll("svg.chart").forEach(function (svg, i) { draw(svg, data.charts[i], s); });
    tell(s);
  }
  document.querySelector(".controls").addEventListener("input", show);
  show();
})();
