(function () {
  var data = JSON.parse(document.getElementById("data").textContent), timer = 0;
  var left = data.drawn.left, size = data.drawn.wide, high = data.drawn.high, bottom = data.drawn.top + 24 * high;
  var maps = document.querySelectorAll(".hm"), play = document.getElementById("play");
  function get(id) { return document.getElementById(id); }
  function apart(number) { return String(number).replace(/\B(?=(\d{3})+$)/g, ","); }
  function clock(mark) { mark = (mark + 48) % 48; return (mark >> 1) + ":" + (mark % 2 ? "30" : "00"); }
  function bold(words) { var b = document.createElement("b"); b.textContent = words; return b; }
  function tell(end, lasts) {
    var filled = data.filled[end - 1], count = data.counts[end - 1][lasts - 1], alone = data.alone[end - 1];
    var told = get("tell"), parked = "Parked " + clock(2 * end - lasts) + " to " + clock(2 * end);
    told.replaceChildren("Up to end hour " + end + ": ", bold(filled[0]), " of " + data.parkings);
    if (filled[1]) told.append(", mean so far ", bold(filled[1] + " g"));
    told.append(alone ? "; those that end at " + end + ": " + alone + " g. " : "; none end at " + end + ". ");
    told.append(parked + " (" + lasts / 2 + " h): ", bold(apart(count)), count === 1 ? " parking of " : " parkings of ",
      bold(data.grams[end - 1][lasts - 1] + " g"), ".");
  }
  function draw() {
    var end = +get("end").value, lasts = +get("lasts").value;
    maps.forEach(function (map) {
      map.classList.add("live");
      map.querySelectorAll("g").forEach(function (g) { g.classList.toggle("later", +g.dataset.t > end); });
      map.querySelectorAll(".col, .cell, .cell2").forEach(function (mark) {
        mark.setAttribute("x", left + (end - 1) * size);
      });
      map.querySelectorAll(".cell, .cell2").forEach(function (mark) {
        mark.setAttribute("y", bottom - lasts * high);
      });
    });
    get("end-told").textContent = end;
    get("lasts-told").textContent = lasts / 2 + " h";
    tell(end, lasts);
  }
  function stop() { clearInterval(timer); timer = 0; play.textContent = "Play"; }
  function step() {
    if (+get("end").value >= 24) return stop();
    get("end").value = +get("end").value + 1;
    draw();
  }
  play.addEventListener("click", function () {
    if (timer) return stop();
    play.textContent = "Pause";
    if (+get("end").value === 24) { get("end").value = 1; draw(); }
    timer = setInterval(step, matchMedia("(prefers-reduced-motion: reduce)").matches ? 1500 : 450);
  });
  document.querySelector(".controls").addEventListener("input", function () { if (timer) stop(); draw(); });
  if (+get("end").value < 24) draw();
  maps.forEach(function (map) {
    map.addEventListener("click", function (event) {
      var box = map.getBoundingClientRect(), scale = map.viewBox.baseVal.width / box.width;
      var end = Math.ceil(((event.clientX - box.left) * scale - left) / size);
      var lasts = Math.ceil((bottom - (event.clientY - box.top) * scale) / high);
      if (end < 1 || end > 24 || lasts < 1 || lasts > 24) return;
      stop();
      get("end").value = end;
      get("lasts").value = lasts;
      draw();
    });
  });
})();
