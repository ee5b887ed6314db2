/* The form as words, and the page that shows them. Other scripts change the words and put them on the page; what is typed
   goes into the words field by field, since reading a thousand rows from the page takes time. */
var evpForm = {};
(function (app) {
  "use strict";
  app.get = function (id) { return document.getElementById(id); };
  app.all = function (selector, within) { return Array.from((within || document).querySelectorAll(selector)); };
  app.range = function (many) { return Array.from({ length: many }, function (_, i) { return i + 1; }); };
  app.kind = function () { return app.get("form").querySelector("[name=kind]:checked").value; };
  app.lines = function (name) { return Array.from(app.get(name + "-table").tBodies[0].querySelectorAll("tr.record")); };
  app.fields = function (line) { return line.querySelectorAll("[data-field]"); };

  var words = null;  // as the page has them
  app.text = function () { return JSON.stringify(words); };
  app.collect = function () { return JSON.parse(app.text()); };
  function wordsOf(line) {
    var found = {};
    app.fields(line).forEach(function (field) { found[field.dataset.field] = field.value; });
    return found;
  }
  function placeOf(field) {  // where the words have a field: an object or a list, and the name in it
    var at = /^(season|row)-(\d+)-(\w+)$/.exec(field.id);
    if (at) return [words[at[1] + "s"][+at[2]], at[3]];
    at = /^(durations|hours)-(\d+)$/.exec(field.id);
    if (at) return [words[at[1]], at[2] - 1];
    at = /^grid-(\d+)-(\d+)$/.exec(field.id);
    return at ? [words.grid[at[1] - 1], at[2] - 1] : null;
  }
  app.typed = function (field) {  // what was typed or chosen in a field; whether it is new
    var place = field.name === "kind" ? [words, "parking"] : placeOf(field);
    var word = field.name === "kind" ? app.kind() : field.value;
    if (!place || place[0][place[1]] === word) return false;
    place[0][place[1]] = word;
    return true;
  };
  app.empty = function () {
    var none = Array(24).fill("");
    return { seasons: [{}], rows: [{}], parking: "lists", durations: none, hours: none, version: "",
      grid: app.range(24).map(function () { return none; }) };
  };
  app.isEmpty = function (words) {
    function typed(lines) {
      return lines.some(function (line) {
        return Object.keys(line).some(function (name) { return line[name] && !/^(class|technology|canister)$/.test(name); });
      });
    }
    return words.seasons.length < 2 && words.rows.length < 2 && !typed(words.seasons) && !typed(words.rows) &&
      !words.durations.concat(words.hours).some(Boolean) &&
      !words.grid.some(function (line) { return line.some(Boolean); });
  };

  // a word of a list, as it is shown or as its number
  function plain(word) {
    return word.toLowerCase().replace(/[\u2010-\u2015\u2212]/g, "-").replace(/\s+/g, " ").trim()
      .replace(/^conventional$/, "conv.").replace(/^euro(\d)$/, "euro $1").replace(/^by class$/, "class");
  }
  function optionFor(field, word) {
    var wanted = plain(word);
    return Array.from(field.options).find(function (option) {
      return option.value === word || plain(option.value) === wanted || plain(option.text) === wanted ||
        plain(option.text).replace(/^\d /, "") === wanted;
    });
  }
  app.setField = function (field, word) {
    if (field.tagName !== "SELECT") {
      if (field.value !== word) field.value = word;
      return;
    }
    var option = word === "" ? field.options[0] : optionFor(field, word);
    if (!option) {
      option = new Option(word, word);
      field.append(option);
    }
    if (field.value !== option.value) field.value = option.value;
  };

  // the page that shows them
  function number(name) {
    app.lines(name).forEach(function (line, i) {
      var first = line.querySelector("th");
      if (first.textContent === String(i + 1) && line.dataset.numbered) return;
      first.textContent = i + 1;
      line.dataset.numbered = "yes";
      app.fields(line).forEach(function (field) {
        field.id = name + "-" + i + "-" + field.dataset.field;
        field.setAttribute("aria-label", name + " " + (i + 1) + ": " + field.closest("td").dataset.l);
      });
    });
  }
  function putWords(line, words) {
    app.fields(line).forEach(function (field) { app.setField(field, words[field.dataset.field] || ""); });
  }
  function putLines(name, records) {
    var body = app.get(name + "-table").tBodies[0], lines = app.lines(name), fresh = document.createDocumentFragment();
    records.forEach(function (words, i) {
      var line = lines[i] || app.get(name + "-line").content.firstElementChild.cloneNode(true);
      putWords(line, words);
      if (!lines[i]) fresh.append(line);
      records[i] = wordsOf(line);
    });
    lines.slice(records.length).forEach(function (line) { line.remove(); });
    body.append(fresh);
    number(name);
  }
  function putCounts() {
    app.get("form").querySelector("[name=kind][value=" + words.parking + "]").checked = true;
    app.range(24).forEach(function (i) {
      app.get("durations-" + i).value = words.durations[i - 1];
      app.get("hours-" + i).value = words.hours[i - 1];
      app.range(24).forEach(function (d) {
        var count = words.grid[i - 1][d - 1], cell = app.get("grid-" + i + "-" + d);
        count = words.grid[i - 1][d - 1] = count === "0" ? "" : count;
        if (cell.value !== count) cell.value = count;
      });
    });
  }
  app.put = function (given) {
    words = JSON.parse(JSON.stringify(given));
    app.clearFaults();
    putLines("season", words.seasons);
    putLines("row", words.rows);
    putCounts();
    app.showSums();
  };

  // sums of the parkings
  function sum(fields) {
    var found = 0;
    fields.forEach(function (field) { found += /^[0-9]+$/.test(field.value) ? +field.value : 0; });
    return found;
  }
  function apart(value) { return String(value).replace(/\B(?=(\d{3})+$)/g, ","); }
  app.showSums = function () {
    app.get("lists").hidden = app.kind() !== "lists";
    app.get("grid").hidden = app.kind() !== "grid";
    ["durations", "hours"].forEach(function (name) {
      app.get(name + "-sum").textContent = apart(sum(app.all("input", app.get(name))));
    });
    if (app.kind() !== "grid") return;
    app.range(24).forEach(function (t) {
      var fields = app.range(24).map(function (d) { return app.get("grid-" + t + "-" + d); });
      fields.forEach(function (field) { field.classList.toggle("some", /[1-9]/.test(field.value)); });
      app.get("grid-" + t + "-sum").textContent = apart(sum(fields));
    });
    app.get("grid-sum").textContent = apart(sum(app.all("input", app.get("grid"))));
  };
})(evpForm);
