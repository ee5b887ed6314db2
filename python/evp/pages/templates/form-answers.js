/* What the server says of the form: faults at their fields, doubts, and the masses now and before. */
(function (app) {
  "use strict";
  var told = app.get("told"), last = null, before = null, now = null, has = false;

  app.clearFaults = function () {
    if (!has) return;  // to look through a thousand rows takes time
    has = false;
    app.all("[aria-invalid]").forEach(function (field) {
      field.removeAttribute("aria-invalid");
      field.removeAttribute("aria-describedby");
    });
    app.all("tr.fault-row, .fault-text").forEach(function (words) { words.remove(); });
    app.all(".has-fault").forEach(function (line) { line.classList.remove("has-fault"); });
  };
  function faultCell(line) {  // below the line, or what was told of it before
    var place = line.nextElementSibling;
    if (!place || !place.matches("tr.fault-row")) {
      place = document.createElement("tr");
      place.className = "fault-row";
      place.insertCell().colSpan = line.cells.length;
      line.classList.add("has-fault");
      line.after(place);
    }
    return place.cells[0];
  }
  function showFault(fault, i) {
    var field = app.get(fault.id), words = document.createElement("span");
    if (!field) return;
    words.className = "fault-text";
    words.id = "fault-" + i;
    words.textContent = fault.text;
    var control = field.matches("input, select"), line = field.closest("tr.record");
    if (control) field.setAttribute("aria-invalid", "true");
    field.setAttribute("aria-describedby", words.id);
    if (line) {
      (app.narrow.matches ? field.closest("td") : faultCell(line)).append(words);
    } else if (control) {
      field.closest(".counts, .scroll").after(words);
    } else field.append(words);
  }
  function linkTo(fault) {
    var link = document.createElement("a");
    link.href = "#" + fault.id;
    link.id = "to-fault";
    link.textContent = "Go to the field";
    link.addEventListener("click", function (event) { event.preventDefault(); app.get(fault.id).focus(); });
    return link;
  }
  function showLine(answer) {
    told.replaceChildren(answer.line);
    if (answer.faults.length) {
      var first = answer.faults[0], where = first.where ? first.where[0].toUpperCase() + first.where.slice(1) + ": " : "";
      told.append(" ", where, first.text, ". ", linkTo(first));
    }
    told.dataset.state = answer.state;
    told.dataset.serial = answer.serial || 0;
  }
  app.showDoubts = function (doubts, effects) {
    var items = doubts.concat(effects).map(function (doubt) {
      var item = document.createElement("li");
      item.textContent = doubt;
      return item;
    });
    app.get("doubts").replaceChildren.apply(app.get("doubts"), items);
  };
  app.show = function (answer) {
    last = answer;
    app.clearFaults();
    answer.faults.slice(0, 20).forEach(showFault);
    has = answer.faults.length > 0;
    app.get("state").className = "state " + ({ accepted: "yes", empty: "" }[answer.state] ?? "no");
    showLine(answer);
    app.get("save").textContent = answer.state === "refused" ? "Save it, though refused" : "Save the sheet";
    ["save", "save-csv", "save-xlsx", "open-page"].forEach(function (id) {
      app.get(id).disabled = answer.state === "unread" || answer.state === "empty";
    });
    app.showDoubts(answer.doubts, []);
    if (answer.results) showResults(answer.results);
  };
  app.showAgain = function () { if (last) app.show(last); };

  // masses now and before: the library's; the change is of the middles of their bands
  function middle(mass) { return Number(mass.low) + Number(mass.high); }
  function change(old, mass) {
    if (!old || old.text === mass.text || !middle(old)) return "";
    var percent = 100 * (middle(mass) - middle(old)) / middle(old);
    return (percent < 0 ? "\u2212" : "+") + Math.abs(percent).toFixed(1) + " %";
  }
  function cell(line, words, label) {
    var made = line.insertCell();
    made.className = "num";
    made.setAttribute("role", "cell");
    made.dataset.l = label;
    made.textContent = words;
  }
  function resultLine(name, old, mass) {
    var line = document.createElement("tr"), head = document.createElement("th");
    line.setAttribute("role", "row");
    head.scope = "row";
    head.setAttribute("role", "rowheader");
    head.textContent = name;
    line.append(head);
    cell(line, mass.text, "now");
    cell(line, old ? old.text : "", "before");
    cell(line, change(old, mass), "change");
    return line;
  }
  function massesOf(results) {
    var found = [];
    results.slice().reverse().forEach(function (group) {  // the total first, then all rows
      group.masses.forEach(function (mass, m) {
        var name = group.name === "total" ? "total" : group.name + " " + ["diurnal", "soak", "running"][m];
        found.push({ name: name, mass: mass });
      });
    });
    return found;
  }
  function showResults(results) {
    now = results;
    if (!before || before[before.length - 1].masses[0].high === "0") before = results;  // not of an empty fleet
    var old = massesOf(before), lines = massesOf(now).map(function (line, i) {
      return resultLine(line.name, old[i].mass, line.mass);
    });
    app.get("results-body").replaceChildren.apply(app.get("results-body"), lines);
    var total = massesOf(now)[0].mass, was = old[0].mass, by = change(was, total);
    app.get("result").textContent = "Total " + total.text + (by ? ", before " + was.text + " (" + by + ")" : "");
    app.get("results").hidden = false;
  }
  app.newBefore = function () {
    before = now;
    if (now) showResults(now);
  };
  app.forgetBefore = function () { before = null; };
  app.failed = function () {
    told.textContent = "The server does not answer. Is it still running? The draft is kept in this browser.";
    told.dataset.state = "unanswered";
  };
  app.say = function (words) {
    told.textContent = words;
    told.dataset.state = "unread";
    app.get("state").className = "state no";
  };
})(evpForm);
