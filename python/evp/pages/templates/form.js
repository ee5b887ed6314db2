/* What people do with the form, and what the server is asked. */
(function (app) {
  "use strict";
  var data = JSON.parse(app.get("data").textContent), form = app.get("form");
  var serial = 0, timer = 0, doubting = 0, busy = false, again = false;
  app.narrow = matchMedia("(max-width: 700px)");  // narrow, a field has a line of its own

  // asking the server, one question at a time
  function ask(address, text) {
    return fetch(address, { method: "POST", body: text }).then(function (answer) { return answer.json(); });
  }
  function check() {
    if (busy) { again = true; return; }
    var text = app.text(), asked = ++serial;
    busy = true;
    if (app.remember(text)) app.keepDraft(text);
    ask("form/check?serial=" + asked, text).then(function (answer) {
      if (asked !== serial) return;
      app.show(answer);
      if (answer.state === "accepted") askDoubts(text, answer.doubts, asked);
    }).catch(app.failed).finally(function () {
      busy = false;
      if (again) { again = false; check(); }
    });
  }
  function askDoubts(text, doubts, asked) {  // where nobody types any more
    clearTimeout(doubting);
    doubting = setTimeout(function () {
      ask("form/doubts", text).then(function (answer) {
        if (asked === serial) app.showDoubts(doubts, answer.doubts);
      }).catch(function () { /* the next check says that the server is gone */ });
    }, 400);
  }
  app.changed = function (now) {
    clearTimeout(timer);
    timer = setTimeout(check, now === true ? 0 : 40);
  };
  function fill(words) {
    app.put(words);
    app.forgetBefore();
    app.changed(true);
  }
  function opened(answer) {
    if (answer.message) {
      app.say(answer.message);
      return;
    }
    app.get("name").value = answer.name || app.get("name").value;
    fill(Object.assign(app.collect(), answer.form));
  }
  function open(files) {
    var sent = new FormData();
    Array.from(files).forEach(function (file) { sent.append("files", file); });
    ask("form/read", sent).then(opened).catch(app.failed);
  }

  // seasons and rows
  function dropLine(line, name) {
    var next = line.nextElementSibling || line.previousElementSibling, words = app.collect();
    words[name + "s"].splice(app.lines(name).indexOf(line), 1);
    var at = Math.min(app.lines(name).indexOf(line), words[name + "s"].length - 1);
    app.put(words);
    (next && at >= 0 ? app.fields(app.lines(name)[at])[0] : app.get("add-" + name)).focus();
    app.changed();
  }
  function copyLine(line, name) {
    var words = app.collect(), at = app.lines(name).indexOf(line);
    words[name + "s"].splice(at + 1, 0, words[name + "s"][at]);
    app.put(words);
    app.get(name + "-" + (at + 1) + "-vehicles").focus();
    app.changed();
  }
  function addLine(name) {
    var words = app.collect();
    words[name + "s"].push({});
    app.put(words);
    app.fields(app.lines(name).pop())[0].focus();
    app.changed();
  }
  function sure(question) { return app.isEmpty(app.collect()) || confirm(question); }

  app.narrow.addEventListener("change", app.showAgain);
  form.addEventListener("input", function (event) {
    if (event.target.type === "file") return;
    app.typed(event.target);
    if (event.target.closest("#parking")) app.showSums();
    app.changed();
  });
  form.addEventListener("change", function (event) {  // as by a browser that fills in a field
    if (event.target.type !== "file" && app.typed(event.target)) app.changed();
  });
  form.addEventListener("submit", function () { app.get("collected").value = app.text(); });
  form.addEventListener("click", function (event) {
    var line = event.target.closest("tr.record"), name = line && line.closest("table").id.replace("-table", "");
    if (line && event.target.closest(".drop-line")) dropLine(line, name);
    else if (line && event.target.closest(".copy")) copyLine(line, name);
  });
  ["season", "row"].forEach(function (name) {
    app.get("add-" + name).addEventListener("click", function () { addLine(name); });
  });
  app.get("example").addEventListener("click", function () {
    if (!sure("Fill in the example in place of what is in the form? Undo brings it back.")) return;
    app.get("name").value = "example";
    fill(data.example);
  });
  app.get("empty").addEventListener("click", function () {
    if (sure("Empty the form? Undo brings it back until the page is left.")) fill(app.empty());
  });
  app.get("start-anew").addEventListener("click", function () {
    app.get("restored").hidden = true;
    fill(data.form);
    app.dropDraft();
  });
  app.get("guidebook").addEventListener("click", function () {
    app.put(Object.assign(app.collect(), data.guidebook, { parking: "lists" }));
    app.changed(true);
  });
  app.get("before").addEventListener("click", app.newBefore);
  app.get("undo").addEventListener("click", app.undo);
  app.get("redo").addEventListener("click", app.redo);
  app.get("sheet-file").addEventListener("change", function (event) {
    if (event.target.files[0]) open(event.target.files);
  });
  document.addEventListener("dragover", function (event) { event.preventDefault(); });
  document.addEventListener("drop", function (event) {
    event.preventDefault();
    if (event.dataTransfer.files[0]) open(event.dataTransfer.files);
  });
  addEventListener("pagehide", app.keepDraftNow);

  // keys
  document.addEventListener("keydown", function (event) {
    var step = (event.ctrlKey || event.metaKey) && !event.altKey && event.key.toLowerCase();
    if (step !== "z" && step !== "y" || event.target.id === "name") return;
    event.preventDefault();
    (step === "y" || event.shiftKey ? app.redo : app.undo)();
  });
  app.get("grid").addEventListener("keydown", function (event) {
    var at = /^grid-(\d+)-(\d+)$/.exec(event.target.id), step = { ArrowDown: 1, Enter: 1, ArrowUp: -1 }[event.key];
    if (!at || !step) return;
    event.preventDefault();
    var next = app.get("grid-" + (+at[1] + step) + "-" + at[2]);
    if (next) { next.focus(); next.select(); }
  });
  form.addEventListener("keydown", function (event) {
    if (event.key === "Enter" && event.target.matches("input[type=text]")) event.preventDefault();
  });
  form.addEventListener("paste", function (event) {
    if (app.paste(event.target, event.clipboardData.getData("text"))) event.preventDefault();
  });

  if (!app.restoreDraft()) app.put(data.form);
  app.changed(true);
})(evpForm);
