/* Undo and redo, and the draft that a browser keeps. Both have the form as one text. */
(function (app) {
  "use strict";
  var states = [], at = -1, MOST = 60, DAYS = 14, key = "evp-draft:" + location.pathname + location.search, timer = 0;

  function buttons() {
    app.get("undo").disabled = at < 1;
    app.get("redo").disabled = at >= states.length - 1;
  }
  app.remember = function (text) {
    if (states[at] === text) return false;
    states = states.slice(0, at + 1).concat(text).slice(-MOST);
    at = states.length - 1;
    buttons();
    return true;
  };
  function go(step) {
    app.remember(app.text());  // what is typed and not yet checked
    if (!states[at + step]) return;
    at += step;
    app.put(JSON.parse(states[at]));
    buttons();
    app.changed(true);
  }
  app.undo = function () { go(-1); };
  app.redo = function () { go(1); };

  // drafts: none where a browser keeps nothing, or has no room
  function read(name) {
    try { return JSON.parse(localStorage.getItem(name)); } catch (error) { return null; }
  }
  function old(name) {
    var draft = read(name);
    return !draft || Date.now() - draft.time > DAYS * 86400000;
  }
  function dropOld() {
    try {
      Object.keys(localStorage).filter(function (name) { return name.startsWith("evp-draft:") && old(name); })
        .forEach(function (name) { localStorage.removeItem(name); });
    } catch (error) { /* nothing is kept here */ }
  }
  function write(text) {
    try {
      localStorage.setItem(key, JSON.stringify({ time: Date.now(), name: app.get("name").value, form: text }));
    } catch (error) { /* full, or not allowed: there is no draft */ }
  }
  app.keepDraft = function (text) {
    clearTimeout(timer);
    timer = setTimeout(function () { write(text); }, 150);
  };
  app.keepDraftNow = function () {
    clearTimeout(timer);
    if (states.length > 1) write(app.text());
  };
  app.dropDraft = function () {
    clearTimeout(timer);
    try { localStorage.removeItem(key); } catch (error) { /* nothing is kept here */ }
  };
  function clock(time) {
    var date = new Date(time), today = new Date().toDateString() === date.toDateString();
    var hour = String(date.getHours()).padStart(2, "0") + ":" + String(date.getMinutes()).padStart(2, "0");
    return today ? hour : date.toLocaleDateString("en-GB") + " " + hour;
  }
  app.restoreDraft = function () {  // whether there was one
    dropOld();
    var draft = read(key), words = null;
    try { words = draft && JSON.parse(draft.form); } catch (error) { return false; }
    if (!words || app.isEmpty(words)) return false;
    app.get("name").value = draft.name;
    app.put(words);
    app.get("restored-at").textContent = clock(draft.time);
    app.get("restored").hidden = false;
    return true;
  };
})(evpForm);
