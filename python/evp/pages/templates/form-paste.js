/* Blocks of a spreadsheet, pasted from any cell on: tabs between columns, a line for each row. */
(function (app) {
  "use strict";
  function blockOf(text) {
    var lines = text.replace(/\r\n?/g, "\n").replace(/\n+$/, "").split("\n");
    return lines.map(function (line) { return line.split("\t").map(function (word) { return word.trim(); }); });
  }
  function plain(word) {
    return word.toLowerCase().replace(/[([].*$/, "").trim().replace(/\s+/g, "_").replace(/^m_sat$/, "saturation")
      .replace(/^note$/, "name").replace(/^vapour_pressure$/, "vp").replace(/^fill_level$/, "fill")
      .replace(/^carb\.$/, "carburettor").replace(/^ends_hot$/, "hot");
  }
  function columnsFrom(names, start, block) {  // by a header where the block has one, else from the cell on
    var header = block[0].map(plain), known = header.filter(function (name) { return names.indexOf(name) >= 0; });
    if (known.length > 1 || known.length === 1 && header.length === 1 && block.length > 1) {
      block.shift();
      return header.map(function (name) { return names.indexOf(name) >= 0 ? name : null; });
    }
    return block[0].map(function (_, i) { return names[start + i] || null; });
  }
  function pasteRecords(field, block) {
    var line = field.closest("tr.record"), kind = line.closest("table").id.replace("-table", ""), words = app.collect();
    var names = Array.from(app.fields(line)).map(function (other) { return other.dataset.field; });
    var columns = columnsFrom(names, names.indexOf(field.dataset.field), block), first = app.lines(kind).indexOf(line);
    var records = words[kind + "s"];
    block.forEach(function (cells, i) {
      var record = records[first + i] = Object.assign({}, records[first + i]);
      cells.forEach(function (word, j) { if (columns[j]) record[columns[j]] = word; });
    });
    app.put(words);
  }
  function withoutKeys(block) {  // a column of durations or hours before that of the counts
    var keyed = block.length > 1 && block.every(function (cells, i) {
      return cells.length === 2 && (i === 0 || +cells[0].replace(",", ".") > +block[i - 1][0].replace(",", "."));
    });
    return keyed ? block.map(function (cells) { return [cells[1]]; }) : block;
  }
  function put(field, word) {
    if (!field) return;
    field.value = word;
    app.typed(field);
  }
  function pasteList(name, from, block) {
    [].concat.apply([], withoutKeys(block)).forEach(function (word, i) {
      put(app.get(name + "-" + (from + i)), word);
    });
    app.showSums();
  }
  function pasteGrid(t, d, block) {
    block.forEach(function (cells, i) {
      cells.forEach(function (word, j) {
        put(app.get("grid-" + (t + i) + "-" + (d + j)), word);
      });
    });
    app.showSums();
  }
  app.paste = function (field, text) {  // whether it was a block
    var at = /^(durations|hours|grid)-(\d+)(?:-(\d+))?$/.exec(field.id || "");
    if (!/[\t\n\r]/.test(text.trim()) || !at && !(field.matches("[data-field]") && field.closest("tr.record"))) return false;
    var block = blockOf(text);
    if (!at) pasteRecords(field, block);
    else if (at[1] === "grid") pasteGrid(+at[2], +at[3], block);
    else pasteList(at[1], +at[2], block);
    app.changed(true);
    return true;
  };
})(evpForm);
