(function () {
  var form = document.querySelector("form.drop"), inputs = Array.from(form.querySelectorAll("input[type=file]"));
  function put(input, files) {
    var held = new DataTransfer();
    files.forEach(function (file) { held.items.add(file); });
    input.files = held.files;
  }
  function isTable(file) { return /\.csv$/i.test(file.name); }
  document.addEventListener("dragover", function (event) { event.preventDefault(); form.classList.add("over"); });
  document.addEventListener("dragleave", function (event) { if (!event.relatedTarget) form.classList.remove("over"); });
  document.addEventListener("drop", function (event) {
    event.preventDefault();
    form.classList.remove("over");
    var files = Array.from(event.dataTransfer.files).sort(function (a, b) { return a.name < b.name ? -1 : 1; });
    if (!files.length) return;
    if (inputs.length === 1) {
      put(inputs[0], inputs[0].multiple ? files : files.slice(0, 1));
    } else {
      files.forEach(function (file) {
        var fits = inputs.filter(function (input) { return (input.name === "travel") === isTable(file); });
        var free = fits.find(function (input) { return !input.files.length; }) || fits[0];
        if (free) put(free, [file]);
      });
    }
    if (inputs.every(function (input) { return input.files.length; })) form.requestSubmit();
  });
})();
