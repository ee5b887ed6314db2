// What a page lays out badly: texts that overlap or run together, texts that a box or a picture cuts off, and words
// that a field is too narrow for.
var texts = [], cut = [], overlaps = [], pen = document.createElement("canvas").getContext("2d");
var walker = document.createTreeWalker(document.body, NodeFilter.SHOW_TEXT);
function shown(element) {
  var head = element.closest("thead");  // narrow, a table's head is for readers of the screen alone
  return element.checkVisibility({ visibilityProperty: true }) && !element.closest("script, style, .hide, title, desc")
    && !(head && getComputedStyle(head).clipPath !== "none");
}
function short(words) { return words.trim().replace(/\s+/g, " ").slice(0, 40); }
while (walker.nextNode()) {
  var node = walker.currentNode, element = node.parentElement, range = document.createRange();
  if (!node.data.trim() || !shown(element) || element.closest("option")) continue;
  range.selectNodeContents(node);
  var box = element.closest(".scroll"), edges = box && box.getBoundingClientRect(), picture = element.closest("svg");
  Array.from(range.getClientRects()).forEach(function (rect) {
    if (rect.width < 2 || edges && (rect.right > edges.right || rect.left < edges.left)) return;  // scrolled away
    texts.push({ rect: rect, node: node, of: element.closest("td, th, li, label, legend, text, p, div") });
    if (picture && rect.right > picture.getBoundingClientRect().right + 1) cut.push(short(node.data));
  });
}
texts.sort(function (a, b) { return a.rect.top - b.rect.top; });
texts.forEach(function (a, i) {
  for (var k = i + 1; k < texts.length && texts[k].rect.top < a.rect.bottom - 3; k++) {
    var b = texts[k], wide = Math.min(a.rect.right, b.rect.right) - Math.max(a.rect.left, b.rect.left);
    var high = Math.min(a.rect.bottom, b.rect.bottom) - b.rect.top;
    var room = a.of !== b.of ? 3 : -2;  // between two cells, and within one
    if (a.node !== b.node && wide > -room && high > 4) overlaps.push(short(a.node.data) + " | " + short(b.node.data));
  }
});
document.querySelectorAll("input[type=text], input[type=number], select").forEach(function (field) {
  var style = getComputedStyle(field), words = field.matches("select") ? field.selectedOptions[0].text : field.value;
  if (!shown(field)) return;
  pen.font = [style.fontWeight, style.fontSize, style.fontFamily].join(" ");
  var arrow = field.matches("select") && style.appearance !== "none" ? 20 : 0;
  var wanted = pen.measureText(words).width + parseFloat(style.paddingLeft) + parseFloat(style.paddingRight) + arrow;
  if (wanted > field.clientWidth + 1) cut.push((field.id || field.name) + " " + words);
});
return { overlaps: overlaps, cut: cut, seen: texts.length };
