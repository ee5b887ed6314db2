// The texts of a page whose contrast is below what WCAG AA asks for, by the colours that the browser has reckoned.
function parts(colour) {
  var found = colour.match(/[\d.]+/g);
  return found && { r: +found[0], g: +found[1], b: +found[2], a: found[3] === undefined ? 1 : +found[3] };
}
function over(top, below) {
  function mix(name) { return top[name] * top.a + below[name] * (1 - top.a); }
  return { r: mix("r"), g: mix("g"), b: mix("b"), a: 1 };
}
function light(colour) {
  var linear = [colour.r, colour.g, colour.b].map(function (part) {
    part /= 255;
    return part <= 0.04045 ? part / 12.92 : Math.pow((part + 0.055) / 1.055, 2.4);
  });
  return 0.2126 * linear[0] + 0.7152 * linear[1] + 0.0722 * linear[2];
}
function ground(element) {
  var layers = [];
  for (var e = element; e; e = e.parentElement) {
    var colour = parts(getComputedStyle(e).backgroundColor);
    if (colour && colour.a > 0) layers.push(colour);
    if (colour && colour.a === 1) break;
  }
  return layers.reverse().reduce(function (below, top) { return over(top, below); },
    parts(getComputedStyle(document.body).backgroundColor));
}
var low = [], walker = document.createTreeWalker(document.body, NodeFilter.SHOW_TEXT), seen = 0;
while (walker.nextNode()) {
  var element = walker.currentNode.parentElement, style = getComputedStyle(element);
  if (!walker.currentNode.data.trim()) continue;
  if (element.closest("script, style, noscript, .hide, [aria-hidden=true]")) continue;
  if (!element.getClientRects().length || style.visibility === "hidden" || element.closest("button:disabled")) continue;
  var svg = element.namespaceURI.indexOf("svg") > 0, ink = parts(svg ? style.fill : style.color);
  var below = ground(element);
  if (!ink || element.matches("title, desc")) continue;
  var a = light(over(ink, below)), b = light(below), ratio = (Math.max(a, b) + 0.05) / (Math.min(a, b) + 0.05);
  var size = parseFloat(style.fontSize), large = size >= 24 || size >= 18.66 && +style.fontWeight >= 700;
  seen++;
  if (ratio < (large ? 3 : 4.5)) low.push(ratio.toFixed(2) + " " + walker.currentNode.data.trim().slice(0, 40));
}
return { seen: seen, low: low };
