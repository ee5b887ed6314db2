document.querySelectorAll(".matrix th.nm a").forEach(function (name) {
  var more = document.getElementById(name.hash.slice(1)), shut = more.querySelector(".shut");
  function open(yes) { more.classList.toggle("open", yes); name.setAttribute("aria-expanded", yes); }
  if (location.hash === name.hash) open(true);
  name.addEventListener("click", function (event) {
    event.preventDefault();
    open(name.getAttribute("aria-expanded") !== "true");
  });
  shut.addEventListener("click", function (event) { event.preventDefault(); open(false); name.focus(); });
});
