(function () {
  var all = function () { return Array.from(document.querySelectorAll("details")); };
  var set = function (open) { all().forEach(function (one) { one.open = open; }); };
  var reveal = function () {
    var named = document.getElementById(location.hash.slice(1));
    for (var at = named; at; at = at.parentElement) {
      if (at.tagName === "DETAILS") { at.open = true; }
    }
    if (named) { named.scrollIntoView(); }
  };
  var closed = [];
  document.querySelectorAll("details.step:not(.bad), details.unchecked").forEach(function (one) { one.open = false; });
  document.getElementById("tools").hidden = false;
  document.getElementById("open-all").onclick = function () { set(true); };
  document.getElementById("close-all").onclick = function () { set(false); };
  window.addEventListener("hashchange", reveal);
  window.addEventListener("beforeprint", function () {
    closed = all().filter(function (one) { return !one.open; });
    set(true);
  });
  window.addEventListener("afterprint", function () { closed.forEach(function (one) { one.open = false; }); });
  reveal();
})();
