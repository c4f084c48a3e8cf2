// Shows in the panel what a call carries and what the store read after it: of the call that is pointed at, else of the selected one.
(function () {
    "use strict";
    var data = JSON.parse(document.getElementById("data").textContent);
    var panel = document.getElementById("panel");
    var same = document.getElementById("same");
    // The call that was clicked or gone to, and the one in the panel; 0 is none.
    var selected = 0;
    var shown = 0;

    function element(name, text, parent, kind) {
        var made = document.createElement(name);
        if (text !== null) made.textContent = text;
        if (kind) made.className = kind;
        parent.appendChild(made);
        return made;
    }

    function table(parent, heads, rows, kind) {
        var made = element("table", null, parent, kind);
        if (heads) {
            var head = element("tr", null, made);
            heads.forEach(function (text) { element("th", text, head); });
        }
        rows.forEach(function (cells) {
            var row = element("tr", null, made);
            cells.forEach(function (text, i) {
                var cell = element(heads || i ? "td" : "th", null, row);
                element(text.indexOf("\n") < 0 ? "span" : "pre", text, cell);
            });
        });
    }

    function part(parent, title, kind) {
        var made = element("div", null, parent, kind);
        element("h3", title, made);
        return made;
    }

    function button(parent, text, number) {
        if (number < 1 || number > data.calls.length) return;
        element("button", text, parent).onclick = function () { select(number, true); };
    }

    // The next call behind this one with the same answer, or 0.
    function next(number) {
        var answer = data.calls[number - 1].answer;
        for (var i = number; i < data.calls.length; i++) {
            if (data.calls[i].answer === answer) return i + 1;
        }
        return 0;
    }

    function show(number) {
        var call = data.calls[number - 1];
        shown = number;
        panel.textContent = "";
        var head = element("h2", null, panel);
        element("span", "Call " + number + ": " + call.call, head);
        element("b", call.answer + (call.why ? ": " + call.why : ""), head);
        button(head, "‹ previous", number - 1);
        button(head, "next ›", number + 1);
        button(head, "next " + call.answer + " ›", next(number));
        var parts = element("div", null, panel, "parts");
        var own = element("div", null, parts);
        table(part(own, "It carries"), null, call.carries);
        var put = part(own, "It put out");
        if (!call.put.length) element("p", "nothing", put);
        call.put.forEach(function (text) { element("p", text, put); });
        var store = part(parts, "The store after it", "store");
        table(store, null, call.store);
        var heads = ["connection", "kind", "next", "due tokens", "held items", "held prints", "limit and times"];
        table(store, heads, call.lines.map(function (place) { return data.lines[place]; }), "lines");
        var key = document.getElementById("call-" + number).dataset.key;
        same.textContent = key === undefined ? "" : '[data-key="' + key + '"] { box-shadow: 0 0 0 2px #f80; }';
    }

    // Keeps a call in the panel; 0 keeps none.
    function select(number, scroll) {
        var old = document.querySelector(".call.selected");
        if (old) old.classList.remove("selected");
        selected = number;
        history.replaceState(null, "", number ? "#call-" + number : location.pathname + location.search);
        if (!number) return;
        var box = document.getElementById("call-" + number);
        box.classList.add("selected");
        if (scroll) box.scrollIntoView({ block: "center", inline: "nearest" });
        show(number);
    }

    function numberOf(target) {
        var box = target.closest ? target.closest(".call") : null;
        return box ? Number(box.id.slice(5)) : 0;
    }

    // Where the pointer was last. A page that scrolls below it brings other calls there, and these are not pointed at.
    var place = "";
    document.addEventListener("pointermove", function (event) {
        if (place === event.clientX + " " + event.clientY) return;
        place = event.clientX + " " + event.clientY;
        var number = numberOf(event.target) || selected;
        if (number && number !== shown) show(number);
    });
    // the Tab key goes from call to call too
    document.addEventListener("focusin", function (event) {
        var number = numberOf(event.target);
        if (number) show(number);
    });
    document.addEventListener("click", function (event) {
        var link = event.target.closest ? event.target.closest('a[href^="#call-"]') : null;
        if (!link) return;
        event.preventDefault();
        var number = Number(link.getAttribute("href").slice(6));
        var own = numberOf(event.target);
        select(own && number === selected ? 0 : number, !own);
    });
    document.addEventListener("keydown", function (event) {
        var step = event.key === "ArrowRight" ? 1 : event.key === "ArrowLeft" ? -1 : 0;
        if (!step || event.altKey || event.ctrlKey || event.metaKey || event.shiftKey) return;
        var number = (selected || shown) + step;
        if (number < 1 || number > data.calls.length) return;
        event.preventDefault();
        select(number, true);
    });

    function byAddress() {
        var number = Number((/^#call-([0-9]+)$/.exec(location.hash) || [])[1] || 0);
        if (number >= 1 && number <= data.calls.length) select(number, true);
    }
    panel.textContent =
        "Point at a call to see what it carries and what the store read after it. A click keeps it; the arrow keys ← and → go from call to call.";
    window.addEventListener("hashchange", byAddress);
    byAddress();
})();
