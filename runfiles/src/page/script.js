// The cursor over a run: moves it by keys, slider, buttons and clicks, and shows what stands there.
"use strict";

(function () {
    const byId = (id) => document.getElementById(id);
    const run = JSON.parse(byId("run").textContent);
    const last = run.events.length - 1;
    const names = run.lines.map((line, place) => (place ? line.split(" ").slice(3).join(" ") : ""));
    names[0] = Array(run.hosts).fill("-").join(" ");
    const answers = run.lines.map((line, place) => (place ? Number(line.split(" ")[2]) : 0));
    const fields = ["clock", "wait", "promise", "accepted lease", "round", "named holder"];
    const states = statesOf(run);
    const paper = byId("paper");
    const svg = paper.querySelector("svg");
    const cells = hostCells();
    const cursor = cursorIn(svg);
    let place = 0;

    // The texts of every host after each event; hosts that did not change share theirs.
    function statesOf(run) {
        let hosts = Array.from({ length: run.hosts }, () => []);
        return run.events.map(([, , changes]) => {
            hosts = hosts.slice();
            for (const [host, field, text] of changes) {
                hosts[host] = hosts[host].slice();
                hosts[host][field] = text;
            }
            return hosts;
        });
    }

    function element(name, text) {
        const made = document.createElement(name);
        made.textContent = text;
        return made;
    }

    function rowHead(text) {
        const head = element("th", text);
        head.scope = "row";
        return head;
    }

    // The cells of the table of hosts, made once.
    function hostCells() {
        const body = byId("hosts").tBodies[0];
        return Array.from({ length: run.hosts }, (_, host) => {
            const row = body.insertRow();
            row.append(rowHead(host));
            return fields.map(() => row.insertCell());
        });
    }

    // The column of an event, behind what is drawn, and over it a line where the event happens.
    function cursorIn(svg) {
        const { left, step, top, bottom } = svg.dataset;
        const path = (name, shape) => {
            const made = document.createElementNS(svg.namespaceURI, "path");
            made.setAttribute("class", name);
            made.setAttribute("d", shape);
            return made;
        };
        const column = path("cursor-column", `M0 ${top}h${step}V${bottom}H0Z`);
        const line = path("cursor-line", `M0 ${bottom}V${top}l-5 -7h10l-5 7`);
        svg.querySelector(".ruled").after(column);
        svg.append(line);
        return { parts: [column, line], left: Number(left), step: Number(step) };
    }

    const leftOf = (at) => cursor.left + cursor.step * at;

    // Scrolls only where the cursor's column would be hidden, by an edge or by the lanes' names.
    function scrollTo(at) {
        const x = leftOf(at);
        const hidden = x - cursor.left < paper.scrollLeft;
        if (hidden || x + 2 * cursor.step > paper.scrollLeft + paper.clientWidth) {
            paper.scrollLeft = x - paper.clientWidth / 2;
        }
    }

    function showHosts() {
        const before = states[Math.max(place - 1, 0)];
        cells.forEach((row, host) => row.forEach((cell, field) => {
            const text = states[place][host][field];
            cell.textContent = text;
            cell.classList.toggle("changed", text !== before[host][field]);
        }));
    }

    // What the event changed, by field: 'clock of 0 1 2; round of 0'.
    function changedWords() {
        if (place === 0) return "";
        const changes = run.events[place][2];
        const parts = fields.map((name, field) => {
            const hosts = changes.filter((change) => change[1] === field);
            return hosts.length && `${name} of ${hosts.map(([host]) => host).join(" ")}`;
        });
        return parts.some(Boolean) ? `Changed: ${parts.filter(Boolean).join("; ")}.` : "";
    }

    function answerWords() {
        if (place === 0) return "";
        const answer = answers[place];
        return `Answer ${answer}, ${run.answers[answer]}.`;
    }

    function showSlots() {
        const filled = run.messages.filter(
            ([sent, ended]) => sent <= place && (ended === null || ended > place),
        );
        filled.sort((one, other) => one[2] - other[2]);
        const body = byId("slots").tBodies[0];
        body.replaceChildren();
        for (const [sent, , slot, message, copy] of filled) {
            const row = body.insertRow();
            row.append(rowHead(slot));
            const since = copy ? `${sent}, a copy` : sent;
            for (const text of [message, since]) {
                row.insertCell().textContent = text;
            }
        }
        const count = filled.length || "none";
        byId("slots-title").textContent = `Messages under way: ${count}, of 96 slots`;
    }

    function show(at, said = "") {
        place = Math.min(Math.max(at, 0), last);
        byId("slider").value = place;
        byId("slider").setAttribute("aria-valuetext", `event ${place} of ${last}`);
        byId("shown").textContent = place;
        const shift = `translate(${leftOf(place)} 0)`;
        cursor.parts.forEach((part) => part.setAttribute("transform", shift));
        byId("event").textContent = `Event ${place}: ${run.events[place][0]}`;
        byId("words").textContent = run.events[place][1];
        byId("answer").textContent = answerWords();
        byId("answer").classList.toggle("refused", answers[place] !== 0);
        byId("changed").textContent = changedWords();
        byId("said").textContent = said;
        byId("line").textContent = run.lines[place];
        showHosts();
        showSlots();
        scrollTo(place);
    }

    // The next place, in steps of 1 or -1, of which something holds.
    function jump(step, holds, what) {
        for (let at = place + step; at >= 1 && at <= last; at += step) {
            if (holds(at)) return show(at);
        }
        return show(place, `No ${step > 0 ? "later" : "earlier"} ${what}.`);
    }

    const refused = (at) => answers[at] !== 0;
    const renamed = (at) => names[at] !== names[at - 1];
    const go = {
        first: () => show(0),
        back: () => show(place - 1),
        on: () => show(place + 1),
        last: () => show(last),
        refusalOn: () => jump(1, refused, "refusal"),
        refusalBack: () => jump(-1, refused, "refusal"),
        nameOn: () => jump(1, renamed, "change of a name"),
        nameBack: () => jump(-1, renamed, "change of a name"),
    };
    const keys = { Home: "first", ArrowLeft: "back", ArrowRight: "on", End: "last" };
    const letters = { r: "refusalOn", R: "refusalBack", n: "nameOn", N: "nameBack" };

    // The slider and the tables have a use of their own for arrows.
    document.addEventListener("keydown", (event) => {
        if (event.ctrlKey || event.altKey || event.metaKey) return;
        const theirs = event.target.closest("#slider, .table");
        const letter = byId("letters").checked ? letters[event.key] : undefined;
        const way = letter || (theirs ? undefined : keys[event.key]);
        if (!way) return;
        event.preventDefault();
        go[way]();
    });
    for (const button of document.querySelectorAll("[data-go]")) {
        button.addEventListener("click", () => go[button.dataset.go]());
    }
    byId("slider").addEventListener("input", (event) => show(Number(event.target.value)));
    svg.addEventListener("click", (event) => {
        const x = event.clientX - svg.getBoundingClientRect().left;
        show(Math.floor((x - cursor.left) / cursor.step));
    });
    // The lanes' names stay at the left.
    paper.addEventListener("scroll", () => {
        const shift = `translate(${paper.scrollLeft} 0)`;
        svg.querySelector(".lane-name").setAttribute("transform", shift);
    });
    show(0);
})();
