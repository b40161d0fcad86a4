"use strict";
// Zoom, search and what is told of a flight. Without this script the page shows all the same, at one scale.
(() => {
  const data = JSON.parse(document.getElementById("data").textContent);
  const size = data.size;
  const scroller = d3.select(".scroller");
  const pane = scroller.node();
  const top = d3.select(".top-axis svg");
  const byDay = document.getElementById("by-day");

  // What tells apart the words that a bar may have: their kinds, and the pixels beside.
  const keyOf = (texts) => texts.map(([kind, dx]) => `${kind} ${dx}`).join();
  const said = (text) => [text.getAttribute("class"), Number(text.getAttribute("dx"))];

  // The rows of each chart, and the bars in them, with what they say.
  let next = 0;
  const charts = Array.from(pane.querySelectorAll(".chart.rows"), (node) => {
    const chart = {
      node,
      minutes: Number(node.dataset.minutes),
      isDay: node.closest(".by-day") !== null,
      rows: d3.select(node).selectAll("svg.plot .row"),
      names: d3.select(node).selectAll("svg.names .row"),
      svgs: d3.select(node).selectAll("svg"),
      grid: d3.select(node).select(".grid"),
      stays: Array.from(node.querySelectorAll(".stay"), (stay) => ({
        stay,
        part: parseFloat(stay.querySelector("rect").getAttribute("width")) / 100,
        at: parseFloat(stay.querySelector("rect").getAttribute("x")),
      })),
      bars: Array.from(node.querySelectorAll(".leg, .rest"), (bar) => ({ bar, said: data.bars[next++], drawn: keyOf(Array.from(bar.querySelectorAll("text"), said)) })),
    };
    chart.hasMarks = chart.bars.some((it) => it.said[10]);
    return chart;
  });
  const isShown = (chart) => chart.isDay === Boolean(byDay && byDay.checked) || !chart.node.closest(".by-day, .by-aircraft");

  // How wide a text is, as the browser sets it.
  const canvas = document.createElement("canvas").getContext("2d");
  const family = getComputedStyle(document.body).fontFamily;
  const widths = new Map();
  function widthOf(text, letters, weight) {
    const key = `${weight} ${letters}px ${text}`;
    if (!widths.has(key)) {
      canvas.font = `${weight} ${letters}px ${family}`;
      widths.set(key, canvas.measureText(text).width);
    }
    return widths.get(key);
  }

  // What stands in, above and below a bar: [kind, hundredth of the row, pixels beside, pixels down, text]. As `texts_of` of charts.py.
  function textsOf(said, minutes, per) {
    const [first, last, limit, departs, lands, flight, from, dep, to, arr, mark] = said;
    const wide = (last - first) * per;
    const room = (limit - first) * per - size.gap;
    const at = (100 * first) / minutes;
    const found = [];
    const fitting = size.flights.find(([letters, weight, beside]) => widthOf(flight, letters, weight) + beside <= wide);
    if (fitting) found.push([fitting[3], (50 * (first + last)) / minutes, 0, size.heights.flight, flight]);
    if (per < size.roomy) return found;
    const above = [fitting ? "" : flight, mark].filter(Boolean).join(" ");
    if (above && departs && widthOf(above, size.small, 600) <= room) found.push([mark ? "mark" : "over", at, 0, size.heights.mark, above]);
    const left = departs ? Math.max(widthOf(from, size.small, 400), widthOf(dep, size.small, 400)) : 0;
    const right = lands ? Math.max(widthOf(to, size.small, 400), widthOf(arr, size.small, 400)) : 0;
    const both = left + right + (departs && lands ? size.gap : 0);
    const end = (kind, x, dx, station, time) =>
      found.push([`station ${kind}`, x, dx, size.heights.station, station], [`time ${kind}`, x, dx, size.heights.time, time]);
    const away = Math.max(0, size.gap - (limit - last) * per);
    if (departs && left <= room) end("from", at, 0, from, dep);
    if (lands && both + away <= wide) end("to end", (100 * last) / minutes, -away, to, arr);
    else if (lands && both <= room) end("to", at, both - right, to, arr);
    return found;
  }

  function label(chart, per) {
    for (const it of chart.bars) {
      const texts = textsOf(it.said, chart.minutes, per);
      const key = keyOf(texts.map(([kind, , dx]) => [kind, dx]));
      if (key === it.drawn) continue;
      it.drawn = key;
      const drawn = d3.select(it.bar).selectAll("text").data(texts);
      drawn.exit().remove();
      drawn
        .enter()
        .append("text")
        .merge(drawn)
        .attr("class", (text) => text[0])
        .attr("x", (text) => `${text[1]}%`)
        .attr("dx", (text) => text[2] || null)
        .attr("y", (text) => text[3])
        .text((text) => text[4]);
    }
    for (const { stay, part, at } of chart.stays) {
      const station = stay.dataset.text;
      const more = stay.classList.contains("maintained") ? " maint." : stay.dataset.stay ? ` ${stay.dataset.stay} min` : "";
      const texts = [`${station}${more}`, station];
      const text = texts.find((it) => widthOf(it, size.small, 600) + 8 <= part * chart.minutes * per);
      const drawn = d3.select(stay).selectAll("text").data(text ? [text] : []);
      drawn.exit().remove();
      drawn
        .enter()
        .append("text")
        .attr("text-anchor", "middle")
        .attr("x", `${at + 50 * part}%`)
        .attr("y", 12.5)
        .merge(drawn)
        .text((it) => it);
    }
  }

  // Rows are lower where stations and times have no room.
  function place(chart, per) {
    const isRoomy = per >= size.roomy;
    const above = isRoomy ? (chart.hasMarks || chart.bars.some((it) => /\b(over|mark)\b/.test(it.drawn)) ? size.marked : size.above) : size.tight;
    const step = above + size.bar + (isRoomy ? size.below : size.tight);
    if (chart.step === step) return;
    chart.step = step;
    chart.rows.attr("transform", (_, row) => `translate(0 ${row * step + above})`);
    chart.names.attr("transform", (_, row) => `translate(${size.names - 10} ${row * step + above})`);
    chart.names.select(".below").attr("y", isRoomy ? 27 : 19);
    chart.names.select(".name").attr("y", function () {
      return isRoomy || !this.nextSibling ? 13 : 8;
    });
    chart.svgs.attr("height", step * chart.rows.size());
  }

  const steps = [5, 10, 15, 30, 60, 120, 180, 240, 360, 720, 1440];
  const stepFor = (per, pixels) => steps.find((it) => it * per >= pixels) || 1440;
  const clockOf = (minute) => {
    const at = (minute + data.dayStart) % 1440;
    return `${String(Math.floor(at / 60)).padStart(2, "0")}:${String(at % 60).padStart(2, "0")}`;
  };

  function rule(chart, per) {
    const fine = stepFor(per, 18);
    const strong = stepFor(per, 52);
    if (chart.fine === fine && chart.strong === strong) return;
    Object.assign(chart, { fine, strong });
    const minutes = d3.range(chart.minutes + 1).filter((it) => (it + data.dayStart) % fine === 0 || it % 1440 === 0);
    const lines = chart.grid.selectAll("line").data(minutes);
    lines.exit().remove();
    lines
      .enter()
      .append("line")
      .attr("y1", 0)
      .attr("y2", "100%")
      .merge(lines)
      .attr("x1", (it) => `${(100 * it) / chart.minutes}%`)
      .attr("x2", (it) => `${(100 * it) / chart.minutes}%`)
      .attr("class", (it) => {
        const clock = it + data.dayStart;
        if (it % 1440 === 0) return "start";
        if (clock % 1440 === 0 && chart.minutes > 1440) return "midnight";
        return clock % strong === 0 ? "hour" : "fine";
      });
  }

  // The axis above all charts, of what is in sight. What a browser would have to lay out anew to tell is kept: the pixels of the rows
  // in sight, of whole rows, and how far they are scrolled.
  let inside = 1;
  let width = 0;
  let left = 0;
  const shown = () => charts.filter(isShown);
  const minutesShown = () => d3.max(shown(), (it) => it.minutes) || 1440;
  const forms = ["%a %-d %b", "%-d %b", "%-d"].map((it) => d3.utcFormat(it));
  // The names that a day may have, the longest first.
  function namesOf(number) {
    const day = (number % data.period) + 1;
    if (data.first === null) return [`day ${day}`, String(day)];
    const date = d3.utcDay.offset(new Date(`${data.first}T00:00:00Z`), number);
    return forms.map((it) => it(date));
  }

  function axis() {
    const minutes = minutesShown();
    const scale = d3.scaleLinear([0, minutes], [0, width]);
    const [from, to] = [left, left + inside].map(scale.invert);
    const step = stepFor(width / minutes, 52);
    const ticks = d3.range(0, minutes + 1).filter((it) => it >= from - step && it <= to + step && (it + data.dayStart) % step === 0);
    const hasDays = minutes > 1440;
    top.selectAll("g.clock").data([0]).enter().append("g").attr("class", "clock");
    top
      .select("g.clock")
      .attr("transform", `translate(${-left} ${size.axis - 1})`)
      .call(d3.axisTop(scale).tickValues(step < 1440 ? ticks : []).tickFormat(clockOf).tickSizeOuter(0).tickSizeInner(4).tickPadding(2))
      .selectAll("text")
      .attr("class", "hour")
      .attr("text-anchor", (it) => (it === 0 ? "start" : it === minutes ? "end" : "middle"));
    const midnights = hasDays ? [0, ...d3.range(1440 - data.dayStart, minutes, 1440).filter((it) => it > 0)] : [];
    const days = midnights
      .map((it, at) => ({ from: scale(it), to: scale(at + 1 < midnights.length ? midnights[at + 1] : minutes), number: Math.floor((it + data.dayStart) / 1440) }))
      .filter((it) => it.to > left && it.from < left + inside)
      .map((it) => ({ ...it, x: Math.max(0, it.from - left + 4) }))
      .map((it) => ({ ...it, name: namesOf(it.number).find((name) => widthOf(name, 11, 600) + 8 <= it.to - left - it.x) }))
      .filter((it) => it.name);
    const names = top.selectAll("text.day").data(days, (it) => `${it.name} ${it.number}`);
    names.exit().remove();
    names
      .enter()
      .append("text")
      .attr("class", "day")
      .attr("y", 13)
      .text((it) => it.name)
      .merge(names)
      .attr("x", (it) => it.x);
  }

  function redraw(pixels) {
    for (const chart of shown()) {
      const per = pixels / chart.minutes;
      label(chart, per);
      place(chart, per);
      rule(chart, per);
    }
  }

  // Zoom: the rows get wider, and the pane scrolls.
  const least = () => Math.max(1, size.width / inside);
  const most = () => Math.max(least() * 1.01, (minutesShown() * 4) / inside);
  const zoom = d3
    .zoom()
    .filter(() => {
      const event = d3.event;
      if (event.type === "wheel") return event.ctrlKey || event.metaKey;
      return event.touches ? event.touches.length > 1 : !event.button;
    })
    .on("zoom", () => {
      const { k, x } = d3.event.transform;
      const wide = Math.round(k * inside);
      left = Math.max(0, size.names * (1 - k) - x);
      if (wide !== width) {
        width = wide;
        pane.style.setProperty("--plot", `${width}px`);
        redraw(width);
      }
      axis();
      pane.scrollLeft = left;
    });
  function settle(k, minute) {
    const box = [
      [size.names, 0],
      [size.names + inside, 1],
    ];
    zoom.extent(box).translateExtent(box).scaleExtent([least(), most()]);
    const from = Math.max(0, (minute * k * inside) / minutesShown());
    scroller.call(zoom.transform, d3.zoomIdentity.translate(size.names * (1 - k) - from, 0).scale(k));
  }
  const here = () => (left * minutesShown()) / width;
  pane.addEventListener("scroll", () => {
    if (Math.abs(pane.scrollLeft - left) < 1) return;
    left = pane.scrollLeft;
    pane.__zoom = d3.zoomIdentity.translate(size.names * (1 - width / inside) - left, 0).scale(width / inside);
    axis();
  });
  scroller.call(zoom).style("touch-action", "pan-x pan-y pinch-zoom").on("dblclick.zoom", null);
  let isWhole = true;
  const scaleBy = (factor) => {
    isWhole = false;
    scroller.call(zoom.scaleBy, factor);
  };
  const whole = () => {
    isWhole = true;
    settle(least(), 0);
  };
  const day = () => {
    isWhole = false;
    const wide = Math.max(inside, 1440 * size.roomy) * (minutesShown() / 1440);
    settle(Math.min(most(), Math.max(least(), wide / inside)), Math.floor(here() / 1440) * 1440);
  };
  function fit() {
    const now = Math.max(1, pane.clientWidth - size.names);
    if (now === inside) return;
    inside = now;
    settle(isWhole || !width ? least() : Math.max(least(), width / inside), width ? here() : 0);
  }
  d3.select("#closer").on("click", () => scaleBy(1.6));
  d3.select("#farther").on("click", () => scaleBy(1 / 1.6));
  d3.select("#whole").on("click", whole);
  d3.select("#day").on("click", day);
  scroller.on("keydown", () => {
    const way = { "+": () => scaleBy(1.6), "=": () => scaleBy(1.6), "-": () => scaleBy(1 / 1.6), 0: whole }[d3.event.key];
    if (way && !d3.event.ctrlKey && !d3.event.metaKey) way();
  });
  d3.selectAll(".pick").on("change", () => {
    width = 0;
    whole();
  });
  fit();
  new ResizeObserver(fit).observe(pane);

  // What is told of a flight.
  const details = d3.select("#details");
  const moments = (it) => [it.day, it.dep].filter(Boolean).join(" ");
  function pick(number, isSought) {
    const it = data.legs[number];
    d3.selectAll(".picked").classed("picked", false);
    d3.selectAll(`[data-number="${number}"]`).classed("picked", true);
    details.attr("hidden", null).html("");
    details.append("button").attr("class", "close").attr("type", "button").text("Close").on("click", unpick);
    details.append("h3").text(`${it.flight} ${it.start} – ${it.end}`);
    details.append("p").text(`${[it.day, it.dep].filter(Boolean).join(" ")} to ${it.arr}${it.aircraft === it.fleet ? "" : `, ready ${it.ready}, by ${it.aircraft}`}`);
    for (const note of it.notes) details.append("p").attr("class", "note").text(note);
    const rows = [[it.fleet, it.cost], ...it.others].sort((one, other) => one[1] - other[1]);
    const table = details.append("table");
    const head = table.append("thead").append("tr");
    head.append("th").text("Fleet");
    head.append("th").attr("class", "n").text("Cost");
    head.append("th").attr("class", "n").text("Difference");
    for (const [fleet, cost] of rows) {
      const row = table.append("tr");
      row.append("td").text(fleet === it.fleet && fleet !== "left out" ? `${fleet}, flown` : fleet);
      row.append("td").attr("class", "n").text(cost.toLocaleString("en"));
      const more = cost - it.cost;
      row.append("td").attr("class", "n").text(more ? (more > 0 ? "+" : "−") + Math.abs(more).toLocaleString("en") : "");
    }
    if (it.fleet !== "left out") {
      neighbour("Before", it.before);
      neighbour("Then", it.after, it.wait === null ? it.nights : `wait ${it.wait} min`);
    }
    if (isSought) show(number);
  }
  function neighbour(what, number, told) {
    const line = details.append("p").text(`${what}: `);
    if (number < 0) {
      line.append("span").text(told || "nothing in this chart");
      return;
    }
    const it = data.legs[number];
    line.append("button").attr("type", "button").text(it.flight).on("click", () => pick(number, true));
    line.append("span").text(` ${it.start} ${moments(it)} – ${it.end} ${it.arr}${told ? `; ${told}` : ""}`);
  }
  function unpick() {
    details.attr("hidden", "");
    d3.selectAll(".picked").classed("picked", false);
  }
  function show(number) {
    const bars = Array.from(pane.querySelectorAll(`.leg[data-number="${number}"] .bar`));
    const bar = bars.find((it) => it.getClientRects().length > 0 && it.getBoundingClientRect().width > 0);
    if (!bar) return;
    bar.scrollIntoView({ block: "center", inline: "center" });
  }
  scroller.on("click", () => {
    const leg = d3.event.target.closest(".leg, .rest");
    if (leg && leg.dataset.number !== undefined) pick(Number(leg.dataset.number), false);
  });
  d3.selectAll("#flights tbody tr").each(function () {
    const number = Number(this.dataset.number);
    const cell = d3.select(this).select("th");
    const flight = cell.text();
    cell.text("").append("button").attr("type", "button").text(flight).on("click", () => pick(number, true));
  });
  d3.select(document).on("keydown", () => {
    if (d3.event.key === "Escape") unpick();
  });

  // Search: by flight, station, aircraft or fleet.
  const search = d3.select("#search");
  const found = d3.select("#found");
  let hits = [];
  let turn = -1;
  const matches = (it, text) =>
    it.flight.includes(text) || it.start === text || it.end === text || it.fleet === text || it.aircraft.toUpperCase().includes(text);
  search.on("input", () => {
    const text = search.property("value").trim().toUpperCase();
    hits = text ? d3.range(data.legs.length).filter((it) => matches(data.legs[it], text)) : [];
    turn = -1;
    const hit = new Set(hits.map(String));
    scroller.classed("seeking", text !== "");
    scroller.selectAll(".leg, .rest").classed("hit", function () {
      return hit.has(this.dataset.number);
    });
    d3.selectAll("#flights tbody tr").attr("hidden", function () {
      return text && !hit.has(this.dataset.number) ? "" : null;
    });
    found.text(text ? `${hits.length || "no"} flight${hits.length === 1 ? "" : "s"}` : "");
    if (hits.length === 1) show(hits[0]);
  });
  search.on("keydown", () => {
    if (d3.event.key !== "Enter" || !hits.length) return;
    turn = (turn + 1) % hits.length;
    pick(hits[turn], true);
  });

  // On paper all is at one scale.
  let kept = null;
  window.addEventListener("beforeprint", () => {
    kept = byDay ? byDay.checked : null;
    if (byDay) byDay.checked = true;
    redraw(size.paper);
  });
  window.addEventListener("afterprint", () => {
    if (byDay) byDay.checked = kept;
    redraw(width);
  });
  pane.dataset.ready = "yes";
})();
