"use strict";
// What a chosen leg costs with each fleet. Without this script the table of all legs stands alone.
(() => {
  const data = JSON.parse(document.getElementById("data").textContent);
  const size = { row: 30, bar: 20, names: 92, end: 150, gap: 8, curve: 260, left: 72, bottom: 34, letters: 11 };
  const canvas = document.createElement("canvas").getContext("2d");
  const family = getComputedStyle(document.body).fontFamily;
  function widthOf(text) {
    canvas.font = `${size.letters}px ${family}`;
    return canvas.measureText(text).width;
  }
  const money = (it) => Math.round(it).toLocaleString("en");
  const exact = (it) => it.toLocaleString("en", { maximumFractionDigits: 2 });
  const passengers = (it) => (it / 1000).toLocaleString("en", { minimumFractionDigits: 3 });
  const wide = (id) => Math.max(320, document.getElementById(id).clientWidth);

  // The pairs of a leg: each fleet with its cost, thousandths of a passenger and parts in hundredths, or with why it may not fly the leg.
  function pairsOf(leg) {
    const pairs = leg.cells.map((cell, at) => {
      const [fleet, seats] = data.fleets[at];
      return typeof cell === "string" ? { fleet, seats, why: cell } : { fleet, seats, cost: cell[0], spilled: cell[1], parts: cell.slice(2).map((it) => it / 100) };
    });
    const least = d3.min(pairs, (it) => it.cost);
    return pairs.map((it) => ({ ...it, isLeast: it.cost !== undefined && it.cost === least }));
  }

  function bars(pairs) {
    const width = wide("bars");
    const most = d3.max(pairs, (it) => it.cost) || 1;
    const x = d3.scaleLinear([0, most], [size.names, width - size.end]);
    d3.select("#bars").html("");
    const svg = d3.select("#bars").append("svg").attr("width", width).attr("height", size.row * pairs.length);
    const rows = svg.selectAll("g").data(pairs).enter().append("g").attr("class", "pair");
    rows.attr("data-fleet", (it) => it.fleet).attr("transform", (_, at) => `translate(0 ${size.row * at})`);
    rows.append("text").attr("class", "fleet-name").attr("x", size.names - size.gap).attr("y", 19).text((it) => it.fleet);
    const priced = rows.filter((it) => it.parts);
    const boxes = priced.selectAll("g").data(stacked).enter().append("g").attr("class", (it) => `f${it.place}`);
    boxes.append("title").text((it) => `${data.parts[it.place]} ${exact(it.value)}`);
    boxes.append("rect").attr("x", (it) => x(it.from)).attr("width", (it) => x(it.from + it.value) - x(it.from)).attr("y", 4).attr("height", size.bar);
    boxes
      .filter((it) => widthOf(money(it.value)) + 6 <= x(it.from + it.value) - x(it.from))
      .append("text")
      .attr("class", "part")
      .attr("x", (it) => x(it.from + it.value / 2))
      .attr("y", 18)
      .text((it) => money(it.value));
    priced
      .append("text")
      .attr("class", (it) => (it.isLeast ? "least" : ""))
      .attr("x", (it) => x(it.cost) + size.gap)
      .attr("y", 19)
      .text((it) => money(it.cost) + (it.isLeast ? ", the least" : ""));
    rows.filter((it) => !it.parts).append("text").attr("class", "why").attr("x", size.names).attr("y", 19).text((it) => `may not fly it: ${it.why}`);
  }
  function stacked(pair) {
    let from = 0;
    return pair.parts.map((value, place) => {
      const part = { place, value, from };
      from += value;
      return part;
    });
  }

  function numbers(pairs) {
    const rows = d3.select("#numbers tbody").html("").selectAll("tr").data(pairs).enter().append("tr");
    rows.attr("class", (it) => (it.isLeast ? "least" : null));
    rows.append("th").attr("scope", "row").text((it) => it.fleet);
    rows.append("td").attr("class", "n").text((it) => exact(it.seats));
    const priced = rows.filter((it) => it.parts);
    priced.append("td").attr("class", "n").text((it) => passengers(it.spilled));
    priced.selectAll("td.part").data((it) => it.parts).enter().append("td").attr("class", "n part").text(exact);
    priced.append("td").attr("class", "n").text((it) => money(it.cost));
    priced.append("td").attr("class", "mark").text((it) => (it.isLeast ? "least" : ""));
    rows.filter((it) => !it.parts).append("td").attr("colspan", data.parts.length + 3).text((it) => `may not fly it: ${it.why}`);
  }

  // The complement of the error function by a rational exponent, to 1.2e-7 of itself: enough for a line. Numbers come from the tables.
  function erfc(x) {
    const t = 1 / (1 + 0.5 * x);
    const terms = [-1.26551223, 1.00002368, 0.37409196, 0.09678418, -0.18628806, 0.27886807, -1.13520398, 1.48851587, -0.82215223, 0.17087277];
    return t * Math.exp(-x * x + terms.reduceRight((sum, it) => it + t * sum, 0));
  }
  function spill(leg, seats) {
    const over = Math.max(leg.mean - seats, 0);
    if (leg.sd === 0) return over;
    const z = Math.abs(seats - leg.mean) / leg.sd;
    return over + leg.sd * Math.max(Math.exp((-z * z) / 2) / Math.sqrt(2 * Math.PI) - (z * erfc(z / Math.SQRT2)) / 2, 0);
  }

  function curve(leg, pairs) {
    const width = wide("curve");
    const most = Math.max(d3.max(pairs, (it) => it.seats) || 0, leg.mean, 1) * 1.15;
    const x = d3.scaleLinear([0, most], [size.left, width - 24]);
    const y = d3.scaleLinear([0, leg.worth * spill(leg, 0) || 1], [size.curve - size.bottom, 14]);
    d3.select("#curve").html("");
    const svg = d3.select("#curve").append("svg").attr("width", width).attr("height", size.curve);
    svg.append("g").attr("transform", `translate(0 ${size.curve - size.bottom})`).call(d3.axisBottom(x).ticks(8).tickSizeOuter(0));
    svg.append("g").attr("transform", `translate(${size.left} 0)`).call(d3.axisLeft(y).ticks(5).tickSizeOuter(0));
    svg.append("text").attr("x", width - 24).attr("y", size.curve - 2).attr("text-anchor", "end").text("seats");
    const points = d3.range(0, 241).map((it) => (most * it) / 240);
    svg.append("path").attr("d", d3.line()(points.map((it) => [x(it), y(leg.worth * spill(leg, it))])));
    const marks = svg.selectAll("g.mark").data(pairs).enter().append("g").attr("class", "mark");
    marks.attr("transform", (it) => `translate(${x(it.seats)} ${y(it.parts ? it.parts[it.parts.length - 1] : leg.worth * spill(leg, it.seats))})`);
    marks.append("circle").attr("r", 4).attr("class", (it) => (it.parts ? "" : "closed"));
    marks.append("title").text((it) => `${it.fleet}, ${exact(it.seats)} seats: ${it.parts ? exact(it.parts[it.parts.length - 1]) : "may not fly it"}`);
    // Names that would lie on another one are left out: the title and the table have them.
    const taken = [];
    marks
      .filter((it) => {
        const from = x(it.seats) + 7;
        const isFree = taken.every((other) => from >= other.to || from + widthOf(it.fleet) + 6 <= other.from);
        if (isFree) taken.push({ from, to: from + widthOf(it.fleet) + 6 });
        return isFree;
      })
      .append("text")
      .attr("x", 7)
      .attr("y", -6)
      .text((it) => it.fleet);
  }

  const select = document.getElementById("leg");
  function draw() {
    const leg = data.legs[Number(select.value)];
    if (!leg) return;
    const pairs = pairsOf(leg);
    d3.select("#said").text(`mean ${exact(leg.mean)}, spread ${exact(leg.sd)}; one turned away costs ${exact(leg.worth)}; block ${leg.block} min`);
    bars(pairs);
    numbers(pairs);
    curve(leg, pairs);
    d3.selectAll("#legs tbody tr").classed("picked", (_, at) => at === Number(select.value));
  }
  d3.selectAll("#legs tbody tr").each(function (_, at) {
    const cell = d3.select(this).select("th");
    const flight = cell.text();
    cell.text("").append("button").attr("type", "button").text(flight).on("click", () => {
      select.value = String(at);
      draw();
      document.getElementById("one").scrollIntoView({ block: "start" });
    });
  });
  select.addEventListener("change", draw);
  draw();
  new ResizeObserver(draw).observe(document.getElementById("one"));
  document.body.dataset.ready = "yes";
})();
