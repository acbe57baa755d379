"use strict";
// Draws the figures of the page from the numbers in <script type="application/json" id="numbers">. Every text in them
// goes to Plotly escaped (it reads some HTML in its labels) and into the document as text alone.
(function () {
  const figures = JSON.parse(document.getElementById("numbers").textContent).filter((figure) => figure !== null);
  const dark = window.matchMedia("(prefers-color-scheme: dark)");
  const narrow = window.matchMedia("(max-width: 30rem)");
  const colour = (name) => getComputedStyle(document.documentElement).getPropertyValue("--" + name).trim();
  const plain = (text) => String(text).replace(/&/g, "&amp;").replace(/</g, "&lt;").replace(/>/g, "&gt;");
  const sixDigits = new Intl.NumberFormat("en", { maximumSignificantDigits: 6 }); // made once, which takes longer than to format
  const number = (value) => sixDigits.format(Number(value));
  const times = [[1, "s"], [1e-3, "ms"], [1e-6, "\u00b5s"], [1e-9, "ns"], [1e-12, "ps"]];
  const element = (figure, part) => document.getElementById(figure.name + "-" + part);
  const checked = (figure, part) => { const box = element(figure, part); return Boolean(box && box.checked); };

  function unpacked(packed) {
    const bytes = Uint8Array.from(atob(packed.base64), (letter) => letter.charCodeAt(0));
    const kinds = { u1: Uint8Array, u2: Uint16Array, u4: Uint32Array, f4: Float32Array, f8: Float64Array };
    return new kinds[packed.kind](bytes.buffer);
  }

  function axis(label, logarithmic) {
    return {
      title: { text: plain(label), standoff: 8 }, type: logarithmic ? "log" : "linear", color: colour("ink"),
      gridcolor: colour("line"), zerolinecolor: colour("line"), linecolor: colour("line"), automargin: true,
      exponentformat: "power", uirevision: logarithmic ? "log" : "linear",
    };
  }

  // Labels of a logarithmic axis: each decade of many, of few also 2 and 5 of each.
  function labelled(axis, values) {
    const many = decades(values);
    if (axis.type === "log" && many > 0.7) axis.dtick = many > 3 ? 1 : "D2";
  }

  function layout() {
    const small = narrow.matches;
    return {
      paper_bgcolor: colour("paper"), plot_bgcolor: colour("paper"), showlegend: false, hovermode: "closest",
      font: { color: colour("ink"), size: small ? 12 : 14, family: '"DejaVu Sans", system-ui, sans-serif' },
      margin: { l: small ? 48 : 64, r: 14, t: 14, b: small ? 48 : 56 }, dragmode: small ? false : "zoom",
      hoverlabel: { font: { size: 14 } }, uirevision: "kept", // the zoom stays whatever is drawn anew
    };
  }

  // ## Curves and bars

  function curve(figure) {
    const box = element(figure, "log"), logarithmic = Boolean(box && box.checked);
    const least = figure.kind === "bars" ? null : 0.5; // where a count of 0 is drawn on a logarithmic axis
    const drawn = logarithmic ? figure.y.map((y) => (y > 0 ? y : least)) : figure.y;
    const trace = {
      x: figure.names ? figure.names.map(plain) : figure.x, y: drawn, hovertemplate: "%{text}<extra></extra>",
      text: figure.y.map((_, at) => plain(told(figure, at))), marker: { color: colour("curve"), size: 5 },
    };
    if (figure.kind === "bars") {
      Object.assign(trace, { type: "bar", textposition: "none" });
    } else {
      const points = figure.shape === "points";
      Object.assign(trace, { type: "scatter", mode: points ? "markers" : figure.errors ? "lines+markers" : "lines",
        line: { color: colour("curve"), width: 1.6, shape: points ? "linear" : figure.shape } });
    }
    if (figure.shape === "hv" && !figure.names && figure.x.length > 1) close(trace);
    if (figure.errors) {
      trace.error_y = { type: "data", array: figure.errors, color: colour("faint"), thickness: 1, width: 0 };
    }
    const look = layout();
    look.xaxis = axis(figure.xlabel, figure.xlog);
    labelled(look.xaxis, figure.x);
    look.yaxis = axis(figure.ylabel, logarithmic);
    labelled(look.yaxis, drawn);
    for (const each of [look.xaxis, look.yaxis]) each.uirevision = `${each.type} ${checked(figure, "all")}`;
    if (figure.kind === "bars") look.xaxis.type = "category";
    if (figure.kind === "bars" && logarithmic) look.yaxis.range = [Math.log10(0.5), Math.log10(2 * Math.max(1, ...figure.y))];
    if (figure.start !== null && !checked(figure, "all")) {
      const ends = [figure.start, figure.x[figure.x.length - 1]];
      look.xaxis.range = figure.xlog ? [Math.log10(ends[0]) - 0.05, Math.log10(ends[1]) + 0.05] : ends;
      look.yaxis.range = reach(figure);
    } else if (!logarithmic) {
      look.yaxis.rangemode = "tozero";
    }
    if (figure.level !== null) {
      look.shapes = [{ type: "line", xref: "paper", x0: 0, x1: 1, y0: figure.level, y1: figure.level,
        line: { color: colour("faint"), width: 1, dash: "dot" } }];
    }
    const more = figure.more.map((one) => ({ type: "scatter", mode: "lines", name: plain(one.label), x: one.x, hoverinfo: "skip",
      y: logarithmic ? one.y.map((y) => (y > 0 ? y : null)) : one.y, line: { color: colour("other"), width: 1.6 } }));
    Object.assign(look, { showlegend: more.length > 0, legend: { orientation: "h", x: 0, y: 1.1 } });
    return [[Object.assign(trace, { name: plain(figure.ylabel) }), ...more], look];
  }

  // Steps are drawn to the end of the last bin.
  function close(trace) {
    const [before, last] = trace.x.slice(-2);
    trace.x = [...trace.x, 2 * last - before];
    trace.y = [...trace.y, trace.y[trace.y.length - 1]];
    trace.text = [...trace.text, trace.text[trace.text.length - 1]];
  }

  function decades(values) {
    const some = values.filter((value) => value > 0);
    return some.length ? Math.log10(Math.max(...some) / Math.min(...some)) : 0;
  }

  // A number with its unit; seconds with the one that makes it short.
  function measured(value, unit) {
    if (unit !== "s" || value === 0) return number(value) + (unit ? " " + unit : "");
    const [factor, short] = times.find(([least]) => Math.abs(value) >= least) || times[times.length - 1];
    return number(value / factor) + " " + short;
  }

  function told(figure, at) {
    if (figure.kind === "picture") return cell(figure, at % figure.columns, Math.floor(at / figure.columns));
    const place = figure.names ? figure.xlabel + " " + figure.names[at] : measured(figure.x[at], figure.xunit);
    const value = figure.y[at] === null ? "nothing" : measured(figure.y[at], figure.yunit);
    return place + ": " + value + (figure.errors && figure.errors[at] !== null ? " \u00b1 " + Number(figure.errors[at].toPrecision(2)) : "");
  }

  function reach(figure) {
    const seen = figure.y.filter((y, place) => y !== null && figure.x[place] >= figure.start);
    const least = Math.min(0, ...seen), most = Math.max(figure.level || 0, ...seen);
    return [least, most + 0.08 * (most - least)];
  }

  // ## Pictures: an image, or of a cube the mean delays of the pixels that have photons enough

  function picture(figure) {
    const { rows, columns } = figure;
    const photons = figure.photons, values = figure.values, bound = Number(element(figure, "threshold").value);
    const cells = [];
    for (let y = 0; y < rows; y++) {
      const line = [];
      for (let x = 0; x < columns; x++) {
        const at = y * columns + x, value = values[at];
        line.push(photons[at] < bound || Number.isNaN(value) ? null : value);
      }
      cells.push(line);
    }
    figure.words = figure.words || Array.from({ length: rows }, (_, y) =>
      Array.from({ length: columns }, (_, x) => plain(cell(figure, x, y))));
    const [zmin, zmax] = figure.values === figure.photons ? [figure.zmin, figure.zmax] : limits(cells, figure);
    const pixel = figure.micrometres || 1, first = pixel * (figure.block - 1) / 2, step = pixel * figure.block;
    const trace = {
      type: "heatmap", z: cells, text: figure.words, hovertemplate: "%{text}<extra></extra>", hoverongaps: true,
      x0: first, dx: step, y0: first, dy: step, colorscale: figure.colours, zmin, zmax,
      colorbar: { title: { text: plain(figure.label), side: "right" }, color: colour("ink"), thickness: narrow.matches ? 8 : 14, len: 0.9, xpad: 4,
        outlinecolor: colour("line"), tickfont: { color: colour("ink") } },
    };
    const look = layout();
    const [across, down] = figure.micrometres ? ["x (\u00b5m)", "y (\u00b5m)"] : ["column (pixels)", "row (pixels)"];
    look.xaxis = Object.assign(axis(across, false), { constrain: "domain", showgrid: false, zeroline: false });
    look.yaxis = Object.assign(axis(down, false), {
      autorange: "reversed", scaleanchor: "x", constrain: "domain", showgrid: false, zeroline: false });
    return [[trace], look];
  }

  // From the 2nd to the 98th percentile of the pixels that are shown, between neighbours by their distance.
  function limits(cells, figure) {
    const seen = cells.flat().filter((value) => value !== null).sort((one, other) => one - other);
    if (!seen.length) return [figure.zmin, figure.zmax];
    return [0.02, 0.98].map((part) => {
      const at = part * (seen.length - 1), below = Math.floor(at), above = Math.min(below + 1, seen.length - 1);
      return seen[below] + (at - below) * (seen[above] - seen[below]);
    });
  }

  function cell(figure, x, y) {
    const at = y * figure.columns + x, block = figure.block;
    const place = block === 1 ? `column ${x}, row ${y}` : `columns ${x * block} to ${x * block + block - 1}, rows ${y * block} to ${y * block + block - 1}`;
    const photons = `${number(figure.photons[at])} photons`, value = figure.values[at];
    if (figure.photons === figure.values) return `${place}: ${photons}`;
    return `${place}: ${Number.isNaN(value) ? "no mean" : `${Number(value.toPrecision(4))} ${figure.unit}`} of ${photons}`;
  }

  // ## Drawing, controls and keys

  function draw(figure) {
    const [traces, look] = figure.kind === "picture" ? picture(figure) : curve(figure);
    const place = element(figure, "plot");
    const settings = { responsive: true, displaylogo: false, displayModeBar: narrow.matches ? false : "hover", scrollZoom: false,
      modeBarButtonsToRemove: ["select2d", "lasso2d", "autoScale2d"] };
    return Plotly.react(place, traces, look, settings);
  }

  // The keys walk over the points; each is shown as the pointer would show it and said in the line below the plot.
  function walk(figure, event) {
    const count = figure.kind === "picture" ? figure.values.length : figure.x.length;
    const step = figure.kind === "picture" ? figure.columns : Math.max(1, Math.round(count / 20));
    const steps = { ArrowRight: 1, ArrowLeft: -1, ArrowDown: step, ArrowUp: -step, PageDown: step, PageUp: -step };
    let at = figure.at === undefined ? -1 : figure.at;
    if (event.key === "Home") at = 0;
    else if (event.key === "End") at = count - 1;
    else if (event.key in steps) at = at < 0 ? 0 : Math.min(count - 1, Math.max(0, at + steps[event.key]));
    else return;
    event.preventDefault();
    figure.at = at;
    element(figure, "said").textContent = told(figure, at);
    const point = figure.kind === "picture" ? [Math.floor(at / figure.columns), at % figure.columns] : at;
    try {
      Plotly.Fx.hover(element(figure, "plot"), [{ curveNumber: 0, pointNumber: point }]);
    } catch (error) { /* a point that isn't drawn has no label, and is said all the same */ }
  }

  function furnish(figure) {
    for (const part of ["log", "all"]) {
      const box = element(figure, part);
      if (box) box.addEventListener("change", () => draw(figure));
    }
    const slider = element(figure, "threshold");
    if (slider) slider.addEventListener("input", () => {
      element(figure, "bound").textContent = number(slider.value);
      slider.setAttribute("aria-valuetext", number(slider.value) + " photons");
      cancelAnimationFrame(figure.frame);
      figure.frame = requestAnimationFrame(() => draw(figure));
    });
    const place = element(figure, "plot");
    place.addEventListener("keydown", (event) => walk(figure, event));
    place.on("plotly_hover", (event) => {
      const point = event.points[0];
      const at = Array.isArray(point.pointNumber) ? point.pointNumber[0] * figure.columns + point.pointNumber[1] : Math.min(point.pointNumber, figure.x.length - 1);
      figure.at = at;
      element(figure, "said").textContent = told(figure, at);
    });
  }

  const drawn = figures.map((figure) => {
    if (figure.kind === "picture") {
      figure.photons = unpacked(figure.photons);
      figure.values = figure.values === null ? figure.photons : unpacked(figure.values);
    }
    element(figure, "figure").hidden = false;
    return Promise.resolve(draw(figure)).then(() => furnish(figure));
  });
  for (const media of [dark, narrow]) media.addEventListener("change", () => figures.forEach(draw));
  Promise.all(drawn).then(() => { document.documentElement.dataset.drawn = "yes"; });
})();
