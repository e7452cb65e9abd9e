// Charts by Chart.js. The server chooses the columns and gives the points, as tools/look does for its pictures.
const STEPS = [1, 5, 10, 15, 30, 60, 300, 600, 900, 1800, 3600, 7200, 10800, 21600, 43200, 86400, 172800, 604800, 1209600, 2592000, 7776000, 31536000];
const DASHES = [[], [6, 3], [2, 2], [8, 3, 2, 3]];
const MOST_TICKS = 8;

const colour = (name) => getComputedStyle(document.documentElement).getPropertyValue(name).trim();

const pad = (number) => String(number).padStart(2, "0");

function timeText(seconds, span) {
  const at = new Date(seconds * 1000);
  const day = `${at.getUTCFullYear()}-${pad(at.getUTCMonth() + 1)}-${pad(at.getUTCDate())}`;
  const time = `${pad(at.getUTCHours())}:${pad(at.getUTCMinutes())}`;
  if (span > 4 * 86400) return day;
  if (span > 86400) return `${day.slice(5)} ${time}`;
  return span < 600 ? `${time}:${pad(at.getUTCSeconds())}` : time;
}

function timeTicks(axis) {
  const span = axis.max - axis.min || 1;
  const step = STEPS.find((one) => span / one <= MOST_TICKS) ?? span / MOST_TICKS;
  axis.ticks = [];
  for (let at = Math.ceil(axis.min / step) * step; at <= axis.max; at += step) axis.ticks.push({ value: at });
}

function amount(value) {
  for (const [power, sign] of [[1e12, "T"], [1e9, "G"], [1e6, "M"], [1e3, "k"]]) {
    if (Math.abs(value) >= Math.max(power, 1e4)) return `${+(value / power).toPrecision(6)}${sign}`;
  }
  return value.toLocaleString("en", { maximumFractionDigits: 6 });
}

const title = ({ name, type }) => (type === "timespan" ? `${name} (seconds)` : name);

// What a chart is, in words, for who doesn't see it.
export function described(chart) {
  const kinds = { time: "Time chart", line: "Line chart", bar: "Bar chart" };
  const points = chart.series.reduce((sum, one) => sum + one.points.length, 0);
  const names = chart.series.map((one) => one.name).join(", ");
  return `${kinds[chart.kind]} of ${chart.y.name} by ${chart.x.name}: ${chart.series.length} series (${names}), ${points} points`;
}

function axis(what, grid) {
  return { title: { display: true, text: title(what), color: colour("--dim") }, ticks: { color: colour("--dim") }, grid: { color: grid ? colour("--line") : "transparent" } };
}

function curves(chart) {
  const isTime = chart.x.type === "datetime";
  const xs = chart.series.flatMap((one) => one.points.map(([x]) => x));
  const span = xs.reduce((a, b) => Math.max(a, b), -Infinity) - xs.reduce((a, b) => Math.min(a, b), Infinity);
  const text = isTime ? (x) => timeText(x, span) : amount;
  const x = axis(chart.x, true);
  x.ticks.callback = (value) => text(value);
  x.ticks.maxRotation = 0;
  return {
    type: "line",
    data: { datasets: chart.series.map((one, at) => ({ ...look(chart, one, at), data: one.points.map(([px, py]) => ({ x: px, y: py })), pointRadius: one.points.length < 50 ? 2.5 : 0, borderWidth: 2 })) },
    options: {
      parsing: false,
      normalized: true,
      interaction: { mode: "nearest", axis: "x", intersect: false },
      scales: { x: { ...x, type: "linear", afterBuildTicks: isTime ? timeTicks : undefined }, y: { ...axis(chart.y, true), beginAtZero: true } },
      plugins: { tooltip: { callbacks: { title: (items) => (items.length ? (isTime ? new Date(items[0].parsed.x * 1000).toISOString() : amount(items[0].parsed.x)) : "") } } },
    },
  };
}

function bars(chart) {
  const labels = [...new Set(chart.series.flatMap((one) => one.points.map(([x]) => x)))];
  const y = axis(chart.x, false);
  y.ticks.callback = (_, at) => (labels[at].length > 40 ? `${labels[at].slice(0, 24)}…${labels[at].slice(-14)}` : labels[at]);
  y.ticks.autoSkip = true;
  const data = chart.series.map((one, at) => {
    const values = new Map(one.points);
    return { ...look(chart, one, at), data: labels.map((label) => values.get(label) ?? null) };
  });
  return { type: "bar", data: { labels, datasets: data }, options: { indexAxis: "y", scales: { y, x: { ...axis(chart.y, true), beginAtZero: true } }, plugins: {} } };
}

function look(chart, one, at) {
  const paint = chart.colours[at % chart.colours.length];
  return { label: one.name, borderColor: paint, backgroundColor: paint, borderDash: chart.kind === "bar" ? [] : DASHES[Math.floor(at / 2) % DASHES.length] };
}

export function draw(canvas, chart) {
  const config = chart.kind === "bar" ? bars(chart) : curves(chart);
  for (const scale of Object.values(config.options.scales)) scale.ticks.callback ??= amount;
  Object.assign(config.options, { animation: false, responsive: true, maintainAspectRatio: false });
  config.options.plugins.legend = { display: chart.series.length > 1, labels: { color: colour("--text") } };
  return new Chart(canvas, config);
}
