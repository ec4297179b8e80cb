// A page on a node: what it shows to the operator. It stands beside the node's own paths (examples/front), and keeps the token
// and the unit for this tab alone. All that comes from the node is put in as text.

// As many objects as the node gives at once, rows that are shown at once, and parts that a chart has one by one, on a wide page
// and on a narrow one.
const AT_ONCE = 50, ROWS = 50, BARS = 8, FEW_BARS = 4;
// As many questions as are asked at once.
const TOGETHER = 4;
// How often the outbox and the state are looked at, in milliseconds, and how many looks the lines show.
const LOOK = 5000, LOOK_AT_STATE = 15000, LOOKS = 360;
// How often it is waited where the front says that there were too many questions.
const WAITS = 60;

const by = (id) => document.getElementById(id);

// ---- the node

class Refused extends Error {}

async function ask(method, path, value, waits = WAITS) {
  const said = { method, headers: { Authorization: `Bearer ${sessionStorage.getItem("token")}` }, cache: "no-store" };
  if (value !== undefined) said.body = JSON.stringify(value);
  const reply = await fetch(path, said);
  if (reply.status === 429 && waits) {
    await new Promise((done) => setTimeout(done, 1000 * (Number(reply.headers.get("Retry-After")) || 1)));
    return ask(method, path, value, waits - 1);
  }
  const told = await reply.json().catch(() => null);
  if (!reply.ok) throw Object.assign(new Refused(told?.title ? `${told.title}: ${told.detail}` : `status ${reply.status}`), { status: reply.status });
  return told;
}

// What is there, or nothing for 404.
const asked = (path) => ask("GET", path).catch((fault) => { if (fault.status === 404) return null; throw fault; });

const page = (path, from) => ask("GET", `${path}?skip=${from}&limit=${AT_ONCE}`);

// All objects of a listing, page by page.
async function all(path) {
  const found = [];
  for (let more = [null]; more.length; ) {
    more = await page(path, found.length);
    found.push(...more);
  }
  return found;
}

// What comes of each, some at a time, in their order.
async function each(list, work) {
  const found = [];
  let next = 0;
  const worker = async () => { while (next < list.length) { const at = next++; found[at] = await work(list[at]); } };
  await Promise.all(Array.from({ length: Math.min(TOGETHER, list.length) }, worker));
  return found;
}

const text = (it) => encodeURIComponent(it);

// ---- what is told of what was done

function tell(what, refused = false) {
  by("told").textContent = what;
  by("told").classList.toggle("refused", refused);
}

// Does something, and tells what came of it.
async function attempt(what, work) {
  try {
    const came = await work();
    if (what) tell(what);
    return came;
  } catch (fault) {
    tell(fault instanceof Refused ? `Refused. ${fault.message}` : `No reply: ${fault.message}`, true);
  }
}

// Tells beside a view's button when it was read, and meanwhile that it is being read.
async function reading(view, work) {
  const [place, button] = [by(`read-${view}`), by(`again-${view}`)];
  [place.textContent, button.disabled] = ["Being read ..", true];
  const what = await attempt("", work);
  [place.textContent, button.disabled] = [`${what ? `${what}; read` : "Not read"} at ${clock(new Date(), true)}`, false];
}

// ---- words

const figures = new Intl.NumberFormat();
const number = (it) => (typeof it === "number" ? figures.format(it) : (it ?? ""));
const many = (count, word) => `${number(count)} ${word}${count === 1 ? "" : "s"}`;
const sum = (values) => values.reduce((one, other) => one + (other ?? 0), 0);
const unit = () => by("unit").value.trim();
const inUnit = () => (unit() ? `in ${unit()}` : "in the utility's unit");
const short = (it, most = 28) => (it.length > most ? `${it.slice(0, most - 1)}…` : it);

const clock = (moment, seconds = false) => moment.toLocaleTimeString([], { hour: "2-digit", minute: "2-digit", ...(seconds ? { second: "2-digit" } : {}), hourCycle: "h23" });
const day = (moment) => moment.toLocaleDateString([], { year: "numeric", month: "short", day: "numeric" });
const told = (written) => { const it = moment(written); return it ? `${day(it)}, ${clock(it)}` : written; };
const ZONE = Intl.DateTimeFormat().resolvedOptions().timeZone;

function lasted(seconds) {
  if (seconds < 120) return `${Math.round(seconds)} s`;
  if (seconds < 7200) return `${Math.round(seconds / 60)} min`;
  return seconds < 172800 ? `${Math.round(seconds / 3600)} h` : `${Math.round(seconds / 86400)} days`;
}

// A moment as it was written, or nothing where it is none.
function moment(written) {
  const it = new Date(written ?? NaN);
  return Number.isNaN(it.getTime()) || it.getFullYear() < 1970 ? null : it;
}

// Milliseconds of a duration of ISO 8601, as PT15M, or 0 where it is none (or has months or years).
function lasting(written) {
  const it = /^P(?:(\d+)W)?(?:(\d+)D)?(?:T(?:(\d+)H)?(?:(\d+)M)?(?:(\d+(?:\.\d+)?)S)?)?$/.exec(written ?? "");
  if (!it) return 0;
  const [weeks, days, hours, minutes, seconds] = it.slice(1).map((one) => Number(one ?? 0));
  return 1000 * ((((weeks * 7 + days) * 24 + hours) * 60 + minutes) * 60 + seconds);
}

// ---- elements

function make(name, more = {}, ...inner) {
  const it = document.createElement(name);
  for (const [key, value] of Object.entries(more)) {
    if (key.startsWith("on")) it.addEventListener(key.slice(2), value);
    else if (key in it && key !== "list") it[key] = value;
    else it.setAttribute(key, value);
  }
  it.append(...inner.filter((one) => one !== null && one !== undefined));
  return it;
}

const weak = (what) => make("p", { className: "weak" }, what);

// A table whose first column names its rows; so many rows are shown, and more where they are asked for.
function table(caption, heads, rows, numbers = []) {
  const cell = (at, value, name = "td") => make(name, { ...(numbers.includes(at) ? { className: "number" } : {}) }, value instanceof Node ? value : String(number(value)));
  const line = (row) => make("tr", {}, ...row.map((value, at) => {
    const it = cell(at, value, at ? "td" : "th");
    if (!at) Object.assign(it, { scope: "row", title: it.textContent });
    return it;
  }));
  const body = make("tbody");
  let shown = 0;
  const more = make("button", { type: "button" });
  const show = () => {
    body.append(...rows.slice(shown, shown + ROWS).map(line));
    shown = Math.min(rows.length, shown + ROWS);
    more.textContent = `Show more (${number(shown)} of ${number(rows.length)})`;
    more.hidden = shown === rows.length;
  };
  more.addEventListener("click", show);
  show();
  const heading = make("thead", {}, make("tr", {}, ...heads.map((it, at) => Object.assign(cell(at, it, "th"), { scope: "col" }))));
  const room = make("div", { className: "scroll", tabIndex: 0, role: "region", ariaLabel: caption }, make("table", { ariaLabel: caption }, heading, body));
  return make("div", {}, make("p", { className: "caption" }, caption), room, more);
}

// Names of which there may be many, in a line that opens.
function names(list, what) {
  if (!list.length) return "";
  return make("details", {}, make("summary", {}, what), make("p", {}, list.slice(0, ROWS).join(", ") + (list.length > ROWS ? `, and ${list.length - ROWS} more` : "")));
}

const charts = new Map();

// A chart in the place of the one that its canvas had; `config` is called anew where light and dark change, or wide and narrow.
function draw(canvas, config) {
  charts.get(canvas)?.chart.destroy();
  const style = getComputedStyle(document.documentElement);
  Chart.defaults.color = style.getPropertyValue("--ink");
  Chart.defaults.borderColor = style.getPropertyValue("--edge");
  Chart.defaults.font.family = getComputedStyle(document.body).fontFamily;
  const it = config((name) => style.getPropertyValue(name));
  it.options = { animation: false, responsive: true, maintainAspectRatio: false, interaction: { mode: "index", intersect: false }, ...it.options };
  charts.set(canvas, { config, chart: new Chart(canvas, it) });
}

const isNarrow = matchMedia("(max-width: 40rem)");

for (const it of [matchMedia("(prefers-color-scheme: dark)"), isNarrow]) it.addEventListener("change", () => {
  for (const [canvas, { config, chart }] of [...charts]) {
    if (canvas.isConnected) draw(canvas, config);
    else { chart.destroy(); charts.delete(canvas); }
  }
});

// Colours that eyes of all kinds tell apart, on light and on dark.
const HUES = ["#2f7ebc", "#e08a00", "#0f9d74", "#c46aa3", "#7a6ff0", "#d5562a", "#63b6e6", "#a99a1b"];

const LEGEND = { display: true, position: "bottom", labels: { boxWidth: 12, padding: 10 } };

// Asks whether something is to be done, which that word names.
async function sure(what, word = "Remove") {
  const box = by("ask");
  by("ask-what").textContent = what;
  box.querySelector("[value=yes]").textContent = word;
  box.returnValue = "";
  box.showModal();
  await new Promise((done) => box.addEventListener("close", done, { once: true }));
  return box.returnValue === "yes";
}

// ---- events

// The parts of an interval, by the kind of payload.
const valueOf = (interval, type) => interval.payloads.find((it) => it.type === type)?.values[0];
const nameOf = (it, type) => it.targets.find((to) => to.type === type)?.values[0] ?? "";

// The events as the utility has them: each with what its resources are shown.
function upstream(shown) {
  const events = new Map();
  for (const it of shown) {
    const [resource, id] = [it.id.slice(0, it.id.indexOf("-")), it.id.slice(it.id.indexOf("-") + 1)];
    if (!events.has(id)) events.set(id, { id, name: it.eventName ?? id, program: it.programID, period: it.intervalPeriod, intervals: it.intervals, parts: [] });
    events.get(id).parts.push({ resource, name: nameOf(it, "RESOURCE_NAME"), site: nameOf(it, "VEN_NAME"), values: it.intervals.map((one) => valueOf(one, "DISPATCH_SETPOINT") ?? null) });
  }
  const found = [...events.values()];
  for (const it of found) Object.assign(it, { times: times(it), totals: it.intervals.map((_, at) => sum(it.parts.map((one) => one.values[at]))) });
  return found;
}

// From when to when each interval is: as it says itself, or else behind the one before, from the event's beginning on.
function times(event) {
  let next = moment(event.period?.start);
  return event.intervals.map((it) => {
    const start = moment(it.intervalPeriod?.start) ?? next;
    const lasts = lasting(it.intervalPeriod?.duration ?? event.period?.duration);
    next = start && lasts ? new Date(start.getTime() + lasts) : null;
    return { start, end: next };
  });
}

function labels(event) {
  const days = new Set(event.times.map((it) => it.start && day(it.start)));
  return event.times.map(({ start, end }, at) => {
    if (!start) return `interval ${event.intervals[at].id}`;
    const from = days.size > 1 ? `${start.toLocaleDateString([], { month: "short", day: "numeric" })}, ${clock(start)}` : clock(start);
    return end ? `${from}–${clock(end)}` : `from ${from}`;
  });
}

// From when to when an event is, or nothing where it doesn't say it.
function when(event) {
  const [first, last] = [event.times[0]?.start, event.times.at(-1)?.end];
  if (!first) return "";
  return `${day(first)}, ${clock(first)}${last ? `–${day(last) === day(first) ? "" : `${day(last)}, `}${clock(last)}` : ""}`;
}

// Of each interval what was used, and who has no value.
const missing = (rollup) => rollup.resources[0].intervals.map((it) => ({ id: it.id, used: valueOf(it, "USAGE"), names: it.payloads.find((one) => one.type === "MISSING_RESOURCES")?.values ?? [] }));

// Of an event what is reported in each interval: nothing where nobody has reported, which is not that nothing was used.
function reported(event, rollup) {
  const lacks = new Map((rollup ? missing(rollup) : []).map((it) => [it.id, it]));
  return event.intervals.map((it, at) => {
    const has = lacks.get(it.id);
    const takes = event.parts.filter((one) => one.values[at] !== null).map((one) => one.name);
    const who = has ? has.names : takes;
    return { used: has && has.names.length < takes.length ? has.used : null, who };
  });
}

// Who has no value in an interval or more, and in how many.
function silent(event, rollup) {
  const counts = new Map();
  for (const it of reported(event, rollup)) for (const name of it.who) counts.set(name, (counts.get(name) ?? 0) + 1);
  const site = new Map(event.parts.map((it) => [it.name, it.site]));
  return [...counts].map(([name, count]) => ({ name, site: site.get(name) ?? "", count }));
}

// The bars of an event: the parts with the greatest magnitude one by one, and the others as one.
function bars(event, rollup) {
  const weight = (part) => Math.max(...part.values.map((it) => Math.abs(it ?? 0)));
  const parts = [...event.parts].sort((one, other) => weight(other) - weight(one));
  const used = reported(event, rollup).map((it) => it.used);
  return (colour) => {
    const most = isNarrow.matches ? FEW_BARS : BARS;
    const few = parts.length <= most + 1 ? parts.length : most;
    const rest = parts.slice(few);
    const sets = parts.slice(0, few).map((it, at) => ({ label: short(it.name, isNarrow.matches ? 18 : 28), data: it.values, backgroundColor: HUES[at] ?? colour("--weak"), stack: "parts" }));
    if (rest.length) sets.push({ label: `${number(rest.length)} others`, data: event.intervals.map((_, at) => sum(rest.map((it) => it.values[at]))), backgroundColor: "#8a8f98", stack: "parts" });
    if (rollup) sets.push({ label: "usage reported", type: "line", order: -1, data: used, borderColor: colour("--ink"), backgroundColor: colour("--ink"), pointRadius: 4, stack: "usage" });
    const y = { stacked: true, title: { display: true, text: unit() || "the utility's unit" } };
    return { type: "bar", data: { labels: labels(event).map((it) => it.split("–")[0]), datasets: sets }, options: { scales: { x: { stacked: true, ticks: { maxRotation: 60 } }, y }, plugins: { legend: LEGEND } } };
  };
}

// Who takes part in an event as it is kept, or what keeps it.
function keeping(event, kept, room) {
  if (kept) {
    const has = new Map(event.parts.map((it) => [it.resource, it]));
    const rows = kept.shares.map((it) => [has.get(it.resourceID)?.name ?? it.resourceID, has.get(it.resourceID)?.site ?? "", it.resourceID, it.share]);
    return table("Fixed: these take part with these shares, whatever shares, names and targets say later", ["Resource", "Site", "Id", "Share"], rows, [3]);
  }
  return make("button", { type: "button", className: "fix", onclick: async () => {
    if (!(await sure(`Fix who takes part in ${event.name}, and with which shares? Nothing undoes it but another event.`, "Fix"))) return;
    const fixed = await attempt("", () => ask("PUT", `/frozen/${text(event.id)}`, {}));
    if (!fixed) return;
    tell(`The shares of ${many(fixed.shares.length, "resource")} are kept for ${event.name}.`);
    await attempt("", () => showEvent(event, room));
  } }, "Fix its shares");
}

function silence(event, rollup) {
  if (!rollup) return weak("Nobody has reported yet.");
  const lacks = silent(event, rollup);
  if (!lacks.length) return weak("All who take part have reported.");
  const count = event.intervals.length;
  return table(`Who has not reported: ${number(lacks.length)} of ${many(event.parts.length, "resource")}`, ["Resource", "Site", "Intervals without a value"], lacks.map((it) => [it.name, it.site, `${it.count} of ${count}`]), [2]);
}

async function showEvent(event, room) {
  const [rollup, kept] = [await asked(`/rollups/${text(event.id)}`), await asked(`/frozen/${text(event.id)}`)];
  const canvas = make("canvas", { role: "img", ariaLabel: `Parts of ${many(event.parts.length, "resource")} in ${many(event.intervals.length, "interval")}; the tables below have them all` });
  const [at, facts] = [labels(event), reported(event, rollup)];
  const zone = event.times.some((it) => it.start) ? `; times of ${ZONE}` : "; the utility says no times";
  const rows = at.map((it, one) => [it, event.totals[one], facts[one].used ?? "none", names(facts[one].who, many(facts[one].who.length, "resource"))]);
  while (room.childElementCount > 1) room.lastElementChild.remove();
  room.append(
    make("div", { className: "chart" }, canvas),
    table(`Setpoint and usage, ${inUnit()}${zone}`, ["Time", "Setpoint", "Usage reported", "Without a value"], rows, [1, 2]),
    silence(event, rollup),
    table(`Parts, ${inUnit()}`, ["Resource", "Site", "Id", ...at], event.parts.map((it) => [it.name, it.site, it.resource, ...it.values]), at.map((_, one) => one + 3)),
    keeping(event, kept, room),
  );
  draw(canvas, bars(event, rollup));
}

async function readEvents() {
  await reading("events", async () => {
    const [programs, shown] = [await all("/programs"), await all("/events")];
    const events = upstream(shown);
    const rooms = programs.map((program) => {
      const own = events.filter((it) => it.program === program.id);
      const list = own.map((event) => {
        const most = event.totals.reduce((one, other) => (Math.abs(other) > Math.abs(one) ? other : one), 0);
        const facts = [when(event), `${number(most)}${unit() ? ` ${unit()}` : ""} at most`, many(event.parts.length, "resource"), many(event.intervals.length, "interval")];
        const room = make("details", {}, make("summary", {}, make("b", {}, event.name), make("span", { className: "weak" }, facts.filter(Boolean).join("; "))));
        room.addEventListener("toggle", () => { if (room.open && room.childElementCount === 1) attempt("", () => showEvent(event, room)); });
        return room;
      });
      if (list.length && own.length <= 3) list[0].open = true;
      return make("article", {}, make("h3", {}, `${program.programName} (${program.id})`), ...(list.length ? list : [weak("No event is shown.")]));
    });
    by("list-events").replaceChildren(...(rooms.length ? rooms : [weak("The utility has no program.")]));
    by("programs").replaceChildren(...programs.map((it) => make("option", { value: it.id })));
    return `${many(programs.length, "program")}, ${many(events.length, "event")}, ${many(shown.length, "part")}`;
  });
}

// ---- portfolio

function rename(name, work) {
  const field = make("input", { value: name, required: true, maxLength: 128, ariaLabel: `New name of ${name}` });
  return make("form", { onsubmit: (it) => { it.preventDefault(); work(field.value); } }, field, make("button", { ariaLabel: `Rename ${name}` }, "Rename"));
}

async function showResources(ven, room) {
  const found = await all(`/vens/${ven.id}/resources`);
  const rows = found.map((it) => [
    it.id,
    rename(it.resourceName, (name) => attempt(`${it.id} is now ${name}.`, () => ask("PUT", `/vens/${ven.id}/resources/${it.id}`, { resourceName: name }))),
    make("button", { type: "button", ariaLabel: `Remove ${it.resourceName}`, onclick: async () => {
      if (await sure(`Remove ${it.resourceName} (${it.id}), with its shares and reports?`)) {
        await attempt(`${it.resourceName} was removed.`, () => ask("DELETE", `/vens/${ven.id}/resources/${it.id}`));
        await openVen(ven, room);
      }
    } }, "Remove"),
  ]);
  const field = make("input", { required: true, maxLength: 128, ariaLabel: `A new resource of ${ven.venName}` });
  const add = make("form", { onsubmit: async (it) => {
    it.preventDefault();
    await attempt(`${field.value} was added.`, () => ask("POST", `/vens/${ven.id}/resources`, { resourceName: field.value }));
    await openVen(ven, room);
  } }, make("label", {}, "A new resource's name ", field), make("button", {}, "Add"));
  room.append(table(`Resources of ${ven.venName}`, ["Id", "Name", ""], rows), add);
}

// What stands below a ven's line, anew.
async function openVen(ven, room) {
  while (room.childElementCount > 1) room.lastElementChild.remove();
  const gone = make("button", { type: "button", onclick: async () => {
    if (await sure(`Remove ${ven.venName} (${ven.id}), with all its resources, their shares and reports, and its subscriptions?`)) {
      await attempt(`${ven.venName} was removed.`, () => ask("DELETE", `/vens/${ven.id}`));
      await readPortfolio();
    }
  } }, "Remove this ven");
  room.append(rename(ven.venName, (name) => attempt(`${ven.id} is now ${name}.`, () => ask("PUT", `/vens/${ven.id}`, { venName: name })).then(readPortfolio)), gone);
  await attempt("", () => showResources(ven, room));
}

async function readPortfolio() {
  await reading("portfolio", async () => {
    const [vens, programs] = [await all("/vens"), await all("/programs")];
    const owned = await each(vens, (ven) => all(`/vens/${ven.id}/resources`));
    const shown = vens.map((ven, at) => {
      const room = make("details", {}, make("summary", {}, make("b", {}, ven.venName), make("span", { className: "weak" }, `${ven.id}; ${many(owned[at].length, "resource")}`)));
      room.addEventListener("toggle", () => { if (room.open && room.childElementCount === 1) openVen(ven, room); });
      return room;
    });
    const few = (from) => {
      const rest = shown.length - from - ROWS;
      const more = make("button", { type: "button", onclick: () => more.replaceWith(...few(from + ROWS)) }, `Show more (${rest} left)`);
      return [...shown.slice(from, from + ROWS), ...(rest > 0 ? [more] : [])];
    };
    by("list-vens").replaceChildren(...(shown.length ? few(0) : [weak("No ven is enrolled.")]));
    const has = new Map(vens.flatMap((ven, at) => owned[at].map((it) => [it.id, { name: it.resourceName, site: ven.venName }])));
    const lists = await each(programs, (it) => ask("GET", `/shares/${text(it.id)}`));
    by("list-shares").replaceChildren(...programs.map((it, at) => {
      const whole = sum(lists[at].map((one) => one.share));
      const without = [...has.keys()].filter((id) => !lists[at].some((one) => one.resourceID === id));
      const rows = lists[at].map((one) => [has.get(one.resourceID)?.name ?? one.resourceID, has.get(one.resourceID)?.site ?? "", one.resourceID, one.share, `${((100 * one.share) / whole).toFixed(2)} %`]);
      const of = table(`${it.programName} (${it.id}): ${many(rows.length, "resource")} with a share`, ["Resource", "Site", "Id", "Share", "Of an order"], rows, [3, 4]);
      if (without.length) of.append(names(without.map((id) => `${has.get(id).name} (${id})`), `${many(without.length, "resource")} without a share`));
      return of;
    }));
    by("programs").replaceChildren(...programs.map((it) => make("option", { value: it.id })));
    by("resources").replaceChildren(...[...has].map(([id, it]) => make("option", { value: id, label: `${it.name}, ${it.site}` })));
    return `${many(vens.length, "ven")}, ${many(has.size, "resource")}`;
  });
}

by("enrol").addEventListener("submit", async (it) => {
  it.preventDefault();
  const name = it.target.elements.name.value;
  const made = await attempt("", () => ask("POST", "/vens", { venName: name }));
  if (!made) return;
  it.target.reset();
  await readPortfolio();
  tell(`${name} is ${made.id}: write that into the configuration, with a token of its own.`);
});

by("share").addEventListener("submit", async (it) => {
  it.preventDefault();
  const { program, resource, share } = it.target.elements;
  const set = await attempt("", () => ask("PUT", `/shares/${text(program.value)}/${text(resource.value)}`, { share: Number(share.value) }));
  if (!set) return;
  await readPortfolio();
  tell(`${set.resourceID} has a share of ${set.share} in ${set.programID}.`);
});

// ---- reports

// A table that is read page by page, where more is asked for.
function listing(path, caption, heads, row, numbers) {
  const rows = [];
  const room = make("div");
  const read = async () => {
    const found = await page(path, rows.length);
    rows.push(...found.map((it) => row(it, read)));
    const more = make("button", { type: "button", onclick: () => attempt("", read) }, `Read more (${number(rows.length)} so far)`);
    room.replaceChildren(rows.length ? table(caption, heads, rows, numbers) : weak("None is there."), ...(found.length === AT_ONCE ? [more] : []));
    return rows.length;
  };
  return { room, read };
}

async function readReports() {
  await reading("reports", async () => {
    const now = Date.now();
    const begun = upstream(await all("/events")).filter((it) => !it.times[0]?.start || it.times[0].start < now);
    begun.sort((one, other) => (other.times[0]?.start ?? 0) - (one.times[0]?.start ?? 0));
    const looked = begun.slice(0, ROWS);
    const rollups = await each(looked, (it) => asked(`/rollups/${text(it.id)}`));
    const rows = looked.map((it, at) => {
      const lacks = silent(it, rollups[at]);
      const whole = it.parts.length - lacks.length;
      const who = (list) => names(list.map((one) => `${one.name}${one.site ? ` (${one.site})` : ""}`), many(list.length, "resource"));
      return [it.name, who(lacks.filter((one) => one.count === it.intervals.length)), who(lacks.filter((one) => one.count < it.intervals.length)), many(whole, "resource"), when(it), it.program];
    });
    by("list-missing").replaceChildren(rows.length ? table("Events that have begun, the latest first", ["Event", "Nothing", "In some intervals", "In all", "When", "Program"], rows) : weak("No event has begun."));
    const remove = (it) => make("button", { type: "button", ariaLabel: `Remove report ${it.id}`, onclick: async () => {
      if (!(await sure(`Remove report ${it.id} on ${it.eventID}?`))) return;
      await attempt(`${it.id} was removed.`, () => ask("DELETE", `/reports/${it.id}`));
      await readReports();
    } }, "Remove");
    const values = (it) => it.resources[0].intervals.filter((one) => valueOf(one, "USAGE") !== undefined);
    const list = listing("/reports", `By number; usage ${inUnit()}`, ["Resource", "Event", "Client", "Values", "Sum of them", "Changed", "Id", ""], (it) => [it.resources[0].resourceName, it.eventID, it.clientName, values(it).length, sum(values(it).map((one) => valueOf(one, "USAGE"))), told(it.modificationDateTime), it.id, remove(it)], [3, 4]);
    await list.read();
    by("list-reports").replaceChildren(list.room);
    return `${many(looked.length, "event")} begun`;
  });
}

// ---- the outbox and subscriptions

const COUNTS = {
  pending: { word: "wait", hue: "#e08a00" },
  sent: { word: "sent", hue: "#0f9d74" },
  givenUp: { word: "given up", hue: "#d02f20" },
  dropped: { word: "dropped", hue: "#8a8f98" },
  made: { word: "made", hue: "" },
};
const looks = [];
let clocks = [];

async function lookAtOutbox() {
  await attempt("", async () => {
    const counts = await ask("GET", "/outbox");
    looks.push({ at: new Date(), ...counts });
    looks.splice(0, looks.length - LOOKS);
    by("counts").replaceChildren(...Object.entries(COUNTS).map(([key, { word }]) => make("div", {}, make("dt", {}, word), make("dd", key === "givenUp" && counts[key] ? { className: "bad" } : {}, number(counts[key])))));
    const line = (key) => ({ label: COUNTS[key].word, data: looks.map((it) => it[key]), borderColor: COUNTS[key].hue, backgroundColor: COUNTS[key].hue, pointRadius: looks.length < 2 ? 4 : 0 });
    draw(by("lines"), () => ({ type: "line", data: { labels: looks.map((it) => clock(it.at, true)), datasets: ["pending", "sent", "givenUp", "dropped"].map(line) }, options: { scales: { y: { beginAtZero: true, ticks: { precision: 0 }, title: { display: true, text: "messages" } } }, plugins: { legend: LEGEND } } }));
  });
}

// Why there is no state, and what the node itself doesn't tell over HTTP.
let noState = "";

function showFailures(state) {
  if (!state) return weak(`${noState} The node itself doesn't tell which messages fail, and why: its log does.`);
  if (!state.failures.length) return weak("None failed, as far as the log goes back.");
  const rows = state.failures.map((it) => [it.host, it.kind, it.why, `${it.attempt}${it.isGivenUp ? ", given up" : " of 8"}`, it.entry, told(it.at)]);
  return table("Attempts that failed, the latest first; behind one others of its subscription wait", ["Host", "Kind", "Why", "Attempt", "Message", "When"], rows, [4]);
}

async function readSubscriptions() {
  await reading("subscriptions", async () => {
    const lines = (list) => make("div", {}, ...list.map((it) => make("div", {}, it)));
    const remove = (it) => make("button", { type: "button", ariaLabel: `Remove subscription ${it.id} of ${it.clientName}`, onclick: async () => {
      if (!(await sure(`Remove subscription ${it.id} of ${it.clientName}? Its messages that wait are dropped.`))) return;
      await attempt(`${it.id} was removed.`, () => ask("DELETE", `/subscriptions/${it.id}`));
      await readSubscriptions();
    } }, "Remove");
    const items = (it, work) => lines(it.objectOperations.map(work));
    const list = listing("/subscriptions", "By number", ["Client", "Program", "Objects", "Operations", "Is called", "Targets", "Id", ""], (it) => [it.clientName, it.programID ?? "all", items(it, (one) => one.objects.join(" ")), items(it, (one) => one.operations.join(" ")), items(it, (one) => short(one.callbackUrl, 60)), lines((it.targets ?? []).map((one) => short(`${one.type} ${one.values.join(", ")}`, 60))), it.id, remove(it)]);
    const count = await list.read();
    by("list-subscriptions").replaceChildren(list.room);
    return many(count, "subscription");
  });
}

async function readOutbox() {
  await lookAtOutbox();
  await readSubscriptions();
}

// ---- the state, as examples/metrics.py has it, where the front passes it on

// How the link to the utility is, in words, and which of good, warn and bad that is; as examples/alerts.yml says it.
function linked(state) {
  const { sinceWhole, brokeSince, poll, broke } = state.round;
  const why = broke ? `: ${broke}` : "";
  if (sinceWhole === null) return brokeSince ? ["bad", `no whole round yet${why}`] : ["warn", "no round yet"];
  const ago = `last whole round ${lasted(sinceWhole)} ago`;
  if (brokeSince >= 10 || sinceWhole > 600 + 2 * poll) return ["bad", `${ago}${why}`];
  return brokeSince ? ["warn", `${ago}; ${many(brokeSince, "round")} broke off since${why}`] : ["good", ago];
}

function showState(state) {
  const rows = (list) => list.filter(([, it]) => it !== null && it !== undefined);
  const at = (seconds) => (seconds ? told(new Date(1000 * seconds).toISOString()) : null);
  const facts = rows([
    ["Link to the utility", linked(state)[1]],
    ["Rest between two rounds", state.round.poll && `${state.round.poll} s`],
    ["The node was started", at(state.started)],
    ["Newest copy of its file", state.backup ? at(state.backup.at) : state.backup === null ? "none" : null],
    ["Room on its disk", state.disk && `${Math.round((100 * state.disk.free) / state.disk.whole)} %`],
    ...Object.entries(state.units).map(([name, failed]) => [name, failed ? make("span", { className: "bad" }, "failed when it ran last") : "well"]),
  ]);
  const counts = state.backup?.counts ?? {};
  const limits = Object.keys(state.limits).map((it) => [it, counts[it] ?? "", Number(state.limits[it]), it in counts ? `${((100 * counts[it]) / state.limits[it]).toFixed(1)} %` : ""]);
  return [
    table("The node and what stands beside it", ["What", "How it is"], facts),
    limits.length ? table("Limits: how much the newest copy has of each, and how much may be", ["Kind", "In the copy", "Limit", "Used"], limits, [1, 2, 3]) : weak("No limit is told."),
  ];
}

async function lookAtState() {
  const state = await ask("GET", "state").catch((fault) => {
    noState = fault.status === 404 ? "The front has no figures (docs/operate.md, \"Figures and alerts\")." : `The figures don't come: ${fault.message}.`;
    return null;
  });
  const [kind, words] = state ? linked(state) : ["", ""];
  by("link").hidden = !state;
  by("link").className = kind;
  by("link").textContent = `Utility: ${words}`;
  return state;
}

async function readState() {
  await reading("state", async () => {
    const state = await lookAtState();
    const none = () => [weak(`${noState} The node itself doesn't tell over HTTP how its link to the utility is, or what its limits are: its log does.`)];
    by("list-state").replaceChildren(...(state ? showState(state) : none()));
    return state ? "the figures" : "no figures";
  });
}

async function lookAtFailures() {
  by("list-failures").replaceChildren(showFailures(await lookAtState()));
}

// ---- views

const VIEWS = { events: readEvents, portfolio: readPortfolio, reports: readReports, outbox: readOutbox, state: readState };
const tabs = [...document.querySelectorAll('[role="tab"]')];

function stop() {
  for (const it of clocks) clearInterval(it);
  clocks = [];
}

function view(name) {
  for (const tab of tabs) {
    const is = tab.getAttribute("aria-controls") === name;
    tab.setAttribute("aria-selected", String(is));
    tab.tabIndex = is ? 0 : -1;
    by(tab.getAttribute("aria-controls")).hidden = !is;
  }
  tell("");
  stop();
  if (name === "outbox") {
    clocks = [setInterval(lookAtOutbox, LOOK), setInterval(lookAtFailures, LOOK_AT_STATE)];
    lookAtFailures();
  } else {
    clocks = [setInterval(name === "state" ? readState : lookAtState, LOOK_AT_STATE)];
    if (name !== "state") lookAtState();
  }
  return VIEWS[name]();
}

for (const [at, tab] of tabs.entries()) {
  tab.addEventListener("click", () => view(tab.getAttribute("aria-controls")));
  tab.addEventListener("keydown", (it) => {
    const to = { ArrowRight: at + 1, ArrowLeft: at - 1 + tabs.length, Home: 0, End: tabs.length - 1 }[it.key];
    if (to === undefined) return;
    it.preventDefault();
    const next = tabs[to % tabs.length];
    next.focus();
    next.click();
  });
}
for (const [name, read] of [["events", readEvents], ["portfolio", readPortfolio], ["reports", readReports], ["subscriptions", readSubscriptions], ["state", readState]]) by(`again-${name}`).addEventListener("click", read);

function enter(is) {
  by("main").hidden = document.querySelector("nav").hidden = by("own").hidden = !is;
  by("login").hidden = is;
  if (is) view("events");
  else {
    stop();
    by("link").hidden = true;
    for (const it of document.querySelectorAll("[id^=list-], [id^=read-], #counts")) it.replaceChildren();
  }
}

by("login").addEventListener("submit", async (it) => {
  it.preventDefault();
  sessionStorage.setItem("token", by("token").value);
  by("token").value = "";
  if (await attempt("", () => ask("GET", "/outbox"))) enter(true);
  else sessionStorage.removeItem("token");
});
by("own").addEventListener("submit", (it) => it.preventDefault());
by("unit").value = sessionStorage.getItem("unit") ?? document.querySelector("meta[name=unit]").content;
by("unit").addEventListener("change", () => {
  sessionStorage.setItem("unit", unit());
  const shown = tabs.find((it) => it.getAttribute("aria-selected") === "true").getAttribute("aria-controls");
  if (["events", "reports"].includes(shown)) VIEWS[shown]();
});
by("forget").addEventListener("click", () => {
  sessionStorage.clear();
  by("unit").value = document.querySelector("meta[name=unit]").content;
  looks.length = 0;
  enter(false);
  tell("The token is forgotten.");
  by("token").focus();
});
if (sessionStorage.getItem("token")) enter(true);
