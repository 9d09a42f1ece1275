"use strict";
// Whatever comes from the broker is set as text, never as HTML: names and notes are other people's.

const STUCK = 5;                 // seconds for which somebody may hold what others wait for before it is said in large letters
const SILENT = 15;               // seconds without a message after which what is shown is old
const BEAT = 6;                  // seconds between two messages, at most, with one for the way
const PACE = 800;                // milliseconds between two pictures, at least
const MANY = 16;                 // instruments that make two columns
const MOST_RECORDS = 14, MOST_NOTES = 4, MOST_CHAINS = 4;
const WALL = new URLSearchParams(location.search).has("wall") && innerWidth > 860;   // all is seen at once: nobody scrolls there
const WALL_RECORDS = 60, WALL_WAITS = 20, WALL_ALARMS = 3, PADDING = 4;   // pixels, below the last line
const SPANS = {"15 min": 900, "1 h": 3600, "4 h": 14400, "12 h": 43200};
// (WHO is the station, ITS are the instruments)
const WORDS = {
  opened: "the broker opened the bay", closed: "the broker closed the bay", changed: "the bay was changed", note: "WHO notes",
  asked: "WHO asks for ITS", held: "WHO holds ITS", let_go: "WHO let go of ITS", failed: "WHO failed with ITS", gave_up: "WHO gave up on ITS",
  taken: "WHO’s session with ITS was ended", gone: "WHO’s client is gone; it holds ITS", back: "WHO’s client is back; it holds ITS",
  tried: "WHO couldn’t have ITS at once", made_safe: "ITS was made safe after WHO", disabled: "ITS is out of order", enabled: "ITS is in order again",
};
const BAD = new Set(["failed", "gone", "taken", "gave_up"]);

let drawing = 0, drawn = 0;
let status = null, ended = [], records = [], skew = 0, heard = 0, wished = 0, span = 900;

const $ = id => document.getElementById(id);
const now = () => Date.now() / 1000 + skew;

function make(tag, name, ...parts) {
  const it = document.createElement(tag);
  if (name) it.className = name;
  it.append(...parts);
  return it;
}
const bold = text => make("b", "", named(text));
const named = text => make("bdi", "", text);
// (of a station several may wait)
const eachOnce = names => [...new Set(names)].flatMap((it, at) => {
  const count = names.filter(one => one === it).length;
  return [at ? ", " : "", named(it), count > 1 ? ` (${count} sessions)` : ""];
});
const list = names => names.flatMap((it, at) => at ? [", ", named(it)] : [named(it)]);

function ago(seconds) {
  const s = Math.max(0, Math.floor(seconds));
  if (s < 60) return `${s} s`;
  if (s < 3600) return `${Math.floor(s / 60)} min`;
  if (s < 86400) return `${Math.floor(s / 3600)} h ${Math.floor(s % 3600 / 60)} min`;
  return `${Math.floor(s / 86400)} d ${Math.floor(s % 86400 / 3600)} h`;
}
function since(t) {
  const it = make("span", "ticks", t == null ? "" : ago(now() - t));
  if (t != null) it.dataset.since = t;
  return it;
}
const hours = t => new Date(t * 1000).toLocaleTimeString("en-GB", {hour: "2-digit", minute: "2-digit", second: "2-digit"});
const day = t => new Date(t * 1000).toLocaleString("en-GB", {day: "numeric", month: "short", hour: "2-digit", minute: "2-digit"});
// (a session over several bays has a row in each, and its rows may stand differently)
const station = (name, bay) => status.stations.find(it => it.name === name && it.bay === bay);
// (guests of one name may be two, where each of the bays had a broker of its own before)
const isSameSession = (one, other) => one.name === other.name && one.by === other.by;
const bayOf = it => (status.bays || []).find(one => one.bay === it.bay) || status;
const holds = it => it && (it.state === "holding" || it.state === "gone");

// who is stuck

function isHeldBy(it, row) {
  return it.holder === row.name && it.bay === row.bay;
}
function waitersFor(row) {
  return [...new Set(status.instruments.filter(it => isHeldBy(it, row)).flatMap(it => it.waiting))];
}
function worst() {
  const kept = status.stations.filter(it => it.state === "holding" && now() - it.since >= STUCK && waitersFor(it).length);
  return kept.sort((a, b) => a.since - b.since)[0];
}
function alarmOf(it) {
  const waiters = waitersFor(it), isGone = it.state === "gone";
  const text = isGone ? [bold(it.name), " has been gone for ", since(it.gone_since), ", and still holds "] : [bold(it.name), " has held for ", since(it.since), ": "];
  const box = make("div", `alarm ${isGone ? "gone" : "wait"}`, ...text, ...list(it.instruments));
  const more = waiters.length ? [...list(waiters), waiters.length === 1 ? " waits for it" : " wait for it"] : ["nobody waits for it"];
  if (it.by) more.push(" · begun by ", named(it.by));
  box.append(make("small", "", ...more));
  return box;
}
function drawStuck() {
  const stuck = status.stations.filter(it => it.state === "gone").sort((a, b) => a.gone_since - b.gone_since);
  const long = worst();
  if (long) stuck.push(long);
  const most = WALL ? WALL_ALARMS : stuck.length, boxes = stuck.slice(0, most).map(alarmOf);
  if (stuck.length > most) boxes.push(make("div", "alarm gone", `and ${stuck.length - most} more`));
  // (what is wrong with the disk stands above, and keeps everybody)
  const fine = status.disk ? "" : "Nothing is stuck.";
  $("stuck").replaceChildren(...(boxes.length || !fine ? boxes : [make("div", "alarm fine", fine)]));
  // (who listens to the page hears it when it changes, and not each second)
  const texts = stuck.map(it => `${it.name} ${it.state === "gone" ? "is gone, and still holds" : "holds for long, and is waited for:"} ${it.instruments.join(", ")}`);
  say("told", texts.join(". ") || fine);
}
function say(where, text) {
  if ($(where).textContent !== text) $(where).textContent = text;
}
function drawDisk() {
  say("disk", status.disk ? `The broker can't write: ${status.disk}. Nobody comes to hold ${(status.bays || []).length ? "there " : ""}until it can.` : "");
  $("disk").hidden = !status.disk;
  say("notice", status.notice || "");
}

// the instruments, and who waits

function rowOf(it, long) {
  const holder = it.holder && station(it.holder, it.bay), isGone = holder && holder.state === "gone", isEnding = holder && holder.state === "ending";
  const isOut = it.out != null && !it.holder;
  const kind = isGone ? "gone" : isOut ? "out" : !it.holder ? (it.waiting.length ? "wait" : "free") : it.waiting.length ? "wait" : "use";
  const row = make("div", `row ${kind}${it.holder ? " held" : ""}${long && isHeldBy(it, long) && it.waiting.length ? " worst" : ""}`, make("span", "name", named(it.name)));
  row.dataset.instrument = it.name;
  const ending = it.being_made_safe == null ? ["free soon, after "] : ["is being made safe after "];
  const state = make("span", "state", ...(it.holder ? [...(isEnding ? ending : []), named(it.holder), isGone ? " is gone" : holder && holder.state === "waiting" ? ", once that is written" : ""] : [isOut ? "out of order" : "free"]));
  if (WALL && it.bay) row.title = it.bay;
  if (holder && holder.by) state.append(make("span", "soft", " by ", named(holder.by)));
  row.append(state, make("span", "since", since(isEnding ? holder.since : it.holder ? it.since : null)));
  if (it.label) row.append(make("span", "line label", make("bdi", "", it.label)));
  if (it.waiting.length) row.append(make("span", "line", it.waiting.length === 1 ? "waits: " : `${it.waiting.length} wait: `, ...eachOnce(it.waiting)));
  const note = holder && noteOf(holder);
  if (note) row.append(make("span", "line of-note", make("bdi", "note", note)));
  if (it.out != null) row.append(make("span", "line", isOut ? "" : "out of order", !isOut && it.out ? ": " : "", make("bdi", "", it.out), " (says ", make("bdi", "", it.out_by), ")"));
  return row;
}
function noteOf(holder) {
  // (a session over several bays has it in the first of them)
  const noted = holder.note ? holder : status.stations.find(it => it.note && isSameSession(it, holder));
  return noted ? noted.note : "";
}
function headOf(it, before) {
  // (of several bays, each with its name; on a wall beside the picture's rows there is no room for it)
  if (WALL || !it.bay || before && before.bay === it.bay) return [];
  return [make("h3", "bay", named(it.bay))];
}
function links(why, seen, bay) {
  // the rest of a chain: who has the instrument, and, if that one only waits, for whom
  const other = station(why.station, bay), state = other && ["gone", "ending"].includes(other.state) ? other.state : why.holds ? "holding" : "";
  // (of several bays, one that holds in this one may wait in another)
  const more = why.holds && other ? status.stations.find(it => it !== other && it.state === "waiting" && isSameSession(it, other)) : null;
  const holding = other && other.state === "waiting" ? [" waits for the disk"] : [" has held for ", since(why.since), ...(more ? [", and waits in the bay ", named(more.bay)] : [])];
  const told = state === "ending" ? ["’s session is over, and it is being made safe for ", since(other.since)] : state === "gone" ? [" has been gone for ", since(other.gone_since)] : why.holds ? holding : [];
  const whose = why.holds ? more : other, next = !whose || seen.has(why.station) ? null : whose.waits_for[0];
  seen.add(why.station);
  return [" → ", named(why.instrument), ": ", make("span", `chip ${state}`, named(why.station)), ...told, ...(next ? links(next, seen, whose.bay) : [])];
}
function sessionOf(it) {
  // (of one of several that wait as one station)
  return it.session && status.in_line.some(one => one.station === (it.name || it.station)) ? ` (session ${it.session}${it.name && it.by ? `, ${it.by}` : ""})` : "";
}
function lineOf(it) {
  if (!it.place) return "";
  const said = `, number ${it.place} in line${it.urgent ? ", urgent" : ""}`;
  if (it.keeps_place) return `${said}${it.urgent ? "" : ", and an urgent one asked after it"}: nobody who asks later goes before it`;
  return `${said}${it.passed ? `; ${it.passed} went before it since it asked, and after ${bayOf(it).overtakes} what it needs is kept for it` : ""}`;
}
function chainOf(it) {
  // (a line is too short for all of it: for what it waits stands beside the instruments, too)
  const box = WALL ? make("div", "chain", bold(it.name), it.urgent ? ", urgent, " : " ", since(it.since)) : make("div", "chain", bold(it.name), named(sessionOf(it)), " waits for ", ...list(it.instruments), ": ", since(it.since), make("span", "soft", lineOf(it)));
  for (const why of it.waits_for.slice(0, WALL ? 1 : MOST_CHAINS)) box.append(make("div", "links", ...(WALL ? [] : [named(it.name)]), ...links(why, new Set([it.name]), it.bay)));
  if (!it.waits_for.length) box.append(make("div", "links", bayOf(it).disk ? "it waits for the disk" : "nobody keeps it waiting at this moment"));
  return box;
}
function inLineOf(it) {
  const keepers = it.waits_for || [], isTaken = !keepers.length;
  const whose = !it.station ? ["until a guest goes home"] : isTaken ? ["for ", bold(it.station), " to be idle"] : ["as ", bold(it.station)];
  const line = lineOf(isTaken ? {...it, passed: 0, keeps_place: false} : it);
  const box = make("div", "chain", bold(it.by || "somebody"), it.station ? sessionOf(it) : "", " waits ", ...whose, isTaken ? ", and then for " : " for ", ...list(it.instruments), ": ", since(it.since), make("span", "soft", line));
  if (WALL) return box;
  for (const why of keepers.slice(0, MOST_CHAINS)) box.append(make("div", "links", named(it.station), ...links(why, new Set([it.station]), it.bay)));
  if (it.text) box.append(make("div", "links", make("bdi", "", it.text)));
  return box;
}
function drawNow() {
  const long = worst(), waiting = status.stations.filter(it => it.state === "waiting").sort((a, b) => a.since - b.since);
  // (a session over several bays is one)
  const count = state => new Set(status.stations.filter(it => it.state === state).map(it => `${it.name} ${it.by}`)).size;
  document.title = $("bay").textContent = status.bay;
  const gone = count("gone") ? `, ${count("gone")} gone` : "";
  $("about").textContent = `${count("holding")} hold, ${waiting.length + (status.in_line || []).length} wait${gone} · since ${day(status.since)}`;
  const isMany = status.instruments.length > MANY && !WALL;
  document.body.classList.toggle("wide", isMany);
  $("instruments").className = isMany ? "many" : "";
  $("board").style.setProperty("--row", `${rowHeight()}px`);
  $("instruments").replaceChildren(...status.instruments.flatMap((it, at) => [...headOf(it, status.instruments[at - 1]), rowOf(it, long)]));
  const all = [...waiting.map(it => () => chainOf(it)), ...(status.in_line || []).map(it => () => inLineOf(it))], most = WALL ? WALL_WAITS : all.length;
  const chains = all.slice(0, most).map(it => it());
  if (all.length > most) chains.push(make("div", "chain soft", `and ${all.length - most} more`));
  $("waits").replaceChildren(...(chains.length ? chains : [make("div", "soft", status.disk ? "Nobody waits for another." : "Nobody waits.")]));
}
function rowHeight() {
  // on a wall all rows are seen, unless they would be too low to be read: then the page is higher than the screen
  if (!WALL) return 24;
  const high = Math.floor((innerHeight - $("board").offsetTop - 64) / status.instruments.length);
  document.body.classList.toggle("tall", high < 12);
  return Math.max(12, Math.min(38, high));
}
function recordOf(it) {
  const its = it.instruments || [], text = it.text || "", words = WORDS[it.what] || `${it.station ? "WHO: " : ""}${it.what}`;
  const said = {WHO: () => [bold(it.station || "somebody")], ITS: () => its.length ? list(its) : ["its instruments"]};
  const all = words.split(/(WHO|ITS)/).filter(it => it), last = all.findLastIndex(it => !said[it]);
  const parts = all.flatMap((it, at) => said[it] ? said[it]() : [at === last ? make("span", "what", it) : it]);
  // (a text that names the one instrument first needn't do so twice)
  const twice = its.length === 1 && [": ", ", "].map(it => its[0] + it).find(it => text.startsWith(it)) || "", more = text.slice(twice.length);
  if (more) parts.push(": ", make("bdi", "", more.length > 300 ? more.slice(0, 300) + "…" : more));
  return make("div", `record${BAD.has(it.what) ? " bad" : ""}`, make("time", "", hours(it.t)), make("span", "", ...parts));
}
function drawRecords() {
  $("records").replaceChildren(...newest(WALL ? WALL_RECORDS : MOST_RECORDS, WALL ? 0 : MOST_NOTES).reverse().map(recordOf));
  if (!WALL) return;
  // (those for which there is room, and no half line)
  const end = $("records").parentElement.getBoundingClientRect().bottom - PADDING;
  [...$("records").children].filter(it => it.getBoundingClientRect().bottom > end).forEach(it => it.remove());
}
function newest(most, mostNotes) {
  // (one that notes each second drives nothing else out)
  const found = [];
  for (let at = records.length - 1; at >= 0 && found.length < most; at--) if (records[at].what !== "note" || mostNotes-- > 0) found.unshift(records[at]);
  return found;
}

// the picture

function shape(tag, about, text) {
  const it = document.createElementNS("http://www.w3.org/2000/svg", tag);
  for (const name in about) it.setAttribute(name, about[name]);
  if (text != null) it.textContent = text;
  return it;
}
const LAST = ["cross"];            // drawn over the others
const KINDS = {"failed": "failed", "taken away": "taken"};

function barsOf(instrument) {
  // what was and what is: from, to, kind, whose
  const bars = [];
  for (const it of ended) {
    if (!it.instruments.includes(instrument)) continue;
    if (it.held == null || it.held > it.asked) bars.push([it.asked, it.held ?? it.ended, "waits", it]);
    if (it.held != null) bars.push([it.held, it.ended, KINDS[it.how] || "", it]);
    else if (it.how === "gave up") bars.push([it.ended, it.ended, "cross", it]);
  }
  for (const it of status.stations) {
    if (it.state === "idle" || !it.instruments.includes(instrument)) continue;
    const of = {station: it.name, how: it.state};
    bars.push([it.since, it.gone_since ?? now(), it.state === "waiting" ? "waits" : "now", of]);
    if (it.state === "gone") bars.push([it.gone_since, now(), "gone", of]);
  }
  return bars.sort((a, b) => LAST.indexOf(a[2]) - LAST.indexOf(b[2]) || a[0] - b[0]);
}
function drawBars(svg, bars, x, y, from, row) {
  // (three parts of four are the bar, and below it is who waits)
  const last = {}, high = WALL ? Math.floor(row * .72) : 16, below = high + (WALL ? 1 : 2);
  for (const [begun, end, kind, it] of bars) {
    if (end < from) continue;
    const left = x(Math.max(begun, from)), width = Math.max(x(end) - left, 1.5);
    if (kind === "cross") {
      svg.append(shape("path", {class: "cross", d: `M${left - 3} ${y + below - 2}l6 6m0-6l-6 6`}));
      continue;
    }
    if (width < 2 && last[kind] > left - 0.7) continue;      // too narrow to be told from the one before
    last[kind] = left + width;
    const about = kind === "waits" ? {class: "waits", y: y + below, height: Math.min(3, row - below)} : {class: `bar ${kind}`, y: y + 1, height: high, rx: 2};
    const bar = shape("rect", {...about, x: left, width});
    bar.append(shape("title", {}, `${it.station}: ${hours(begun)} to ${hours(end)}, ${ago(end - begun)}, ${kind === "waits" ? "waits" : it.how}`));
    svg.append(bar);
    const letters = Math.floor((width - 8) / 6.3);
    if (kind === "waits" || high < 11 || letters < Math.min(it.station.length, 4)) continue;
    const text = it.station.length > letters ? it.station.slice(0, letters - 1) + "…" : it.station;
    svg.append(shape("text", {class: `bar-text ${kind}`, x: left + 4, y: y + high / 2 + 5}, text));
  }
}
function stepOf(seconds, most) {
  const steps = [60, 120, 300, 600, 900, 1800, 3600, 7200, 14400];
  return steps.find(it => seconds / it <= most) || 21600;
}
function drawGantt() {
  chooseSpan();
  const room = $("gantt"), width = Math.max(room.clientWidth, 200), left = WALL ? 0 : width < 600 ? 78 : 120, row = rowHeight(), head = 18;
  const to = now(), from = to - span, x = t => left + (Math.min(t, to) - from) / span * (width - left);
  const svg = shape("svg", {viewBox: `0 0 ${width} ${head + row * status.instruments.length}`, role: "img", "aria-label": "Who held which instrument"});
  const step = stepOf(span, (width - left) / 70), zone = new Date(to * 1000).getTimezoneOffset() * 60;
  for (let t = Math.ceil((from - zone) / step) * step + zone; t < to; t += step) {
    svg.append(shape("path", {class: "grid", d: `M${x(t)} ${head - 4}V${head + row * status.instruments.length}`}));
    if (x(t) > left + 14 && x(t) < width - 16) svg.append(shape("text", {class: "tick", x: x(t), y: 10, "text-anchor": "middle"}, hours(t).slice(0, 5)));
  }
  status.instruments.forEach((it, at) => {
    const most = Math.floor((left - 10) / 7), name = it.name.length > most ? it.name.slice(0, most - 1) + "…" : it.name;
    if (!WALL) svg.append(shape("text", {class: "label", x: 0, y: head + at * row + 13}, name));
    drawBars(svg, barsOf(it.name), x, head + at * row, from, row);
  });
  room.replaceChildren(svg);
  drawn = Date.now();
}
function chooseSpan() {
  // what a person wished, or else the shortest that has all that is known
  const begun = [...ended.slice(0, 1).map(it => it.asked), ...status.stations.filter(it => it.state !== "idle").map(it => it.since)];
  const all = now() - Math.min(now(), ...begun), fits = Object.values(SPANS).find(it => it >= all) || 14400;
  const next = wished || Math.min(fits, 14400);
  if (next !== span) { span = next; drawSpans(); }
}
function drawSpans() {
  // (the buttons stay, and the keyboard's focus with them)
  for (const it of $("spans").children) it.setAttribute("aria-pressed", String(Number(it.value) === span));
}
for (const [name, seconds] of Object.entries(SPANS)) {
  const it = make("button", "", name);
  it.value = seconds;
  it.onclick = () => { wished = span = seconds; drawSpans(); if (status) drawGantt(); };
  $("spans").append(it, " ");
}

// what is told

function draw() {
  drawDisk();
  drawStuck();
  drawNow();
  drawRecords();
  // (thousands of bars: once in a while is enough)
  if (!drawing) drawing = setTimeout(() => { drawing = 0; drawGantt(); }, Math.max(0, drawn + PACE - Date.now()));
}
function take(news) {
  heard = Date.now();
  status = news.status;
  skew = status.at - heard / 1000;
  if (news.all) { ended = []; records = []; }
  const oldest = status.at - 43200;
  ended = ended.concat(news.ended).filter(it => it.ended >= oldest).slice(-4000);
  records = records.concat(news.records);
  records = newest(60, MOST_NOTES);
  draw();
}
function tick() {
  const isOld = heard && Date.now() - heard > SILENT * 1000;
  if (isOld) isLost();
  $("clock").textContent = heard ? hours(now()) : "";
  if (status && !document.body.classList.contains("lost")) showSpans(now());
}
function showSpans(at) {
  for (const it of document.querySelectorAll(".ticks[data-since]")) it.textContent = ago(at - Number(it.dataset.since));
}
function lastAnswer() {
  // (what ends its connection was there until then, if it had said something shortly before)
  return Date.now() - heard > BEAT * 1000 ? status.at : now();
}
function isLost() {
  if (document.body.classList.contains("lost")) return;
  $("lost").textContent = `No answer from the broker since ${heard ? hours(lastAnswer()) : "the beginning"}. What is shown is old.`;
  // (they went on until it was seen)
  if (heard) showSpans(lastAnswer());
  document.body.classList.add("lost");
  $("lost").hidden = false;
}
function listen() {
  const from = new EventSource("events");
  from.onmessage = event => {
    document.body.classList.remove("lost");
    $("lost").hidden = true;
    take(JSON.parse(event.data));
  };
  from.onerror = () => {
    isLost();
    if (from.readyState === EventSource.CLOSED) setTimeout(listen, 2000);
  };
}

document.body.classList.toggle("wall", WALL);
// (above the picture there is no room for what the colours mean)
if (WALL) $("clock").before(document.querySelector(".keys"));
drawSpans();
listen();
setInterval(tick, 1000);
let resized;
addEventListener("resize", () => { clearTimeout(resized); resized = setTimeout(() => { if (status) { drawNow(); drawRecords(); drawGantt(); } }, 100); });
