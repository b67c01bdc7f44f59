"use strict";
const inside = JSON.parse(document.getElementById("inside-data").textContent);
const at = id => document.getElementById(id);

function element(name, words, ...children) {
  const made = document.createElement(name);
  for (const [word, value] of Object.entries(words)) made.setAttribute(word, value);
  made.append(...children);
  return made;
}

/* ---- the program, in a worker that can be stopped */

const runner = { module: null, worker: null, calls: new Map(), next: 1 };

/* The bytes of the module, which stand in the page packed by gzip. */
async function unpacked() {
  const packed = Uint8Array.from(atob(at("module").textContent), char => char.charCodeAt(0));
  return new Response(new Blob([packed]).stream().pipeThrough(new DecompressionStream("gzip"))).arrayBuffer();
}

function start_worker() {
  const code = [inside.library.replace(/^export /gm, ""), inside.worker];
  runner.worker = new Worker(URL.createObjectURL(new Blob(code, { type: "text/javascript" })));
  runner.worker.onmessage = ({ data }) => {
    const call = runner.calls.get(data.id);
    if (!call) return;
    if (data.part !== undefined) return call.part(data.part);
    runner.calls.delete(data.id);
    data.fault === undefined ? call.done(data.told) : call.failed(new Error(data.fault));
  };
  runner.worker.onerror = event => trouble(`The worker of this page does not run: ${event.message}`);
  return called({ module: runner.module });
}

function called(message, part = () => {}) {
  const id = runner.next++;
  return new Promise((done, failed) => {
    runner.calls.set(id, { done, failed, part });
    runner.worker.postMessage({ id, ...message });
  });
}

/* What the program answers to words and an input; null where the call was stopped. */
const run = (words, input, part) => called({ words, input }, part);

/* Ends the call that is at work, and begins a new worker. */
function stop() {
  runner.worker.terminate();
  for (const call of runner.calls.values()) call.done(null);
  runner.calls.clear();
  start_worker();
}

function trouble(text) {
  at("trouble").textContent = text;
  at("trouble").hidden = false;
}

/* Whether this browser has memories of 64 bits: the smallest module that has one. */
const is_supported = () => typeof WebAssembly === "object" && WebAssembly.validate(new Uint8Array([0, 97, 115, 109, 1, 0, 0, 0, 5, 3, 1, 4, 0]));

/* ---- playing a script */

const play = { busy: false, timer: 0, turn: 0, run: null, links: [], own: [], wrong: 0 };
const script_lines = text => text.replace(/\n$/, "").split("\n");
/* The height of a line of the editor, and what stands above the first. */
const LINE = 20, ABOVE = 6;

/* The numbers of the editor's lines, of which one may be wrong: it is marked from side to side. */
function show_numbers(wrong) {
  play.wrong = wrong;
  const count = at("script").value.split("\n").length;
  at("numbers").replaceChildren(...Array.from({ length: count }, (_, place) =>
    element("div", place + 1 === wrong ? { class: "wrong" } : {}, String(place + 1))));
  at("stripe").hidden = !wrong;
  scrolled();
}

function scrolled() {
  const top = at("script").scrollTop;
  at("numbers").scrollTop = top;
  at("stripe").style.top = `${ABOVE + LINE * (play.wrong - 1) - top}px`;
}

/* Puts the cursor at this place of the script, where it is seen. */
function put_cursor(place) {
  at("script").focus({ preventScroll: true });
  at("script").setSelectionRange(place, place);
  show_cursor();
}

/* Scrolls the script, and the page, so that the line of the cursor is seen, where the script has the keys. */
function show_cursor() {
  const script = at("script");
  if (document.activeElement !== script) return;
  const line = script.value.slice(0, script.selectionStart).split("\n").length - 1, top = ABOVE + LINE * line;
  const most = top - LINE, least = top + 3 * LINE - script.clientHeight;
  if (script.scrollTop > most) script.scrollTop = most;
  else if (script.scrollTop < least) script.scrollTop = least;
  const seen = script.getBoundingClientRect().top + top - script.scrollTop;
  if (seen < LINE) scrollBy(0, seen - 4 * LINE);
  else if (seen > innerHeight - 2 * LINE) scrollBy(0, seen - innerHeight + 4 * LINE);
}

/* Puts the cursor at the line of the script that is wrong. */
const go_to_mistake = () => put_cursor(at("script").value.split("\n").slice(0, play.wrong - 1).join("\n").length + (play.wrong > 1 ? 1 : 0));

/* Shows a line of the run, by its place, and has it chosen there. */
function go_to_run(place) {
  at("run").scrollIntoView();
  at("view").contentWindow.postMessage({ go: place }, "*");
}

/* The script was edited: it is kept, and played again when the keys rest. */
function edited() {
  show_numbers(0);
  keep(at("script").value);
  clearTimeout(play.timer);
  play.timer = setTimeout(play_script, 500);
}

async function play_script() {
  clearTimeout(play.timer);
  if (play.busy) stop();
  const text = at("script").value, begun = performance.now(), turn = play.turn += 1, reached = { lines: 0, tail: "" };
  show_busy(true);
  const clock = setInterval(() => show_state(begun, reached), 250);
  try {
    const told = await run(["play"], text, part => follow(part, reached));
    if (turn !== play.turn) return;
    if (told) show_run(text, told);
    else at("state").textContent = "Stopped.";
  } catch (fault) {
    if (turn === play.turn) at("state").textContent = `Not played: ${fault.message}.`;
  } finally {
    clearInterval(clock);
    if (turn === play.turn) show_busy(false);
  }
}

function show_busy(is_busy) {
  play.busy = is_busy;
  at("stop").hidden = at("progress").hidden = !is_busy;
  at("start").hidden = is_busy;
}

/* Counts the lines of the run that a long call has told of. */
function follow(part, reached) {
  const lines = (reached.tail + part).split("\n");
  reached.tail = lines.pop();
  reached.lines += lines.length;
  reached.last = lines.at(-1) || reached.last;
}

function show_state(begun, reached) {
  const seconds = Math.round((performance.now() - begun) / 1000);
  if (seconds < 1) return;
  const last = reached.last ? `, the last: ${brief(reached.last).slice(0, 60)}` : "";
  at("state").textContent = `Playing for ${seconds} s: ${reached.lines} lines of the run so far${last}`;
}

/* A line with its digests cut short. */
const brief = text => text.replace(/\b([0-9a-f]{8})[0-9a-f]{56}\b/g, "$1..");

function show_run(text, told) {
  const lines = told.output.split("\n").slice(0, -1);
  const refused = /^line (\d+): (.+)$/.exec(lines.at(-1) || "");
  const time = told.took < 1000 ? `${Math.round(told.took)} ms` : `${(told.took / 1000).toFixed(1)} s`;
  at("state").textContent = `${lines.length} line${lines.length === 1 ? "" : "s"} of the run, in ${time}.`;
  at("mistake").hidden = !refused;
  if (refused) show_mistake(mistake_text(text, +refused[1], refused[2], lines), lines.length - 1);
  show_numbers(refused ? +refused[1] : 0);
  show_verdicts(lines);
  show_view(text, lines);
  show_cursor();
}

/* Tells of a mistake, with buttons that lead to its line of the script and to the end of the run. */
function show_mistake(text, place) {
  at("mistake").firstElementChild.textContent = text;
  at("there").textContent = "Show it in the script";
  at("end").textContent = run_line(place);
  at("end").onclick = () => go_to_run(place);
}

/* What is wrong with a line of the script, and what may stand there. */
function mistake_text(text, number, reason, lines) {
  if (number === 0) return "The script is too long.";
  const [kind, place] = reason.split(" "), words = (script_lines(text)[number - 1] || "").split(" ");
  const word = place === undefined && kind !== "word" ? "" : ` (the word “${(words[place || 0] || "").slice(0, 40)}”)`;
  const said = `Script line ${number}, ${reason}: ${inside.tables.reasons[kind] || "it is refused"}${word}.`;
  return [said, allowed(kind, words[0], lines), "What stands above it was played."].filter(one => one).join(" ");
}

/* What may stand where a line of the script is refused. */
function allowed(kind, head, lines) {
  const [form, what] = inside.forms[head] || [];
  if (kind === "word") return `A line begins with one of ${Object.keys(inside.forms).sort().join(", ")}.`;
  if (kind === "words" || kind === "field") return form ? `Its form is ${form}${what ? ` (${what})` : ""}.` : "";
  if (kind === "order") return "The setup comes first, each of its lines at most once: secret, keys, logs, authorities, and then dishonest.";
  return kind === "none" ? `There are ${present(lines)}.` : "";
}

/* What a script may name by now: parties, drafts and messages. */
function present(lines) {
  const all = form => lines.map(line => form.exec(line)).filter(found => found).map(found => found[1]);
  const dishonest = all(/^dishonest (\w+)$/), told = [["no logs", "L"], ["no authorities", "A"], ["no owners", "D"]].map(([none, letter]) => {
    const found = all(/^party (\w+) /).filter(party => party[0] === letter);
    return found.length > 3 ? `${found[0]} to ${found.at(-1)}` : found.join(", ") || none;
  });
  const counted = (what, form) => { const found = all(form); return found.length ? `${what} 1 to ${found.at(-1)}` : `no ${what}`; };
  return [...told, dishonest.length ? `dishonest ${dishonest.join(", ")}` : "none dishonest", counted("drafts", /^draft (\d+) /), counted("messages", /^message (\d+) /)].join("; ");
}

/* The most verdicts that are shown above the run. */
const MANY = 8;

/* Each verdict of a client, as a line that leads to its place in the run. */
function show_verdicts(lines) {
  const found = lines.map((line, place) => [line, place]).filter(([line]) => line.startsWith("judge "));
  at("verdicts").replaceChildren(...found.slice(-MANY).map(([line, place]) => verdict(line.split(" "), place, lines)));
  if (!found.length) at("verdicts").append(element("li", { class: "none" }, "No client judges anything in this run."));
}

function verdict(words, place, lines) {
  const kind = words[2], sign = { accepted: "✓", absent: "∅", refused: "✗" }[kind];
  const text = { accepted: () => `The client accepts ${owner_of(words.at(-1), lines)} certificate for ${words[3]}: ${words.at(-1).slice(0, 8)}.., serial number ${words[5]}, epoch ${words[7]}.`,
    absent: () => `The client learns that ${words[3]} has no certificate, in epoch ${words[5]}.`,
    refused: () => `The client refuses, by check ${words[3]}: ${inside.tables.checks[words[3]]}.` }[kind]();
  const there = element("button", { type: "button", "aria-label": `Show line ${place + 1} of the run` }, run_line(place));
  there.addEventListener("click", () => go_to_run(place));
  return element("li", { class: kind }, element("b", { "aria-hidden": "true" }, sign), element("span", {}, text), there);
}

/* How a line of the run is called, in contrast to one of the script. */
const run_line = place => `run line ${place + 1}`;

/* Whose certificate it is, as far as the run tells: the owner that asked for endorsements of it. */
function owner_of(digest, lines) {
  const draft = lines.findIndex(line => line.startsWith("draft ") && line.endsWith(` ${digest}`));
  const asked = draft < 0 ? null : /^message \d+ \w+ from (D\d+) /.exec(lines[draft + 1] || "");
  return asked ? `${asked[1]}'s` : "a";
}

/* The run in the page of tools/view-run, which is a page of its own inside this one. */
function show_view(text, lines) {
  for (const what of ["lines", "chosen"]) delete at("view").dataset[what];
  const data = JSON.stringify({ lines, script: text, fields: {}, words: inside.tables }).replace(/</g, "\\u003c");
  const title = title_of(play.run).replace(/&/g, "&amp;").replace(/</g, "&lt;");
  at("view").srcdoc = inside.view.replaceAll("{{title}}", () => title).replace("{{data}}", () => data);
}

/* ---- the gallery, and links */

/* What a run of one's own begins with. */
const START = { name: "start", group: "Your own", title: "Begin your own", script: inside.start,
  what: "A short run with two attacks, and comments that say what its lines do. Change it: your run is kept in the list, under “Your own”." };

/* All runs of the list: those that stay as they are, and those of one's own, each of which began as one of these (`from`). */
const runs = () => [START, ...play.links, ...play.own, ...inside.gallery];
const run_named = name => runs().find(one => one.name === name) || inside.gallery[0];

function fill_gallery() {
  const groups = new Map();
  for (const one of runs()) {
    if (!groups.has(one.group)) groups.set(one.group, element("optgroup", { label: one.group }));
    groups.get(one.group).append(element("option", { value: one.name }, one.title));
  }
  at("gallery").replaceChildren(...groups.values());
  const count = inside.gallery.length + groups.size + 1;
  WIDE.matches ? at("gallery").setAttribute("size", count) : at("gallery").removeAttribute("size");
  if (play.run) at("gallery").value = play.run.name;
}

/* Where the list stands beside the script, open. */
const WIDE = matchMedia("(min-width: 1001px)");

/* Shows a run, and plays it. */
function choose(name) {
  play.run = run_named(name);
  at("script").value = play.run.script;
  at("script").scrollTop = 0;
  show_numbers(0);
  show_words();
  return play_script();
}

/* Begins a run of one's own, with the cursor where it goes on. */
function begin_own() {
  const played = choose("start");
  put_cursor(START.script.length);
  return played;
}

/* How a run is called: one's own says as which it began. */
const title_of = run => !run.from || run.from === START ? run.title : `${run.title}, from “${run.from.title}”`;

/* What stands around the script: which run it is, and whether it was changed. */
function show_words() {
  const { run } = play;
  at("gallery").value = run.name;
  at("title").textContent = title_of(run);
  at("about").textContent = run.what;
  at("again").disabled = at("script").value === (run.from || run).script;
}

/* Keeps a script that was changed: a run of the gallery stays as it is, and one of one's own begins. One that is as it was
   is none. */
function keep(text) {
  const { run } = play, was = run.from || run;
  if (text === was.script) {
    play.own = play.own.filter(one => one !== run);
    play.run = was;
  } else if (run.from) {
    run.script = text;
  } else {
    const number = 1 + play.own.reduce((most, one) => Math.max(most, one.number), 0), title = number === 1 ? "Your own run" : `Your own run ${number}`;
    play.run = { name: `own ${number}`, number, group: START.group, title, script: text, from: was, what: was.what };
    play.own.push(play.run);
  }
  if (play.run !== run) fill_gallery();
  show_words();
}

const to_text = bytes => btoa(Array.from(bytes, byte => String.fromCharCode(byte)).join("")).replace(/\+/g, "-").replace(/\//g, "_").replace(/=+$/, "");
const to_bytes = text => Uint8Array.from(atob(text.replace(/-/g, "+").replace(/_/g, "/")), char => char.charCodeAt(0));
const through = async (bytes, stream) => new Uint8Array(await new Response(new Blob([bytes]).stream().pipeThrough(stream)).arrayBuffer());

async function link_of(text) {
  const packed = await through(new TextEncoder().encode(text), new CompressionStream("deflate-raw"));
  return `#run=${to_text(packed)}`;
}

/* The longest script that the program takes; a link that would unpack to more is none. */
const MOST = 1048576;

async function script_of(hash) {
  const found = /^#run=([\w-]+)$/.exec(hash);
  if (!found) return null;
  const reader = new Blob([to_bytes(found[1])]).stream().pipeThrough(new DecompressionStream("deflate-raw")).getReader(), parts = [];
  for (let len = 0; ;) {
    const { done, value } = await reader.read();
    if (done) break;
    parts.push(value);
    len += value.length;
    if (len > MOST) throw new Error("it is longer than a script may be");
  }
  return new Blob(parts).text();
}

async function copy_link() {
  const hash = await link_of(at("script").value);
  history.replaceState(null, "", hash);
  try {
    await navigator.clipboard.writeText(location.href);
    at("linked").textContent = location.protocol === "file:" ? "Copied. Who has this file puts what begins with #run behind its address." : "Copied.";
  } catch {
    at("linked").textContent = "The link stands in the address: copy it from there.";
  }
}

/* Plays what a link carries; says whether there was one. */
async function open_link() {
  try {
    const text = await script_of(location.hash);
    if (text === null) return false;
    show_tab("play");
    let run = runs().find(one => one.script === text);
    if (!run) play.links.push(run = { name: `link ${play.links.length + 1}`, group: START.group, script: text, what: "This script came with a link. Change a line, and it is played again.",
      title: `The run of the link${play.links.length ? ` ${play.links.length + 1}` : ""}` });
    fill_gallery();
    await choose(run.name);
  } catch (fault) {
    trouble(`The link carries no script: ${fault.message}.`);
    return false;
  }
  return true;
}

/* ---- judging a confirmation */

/* What a client looks at, check by check. */
const CHECKS = ["It is a confirmation", "It is of the name", "Its parties are known", "The log signed it", "The first authority signed it",
  "The second authority signed it", "The path leads to the root", "It is of no later epoch", "It is not too old", "It is not revoked",
  "It has not expired"];
const judge = { lines: null, bytes: null, changed: new Set(), now: 0n, place: 0, parts: null, whole: null };

/* Reads a confirmation, as docs/FORMATS.md says: its values, and where each field stands, and where each section begins. Bytes
   that are none give what was read. */
function parts_of(bytes) {
  const view = new DataView(bytes.buffer, bytes.byteOffset, bytes.length), parts = { spans: [], sections: [] };
  let place = 0;
  const section = what => parts.sections.push([place, what]);
  const take = (len, what) => {
    if (place + len > bytes.length) throw new RangeError();
    parts.spans.push([place, place + len, what]);
    return (place += len) - len;
  };
  const u8 = what => view.getUint8(take(1, what)), u16 = what => view.getUint16(take(2, what)), u64 = what => view.getBigUint64(take(8, what));
  const hex = from => Array.from(bytes.slice(from, from + 32), byte => byte.toString(16).padStart(2, "0")).join("");
  const text = what => { const len = u8(`the length of ${what}`), from = take(len, what); return new TextDecoder().decode(bytes.slice(from, from + len)); };
  try {
    section("head");
    u8("the kind of the message");
    parts.form = u8("the form: a certificate, or none");
    u16("the client's number");
    parts.epoch = u64("the epoch");
    parts.name = text("the name");
    parts.root = hex(take(32, "the root of the table"));
    section(parts.form === 1 ? "certificate" : "empty place");
    if (parts.form === 1) read_certificate(parts, { take, u8, u16, u64, hex, text, view });
    else if (u8("the foot of the path") === 1) take(64, "another entry at the foot of the path");
    section("path");
    parts.steps = u16("the number of steps of the path");
    take(32 * parts.steps, "the path");
    parts.signed = [["L", "the log"], ["A", "the first authority"], ["A", "the second authority"]].map(([letter, who]) => {
      section(who.replace(/^the /, ""));
      const number = u16(`the number of ${who}`), len = u16(`the length of ${who}'s signature`), from = take(len, `${who}'s signature`);
      return { party: letter + number, len, generation: len < 12 ? 0 : view.getUint32(from), leaf: len < 12 ? 0 : view.getUint32(from + 4), type: len < 12 ? 0 : view.getUint32(from + 8) };
    });
  } catch (fault) {
    if (!(fault instanceof RangeError)) throw fault;
  }
  return parts;
}

function read_certificate(parts, { take, u8, u16, u64, hex, text, view }) {
  u16("the length of the certificate");
  u8("the certificate's first byte");
  parts.subject = text("the name in the certificate");
  parts.serial = u64("the serial number");
  parts.previous = hex(take(32, "the digest of the certificate before it"));
  take(56, "the subject key");
  const version = u8("the version of the policy");
  take(2, "the policy");
  parts.age = view.getUint32(take(4, "the greatest age, in the policy"));
  parts.until = u64("the last epoch, in the policy");
  const trusted = u8("the number of trusted authorities");
  take(2 * trusted, "the trusted authorities");
  if (version === 2) take(2, "the wait of a recovery");
  parts.revoked = u8("whether it is revoked");
}

const field = (lines, word) => (lines.find(line => line.startsWith(word + " ")) || "").slice(word.length + 1);
const bytes_of_hex = text => Uint8Array.from(text.match(/../g) || [], pair => parseInt(pair, 16));
const hex_of = bytes => Array.from(bytes, byte => byte.toString(16).padStart(2, "0")).join("");

/* The confirmation from its first byte to its last, with what was changed, and the byte that is chosen. */
function show_map() {
  const len = judge.bytes.length, percent = place => `${(100 * (place + 0.5)) / len}%`;
  const starts = judge.whole.sections, parts = starts.map(([from, text], place) => {
    const to = place + 1 < starts.length ? starts[place + 1][0] : len;
    return element("div", { style: `flex: ${to - from} 0 0; background: var(--part-${place})`, title: text }, to - from > len / 12 ? text : "");
  });
  const changed = [...judge.changed].map(place => element("i", { class: "changed", style: `left: ${percent(place)}` }));
  at("map").replaceChildren(...parts, ...changed, element("i", { style: `left: ${percent(judge.place)}` }));
}

function choose_confirmation() {
  judge.lines = inside.confirmations[at("which").value].trimEnd().split("\n");
  judge.bytes = bytes_of_hex(field(judge.lines, "confirmation"));
  judge.now = BigInt(field(judge.lines, "now"));
  judge.changed.clear();
  judge.whole = judge.parts = parts_of(judge.bytes);
  for (const id of ["place", "slide"]) at(id).max = judge.bytes.length - 1;
  const log = judge.whole.spans.find(span => span[2] === "the log's signature");
  go_to(log ? log[0] + 100 : 0);
  return judge_it();
}

function go_to(place) {
  const value = Math.min(Math.max(0, place | 0), judge.bytes.length - 1);
  if (at("place").value !== String(value) && document.activeElement !== at("place")) at("place").value = value;
  at("slide").value = value;
  judge.place = value;
  const span = judge.whole.spans.find(([from, to]) => value >= from && value < to);
  at("inside").textContent = `is ${judge.bytes[value].toString(16).padStart(2, "0")}, in ${span ? span[2] : "what is left over"}`;
  show_map();
}

function change_byte() {
  judge.bytes[judge.place] ^= 1;
  judge.changed.has(judge.place) ? judge.changed.delete(judge.place) : judge.changed.add(judge.place);
  return judge_it();
}

async function judge_it() {
  judge.parts = parts_of(judge.bytes);
  go_to(judge.place);
  const input = judge.lines.map(line => line.startsWith("confirmation ") ? `confirmation ${hex_of(judge.bytes)}`
    : line.startsWith("now ") ? `now ${judge.now}` : line).join("\n") + "\n";
  const told = await run(["check"], input);
  if (!told) return;
  show_answer(told.output.trimEnd());
}

function show_answer(line) {
  const [outcome, number] = line.split(" "), name = field(judge.lines, "name"), age = field(judge.lines, "age");
  const failed = outcome === "refused" ? +number : 12;
  const changed = [...judge.changed].sort((a, b) => a - b);
  at("asked").textContent = `The client asks for ${name}, in epoch ${judge.now} (here a day is an epoch), and allows an age of ${age}. `
    + (changed.length ? `Changed: byte ${changed.join(", ")}.` : "No byte is changed.");
  at("answer").className = outcome;
  at("answer").textContent = { accepted: `Accepted: the certificate is ${name}'s.`, absent: `Absent: ${name} has no certificate in this table.`,
    refused: `Refused, by check ${number}: ${inside.tables.checks[number]}.` }[outcome] || line;
  at("checks").replaceChildren(...CHECKS.map((what, place) => check_row(what, place + 1, failed, outcome)));
  at("whole").disabled = !judge.changed.size && judge.now === BigInt(field(judge.lines, "now"));
}

function check_row(what, number, failed, outcome) {
  const is_none = outcome === "absent" && number > 9;
  const kind = number > failed || is_none ? "skipped" : number === failed ? "fails" : "holds";
  const sign = { holds: "✓", fails: "✗", skipped: "·" }[kind], means = { holds: "holds", fails: "fails", skipped: "not looked at" }[kind];
  const saw = kind === "skipped" ? (is_none ? "there is no certificate" : "not looked at") : seen(number);
  return element("li", { class: kind, "aria-label": `Check ${number}, ${means}: ${what}. ${saw}` }, element("span", { class: "sign", "aria-hidden": "true" }, sign),
    element("b", {}, `${number}. ${what}`), element("span", { class: "saw" }, saw));
}

/* What a check looked at. */
function seen(number) {
  const { parts, bytes, lines, now } = judge, age = BigInt(field(lines, "age"));
  const sizes = ["logs", "authorities"].map(word => field(lines, word).split(" ")[0]), signed = parts.signed || [];
  const signature = ({ party, generation, leaf, type, len }) => `by ${party}'s key of generation ${generation}, at its leaf ${leaf}, of LM-OTS type ${type}, ${len} bytes`;
  const texts = [
    () => `${bytes.length} bytes`,
    () => `asked for ${field(lines, "name")}; it is of ${parts.name}`,
    () => `it names ${signed.map(one => one.party).join(", ")}; the client knows ${sizes[0]} logs and ${sizes[1]} authorities, and wants two different ones`,
    () => signature(signed[0]), () => signature(signed[1]), () => signature(signed[2]),
    () => `${parts.steps} step${parts.steps === 1 ? "" : "s"} from ${parts.form === 1 ? `the certificate of ${parts.subject}` : "the empty place of the name"} to the root ${parts.root.slice(0, 16)}..`,
    () => `it is of epoch ${parts.epoch}; the client's clock says ${now}`,
    () => `${now - parts.epoch} epoch${now - parts.epoch === 1n ? "" : "s"} old; the client allows ${age}` + (parts.form === 1 ? `, the certificate ${parts.age}` : ""),
    () => parts.revoked ? "the certificate says that it is" : "the certificate says that it is not",
    () => `its last epoch is ${parts.until}`,
  ];
  try {
    return texts[number - 1]();
  } catch {
    return "";
  }
}

/* ---- the page */

function show_tab(name) {
  for (const one of ["play", "judge"]) {
    at(one).hidden = one !== name;
    at(`tab-${one}`).setAttribute("aria-selected", one === name);
    at(`tab-${one}`).tabIndex = one === name ? 0 : -1;
  }
}

function listen() {
  for (const one of ["play", "judge"]) at(`tab-${one}`).addEventListener("click", () => { show_tab(one); if (one === "judge" && !judge.bytes) choose_confirmation(); });
  at("tabs").addEventListener("keydown", event => {
    if (!/^Arrow(Left|Right)$/.test(event.key)) return;
    const other = at(at("play").hidden ? "tab-play" : "tab-judge");
    other.click();
    other.focus();
  });
  at("gallery").addEventListener("change", () => choose(at("gallery").value));
  at("again").addEventListener("click", () => choose((play.run.from || play.run).name));
  at("begin").addEventListener("click", begin_own);
  at("back").addEventListener("click", () => { at("title").scrollIntoView(); at("script").focus({ preventScroll: true }); });
  WIDE.addEventListener("change", fill_gallery);
  new ResizeObserver(show_cursor).observe(at("editor"));
  at("start").addEventListener("click", play_script);
  at("stop").addEventListener("click", stop);
  at("link").addEventListener("click", copy_link);
  at("script").addEventListener("input", edited);
  at("script").addEventListener("scroll", scrolled);
  at("there").addEventListener("click", go_to_mistake);
  at("script").addEventListener("keydown", event => { if (event.key === "Enter" && (event.ctrlKey || event.metaKey)) play_script(); });
  window.addEventListener("hashchange", open_link);
  window.addEventListener("message", ({ data, source }) => {
    if (source === at("view").contentWindow) Object.assign(at("view").dataset, data.shown === undefined ? { chosen: data.chosen } : { lines: data.shown });
  });
  at("which").addEventListener("change", choose_confirmation);
  at("whole").addEventListener("click", choose_confirmation);
  at("byte").addEventListener("click", change_byte);
  at("later").addEventListener("click", () => { judge.now += 1n; judge_it(); });
  for (const id of ["place", "slide"]) at(id).addEventListener("input", () => go_to(+at(id).value));
  at("place").addEventListener("keydown", event => { if (event.key === "Enter") change_byte(); });
  at("map").addEventListener("click", event => {
    const box = at("map").getBoundingClientRect();
    go_to(Math.floor((event.clientX - box.left) / box.width * judge.bytes.length));
  });
}

async function begin() {
  if (!is_supported()) return trouble("This browser cannot load the program: it needs WebAssembly with memories of 64 bits, as Chromium and Firefox have them since 2025.");
  if (typeof DecompressionStream !== "function") return trouble("This browser cannot unpack the program: it needs DecompressionStream.");
  const begun = performance.now();
  fill_gallery();
  at("which").append(...[["accepted", "of a certificate"], ["absent-at-its-own-epoch", "that there is none"], ["roll-of-a-log-is-learnt", "by a log's second key"]]
    .map(([value, text]) => element("option", { value }, text)));
  listen();
  try {
    runner.module = await unpacked();
    await start_worker();
  } catch (fault) {
    return trouble(`This browser cannot load the program: ${fault.message}.`);
  }
  at("loaded").textContent = `The program was loaded in ${Math.round(performance.now() - begun)} ms.`;
  if (!await open_link()) await choose("two-authorities-forge");
}
begin();
