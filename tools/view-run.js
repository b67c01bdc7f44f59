/* What the page of a run shows of each line, from the lines that `arpki play` wrote, the script, and the fields of messages where
   their bytes are known. tools/view-run puts this into the page that it writes. What codes and kinds mean stands in `words`, which comes from tools/run_lines.py. */

/* The kinds of messages on the way of a question to its answer: each is about the name of the next one. */
const ANSWERS = ["ConfirmAsk", "LogConfirmed", "HalfConfirmed", "Confirmation"];
const SCRIPT = "script";

/* The parties, the messages and what happened, each with the place of its line. */
function read_run(lines) {
  const run = { lines, parties: [], dishonest: [], messages: new Map(), drafts: new Map(), events: new Map() };
  let last = null;
  const happens = (place, event) => run.events.set(place, last = event);
  lines.forEach((line, place) => {
    const words = line.split(" ");
    if (words[0] === "party") run.parties.push(words[1]);
    else if (words[0] === "dishonest") run.dishonest.push(words[1]);
    else if (words[0] === "draft") {
      if (!run.drafts.has(words[2])) run.drafts.set(words[2], +words[1]);
      happens(place, { is: "note", party: "" });
    } else if (words[0] === "message") {
      const message = { is: "message", number: +words[1], kind: words[2], from: words[4], to: words[6], taken: false };
      run.messages.set(message.number, message);
      if (last && last.is === "note" && !last.party) last.party = message.from;
      happens(place, message);
    } else if (words[0] === "order") happens(place, { is: "note", party: words[1] });
    else if (/^(judge|learn|line)$/.test(words[0])) happens(place, { is: "said" });
    else if (words[1] === "sign") happens(place, { is: "note", party: words[0], refused: true });
    else if (/^(taught|forgot|retired)$/.test(words[1])) happens(place, { is: "note", party: words[0] });
    else if (words[1] !== "ended") {
      const found = /^(\S+) (\w+)(?: (\d+))? (?:ok|refused (.+))$/.exec(line) || [];
      if (found[2] === "take") run.messages.get(+found[3]).taken = true;
      happens(place, { is: "step", party: found[1], code: found[4] || "" });
    }
  });
  return run;
}

/* The lines of a script: a newline ends one, and nothing else. */
const script_lines = text => text.replace(/\n$/, "").split("\n");

/* The comments of a script, by the place of the run's line that they stand before; the names of composed bytes; and for each
   number of a line of the script the place of the run's line that it begins, where it writes one. */
function read_script(text, run, words) {
  const script = { comments: new Map(), names: new Map(), places: new Map() };
  const refused = +(/^line (\d+): /.exec(run.lines.at(-1) || "") || [])[1] || 0;
  let place = 0, waiting = [], in_burst = false;
  const keep = at => { if (waiting.length) script.comments.set(at, [...script.comments.get(at) || [], ...waiting]); waiting = []; };
  for (const [index, line] of script_lines(text).entries()) {
    const number = index + 1, parts = line.split(" ");
    if (number === refused) return script;
    if (line.startsWith("#")) { waiting.push(line.slice(1).trim()); continue; }
    if (parts[0] === "burst" || parts[0] === "end") in_burst = parts[0] === "burst";
    if (!words.heads[parts[0]] || in_burst) continue;
    const form = new RegExp(`^(?:${words.heads[parts[0]].replace(/\{(\d)\}/g, (_, at) => (parts[at] || "").replace(/[^\w]/g, "\\$&"))})$`);
    let found = place;
    while (found < run.lines.length && !form.test(run.lines[found])) found += 1;
    if (found === run.lines.length) continue;
    const message = form.exec(run.lines[found])[1];
    if (message && /^(sign|inject)$/.test(parts[0])) script.names.set(+message, composed(parts, run, script, words));
    script.places.set(number, found);
    keep(found);
    place = found + 1;
  }
  keep(run.lines.length);
  return script;
}

/* What composed bytes are made to be, by the first of them. */
function composed(parts, run, script, words) {
  const first = parts.slice(2).find(piece => piece !== "x") || "x";
  const byte = /^x[0-9a-f]{2}/.test(first) ? parseInt(first.slice(1, 3), 16) : 0;
  if (parts[0] === "sign") {
    const name = words.statements[byte] || "text";
    return `signs ${/^[AEO]/.test(name) ? "an" : "a"} ${name}`;
  }
  const copied = /^m(\d+):0:\d+$/.exec(first);
  if (copied) {
    const message = run.messages.get(+copied[1]);
    return message ? script.names.get(message.number) || message.kind : "Raw";
  }
  return Object.keys(words.kinds)[byte - 1] || "Raw";
}

/* A code with its values in words. */
function explained(code, words) {
  const [name, ...values] = code.split(" ");
  const told = values.map((value, at) => (words.values[name] || [])[at] && `${words.values[name][at]} ${value}`).filter(one => one);
  if (name === "L10") told[told.length - 1] = `clause ${values.at(-1)}: ${words.clauses[values.at(-1)] || ""}`;
  const means = /^(L4|A4|O4)$/.test(name) && words.tests[values.at(-1)] || words.codes[name] || "";
  return [means.split(",")[0], ...told].join("; ");
}

/* The names that stand in fields. */
const names_in = fields => fields.flatMap(([what, value]) => Array.isArray(value) ? names_in(value) : what === "name" ? [value] : []);

/* What the page shows of each line: `rows` has an object for each, in the run's order. */
class Lines {
  constructor(lines, text, fields, words) {
    this.run = read_run(lines);
    this.words = words;
    this.script = text === null ? null : read_script(text, this.run, words);
    this.script_words = text === null ? [] : script_lines(text);
    this.fields = fields;
    this.rows = lines.map(line => ({ t: line }));
    this.sent = new Map();
    this.names = new Map();
    this.drafts = new Map();
    this.asked = new Map();
    this.epochs = [];
    this.read_sources();
    this.read_names();
    this.add_bands();
    this.rows.forEach((row, place) => this.fill(row, place, this.run.events.get(place)));
  }

  names_of(number) {
    if (!this.names.has(number)) this.names.set(number, new Set());
    return this.names.get(number);
  }

  add_names(number, names) {
    for (const name of names) this.names_of(number).add(name);
  }

  /* Which line each message comes from: its own where the script sends it, else the last one before it that is neither a message
     nor the end of an epoch. */
  read_sources() {
    let last = -1;
    for (const [place, event] of this.run.events) {
      if (event.is !== "message") { last = place; continue; }
      const is_first = event.kind === "Raw" || event.from[0] === "C" || last < 0;
      this.sent.set(event.number, [place, is_first ? place : last]);
    }
  }

  /* The names that the messages and the drafts are about, as far as fields, script and verdicts tell. */
  read_names() {
    for (const [number, fields] of Object.entries(this.fields)) this.add_names(+number, names_in(fields));
    for (const [line, place] of this.script ? this.script.places : []) this.read_script_line(this.script_words[line - 1].split(" "), place);
    this.run.lines.forEach((text, place) => {
      const words = text.split(" ");
      if (words[0] !== "judge" || words[2] === "refused") return;
      this.asked.set(place, words[3]);
      const draft = this.run.drafts.get(words.at(-1));
      if (draft) this.drafts.set(draft, words[3]);
    });
    for (const [number, [, source]] of this.sent) this.add_names(number, this.names_at(source));
    this.trace_back();
  }

  read_script_line(words, place) {
    if (/^(register|ask|judge|teach|forget)$/.test(words[0])) this.asked.set(place, words[2]);
    else if (/^(update|revoke)$/.test(words[0])) this.asked.set(place, this.drafts.get(+words[2]) || "");
    if (/^(register|update|revoke)$/.test(words[0])) this.drafts.set(+this.run.lines[place].split(" ")[1], this.asked.get(place));
  }

  /* The names that a line is about, of which a message of one name may come. */
  names_at(place) {
    const words = this.run.lines[place].split(" ");
    if (this.asked.get(place)) return [this.asked.get(place)];
    if (words[0] === "draft" || /^(submit|handover|object)$/.test(words[1])) {
      const draft = this.drafts.get(+(words[0] === "draft" ? words[1] : words[2]));
      return draft ? [draft] : [];
    }
    if (words[1] === "take" && ["EndorseAsk", ...ANSWERS].includes(this.run.messages.get(+words[2]).kind)) return this.names_of(+words[2]);
    return words[0] === "message" ? this.names_of(+words[1]) : [];
  }

  /* From a verdict back to the question: each message was sent for the one before it. */
  trace_back() {
    this.run.lines.forEach((text, place) => {
      const words = text.split(" ");
      if (words[0] !== "judge" || !this.asked.has(place)) return;
      let number = +words[1];
      while (number && ANSWERS.includes(this.run.messages.get(number).kind)) {
        this.add_names(number, [this.asked.get(place)]);
        const source = this.run.lines[this.sent.get(number)[1]].split(" ");
        number = source[1] === "take" ? +source[2] : 0;
      }
    });
  }

  /* Each line's epoch is the one that no log has ended yet; the line of its first end is the last of its band. */
  add_bands() {
    const ends = new Map();
    let epoch = 1;
    for (const row of this.rows) {
      row.b = epoch;
      const found = /^(L\d+) ended (\d+) (decided \w+|skipped)$/.exec(row.t);
      if (!found) continue;
      ends.set(+found[2], [...ends.get(+found[2]) || [], [found[1], found[3]]]);
      epoch = Math.max(epoch, +found[2] + 1);
    }
    for (let number = 1; number <= epoch; number += 1) {
      const ended = ends.get(number) || [];
      const told = ended.map(([, how]) => `${how.split(" ")[0]}${how[0] === "d" ? `, root ${how.slice(8, 16)}` : ""}`);
      const text = told.length ? `${[...new Set(told)].sort().join(" and ")}: ended by ${ended.map(([log]) => log).join(", ")}` : "not ended";
      this.epochs.push({ e: number, t: text, k: told.length ? told[0].split(",")[0] : "open" });
    }
  }

  /* What a line tells: its parties (p), from whom (f) to whom (q), how it looks (k), its message (m), names (n) and words (w). */
  fill(row, place, event) {
    const words = row.t.split(" ");
    Object.assign(row, { k: "plain", p: [], w: "" });
    if (event && event.is === "message") return this.fill_message(row, event);
    if (event && event.is === "step") {
      row.p = [event.party];
      row.k = event.code ? "refused" : "step";
      row.w = this.stepped(row, words, event);
    } else if (event && event.is === "said") {
      [row.k, row.w] = this.in_words(words);
      if (words[0] !== "line") {
        row.m = +words[1];
        const to = this.run.messages.get(row.m).to;
        row.p = to[0] === "C" ? [to] : [];
      }
    } else if (event) {
      row.p = event.party ? [event.party] : [];
      row.k = event.refused ? "refused" : "note";
      row.w = this.noted(words);
    } else if (words[0] === "party" || words[0] === "dishonest") {
      row.k = words[0] === "party" ? "key" : "dishonest";
      row.p = [words[1]];
      row.w = words[0] === "party" ? "a key is made; behind it stands the digest of its text"
        : "this party does what the script says: it signs and sends whatever that composes";
    } else if (words[1] === "ended") {
      row.k = words[3];
      row.p = [words[0]];
      row.w = words[3] === "decided" ? "a quorum voted for this table" : "no table can have a quorum; the table stays";
    }
    this.name(row, [...this.names_at(place), ...row.m === undefined ? [] : this.names_of(row.m)]);
  }

  /* What a party did or refused, in words. */
  stepped(row, words, step) {
    let what = "so";
    if (words[1] === "take") {
      const message = this.run.messages.get(+words[2]);
      row.m = message.number;
      row.f = message.from === "none" ? SCRIPT : message.from;
      what = `the ${message.kind} of ${row.f === SCRIPT ? "the script" : row.f}`;
    }
    if (step.code) return `${step.party} refuses ${words[1] === "take" ? what : "to do so"}, ${step.code}: ${explained(step.code, this.words)}`;
    return `${step.party} ${words[1] === "take" ? "takes" : "does"} ${what}`;
  }

  fill_message(row, message) {
    const from = message.from === "none" ? SCRIPT : message.from;
    const logs = this.run.parties.filter(party => party[0] === "L" && party !== from);
    const to = message.to === "logs" ? logs : [message.to === "none" ? SCRIPT : message.to];
    const is_lost = !message.taken && to[0][0] !== "C" && to[0] !== SCRIPT;
    const text = message.kind === "Raw" ? "bytes that the script composed" : this.words.kinds[message.kind];
    const name = this.script ? this.script.names.get(message.number) : undefined;
    Object.assign(row, { m: message.number, f: from, q: to, p: [from, ...to], w: name ? `${text} (${name})` : text,
      k: message.kind === "Raw" ? "composed" : is_lost ? "lost" : "sent" });
    this.name(row, this.names_of(message.number));
  }

  noted(words) {
    if (words[0] === "draft") return `draft ${words[1]} is begun, a certificate with this digest`;
    const told = { sign: "this dishonest party has no leaf left to sign with", taught: "its check of owners says yes to a name with a key from here on",
      forgot: "its check of owners says no again", retired: "it endorses nothing from here on" };
    return words[0] !== "order" && told[words[1]] || "the order in which it took deliveries";
  }

  /* How a verdict, a learnt note or a refused line looks, and what it means. */
  in_words(words) {
    if (words[0] === "learn") {
      return words[2] === "ok" ? ["step", "the clients' directory has this key from here on"]
        : ["refused", `the clients' directory does not take it: ${this.words.unlearnt[words[3]] || ""}`];
    }
    if (words[0] === "line")
      return ["refused", `line ${words[1].slice(0, -1)} of the script is refused, ${words[2]}: ${this.words.reasons[words[2]] || ""}; what stands above happened before`];
    if (words[2] === "refused") return ["refused", `the client refuses it, by check ${words[3]}: ${this.words.checks[words[3]] || ""}`];
    if (words[2] === "absent") return ["absent", `the client learns that ${words[3]} has no certificate in the table of epoch ${words[5]}`];
    return ["accepted", `the client accepts it: ${words[3]} has this certificate, in the table of epoch ${words[7]}`];
  }

  name(row, names) {
    const all = [...new Set(names)].sort();
    if (all.length) row.n = all;
  }
}

/* What the page is given: `lines` of a run; its `script`, or null; `fields` of messages by their number; and `words`. */
function data_of({ lines, script, fields, words }) {
  const made = new Lines(lines, script, fields, words), run = made.run;
  const ends = new Set(made.rows.flatMap(row => [...row.p, ...row.q || [], row.f || SCRIPT]));
  ends.delete(SCRIPT);
  const order = name => "DALC".indexOf(name[0]) * 1e6 + +name.slice(1);
  const composes = made.rows.some(row => row.f === SCRIPT || (row.q || []).includes(SCRIPT));
  return {
    parties: [...[...ends].sort((a, b) => order(a) - order(b)), ...composes ? [SCRIPT] : []], dishonest: [...run.dishonest].sort(),
    rows: made.rows, epochs: made.epochs, names: [...new Set(made.rows.flatMap(row => row.n || []))].sort(),
    messages: Object.fromEntries([...made.sent].map(([number, [s, c]]) => [number, { s, c, k: run.messages.get(number).kind }])),
    fields, comments: Object.fromEntries(made.script ? made.script.comments : []),
  };
}
