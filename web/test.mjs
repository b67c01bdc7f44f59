/**
 * Tries the modules in Node, for tools/web: `node web/test.mjs WHAT FOLDER`. What it is given stands in FOLDER as JSON, and what
 * it found goes to standard output as JSON.
 *
 * `cases`: calls with words and an input each, whose status and output are compared with stored ones; those without stored
 * ones are answered by the SHA-256 of the output. `rule`: the client's rule on what stored inputs ask, and arguments that are none.
 * `shown`: the lines of a page that judge a confirmation. `memory`: each growth of memory refused in turn. `calls`: many calls
 * without growth. `times` and `verdicts`: how long calls of the program take, and how many verdicts the rule gives a second.
 */
import { createHash } from "node:crypto";
import { readFileSync, writeFileSync } from "node:fs";
import { pathToFileURL } from "node:url";
import { isSupported, KeysError, loadProgram, loadRule, MemoryError } from "./arpki.mjs";

/* By how many bytes the memory grows, in web/heap.c. */
const STEP = 4 * 65536;
const HERE = new URL(".", import.meta.url);
const [what, folder] = process.argv.slice(2);
const read = name => readFileSync(`${folder}/${name}`);
const cases = JSON.parse(read("cases.json"));
const compiled = name => WebAssembly.compile(readFileSync(new URL(name, HERE)));
const sha256 = bytes => createHash("sha256").update(bytes).digest("hex");
const tell = found => process.stdout.write(JSON.stringify(found));
const hex = text => Uint8Array.from(text.match(/../g) ?? [], pair => parseInt(pair, 16));

/* The status and the output of each case; of those that are stored, whether they are the stored ones. */
async function try_cases() {
  const program = await loadProgram(await compiled("arpki.wasm")), found = [];
  for (const one of cases) {
    const { status, output } = program.run(one.words, new Uint8Array(read(one.input)));
    if (one.output === undefined) found.push([status, output.length, sha256(output)]);
    else if (status !== one.status || Buffer.compare(Buffer.from(output), read(one.output)))
      found.push([one.name, status, new TextDecoder().decode(output.slice(0, 200))]);
  }
  tell(found);
}

/* One input is answered where the module may have so much memory, and not more: each step of its growth is refused once. */
async function try_memory() {
  const module = await compiled("arpki.wasm"), found = [];
  for (const one of cases) {
    let refused = 0;
    for (let most = 1 << 20; ; most += STEP) {
      const program = await loadProgram(module, { memory: most });
      try {
        const { status, output } = program.run(one.words, new Uint8Array(read(one.input)));
        found.push([one.name, refused, status === one.status && !Buffer.compare(Buffer.from(output), read(one.output))]);
        break;
      } catch (fault) {
        if (!(fault instanceof MemoryError)) throw fault;
        refused += 1;
      }
    }
  }
  tell(found);
}

/* Calls again and again: the memory has to stay as large as the first calls made it. */
async function try_calls() {
  const program = await loadProgram(await compiled("arpki.wasm")), inputs = cases.map(one => [one.words, new Uint8Array(read(one.input))]);
  const sizes = [];
  for (let turn = 0; turn < 10_000; turn += 1) {
    program.run(...inputs[turn % inputs.length]);
    if (turn === 2 * inputs.length || turn === 9_999) sizes.push(program.memory());
  }
  tell(sizes);
}

/* Milliseconds of the fastest of ten calls of each case, and of loading the module, which is the median of nine. */
async function try_times() {
  const bytes = readFileSync(new URL("arpki.wasm", HERE)), program = await loadProgram(bytes), loads = [];
  for (let turn = 0; turn < 9; turn += 1) {
    const begun = performance.now();
    await loadProgram(bytes);
    loads.push(performance.now() - begun);
  }
  const times = cases.map(one => {
    const input = new Uint8Array(read(one.input)), taken = [];
    for (let turn = 0; turn < 10; turn += 1) {
      const begun = performance.now();
      program.run(one.words, input);
      taken.push(performance.now() - begun);
    }
    return Math.min(...taken);
  });
  tell({ load: loads.sort((a, b) => a - b)[4], times });
}

/* ---- the client's rule, asked what stored inputs of `sig`, `check` and `follow` ask */

const fields_of = lines => lines.reduce((fields, line) => {
  const [word, ...rest] = line.split(" ");
  (fields[word] ??= []).push(rest.join(" "));
  return fields;
}, {});

function keys_of(fields) {
  const logs = +fields.logs[0].split(" ")[0], keys = fields.key.map(hex);
  return { logs: keys.slice(0, logs), authorities: keys.slice(logs), quorum: +fields.logs[0].split(" ")[1], learnt: [] };
}

function learn_all(rule, keys, notes) {
  for (const note of notes ?? []) {
    const lesson = rule.learn(keys, hex(note));
    if (lesson.outcome === "learnt") keys.learnt.push(lesson.entry);
  }
}

const CHECKS = ["form", "name", "parties", "log signature", "first signature", "second signature", "path", "future", "age", "revoked", "expired"];
const to_hex = bytes => Buffer.from(bytes).toString("hex");

function line_of(answer, name) {
  if (answer.outcome === "accepted") return `accepted ${name} serial ${answer.serial} epoch ${answer.epoch} root ${to_hex(answer.root)} certificate ${to_hex(answer.certificate)}\n`;
  if (answer.outcome === "absent") return `absent ${name} epoch ${answer.epoch} root ${to_hex(answer.root)}\n`;
  return `refused ${1 + CHECKS.indexOf(answer.check)}\n`;
}

const CONDITIONS = ["length", "one-time type", "type", "leaf", "root"];

function sig_line(rule, lines) {
  const [key, message, signature] = lines.map(hex);
  const found = rule.verify(key, message, signature);
  return found.valid ? "valid\n" : `invalid ${1 + CONDITIONS.indexOf(found.check)}\n`;
}

function check_line(rule, fields) {
  const keys = keys_of(fields);
  learn_all(rule, keys, fields.roll);
  const question = { name: fields.name[0], confirmation: hex(fields.confirmation[0]), epoch: BigInt(fields.now[0]), age: BigInt(fields.age[0]) };
  const followed = rule.follow(keys, question), answer = rule.judge(keys, question);
  return [line_of(answer, question.name), followed.outcome === answer.outcome];
}

/* The line of `follow` for one question with its links. */
function followed_line(answer) {
  const numbers = { "bad endorsement": () => `link ${answer.links} e ${answer.check.split(" ")[1]}`,
    "bad update": () => `link ${answer.links} p ${1 + CLAUSES.indexOf(answer.check)}`, refused: () => `refused ${1 + CHECKS.indexOf(answer.check)}`,
    accepted: () => answer.pinned === "moved" ? `moved ${answer.links}` : answer.pinned, "no links": () => "nolinks", "wrong end": () => "wrongend" };
  return `${(numbers[answer.outcome] ?? (() => answer.outcome))()}\n`;
}

const CLAUSES = ["revoked", "name", "serial", "previous", "endorsers", "threshold", "handover", "policy"];

const joined = parts => Uint8Array.from(parts.flatMap(part => [...part]));

/* The lines of `follow` for groups of lines, each of which begins with a name. */
function follow_lines(rule, lines) {
  const first = lines.findIndex(line => line.startsWith("name ")), start = first < 0 ? lines.length : first, fields = fields_of(lines.slice(0, start)), pins = new Map();
  const keys = keys_of(fields), groups = [];
  learn_all(rule, keys, fields.roll);
  for (const line of lines.slice(start)) line.startsWith("name ") ? groups.push([line]) : groups.at(-1).push(line);
  return groups.map(group => {
    const one = fields_of(group), name = one.name[0];
    const question = { name, confirmation: hex(one.confirmation[0]), epoch: BigInt(one.now[0]), age: BigInt(one.age[0]) };
    const answer = rule.follow(keys, question, pins.get(name), joined((one.link ?? []).map(hex)));
    if (answer.pin) pins.set(name, answer.pin);
    return followed_line(answer);
  }).join("");
}

/* The question of an input of `check`, and the keys that its directory has learnt. */
function asked_in(rule, text) {
  const fields = fields_of(text.replace(/\n$/, "").split("\n")), keys = keys_of(fields);
  learn_all(rule, keys, fields.roll);
  return [keys, { name: fields.name[0], confirmation: hex(fields.confirmation[0]), epoch: BigInt(fields.now[0]), age: BigInt(fields.age[0]) }];
}

async function try_rule() {
  const rule = await loadRule(new URL("arpki_rule.wasm", HERE)), wrong = [];
  let tried = 0;
  for (const one of cases) {
    const lines = new TextDecoder().decode(read(one.input)).replace(/\n$/, "").split("\n"), wanted = read(one.output).toString();
    const [line, agrees] = one.words[0] === "sig" ? [sig_line(rule, lines), true]
      : one.words[0] === "follow" ? [follow_lines(rule, lines), true] : check_line(rule, fields_of(lines));
    tried += 1;
    if (line !== wanted || !agrees) wrong.push([one.name, line]);
  }
  const [keys, question] = asked_in(rule, read(cases.find(one => /check\/accepted\./.test(one.name)).input).toString());
  for (const [what, call, kind, message] of refused_calls(rule, keys, question)) {
    tried += 1;
    try {
      wrong.push([what, call()]);
    } catch (fault) {
      if (!(fault instanceof kind) || !fault.message.includes(message)) wrong.push([what, String(fault)]);
    }
  }
  tell({ tried, wrong });
}

/* Calls that throw, with the class of what they throw, and what its message names. */
function refused_calls(rule, keys, question) {
  const judge = (change, others = {}) => () => rule.judge({ ...keys, ...others }, { ...question, ...change });
  return [
    ["a name that is no string", judge({ name: 7 }), TypeError, "question.name"],
    ["a confirmation that is text", judge({ confirmation: "0c01" }), TypeError, "question.confirmation"],
    ["an epoch before the first", judge({ epoch: -1 }), TypeError, "question.epoch"],
    ["an age that is no number", judge({ age: NaN }), TypeError, "question.age"],
    ["keys without logs", judge({}, { logs: undefined }), TypeError, "keys.logs"],
    ["a key of 55 bytes", judge({}, { logs: [...keys.logs.slice(1), new Uint8Array(55)] }), TypeError, "keys.logs[2]"],
    ["a key that is none", judge({}, { logs: [...keys.logs.slice(1), new Uint8Array(56)] }), KeysError, "the key of a log"],
    ["two logs", judge({}, { logs: keys.logs.slice(1) }), KeysError, "3 to 16 logs"],
    ["a quorum of none", judge({}, { quorum: 0 }), KeysError, "quorum"],
    ["a challenge of 31 bytes", () => rule.connect(keys, question, new Uint8Array(31), new Uint8Array()), TypeError, "32 bytes"],
  ];
}

/* The lines of docs/BROWSER.md: they are given a directory and confirmations that are accepted, too old and absent. */
async function try_shown() {
  const rule = await loadRule(new URL("arpki_rule.wasm", HERE)), found = [];
  const lines = read("shown.mjs").toString().replace(/from "[^"]*"/, `from ${JSON.stringify(new URL("arpki.mjs", HERE).href)}`)
    .replace(/new URL\("arpki_rule.wasm", import.meta.url\)/, `new URL(${JSON.stringify(new URL("arpki_rule.wasm", HERE).href)})`);
  for (const [place, one] of cases.entries()) {
    const [keys, question] = asked_in(rule, read(one.input).toString());
    const told = name => (...words) => found.push([name, ...words.map(word => typeof word === "string" ? word : to_hex(word))]);
    globalThis.given = { ...keys, ...question, go_on_with: told("go on"), no_certificate: told("none"), refuse: told("refuse") };
    const names = Object.keys(globalThis.given).join(", ");
    writeFileSync(`${folder}/shown-${place}.mjs`, `const { ${names} } = globalThis.given;\n${lines}`);
    await import(pathToFileURL(`${folder}/shown-${place}.mjs`));
  }
  tell(found);
}

/* Milliseconds of a processor that this process has used. */
const used = () => { const { user, system } = process.cpuUsage(); return (user + system) / 1000; };

/* Milliseconds of a processor for a judgement of each input: the fastest of ten parts of a hundred. */
async function try_verdicts() {
  const bytes = readFileSync(new URL("arpki_rule.wasm", HERE)), loads = [];
  let rule;
  for (let turn = 0; turn < 9; turn += 1) {
    const begun = performance.now();
    rule = await loadRule(bytes);
    loads.push(performance.now() - begun);
  }
  const times = cases.map(one => {
    const [keys, question] = asked_in(rule, read(one.input).toString()), taken = [];
    for (let part = 0; part < 10; part += 1) {
      const begun = used();
      for (let turn = 0; turn < 100; turn += 1) if (rule.judge(keys, question).outcome !== "accepted") throw new Error(one.name);
      taken.push((used() - begun) / 100);
    }
    return Math.min(...taken);
  });
  tell({ load: loads.sort((a, b) => a - b)[4], times });
}

if (!isSupported()) throw new Error("this Node has no memories of 64 bits");
await { cases: try_cases, memory: try_memory, calls: try_calls, times: try_times, rule: try_rule, shown: try_shown, verdicts: try_verdicts }[what]();
