/**
 * The client's rule and the program `arpki` for pages and for Node, over two modules of WebAssembly that are compiled from
 * proved code. It needs memories of 64 bits: Chromium 133, Firefox 134, or Node 24, or
 * Node 20 with --experimental-wasm-memory64, and later ones of each.
 *
 * `loadRule` gives what a client asks: `judge`, `staple`, `connect`, `follow`, `learn` and `verify`, over plain data. `loadProgram` gives
 * `run`, which answers as `arpki` does, words and an input in, the output and the status out. Calls keep nothing.
 *
 * A wrong argument throws a TypeError that names it, keys that nobody can trust together a `KeysError`, and want of memory a
 * `MemoryError`. What is wrong with bytes that somebody else sent is an answer, and no error.
 */

/** Memory ran out: nothing is told, so ask again later. */
export class MemoryError extends Error {
  constructor() {
    super("there is no memory for this call");
    this.name = "MemoryError";
  }
}

/** The keys of a client are none that it can trust together; the message says why. */
export class KeysError extends Error {
  constructor(why) {
    super(why);
    this.name = "KeysError";
  }
}

/** @typedef {URL | Response | ArrayBuffer | Uint8Array | WebAssembly.Module} Source where a module is, or its bytes */

/**
 * @typedef {object} Keys what a client trusts
 * @property {Uint8Array[]} logs the key of each log, of generation 0, 56 bytes each; 3 to 16 of them
 * @property {Uint8Array[]} authorities the same of the authorities
 * @property {number} quorum how many logs make a quorum
 * @property {Entry[]} [learnt] the entries that `learn` gave, in their order
 */

/**
 * @typedef {object} Entry the next key of a party, as `learn` gives it
 * @property {"log" | "authority"} role
 * @property {number} number the party's place among those of its role, from 0
 * @property {number} generation the generation of the key that announced it
 * @property {Uint8Array} key
 */

/**
 * @typedef {object} Question what is asked of a confirmation
 * @property {string} name the name of the domain, in lower case
 * @property {Uint8Array} confirmation the bytes, as they came
 * @property {bigint | number} epoch the current epoch, by a clock that the caller trusts
 * @property {bigint | number} age how many epochs old a confirmation may be
 */

/**
 * @typedef {object} Accepted go on with the subject key, and with no other
 * @property {"accepted"} outcome
 * @property {bigint} epoch the epoch at whose end the name has the certificate
 * @property {bigint} serial the serial number of the certificate
 * @property {Uint8Array} subject its subject key
 * @property {Uint8Array} certificate its digest
 * @property {Uint8Array} root the root of the table of the epoch
 */

/**
 * @typedef {object} Absent the name has no certificate ("gone": and one of it is pinned, so treat it as an attack)
 * @property {"absent" | "gone"} outcome
 * @property {bigint} epoch
 * @property {Uint8Array} root
 */

/**
 * @typedef {object} Refused do not connect
 * @property {"refused" | "no possession" | "no links" | "bad endorsement" | "bad update" | "wrong end" | "long" | "full" |
 *   "bad pin" | "bad links"} outcome
 * @property {string} [check] the name of what fails
 * @property {string} why the same in a sentence
 * @property {number} [links] how many links before the one that fails hold
 */

/** @typedef {Accepted | Absent | Refused} Answer */

/**
 * @typedef {Answer & {pinned?: "first" | "same" | "moved", links?: number, pin?: Uint8Array}} Followed the answer; where it is
 *   accepted, whether the name was not pinned before, has the certificate that is pinned, or moved on by so many links; and the pin
 *   to store in place of the old one, where it changes
 */

/**
 * @typedef {{outcome: "learnt", entry: Entry} | {outcome: "known"} |
 *   {outcome: "no note" | "unknown party" | "bad signature" | "other key", check?: string, why: string}} Lesson
 */

/**
 * @typedef {object} Rule
 * @property {(keys: Keys, question: Question) => Answer} judge judges a confirmation of a name
 * @property {(keys: Keys, question: Question, channel: Uint8Array, staple: Uint8Array) => Answer} staple judges a server, its
 *   confirmation and its staple; `channel` is the SHA-256 of the SubjectPublicKeyInfo of the TLS key that the connection has, 32 bytes
 * @property {(keys: Keys, question: Question, challenge: Uint8Array, response: Uint8Array) => Answer} connect judges a server,
 *   its confirmation and its response to the 32 bytes of a challenge that is drawn for this connection alone
 * @property {(keys: Keys, question: Question, pin?: Uint8Array, links?: Uint8Array) => Followed} follow judges a confirmation, and
 *   holds it against what is pinned of the name
 * @property {(keys: Keys, note: Uint8Array) => Lesson} learn takes the next key of a party from a RollNote
 * @property {(key: Uint8Array, message: Uint8Array, signature: Uint8Array) => {valid: boolean, why?: string}} verify judges a
 *   signature of LMS
 */

/**
 * @typedef {object} Program
 * @property {(words: string[], input?: Uint8Array | string, telling?: (output: string) => void) => {status: number, output: Uint8Array}} run
 *   answers as the program `arpki` does; while a long run is at work, `telling` is called with each further part of the output
 * @property {() => number} memory how many bytes the module has in all
 */

const KEY_LEN = 56, DIGEST_LEN = 32, FIRST_LEN = 412;
const ROLES = { log: 1, authority: 2 };
const OUTCOMES = ["accepted", "absent", "refused", "no memory", "bad keys", "no possession", "gone", "no links", "bad endorsement",
  "bad update", "wrong end", "long", "full", "bad pin", "bad links"];
/* What fails, by its number from 1, as a name and as a sentence. */
const CHECKS = [["form", "the bytes are no confirmation"], ["name", "it is of another name"],
  ["parties", "a log or an authority is not in the keys, or the two authorities are one"],
  ["log signature", "the log's signature is not valid, or by a key that is not known"],
  ["first signature", "the first authority's signature is not valid, or by a key that is not known"],
  ["second signature", "the second authority's signature is not valid, or by a key that is not known"],
  ["path", "the certificate has another name, or its path does not lead to the root"],
  ["future", "its epoch is later than the current one"], ["age", "it is older than the client or the certificate allows"],
  ["revoked", "the certificate is revoked"], ["expired", "the certificate has expired"]];
const CONDITIONS = [["length", "the signature has another length"], ["one-time type", "the signature is of another LM-OTS type"],
  ["type", "the signature is of another LMS type"], ["leaf", "its leaf's number is none of the key's"],
  ["root", "it leads to another root than the key's"]];
const TESTS = [...CONDITIONS, ["generation", "the key of the generation that signed is not known: learn the notes before this one first"],
  ["place", "the signature stands at a leaf that is not for it"]];
const CLAUSES = [["revoked", "the old certificate is revoked"], ["name", "the name is another one"],
  ["serial", "the serial number is not the next"], ["previous", "the previous digest is not the old certificate's, or the link is an objection"],
  ["endorsers", "fewer than three authorities endorse it"], ["threshold", "fewer authorities endorse it than the old policy asks for"],
  ["handover", "the old policy asks for a handover, and there is no valid one"], ["policy", "the new policy is not well formed"]];
const PINS = [["form", "the pin is no text of changes"], ["name", "the pin is of another name"],
  ["chain", "a certificate of the pin does not follow the one before it"]];
const KEYS = ["there are not 3 to 16 logs", "there are not 3 to 16 authorities",
  "twice the quorum is not more than the logs and two, or it is more than all logs", "the key of a log is no public key",
  "the key of an authority is no public key", "the role of an entry is neither log nor authority, or its key is no public key"];
const REASONS = {
  "no links": "another certificate is pinned, and no links are given: ask for them",
  "wrong end": "the links lead to another certificate than that of the confirmation",
  long: "there are more than 64 links: give them in parts, each with a confirmation of its own",
  full: "with the links there would be more than 4,096 changes in the pin",
  "bad links": "the bytes of the links are no texts of changes",
};
const LESSONS = { 2: ["no note", "the bytes are no RollNote"], 5: ["unknown party", "its party is none of the keys"],
  7: ["other key", "another key is known as the party's next one: it signed two"] };

/* ---- a module and its memory */

async function compiled(source) {
  if (source instanceof WebAssembly.Module) return source;
  if (source instanceof URL && source.protocol === "file:" && typeof process === "object") {
    const { readFile } = await import("node:fs/promises");
    return WebAssembly.compile(await readFile(source));
  }
  if (source instanceof URL) source = await fetch(source);
  if (typeof Response === "function" && source instanceof Response) {
    if (!source.ok) throw new TypeError(`the module is not there: ${source.status} for ${source.url}`);
    source = await source.arrayBuffer();
  }
  if (!(source instanceof ArrayBuffer || ArrayBuffer.isView(source))) throw new TypeError("a module is a URL, a Response, its bytes or a WebAssembly.Module");
  return WebAssembly.compile(source);
}

/** Whether memories of 64 bits are there: a module of eight bytes and of one such memory. */
export function isSupported() {
  return typeof WebAssembly === "object" && WebAssembly.validate(new Uint8Array([0, 97, 115, 109, 1, 0, 0, 0, 5, 3, 1, 4, 0]));
}

/* An instance with a heap, in which each call has room of its own that it gives back. A call that is broken off within the module,
   as where the stack ends, leaves the instance to nobody: the next call has a new one. */
class Instance {
  constructor(module, host, most) {
    Object.assign(this, { module, host, most });
    this.begin();
  }

  begin() {
    this.calls = new WebAssembly.Instance(this.module, { host: this.host }).exports;
    if (this.most !== undefined) this.calls.heap_limit(BigInt(this.most));
  }

  bytes(at, len) {
    return new Uint8Array(this.calls.memory.buffer, Number(at), len);
  }

  view(at, len) {
    return new DataView(this.calls.memory.buffer, Number(at), len);
  }

  /* Calls with a room, whose `take` gives blocks that are given back behind the call. */
  within(call) {
    const taken = [];
    const take = len => {
      const at = this.calls.heap_take(BigInt(Math.max(len, 1)));
      if (!at) throw new MemoryError();
      taken.push(at);
      return at;
    };
    const put = bytes => {
      const at = take(bytes.length);
      this.bytes(at, bytes.length).set(bytes);
      return at;
    };
    try {
      const told = call({ take, put });
      for (const at of taken) this.calls.heap_give(at);
      return told;
    } catch (fault) {
      if ([TypeError, MemoryError, KeysError].some(kind => fault instanceof kind)) for (const at of taken) this.calls.heap_give(at);
      else this.begin();
      throw fault;
    }
  }

  /* Writes a struct: numbers of 64 bits, one behind the other. */
  struct(room, fields) {
    const at = room.take(8 * fields.length), view = this.view(at, 8 * fields.length);
    fields.forEach((value, place) => view.setBigUint64(8 * place, BigInt(value), true));
    return at;
  }

  copy(at, len) {
    return this.bytes(at, len).slice();
  }
}

/* ---- arguments */

function bytes_of(value, what, len) {
  if (!(value instanceof Uint8Array) || (len !== undefined && value.length !== len))
    throw new TypeError(`${what} is no Uint8Array${len === undefined ? "" : ` of ${len} bytes`}`);
  return value;
}

function number_of(value, what) {
  if (typeof value !== "bigint" && !Number.isSafeInteger(value) || value < 0 || BigInt(value) >= 1n << 64n)
    throw new TypeError(`${what} is no number from 0 to 2^64 - 1`);
  return BigInt(value);
}

function list_of(value, what) {
  if (!Array.isArray(value)) throw new TypeError(`${what} is no array`);
  return value;
}

function keys_at(instance, room, keys) {
  const texts = what => {
    const list = list_of(keys?.[what], `keys.${what}`), at = room.take(KEY_LEN * list.length);
    list.forEach((key, place) => instance.bytes(at, KEY_LEN * list.length).set(bytes_of(key, `keys.${what}[${place}]`, KEY_LEN), KEY_LEN * place));
    return [at, list.length];
  };
  const learnt = list_of(keys?.learnt ?? [], "keys.learnt");
  const [logs, authorities] = [texts("logs"), texts("authorities")];
  const entries = room.take(64 * learnt.length);
  learnt.forEach((entry, place) => put_entry(instance.view(entries, 64 * learnt.length), 64 * place, entry));
  return instance.struct(room, [...logs, ...authorities, entries, learnt.length, number_of(keys.quorum, "keys.quorum")]);
}

function put_entry(view, at, entry) {
  view.setUint32(at, entry.generation, true);
  view.setUint16(at + 4, entry.number, true);
  view.setUint16(at + 6, ROLES[entry.role] ?? 0, true);
  bytes_of(entry.key, "the key of an entry", KEY_LEN).forEach((byte, place) => view.setUint8(at + 8 + place, byte));
}

function question_at(instance, room, question) {
  if (typeof question?.name !== "string") throw new TypeError("question.name is no string");
  const name = new TextEncoder().encode(question.name);
  const confirmation = bytes_of(question.confirmation, "question.confirmation");
  const [epoch, age] = [number_of(question.epoch, "question.epoch"), number_of(question.age, "question.age")];
  return instance.struct(room, [room.put(name), name.length, room.put(confirmation), confirmation.length, epoch, age]);
}

/* ---- answers */

const named = (table, number) => ({ check: table[number - 1]?.[0], why: table[number - 1]?.[1] ?? `number ${number} fails` });

/* What stands at an answer of the C library: 144 bytes. */
function answer_of(instance, at, links) {
  const view = instance.view(at, 144), outcome = OUTCOMES[view.getUint32(136, true)], number = view.getUint32(140, true);
  const epoch = view.getBigUint64(0, true), root = instance.copy(at + 104n, DIGEST_LEN);
  if (outcome === "no memory") throw new MemoryError();
  if (outcome === "bad keys") throw new KeysError(KEYS[number - 1]);
  if (outcome === "accepted")
    return { outcome, epoch, serial: view.getBigUint64(8, true), subject: instance.copy(at + 16n, KEY_LEN),
      certificate: instance.copy(at + 72n, DIGEST_LEN), root };
  if (outcome === "absent" || outcome === "gone") return { outcome, epoch, root };
  if (outcome === "refused") return { outcome, ...named(CHECKS, number) };
  if (outcome === "no possession") return { outcome, ...named(CONDITIONS, number) };
  if (outcome === "bad pin") return { outcome, ...named(PINS, number) };
  if (outcome === "bad update") return { outcome, ...named(CLAUSES, number), links };
  if (outcome === "bad endorsement") return { outcome, check: `authority ${number}`, why: `the endorsement of authority ${number} is not valid, or by a key that is not known`, links };
  return { outcome: outcome ?? "refused", why: REASONS[outcome] ?? "an answer that is not known" };
}

function followed_of(instance, at, pin, links) {
  const view = instance.view(at, 164), keep = view.getUint32(160, true), count = Number(view.getBigUint64(152, true));
  const answer = answer_of(instance, at, count);
  if (answer.outcome === "accepted") answer.pinned = ["same", "first", "moved"][keep];
  if (keep === 1) answer.pin = instance.copy(at + 164n, Number(view.getBigUint64(144, true)));
  if (keep === 2) {
    answer.links = count;
    answer.pin = new Uint8Array(pin.length + links.length);
    answer.pin.set(pin);
    answer.pin.set(links, pin.length);
  }
  return answer;
}

function lesson_of(instance, at) {
  const view = instance.view(at, 72), outcome = view.getUint32(64, true), number = view.getUint32(68, true);
  if (outcome === 0)
    return { outcome: "learnt", entry: { role: view.getUint16(6, true) === ROLES.log ? "log" : "authority", number: view.getUint16(4, true),
      generation: view.getUint32(0, true), key: instance.copy(at + 8n, KEY_LEN) } };
  if (outcome === 1) return { outcome: "known" };
  if (outcome === 3) throw new MemoryError();
  if (outcome === 4) throw new KeysError(KEYS[number - 1]);
  if (outcome === 6) return { outcome: "bad signature", ...named(TESTS, number) };
  const [name, why] = LESSONS[outcome] ?? ["no note", "an answer that is not known"];
  return { outcome: name, why };
}

/* ---- what is asked */

/**
 * Loads the client's rule, the module `arpki_rule.wasm`.
 * @param {Source} source
 * @returns {Promise<Rule>}
 */
export async function loadRule(source) {
  const instance = new Instance(await compiled(source), { tick() {} });
  const bound = (name, keys, question, challenge, response) => instance.within(room => {
    bytes_of(challenge, "what the answer is bound to", DIGEST_LEN);
    bytes_of(response, "the server's answer");
    const [trusted, asked, answer] = [keys_at(instance, room, keys), question_at(instance, room, question), room.take(144)];
    instance.calls[name](trusted, asked, room.put(challenge), room.put(response), BigInt(response.length), answer);
    return answer_of(instance, answer);
  });
  return {
    judge: (keys, question) => instance.within(room => {
      const [trusted, asked, answer] = [keys_at(instance, room, keys), question_at(instance, room, question), room.take(144)];
      instance.calls.arpki_judge(trusted, asked, answer);
      return answer_of(instance, answer);
    }),
    staple: (...words) => bound("arpki_staple", ...words),
    connect: (...words) => bound("arpki_connect", ...words),
    follow: (keys, question, pin = new Uint8Array(), links = new Uint8Array()) => instance.within(room => {
      bytes_of(pin, "the pin");
      bytes_of(links, "the links");
      const [trusted, asked, followed] = [keys_at(instance, room, keys), question_at(instance, room, question), room.take(164 + FIRST_LEN)];
      instance.calls.arpki_follow(trusted, asked, room.put(pin), BigInt(pin.length), room.put(links), BigInt(links.length), followed);
      return followed_of(instance, followed, pin, links);
    }),
    learn: (keys, note) => instance.within(room => {
      const [trusted, lesson] = [keys_at(instance, room, keys), room.take(72)];
      instance.calls.arpki_learn(trusted, room.put(bytes_of(note, "the note")), BigInt(note.length), lesson);
      return lesson_of(instance, lesson);
    }),
    verify: (key, message, signature) => instance.within(room => {
      const texts = [bytes_of(message, "the message"), bytes_of(signature, "the signature")];
      const [first, second] = texts.flatMap(text => [[room.put(text), BigInt(text.length)]]);
      const number = instance.calls.arpki_verify(room.put(bytes_of(key, "the key", KEY_LEN)), ...first, ...second);
      if (number === 0) return { valid: true };
      return { valid: false, ...(number === 6 ? { check: "key", why: "the key is no public key" } : named(CONDITIONS, number)) };
    }),
  };
}

/* How many bytes of output a run has room for before it is made again with as many as it needs. It is a number that no other
   block is likely to have, since the block of this length is looked at while the run fills it. */
const ROOM = 1048576 + 4073;

/**
 * Loads the program, the module `arpki.wasm`.
 * @param {Source} source
 * @param {{memory?: number}} [options] `memory`: how many bytes the module may have in all
 * @returns {Promise<Program>}
 */
export async function loadProgram(source, options = {}) {
  const state = { tell: null };
  const instance = new Instance(await compiled(source), { tick() { state.tell?.(); } }, options.memory);
  return {
    run(words, input = new Uint8Array(), telling = undefined) {
      list_of(words, "words").forEach((word, place) => { if (typeof word !== "string") throw new TypeError(`words[${place}] is no string`); });
      const text = typeof input === "string" ? new TextEncoder().encode(input) : bytes_of(input, "the input");
      state.tell = telling ? teller(instance, telling) : null;
      try {
        const told = called(instance, words, text, ROOM);
        return told.needed <= ROOM ? told : called(instance, words, text, told.needed);
      } finally {
        state.tell = null;
      }
    },
    memory: () => instance.calls.memory.buffer.byteLength,
  };
}

/* One call of the program, with room for so many bytes of output. */
function called(instance, words, input, len) {
  return instance.within(room => {
    const texts = words.map(word => new TextEncoder().encode(word));
    const given = instance.struct(room, [...texts.flatMap(text => [room.put(text), text.length]), 0]);
    const [taken, output, needed] = [room.put(input), room.take(len), room.take(8)];
    instance.calls.heap_watch(BigInt(len));
    const status = instance.calls.arpki_page(given, BigInt(words.length), taken, BigInt(input.length), output, BigInt(len), needed);
    if (status === 6) throw new MemoryError();
    const count = Number(instance.view(needed, 8).getBigUint64(0, true));
    return { status, needed: count, output: instance.copy(output, Math.min(count, len)) };
  });
}

/* Tells, while a call fills the watched block, what was put there since it was last told. */
function teller(instance, telling) {
  const decoder = new TextDecoder();
  let seen = 0;
  return () => {
    const at = instance.calls.heap_watched();
    if (!at) return;
    const whole = instance.bytes(at, ROOM), end = whole.indexOf(0, seen);
    const last = end < 0 ? ROOM : end;
    if (last > seen) telling(decoder.decode(whole.slice(seen, last)));
    seen = last;
  };
}
