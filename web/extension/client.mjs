/**
 * The client that remembers: what of a name's proof holds for a TLS key, by the rule that is compiled from proved code. It keeps pins,
 * keys that it learnt and evidence in a store, and asks the site itself by `ask`; it knows nothing of a browser.
 */
import { bytes_of, hex, is_entry, read_confirmation, read_proof, statements_of } from "./forms.mjs";

/* Bytes that a site may answer at most. */
export const MOST = { proof: 65536, links: 1500000, rolls: 65536 };
/* How many RollNotes are asked for in one judgement, and how many refused confirmations are kept. */
const MOST_NOTES = 64, MOST_EVIDENCE = 32;
/* The checks that fail where a party's newest key is not known. */
const UNKNOWN_KEY = ["log signature", "first signature", "second signature"];
const WELL_KNOWN = "/.well-known/arpki/";
export { WELL_KNOWN };

/**
 * @typedef {object} Verdict
 * @property {string} outcome "accepted", one of arpki.mjs', or "no proof", "no form", "silent", "too long", "clear", "trouble"
 * @property {string} [check] what fails, and [why] the same in a sentence
 * @property {bigint} now the epoch by which it was judged
 */

export class Client {
  /**
   * @param {import("../arpki.mjs").Rule} rule
   * @param {import("./forms.mjs").Trust} trust
   * @param {{get: (keys: null) => Promise<object>, set: (items: object) => Promise<void>, remove: (key: string) => Promise<void>}} store
   */
  constructor(rule, trust, store) {
    Object.assign(this, { rule, trust, store, pins: new Map(), names: new Set(), learnt: [], evidence: [], listed: [] });
  }

  /** Reads what is kept. Nothing may be judged before. */
  async load() {
    const kept = await this.store.get(null);
    for (const [key, value] of Object.entries(kept)) if (key.startsWith("pin ")) this.pins.set(key.slice(4), value);
    this.listed = kept.names ?? [];
    this.evidence = kept.evidence ?? [];
    this.learnt = (kept.learnt ?? []).filter(entry => entry.first === this.first_key(entry)).map(entry => ({ ...entry, key: bytes_of(entry.key) }));
    this.rule.judge(this.keys, this.question("a.example", new Uint8Array(), 0));  // keys that nobody can trust together end the load
    for (const note of this.trust.rolls) await this.learn(note);
    return this;
  }

  get keys() {
    return { ...this.trust.keys, learnt: this.learnt };
  }

  /** The clock's epoch. */
  get clock() {
    return Math.max(0, Math.floor((Date.now() - this.trust.schedule.zero) / this.trust.schedule.length));
  }

  question(name, confirmation, epoch) {
    const now = this.clock;
    return { name, confirmation, epoch: epoch > now && epoch <= now + 2 ? epoch : now, age: this.trust.schedule.age };
  }

  /** Why a name has to be proved; undefined where it need not be. */
  reason(name) {
    if (this.pins.has(name)) return "pinned";
    const holds = entry => entry === name || entry[0] === "." && (entry.slice(1) === name || name.endsWith(entry));
    return [...this.trust.names, ...this.listed].some(holds) ? "listed" : undefined;
  }

  /** Sets the user's own list. */
  async list(names) {
    const wrong = names.find(name => !is_entry(name));
    if (wrong !== undefined) throw new TypeError(`${wrong} is no name`);
    await this.store.set({ names });
    this.listed = names;
  }

  async forget(name) {
    await this.store.remove(`pin ${name}`);
    this.pins.delete(name);
  }

  /** A party's key of generation 0, in hex: what was learnt is of this key, and goes where the maker ships another. */
  first_key({ role, number }) {
    const key = this.trust.keys[role === "log" ? "logs" : "authorities"][number];
    return key && hex(key);
  }

  async learn(note) {
    const lesson = this.rule.learn(this.keys, note);
    if (lesson.outcome === "learnt") {
      const learnt = [...this.learnt, { ...lesson.entry, first: this.first_key(lesson.entry), note: hex(note) }];
      await this.store.set({ learnt: learnt.map(entry => ({ ...entry, key: hex(entry.key) })) });
      this.learnt = learnt;
    }
    return lesson.outcome;
  }

  /** The generation of the newest key that is known of a party. */
  generation(party) {
    const role = party[0] === "L" ? "log" : "authority";
    return this.learnt.filter(entry => entry.role === role && `${party[0]}${entry.number}` === party).length;
  }

  /** Learns a party's next keys from the site: up to a generation, or as many as there are. Whether it learnt one. */
  async learn_of(party, upto, ask) {
    const first = this.generation(party);
    while (this.generation(party) < upto && this.generation(party) - first < MOST_NOTES) {
      const note = await ask(`rolls/${party}/${this.generation(party)}`, MOST.rolls);
      if (note === null || await this.learn(note) !== "learnt") break;
    }
    return this.generation(party) > first;
  }

  /**
   * Judges what a site shows for a TLS key.
   * @param {string} name
   * @param {Uint8Array} channel SHA-256 of the key's SubjectPublicKeyInfo, as the connection has it
   * @param {Uint8Array} body what the site shows
   * @param {(path: string, most: number) => Promise<Uint8Array | null>} ask asks the site for more
   * @returns {Promise<Verdict>}
   */
  async judge(name, channel, body, ask) {
    const shown = read_proof(body), read = shown && read_confirmation(shown.confirmation);
    if (!read) return this.verdict({ outcome: "no form", why: "what the site shows as its proof is none" });
    const question = this.question(name, shown.confirmation, read.epoch);
    let answer = this.rule.staple(this.keys, question, channel, shown.staple);
    if (UNKNOWN_KEY.includes(answer.check) && await this.learn_signers(read, ask))
      answer = this.rule.staple(this.keys, question, channel, shown.staple);
    const by = read.signers.map(signer => signer.party);
    if (answer.outcome !== "accepted") {
      if (answer.outcome === "absent" && this.pins.has(name)) answer = { ...answer, outcome: "gone" };
      return this.verdict({ ...answer, by, of: read.epoch });
    }
    return this.verdict({ ...await this.follow(name, question, read, ask), by, of: read.epoch });
  }

  verdict(answer) {
    return { ...answer, now: this.clock };
  }

  async learn_signers(read, ask) {
    let learnt = false;
    for (const signer of read.signers) learnt = await this.learn_of(signer.party, signer.generation, ask) || learnt;
    return learnt;
  }

  /** Holds a confirmation that is accepted against the pin, with links and keys that the site has, and keeps what changes. */
  async follow(name, question, read, ask) {
    const record = this.pins.get(name), pin = record ? bytes_of(record.pin) : new Uint8Array();
    let links = new Uint8Array(), answer = this.rule.follow(this.keys, question, pin, links);
    if (answer.outcome === "no links") {
      links = await ask(`links/${record.certificate}`, MOST.links) ?? links;
      if (links.length > 0) answer = this.rule.follow(this.keys, question, pin, links);
    }
    for (let turn = 0; answer.outcome === "bad endorsement" && turn < MOST_NOTES; turn += 1) {
      const party = `A${answer.check.split(" ")[1]}`;
      if (!await this.learn_of(party, Infinity, ask)) break;
      answer = this.rule.follow(this.keys, question, pin, links);
    }
    if (answer.outcome === "accepted") return this.keep(name, answer, question, read);
    await this.accuse(name, answer, question.confirmation, record);
    return answer;
  }

  /** Keeps the pin, before anybody is told that the answer is accepted. */
  async keep(name, answer, question, read) {
    const before = this.pins.get(name);
    const record = { ...before, pin: answer.pin ? hex(answer.pin) : before.pin, certificate: hex(answer.certificate), serial: String(answer.serial),
      epoch: Math.max(read.epoch, before?.epoch ?? 0), since: before?.since ?? Date.now(), confirmation: hex(question.confirmation) };
    await this.store.set({ [`pin ${name}`]: record });
    this.pins.set(name, record);
    return { ...answer, since: record.since };
  }

  /** Keeps a confirmation that three parties signed, and that the pin refuses. */
  async accuse(name, answer, confirmation, record) {
    const found = hex(confirmation);
    if (this.evidence.some(one => one.confirmation === found)) return;
    const evidence = [...this.evidence, { name, why: answer.why ?? answer.outcome, came: Date.now(), confirmation: found, before: record?.confirmation }].slice(-MOST_EVIDENCE);
    await this.store.set({ evidence });
    this.evidence = evidence;
  }

  /** The evidence as an input of `arpki audit`: the keys, and what was signed in each confirmation and in the last one that was accepted. */
  async audit() {
    const lines = [`logs ${this.trust.keys.logs.length} ${this.trust.keys.quorum}`, ...this.trust.keys.logs.map(key => `key ${hex(key)}`),
      `authorities ${this.trust.keys.authorities.length}`, ...this.trust.keys.authorities.map(key => `key ${hex(key)}`),
      ...this.learnt.map(entry => `roll ${entry.note}`)];
    const seen = new Set();
    for (const one of this.evidence) for (const text of [one.before, one.confirmation])
      if (text) for (const line of await statements_of(bytes_of(text))) seen.add(line);
    return [...lines, ...seen].join("\n") + "\n";
  }
}
