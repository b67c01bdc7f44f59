/**
 * What stands between Firefox and sites. It is no module, since its listeners have to be there before the first request of a restored
 * tab; each of them waits for the client, and whatever goes wrong is refused.
 *
 * A request to a name that has to be proved is held until a probe of the same host and port met a TLS key that the name's proof is for. And
 * of each answer, of whatever kind, the TLS key of its own connection is held against the proof before a byte of it is read.
 */
"use strict";

const HERE = browser.runtime.getURL("");
/* Milliseconds that a site may take to answer, that all of a listener's work may take, for which a probe that passed serves what a page
   loads, and for which a site that showed no proof, and needs none, is not asked again. */
const PATIENCE = 10000, MOST_WORK = 40000, FRESH = 2000, QUIET = 600000;
/* How many refusals are remembered for their pages. */
const MOST_REFUSALS = 200;
/* What an answer that is refused must not leave behind, and an own one neither. */
const LEAVES = ["set-cookie", "strict-transport-security", "alt-svc", "clear-site-data", "public-key-pins", "report-to", "nel"];

const asked = new Map();      // by address, the own request that is under way: where its TLS key is told
const turns = new Map();      // by host, the end of the last own question: a host is asked one thing after the other
const verdicts = new Map();   // by host and TLS key
const passed = new Map();     // by host, when a probe passed and which keys it knows
const refusals = new Map();   // by number, for the refusal's page
const tabs = new Map();       // by tab, what was accepted and refused in it
let count = 0;

/* ---- the client */

class Refusal extends Error {
  constructor(outcome, why, more = {}) {
    super(why);
    Object.assign(this, { verdict: { outcome, why, ...more } });
  }
}

async function loaded() {
  const [{ loadRule }, forms, client] = await Promise.all(["arpki.mjs", "forms.mjs", "client.mjs"].map(file => import(HERE + file)));
  const [rule, trust] = await Promise.all([loadRule(new URL(HERE + "arpki_rule.wasm")), fetch(HERE + "trust").then(file => file.text())]);
  const made = await new client.Client(rule, forms.read_trust(trust), browser.storage.local).load();
  return { client: made, ...client, ...forms };
}

const ready = loaded();
ready.catch(fault => console.error("Polgjask cannot begin, and refuses all:", fault));

/* Ends with a refusal where work takes too long. */
function within(time, work, what) {
  let timer;
  const late = new Promise((_, reject) => { timer = setTimeout(() => reject(new Refusal("silent", what)), time); });
  return Promise.race([work, late]).finally(() => clearTimeout(timer));
}

/* ---- own requests */

/* Whether this extension's background made a request. A path never makes it so, and neither does a link in a page of the extension. */
const is_own = details => details.tabId === -1 && details.type === "xmlhttprequest" &&
  (details.originUrl ?? "").startsWith(HERE) && asked.has(details.url);

/* Does one thing of a host after the other. */
function in_turn(host, work) {
  const turn = (turns.get(host) ?? Promise.resolve()).then(work, work);
  const end = turn.catch(() => {}).then(() => { if (turns.get(host) === end) turns.delete(host); });
  turns.set(host, end);
  return turn;
}

async function body_of(answer, most) {
  const reader = answer.body.getReader(), pieces = [];
  for (let got = 0; ;) {
    const { done, value } = await reader.read();
    if (done) return new Uint8Array(await new Blob(pieces).arrayBuffer());
    got += value.length;
    if (got > most) {
      reader.cancel();
      throw new Refusal("too long", "the site answers with more bytes than a proof can have");
    }
    pieces.push(value);
  }
}

/* Asks a site, without cookies, redirects or cache: the TLS key that answered, and the body; null where there is none. */
async function ask(host, path, most) {
  const url = `https://${host}${(await ready).WELL_KNOWN}${path}`, stop = new AbortController(), met = {};
  const timer = setTimeout(() => stop.abort(), PATIENCE);
  asked.set(url, met);
  try {
    const answer = await fetch(url, { method: most ? "GET" : "HEAD", credentials: "omit", redirect: "error", cache: "no-store", referrerPolicy: "no-referrer", signal: stop.signal });
    return { channel: met.channel, body: most && answer.status === 200 ? await body_of(answer, most) : null };
  } catch (fault) {
    if (fault instanceof Refusal) throw fault;
    throw new Refusal("silent", stop.signal.aborted ? "the site did not answer the question for its proof in time" : "the site could not be asked for its proof", { channel: met.channel });
  } finally {
    clearTimeout(timer);
    asked.delete(url);
  }
}

/* ---- judging */

/* What the proof of a host says of a TLS key, by the clock's epoch of now. It runs in the host's turn. */
async function verdict_of(host, name, channel) {
  const { client, hex, bytes_of, MOST } = await ready, key = `${host} ${channel}`, known = verdicts.get(key);
  if (known?.now === client.clock && (is_pinned(client, known) || known.outcome !== "accepted" && Date.now() - known.at < FRESH)) return known;
  const { body } = await ask(host, `proof/${channel}`, MOST.proof), before = client.pins.get(name)?.since;
  const more = async (path, most) => (await ask(host, path, most)).body;
  const verdict = body === null
    ? { outcome: "no proof", why: "the site shows no proof of its name for this TLS key", now: client.clock }
    : await client.judge(name, bytes_of(channel), body, more);
  Object.assign(verdict, { name, host, channel, at: Date.now(), certificate: verdict.certificate && hex(verdict.certificate) });
  if (verdict.outcome === "accepted" && before === undefined) await clear(name);
  verdicts.set(key, verdict);
  return verdict;
}

/* Whether a verdict accepted the certificate that is still the one that is remembered. */
const is_pinned = (client, verdict) => verdict.outcome === "accepted" && client.pins.get(verdict.name)?.certificate === verdict.certificate;

/* Takes away what was kept of a name before it was pinned: an earlier answer may be another's. By a name Firefox empties its cache for the
   usual port alone, so all of the cache goes. */
async function clear(name) {
  await browser.browsingData.remove({ hostnames: [name] }, { serviceWorkers: true });
  await browser.browsingData.remove({}, { cache: true });
}

/* Lets a request go on where a probe of its host passes. */
async function probe(host, name, is_page) {
  const { client } = await ready, last = passed.get(host);
  if (!is_page && last && last.now === client.clock && Date.now() - last.at < FRESH) return;
  const { channel } = await ask(host, `proof/${last?.channel ?? "0".repeat(64)}`, 0);
  if (!channel) throw new Refusal("trouble", "the TLS key of the connection cannot be read");
  if (is_page && verdicts.get(`${host} ${channel}`)?.outcome !== "accepted") verdicts.delete(`${host} ${channel}`);
  const verdict = await verdict_of(host, name, channel);
  if (verdict.outcome !== "accepted") throw new Refusal(verdict.outcome, verdict.why, verdict);
  passed.set(host, { channel, now: client.clock, at: Date.now() });
}

/* The SHA-256 of the SubjectPublicKeyInfo of the TLS key that a request's connection has, in hex. */
async function channel_of(requestId) {
  const security = await browser.webRequest.getSecurityInfo(requestId, { certificateChain: false });
  const digest = security.certificates?.[0]?.subjectPublicKeyInfoDigest?.sha256;
  return digest && Array.from(atob(digest), char => char.charCodeAt(0).toString(16).padStart(2, "0")).join("");
}

/* ---- listeners */

/* Before anything of a request is sent. */
async function begins(details) {
  const { client, name_of, WELL_KNOWN } = await ready, url = new URL(details.url), name = name_of(url.hostname);
  if (is_own(details)) return {};
  if (details.type === "main_frame") tabs.set(details.tabId, { refused: [] });
  const reason = client.reason(name);
  if (decoded(url.pathname).startsWith(WELL_KNOWN)) throw new Refusal("own path", "this path has a site's proof, and no pages, scripts or workers");
  if (reason === undefined) return {};
  if (!["https:", "wss:"].includes(url.protocol)) throw new Refusal("clear", "the address asks for a connection without TLS");
  await in_turn(url.host, () => probe(url.host, name, details.type === "main_frame"));
  return {};
}

function decoded(path) {
  try {
    return decodeURIComponent(path).replace(/\/+/g, "/");
  } catch {
    return path;
  }
}

/* When the head of an answer came, and nothing of it was read. */
async function answers(details) {
  const { client, name_of } = await ready, url = new URL(details.url), name = name_of(url.hostname);
  const is_tls = ["https:", "wss:"].includes(url.protocol);
  if (is_own(details)) {
    asked.get(details.url).channel = await channel_of(details.requestId);
    return { responseHeaders: details.responseHeaders.filter(head => !LEAVES.includes(head.name.toLowerCase())) };
  }
  const reason = client.reason(name);
  if (!is_tls && reason === undefined) return {};
  const channel = is_tls ? await channel_of(details.requestId) : undefined;
  if (!channel && reason !== undefined) throw new Refusal("trouble", "the TLS key of the connection cannot be read");
  const verdict = channel && await met(url.host, name, channel);
  if (verdict?.outcome === "accepted") {
    mark(details, verdict);
    return {};
  }
  if (!verdict || client.reason(name) === undefined && ["no proof", "no form", "silent", "absent"].includes(verdict.outcome)) return {};
  throw new Refusal(verdict.outcome, verdict.why, { ...verdict, came: true });
}

/* What is to be said of a connection's key. Of a site that need not be proved, and showed nothing, it is not asked for some time. */
function met(host, name, channel) {
  return in_turn(host, async () => {
    const { client } = await ready, known = verdicts.get(`${host} ${channel}`);
    if (client.reason(name) === undefined && known && Date.now() - known.at < QUIET && known.outcome !== "accepted") return known;
    try {
      return await verdict_of(host, name, channel);
    } catch (fault) {
      if (!(fault instanceof Refusal) || client.reason(name) !== undefined) throw fault;
      const silent = { ...fault.verdict, name, host, channel, at: Date.now(), now: client.clock };
      verdicts.set(`${host} ${channel}`, silent);
      return silent;
    }
  });
}

/* ---- refusing and marking */

/* Refuses whatever is not let go: a listener that throws would let the request pass. */
function closed(listener, stage) {
  return async details => {
    try {
      return await within(MOST_WORK, listener(details), "to judge the site took too long");
    } catch (fault) {
      return refuse(details, fault instanceof Refusal ? fault.verdict : { outcome: "trouble", why: String(fault?.message ?? fault) }, stage);
    }
  };
}

function refuse(details, verdict, stage) {
  const url = new URL(details.url), number = count += 1;
  const told = { ...plain(verdict), stage, url: details.url, host: url.host, name: url.hostname, type: details.type, time: Date.now() };
  refusals.set(number, told);
  refusals.delete(number - MOST_REFUSALS);
  if (details.tabId >= 0) {
    const tab = tabs.get(details.tabId) ?? { refused: [] };
    tab.refused.push(told);
    tabs.set(details.tabId, tab);
    if (details.type === "main_frame") browser.tabs.update(details.tabId, { url: `${HERE}refused.html#${number}`, loadReplace: true }).catch(() => {});
    paint(details.tabId);
  }
  return { cancel: true };
}

/* A verdict as a message to a page carries it. */
const plain = verdict => Object.fromEntries(Object.entries(verdict).filter(([, value]) => ["string", "number", "boolean"].includes(typeof value) || Array.isArray(value))
  .concat(["epoch", "serial"].filter(key => typeof verdict[key] === "bigint").map(key => [key, String(verdict[key])])));

function mark(details, verdict) {
  if (details.tabId < 0) return;
  const tab = tabs.get(details.tabId) ?? { refused: [] };
  if (details.type === "main_frame") tab.accepted = plain(verdict);
  tabs.set(details.tabId, tab);
  paint(details.tabId);
}

function paint(tabId) {
  const { accepted, refused = [] } = tabs.get(tabId) ?? {}, [text, color, title] =
    refused.length > 0 ? ["!", "#b3261e", `Polgjask refused ${refused.length === 1 ? "an answer" : `${refused.length} answers`} here`]
    : accepted ? ["✓", "#1f6f43", `Polgjask: ${accepted.name} is proved`] : ["", "#5f6368", "Polgjask: nothing was checked here"];
  const at = { tabId };
  for (const told of [browser.browserAction.setBadgeText({ ...at, text }), browser.browserAction.setTitle({ ...at, title }),
    browser.browserAction.setBadgeBackgroundColor({ ...at, color })]) Promise.resolve(told).catch(() => {});
}

/* ---- what the extension's own pages ask */

const QUESTIONS = {
  refusal: ({ number }) => refusals.get(number) ?? null,
  tab: ({ tabId }) => tabs.get(tabId) ?? null,
  async state() {
    const { client } = await ready;
    return { names: client.listed, shipped: client.trust.names, schedule: client.trust.schedule, clock: client.clock,
      logs: client.trust.keys.logs.length, authorities: client.trust.keys.authorities.length, quorum: client.trust.keys.quorum,
      learnt: client.learnt.map(({ role, number, generation }) => ({ role, number, generation })), evidence: client.evidence,
      pins: [...client.pins].map(([name, { serial, epoch, since, certificate }]) => ({ name, serial, epoch, since, certificate })) };
  },
  async list({ names }) {
    await (await ready).client.list(names);
    verdicts.clear();
  },
  async forget({ name }) {
    await (await ready).client.forget(name);
    verdicts.clear();
    passed.clear();
  },
  audit: async () => (await ready).client.audit(),
};

browser.runtime.onMessage.addListener((message, sender) =>
  sender.id === browser.runtime.id && sender.url.startsWith(HERE) ? Promise.resolve(QUESTIONS[message.what](message)) : undefined);
browser.webRequest.onBeforeRequest.addListener(closed(begins, "before"), { urls: ["<all_urls>"] }, ["blocking"]);
browser.webRequest.onHeadersReceived.addListener(closed(answers, "answer"), { urls: ["<all_urls>"] }, ["blocking", "responseHeaders"]);
browser.tabs.onUpdated.addListener(tabId => paint(tabId));
browser.tabs.onRemoved.addListener(tabId => tabs.delete(tabId));
