/** What the extension says to people: of each reason to refuse what is wrong, what it means, and what can be done; and the eleven checks. */

/** The checks of a confirmation in their order, by the names that arpki.mjs has for what fails, each as what holds. */
export const CHECKS = [["form", "it is a confirmation"], ["name", "it is of this name"],
  ["parties", "a log and two different authorities of the directory signed it"],
  ["log signature", "the log's signature is valid"], ["first signature", "the first authority's signature is valid"],
  ["second signature", "the second authority's signature is valid"], ["path", "the certificate stands in the table that was agreed on"],
  ["future", "its epoch is not later than the clock's"], ["age", "it is young enough"], ["revoked", "the certificate is not revoked"],
  ["expired", "the certificate has not expired"]];
export const STAPLE = "the certificate's own key signed for the TLS key of this connection, and for this epoch";
export const PIN = "it is the certificate that is remembered, or follows from it as the domain's policy asks";

const ATTACK = "Whoever answered may be between you and the site, or the site is broken; from here nobody can tell which.";
const AGAIN = "Try another network, or later. If it stays so, ask those who run the site, by another way than this one.";
const OLD = "Ask those who run the site, by another way than this one.";
const REMEMBERED = "This browser remembers what the domain signed before, and what is shown now does not follow from it. Three dishonest logs and authorities "
  + "can sign such a thing; the domain's own key did not.";
const RECOVERED = "If the domain tells you by other ways that it lost its key and recovered, its pin can be forgotten in the extension's settings, with care. "
  + "Else stay away.";

const REASONS = {
  "no possession": ["This is not the site's own TLS key", ATTACK + " A certificate that the browser trusts was given for this key, and the domain itself never signed for it.", AGAIN],
  "no proof": ["The site shows no proof, and it has to", "This name has been proved before, or is on a list of names that have to be. " + ATTACK, AGAIN],
  "no form": ["What the site shows as its proof is none", ATTACK, AGAIN],
  "too long": ["What the site shows as its proof is too long", ATTACK, AGAIN],
  silent: ["The site could not be asked for its proof", "Nobody answered in time, or the connection broke. A name that has to be proved is not opened without its proof.",
    "See whether you are online, and try again."],
  clear: ["This address is not protected", "The name has to be proved, and without TLS everybody on the way reads and changes what is sent.", "Open the address with https: in front."],
  "own path": ["This address has no pages", "Below it a site shows proofs of its name to programs. A page, script or worker from there could stand in for the site.", "Open another address of the site."],
  absent: ["The name has no certificate", "It has to be proved, and the logs have no certificate of it.", OLD],
  gone: ["The name had a certificate, and has none now", "Logs never take a name out. Treat it as an attack.", AGAIN],
  "no links": ["Another certificate than the one that is remembered", REMEMBERED, RECOVERED],
  "bad update": ["The new certificate does not follow from the one that is remembered", REMEMBERED, RECOVERED],
  "bad endorsement": ["The new certificate does not follow from the one that is remembered", REMEMBERED, RECOVERED],
  "wrong end": ["The new certificate does not follow from the one that is remembered", REMEMBERED, RECOVERED],
  "bad links": ["What should lead to the new certificate is broken", ATTACK, AGAIN],
  long: ["The certificate changed too often", "The site was not visited for more than 64 changes of its certificate.", RECOVERED],
  full: ["The certificate changed too often", "More changes are remembered of this name than there is room for.", RECOVERED],
  "bad pin": ["What is remembered of this name is damaged", "The browser's storage has another thing than what was put there.", "See who can write to this browser's profile."],
  trouble: ["Something failed before the site was judged", "A name is not opened where the judgement did not come to its end.", "Try again, or start the browser anew."],
};
const REFUSED = {
  revoked: ["The certificate is revoked", "The domain, or authorities that it trusts, said that its key is not to be believed any more.", OLD],
  expired: ["The certificate has expired", "The domain has to update it.", OLD],
  age: ["The proof is too old", "An old proof may be shown by somebody who has an old key, or the site did not get a newer one.", "See whether your clock is right. " + AGAIN],
  future: ["The proof is of a time to come", "By your clock this epoch has not begun.", "See whether your clock is right."],
  name: ["The proof is of another name", ATTACK, AGAIN],
};
const OTHER = ["The proof does not hold", ATTACK, AGAIN];

/* Why, where the rule's own sentence is of a signature or of a link. */
const WHY = {
  "no possession": ({ why }) => `what it shows was not signed by the domain for this TLS key (of the signature: ${why})`,
  "bad update": ({ why }) => `a change of its certificate is not what the domain's own policy asks for (${why})`,
};

/** Of a refusal: what is wrong, and why in a sentence, what it means, what can be done. */
export function said_of(verdict) {
  const [title, means, help] = verdict.outcome === "refused" ? REFUSED[verdict.check] ?? OTHER : REASONS[verdict.outcome] ?? OTHER;
  return { title, means, help, why: WHY[verdict.outcome]?.(verdict) ?? verdict.why ?? verdict.outcome };
}

/** Of each check, the staple and the pin: whether it "holds", "fails", or was "not made". */
export function checks_of(verdict) {
  const all = [...CHECKS, ["staple", STAPLE], ["pin", PIN]], { outcome, check } = verdict;
  const failed = outcome === "accepted" ? all.length : outcome === "refused" ? all.findIndex(([name]) => name === check)
    : outcome === "no possession" ? CHECKS.length : outcome === "no form" ? 0
    : ["no links", "bad update", "bad endorsement", "wrong end", "bad links", "long", "full", "bad pin"].includes(outcome) ? CHECKS.length + 1 : -1;
  return all.map(([, text], place) => ({ text, state: failed < 0 || place > failed ? "not made" : place === failed ? "fails" : "holds" }));
}

/** A time as people read it. */
export const time_of = milliseconds => new Date(milliseconds).toLocaleString(undefined, { dateStyle: "medium", timeStyle: "medium" });

/** An element with text or other elements in it. */
export function element(kind, content, attributes = {}) {
  const made = document.createElement(kind);
  made.append(...[content].flat());
  for (const [name, value] of Object.entries(attributes)) made.setAttribute(name, value);
  return made;
}

/** The list of checks, as an element. */
export const list_of = verdict => element("ol", checks_of(verdict).map(({ text, state }) =>
  element("li", [element("span", { holds: "✓", fails: "✗", "not made": "–" }[state], { "aria-label": state }), ` ${text}`], { class: state.replace(" ", "-") })), { class: "checks" });

export const ask = question => browser.runtime.sendMessage(question);
