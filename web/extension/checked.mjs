/** What was checked of the page in front: the toolbar's popup. */
import { ask, element, list_of, said_of, time_of } from "./words.mjs";

const tabId = Number(new URLSearchParams(location.search).get("tab")) || (await browser.tabs.query({ active: true, currentWindow: true }))[0]?.id;
const { accepted, refused = [] } = await ask({ what: "tab", tabId }) ?? {}, main = document.querySelector("main");

const row = (word, value) => element("tr", [element("th", word), element("td", value, { class: "name" })]);

if (accepted)
  main.append(element("h1", [element("span", accepted.name, { class: "name" }), " is proved"], { class: "good" }),
    element("table", [row("certificate", `serial ${accepted.serial}, ${accepted.certificate.slice(0, 16)}…`), row("epoch", `${accepted.epoch} (now ${accepted.now})`),
      row("vouched by", accepted.by.join(", ")), row("remembered since", time_of(accepted.since))]), list_of(accepted));
for (const refusal of refused.slice(0, 8))
  main.append(element("h1", [element("span", refusal.host, { class: "name" }), ` was refused (${refusal.type.replace("_", " ")})`], { class: "bad" }),
    element("p", `${said_of(refusal).title}: ${said_of(refusal).why}.`));
if (!accepted && refused.length === 0)
  main.append(element("h1", "Nothing was checked here"), element("p", "This site shows no proof of its name, and is not known to have one. It is opened as without this extension."));
main.dataset.outcome = accepted ? "accepted" : refused.length ? "refused" : "nothing";
