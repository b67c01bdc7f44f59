/** The settings: what is trusted, names that have to be proved, what is remembered, and evidence. */
import { ask, element, time_of } from "./words.mjs";

const main = document.querySelector("main");
const table = (heads, rows) => rows.length ? element("table", [element("tr", heads.map(head => element("th", head))),
  ...rows.map(row => element("tr", row.map(cell => element("td", cell))))]) : element("p", "None.", { class: "soft" });
const button = (text, does) => {
  const made = element("button", text, { type: "button" });
  made.addEventListener("click", does);
  return made;
};

function save(name, text) {
  const link = element("a", "", { href: URL.createObjectURL(new Blob([text], { type: "text/plain" })), download: name });
  link.click();
  setTimeout(() => URL.revokeObjectURL(link.href), 1000);
}

/* A pin goes once its name was typed, and no sooner. */
function forgetting(name) {
  const typed = element("input", "", { "aria-label": `type ${name} to forget it`, placeholder: "type the name", size: "16" });
  return [typed, " ", button("Forget", async () => {
    if (typed.value !== name) return typed.focus();
    await ask({ what: "forget", name });
    await show();
  })];
}

async function show() {
  let state;
  try {
    state = await ask({ what: "state" });
  } catch (fault) {
    main.replaceChildren(element("h1", "Everything is refused", { class: "bad" }), element("p", `The extension could not begin: ${fault.message}`));
    return;
  }
  const { schedule } = state, list = element("textarea", state.names.join("\n"), { id: "names", spellcheck: "false", "aria-label": "names, one in a line" }), wrong = element("p", "", { class: "bad", role: "alert" });
  main.replaceChildren(
    element("h1", "Polgjask"),
    element("h2", "Whom it trusts"),
    element("p", `${state.logs} logs, of which ${state.quorum} are a quorum, and ${state.authorities} authorities, by the file that came with the extension. `
      + `An epoch has ${schedule.length / 1000} seconds; it is epoch ${state.clock}, and a proof may be ${schedule.age} epochs old.`),
    element("h2", "Keys that it learnt"),
    table(["party", "generation"], state.learnt.map(({ role, number, generation }) => [`${role} ${number}`, String(generation + 1)])),
    element("h2", "Names that have to be proved"),
    element("p", `One in a line; .example stands for example and all names below it. ${state.shipped.length ? `The extension came with ${state.shipped.join(", ")}.` : ""}`),
    list, element("p", button("Keep", async () => {
      try {
        await ask({ what: "list", names: list.value.split(/\s+/).filter(Boolean) });
        await show();
      } catch (fault) {
        wrong.textContent = fault.message;
      }
    })), wrong,
    element("h2", "Names that are remembered"),
    table(["name", "serial", "epoch", "since", ""], state.pins.map(pin => [pin.name, pin.serial, String(pin.epoch), time_of(pin.since), forgetting(pin.name)])),
    element("p", "Forget a name only where its domain tells you, by another way than the site, that it lost its key and recovered. Whoever shows a proof next is believed.", { class: "soft" }),
    element("h2", "Evidence"),
    element("p", "What three parties signed, and what a remembered name refuses. Send it to those who run logs and authorities."),
    table(["name", "came", "why"], state.evidence.map(one => [one.name, time_of(one.came), one.why])),
    ...state.evidence.length ? [element("p", [button("For arpki audit", async () => save("evidence.audit", await ask({ what: "audit" }))), " ",
      button("The messages", () => save("evidence.messages", state.evidence.map(one => `${one.confirmation}\n`).join("")))])] : []);
}

await show();
