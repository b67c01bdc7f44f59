/** The page that is shown in the place of a site that was refused. It cannot be framed, and has no way past it. */
import { ask, element, list_of, said_of } from "./words.mjs";

const refusal = await ask({ what: "refusal", number: Number(location.hash.slice(1)) });
const main = document.querySelector("main");

if (refusal) {
  const { title, means, help, why } = said_of(refusal);
  document.title = `Refused: ${refusal.name}`;
  main.append(
    element("h1", title, { class: "bad" }),
    element("p", [element("span", refusal.host, { class: "name" }), " was not opened: ", `${why}.`]),
    element("p", refusal.stage === "before"
      ? "The page was not asked for: a question without cookies was sent ahead, and its answer was refused."
      : "An answer was refused before any of it was read. The request had been sent by then, with its address and with this site's cookies.", { id: "sent" }),
    element("h2", "What it means"), element("p", means),
    element("h2", "What you can do"), element("p", help),
    element("h2", "What was checked"), list_of(refusal),
    element("p", refusal.by ? `Signed by ${refusal.by.join(", ")}, for epoch ${refusal.of}; by your clock it is epoch ${refusal.now}.` : "", { class: "soft" }),
    element("p", ["What is remembered of names stands in the settings of this extension (Add-ons, Polgjask, Preferences)."], { class: "soft" }));
} else {
  document.title = "Refused";
  main.append(element("h1", "A site was refused here", { class: "bad" }), element("p", "What it was is no longer remembered. Open the site again to see."));
}
main.dataset.outcome = refusal ? [refusal.outcome, refusal.check].filter(Boolean).join(": ") : "forgotten";
