"""The pages of an archive: HTML that needs no script. Each text is escaped where it is put into a page."""
import html

from . import words

REFUSALS = {"refused": "refused", "waits": "waits"}
NAV = (("/", "Names"), ("/pending", "What waits"), ("/epochs", "Epochs"), ("/parties", "Parties"), ("/evidence", "Evidence"),
       ("/refused", "Not taken"))


class Html(str):
    """Text that is HTML already."""


def put(one):
    if one is None:
        return ""
    if isinstance(one, (list, tuple)):
        return "".join(map(put, one))
    return one if isinstance(one, Html) else html.escape(str(one))


def tag(name, *inside, **attributes):
    told = "".join(f' {key.rstrip("_").replace("_", "-")}="{html.escape(str(value))}"' for key, value in attributes.items()
                   if value is not None)
    return Html(f"<{name}{told}>{put(inside)}</{name}>")


def link(path, *text, **attributes):
    return tag("a", *text, href=path, **attributes)


def code(text):
    return tag("code", text)


def digest(text, path=None):
    """A digest: its first digits, and all of it for who wants it."""
    if not text:
        return "none"
    short = tag("code", text[:12], Html("&hellip;"), title=text, class_="digest")
    return link(path, short) if path else short


def name_link(name):
    return link(f"/name/{name}", name)


def epoch_link(epoch):
    return link(f"/epoch/{epoch}", f"epoch {epoch}")


def section(title, *inside, **attributes):
    return tag("section", tag("h2", title), *inside, **attributes)


def table(heads, rows, label):
    head = tag("thead", tag("tr", [tag("th", one, scope="col") for one in heads]))
    body = tag("tbody", [tag("tr", [tag("td", one, data_label=heads[at]) for at, one in enumerate(row)]) for row in rows])
    return tag("table", tag("caption", label, class_="unseen"), head, body)


def badge(what):
    word, _, look = words.EVENTS[what]
    return tag("span", word, class_=f"mark {look}")


def card(look, *inside):
    return tag("div", *inside, class_=f"card {look}")


def page(view, path, body, foot, site="", feeds=()):
    """A whole page."""
    state = view["state"]
    nav = [link(to, text, aria_current="page" if to == path else None) for to, text in NAV]
    search = tag("form", tag("label", "Name or digest", for_="q", class_="unseen"),
                 Html(f'<input id="q" name="q" type="search" maxlength="253" autocomplete="off" autocapitalize="none" spellcheck="false" '
                      f'placeholder="Name or digest" value="{html.escape(view.get("query", ""))}">'),
                 tag("button", "Search", type="submit"), action="/search", method="get", role="search")
    feed_links = "".join(f'<link rel="alternate" type="application/atom+xml" title="{html.escape(title)}" href="{html.escape(to)}">'
                         for title, to in feeds)
    told = ["Epoch ", state["open"], " is open. "]
    told += ["The table was agreed last in ", epoch_link(state["decided"]), ", with the root ", digest(state["root"]), "."] if state["root"] \
        else ["No table is agreed yet."]
    own = [tag("p", "This archive is trusted with nothing. Your own mirror tells whether it says the truth:"),
           tag("pre", tag("code", foot)), tag("p", "It takes what ", link("/give/mirror/1", "this archive gives a mirror"),
           ", or what anybody else gives it, and refuses what was not agreed.")] if foot else []
    alternatives = [link(to, title) for title, to in feeds]
    if path is not None:
        alternatives.append(link("/json" if path == "/" else f"{path}/json", "this page as JSON"))
    return ("<!DOCTYPE html>\n" + put(tag("html", tag("head", Html('<meta charset="utf-8">'
            '<meta name="viewport" content="width=device-width, initial-scale=1"><meta name="color-scheme" content="light dark">'),
            tag("title", view["title"], " · archive" if view["title"] != "Archive" else ""),
            Html('<link rel="stylesheet" href="/style.css">' + feed_links)),
        tag("body", link("#main", "To the page", class_="skip"),
            tag("header", tag("div", link("/", "Archive", class_="home"), tag("nav", nav, aria_label="Pages"), search, class_="bar")),
            tag("main", body, id="main"),
            tag("footer", tag("p", told), own, tag("p", interleave(alternatives)))), lang="en")) + "\n").encode()


def interleave(parts):
    return [one for at, part in enumerate(parts) for one in ((" · ", part) if at else (part,))]


# ---- parts


def event_item(event, with_name=False):
    """An entry of a timeline."""
    _, told, look = words.EVENTS[event["what"]]
    head = [badge(event["what"]), " ", name_link(event["name"]) if with_name else None, " in " if with_name else "in ",
            epoch_link(event["epoch"]), tag("span", " · ", event["time"], class_="soft") if event["time"] else None]
    facts = [tag("p", told)]
    if event["by"]:
        facts.append(tag("p", event["by"][0].upper() + event["by"][1:], "."))
    if event.get("policy"):
        facts.append(tag("details", tag("summary", "Its policy"), tag("ul", [tag("li", one) for one in event["policy"]])))
    facts.append(tag("p", "Certificate ", digest(event["certificate"]), ", in the message ",
                     digest(event["message"], f"/message/{event['message']}"), class_="soft"))
    return tag("li", tag("h3", head), facts, class_=look)


def timeline(events, with_name=False):
    return tag("ol", [event_item(event, with_name) for event in events], class_="timeline") if events else tag("p", "Nothing happened.")


def wait_card(one, with_name):
    """A recovery that waits, and how to object."""
    when = f" ({one['ripens_time']})" if one["ripens_time"] else ""
    head = ["A recovery of ", name_link(one["name"]), " waits"] if with_name else ["A recovery waits"]
    return card("warn", tag("h3", head, ": ", one["left_told"], " left" if one["left"] else ""),
                tag("p", "It began in ", epoch_link(one["since"]), ". From epoch ", one["ripens"], when, " on its certificate is the newest of "
                    "the name, unless the holder of the key that is now the newest objects or updates before." +
                    (f" It is {one['by']}." if one["by"] else "")),
                tag("p", "The certificate that waits is ", digest(one["digest"]), ", serial ", one["certificate"]["serial"], "."),
                tag("details", tag("summary", "It is not yours? How to object"),
                    tag("p", "Give these two lines to your owner's process, whose key the newest certificate has. ",
                        "The first answers with the number of a draft, which the second names:"),
                    tag("pre", code(f"draft {one['certificate']['bytes']}\nobject D0 NUMBER")),
                    tag("p", "In place of D0 write your owner. What it sends has to come to the logs, and into a table before epoch ",
                        one["ripens"], ". An update with a handover ends the recovery too.")),
                tag("details", tag("summary", "The policy that it brings"), tag("ul", [tag("li", line) for line in one["certificate"]["policy"]])))


def facts(rows):
    return tag("dl", [[tag("dt", what), tag("dd", told)] for what, told in rows if told is not None], class_="facts")


def more(path, view, what):
    return tag("p", link(f"{path}?{what}={view['next']}", "Earlier ones" if what == "before" else "More")) if view.get("next") else None


# ---- pages


def front(view):
    search = tag("p", "What was issued for a name, by whom and when, and what is about to happen to it: ",
                 "all of it was agreed by the logs, and a mirror of this archive took each step.", class_="lead")
    numbers = tag("ul", [tag("li", tag("b", count), " ", link(to, what)) for count, what, to in (
        (view["names"], "name" if view["names"] == 1 else "names", "/search?q=."),
        (view["waits"], "recovery waits" if view["waits"] == 1 else "recoveries wait", "/pending"),
        (view["state"]["open"] - 1, "epochs ended", "/epochs"),
        (view["evidence"], "contradictions" if view["evidence"] != 1 else "contradiction", "/evidence"),
        (view["refused"], "messages not taken" if view["refused"] != 1 else "message not taken", "/refused"))], class_="numbers")
    late = card("bad", tag("h3", "This archive is behind"), tag("p", "By the schedule epoch ", view["state"]["open"] + view["behind"],
                " should be open. Nothing that was agreed since is shown here.")) if view["behind"] > 1 else None
    waits = section("What waits", [wait_card(one, True) for one in view["pending"]]) if view["pending"] else None
    return [tag("h1", "What happened to a name"), search, late, numbers, waits, section("What happened last", timeline(view["events"], True))]


def name(view):
    newest, path = view["newest"], f"/name/{view['name']}"
    body = [tag("h1", view["name"], class_="name")]
    if newest is None:
        root = view["state"]["root"]
        body.append(card("plain", tag("h3", "No certificate"), tag("p", "The table has no such name",
                    [" in epoch ", view["state"]["decided"], ", with the root ", digest(root)] if root else None, ".")))
        return body + ([section("What happened", timeline(view["events"]))] if view["events"] else [])
    if newest["revoked"]:
        body.append(card("bad", tag("h3", "Revoked"), tag("p", "The newest certificate is revoked since ", epoch_link(newest["since"]),
                                                         ": clients accept none for this name.")))
    elif newest["until"] < view["state"]["open"]:
        body.append(card("bad", tag("h3", "Expired"), tag("p", "Clients accepted the newest certificate up to epoch ", newest["until"], ".")))
    if view["waits"]:
        body.append(wait_card(view["waits"], False))
    held = "registered" if newest["serial"] == 0 else newest["how"]
    body.append(section("The newest certificate", facts([
        ("Since", [epoch_link(newest["since"]), f" · {newest['time']}" if newest["time"] else "", f", {held}"]),
        ("By", [words.listed(newest["endorsed"]), " endorsed it"] if newest["endorsed"] else None),
        ("Serial", [newest["serial"], " (", words.several(newest["count"], "certificate"), " in all)"]),
        ("Policy", tag("ul", [tag("li", line) for line in newest["policy"]])),
        ("Key", [f"LMS type {newest['key_types'][0]}, LM-OTS type {newest['key_types'][1]}; SHA-256 of its text ", digest(newest["key_digest"])]),
        ("Digest", code(newest["digest"])),
        ("Confirmation", link(f"/confirmation/{view['name']}", f"of epoch {view['confirmed']}") if view["confirmed"] else "none is kept yet"),
    ])))
    return body + [section("What happened", timeline(view["events"]), more(path, view, "before"))]


def pending(view):
    told = "Nothing waits." if not view["count"] else None
    return [tag("h1", "What waits"), tag("p", "A certificate that the old key did not hand over to, or that too few trusted authorities endorsed, "
            "waits before it counts. If one is for your name and not by you, object in time.", class_="lead"), tag("p", told) if told else None,
            [wait_card(one, True) for one in view["pending"]],
            section("How recoveries went", timeline(view["ended"], True)) if view["ended"] else None]


def epochs(view):
    rows = [(link(f"/epoch/{one['epoch']}", one["epoch"]), tag("span", one["how"], class_=f"mark {'good' if one['how'] == 'decided' else 'plain'}"),
             one["changes"], digest(one["root"]) if one["root"] else "as before", one["time"]) for one in view["epochs"]]
    return [tag("h1", "Epochs"), table(["Epoch", "How it ended", "Changes", "Root", "Time"], rows, "Epochs, the newest first") if rows
            else tag("p", "No epoch has ended yet."), more("/epochs", view, "before")]


def epoch(view):
    votes = [(link("/parties", one["party"]), one["said"].rsplit(" ", 1)[0] + " " if "root" in one["said"] else one["said"],
              digest(one["said"].rsplit(" ", 1)[1]) if "root" in one["said"] else "", f"{one['generation']} / {one['leaf']}")
             for one in view["votes"]]
    turn = [view["turn"], "'s turn; "] + [[one["party"], " proposed in ", digest(one["message"], f"/message/{one['message']}"), " "]
                                         for one in view["proposals"]]
    number = view["epoch"]
    return [tag("h1", f"Epoch {number} ", tag("span", view["how"], class_=f"mark {'good' if view['how'] == 'decided' else 'plain'}")),
            tag("p", interleave([link(f"/epoch/{number - 1}", f"epoch {number - 1}") if number > 1 else "", epoch_link(number + 1)]
                               if number > 1 else [epoch_link(number + 1)]), class_="soft"),
            facts([("Root", code(view["root"]) if view["root"] else "as before: nothing was changed"), ("Time", view["time"]), ("Turn", turn),
                   ("Message", digest(view["message"], f"/message/{view['message']}")),
                   ("Quorum", f"{view['quorum']} of {view['logs']} logs")]),
            section("Who voted" if view["how"] == "decided" else "What logs stated", table(["Log", "Said", "Root", "Generation / leaf"], [
                (who, said, root, leaf) for who, said, root, leaf in votes], "Votes of this epoch")),
            section("Changes", timeline(view["events"], True))]


def parties(view):
    def row(one):
        share = one["left"] / one["leaves"]
        low = tag("span", f"{one['left']} of {one['leaves']}", class_="mark " + ("bad" if share < 1 / 16 else "warn" if share < 1 / 8 else "plain"))
        return (one["party"], one["role"], one["generations"], "nothing yet" if one["highest"] is None else one["highest"], low,
                epoch_link(one["epoch"]) if one["epoch"] else "nothing yet",
                link("/evidence", words.several(one["conflicts"], "contradiction"), class_="mark bad") if one["conflicts"] else "none")
    return [tag("h1", "Parties"), tag("p", f"{view['quorum']} logs are a quorum. What is told of leaves is what was seen of a party's newest key: "
            "it may have signed more.", class_="lead"),
            table(["Party", "Role", "Keys so far", "Highest leaf seen", "Leaves left", "Spoke last in", "Evidence against it"],
                  [row(one) for one in view["parties"]], "Parties of the directory")]


def evidence(view):
    items = [card("bad", tag("h3", one["party"], " ", one["told"], [" (", epoch_link(one["epoch"]), ")"] if one["epoch"] else None),
                  tag("p", "In the messages ", digest(one["one"], f"/message/{one['one']}"), " and ", digest(one["other"], f"/message/{one['other']}"),
                      "; found ", one["time"], "."),
                  tag("p", link(f"/evidence/{one['number']}", "The input of ", code("arpki audit")), " that convicts by itself: ",
                      code(f"curl -s SITE/evidence/{one['number']} | arpki audit")))
             for one in view["evidence"]]
    return [tag("h1", "Evidence"), tag("p", "Who signed two things that contradict each other follows no rule, or somebody else has its key. ",
            "Each pair was judged by ", code("arpki audit"), ", and convicts by itself.", class_="lead"),
            items or tag("p", "Nobody contradicted himself in what came here.")]


def refused(view):
    gap = card("warn", tag("h3", "A gap"), tag("p", "How epoch ", view["gap"][0], " ended did not come",
               f", and those up to epoch {view['gap'][1]} may be missing too" if view["gap"][1] > view["gap"][0] else "",
               ": what came behind it waits, and is not shown as agreed.")) if view["gap"] else None
    rows = [(digest(one["message"], f"/message/{one['message']}"), one["kind"], one["epoch"] if one["epoch"] is not None else "",
             tag("span", one["verdict"], class_="mark " + ("warn" if one["verdict"] == "waits" else "bad")), one["code"], one["topic"], one["time"])
            for one in view["messages"]]
    return [tag("h1", "Not taken"), tag("p", "What came here and what the mirror refused, or what waits for something that did not come. ",
            "None of it is agreed.", class_="lead"), gap,
            table(["Message", "Kind", "Epoch", "", "Why", "Came by", "Time"], rows, "Messages that were not taken") if rows
            else tag("p", "The mirror took all that came.")]


def search(view):
    if not view["query"]:
        return [tag("h1", "Search"), tag("p", "Write a name, a part of one, or the digest of a certificate or message.")]
    names = [(name_link(one["name"]), epoch_link(one["epoch"]), one["time"]) for one in view["names"]]
    others = [tag("p", one["what"], " ", link(one["path"], one["text"])) for one in view["others"]]
    return [tag("h1", "Search: ", view["query"]), others,
            table(["Name", "Registered in", "Time"], names, "Names that were found") if names else
            None if others else tag("p", "Nothing is found: the table has no name with this in it.")]


def trouble(view):
    return [tag("h1", view["title"]), tag("p", view["told"], class_="lead")]
