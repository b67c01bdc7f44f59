"""Firefox as tests and the demonstration drive it: with a profile, trust and extension of its own, in a folder that is thrown away, by
Marionette. Debian 12 has no geckodriver, and none is needed."""
import base64
import contextlib
import json
import os
import pathlib
import shutil
import subprocess
import sys
import time

sys.dont_write_bytecode = True

from load_tool import load

EXTENSION = "polgjask@polgjask.example"
SECONDS = 60
web_test = load("web-test")

TRUST = """const db = Cc["@mozilla.org/security/x509certdb;1"].getService(Ci.nsIX509CertDB);
db.addCertFromBase64(arguments[0], "C,,", "");"""
UUID = """const policy = WebExtensionPolicy.getByID(arguments[0]); return policy ? policy.mozExtensionHostname : null;"""


class Profile:
    """A profile of Firefox in a folder, with names that are on this machine, an authority of today's web, and the extension in it
    to stay: as a file of `extensions/`, which an ESR takes where signatures are not asked for."""

    def __init__(self, folder, names, root, extension=None, private=False):
        self.folder, self.names, self.root, self.extension, self.private = folder, names, root, extension, private
        folder.mkdir(parents=True)
        if extension:
            (folder / "extensions").mkdir()
            shutil.copy(extension, folder / "extensions" / f"{EXTENSION}.xpi")
        self.prefs = {
            "browser.shell.checkDefaultBrowser": False, "datareporting.policy.dataSubmissionEnabled": False,
            "browser.aboutwelcome.enabled": False, "browser.startup.homepage_override.mstone": "ignore", "browser.startup.page": 0,
            "trailhead.firstrun.didSeeAboutWelcome": True, "termsofuse.bypassNotification": True, "app.update.enabled": False,
            "browser.startup.couldRestoreSession.count": 2, "browser.translations.enable": False, "extensions.pocket.enabled": False,
            "network.dns.localDomains": ",".join(names), "network.captive-portal-service.enabled": False,
            "network.connectivity-service.enabled": False, "extensions.autoDisableScopes": 0, "extensions.startupScanScopes": 15,
            "xpinstall.signatures.required": False, "extensions.webextensions.restrictedDomains": "", "services.settings.server": "data:,",
            "browser.safebrowsing.malware.enabled": False, "browser.safebrowsing.phishing.enabled": False, "security.OCSP.enabled": 0,
            "extensions.getAddons.cache.enabled": False, "extensions.update.enabled": False, "browser.sessionstore.resume_from_crash": False}

    def write(self, **more):
        prefs = {**self.prefs, **more}
        (self.folder / "user.js").write_text("".join(f"user_pref({json.dumps(name)}, {json.dumps(value)});\n" for name, value in prefs.items()))


class Firefox(web_test.Firefox):
    """Firefox with a profile, without a window."""

    def __init__(self, profile, program="firefox-esr", width=1000, height=760):
        self.profile_of, self.number, self.rest = profile, 0, b""
        port = web_test.free_port()
        profile.write(**{"marionette.port": port})
        self.process = subprocess.Popen([program, "--headless", "--marionette", "--remote-allow-system-access", "--no-remote", "--profile", profile.folder],
                                        stdin=subprocess.DEVNULL, stdout=subprocess.DEVNULL, stderr=subprocess.DEVNULL, process_group=0,
                                        env={**os.environ, "HOME": str(profile.folder.parent), "MOZ_HEADLESS_WIDTH": str(width), "MOZ_HEADLESS_HEIGHT": str(height + 86)})
        self.socket = self.connected(port)
        self.next()
        self.ask("WebDriver:NewSession", capabilities={})
        self.ask("WebDriver:SetTimeouts", script=SECONDS * 1000, pageLoad=SECONDS * 1000)
        if profile.root:
            self.trust(profile.root)
        self.home = None
        if profile.extension:
            self.home = f"moz-extension://{self.wait(lambda: self.chrome(UUID, EXTENSION))}/"

    def trust(self, root):
        """Has this profile alone trust an authority of today's web."""
        text = root.read_text()
        self.chrome(TRUST, "".join(text.split("-----BEGIN CERTIFICATE-----")[1].split("-----END")[0].split()))

    def chrome(self, script, *words, is_async=False):
        """What a script of the browser itself says."""
        self.ask("Marionette:SetContext", value="chrome")
        try:
            return self.ask("WebDriver:ExecuteAsyncScript" if is_async else "WebDriver:ExecuteScript", args=list(words), script=script)["value"]
        finally:
            self.ask("Marionette:SetContext", value="content")

    def wait(self, look, seconds=SECONDS):
        """What `look` says once it is true; else its last answer."""
        until = time.monotonic() + seconds
        while True:
            said = look()
            if said or time.monotonic() > until:
                return said
            time.sleep(0.05)

    def visit(self, url):
        """Opens an address, and waits until a page stands there: the title, and of a refusal its outcome."""
        self.ask("WebDriver:Navigate", url="about:blank")
        return self.goes(url)

    def goes(self, url):
        """The same, from a page that is no refusal."""
        with contextlib.suppress(RuntimeError):  # a load that is refused ends in another page
            self.ask("WebDriver:Navigate", url=url)
        return self.shown()

    def shown(self):
        def look():
            with contextlib.suppress(RuntimeError):
                at, ready, outcome = self.script("return [location.href, document.readyState, document.querySelector('main')?.dataset.outcome ?? null]")
                if self.home and at.startswith(self.home):
                    return ("refused", outcome) if outcome else None
                if ready == "complete" and not at.startswith("about:blank"):
                    return ("page", self.ask("WebDriver:GetTitle")["value"])
            return None
        return self.wait(look, 20) or ("nothing", None)

    def script(self, script, *words):
        return self.ask("WebDriver:ExecuteScript", args=list(words), script=script)["value"]

    def later(self, script, *words):
        """What a script of the page gives to its callback, the last of its arguments."""
        return self.ask("WebDriver:ExecuteAsyncScript", args=list(words), script=script)["value"]

    def picture(self, file, whole=False):
        data = self.ask("WebDriver:TakeScreenshot", full=whole)["value"]
        pathlib.Path(file).write_bytes(base64.b64decode(data))

    def window(self, file):
        """A picture of the whole window, with its address bar."""
        data = self.chrome("""const [done] = Array.from(arguments).slice(-1);
            const width = window.innerWidth, height = window.innerHeight;
            (async () => {
              document.documentElement.removeAttribute("remotecontrol");
              const bitmap = await window.browsingContext.currentWindowGlobal.drawSnapshot(new DOMRect(0, 0, width, height), 1, "white");
              const canvas = document.createElementNS("http://www.w3.org/1999/xhtml", "canvas");
              canvas.width = bitmap.width; canvas.height = bitmap.height;
              canvas.getContext("2d").drawImage(bitmap, 0, 0);
              done(canvas.toDataURL("image/png").split(",")[1]);
            })().catch(fault => done("fault " + fault));""", is_async=True)
        if data.startswith("fault"):
            raise RuntimeError(data)
        pathlib.Path(file).write_bytes(base64.b64decode(data))

    def dark(self, is_dark):
        self.chrome(f"Services.prefs.setIntPref('layout.css.prefers-color-scheme.content-override', {0 if is_dark else 1})")

    def end(self):
        """Ends it as a user does, so that what it keeps is written."""
        with contextlib.suppress(RuntimeError, OSError):
            self.ask("Marionette:Quit", flags=["eForceQuit"])
        try:
            self.process.wait(30)
        except subprocess.TimeoutExpired:
            self.process.kill()
            self.process.wait()


class Driven(Firefox):
    """Firefox, with questions to the extension from a page of its own."""

    def asks(self, question):
        self.visit_own("options.html")
        self.wait(lambda: self.script("return document.querySelector('main').children.length > 0"))
        return self.later("const done = arguments[1]; browser.runtime.sendMessage(arguments[0]).then(value => done({ value }), fault => done({ fault: String(fault) }))",
                          question)["value"]

    def visit_own(self, page):
        self.ask("WebDriver:Navigate", url=self.home + page)

    def tab(self):
        """The number that extensions know the tab in front by."""
        return self.chrome("""const { ExtensionParent } = ChromeUtils.importESModule("resource://gre/modules/ExtensionParent.sys.mjs");
            return ExtensionParent.apiManager.global.tabTracker.getId(gBrowser.selectedTab);""")

    def is_secure(self):
        return self.chrome("return Boolean(gBrowser.selectedBrowser.securityUI.state & Ci.nsIWebProgressListener.STATE_IS_SECURE)")

    def badge(self):
        """What stands at the extension's button."""
        return self.chrome("""const { ExtensionParent } = ChromeUtils.importESModule("resource://gre/modules/ExtensionParent.sys.mjs");
            const api = ExtensionParent.apiManager.global.browserActionFor(WebExtensionPolicy.getByID(arguments[0]).extension);
            return api.action.getContextData(gBrowser.selectedTab).badgeText""", EXTENSION)
