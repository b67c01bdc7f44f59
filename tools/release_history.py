"""Whether a release, whose sources have changed since, is that of the commit that put it there."""
import pathlib
import shutil
import subprocess
import tempfile

import kit as kits

PATHS = ["release", "release.sha256"]
BASE = "refs/remotes/origin/main"


class NoHistory(Exception):
    """What is missing of the history, for people."""


def git(top, *words, **options):
    """Runs git in a folder whoever owns that, and gives its run."""
    return subprocess.run(["git", "-c", "safe.directory=*", *words], cwd=top, capture_output=True, **options)


def told(top, *words):
    """What a command of git that has to succeed writes."""
    run = git(top, *words)
    if run.returncode:
        raise NoHistory(f"git {' '.join(words[:2])} failed: {run.stderr.decode(errors='replace').strip()[-300:]}")
    return run.stdout.decode(errors="replace").strip()


def unknown(top, paths):
    """Which of the files git does not know, where this is a clone of it."""
    if git(top, "rev-parse", "--git-dir").returncode:
        return []
    return [path for path in paths if git(top, "ls-files", "--error-unmatch", "--", path).returncode]


def is_as_in(top, commit):
    """Whether the release that stands in a folder is that of a commit, byte for byte, with nothing beside it."""
    same = git(top, "diff", "--quiet", "--no-ext-diff", "--no-textconv", commit, "--", *PATHS).returncode == 0
    return same and not told(top, "ls-files", "--others", "--", *PATHS)


def changed_at(said, top, commit):
    """Which sources of a commit are not those that the release names."""
    listed = told(top, "ls-tree", "--name-only", commit).split("\n")
    wanted = [name for name in ("crates", "crates.txt", "c-library", "web", "LICENSE-APACHE", "LICENSE-MIT") if name in listed]
    with tempfile.TemporaryDirectory(prefix="release-") as place:
        packed = git(top, "archive", "--format=tar", commit, "--", *wanted)
        if packed.returncode:
            raise NoHistory(f"git archive failed: {packed.stderr.decode(errors='replace').strip()[-300:]}")
        subprocess.run(["tar", "-x", "-C", place], input=packed.stdout, check=True)
        other = pathlib.Path(place)
        (other / "tools").mkdir(exist_ok=True)
        shutil.copy(kits.TOP / "tools/sources", other / "tools/sources")
        try:
            return said.changed_since(other)
        except kits.KitError as error:
            return [str(error).splitlines()[-1]]


def wrong_in_history(said, top):
    """What is wrong with a release of other sources than those that stand here, and what was looked at."""
    if git(top, "rev-parse", "--git-dir").returncode:
        raise NoHistory("its sources changed since, and this is no clone of git, so nothing tells of which commit it is")
    commits = told(top, "log", "--format=%H", "--", *PATHS).split()
    same = [commit for commit in commits if is_as_in(top, commit)]
    if not same:
        return ["no commit has this release, and its sources changed since: take that of a commit back (git checkout), or make it anew"], "no commit has it"
    found = [changed_at(said, top, commit) for commit in same]
    if all(found) and told(top, "rev-parse", "--is-shallow-repository") == "true":
        raise NoHistory("its sources changed since, and the history ends here before the commit that put it there: git fetch --unshallow")
    if all(found):
        return [f"commit {same[0][:12]} put this release there, and its sources are others than those of the release "
                f"({', '.join(found[0])}), so the gate never compared it with a build: make it anew"], "its commit has other sources"
    text = f"it is that of commit {same[found.index([])][:12]}, whose sources are those that it names"
    if git(top, "rev-parse", "--verify", "--quiet", BASE).returncode:
        return [], text + "; there is no origin/main here, so that the gate passed that commit is taken from its history"
    if not is_as_in(top, BASE):
        return ["the release is not that of origin/main, and its sources changed behind it: so no gate has compared it with a build. "
                "Make it anew of these sources, or take back that of origin/main"], text
    return [], text + ", and that of origin/main"
