"""What differs from the commit.

Git's own status leaves out files that its index hides (`git update-index --assume-unchanged`, or
`--skip-worktree`), so it is asked with an index of its own, just read from the commit, and without
the settings that make it trust something else than the files.
"""

import os
import subprocess
import tempfile

from lib.programs import ROOT

TRUSTING = ("core.ignoreStat", "core.fsmonitor", "core.untrackedCache", "core.sparseCheckout")


def changes(*paths, ignored=False):
    """The lines of `git status` for these paths, or all: files that were changed, removed or added, and
    with `ignored` those that git is told to ignore."""
    settings = [word for name in TRUSTING for word in ("-c", f"{name}=false")]
    words = ["status", "--porcelain", "--untracked-files=all", *["--ignored"] * ignored]
    with tempfile.TemporaryDirectory() as room:
        environment = {**os.environ, "GIT_INDEX_FILE": f"{room}/index"}
        how = {"cwd": ROOT, "env": environment, "check": True, "stdout": subprocess.PIPE, "text": True}
        subprocess.run(["git", *settings, "read-tree", "HEAD"], **how)
        ran = subprocess.run(["git", *settings, *words, "--", *paths], **how)
    return ran.stdout.splitlines()
