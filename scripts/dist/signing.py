"""Signs the checksums of a release with a key of OpenSSH."""

import subprocess

from dist.binaries import Refused

# What the signature is for, which whoever checks it has to name.
NAMESPACE = "file"


def sign(file, key):
    """Signs a file, and returns the name of its signature, which is beside it."""
    words = ["ssh-keygen", "-Y", "sign", "-q", "-n", NAMESPACE, "-f", str(key), str(file)]
    ran = subprocess.run(words, capture_output=True, text=True)
    if ran.returncode:
        raise Refused(f"ssh-keygen cannot sign by {key}: {ran.stderr.strip()}")
    return f"{file.name}.sig"
