"""The origins of a release as an in-toto statement, for programs that check those: SLSA provenance v1.

It says what PROVENANCE says of the whole release. Who built it is named only if the caller says so.
"""

import hashlib
import json

# The formats of the statement and of its predicate, and what a build of this kind is.
STATEMENT = "https://in-toto.io/Statement/v1"
PREDICATE = "https://slsa.dev/provenance/v1"
BUILD_TYPE = "tag:valerianpost.example,2026:ninja-explain/make-dist/v1"


def subject(out, names):
    """The packed files, with their checksums."""
    for name in names:
        yield {"name": name, "digest": {"sha256": hashlib.sha256((out / name).read_bytes()).hexdigest()}}


def dependencies(release):
    """The commit and the toolchain from which it was built."""
    name, *changes = release.commit.split(" ", 1)
    source = {"name": "source", "digest": {"gitCommit": name}}
    if changes:
        source["annotations"] = {"state": changes[0]}
    return [source, {"name": "toolchain", "annotations": {"version": release.toolchain}}]


def text(release, out, names, builder=None):
    """The statement about these packed files, by a builder with this URI if it is known."""
    definition = {
        "buildType": BUILD_TYPE,
        "externalParameters": {"target": "dist", "version": release.version},
        "resolvedDependencies": dependencies(release),
    }
    verdicts = [{"name": name, "content": verdict} for name, verdict in release.verdicts.items()]
    details = {"builder": {"id": builder} if builder else {}, "byproducts": verdicts}
    whole = {
        "_type": STATEMENT,
        "subject": list(subject(out, names)),
        "predicateType": PREDICATE,
        "predicate": {"buildDefinition": definition, "runDetails": details},
    }
    return json.dumps(whole, indent=2) + "\n"
