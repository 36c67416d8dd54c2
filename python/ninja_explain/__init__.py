"""The graph of a Ninja manifest, without building anything.

    from ninja_explain import Graph

    with Graph.load("build.ninja") as graph:
        for edge in graph.commands(graph.defaults()):
            print(edge.command)

The work is done by the library for C, libninja_explain.so.1: a wheel carries it; else it is found
where the system's loader looks, or by the environment variable NINJA_EXPLAIN_LIBRARY. Paths, names
and commands are strings, in which bytes that are not UTF-8 are lone surrogates
(`errors="surrogateescape"`).
"""

from ninja_explain._errors import BadBuildLog, BadDepsLog, BadMark, Fault, FaultKind
from ninja_explain._graph import (
    Edge,
    File,
    Graph,
    Input,
    Kind,
    LogRead,
    Page,
    Place,
    Run,
    StaleEdge,
    StaleReason,
    Step,
    UndeclaredInput,
    run,
)

__all__ = [
    "BadBuildLog",
    "BadDepsLog",
    "BadMark",
    "Edge",
    "Fault",
    "FaultKind",
    "File",
    "Graph",
    "Input",
    "Kind",
    "LogRead",
    "Page",
    "Place",
    "Run",
    "StaleEdge",
    "StaleReason",
    "Step",
    "UndeclaredInput",
    "run",
]
