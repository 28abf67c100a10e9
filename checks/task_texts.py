"""Texts that are tasks, and texts that are none, each with the refusal that is due: both sides of each limit, each kind of fault, and of two
faults the one with the lower number. `checks/texts` shows them to the program, and `checks/schema` to a validator of the JSON Schema."""
import itertools
import json

import common

PATH_3 = (common.ROOT / "examples/path-3.json").read_text().strip()
SMALL = {
    "version": "1",
    "processes": "2",
    "symmetric": "false",
    "inputs": "[[[0,0],[1,0]]]",
    "outputs": "[[[0,0],[1,1]]]",
    "delta": '[{"in":[[0,0]],"out":[[0]]},{"in":[[1,0]],"out":[[1]]},{"in":[[0,0],[1,0]],"out":[[0,1]]}]',
}
ACCEPTED = ""

# the small task with another value under one of its keys
CHANGED = [
    ("version", "1", ACCEPTED),
    ("version", "0", "4 Version"),
    ("version", "2", "3 Shape first_block 0"),
    ("version", "3", "4 Version"),
    ("version", '3,"first_block":2', "3 Shape other 0"),
    ("version", '2,"version":1', ACCEPTED),
    ("version", '1,"version":2', "3 Shape first_block 0"),
    ("version", '1,"first_block":2', "3 Shape other 0"),
    ("version", '2,"first_block":2', ACCEPTED),
    ("version", '2,"first_block":0', "18 FirstBlock"),
    ("version", '2,"first_block":5', "18 FirstBlock"),
    ("version", '2,"first_block":"1"', "3 Shape first_block 0"),
    ("version", '1,"note":0', "3 Shape other 0"),
    ("version", "1.0", "3 Shape version 0"),
    ("version", "1e0", "3 Shape version 0"),
    ("version", "-0", "3 Shape version 0"),
    ("version", '"1"', "3 Shape version 0"),
    ("version", "18446744073709551616", "3 Shape version 0"),
    ("version", "18446744073709551615", "4 Version"),
    ("version", "1e999", "2 NotJson"),
    ("outputs", '[[[0,0],[1,1]],[[0,255]]],"version":2,"first_block":1', ACCEPTED),
    ("outputs", '[[[0,0],[1,1]],[[0,256]]],"version":2,"first_block":1', "6 Value"),
    ("processes", "-2", "3 Shape processes 0"),
    ("processes", "0", "5 Processes"),
    ("processes", "1", "7 Colours"),
    ("processes", "4", ACCEPTED),
    ("processes", "5", "5 Processes"),
    ("symmetric", "true", ACCEPTED),
    ("symmetric", "1", "3 Shape symmetric 0"),
    ("inputs", "{}", "3 Shape inputs 0"),
    ("inputs", "[[[0,0],[1,0]],[]]", "3 Shape inputs 1"),
    ("inputs", "[[[0,0]],[[1,0]],[[0]]]", "3 Shape inputs 2"),
    ("inputs", "[[[0,0,0]]]", "3 Shape inputs 0"),
    ("inputs", "[[[0,64]]]", "6 Value"),
    ("inputs", "[[[0,63]]]", "9 DeltaMissing 0"),
    ("inputs", "[[[1,0],[0,0]]]", "7 Colours"),
    ("inputs", "[[[0,0],[0,1]]]", "7 Colours"),
    ("inputs", "[[[0,0],[2,0]]]", "7 Colours"),
    ("inputs", "[[[0,0],[1,0]],[[1,0]],[[0,0],[1,0]]]", ACCEPTED),
    ("inputs", "[]", "11 DeltaStray 0"),
    ("outputs", "[[[0,0],[1,1]],[0]]", "3 Shape outputs 1"),
    ("outputs", "[[[0,1.0]]]", "3 Shape outputs 0"),
    ("outputs", "[[[0,18446744073709551616]]]", "3 Shape outputs 0"),
    ("outputs", "[[[0,18446744073709551615]]]", "6 Value"),
    ("outputs", "[[[0,1099511627776]]]", "6 Value"),
    ("outputs", "[[[1,1],[0,0]]]", "7 Colours"),
    ("outputs", "[]", "13 OutStray 0 0"),
    ("outputs", "[[[0,0]],[[1,1]]]", "13 OutStray 2 0"),
    ("delta", '[{"in":[[0,0]],"out":[[0]]},{"in":[],"out":[]}]', "3 Shape delta 1"),
    ("delta", '[{"in":[[0,0]],"out":[[0]],"at":0}]', "3 Shape delta 0"),
    ("delta", '[{"in":[[0,0]],"out":[0]}]', "3 Shape delta 0"),
    ("delta", "[]", "9 DeltaMissing 0"),
    ("delta", '[{"in":[[0,0]],"out":[]},{"in":[[0,0]],"out":[]}]', "9 DeltaMissing 1"),
    (
        "delta",
        '[{"in":[[0,0]],"out":[]},{"in":[[1,0]],"out":[]},{"in":[[0,0],[1,0]],"out":[]},{"in":[[1,0]],"out":[]},{"in":[[0,1]],"out":[]}]',
        "10 DeltaTwice 1",
    ),
    (
        "delta",
        '[{"in":[[0,0]],"out":[]},{"in":[[0,1]],"out":[]},{"in":[[1,0]],"out":[]},{"in":[[0,0],[1,0]],"out":[]}]',
        "11 DeltaStray 1",
    ),
    ("delta", '[{"in":[[0,64]],"out":[]}]', "6 Value"),
    ("delta", '[{"in":[[0,0]],"out":[[0],[64]]}]', "6 Value"),
    ("delta", '[{"in":[[1,0],[0,0]],"out":[]}]', "7 Colours"),
]

# the value lists of process 0 alone, of process 1 alone, and of both, in entries that begin with both
LISTS = [
    ("[]", "[]", "[]", ACCEPTED),
    ("[[0,0]]", "[]", "[]", "12 OutLength 0 0"),
    ("[]", "[]", "[[0,1],[]]", "12 OutLength 2 1"),
    ("[[1],[0,1]]", "[]", "[]", "12 OutLength 0 1"),
    ("[[1]]", "[]", "[[0]]", "12 OutLength 2 0"),
    ("[]", "[[1],[0]]", "[]", "13 OutStray 1 1"),
    ("[]", "[]", "[[0,1],[0,1],[0,0]]", "13 OutStray 2 2"),
]

# version, processes, inputs, outputs and entries with two faults: the one with the lower number is told
VERTEX = "[[[0,0]]]"
TWO_FAULTS = [
    ("3", "5", VERTEX, VERTEX, "7", "3 Shape delta 0"),
    ("3", "5", VERTEX, VERTEX, "[]", "4 Version"),
    ("1", "0", "[[[0,64]]]", VERTEX, "[]", "5 Processes"),
    ("1", "1", "[[[1,0]]]", "[[[0,64]]]", "[]", "6 Value"),
    ("1", "1", VERTEX, "[[[1,0]]]", "[]", "7 Colours"),
    ("1", "1", VERTEX, VERTEX, '[{"in":[[0,1]],"out":[]},{"in":[[0,1]],"out":[]}]', "9 DeltaMissing 0"),
    (
        "1",
        "1",
        VERTEX,
        VERTEX,
        '[{"in":[[0,1]],"out":[]},{"in":[[0,0]],"out":[[]]},{"in":[[0,0]],"out":[]}]',
        "10 DeltaTwice 0",
    ),
    ("1", "1", VERTEX, VERTEX, '[{"in":[[0,0]],"out":[[0,0]]},{"in":[[0,1]],"out":[]}]', "11 DeltaStray 1"),
    ("1", "1", VERTEX, VERTEX, '[{"in":[[0,0]],"out":[[1],[0],[0,0]]}]', "12 OutLength 0 2"),
    ("1", "1", VERTEX, "[]", '[{"in":[[0,0]],"out":[[0]]}]', "13 OutStray 0 0"),
    ("1", "1", "[]", VERTEX, '[{"in":[[0,0]],"out":[[1]]}]', "11 DeltaStray 0"),
    ("1", "1", "[]", VERTEX, "[]", "14 NoInput"),
]

# keys that are missing or of another shape: the first in their order is told
KEYS = [
    ("[1]", "whole"),
    ("{}", "version"),
    ('{"version":1}', "processes"),
    ('{"version":1,"processes":1}', "symmetric"),
    ('{"version":1,"processes":1,"symmetric":true}', "inputs"),
    ('{"version":1,"processes":1,"symmetric":true,"inputs":[]}', "outputs"),
    ('{"version":1,"processes":1,"symmetric":true,"inputs":[],"outputs":[]}', "delta"),
    ('{"version":1,"processes":1,"symmetric":true,"inputs":[],"outputs":[],"delta":[],"note":0}', "other"),
    ('{"delta":7,"outputs":7,"version":1}', "processes"),
]

def text(**values):
    """A task's text with these values under its keys, in this order."""
    return "{" + ",".join(f'"{key}":{value}' for key, value in values.items()) + "}"


def of_three(inputs, outputs, entries):
    """A text about three processes."""
    return text(version=1, processes=3, symmetric="false", inputs=json.dumps(inputs), outputs=json.dumps(outputs), delta=json.dumps(entries))


def limits():
    """Both sides of each limit, and of two limits the first."""
    vertices = [[[0, value]] for value in range(64)] + [[[1, 0]]]
    # with their faces: 3,375 triangles, 675 edges and 45 vertices, so 4,095 simplices
    triangles = [[[0, a], [1, b], [2, c]] for a, b, c in itertools.product(range(15), repeat=3)]
    outputs = [[[0, 0]]] * 65_537
    entry = {"in": [[0, 1]], "out": [[0]] * 65_537}
    full = {"in": [[0, 1]], "out": [[0]] * 65_536}
    yield of_three(vertices[1:], [], []), "9 DeltaMissing 0"
    yield of_three(vertices, [], []), "8 TooMany vertices"
    yield of_three([*triangles, [[0, 15]]], [], []), "9 DeltaMissing 0"
    yield of_three([*triangles, [[0, 15]], [[1, 15]]], [], []), "8 TooMany simplices"
    yield of_three([], outputs[1:], []), "14 NoInput"
    yield of_three([], outputs, []), "8 TooMany outputs"
    yield of_three([], [], [full]), "11 DeltaStray 0"
    yield of_three([], [], [entry]), "8 TooMany tuples"
    yield of_three([], [], [full, {"in": [[0, 1]], "out": [[0]]}]), "8 TooMany tuples"
    yield of_three(vertices, [[[3, 0]]], []), "7 Colours"
    yield of_three(vertices, outputs, []), "8 TooMany vertices"
    yield of_three([*triangles, [[0, 15]], [[1, 15]]], [], [entry]), "8 TooMany simplices"
    yield of_three([], outputs, [entry]), "8 TooMany outputs"
    yield PATH_3.ljust(1 << 24), ACCEPTED
    yield PATH_3.ljust((1 << 24) + 1), "1 TooLong"
    yield " " * (1 << 24), "2 NotJson"


def rows():
    """Each text, as bytes, and its refusal."""
    for key, value, refusal in CHANGED:
        yield text(**{**SMALL, key: value}).encode(), refusal
    for first, second, both, refusal in LISTS:
        delta = f'[{{"in":[[0,0],[1,0]],"out":{both}}},{{"in":[[0,0]],"out":{first}}},{{"in":[[1,0]],"out":{second}}}]'
        yield text(**{**SMALL, "delta": delta}).encode(), refusal
    for version, processes, inputs, outputs, delta, refusal in TWO_FAULTS:
        values = {"version": version, "processes": processes, "symmetric": "false"}
        yield text(**values, inputs=inputs, outputs=outputs, delta=delta).encode(), refusal
    for whole, key in KEYS:
        yield whole.encode(), f"3 Shape {key} 0"
    for depth, refusal in [(127, "3 Shape whole 0"), (128, "2 NotJson"), (4096, "2 NotJson")]:
        yield b"[" * depth + b"]" * depth, refusal
    yield b"\xff" + PATH_3.encode(), "2 NotJson"
    yield b'"\xff"', "2 NotJson"
    for length in range(len(PATH_3)):
        yield PATH_3[:length].encode(), "2 NotJson"
    for whole, refusal in limits():
        yield whole.encode(), refusal
