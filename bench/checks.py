#!/usr/bin/env python3
"""Writes a session whose one check is dear to judge, to be timed: bench/checks.py KIND > FILE; time ./drago alone < FILE

The kinds are doubling, elements, links, size, and those that fill a line of 1,048,576 bytes against a put of as many: pairs,
dense, names and marks.
"""
import json
import sys

LINE = 1048576


def text_of(request):
    return json.dumps(request, separators=(",", ":"))


def put_of(peer, axioms=(), into=(), onto=()):
    request = {"op": "put", "peer": peer, "axioms": list(axioms)}
    if into:
        request["into"] = list(into)
    if onto:
        request["onto"] = list(onto)
    return request


def local_of(size, names=(), roles=()):
    return {"names": list(names), "roles": list(roles), "size": size}


def check_of(pin, right, locals_, links=()):
    cert = {"format": 1, "kind": "no", "links": list(links), "locals": locals_}
    return {"op": "check", "peer": "a", "left": "top", "right": right, "pin": pin, "cert": cert}


def filled(make, most):
    """What `make` gives for the largest number at which it fits a line."""
    low, high = 1, most + 1
    while high - low > 1:
        middle = (low + high) // 2
        if len(text_of(make(middle))) <= LINE:
            low = middle
        else:
            high = middle
    return make(low)


def nested(count, begin, end):
    return begin * count + end + ")" * count


def puts_of(side):
    return filled(lambda n: put_of("a", ["(implies %s top)" % side] * n), 2000)


def doubling():
    pairs = [["r", x, y] for x in range(2) for y in range(2)]
    return [], check_of([0], nested(63, "(all r ", "top"), [local_of(2, [], pairs)])


def elements():
    names = [[name, x] for name in "AB" for x in range(20000)]
    pairs = [["r", x, (x + 1) % 20000] for x in range(20000)]
    return [put_of("a", ["(implies A (some r B))"] * 500)], check_of([1], "bottom", [local_of(20000, names, pairs)])


def links():
    rules = [{"from": "b", "source": "A", "target": "B"}] * 64
    ends = [[1, 0, x, (x + k) % 5000] for k in range(2) for x in range(5000)]
    peers = [local_of(5000, [[name, x] for x in range(5000)]) for name in "BA"]
    return [put_of("a", [], rules, rules)], check_of([1, 0], "bottom", peers, ends)


def size():
    return [put_of("a", ["(implies A B)"])], check_of([1], "bottom", [local_of(4294967295)])


def pairs():
    def world(n):
        return check_of([1], "bottom", [local_of(n, [], [["r", x, x * 7919 % n] for x in range(n)])])
    return [puts_of(nested(63, "(all r ", "A"))], filled(world, 100000)


def dense():
    def world(n):
        return check_of([1], "bottom", [local_of(n, [], [["r", x, y] for x in range(n) for y in range(n)])])
    return [puts_of(nested(63, "(all r ", "A"))], filled(world, 400)


def names():
    def world(n):
        return check_of([1], "bottom", [local_of(n, [["A", x] for x in range(n)])])
    return [puts_of(nested(63, "(and A ", "A"))], filled(world, 100000)


def marks():
    def world(n):
        return check_of([1], "bottom", [local_of(n, [["A", x] for x in range(n)])])
    return [puts_of(nested(63, "(not ", "B"))], filled(world, 100000)


KINDS = {kind.__name__: kind for kind in (doubling, elements, links, size, pairs, dense, names, marks)}
puts, check = KINDS[sys.argv[1]]()
for request in [{"op": "peers", "names": ["a", "b"][:len(check["pin"])]}] + puts + [check]:
    assert len(text_of(request)) <= LINE
    print(text_of(request))
