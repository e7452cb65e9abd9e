#!/usr/bin/env python3
"""Writes access.log and audit.jsonl into this folder: made-up logs with the messy parts of real ones.

access.log    the access log of two web servers, in Combined Log Format
audit.jsonl   the audit log of a Kubernetes cluster, an event a line

Both are the same bytes at each run. Lines come late and come twice, and a few of them end at CR LF.
"""

import datetime
import json
import random
from pathlib import Path

FOLDER = Path(__file__).resolve().parent
DAY = datetime.datetime(2024, 3, 1)
MINUTE = datetime.timedelta(minutes=1)


class Chance:
    """Choices that are the same at each run and in each version of Python: they come from `random` alone."""

    def __init__(self, seed):
        self.random = random.Random(seed).random

    def below(self, count):
        return int(self.random() * count)

    def one(self, items):
        return items[self.below(len(items))]

    def weighted(self, pairs):
        """One of the items of pairs of an item and its weight."""
        left = self.random() * sum(weight for _, weight in pairs)
        for item, weight in pairs:
            left -= weight
            if left < 0:
                return item
        return pairs[-1][0]

    def happens(self, share):
        return self.random() < share


def disturbed(lines, chance, late, twice):
    """Lines of which some stand up to twenty places behind their own, and some stand twice."""
    keyed = [(at + (5 + chance.below(16) if chance.happens(late) else 0), at, line) for at, line in enumerate(lines)]
    found = []
    for _, _, line in sorted(keyed):
        found += [line, line] if chance.happens(twice) else [line]
    return found


PATHS = [
    ("/", 20),
    ("/items", 18),
    ("/items/17", 9),
    ("/orders", 14),
    ("/basket", 10),
    ("/search?q=gr%C3%B6%C3%9Fe+42", 7),
    ("/search?q=\"two\",one", 3),
    ("/images/logo.png", 12),
    ("/health", 7),
]
PROBES = ["/wp-login.php", "/.env", "/admin/config.php", "/cgi-bin/luci"]
CLIENTS = [f"203.0.113.{number}" for number in range(2, 60)] + ["2001:db8::17", "2001:db8::2a"]
SCANNER = "198.51.100.77"
AGENTS = [
    ("Mozilla/5.0 (X11; Linux x86_64; rv:123.0) Gecko/20100101 Firefox/123.0", 30),
    ("Mozilla/5.0 (Windows NT 10.0; Win64; x64) AppleWebKit/537.36 (KHTML, like Gecko) Chrome/122.0", 40),
    ("Mozilla/5.0 (compatible; Googlebot/2.1; +http://www.google.com/bot.html)", 8),
    ("curl/8.5.0", 5),
    ('shop-app/2.1 ("beta", build 7)', 9),
    ("Käufer-App/1.0 (日本語)", 3),
    ("", 2),
    ("-", 3),
]
REFERERS = [("-", 50), ("https://shop.example/", 30), ("https://shop.example/suche?q=größe, 42", 8), ("", 4)]
USERS = [("-", 80), ("ann", 10), ("bo", 6), ("o'brien", 2), ("müller", 2)]


def quoted(text):
    """A text between quotes, as web servers write it."""
    return '"' + text.replace("\\", "\\\\").replace('"', '\\"') + '"'


def status_of(path, minute, chance):
    """The status of a request. From 11:20 to 11:40 orders and baskets fail, since the database is slow."""
    if path in PROBES:
        return 404
    if path in ("/orders", "/basket") and 200 <= minute < 220:
        return chance.weighted([(503, 70), (504, 20), (200, 10)])
    return chance.weighted([(200, 880), (304, 60), (302, 25), (404, 20), (499, 5), (500, 6), (403, 4)])


def access_line(minute, second, chance):
    moment = DAY + datetime.timedelta(hours=8) + minute * MINUTE + datetime.timedelta(seconds=second)
    client, method, path = chance.one(CLIENTS), "GET", chance.weighted(PATHS)
    agent, referer, user = chance.weighted(AGENTS), chance.weighted(REFERERS), chance.weighted(USERS)
    if 300 <= minute < 306 and chance.happens(0.6):
        client, path, agent, referer, user = SCANNER, chance.one(PROBES), "-", "-", "-"
    elif path in ("/orders", "/basket") and chance.happens(0.5):
        method = "POST"
    status = status_of(path, minute, chance)
    request = f"{method} {path} HTTP/1.1"
    if chance.happens(0.004):
        request, status, agent, referer, user = chance.one(["-", "\\x16\\x03\\x01"]), 400, "-", "-", "-"
    size = "-" if status in (304, 499) else str(120 + chance.below(400) if status >= 400 else 300 + chance.below(40000))
    zone = ("+0100", 1) if chance.happens(0.1) else ("+0000", 0)
    time = (moment + datetime.timedelta(hours=zone[1])).strftime("%d/%b/%Y:%H:%M:%S ") + zone[0]
    request = quoted(request) if "\\x" not in request else f'"{request}"'
    return f"{client} - {user} [{time}] {request} {status} {size} {quoted(referer)} {quoted(agent)}"


def access_log(chance):
    """Requests from 8:00 to 14:00, some 4 to 10 a minute."""
    lines = []
    for minute in range(360):
        count = 4 + chance.below(4) + (3 if 180 <= minute < 300 else 0)
        lines += [access_line(minute, second, chance) for second in sorted(chance.below(60) for _ in range(count))]
    found = disturbed(lines, chance, 0.03, 0.01)
    return "".join(line + ("\r\n" if chance.happens(0.005) else "\n") for line in found)


ACTORS = [
    ("system:serviceaccount:shop:deployer", ["system:serviceaccounts", "system:authenticated"], "kubectl/v1.29.2 (linux/amd64)", 25),
    ("system:serviceaccount:kube-system:replicaset-controller", ["system:serviceaccounts"], "kube-controller-manager/v1.29.2", 30),
    ("system:node:node-1", ["system:nodes", "system:authenticated"], "kubelet/v1.29.2", 30),
    ("ann@example.com", ["developers", "system:authenticated"], "kubectl/v1.29.2 (darwin/arm64)", 12),
    ("jürgen@example.com", ["developers, guests", "system:authenticated"], 'k9s/0.32 "beta"', 6),
    ("system:anonymous", ["system:unauthenticated"], "", 3),
]
RESOURCES = [("pods", 40), ("configmaps", 15), ("secrets", 10), ("deployments", 15), ("events", 20)]
NAMESPACES = [("shop", 45), ("billing", 20), ("kube-system", 30), ("web", 5)]
VERBS = [("get", 40), ("list", 20), ("watch", 10), ("create", 12), ("patch", 10), ("update", 5), ("delete", 5)]


def stamp(moment):
    return moment.strftime("%Y-%m-%dT%H:%M:%S.%fZ")


def code_of(actor, verb, resource, chance):
    is_person = "@" in actor
    if actor == "system:anonymous" or (is_person and resource == "secrets") or (is_person and verb == "delete" and chance.happens(0.5)):
        return 403
    return chance.weighted([(201 if verb == "create" else 200, 94), (404, 4), (409 if verb in ("update", "patch") else 200, 2)])


def response_of(code, actor, resource, verb):
    """The status of the response; a refused one has a nested reason, and a message with quotes."""
    if code < 400:
        return {"metadata": {}, "code": code}
    reason = {403: "Forbidden", 404: "NotFound", 409: "Conflict"}[code]
    message = f'{resource} is forbidden: User "{actor}" cannot {verb} resource "{resource}"' if code == 403 else reason
    return {"metadata": {}, "status": "Failure", "message": message, "reason": reason, "code": code}


def audit_event(number, moment, chance):
    actor, groups, agent, _ = chance.weighted([(one, one[3]) for one in ACTORS])
    verb, resource, namespace = chance.weighted(VERBS), chance.weighted(RESOURCES), chance.weighted(NAMESPACES)
    code = code_of(actor, verb, resource, chance)
    took = datetime.timedelta(microseconds=800 + chance.below(9000) + (chance.below(400000) if verb == "list" else 0))
    name = f"{resource[:-1]}-{chance.below(40):02d}"
    event = {
        "kind": "Event",
        "apiVersion": "audit.k8s.io/v1",
        "level": "Metadata",
        "auditID": f"{number:08x}-5a3c-4f0e-9d51-{chance.below(1 << 30):012x}",
        "stage": "ResponseComplete",
        "requestURI": f"/api/v1/namespaces/{namespace}/{resource}/{name}",
        "verb": verb,
        "user": {"username": actor, "groups": groups},
        "sourceIPs": [f"10.0.0.{2 + chance.below(9)}"] + (["203.0.113.9"] if "@" in actor else []),
        "userAgent": agent,
        "objectRef": {"resource": resource, "namespace": namespace, "name": name, "apiVersion": "v1"},
        "responseStatus": response_of(code, actor, resource, verb),
        "requestReceivedTimestamp": stamp(moment),
        "stageTimestamp": stamp(moment + took),
        "annotations": {"authorization.k8s.io/decision": "forbid" if code == 403 else "allow", "authorization.k8s.io/reason": ""},
    }
    if verb == "create" and resource == "configmaps":
        event["level"] = "Request"
        event["requestObject"] = {"data": {"rate": 0.5 if number % 2 else 2, "note": "line one\nline two, \"quoted\" ünd \t tab"}}
    if chance.happens(0.04):
        del event["objectRef"]
        event["requestURI"] = "/healthz"
    return json.dumps(event, ensure_ascii=chance.happens(0.5), separators=(",", ":"))


def audit_log(chance):
    """Events of an hour, one each six seconds."""
    begin = DAY + datetime.timedelta(hours=9)
    lines = [audit_event(at, begin + datetime.timedelta(milliseconds=at * 6000 + chance.below(6000)), chance) for at in range(600)]
    return "".join(line + ("\r\n" if chance.happens(0.005) else "\n") for line in disturbed(lines, chance, 0.04, 0.02))


def logs():
    """The names of the files, and their bytes."""
    return {"access.log": access_log(Chance(41)).encode("utf-8"), "audit.jsonl": audit_log(Chance(42)).encode("utf-8")}


if __name__ == "__main__":
    for name, text in logs().items():
        (FOLDER / name).write_bytes(text)
