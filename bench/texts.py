#!/usr/bin/env python3
"""Makes the texts that are measured. `texts.py FOLDER BYTES NAME..` writes a file FOLDER/NAME.json of about BYTES bytes
for each name. The names of hard keys are `KIND-COUNT`, for an object of COUNT members, and `KIND-COUNT-list`, for an
array of the keys of these members; BYTES doesn't matter for them, nor for the small texts. The same arguments make the
same texts. The benches run this script in a process of its own, so that their own process stays small."""
import json
import pathlib
import random
import re
import sys

WORDS = "amber basil cedar delta ember fjord grove heath inlet jetty knoll ledge mound north ocean".split()
# Keys as records have them, for objects of few keys.
RECORD_KEYS = "id name email is_active balance tags address created_at updated_at phone company notes".split()
ESCAPED = 'ab"\\\n\té漢\U0001f984/'
# In FNV-1a of 64 bits a key of hash 0, which a zero byte leaves at 0, and ten bytes that do so too.
OF_HASH_0 = "77kepQFQ8Kl"
LEAVES_0 = "GhL ,\x08\x1bs\x05\x18"


def phrase(rng, least, most):
    return " ".join(rng.choice(WORDS) for _ in range(rng.randint(least, most)))


def decimal(rng):
    return f"{rng.uniform(-180, 180):.{rng.randint(4, 14)}f}"


def record(rng, number):
    """An object as one of a list of users."""
    name = rng.choice(WORDS)
    head = {
        "id": number, "name": f"{name} {number}", "email": f"{name}{number}@example.org", "is_active": number % 3 == 0
    }
    tail = {"balance": round(rng.uniform(0, 5000), 2), "tags": rng.sample(WORDS, 3)}
    address = {
        "street": f"{rng.choice(WORDS)} {number % 97}", "city": rng.choice(WORDS), "zip": str(10000 + number % 89999)
    }
    return {**head, **tail, "address": address}


def message(rng, number):
    """Nested objects of 40, 25, 5 and 2 keys."""
    def members(count, prefix):
        kinds = (None, False, number, phrase(rng, 1, 4))
        return {f"{prefix}_{index}": kinds[index % 4] for index in range(count)}
    innermost = {"indices": [0, number % 100], "text": phrase(rng, 1, 2)}
    user = {**members(24, "user"), "entities": {**members(4, "entity"), "hashtag": innermost}}
    return {**members(39, "message"), "user": user}


def log_entry(rng, number):
    context = {"host": f"node-{number % 12}", "thread": number % 64, "request": f"{rng.getrandbits(64):016x}"}
    time, level = f"2026-03-{number % 28 + 1:02}T12:{number % 60:02}:00Z", rng.choice(("debug", "info", "warning"))
    return {"time": time, "level": level, "text": phrase(rng, 4, 12), "context": context}


def configuration(rng, number):
    settings = {
        key: rng.choice(WORDS) for key in "host port user group path mode owner level theme format locale zone".split()
    }
    head = {
        "name": f"service-{number}", "version": f"{number % 9}.{number % 31}", "enabled": number % 2 == 0,
        "retries": number % 5
    }
    return {**head, "owner": rng.choice(WORDS), "settings": settings}


def polygon(rng, number):
    ring = [[round(rng.uniform(-180, 180), 6), round(rng.uniform(-90, 90), 6)] for _ in range(rng.randint(4, 60))]
    return [[*ring, ring[0]]]


def ones(count):
    return "[" + "1," * (count - 1) + "1]"


# For each name of a text: what docs/MEASURED.md calls it, and what makes an element of it, as a value, or as a piece of
# JSON text. Texts of the last ones take much memory for their length.
KINDS = {
    "integers": ("integers", lambda rng, number: rng.randrange(10 ** rng.randint(1, 18)) * rng.choice((1, -1))),
    "strings": ("strings", lambda rng, number: json.dumps(phrase(rng, 3, 60))),
    "escapes": (
        "strings with escapes",
        lambda rng, number: json.dumps("".join(rng.choice(ESCAPED) for _ in range(rng.randint(10, 60)))),
    ),
    "records": ("records", record),
    "record": ("one record", record),
    "messages": ("nested objects of 40, 25, 5 and 2 keys", message),
    "logs": ("log entries, objects of 4 and 3 keys", log_entry),
    "configurations": ("configurations, objects of 6 and 12 keys with short strings", configuration),
    "polygons": ("polygons of coordinates", polygon),
    "rows": ("rows of 100 small integers", lambda rng, number: [rng.randrange(1000) for _ in range(100)]),
    "articles": (
        "articles of long strings",
        lambda rng, number: {"title": phrase(rng, 4, 9), "text": phrase(rng, 300, 900)}
    ),
    "readings": ("readings of sensors, objects of 4 keys and arrays of 6 decimals", lambda rng, number: {
        "sensor": f"s{number % 400}", "at": 1700000000 + number, "unit": rng.choice(("C", "hPa", "lx")),
        "values": [round(rng.uniform(0, 100), 3) for _ in range(6)],
    }),
    "decimals": ("decimals", lambda rng, number: decimal(rng)),
    "indented": ("indented records", lambda rng, number: json.dumps(record(rng, number), indent=4)),
    "wide": ("one wide object", lambda rng, number: f'"key{number:07}":{number}'),
    "repeated": ("few keys, each often repeated", lambda rng, number: f'"k{number % 50}":{number}'),
    "deep": ("deep arrays", lambda rng, number: "[" * 100 + "1" + "]" * 100),
    "pairs": ("pairs of decimals", lambda rng, number: f"[{decimal(rng)},{decimal(rng)}]"),
    "literals": ("literals", lambda rng, number: rng.choice(("true", "false", "null"))),
    "letters": ("strings of 10,000 letters", lambda rng, number: '"' + "x" * 10_000 + '"'),
    "short-entries": ('`{"id":1,"ok":true,"n":"x1"}`', lambda rng, number: '{"id":1,"ok":true,"n":"x1"}'),
    "digits": ("`1`", lambda rng, number: "1"),
    "smallest": ('`{"":1}`', lambda rng, number: '{"":1}'),
    "nested": ('`{"":{"":..1..}}`, 511 nested objects', lambda rng, number: '{"":' * 511 + "1" + "}" * 511),
    "matrix": ("rows of 1,000 ones", lambda rng, number: ones(1000)),
    "wide-matrix": ("rows of 2,100 ones", lambda rng, number: ones(2100)),
    "growing": (
        "2,000 ones, and then arrays of 2,003, 2,004, .. ones",
        lambda rng, number: "1" if number < 2000 else ones(number + 3),
    ),
    "stacked": (
        "400 nested arrays, each of 20,000 ones and the next array",
        lambda rng, number: ("[" + "1," * 20_000) * 400 + "1" + "]" * 400,
    ),
    "stacked-once": (
        "500 nested arrays, each of 1,000 ones and the next array, and 1,025 ones in the innermost",
        lambda rng, number: ("[" + "1," * 1000) * 500 + ones(1025) + "]" * 500,
    ),
}
TITLES = {name: title for name, (title, _) in KINDS.items()}
# The texts of bench/program: those of the first table of docs/MEASURED.md, those of other kinds, and those of --memory.
NAMES = "integers decimals strings escapes records indented wide repeated deep messages pairs literals".split()
OTHERS = "logs configurations polygons rows articles readings".split()
MEMORY = [(name, 16_000_000) for name in "letters records short-entries digits smallest nested".split()]
MEMORY += [("matrix", 8_000_000), ("wide-matrix", 8_400_000), ("growing", 12_000_000), ("growing", 32_000_000)]
MEMORY += [("stacked", 16_000_000), ("stacked-once", 1_000_000)]
# Small texts like those that people send, by name. A name is on the line before its text.
_, *named = re.split("^# ", pathlib.Path(__file__).with_name("small.txt").read_text("utf-8"), flags=re.M)
SMALL = dict(part.rstrip("\n").split("\n", 1) for part in named)
NINE_KEYS = {"id": 101, "name": "amber", "email": "amber@example.org", "is_active": True, "balance": 1234.5}
NINE_KEYS.update(city="heath", zip="10101", phone="555-0101", notes=None)
# The texts of bench/library --kept.
KEPT = {"request": SMALL["request"], "log": SMALL["log"], "record of 9 keys": json.dumps(NINE_KEYS)}


def hash_of(key):
    """The hash by which an object finds a key."""
    value = 0xCBF29CE484222325
    for byte in key.encode():
        value = ((value ^ byte) * 0x100000001B3) % 2**64
    return value


def numbered(count, before="k"):
    return [f"{before}{index}" for index in range(count)]


def shuffled(keys):
    random.Random(len(keys)).shuffle(keys)
    return keys


def of_one_hash(count):
    """Keys of 28 to 181 bytes, up to 131,072 of them; more are longer."""
    bits = max(17, (count - 1).bit_length())
    keys = [
        OF_HASH_0 + "".join(LEAVES_0 if index >> bit & 1 else "\0" for bit in range(bits)) for index in range(count)
    ]
    assert not any(map(hash_of, keys[-3:]))
    return shuffled(keys)


# For each kind of hard keys: what docs/MEASURED.md calls them, how many an object has at first, and what makes them.
KEY_KINDS = {
    "rising": ("in ascending order of hash", 10_000, lambda count: sorted(numbered(count), key=hash_of)),
    "falling": (
        "in descending order of hash",
        10_000,
        lambda count: sorted(numbered(count), key=hash_of, reverse=True)
    ),
    "one-hash": ("of one hash", 20_000, of_one_hash),
    "random": ("in random order", 200_000, lambda count: shuffled(numbered(count))),
    "repeated-keys": ("repeated", 400_000, lambda count: [f"k{index % 50}" for index in range(count)]),
    "long": ("long", 10_000, lambda count: numbered(count, "x" * 200)),
}
KEYS = {kind: make for kind, (_, _, make) in KEY_KINDS.items()}
KEYS["plain"] = lambda count: RECORD_KEYS[:count] if count <= len(RECORD_KEYS) else numbered(count, "key")


def text(name, size):
    """A small text, an object or an array of hard keys, or a text of about this many bytes: an object of wide or
    repeated, else an array."""
    if name in SMALL or name in KEPT:
        return SMALL.get(name) or KEPT[name]
    kind, _, count = name.removesuffix("-list").rpartition("-")
    if kind in KEYS:
        keys = map(json.dumps, KEYS[kind](int(count)))
        if name.endswith("-list"):
            return "[" + ",".join(keys) + "]"
        return "{" + ",".join(f"{key}:1" for key in keys) + "}"
    rng, parts, left = random.Random(name), [], size
    while left > 0 or not parts:
        part = KINDS[name][1](rng, len(parts))
        parts.append(part if isinstance(part, str) else json.dumps(part))
        left -= len(parts[-1]) + 1
    return "{" + ",".join(parts) + "}" if name in ("wide", "repeated") else "[" + ",".join(parts) + "]"


if __name__ == "__main__":
    for wanted in sys.argv[3:]:
        pathlib.Path(sys.argv[1], wanted + ".json").write_text(text(wanted, int(sys.argv[2])), "utf-8")
