"""The log that etcd has of a world, over etcd's JSON gateway. crates/share_etcd/README.md has its keys and values."""
import base64
import http.client
import json
import urllib.error
import urllib.request

import log_file

# The most frames that one request reads or puts, the most bytes that it puts, and the seconds that it is given.
FRAMES, BYTES, PATIENCE = 64, 2**19, 30
# No proxy stands between this machine and etcd.
OPENER = urllib.request.build_opener(urllib.request.ProxyHandler({}))
# What a tail says before the first entry.
NONE = b"0" * 16


class Refused(Exception):
    """Why there is no log, or none was put."""


def message_of(fault):
    try:
        return json.load(fault)["message"]
    except (OSError, ValueError, KeyError, http.client.HTTPException):
        return fault


def post(address, path, body, patience=PATIENCE):
    """What etcd at an address answers."""
    request = urllib.request.Request(f"http://{address}{path}", json.dumps(body).encode())
    try:
        with OPENER.open(request, timeout=patience) as answer:
            return json.load(answer)
    except urllib.error.HTTPError as fault:
        raise Refused(f"etcd at {address}: {message_of(fault)}") from None
    except (OSError, ValueError, http.client.HTTPException) as fault:
        raise Refused(f"etcd at {address}: {fault}") from None


def log_in(address, name, password):
    """Logs in; what is posted from then on is posted as this user."""
    token = post(address, "/v3/auth/authenticate", {"name": name, "password": password})["token"]
    OPENER.addheaders.append(("Authorization", token))


# ---- keys and requests


def coded(data):
    return base64.b64encode(data).decode()


def key_of(name, part):
    return f"x3d/{name}/{part}".encode()


def digits(number):
    return b"%016x" % number


def log_key(name, number):
    return key_of(name, "log/") + digits(number)


def absent(key):
    return {"key": coded(key), "target": "CREATE", "result": "EQUAL", "create_revision": "0"}


def unchanged(key, revision):
    return {"key": coded(key), "target": "MOD", "result": "EQUAL", "mod_revision": str(revision)}


def put(key, value):
    return {"request_put": {"key": coded(key), "value": coded(value)}}


def making_body(name, head, based=None):
    """The transaction that makes a world, if there is none: without entries, or after a base with its number and
    snapshot."""
    keys = key_of(name, "head"), key_of(name, "tail")
    puts = [put(keys[0], head), put(keys[1], digits(based[0]) if based else NONE)]
    if based:
        puts += [put(key_of(name, "base"), based[1]), put(key_of(name, "snapshot"), based[2])]
    return {"compare": [absent(key) for key in keys], "success": puts}


def append_body(name, known, frames, last):
    """The transaction that appends frames, each with the number of its first entry, if head and tail were last changed
    at these revisions."""
    keys = key_of(name, "head"), key_of(name, "tail")
    puts = [put(log_key(name, first), frame) for first, frame in frames]
    return {"compare": [unchanged(*each) for each in zip(keys, known)], "success": [*puts, put(keys[1], digits(last))]}


def done(address, body, patience=PATIENCE):
    """The revision at which a transaction was done, or None if it wasn't."""
    answer = post(address, "/v3/kv/txn", body, patience)
    return int(answer["header"]["revision"]) if answer.get("succeeded") else None


# ---- reading


def ranged(address, revision, key, end=b""):
    """What etcd has from a key on, below the end: the answer, and the keys with their values."""
    body = {"key": coded(key), "range_end": coded(end), "revision": str(revision), "limit": str(FRAMES)}
    answer = post(address, "/v3/kv/range", body)
    found = [(base64.b64decode(each["key"]), base64.b64decode(each.get("value", ""))) for each in answer.get("kvs", [])]
    return answer, found


def frames_of(address, revision, name):
    """The keys and the values of all frames, of one revision."""
    key, more = log_key(name, 0), True
    while more:
        answer, found = ranged(address, revision, key, key_of(name, "log0"))
        yield from found
        more = found and answer.get("more")
        key = found[-1][0] + b"\0" if found else key


def value_of(address, revision, name, part):
    """The value of a key of a world, or None."""
    found = ranged(address, revision, key_of(name, part))[1]
    return found[0][1] if found else None


def start_of(head, base):
    """The chain where the frames begin, and how many entries are below."""
    if base is None:
        return head[40:56], 0
    found = log_file.read_base(head[5], base)
    if not found:
        raise Refused("the base is damaged")
    return found[1], found[0]


def contents_of(address, name):
    """The payloads of a world's log, the head before the base, if there is one, and the frames; the number of its last
    entry, and the snapshot at the base. All is of one revision."""
    revision = ranged(address, 0, key_of(name, "head"))[0]["header"]["revision"]
    parts = "head", "tail", "base", "snapshot"
    head, tail, base, snapshot = (value_of(address, revision, name, part) for part in parts)
    if head is None or tail is None:
        raise Refused(f"etcd has no world {name}")
    if head != log_file.head_again(head):
        raise Refused("the head is damaged")
    payloads, (chain, last) = [head] if base is None else [head, base], start_of(head, base)
    for key, frame in frames_of(address, revision, name):
        entries = log_file.read_entries(chain, last + 1, frame)
        if key != log_key(name, last + 1) or not entries:
            raise Refused(f"the frame after entry {last} is damaged")
        payloads.append(frame)
        chain, last = entries[1], last + len(entries[0])
    if digits(last) != tail:
        raise Refused(f"the frames end at entry {last}, and the tail is {tail.decode(errors='replace')}")
    return payloads, last, snapshot


def payloads_of(address, name):
    """The payloads of a world's log, and the number of its last entry."""
    return contents_of(address, name)[:2]


# ---- writing


def parts_of(frames, below):
    """Frames after the first `below` entries, each with the number of its first entry, in parts that a transaction
    takes, each with its last entry."""
    part, size, last = [], 0, below
    for frame in frames:
        if part and (len(part) == FRAMES or size + len(frame) > BYTES):
            yield part, last
            part, size = [], 0
        part.append((last + 1, frame))
        size, last = size + len(frame), last + int.from_bytes(frame[1:3], "big")
    if part:
        yield part, last


def put_log(address, name, payloads, snapshot=None):
    """Makes a world with the log of these payloads, where there is none, and the snapshot at its base."""
    head, frames, below, based = payloads[0], payloads[1:], 0, None
    if frames and frames[0][0] == log_file.BASE:
        base, frames = frames[0], frames[1:]
        below = start_of(head, base)[1]
        based = below, base, snapshot
    made = done(address, making_body(name, head, based))
    if made is None:
        raise Refused(f"etcd has a world {name}")
    tail = made
    for part, last in parts_of(frames, below):
        tail = done(address, append_body(name, (made, tail), part, last))
        if tail is None:
            raise Refused(f"another host has appended to {name} before entry {part[0][0]}")


def remove(address, name):
    """Takes a world out of etcd."""
    post(address, "/v3/kv/deleterange", {"key": coded(key_of(name, "")), "range_end": coded(f"x3d/{name}0".encode())})
