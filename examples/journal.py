#!/usr/bin/env python3
"""An auditor by docs/JOURNAL.md and docs/TOKEN.md alone: ./journal.py [xfs.journal], under xfs.key or 32 bytes 0x0b.
It tells what each token allowed and what was put out on it, where the notes lie, and what doesn't agree (status 1)."""
import collections, hashlib, hmac, pathlib, re, struct, sys

UNITS = [("EUR", 10), ("EUR", 20), ("EUR", 50), ("USD", 20)]  # no record tells them
PLACES = ["units", "transport", "outlet", "taken", "retracted", "rejected"]
WAYS = {1: ("units", "transport"), 2: ("transport", "outlet"), 3: ("transport", "rejected"), 4: ("outlet", "retracted")}
KEY = bytes.fromhex(pathlib.Path("xfs.key").read_text()) if pathlib.Path("xfs.key").exists() else bytes([0x0B] * 32)

def records(data, at=8):
    if data[:7] != b"XFSJRNL":
        sys.exit("the file is no journal")
    while data[at] == 1:
        body, end = at + 3, at + 3 + int.from_bytes(data[at + 1 : at + 3], "big")
        yield data[body : body + 1], data[body + 1 : end]
        at = end

def amounts_of(token, nonce):  # nothing where the token isn't genuine or carries another nonce
    mac = hmac.new(KEY, token[:-76], hashlib.sha256).hexdigest().upper().encode()
    genuine = token.endswith(b",HMACSHA256=" + mac) and token.startswith(b"NONCE=%s," % nonce.encode())
    return {it[1].decode(): float(it[0]) for it in re.findall(rb",DISPENSE[1-9]=([\d.]+)([A-Z]{3})", token) if genuine}

def put_out(places):  # what came into the customer's reach so far
    worth = collections.Counter()
    for (currency, value), *notes in zip(UNITS, places["outlet"], places["taken"], places["retracted"]):
        worth[currency] += value * sum(notes)
    return worth

places, order, nonce, issues, amounts, before, faults = {}, None, "", 0, {}, collections.Counter(), []
for number, (kind, body) in enumerate(records(pathlib.Path((sys.argv + ["xfs.journal"])[1]).read_bytes()), 1):
    if kind in b"BK":  # it tells what was taken, and what an order without its Done moved, which no other record does
        told = {at: list(row) for at, row in zip(PLACES, struct.iter_unpack(">8I", body[-192:]))}
        if kind == b"K" and body[:8] != issues.to_bytes(8, "big"):
            faults.append(f"record {number}: another number of issues than there are before it")
        sums = [[sum(it) for it in zip(*each.values())] for each in (told, places or told)]
        if sums[0] != sums[1] or not put_out(told) >= put_out(places or told):
            faults.append(f"record {number}: a unit's notes are more or fewer than before, or some came back from the customer")
        places, before = told, before or put_out(told)
    elif kind == b"L":
        places["units"][body[0] - 1] += int.from_bytes(body[1:], "big")
    elif kind == b"T":
        amounts = amounts_of(body, nonce)
        if not amounts:
            faults.append(f"record {number}: no token of this key and nonce")
    elif kind == b"D":
        for unit, (moved, diverted) in enumerate(zip(*struct.iter_unpack(">8I", body))):
            for at, notes in (WAYS[order][0], -moved - diverted), (WAYS[order][1], moved), ("rejected", diverted):
                places[at][unit] += notes
    paid = dict(put_out(places) - before)
    if any(paid[it] > amounts.get(it, 0) for it in paid) or min(map(min, places.values())) < 0:
        faults.append(f"record {number}: more than a token allows was put out, or than lay there was moved")
    issues += kind == b"I"
    if kind in b"BKICE":  # a mark: the nonce before it has ended
        if nonce:
            print(nonce, "allowed", amounts, "put out", paid)
        nonce, amounts, before = (body[8:] + body[:8]).hex().upper() if kind == b"I" else "", {}, put_out(places)
    order = body[0] if kind == b"O" else None
print(nonce or "no nonce", "allowed", amounts, "put out", paid)
for at in PLACES:
    print(at if at != "outlet" else "outlet, or taken since", *(f"{notes} of {currency} {value}" for notes, (currency, value) in zip(places[at], UNITS)), sep="  ")
sys.exit("\n".join(faults) or 0)
