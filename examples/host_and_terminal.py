#!/usr/bin/env python3
"""A bank's host and a terminal of another make: a withdrawal from `xfs serve`, and what the machine says it presented, by
docs/TOKEN.md and docs/MESSAGES.md alone.

    ../xfs serve 1                     # in one window: it says when it listens, and ends with this connection, or by Ctrl-C
    ./host_and_terminal.py [amount]    # in another; EUR 70 where none is given

It shows each message. The host's key is that of the file xfs.key of the working folder, as the server's is, or 32 bytes 0x0b.
"""
import asyncio
import hashlib
import hmac
import importlib.metadata
import itertools
import json
import pathlib
import re
import secrets
import sys

try:
    version = importlib.metadata.version("websockets")
except importlib.metadata.PackageNotFoundError:
    sys.exit("The package `websockets` is missing: python3 -m pip install websockets, or Debian's python3-websockets")
if int(version.split(".")[0]) < 10:
    sys.exit(f"The package `websockets` is too old: 10 or later is wanted, and {version} is here")
try:
    from websockets.asyncio.client import connect  # 13 and later
except ImportError:
    from websockets import connect

CASH = "ws://127.0.0.1:5849/xfs4iot/v1.0/cashdispenser"
HMAC_BYTES = len(",HMACSHA256=") + 64
EVIDENCE = re.compile(r"NONCE=([0-9A-F]+),TOKENFORMAT=1,TOKENLENGTH=([0-9]{4}),ISSUE=([1-9][0-9]*)((,PRESENTED[1-8]=[0-9]+\.[0-9]{2}[A-Z]{3})*)")


class Host:
    """It has the key, allows an amount to be put out, and reads what the machine says it presented."""

    def __init__(self, key):
        self.key = key

    def mint(self, nonce, amount):
        """A token that carries the nonce; the HMAC covers all bytes before it."""
        parts = f"NONCE={nonce},TOKENFORMAT=1,TOKENLENGTH=%04d,DISPENSE1={amount}.00EUR"
        covered = parts % (len(parts % 0) + HMAC_BYTES)
        return self.sealed(covered)

    def sealed(self, covered):
        return f"{covered},HMACSHA256={hmac.new(self.key, covered.encode(), hashlib.sha256).hexdigest().upper()}"

    def read(self, asked, token):
        """The number of the last nonce and the amounts presented for it; None where the token isn't the machine's answer to this nonce."""
        covered = token[:-HMAC_BYTES]
        told = EVIDENCE.fullmatch(covered)
        if not told or told[1] != asked or int(told[2]) != len(token) or not hmac.compare_digest(self.sealed(covered).encode(), token.encode()):
            return None
        return int(told[3]), [pair.split("=")[1] for pair in told[4].split(",")[1:]]


class Terminal:
    """It talks with the dispenser, and has no key."""

    def __init__(self, link):
        self.link = link
        self.ids = itertools.count(1)

    async def ask(self, name, payload):
        """Sends a command and hears messages up to its completion. Anything but a success ends the program."""
        number = next(self.ids)
        header = {"name": name, "requestId": number, "timeout": 60000, "type": "command", "version": "2.0"}
        text = json.dumps({"header": header, "payload": payload})
        print(">", text)
        await self.link.send(text)
        async for text in self.link:
            print("<", text)
            heard = json.loads(text)
            if heard["header"].get("requestId") != number:
                continue
            if "status" in heard["header"]:
                sys.exit(f"refused: {heard['header']['status']}")
            if heard["header"]["type"] == "completion":
                if heard["header"]["completionCode"] != "success":
                    sys.exit(f"ended: {heard['header']['completionCode']} {heard['payload'].get('errorCode', '')}")
                return heard["payload"]
        sys.exit("the dispenser closed the connection")


async def present_status(host, terminal, nonce):
    """What the machine presented for this nonce. The terminal carries the answer and can't make it: it has no key, and the ask is new."""
    asked = secrets.token_hex(16).upper()
    told = host.read(asked, (await terminal.ask("CashDispenser.GetPresentStatus", {"nonce": asked}))["presentStatus"]["token"])
    if told is None:
        sys.exit("that is not the machine's answer")
    issue, amounts = told
    if issue != int(nonce[-16:], 16):
        sys.exit(f"the last nonce is number {issue}: of this one the journal tells")
    return amounts


async def main():
    amount = int(sys.argv[1]) if len(sys.argv) > 1 else 70
    file = pathlib.Path("xfs.key")
    host = Host(bytes.fromhex(file.read_text()) if file.exists() else bytes([0x0B] * 32))
    async with connect(CASH) as link:
        terminal = Terminal(link)
        nonce = (await terminal.ask("Common.GetCommandNonce", {}))["commandNonce"]
        token = host.mint(nonce, amount)
        await terminal.ask("CashDispenser.Dispense", {"denomination": {"currencies": {"EUR": amount}}, "mix": "minimum", "token": token})
        await terminal.ask("CashDispenser.Present", {})
        amounts = await present_status(host, terminal, nonce)
    print(f"the machine presented {', '.join(amounts)}")
    print(f"EUR {amount} put out")


if __name__ == "__main__":
    try:
        asyncio.run(main())
    except OSError as error:
        sys.exit(f"nobody listens at {CASH}: {error}")
