#!/usr/bin/env python3
"""Shows every text between a client and a service: a proxy (RFC 6455) on a port of its own, the standard library alone.

    ./trace.py [port [service's port]]    # 6849 and 5849, the dispenser's, where none is given; Ctrl-C ends it

A client dials 6849 in place of 5849. Each line has the seconds since the start, the connection, and `>` for what the client says."""
import asyncio, itertools, signal, sys, time

PORT, SERVICE = (int(word) for word in (sys.argv[1:] + ["6849", "5849"][len(sys.argv) - 1 :])[:2])
start, numbers = time.monotonic(), itertools.count(1)


def show(number, way, text):
    print(f"{time.monotonic() - start:9.3f} {number} {way} {text}", flush=True)


async def frame_of(reader):  # its bytes as they came, whether it ends its message, its kind, its payload without the mask
    raw = await reader.readexactly(2)
    field = {126: 2, 127: 8}.get(raw[1] & 127, 0)
    raw += await reader.readexactly(field + (4 if raw[1] & 128 else 0))
    size = int.from_bytes(raw[2 : 2 + field], "big") if field else raw[1] & 127
    mask, payload = raw[2 + field :] or bytes(4), await reader.readexactly(size)
    return raw + payload, raw[0] & 128, raw[0] & 15, bytes(byte ^ mask[at % 4] for at, byte in enumerate(payload))


async def carry(number, way, reader, writer):
    try:
        head = await reader.readuntil(b"\r\n\r\n")
        show(number, way, head.split(b"\r\n")[0].decode())
        writer.write(head.replace(b":%d\r\n" % PORT, b":%d\r\n" % SERVICE))  # the Host is the service's own
        text = b""
        while True:
            raw, is_last, kind, payload = await frame_of(reader)
            writer.write(raw)
            await writer.drain()
            text += payload if kind < 8 else b""
            if kind >= 8 or is_last:
                show(number, way, {8: "(close)", 9: "(ping)", 10: "(pong)"}.get(kind) or text.decode(errors="replace"))
                text = text if kind >= 8 else b""
    except (asyncio.IncompleteReadError, ConnectionError):
        show(number, way, "(end)")
        writer.close()


async def connect(reader, writer):
    number = next(numbers)
    try:
        far_reader, far_writer = await asyncio.open_connection("127.0.0.1", SERVICE)
    except OSError as error:
        show(number, "<", f"(nobody listens at {SERVICE}: {error})")
        return writer.close()
    await asyncio.gather(carry(number, ">", reader, far_writer), carry(number, "<", far_reader, writer))


async def main():
    await (await asyncio.start_server(connect, "127.0.0.1", PORT)).serve_forever()


signal.signal(signal.SIGINT, signal.SIG_DFL)
asyncio.run(main())
