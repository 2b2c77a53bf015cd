"""redis-py's asyncio, as a client: asynchronous.py PORT. It ends with status 0 and prints how many things it checked, or tells what was
wrong."""

import asyncio
import sys

import redis
import redis.asyncio

checked = 0


def check(found, wanted, what):
    global checked
    if found != wanted:
        sys.exit(f"{what}: {found!r:.200} for {wanted!r:.200}")
    checked += 1


async def commands(client):
    check([await client.flushdb(), await client.set("a", "1"), await client.get("a")], [True, True, b"1"], "SET and GET")
    check(await client.hset("h", mapping={"f": "1", "g": "2"}), 2, "HSET")
    check(await client.hgetall("h"), {b"f": b"1", b"g": b"2"}, "HGETALL")
    longest, key = bytes(range(256)) * 256, b"\x00\r\n\xff"
    check(await client.set(key, longest), True, "SET of 65,536 bytes at a binary key")
    check(await client.get(key) == longest, True, "GET of 65,536 bytes")
    try:
        await client.incr(key)
        check("no error", "an error", "INCR of bytes")
    except redis.ResponseError as error:
        check(str(error), "value is not an integer or out of range", "INCR of bytes")


async def pipelines(client):
    batch = client.pipeline(transaction=False)
    for at in range(1_000):
        batch.set(f"p{at % 100}", at)
    check(await batch.execute(), 1_000 * [True], "a pipeline of 1,000")
    batch = client.pipeline().set("a", "1").incr("a")
    check(await batch.execute(), [True, 2], "MULTI and EXEC")


async def conflicts(client, other):
    async with client.pipeline() as batch:
        await batch.watch("a")
        await other.set("a", "of another")
        batch.multi()
        batch.set("a", "lost")
        try:
            check(await batch.execute(), "a conflict", "WATCH with a conflict")
        except redis.WatchError:
            check(await client.get("a"), b"of another", "what a conflict leaves")


async def side_by_side(client):
    """Twenty tasks on connections of their own count one key by WATCH and EXEC."""
    async def add(_):
        while True:
            async with client.pipeline() as batch:
                try:
                    await batch.watch("n")
                    value = int(await batch.get("n") or 0)
                    batch.multi()
                    batch.set("n", value + 1)
                    await batch.execute()
                    return
                except redis.WatchError:
                    continue

    await asyncio.gather(*map(add, range(20)))
    check(await client.get("n"), b"20", "twenty that compare and set")
    check(sorted(await asyncio.gather(*(client.incr("m") for _ in range(50)))), list(range(1, 51)), "fifty INCRs at once")


async def main():
    one, other = (redis.asyncio.Redis(port=int(sys.argv[1]), socket_timeout=60) for _ in range(2))
    await commands(one)
    await pipelines(one)
    await conflicts(one, other)
    await side_by_side(one)
    await one.close()
    await other.close()
    print(f"redis-py {redis.__version__}, asyncio: {checked} checked")


asyncio.run(main())
