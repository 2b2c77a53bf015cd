"""redis-py, as a client: sync.py PORT. It ends with status 0 and prints how many things it checked, or tells what was wrong."""

import sys

import redis

checked = 0


def check(found, wanted, what):
    global checked
    if found != wanted:
        sys.exit(f"{what}: {found!r:.200} for {wanted!r:.200}")
    checked += 1


def error_of(call, *words, **options):
    """The text of the error that a call is answered."""
    try:
        found = call(*words, **options)
    except redis.RedisError as error:
        return str(error)
    return f"no error but {found!r:.100}"


def strings(client):
    check(client.set("a", "1"), True, "SET")
    check(client.get("a"), b"1", "GET")
    check(client.get("none"), None, "GET of an absent key")
    check([client.set("a", "2", nx=True), client.set("a", "2", xx=True)], [None, True], "SET with options")
    check([client.setnx("a", "3"), client.getdel("a"), client.exists("a")], [False, b"2", 0], "SETNX, GETDEL, EXISTS")
    check([client.append("t", "ab"), client.append("t", "cd"), client.strlen("t")], [2, 4, 4], "APPEND, STRLEN")
    check([client.incr("n"), client.incr("n", 9), client.decr("n"), client.decrby("n", 4)], [1, 10, 9, 5], "INCR, INCRBY, DECR, DECRBY")
    check(client.mset({"x": "1", "y": "2"}), True, "MSET")
    check(client.msetnx({"x": "1", "z": "2"}), False, "MSETNX")
    check(client.mget("x", "none", "y"), [b"1", None, b"2"], "MGET")
    check([client.type("x"), client.delete("x", "y", "none"), client.dbsize()], [b"string", 2, 2], "TYPE, DEL, DBSIZE")
    check([client.ping(), client.echo("text")], [True, b"text"], "PING, ECHO")


def hashes(client):
    check(client.hset("h", mapping={"b": "1", "a": "2"}), 2, "HSET")
    check(client.hgetall("h"), {b"a": b"2", b"b": b"1"}, "HGETALL")
    check([client.hkeys("h"), client.hvals("h")], [[b"a", b"b"], [b"2", b"1"]], "HKEYS, HVALS")
    check([client.hget("h", "a"), client.hmget("h", "a", "x"), client.hlen("h")], [b"2", [b"2", None], 2], "HGET, HMGET, HLEN")
    check([client.hsetnx("h", "a", "9"), client.hexists("h", "a"), client.hstrlen("h", "a")], [0, True, 1], "HSETNX, HEXISTS, HSTRLEN")
    check([client.hincrby("h", "a", 5), client.hdel("h", "a", "b"), client.exists("h")], [7, 2, 0], "HINCRBY, HDEL")


def bytes_of_any_kind(client):
    longest, key = bytes(range(256)) * 256, b"\x00\r\n\xff"
    check(client.set(key, longest), True, "SET of 65,536 bytes")
    check(client.get(key) == longest, True, "GET of 65,536 bytes")
    check(client.hset("h", key, longest), 1, "HSET of 65,536 bytes")
    check(client.hgetall("h") == {key: longest}, True, "HGETALL of 65,536 bytes")
    check(client.delete(key, "h"), 2, "DEL of binary keys")


def errors(client):
    check(error_of(client.incr, "t"), "value is not an integer or out of range", "INCR of a text")
    check(error_of(client.execute_command, "NOSUCH"), "unknown command", "an unknown command")
    check(error_of(client.execute_command, "GET"), "wrong number of arguments for 'get' command", "GET without a key")
    check(error_of(client.hget, "t", "f"), "WRONGTYPE Operation against a key holding the wrong kind of value", "HGET of a string")
    check(error_of(client.set, 513 * "k", "1"), "key or field is longer than 512 bytes", "a long key")
    check(error_of(client.set, "t", "1", ex=10), "syntax error", "SET with an expiry")
    check(error_of(client.execute_command, "HELLO", "3"), "unknown command", "HELLO")
    check(error_of(client.client_setname, "it"), "unknown command", "CLIENT")
    check(client.get("t"), b"abcd", "what an error leaves")


def pipelines(client):
    batch = client.pipeline(transaction=False)
    for at in range(500):
        batch.set(f"p{at}", at).get(f"p{at}")
    check(batch.execute(), [it for at in range(500) for it in (True, b"%d" % at)], "a pipeline of 1,000")
    batch = client.pipeline(transaction=False).set("t", "x").incr("t").get("t")
    found = batch.execute(raise_on_error=False)
    check([found[0], str(found[1]), found[2]], [True, "value is not an integer or out of range", b"x"], "a pipeline with an error")


def transactions(client, other):
    check(client.pipeline().set("a", "1").incr("a").get("a").execute(), [True, 2, b"2"], "MULTI and EXEC")
    with client.pipeline() as batch:
        batch.watch("a")
        value = int(batch.get("a"))
        batch.multi()
        batch.set("a", value + 1)
        check(batch.execute(), [True], "WATCH without a conflict")
        batch.watch("a")
        other.set("a", "of another")
        batch.multi()
        batch.set("a", "lost")
        check(error_of(batch.execute), "Watched variable changed.", "WATCH with a conflict")
    check(client.get("a"), b"of another", "what a conflict leaves")

    def add(batch):
        value = int(batch.get("n"))
        batch.multi()
        batch.set("n", value + 1)

    check([client.transaction(add, "n"), client.get("n")], [[True], b"6"], "transaction()")
    found = client.pipeline().set("t", "x").incr("t").set("u", "y").execute(raise_on_error=False)
    check([found[0], str(found[1]), found[2]], [True, "value is not an integer or out of range", True], "an error inside EXEC")


def main():
    one, other = (redis.Redis(port=int(sys.argv[1]), socket_timeout=60) for _ in range(2))
    check(one.flushdb(), True, "FLUSHDB")
    strings(one)
    hashes(one)
    bytes_of_any_kind(one)
    errors(one)
    pipelines(one)
    transactions(one, other)
    print(f"redis-py {redis.__version__}: {checked} checked")


main()
