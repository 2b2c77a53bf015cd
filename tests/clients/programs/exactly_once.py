"""A counter that is exact whatever becomes of replies: exactly_once.py PORT. The transaction that counts writes a token of the call too, and every try looks
at the token first: so a try whose reply was lost is not made again."""

import sys
import uuid

import redis


def count_once(client, key, token):
    """Adds 1 to the key, once for each token, however often a try breaks off. Returns the key of the token, which is to be removed once nobody asks again."""
    mark = f"done:{token}"
    while True:
        try:
            with client.pipeline() as batch:
                batch.watch(key, mark)
                if batch.get(mark) is not None:
                    # an earlier try was made
                    return mark
                number = int(batch.get(key) or 0)
                batch.multi()
                batch.set(key, number + 1)
                batch.set(mark, "1")
                batch.execute()
                return mark
        except (redis.WatchError, redis.ConnectionError, redis.TimeoutError):
            # not made, or not known: look again
            continue


def main():
    client = redis.Redis(port=int(sys.argv[1]), socket_timeout=float(sys.argv[2]))
    client.delete(count_once(client, "n", uuid.uuid4().hex))


main()
