"""Transactions that are one request, recorded by the package: a comparison at an etcd, a MULTI of a Redis, a statement of SQL.

`etcd` is a client of the library etcd3, `redis` one of redis-py that tries nothing twice (`retry=Retry(NoBackoff(), 0)`), and
`cursor` one of a connection in autocommit. `session.call` takes as `refused` what a database raises for a refused statement and for
nothing else. Where the comparison of SQL fails no read is recorded, since the database doesn't report what it saw.
"""


def compare_and_put(session, etcd, key, expected, value):
    """Puts a value where the key has the expected one; whether it did. None is what a key has that was never written."""
    do = etcd.transactions
    with session.call() as one:
        seen, put = one.read(key), one.write(key, value)
        compare = do.version(key) == 0 if expected is None else do.value(key) == str(expected)
        held, answers = etcd.transaction(compare=[compare], success=[do.put(key, str(value))], failure=[do.get(key)])
        if held:
            seen.returned(expected)
        else:
            put.skipped()
            seen.returned(int(answers[0][0][0]) if answers[0] else None)
        return held


def swap(session, redis, key, value, other):
    """Reads and writes a key and reads another one, in a MULTI; gives what the key had."""
    with session.call() as one, redis.pipeline(transaction=True) as steps:
        old = one.read(key)
        one.write(key, value)
        beside = one.read(other)
        answers = steps.get(key).set(key, value).get(other).execute()
        for read, answer in ((old, answers[0]), (beside, answers[2])):
            read.returned(None if answer is None else int(answer))
        return old.value


def compare_and_set(session, cursor, key, expected, value):
    """Sets a value where the key has the expected one; whether it did."""
    with session.call() as one:
        seen, put = one.read(key), one.write(key, value)
        cursor.execute("UPDATE registers SET value = %s WHERE key = %s AND value = %s", (value, key, expected))
        if cursor.rowcount:
            seen.returned(expected)
        else:
            put.skipped()
        return cursor.rowcount == 1
