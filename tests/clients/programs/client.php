<?php
// php-redis, as a client: client.php PORT. It ends with status 0 and prints how many things it checked, or tells what was wrong.

$checked = 0;

function check($found, $wanted, string $what): void {
    global $checked;
    if ($found !== $wanted) {
        fwrite(STDERR, "$what: " . substr(json_encode($found), 0, 200) . " for " . substr(json_encode($wanted), 0, 200) . "\n");
        exit(1);
    }
    $checked++;
}

// The text of the last error. (php-redis 5.3 leaves a zero behind it)
function lastError(Redis $client): string {
    return rtrim($client->getLastError(), "\0");
}

function connected(int $port): Redis {
    $client = new Redis();
    $client->connect("127.0.0.1", $port, 60, null, 0, 60);
    return $client;
}

$one = connected((int) $argv[1]);
$other = connected((int) $argv[1]);
check($one->flushDB(), true, "FLUSHDB");
check([$one->set("a", "1"), $one->get("a"), $one->get("none")], [true, "1", false], "SET and GET");
check([$one->set("a", "2", ["nx"]), $one->set("a", "2", ["xx"]), $one->incr("a")], [false, true, 3], "SET with options, INCR");
check([$one->mset(["x" => "1", "y" => "2"]), $one->mget(["x", "none", "y"]), $one->del("x", "y")], [true, ["1", false, "2"], 2], "MSET, MGET, DEL");
check([$one->hSet("h", "a", "2"), $one->hIncrBy("h", "a", 5), $one->hSet("h", "b", "1")], [1, 7, 1], "HSET, HINCRBY");
check([$one->hMSet("h", ["b" => "2"]), $one->hGetAll("h"), $one->hDel("h", "a", "b"), $one->exists("h")], [false, ["a" => "7", "b" => "1"], 2, 0], "HMSET, which is unknown, HGETALL, HDEL");

$longest = str_repeat(implode(array_map("chr", range(0, 255))), 256);
$key = "\x00\r\n\xff";
check([$one->set($key, $longest), $one->get($key) === $longest, $one->del($key)], [true, true, 1], "65,536 bytes at a binary key");

$one->set("t", "text");
check([$one->incr("t"), lastError($one)], [false, "ERR value is not an integer or out of range"], "INCR of a text");
check([$one->rawCommand("NOSUCH"), lastError($one)], [false, "ERR unknown command"], "an unknown command");
check([$one->hGet("t", "f"), lastError($one)], [false, "WRONGTYPE Operation against a key holding the wrong kind of value"], "HGET of a string");

$batch = $one->multi(Redis::PIPELINE);
for ($at = 0; $at < 1000; $at++) {
    $batch->incr("n");
}
check($batch->exec(), range(1, 1000), "a pipeline of 1,000");
check($one->multi()->set("a", "1")->incr("a")->exec(), [true, 2], "MULTI and EXEC");
$one->watch("a");
$other->set("a", "other");
check([$one->multi()->set("a", "lost")->exec(), $one->get("a")], [false, "other"], "WATCH with a conflict");
$one->watch("a");
check([$one->multi()->set("a", "won")->exec(), $one->get("a")], [[true], "won"], "WATCH without a conflict");
echo "php-redis " . phpversion("redis") . ": $checked checked\n";
