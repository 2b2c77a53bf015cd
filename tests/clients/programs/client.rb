# ruby-redis, as a client: client.rb PORT. It ends with status 0 and prints how many things it checked, or tells what was wrong.
require "redis"

$checked = 0

def check(found, wanted, what)
  abort "#{what}: #{found.inspect[0, 200]} for #{wanted.inspect[0, 200]}" unless found == wanted
  $checked += 1
end

def error_of
  yield
  "no error"
rescue Redis::CommandError => error
  error.message
end

one, other = Array.new(2) { Redis.new(host: "127.0.0.1", port: ARGV[0].to_i, timeout: 60) }
check(one.flushdb, "OK", "FLUSHDB")
check([one.set("a", "1"), one.get("a"), one.get("none")], ["OK", "1", nil], "SET and GET")
check([one.set("a", "2", nx: true), one.set("a", "2", xx: true), one.incr("a")], [false, true, 3], "SET with options, INCR")
check([one.mset("x", "1", "y", "2"), one.mget("x", "none", "y"), one.del("x", "y")], ["OK", ["1", nil, "2"], 2], "MSET, MGET, DEL")
check([one.hset("h", "b", "1", "a", "2"), one.hgetall("h")], [2, { "a" => "2", "b" => "1" }], "HSET, HGETALL")
check([one.hincrby("h", "a", 5), one.hget("h", "a"), one.hdel("h", "a", "b"), one.exists?("h")], [7, "7", 2, false], "HINCRBY, HDEL")

longest, key = (0..255).map(&:chr).join.b * 256, "\x00\r\n\xff".b
check([one.set(key, longest), one.get(key).b == longest, one.del(key)], ["OK", true, 1], "65,536 bytes at a binary key")

one.set("t", "text")
check(error_of { one.incr("t") }, "ERR value is not an integer or out of range", "INCR of a text")
check(error_of { one.hget("t", "f") }, "WRONGTYPE Operation against a key holding the wrong kind of value", "HGET of a string")
check(error_of { one.call("NOSUCH") }, "ERR unknown command", "an unknown command")

check(one.pipelined { |batch| 1000.times { batch.incr("n") } }, (1..1000).to_a, "a pipeline of 1,000")
check(one.multi { |batch| batch.set("a", "1"); batch.incr("a") }, ["OK", 2], "MULTI and EXEC")
found = one.watch("a") do
  other.set("a", "other")
  one.multi { |batch| batch.set("a", "lost") }
end
check([found, one.get("a")], [nil, "other"], "WATCH with a conflict")
found = one.watch("a") { one.multi { |batch| batch.set("a", "won") } }
check([found, one.get("a"), one.quit], [["OK"], "won", "OK"], "WATCH without a conflict, QUIT")
puts "ruby-redis #{Redis::VERSION}: #{$checked} checked"
