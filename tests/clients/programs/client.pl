# Perl's Redis, as a client: client.pl PORT. It ends with status 0 and prints how many things it checked, or tells what was wrong.
use strict;
use warnings;
use Redis;

my $checked = 0;

sub text { join ",", map { !defined ? "nothing" : ref eq "ARRAY" ? "[" . text(@$_) . "]" : $_ } @_ }

sub check {
    my ($found, $wanted, $what) = @_;
    my ($is, $should) = map { text(@$_) } $found, $wanted;
    die sprintf("%s: %.200s for %.200s\n", $what, $is, $should) unless $is eq $should;
    $checked++;
}

sub error_of {
    my ($call) = @_;
    return eval { $call->(); 1 } ? "no error" : $@ =~ s/,\s+at .*//sr;
}

my ($one, $other) = map { Redis->new(server => "127.0.0.1:$ARGV[0]", cnx_timeout => 60, read_timeout => 60) } 1 .. 2;
check([$one->flushdb], ["OK"], "FLUSHDB");
check([$one->set("a", 1), $one->get("a"), $one->get("none")], ["OK", 1, undef], "SET and GET");
check([$one->set("a", 2, "NX"), $one->set("a", 2, "XX"), $one->incr("a")], [undef, "OK", 3], "SET with options, INCR");
check([$one->mset("x", 1, "y", 2), [$one->mget("x", "none", "y")], $one->del("x", "y")], ["OK", [1, undef, 2], 2], "MSET, MGET, DEL");
check([$one->hset("h", "b", 1), $one->hset("h", "a", 2), [$one->hgetall("h")]], [1, 1, ["a", 2, "b", 1]], "HSET, HGETALL");
check([$one->hincrby("h", "a", 5), $one->hdel("h", "a", "b"), $one->exists("h")], [7, 2, 0], "HINCRBY, HDEL");

my ($longest, $key) = (join("", map { chr } 0 .. 255) x 256, "\x00\r\n\xff");
check([$one->set($key, $longest), $one->get($key) eq $longest, $one->del($key)], ["OK", 1, 1], "65,536 bytes at a binary key");

$one->set("t", "text");
check([error_of(sub { $one->incr("t") })], ["[incr] ERR value is not an integer or out of range"], "INCR of a text");
check([error_of(sub { $one->hget("t", "f") })], ["[hget] WRONGTYPE Operation against a key holding the wrong kind of value"], "HGET of a string");
check([error_of(sub { $one->nosuch })], ["[nosuch] ERR unknown command"], "an unknown command");

my @replies;
$one->incr("n", sub { push @replies, $_[0] }) for 1 .. 1000;
$one->wait_all_responses;
check(\@replies, [1 .. 1000], "a pipeline of 1,000");
$one->multi;
$one->set("a", 1);
$one->incr("a");
check([$one->exec], ["OK", 2], "MULTI and EXEC");
$one->watch("a");
$other->set("a", "other");
$one->multi;
$one->set("a", "lost");
check([scalar $one->exec, $one->get("a")], [undef, "other"], "WATCH with a conflict");
check([$one->quit], [1], "QUIT");
print "Perl's Redis $Redis::VERSION: $checked checked\n";
