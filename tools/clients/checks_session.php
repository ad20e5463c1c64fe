<?php
// Drives a server as PHP's session handler, by a request of its own for each step. The handler speaks the binary protocol
// by default (memcached.sess_binary_protocol=0 turns it off). Prints `ok NAME` or `FAILED NAME: WHY`.
//     php checks_session.php HOST PORT
[, $host, $port] = $argv;

/** What the code prints, run in a process of its own over the session of this name. */
function ran(string $host, string $port, string $session, string $code): string
{
    $begin = "session_id('$session'); session_start();";
    $words = ['php', '-d', 'session.save_handler=memcached', '-d', "session.save_path=$host:$port", '-d', 'memcached.sess_binary_protocol=0', '-d', 'session.use_cookies=0', '-d', 'session.cache_limiter=', '-r', "$begin $code"];
    return (string) shell_exec(implode(' ', array_map('escapeshellarg', $words)) . ' 2>&1');
}

function tried(string $name, string $found, string $wanted): void
{
    echo $found === $wanted ? "ok $name\n" : "FAILED $name: " . var_export($found, true) . "\n";
}

$session = 'check' . bin2hex(random_bytes(8));
tried('begins_a_session', ran($host, $port, $session, 'echo count($_SESSION); $_SESSION["visits"] = 1;'), '0');
tried('goes_on_with_it', ran($host, $port, $session, 'echo $_SESSION["visits"]; $_SESSION["visits"] = 2; $_SESSION["cart"] = array_fill(0, 5000, "thing");'), '1');
tried('keeps_what_was_added', ran($host, $port, $session, 'echo $_SESSION["visits"], " ", count($_SESSION["cart"]);'), '2 5000');
tried('keeps_sessions_apart', ran($host, $port, $session . 'other', 'echo count($_SESSION);'), '0');
tried('ends_it', ran($host, $port, $session, 'session_destroy(); echo "ended";') . ran($host, $port, $session, 'echo count($_SESSION);'), 'ended0');
