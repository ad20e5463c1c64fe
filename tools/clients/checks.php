<?php
// Drives a server by PHP's memcached extension. Prints `ok NAME` or `FAILED NAME: WHY` for each check.
//     MCD_RULES=RULES php checks.php HOST PORT
// RULES are those that the server follows, `own` or `drop-in`; where the two differ there is a check for each.
$client = new Memcached();
$client->setOption(Memcached::OPT_TCP_NODELAY, true);
$client->addServer($argv[1], (int) $argv[2]);

function tried(string $name, callable $check): void
{
    $why = $check();
    echo $why === true ? "ok $name\n" : "FAILED $name: " . var_export($why, true) . "\n";
}

tried('stores_and_fetches', fn() => $client->set('php', 'one') && $client->get('php') === 'one' && $client->get('php none') === false);
tried('fetches_2000_keys', function () use ($client) {
    $all = [];
    for ($i = 0; $i < 2000; $i++) {
        $all["phpmany$i"] = "value $i";
    }
    return $client->setMulti($all) && $client->getMulti(array_keys($all)) == $all;
});
tried('compares_and_swaps', function () use ($client) {
    $client->set('phpcas', 'first');
    $unique = $client->get('phpcas', null, Memcached::GET_EXTENDED)['cas'];
    $client->set('phpcas', 'between');
    $late = $client->cas($unique, 'phpcas', 'late');
    $unique = $client->get('phpcas', null, Memcached::GET_EXTENDED)['cas'];
    return !$late && $client->cas($unique, 'phpcas', 'last') && $client->get('phpcas') === 'last';
});
tried('counts', fn() => $client->set('phpcount', 40) && $client->increment('phpcount', 2) === 42 && $client->decrement('phpcount', 50) === 0);
tried('keeps_large_values', fn() => $client->setOption(Memcached::OPT_COMPRESSION, false) && $client->set('phplarge', str_repeat('x', 1000000)) && strlen($client->get('phplarge')) === 1000000);
tried('adds_replaces_and_deletes', fn() => $client->delete('php') && $client->add('php', 'a') && !$client->add('php', 'b') && $client->replace('php', 'c') && $client->get('php') === 'c');
tried('touches', fn() => $client->touch('php', 100) && $client->get('php') === 'c');
tried('expires', function () use ($client) {
    $client->set('phpbrief', 'x', 2);
    $before = $client->get('phpbrief') === 'x';
    sleep(4);
    return $before && $client->get('phpbrief') === false;
});
tried('takes_a_flood', function () use ($argv) {
    $silent = new Memcached();
    $silent->setOption(Memcached::OPT_NOREPLY, true);
    $silent->addServer($argv[1], (int) $argv[2]);
    for ($i = 0; $i < 20000; $i++) {
        $silent->set('phpflood' . $i % 100, "$i");
    }
    return $silent->get('phpflood99') === '19999';
});

$large = str_repeat('v', 2 << 20);
/** What lies under a key behind a value that is too large for the server, which the client tells. */
$refused = function () use ($client, $large) {
    $client->setOption(Memcached::OPT_COMPRESSION, false);
    return $client->set('phpreplaced', 'old') && !$client->set('phpreplaced', $large) ? $client->get('phpreplaced') : 'not refused';
};
/** Whether the next command gets its own reply behind a value that is too large, which was set without a reply. */
$silent = function () use ($argv, $large) {
    $silent = new Memcached();
    $silent->addServer($argv[1], (int) $argv[2]);
    $silent->setOption(Memcached::OPT_COMPRESSION, false);
    $silent->setOption(Memcached::OPT_NOREPLY, true);
    $silent->set('phpsilent', $large);
    $silent->setOption(Memcached::OPT_NOREPLY, false);
    return $silent->set('phpnext', 'x') && $silent->get('phpnext') === 'x';
};
tried('exptime_minus_1_is_gone_at_once', fn() => $client->set('phpdead', 'x', -1) && $client->get('phpdead') === false);
$version = fn() => array_values($client->getVersion());
if (getenv('MCD_RULES') === 'drop-in') {
    tried('too_large_a_value_removes_the_old_one', fn() => $refused() === false);
    tried('noreply_hides_that_a_value_is_too_large', $silent);
    tried('exptime_4294967295_is_gone_at_once', fn() => $client->set('phpdead', 'x', 4294967295) && $client->get('phpdead') === false);
    tried('version_is_that_of_memcached', fn() => $version() === ['1.6.18']);
    tried('fetches_20000_keys_at_once', function () use ($client) {
        $all = [];
        for ($i = 0; $i < 20000; $i++) {
            $all[sprintf('phplots%023d', $i)] = "value $i";
        }
        return $client->setMulti($all) && $client->getMulti(array_keys($all)) == $all;
    });
    $stats = fn() => array_values($client->getStats())[0];
    tried('stats_counts_commands', function () use ($client, $stats) {
        $before = $stats();
        $client->set('phpcounted', 'x');
        $client->get('phpcounted');
        $client->get('phpuncounted');
        $after = $stats();
        $grown = fn(string $name) => $after[$name] - $before[$name];
        return [$grown('cmd_set'), $grown('cmd_get'), $grown('get_hits'), $grown('get_misses'), $after['version']] === [1, 2, 1, 1, '1.6.18'];
    });
} else {
    tried('too_large_a_value_leaves_the_old_one', fn() => $refused() === 'old');
    tried('exptime_4294967295_is_the_year_2106', fn() => $client->set('phpdead', 'x', 4294967295) && $client->get('phpdead') === 'x');
    tried('version_is_that_of_mcd', fn() => $version() === ['1.6.0']);
}
