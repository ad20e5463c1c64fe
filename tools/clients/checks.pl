# Drives a server by Perl's Cache::Memcached::Fast. Prints `ok NAME` or `FAILED NAME` for each check.
#     MCD_RULES=RULES perl checks.pl HOST PORT
# RULES are those that the server follows, `own` or `drop-in`; where the two differ there is a check for each.
use strict;
use warnings;
use Cache::Memcached::Fast;

my ($host, $port) = @ARGV;
my $client = Cache::Memcached::Fast->new({ servers => ["$host:$port"], nowait => 1, max_size => 1_048_576 });

sub tried {
    my ($name, $check) = @_;
    my $holds = eval { $check->() };
    print $holds ? "ok $name\n" : "FAILED $name: " . ($@ || "another answer") . "\n";
}

tried('stores_and_fetches', sub { $client->set('perl', 'one') && $client->get('perl') eq 'one' && !defined $client->get('perlnone') });
tried('fetches_2000_keys', sub {
    my @keys = map { "perlmany$_" } 1 .. 2000;
    $client->set_multi(map { [$_, "value of $_"] } @keys);
    my $found = $client->get_multi(@keys);
    return keys(%$found) == 2000 && !grep { $found->{$_} ne "value of $_" } @keys;
});
tried('compares_and_swaps', sub {
    $client->set('perlcas', 'first');
    my $before = $client->gets('perlcas');
    $client->set('perlcas', 'between');
    my $late = $client->cas('perlcas', $before->[0], 'late');
    my $now = $client->gets('perlcas');
    return !$late && $client->cas('perlcas', $now->[0], 'last') && $client->get('perlcas') eq 'last';
});
tried('counts', sub { $client->set('perlcount', 40) && $client->incr('perlcount', 2) == 42 && $client->decr('perlcount', 50) == 0 });
tried('keeps_large_values', sub { $client->set('perllarge', 'x' x 1_000_000) && length($client->get('perllarge')) == 1_000_000 });
tried('takes_a_flood', sub {
    $client->set("perlflood" . ($_ % 100), $_) for 1 .. 20_000;
    $client->nowait_push;
    return $client->get('perlflood0') == 20_000;
});
tried('expires', sub {
    $client->set('perlbrief', 'x', 2);
    $client->set('perltouched', 'y', 2);
    my $before = $client->get('perlbrief') eq 'x' && $client->touch('perltouched', 100);
    sleep(4);
    return $before && !defined $client->get('perlbrief') && $client->get('perltouched') eq 'y';
});
tried('adds_replaces_and_deletes', sub { $client->delete('perl') && $client->add('perl', 'a') && !$client->add('perl', 'b') && $client->replace('perl', 'c') && $client->get('perl') eq 'c' });

# Sends also what is too large for the server, and waits for each reply.
my $patient = Cache::Memcached::Fast->new({ servers => ["$host:$port"], max_size => 4_194_304 });
# The value of a key after a refused one that is too large.
sub refused {
    return 'not refused' if !$patient->set('perlreplaced', 'old') || $patient->set('perlreplaced', 'v' x 2_097_152);
    return $patient->get('perlreplaced') // 'nothing';
}
tried('exptime_minus_1_is_gone_at_once', sub { $patient->set('perldead', 'x', -1) && !defined $patient->get('perldead') });
my $version = $patient->server_versions->{"$host:$port"};
if (($ENV{MCD_RULES} // 'own') eq 'drop-in') {
    tried('too_large_a_value_removes_the_old_one', sub { refused() eq 'nothing' });
    tried('server_versions_is_that_of_memcached', sub { $version eq '1.6.18' });
} else {
    tried('too_large_a_value_leaves_the_old_one', sub { refused() eq 'old' });
    tried('server_versions_is_that_of_mcd', sub { $version eq '1.6.0-sharded' });
}
