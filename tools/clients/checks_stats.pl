# Drives a server by Perl's Cache::Memcached, which asks for its counts. Prints `ok NAME` or `FAILED NAME` for each check.
#     MCD_RULES=RULES perl checks_stats.pl HOST PORT
# RULES are those that the server follows, `own` or `drop-in`; the counts are there by the second alone.
use strict;
use warnings;
use Cache::Memcached;

my ($host, $port) = @ARGV;
my $client = Cache::Memcached->new({ servers => ["$host:$port"] });

sub tried {
    my ($name, $check) = @_;
    my $holds = eval { $check->() };
    print $holds ? "ok $name\n" : "FAILED $name: " . ($@ || "another answer") . "\n";
}

sub counts { return $client->stats(['misc'])->{hosts}{"$host:$port"}{misc} // {} }

tried('stores_and_fetches', sub { $client->set('perlold', 'one') && $client->get('perlold') eq 'one' && !defined $client->get('perloldnone') });
tried('counts', sub { $client->set('perloldcount', 40) && $client->incr('perloldcount', 2) == 42 && $client->decr('perloldcount', 50) == 0 });
tried('fetches_2000_keys', sub {
    my @keys = map { "perloldmany$_" } 1 .. 2000;
    $client->set($_, "value of $_") for @keys;
    my $found = $client->get_multi(@keys);
    return keys(%$found) == 2000 && !grep { $found->{$_} ne "value of $_" } @keys;
});
if (($ENV{MCD_RULES} // 'own') eq 'drop-in') {
    tried('stats_counts_commands', sub {
        my $before = counts();
        $client->set('perloldcounted', 'x');
        $client->get('perloldcounted');
        $client->get('perlolduncounted');
        my $after = counts();
        my $grown = join(' ', map { $after->{$_} - $before->{$_} } qw(cmd_set cmd_get get_hits get_misses));
        return $grown eq '1 2 1 1' && $after->{version} eq '1.6.18';
    });
}
