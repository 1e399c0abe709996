#!/usr/bin/perl
# Works off a queue behind a server's socket, as `worker.py` does, in Perl with nothing but its own modules.
#
# usage: worker.pl SOCKET ELEMENT JOBS      SOCKET is a path, and ELEMENT is this worker's alone
use strict;
use warnings;
use IO::Socket::UNIX;

my ($path, $element, $jobs) = @ARGV;
my ($next, $sum, $first) = (0, 1, 2);
my $socket;
$SIG{PIPE} = 'IGNORE';

# Asks a line until it is answered, also where the server went away, or the answer comes later. The words of the reply.
sub ask {
    my ($line) = @_;
    while (1) {
        $socket //= IO::Socket::UNIX->new(Peer => $path);
        if ($socket && print $socket "$line\n") {
            while (defined(my $answer = <$socket>)) {
                my ($who, @words) = split ' ', $answer;
                die "$line: $answer" if $who =~ /^(error|refused)$/ || $words[0] eq 'refused';
                shift @words if $words[0] eq 'now';
                return @words if $words[0] ne 'waiting';
            }
        }
        undef $socket;
        select undef, undef, undef, 0.1;
    }
}

ask($_) for '0.1 alloc m 2', "0.2 alloc i $jobs", "0.3 put $next 0", "0.4 put $sum 0";    # As each worker does.
my $number = (ask("window $element"))[1];    # The first that isn't confirmed: from there on it is asked again.

sub request { return (ask("$element." . $number++ . " @_"))[1] }

while (1) {
    my $at = request('take', $next);
    request('put', $next, $at < $jobs ? $at + 1 : $jobs);
    last if $at == $jobs;
    my $job = request('fetch', $first + $at);
    my $total = request('take', $sum);
    request('put', $sum, $total + $job);
    ask("confirm $element $number");
}
ask("confirm $element $number");
