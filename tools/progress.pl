# Builds the listing, crate by crate, and says on standard error how far it is; what rt writes goes to a log.
# Called by ./list at the root of the clone: progress.pl LOG CRATE..., the crates that have to be proved, lowest first and the program the last.
use strict;
use warnings;

my ($log_name, @crates) = @ARGV;
my $program = $crates[-1];
my $built = 0;
my $began = time;
my $terminal = -t STDERR;

# On a terminal the line is written over the last one, every second; elsewhere below it, for each crate and every half minute.
my $news = '';
my $pause = $terminal ? 1 : 30;
sub progress {
    my $line = sprintf 'list: building: %d of %d crates proved%s, %d s so far', $built, scalar @crates, $news, time - $began;
    print STDERR $terminal ? "\r$line\e[K" : "$line\n";
}

open my $log, '>', $log_name or die "list: $log_name: $!\n";
$log->autoflush(1);

# Whether a crate is built after this command of rt, and whether it was proved in this run.
sub rt {
    my ($crate, $what) = @_;
    my ($rest, $proved, $runs) = ('', 0, 0);
    open my $rt, '-|', "cd crates/$crate && exec rt $what $crate 2>&1 < /dev/null" or die "list: rt: $!\n";
    while (1) {
        my $ready = '';
        vec($ready, fileno $rt, 1) = 1;
        if (select $ready, undef, undef, $pause) {
            sysread $rt, $rest, 4096, length $rest or last;
        } else {
            progress();
        }
        while ($rest =~ s/^(.*)\n//) {
            my $line = $1;
            print $log "$line\n";
            $proved = 1 if $line =~ /^logic=proved /;
            $runs = 1 if $line =~ /^rt: running /;
        }
    }
    print $log $rest;
    # the status of `rt run` is that of the program, which runs once it is built
    return (close $rt || $runs, $proved);
}

print STDERR 'list: building the listing, which stands on ', @crates - 1, " crates: some minutes where none is proved yet; the log is $log_name\n";
progress() if $terminal;
for my $crate (@crates) {
    # `rt run` builds the program, and runs it on no input
    my ($well, $proved) = rt($crate, $crate eq $program ? 'run' : 'lib');
    last unless $well;
    $built++;
    next unless $proved;
    $news = " (last: $crate)";
    progress();
}
print STDERR "\n" if $terminal;
close $log;

if ($built == @crates) {
    printf STDERR "list: built in %d s\n", time - $began;
    exit 0;
}
print STDERR "list: the listing could not be built; the last lines of $log_name are:\n";
open $log, '<', $log_name or die "list: $log_name: $!\n";
my @said = <$log>;
print STDERR @said > 20 ? @said[-20 .. -1] : @said;
exit 2;
