# Runs the listing on each file in turn and writes its answers to standard output, byte for byte. With EXPLAIN it adds to each refused line's answer,
# indented, what a person wants to know of it. Called by ./list: answers.pl EXPLAIN NAMED EMULATOR PROGRAM FILE..., where the first three may be empty;
# with NAMED the program is the one that reads named lines.
# Exit status: 0 every line was read, 1 some line was refused or an input was too long, 2 an input could not be read or the program did not answer.
#
# Which line is refused, with which number and at which place, is the program's word alone. What is found out here is only where the mark of a
# refusal without a place (1, 2, 3, 5, 21) helps most, and what its usual cause is.
use strict;
use warnings;
use Errno;

my ($explain, $named, $emulator, $program, @files) = @ARGV;
my $limit = 65536;    # bytes that the listing reads; it looks whether there is one more
my $shown = 100;      # bytes of a line that are shown
my %words = (
    1  => 'the line has no line feed',
    2  => $named ? 'the line is not: count, digits 0 to 9, letters C, N or O, and how many of each, one space between any two'
                 : 'the line is not: count, one space, one or more digits 0 to 9',
    3  => 'the count is 0 or above 64',
    5  => 'the digits are not as many as the count says',
    10 => 'a digit is above 4 at the root or above 3 elsewhere',
    11 => 'the code has ended and more follows',
    12 => 'the code has not ended where the line does',
    13 => "a child's code is larger than that of the sibling before it",
    14 => 'a right rooted code, but not the centred one',
    20 => 'a digit is above what its atom allows: 3 for N and 2 for O at the root, and one less elsewhere',
    21 => 'the letters are not as many as the count says, or not as many of each as the line says',
);
my @parts = (qr/0|[1-9][0-9]?/, qr/[0-9]+/, $named ? (qr/[CNO]+/, (qr/0|[1-9][0-9]*/) x 3) : ());

# ---- a line that is refused

# The byte by which a line first breaks the form of refusal 2, counted from 0.
sub first_wrong {
    my ($line) = @_;
    my $space = '';
    for my $part (@parts) {
        $line =~ /\G$space/gc && $line =~ /\G(?:$part)/gc or last;
        $space = ' ';
    }
    return pos $line // 0;
}

# What usually is behind refusal 2, from what stands before that byte and from it on.
sub cause_of_form {
    my ($before, $from) = @_;
    for ($from) {
        return 'a blank line' if "$before$from" =~ /^[ \t\r]*\z/;
        return 'a byte order mark, which some editors put before the first line' if $before eq '' && /^\xEF\xBB\xBF/;
        return 'a zero byte or a mark of UTF-16; a list is plain text, one byte for each character' if /^(?:\0|\xFF\xFE|\xFE\xFF)/;
        return 'a character that is not ASCII' if /^[\x80-\xFF]/;
        return 'a carriage return before the line feed, as Windows writes it' if /^\r\z/;
        return 'a carriage return in place of a line feed' if /^\r/;
        return 'nothing follows the count' if /^ ?\z/ && $before =~ /^[0-9]+ ?\z/;
        return 'a leading zero in the count' if $before eq '0' && /^[0-9]/;
        return 'no count and space before the digits' if "$before$from" =~ /^[0-9]+\z/;
        return 'a count has one digit or two' if $before =~ /^[0-9]+\z/ && /^[0-9]/;
        return 'a space before the count' if $before eq '' && /^[ \t]/;
        return 'a tab in place of the space' if ($named || $before =~ /^[0-9]+\z/) && /^\t/;
        return 'two spaces in place of one' if $before =~ / \z/ && /^ /;
        return 'a named line, which `list --named` reads' if !$named && "$before$from" =~ /^[0-9]+ [0-9]+ [CNO]+(?: [0-9]+){3}\z/;
        return 'a plain line, which `list` without --named reads' if $named && "$before$from" =~ /^[0-9]+ [0-9]+\z/;
        return 'the letters, or how many of them are C, N or O, are missing' if $named && /^\z/;
        return 'a leading zero in how many atoms there are' if $named && $before =~ / 0\z/ && /^[0-9]/;
        return 'a small letter' if $named && /^[cno]/;
        return 'an atom that is not C, N or O' if $named && /^[A-Za-z]/;
        return 'a space at the end of the line' if /^[ \t]+\r?\z/;
        return 'a further part behind the number of O' if $named && /^ /;
        return 'a space in the digits' if /^[ \t]/;
        return $before =~ /^[0-9]+ [0-9]*\z/ && /^,(?![CNO])/ ? 'a comma in the digits' : 'a comma in place of the space' if /^,/;
        return 'a decimal point' if /^\./;
        return 'a remark; a list has only lines of the form' if /^#/;
    }
    return '';
}

# Where the mark stands, as an offset into the line (none for 14), and the hint, which may be empty.
sub mark_and_hint {
    my ($line, $number, $place) = @_;
    my ($count, $code, $letters, @numbers) = split / /, $line, -1;
    my $digits = index($line, ' ') + 1;
    if ($number == 1) {
        return length $line, $line =~ /\r/ ? 'carriage returns in place of line feeds' : 'the file ends without a line feed: add one, or ask whether its end was lost';
    }
    if ($number == 2) {
        my $at = first_wrong($line);
        my $hint = cause_of_form(substr($line, 0, $at), substr $line, $at);
        return $hint =~ /^a leading zero/ ? $at - 1 : $at, $hint;
    }
    return 0, '' if $number == 3;
    if ($number == 5) {
        my $there = length $code;
        return $digits + ($there > $count ? $count : $there),
            "the count says $count and the digits are $there: " . ($there > $count ? 'the count is too low, or a digit too many' : 'the count is too high, or a digit was lost');
    }
    return mismatch($line, $count, $letters, @numbers) if $number == 21;
    return $digits + $place - 1, '' if $number == 10;
    return $digits + $place - 1, 'its atom is ' . substr $letters, $place - 1, 1 if $number == 20;
    return $digits + $place - 1, 'a digit before it may be too low' if $number == 11;
    return $digits + $place, 'a digit may be too high' if $number == 12;
    return $digits + $place - 1, 'branches stand largest first, in dictionary order' . ($named ? ', at each vertex by the digit and then by the atom' : '') if $number == 13;
    return undef, 'perhaps an N-tuple code, or a root that is not the middle of a longest path' . ($named ? '; of two middles the larger code is taken' : '') if $number == 14;
    return undef, '';
}

# The same for 21: the letters, or the first of the three numbers that is not theirs.
sub mismatch {
    my ($line, $count, $letters, @numbers) = @_;
    my ($there, $at) = (length $letters, index $line, $letters);
    return $at + ($there > $count ? $count : $there), "the count says $count and the letters are $there" if $there != $count;
    $at += $there + 1;
    for my $atom ('C', 'N', 'O') {
        my ($said, $found) = (shift @numbers, scalar(() = $letters =~ /$atom/g));
        return $at, "the line says $said $atom and its letters have $found" if $said ne $found;
        $at += length($said) + 1;
    }
    return undef, '';
}

# A byte as a person sees it.
sub visible {
    my ($byte) = @_;
    my %named = ("\t" => '\t', "\r" => '\r', '\\' => '\\\\');
    return $named{$byte} // ($byte =~ /[ -~]/ ? $byte : sprintf '\x%02X', ord $byte);
}

# The line's text and, below it, the mark. Of a long line the part around the mark is shown.
sub text_and_mark {
    my ($line, $mark) = @_;
    my $from = defined $mark && $mark >= $shown ? $mark - $shown / 2 : 0;
    my @bytes = map { visible($_) } split //, substr $line, $from, $shown;
    my $before = $from ? '... ' : '';
    my $behind = $from + @bytes < length $line ? ' ...' : '';
    $behind .= ' (' . length($line) . ' bytes)' if $before || $behind;
    my @text = $before . join('', @bytes) . $behind;
    if (defined $mark) {
        my @left = @bytes[0 .. $mark - $from - 1];
        push @text, ' ' x length($before . join '', @left) . '^';
    }
    return @text;
}

sub explanation {
    my ($line, $number, $place) = @_;
    my ($mark, $hint) = mark_and_hint($line, $number, $place);
    my $where = !$place ? '' : $number == 12 ? " behind digit $place" : " at digit $place";
    my $refusal = "refusal $number$where" . ($words{$number} ? ": $words{$number}" : '');
    return map { "    $_\n" } text_and_mark($line, $mark), $refusal, $hint ? "hint: $hint" : ();
}

sub explained {
    my ($text, $answers) = @_;
    my @lines = split /\n/, $text, -1;
    my $out = '';
    for my $answer (split /^/, $answers) {
        $out .= $answer;
        if ($answer =~ /^(\d+) (\d+) (\d+)$/ && $2 && defined $lines[$1 - 1]) {
            $out .= join '', explanation($lines[$1 - 1], $2, $3);
        } elsif ($answer eq "input too long\n") {
            $out .= "    the listing reads at most 65,536 bytes\n    hint: `split -C 65536 FILE` cuts a list into parts that have whole lines\n";
        }
    }
    return $out;
}

# ---- a file

# As many bytes of a file as the listing looks at; nothing if it cannot be read.
sub text_of {
    my ($file) = @_;
    my ($text, $got) = '';
    my $input = \*STDIN;
    $file eq '-' or open $input = undef, '<', $file or return;
    do { $got = sysread $input, $text, $limit + 1 - length $text, length $text } while $got;
    return defined $got ? $text : undef;
}

# The last line of some answers, which says how it went.
sub last_line {
    my ($answers) = @_;
    return substr $answers, 1 + rindex $answers, "\n", length($answers) - 2;
}

# What the listing answers to a text; nothing if it does not end as it should.
sub answers_to {
    my ($text) = @_;
    my @command = grep { $_ ne '' } $emulator, $program;
    pipe my $in, my $out or return;
    defined(my $child = open my $answers, '-|') or return;
    if (!$child) {
        $SIG{PIPE} = 'DEFAULT';
        close $out;
        open STDIN, '<&', $in;
        exec { $command[0] } @command or print STDERR "list: $command[0]: $!\n";
        exit 2;
    }
    close $in;
    print $out $text;
    close $out;
    my $said = do { local $/; <$answers> } // '';
    return close $answers && last_line($said) =~ /^(?:read \d+ refused \d+|input too long)\n\z/ ? $said : undef;
}

# A reader that has seen enough (`list FILE | head -1`) is no failure.
sub put {
    my ($text) = @_;
    while ($text ne '') {
        my $wrote = syswrite STDOUT, $text;
        if (defined $wrote) {
            substr $text, 0, $wrote, '';
        } elsif ($!{EPIPE}) {
            return;
        } elsif (!$!{EINTR}) {
            print STDERR "list: standard output: $!\n";
            exit 2;
        }
    }
}

# The status that a file gives.
sub list {
    my ($file) = @_;
    my $name = $file eq '-' ? 'standard input' : $file;
    my $text = text_of($file);
    defined $text or do { print STDERR "list: $name: $!\n"; return 2 };
    my $answers = answers_to($text);
    defined $answers or do { print STDERR "list: $name: $program did not answer\n"; return 2 };
    put((@files > 1 ? "== $name ==\n" : '') . ($explain ? explained($text, $answers) : $answers));
    return last_line($answers) =~ /^read \d+ refused 0\n\z/ ? 0 : 1;
}

$SIG{PIPE} = 'IGNORE';
my $status = 0;
for my $file (@files) {
    my $its = list($file);
    $status = $its if $its > $status;
}
exit $status;
