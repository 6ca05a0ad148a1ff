# SPDX-License-Identifier: MIT OR Apache-2.0
package RRDs;

# RRDtool's Perl module on rrdi's files. Put the directory of this file before RRDtool's own module:
#
#     PERL5LIB=/usr/local/share/rrdi/perl munin-update
#
# One process of rrdi-rrdtool in pipe mode serves all calls of a program. The process starts with the first call, and
# again after a fork, or if a call was interrupted. The variable RRDI_RRDTOOL names a program to run instead of
# rrdi-rrdtool. An answer begins with the lengths of its texts, so no text of the caller can read as an answer.
# `pod2text RRDs.pm` lists the functions.

use strict;
use warnings;
use Cwd ();
use Errno qw(EINTR);
use POSIX ();

our $VERSION = 1.7002;

# The directory above this file. It is found at once, because @INC may name this file by a path that is right only in the
# directory in which the caller began.
my ($above) = (Cwd::abs_path(__FILE__) || '') =~ m{^(.*/)[^/]*/[^/]*\z}s;

# The process, its pipes, the process that owns the pipes, its directory, and the environment at its start.
my ($child, $to, $from, $owner, $directory, $environment);
my $is_busy = 0;
my $error;
my $most_interruptions = 1_000;  # of a call of the system, in a row

sub error { return $error }

# ---- The process

sub _program {
    # In taint mode the environment chooses no program.
    return $ENV{RRDI_RRDTOOL} if not ${^TAINT} and defined $ENV{RRDI_RRDTOOL} and length $ENV{RRDI_RRDTOOL};
    return 'rrdi-rrdtool' unless defined $above and -x "${above}tools/rrdi-rrdtool";
    return "${above}tools/rrdi-rrdtool";
}

# The variables on which the answers of a process depend.
sub _environment {
    my @names = qw(TZ RRDI RRDI_LIBRARY RRDI_SYNC RRDI_WAIT PATH LANG LC_ALL LC_TIME LC_CTYPE);
    return join "\0", map { defined $ENV{$_} ? "$_=$ENV{$_}" : $_ } @names;
}

sub _start {
    pipe(my $child_reads, my $we_write) or return "pipe: $!";
    pipe(my $we_read, my $child_writes) or return "pipe: $!";
    my $program = _program();
    my $pid = fork;
    return "fork: $!" unless defined $pid;
    if ($pid == 0) {
        # Standard streams may be tied, as under mod_perl, so the numbers of the files are used.
        $SIG{$_} = 'DEFAULT' for qw(PIPE CHLD ALRM);
        POSIX::dup2(fileno $child_reads, 0);
        POSIX::dup2(fileno $child_writes, 1);
        if (${^TAINT}) {
            # How long to wait and whether to flush is no danger, if it is a number.
            my %kept = map { ($ENV{$_} // '') =~ /^([0-9]+)\z/ ? ($_, $1) : () } qw(RRDI_SYNC RRDI_WAIT);
            delete @ENV{qw(IFS CDPATH ENV BASH_ENV), grep { /^(RRDI|PYTHON|LD_)/ } keys %ENV};
            @ENV{keys %kept} = values %kept;
            $ENV{PATH} = '/usr/local/bin:/usr/bin:/bin';
        }
        no warnings 'exec';
        exec {$program} $program, '--exact', '--lengths', '-';
        POSIX::_exit(127);
    }
    close $child_reads;
    close $child_writes;
    binmode $_ for $we_write, $we_read;
    ($child, $to, $from, $owner, $environment) = ($pid, $we_write, $we_read, $$, _environment());
    $directory = Cwd::getcwd();
    $is_busy = 0;
    return;
}

sub _stop {
    return unless defined $child;
    my ($pid, $is_ours) = ($child, $owner == $$);
    undef $child;
    close $to;
    close $from;
    # A process that was broken off may have a call to finish. It gets no more.
    kill 'TERM', $pid if $is_ours and $is_busy;
    local ($?, $!);
    waitpid $pid, 0 if $is_ours;
    return;
}

END { _stop() }

# Returns an argument as pipe mode reads it: in quotes, and each apostrophe in quotes of the other kind.
sub _quote {
    my ($word) = @_;
    $word = '' unless defined $word;
    utf8::encode($word) if utf8::is_utf8($word);
    return $word if $word =~ m{^[\w.:/+=\@,~%#-]+\z};
    $word =~ s/'/'"'"'/g;
    return "'$word'";
}

sub _write {
    my ($pipe, $text) = @_;
    no warnings 'closed';
    local $SIG{PIPE} = 'IGNORE';
    my ($at, $interrupted) = (0, 0);
    while ($at < length $text) {
        my $count = syswrite $pipe, $text, length($text) - $at, $at;
        next if not defined $count and $! == EINTR and $interrupted++ < $most_interruptions;
        return 0 unless defined $count;
        $at += $count;
        $interrupted = 0;
    }
    return 1;
}

# Reads as many bytes of a pipe; returns undef at its end.
sub _bytes {
    my ($pipe, $count) = @_;
    no warnings 'closed';
    my ($text, $interrupted) = ('', 0);
    while (length $text < $count) {
        my $read = read $pipe, $text, $count - length $text, length $text;
        next if not defined $read and $! == EINTR and $interrupted++ < $most_interruptions;
        return unless $read;
        $interrupted = 0;
    }
    return $text;
}

# Reads an answer: a line with OK or ERROR and the length of each text, and then the texts. Returns OK or ERROR and the
# texts; or returns nothing if the program ended or did not answer in this form.
sub _read {
    my ($pipe) = @_;
    no warnings 'closed';
    local $/ = "\n";  # the caller's lines may end in another way, or not at all
    my $head = readline $pipe;
    return unless defined $head and $head =~ /^(OK|ERROR)([ \d]*)\n\z/;
    my ($status, @lengths) = ($1, split ' ', $2);
    return if grep { length > 9 } @lengths;
    my @texts;
    for my $length (@lengths) {
        my $text = _bytes($pipe, $length);
        return unless defined $text;
        push @texts, $text;
    }
    return ($status, @texts);
}

# Sends a line. Returns the texts of the answer; or returns undef, and sets the error.
sub _answer {
    my ($line) = @_;
    # A call in a handler of a signal may close these, and start another process, whose answers are not for this call.
    my ($into, $out_of) = ($to, $from);
    $is_busy = 1;
    local $.;  # so that later warnings of the program don't name this pipe
    my ($status, @texts) = _write($into, "$line\n") ? _read($out_of) : ();
    if (not defined $status) {
        my $program = _program();
        _stop();
        $error = "$program ended; is it installed?";
        return;
    }
    $is_busy = 0;
    return \@texts if $status eq 'OK';
    $error = $texts[0];
    return;
}

# Runs a command. Returns the texts of its output, which are lines without their ends; or returns undef, and sets the
# error.
sub _ask {
    my ($name, @words) = @_;
    undef $error;
    # A line of the pipe has no line feed in it.
    s/\n/ /g for grep { defined } @words;
    my $here = Cwd::getcwd();
    my $is_elsewhere = defined $child && defined $here && $here ne $directory;
    _stop() if defined $child and ($owner != $$ or $is_busy or $environment ne _environment()
        # A directory whose name has a line feed is none for a line. A new process begins in it.
        or $is_elsewhere && $here =~ /\n/);
    if (not defined $child) {
        $error = _start();
        return if defined $error;
    } elsif ($is_elsewhere) {
        _answer('cd ' . _quote($here)) or return;
        $directory = $here;
    }
    return _answer(join ' ', $name, map { _quote($_) } @words);
}

# ---- The functions

# Returns 1 if a command was run, and otherwise undef.
sub _run {
    return _ask(@_) ? 1 : undef;
}

sub create { return _run('create', @_) }
sub update { return _run('update', @_) }
sub tune { return _run('tune', @_) }
sub resize { return _run('resize', @_) }

# The functions return numbers and names that a pattern has taken from an answer, so in taint mode these are not tainted,
# as those of RRDtool's own module are not.

# Returns a whole number; undef if the text is none.
sub _whole {
    my ($text) = @_;
    return defined $text && $text =~ /^\s*(-?\d{1,18})\z/ ? 0 + $1 : undef;
}

# Returns a number; undef if the text is none, such as NaN.
sub _value {
    my ($text) = @_;
    return $text =~ /^\s*([-+]?(?:\d+(?:\.\d*)?(?:e[-+]?\d+)?|inf))\z/i ? 0 + $1 : undef;
}

# Returns the names of sources in a line.
sub _names {
    my ($line) = @_;
    return [$line =~ /([\w-]+)/ag];
}

sub _number {
    my $lines = _ask(@_) or return undef;
    return _whole($lines->[0]);
}

sub first { return _number('first', @_) }
sub last { return _number('last', @_) }

# Returns the time of the first row, the seconds between rows, the names of the sources, and the rows.
sub fetch {
    my $lines = _ask('rows', @_) or return undef;
    my ($begin, $head, undef, @rows) = @$lines;
    my ($start, $step) = map { _whole($_) } split ' ', $begin;
    my @cells = map { s/^\s*\d+: //; [map { _value($_) } split ' '] } @rows;
    return ($start + $step, $step, _names($head), \@cells);
}

# Returns the time of the last sample, the names of the sources, and their last values as texts.
sub lastupdate {
    my $lines = _ask('lastupdate', @_) or return undef;
    my ($head, undef, $row) = @$lines;
    my ($time, $values) = $row =~ /^\s*(-?\d+):([-\d. U]*)\z/;
    return (0 + $time, _names($head), [split ' ', $values]);
}

# Returns texts KEY = VALUE as a hash.
sub _hash {
    my ($lines) = @_;
    return { map { /^(\S+) = (.*)\z/s ? ($1, _typed($2)) : () } @$lines };
}

sub _typed {
    my ($text) = @_;
    return $text =~ /^"(.*)"\z/s ? $1 : _value($text);
}

sub info {
    my $lines = _ask('info', @_) or return undef;
    return _hash($lines);
}

sub updatev {
    my $lines = _ask('updatev', @_) or return undef;
    return _hash($lines);
}

# Returns a start and an end, in seconds since 1970.
sub times {
    my $lines = _ask('times', @_) or return undef;
    return map { _whole($_) } split ' ', $lines->[0];
}

# ---- Pictures

# Draws a picture for standard output to a file first.
sub _picture {
    my ($name, $file, @words) = @_;
    return (_ask($name, $file, @words), undef) unless defined $file and $file eq '-';
    require File::Temp;
    my $drawn = File::Temp->new(SUFFIX => '.rrdi-graph');
    my $lines = _ask($name, $drawn->filename, @words) or return;
    # The picture is another file, which has taken the place of the empty one.
    open my $picture, '<:raw', $drawn->filename or do { $error = "opening the picture: $!"; return };
    local $/;
    return ($lines, scalar readline $picture);
}

# Returns the texts of PRINT, and the width and the height.
sub graph {
    my ($lines, $image) = _picture('graph', @_);
    return undef unless $lines;
    if (defined $image) {
        binmode STDOUT;
        local $\;
        print STDOUT $image;
    }
    my ($size, @printed) = @$lines;
    my ($width, $height) = $size =~ /^(\d+)x(\d+)\z/;
    return (\@printed, 0 + $width, 0 + $height);
}

sub graphv {
    my ($lines, $image) = _picture('graphv', @_);
    return undef unless $lines;
    my $found = _hash($lines);
    $found->{image} = $image if defined $image;
    return $found;
}

# Returns the times of the first and the last row, the seconds between rows, the number of columns, their names, and the rows.
sub xport {
    my $lines = _ask('xport', '--json', grep { not /^(-t|--showtime|--json|--enumds)\z/ } @_) or return undef;
    require JSON::PP;
    # A name is a string of JSON in a line with more spaces before it.
    my ($at) = grep { $lines->[$_] eq '  "data": [' } 0 .. $#$lines;
    my $meta = JSON::PP->new->utf8->decode(join "\n", @$lines[0 .. $at - 1], '  "data": []}')->{meta};
    utf8::encode($_) for @{ $meta->{legend} };
    my @rows = map { /^ +\[ (.*) \],?\z/ ? [map { _value($_) } split /, /, $1] : () } @$lines[$at + 1 .. $#$lines];
    return (map({ _whole($_) } @$meta{qw(start end step)}), scalar @{ $meta->{legend} }, $meta->{legend}, \@rows);
}

# ---- Functions that rrdi does not have

for my $name (qw(dump restore list flushcached fetch_cb_register)) {
    no strict 'refs';
    *{$name} = sub { $error = "$name is not supported on rrdi's files"; return undef };
}

1;

__END__

=head1 NAME

RRDs - RRDtool's Perl module on rrdi's files

=head1 SYNOPSIS

    PERL5LIB=/usr/local/share/rrdi/perl PROGRAM

    use RRDs;
    RRDs::create($file, '--step', 300, 'DS:load:GAUGE:600:0:U', 'RRA:AVERAGE:0.5:1:288');
    RRDs::update($file, 'N:0.25');
    my ($start, $step, $names, $rows) = RRDs::fetch($file, 'AVERAGE', '--start', 'end-1h');
    die RRDs::error() if RRDs::error();

=head1 DESCRIPTION

The functions have the arguments and results of RRDtool's own module: C<create>, C<update>, C<updatev>, C<tune>,
C<fetch>, C<first>, C<last>, C<info>, C<times>, C<graph>, C<graphv>, C<xport> and C<error>. After an error a function
returns undef, and C<RRDs::error()> returns the reason. C<graph>, C<graphv> and C<xport> need RRDtool's library, which
draws the picture.

Two functions are not in RRDtool's own module: C<resize>, which writes F<resize.rrd>, and C<lastupdate>, which returns
the time of the last sample, the names of the sources and their last values. C<dump>, C<restore>, C<list>,
C<flushcached> and C<fetch_cb_register> set an error.

One process of C<rrdi-rrdtool> serves all calls of a program. Line feeds in arguments become spaces.

=head1 TAINT MODE

C<perl -T> ignores C<PERL5LIB>, so the module must be in a directory of C<@INC>: docs/migrate.md has two ways. In this mode
the environment chooses no program: the module runs the F<rrdi-rrdtool> of its own installation, with the C library, or
with C<rrdi> in F</usr/local/bin>, F</usr/bin> or F</bin>. Numbers, names of sources and settings are not tainted, as those
of RRDtool's own module are not. The texts of C<PRINT> are tainted.

=head1 ENVIRONMENT

=over

=item RRDI_RRDTOOL

The program to run instead of rrdi-rrdtool, with the arguments C<--exact --lengths ->. Without this variable, the module
looks for rrdi-rrdtool in its own installation and on the PATH.

=item RRDI

The program that rrdi-rrdtool runs. Without this variable, the C library librrdi runs the commands or, if it is not
installed, the program rrdi on the PATH.

=back

=head1 SEE ALSO

L<rrdi(1)>, L<rrdi-rrdtool(1)>

=cut
