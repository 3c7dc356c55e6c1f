#!/usr/bin/env perl
# switches.pl EVENTS ANSWERS   holds both switches to the sentence of W-212, over the whole life of each board of a script
# EVENTS is what `second --events` prints of the script, ANSWERS what the console answers to it, line by line of the same calls. What each
# switch must be is worked out of EVENTS alone; it is compared with the word SWITCHES of each answer that has one. The last line is
# 'ticks N, charge on A, discharge on B, no difference', where N ticks were accepted and so many of them left each switch on; else the first
# difference, and status 1.
use strict;
use warnings;

# the events of a condition: at latching, at recovery, and the switches that it names
my @conditions = (
    [ UV  => '02', '7B', 'discharge' ],
    [ OV  => '03', '79', 'charge' ],
    [ OT  => '04', '73', 'charge', 'discharge' ],
    [ DOC => '05', '77', 'discharge' ],
    [ COC => '06', '76', 'charge' ],
    [ ROC => '07', '78', 'discharge' ],
    [ LT  => '37', '74', 'charge' ],
);
my (%latches, %recovers, %names);
for (@conditions) {
    my ($condition, $latch, $recovery, @switches) = @$_;
    $latches{$latch} = $recovers{$recovery} = $condition;
    $names{$condition} = \@switches;
}
my %of_charger = ('64' => 1, '65' => 1);

die "usage: switches.pl EVENTS ANSWERS\n" if @ARGV != 2;
my ($events, $answers) = map { open my $file, '<', $_ or die "switches.pl: $_ cannot be read: $!\n"; $file } @ARGV;

my %latched;      # the conditions with a latch event later than their last recovery event
my %on = (charge => 0, discharge => 0);
my %count = (ticks => 0, charge => 0, discharge => 0);
my $line = 0;

while (1) {
    my ($event, $answer) = (scalar <$events>, scalar <$answers>);
    last if !defined $event && !defined $answer;
    $line++;
    defined or differs('one file has no such line') for $event, $answer;
    s/\r?\n\z// for $event, $answer;
    step($event, $answer);
    compare($event, $answer);
}
differs('there is none') if !$line;
print "ticks $count{ticks}, charge on $count{charge}, discharge on $count{discharge}, no difference\n";

# "clears, frames, loads and recalls change no switch", and so it is with all that is said as "-"
sub step {
    my ($event, $answer) = @_;
    my ($call, @words) = split / /, $event;
    if ($call eq 'tick') {
        tick(@words);
    } elsif ($call eq 'start' || is_no_board($answer)) {
        %latched = ();
        off();
    } elsif ($call eq 'handover') {
        off();
    } elsif ($call ne '-') {
        differs("'$event' is no line of --events");
    }
}

# "at the end of each accepted tick, a switch is off if a condition naming it has a latch event later than its last recovery event,
# both counted over all ticks ever"
sub tick {
    my ($charger, $ignition, $r334, @recorded) = @_;
    record($_) for @recorded;
    my %off = map { $_ => 1 } map { @{ $names{$_} } } keys %latched;
    $on{charge} = !$off{charge} && $charger ? 1 : 0;
    $on{discharge} = !$off{discharge} && ($ignition || $r334 == 0) ? 1 : 0;
    $count{ticks}++;
    $count{$_} += $on{$_} for keys %on;
}

sub record {
    my ($number) = @_;
    if (exists $latches{$number}) {
        $latched{ $latches{$number} } = 1;
    } elsif (exists $recovers{$number}) {
        delete $latched{ $recovers{$number} };
    } elsif (!$of_charger{$number}) {
        differs("no condition has the event $number");
    }
}

# "Handover turns both off until the next accepted tick"
sub off { $on{$_} = 0 for keys %on }

# "NUMBER SWITCHES NEED REAL": "SWITCHES is `c` or `-` for the charge switch and `d` or `-` for the discharge switch". The answers of crc,
# register, store and tidy, and "?", have none: there is nothing to give back.
sub number_and_switches { return $_[0] =~ /^(\d+)(?::\d+)? ([c-])([d-]) [0-9A-F]{4} [0-9A-F]{4}(?: |\z)/ }

# A start that is refused leaves no board, and each call on it answers 21: it has no tick, and both switches are off.
sub is_no_board {
    my ($number) = number_and_switches($_[0]);
    return defined $number && $number == 21;
}

sub compare {
    my ($event, $answer) = @_;
    my (undef, $charge, $discharge) = number_and_switches($answer) or return;
    my %is = (charge => $charge eq 'c' ? 1 : 0, discharge => $discharge eq 'd' ? 1 : 0);
    for my $switch ('charge', 'discharge') {
        next if $is{$switch} == $on{$switch};
        differs(sprintf '%s must be %s after \'%s\', and is not in \'%s\'', $switch, $on{$switch} ? 'on' : 'off', $event, $answer);
    }
}

sub differs {
    my ($how) = @_;
    print "line $line: $how\n";
    exit 1;
}
