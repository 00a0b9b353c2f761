# Prints each field that a Perl module of the family Geo::FIT states, as perl reads it: the number of the message, its name, the number of
# the field, its name, type, unit, scale and offset, with tabs between them. With the word `values` after the module it prints each value of
# each type: the name of the type, its base type, its mask, the number and the name.
use strict;
local $/;
open my $in, '<', $ARGV[0] or die;
my $text = <$in> =~ s/\n1;\s*(\n__END__.*)?\z//sr;
my $more = q{
    for my $message (sort keys %msgtype_by_name) {
        my $fields = $msgtype_by_name{$message};
        for my $number (sort { $a <=> $b } grep { /^\d+$/ } keys %$fields) {
            my @facts = map { $_ // '' } @{$fields->{$number}}{qw(name type_name unit scale offset)};
            print join("\t", $named_type{mesg_num}{$message}, $message, $number, @facts), "\n";
        }
    }
};
my $values = q{
    for my $type (sort keys %named_type) {
        my $names = $named_type{$type};
        # A type has its names by their numbers too.
        for my $name (sort grep { !/^_|^\d+$/ && $names->{$_} =~ /^\d+$/ } keys %$names) {
            print join("\t", $type, $names->{_base_type}, $names->{_mask} // '', $names->{$name}, $name), "\n";
        }
    }
};
my $wanted = ($ARGV[1] // '') eq 'values' ? $values : $more;
no strict;
eval "$text\n$wanted\n1;" or die $@;
