# Perl's module URI.
use strict;
use warnings;
use URI;
use JSON::PP;
my $json = JSON::PP->new->canonical->latin1;
binmode STDIN;
binmode STDOUT;
while (my $text = <STDIN>) {
    chomp $text;
    my $it = eval { URI->new($text) };
    my %found;
    if (!$it || !$it->scheme) { %found = (refused => "no scheme") }
    else {
        # A scheme that the module doesn't know has an authority alone, which is read here as that of a URL of `ssh`.
        my $known = $it->can("host") ? $it : eval { URI->new($text =~ s/^[^:]*/ssh/r) };
        %found = (scheme => $it->scheme, path => scalar $it->path);
        if ($it->can("authority") && defined $it->authority) {
            my ($user, $password) = split /:/, ($known->can("userinfo") && $known->userinfo // ""), 2;
            %found = (%found, user => $user, password => $password, host => scalar $known->host, port => $known->can("_port") ? scalar $known->_port : undef);
        }
        $found{query} = $it->query if $it->can("query") && defined $it->query;
    }
    print $json->encode({ map { $_ => $found{$_} } grep { defined $found{$_} } keys %found }), "\n";
}
