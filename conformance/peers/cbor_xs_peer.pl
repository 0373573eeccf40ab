#!/usr/bin/perl
# CBOR::XS: UTF-8 validated, objects forbidden; it has no canonical option. Unknown tags are kept as CBOR::XS::Tagged.
use strict;
use warnings;
use CBOR::XS;

$| = 1;
my $codec = CBOR::XS->new->validate_utf8->forbid_objects->text_keys;
while (my $line = <STDIN>) {
    chomp $line;
    my $again = eval { $codec->encode($codec->decode(pack 'H*', $line)) };
    print defined $again ? 'ok ' . unpack('H*', $again) : 'refused error', "\n";
}
