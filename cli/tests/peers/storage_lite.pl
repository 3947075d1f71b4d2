# storage_lite.pl FILE BYTES: a storage with a stream of so many bytes, and a stream beside it.
use strict;
use OLE::Storage_Lite;

my ($file, $bytes) = @ARGV;
my $name = \&OLE::Storage_Lite::Asc2Ucs;
my @time = (0, 0, 0, 1, 0, 100);
my $log = OLE::Storage_Lite::PPS::File->new($name->("log"), join("", map { chr($_ * 37 % 256) } 1 .. $bytes));
my $site = OLE::Storage_Lite::PPS::Dir->new($name->("Site"), \@time, \@time, [$log]);
my $note = OLE::Storage_Lite::PPS::File->new($name->("note"), "hello\n");
OLE::Storage_Lite::PPS::Root->new(\@time, \@time, [$site, $note])->save($file) or die "not written";
