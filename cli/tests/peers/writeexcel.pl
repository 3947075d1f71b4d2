# writeexcel.pl FILE ROWS: a workbook of numbers.
use strict;
use Spreadsheet::WriteExcel;

my ($file, $rows) = @ARGV;
my $book = Spreadsheet::WriteExcel->new($file) or die "not written";
my $sheet = $book->add_worksheet("Site");
$sheet->write_number($_, 0, $_ * 7919) for 0 .. $rows - 1;
$book->close() or die "not written";
