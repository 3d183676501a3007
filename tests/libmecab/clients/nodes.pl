# Prints the nodes of each line of a file by Perl's Text::MeCab: nodes.pl LINES
use strict;
use warnings;
use Text::MeCab;

my $tagger = Text::MeCab->new();
open(my $lines, "<", $ARGV[0]) or die "$ARGV[0]: $!\n";
while (my $line = <$lines>) {
    chomp $line;
    for (my $node = $tagger->parse($line); $node; $node = $node->next) {
        my @numbers = ($node->length, $node->rlength, $node->lcattr, $node->rcattr);
        push @numbers, ($node->stat, $node->char_type, $node->wcost, $node->cost);
        print join("\t", $node->surface // "", $node->feature, @numbers), "\n";
    }
}
