# Prints the lattice of each line of a file by Perl's MeCab: lattice.pl LINES
#
# It prints the text, and the nodes of the best path at their positions.
use strict;
use warnings;
use MeCab;

my $model = MeCab::Model->new("");
my $tagger = $model->createTagger();
my $lattice = $model->createLattice();
open(my $lines, "<", $ARGV[0]) or die "$ARGV[0]: $!\n";
while (my $line = <$lines>) {
    chomp $line;
    $lattice->set_sentence($line);
    die $lattice->what() unless $tagger->parse($lattice);
    print $lattice->toString();
    for my $place (0 .. $lattice->size()) {
        for (my $node = $lattice->begin_nodes($place); $node; $node = $node->{bnext}) {
            next unless $node->{isbest};
            my @fields = ($node->{surface}, $node->{feature}, $node->{posid}, $node->{cost});
            print join("\t", $place, @fields), "\n";
        }
    }
}
