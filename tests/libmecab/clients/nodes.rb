# Prints each line of a file by a tagger of MeCab's Ruby module, as text and as nodes:
# nodes.rb LINES
require "MeCab"

tagger = MeCab::Tagger.new("")
File.foreach(ARGV[0], encoding: "UTF-8", chomp: true) do |line|
  print tagger.parse(line)
  node = tagger.parseToNode(line)
  while node
    numbers = [node.length, node.rlength, node.lcAttr, node.rcAttr, node.stat, node.char_type]
    numbers += [node.isbest, node.wcost, node.cost]
    puts [node.surface, node.feature, *numbers].join("\t")
    node = node.next
  end
end
