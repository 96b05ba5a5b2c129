# Sheet K of document 01, node 2 against node 7. The facts have their names of k-2-7.sheet in quotes.
fact zero "fact 0", one "fact 1", two "fact 2"

rule one gives zero             # who has one has zero too

node n0 = stop
node n1 = tell nothing          # a step that posts nothing new
node n2 = ask zero then n1
node n3 = ask one then n1
node n4 = either n2 or n3
node n5 = tell two
node n6 = ask one then n5
node n7 = either n2 or n6
node n8 = both n1 and n1

start n2 at nothing run n2
start n7 at nothing run n7
