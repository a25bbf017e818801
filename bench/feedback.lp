% The same question for clingo: the set of least cost that meets every loop; of those, the one with the smallest mask.
{ cut(V) : flop(V) }.
% No loop among those that are not cut: clingo's own test for loops.
#edge (U,V) : edge(U,V), not cut(U), not cut(V).
% Cost first; then the highest flip-flop counts most, as in the mask.
#minimize { C@100,V : cut(V), cost(V,C) }.
#minimize { 1@V+1,V : cut(V) }.
#show cut/1.
