title  Two decks with few interactions, joining rule 2
var    x1 x2 x3 x4 in [-1, 1]
bound  30*x1*x2*x3*x4 + 8*x1^2*x2^2 - 5*x3^2*x4^2 + 11*x1^2*x3^2 - 13*x2^2*x4^2 - 7*x1^2 + 5*x1*x2
rule   2
basis  0: 1 x1 x2 x3 x4 x1^2 x1*x3 x1*x4 x2^2 x2*x3 x2*x4 x3^2 x3*x4 x4^2
basis  1: 1 x1 x2 x4
basis  2: 1 x1 x2 x3 x4
basis  3: 1 x1 x2 x3 x4
basis  4: 1 x1 x2 x4
