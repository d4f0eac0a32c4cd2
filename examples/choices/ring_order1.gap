title  Five decks in a ring, sparse order 1
var    x1 x2 x3 x4 x5 in [-1, 1]
bound  5*x1^2*x2 + 8*x1*x2 + 6*x1^2 + 5*x2^2*x3 + 5*x2*x3 + 2*x2^2 + 9*x3^2*x4 - 3*x3*x4 - 4*x3^2 + 7*x4^2*x5 + 6*x4*x5 + 4*x4^2 - 4*x1*x5^2 - 6*x1*x5 + x5^2
order  1
basis  0: 1 x1 x2 x3 x4 x5 x1^2 x1*x2 x1*x3 x1*x4 x1*x5 x2^2 x2*x3 x2*x4 x2*x5 x3^2 x3*x4 x3*x5 x4^2 x4*x5 x5^2
basis  1: 1 x1 x2 x5
basis  2: 1 x1 x2 x3
basis  3: 1 x2 x3 x4
basis  4: 1 x3 x4 x5
basis  5: 1 x1 x4 x5
