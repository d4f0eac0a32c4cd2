title Two decks on one footing
# the objective of two_decks, and a footing that both decks share
var x1 x2 x3 x4 in [-1, 1]
bound 30*x1*x2*x3*x4 + 12*x1^2*x4 - 9*x2^2*x3 + 17*x1*x3 - 21*x2*x4 + 6*x1*x2 + 8*x1^2*x2^2 - 5*x3^2*x4^2 + 4*x1 + 3*x4 - 7*x1^2
where 2*x1*x3 == 3*x2*x4
