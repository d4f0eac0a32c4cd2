title  Chained Singular function of 4 variables, on a simplex
# paper 004, section 5.2.1, with n = 4
var    x1 x2 x3 x4 in [0, 1]
bound  (x1 + 10*x2)^2 + 5*(x3 - x4)^2 + (x2 - 2*x3)^4 + 10*(x1 - x4)^4
where  x1 + x2 + x3 + x4 <= 1
