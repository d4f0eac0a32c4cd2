title  Generalized Rosenbrock function of 4 variables, neighbours within a simplex
# paper 004, section 5.2.1, with n = 4
var    x1 x2 x3 x4 in [0, 1]
bound  100*(x2 - x1^2)^2 + (1 - x2)^2 + 100*(x3 - x2^2)^2 + (1 - x3)^2 + 100*(x4 - x3^2)^2 + (1 - x4)^2
where  x1 + x2 <= 1
where  x2 + x3 <= 1
where  x3 + x4 <= 1
