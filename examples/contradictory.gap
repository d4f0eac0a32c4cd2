title  A bid whose limits contradict each other
# the loads lie in a disc, and their sum is to be at least 2
var    x1 x2
bound  6*x1*x2 - 4*x1^2 + 3*x2 + 5*x1*x2^2
where  x1^2 + x2^2 <= 1
where  x1 + x2 >= 2
