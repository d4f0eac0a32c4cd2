title  Example 4.3 of the paper on TSSOS: a quartic without a region
var    x1 x2 x3
bound  1 + x1^4 + x2^4 + x3^4 + x1*x2*x3 + x2
only   lower                    # it grows without end, so there is no upper bound
