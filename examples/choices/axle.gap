title  Axle moment, from above
number 2026-118
by     A. Weber
unit   kNm
note   Loads as in drawing 12.
note   From below it is not asked for: the axle is held there.
var    a b in [0, 4]
bound  3*a*b - a^2 - b^4/10
only   upper
