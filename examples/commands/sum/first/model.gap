title  Through-lane, crosstalk of deck 1 on deck 2
unit   kg
var    a b in [0, 40]
bound  0.02*a*b - 0.004*a^2 + 0.3*b
where  a + b <= 60
