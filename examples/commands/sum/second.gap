title  Through-lane, crosstalk of deck 2 on deck 1
unit   kg
var    a b in [0, 40]
bound  0.01*(b - a)^2 - 0.125*a
where  a + b <= 60
