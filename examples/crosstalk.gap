title  Two decks, crosstalk of deck 1 on deck 2
var    a b in [0, 40]
bound  0.1*(b - a^2)^2 + a*b
where  a + b <= 60
where  a == 2*b                 # an equality
degree auto
