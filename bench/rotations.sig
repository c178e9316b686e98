signature 1
vars 1
size 13
width 3
budget 10
pairs 100
pools given
sort M
con P0
con P1
con P2
fun f M -> M
match 0
case P0 = P1
case P1 = P2
case P2 = P0
fun g M -> M
match 0
case P0 = P2
case P1 = P0
case P2 = P1
explore f g
pool
values M P0 P1 P2
end
