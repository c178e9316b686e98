signature 3
size 4
budget 10
pairs 100
pools given
sort M 1 3
con 1 P0
con 1 P1
con 1 P2
fun 1 f M -> M
match 0
case P0 = P1
case P1 = P2
case P2 = P0
fun 3 g M -> M
match 0
case P0 = P2
case P1 = P0
case P2 = P1
explore f g
pool
values M P0 P1 P2
end
