signature 2
size 3
budget 10
pairs 20
pools given
sort A 1 2
con A0
con A1
sort B 2 3
con B0
con B1
con B2
fun is_last B -> A
match 0
case B0 = A0
case B1 = A0
case B2 = A1
explore is_last
pool
values A A0 A1
values B B0 B1 B2
end
