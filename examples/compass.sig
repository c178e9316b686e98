signature 1
vars 1
size 3
width 4
budget 10
pairs 20
pools given
sort Direction
con North
con East
con South
con West
fun right Direction -> Direction
match 0
case North = East
case East = South
case South = West
case West = North
fun left Direction -> Direction
match 0
case North = West
case East = North
case South = East
case West = South
fun back Direction -> Direction
match 0
case North = South
case East = West
case South = North
case West = East
explore right left back
pool
values Direction North East South West
end
