signature 1
vars 1
size 4
width 2
budget 200
pairs 20
pools seed 3 height 5 count 10
sort Nat
con Z
con S Nat
sort Tree
con Leaf
con Node Tree Tree
fun plus Nat Nat -> Nat
match 0
case Z = #1
case S = S (plus @0 #1)
fun mirror Tree -> Tree
match 0
case Leaf = Leaf
case Node = Node (mirror @1) (mirror @0)
fun leaves Tree -> Nat
match 0
case Leaf = S Z
case Node = plus (leaves @0) (leaves @1)
explore mirror leaves
background plus Nat.0 Z = Nat.0
end
