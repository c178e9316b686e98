signature 2
size 5
budget 2000
pairs 200
pools seed 7 height 5 count 8
sort Elem 0 2
con A
con B
sort List 3 3
con Nil
con Cons Elem List
sort Tree 1 3
con Leaf
con Node Tree Elem Tree
fun append List List -> List
match 0
case Nil = #1
case Cons = Cons @0 (append @1 #1)
fun rev List -> List
match 0
case Nil = Nil
case Cons = append (rev @1) (Cons @0 Nil)
fun mirror Tree -> Tree
match 0
case Leaf = Leaf
case Node = Node (mirror @2) @1 (mirror @0)
fun flat Tree -> List
match 0
case Leaf = Nil
case Node = append (flat @0) (Cons @1 (flat @2))
explore append rev mirror flat
end
