signature 2
size 5
budget 2000
pairs 20
pools seed 7 height 6 count 16
sort Elem 0 2
con A
con B
sort List 3 3
con Nil
con Cons Elem List
fun append List List -> List
match 0
case Nil = #1
case Cons = Cons @0 (append @1 #1)
fun rev List -> List
match 0
case Nil = Nil
case Cons = append (rev @1) (Cons @0 Nil)
explore append rev
end
