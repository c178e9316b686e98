signature 2
size 3
budget 100
pairs 20
pools given
sort Elem 0 1
con A
con B
sort List 2 2
con Nil
con Cons Elem List
fun append List List -> List
match 0
case Nil = #1
case Cons = Cons @0 (append @1 #1)
fun rev List -> List
match 0
case Nil = Nil
case Cons = append (rev @1) (Cons @0 Nil)
explore append rev
pool
values Elem A
values List Nil (Cons A Nil)
end
