signature 2
size 5
budget 2000
pairs 200
pools seed 7 height 6 count 8
sort Elem 0 2
con A
con B
sort Nat 2 2
con Z
con S Nat
sort List 3 3
con Nil
con Cons Elem List
fun append List List -> List
match 0
case Nil = #1
case Cons = Cons @0 (append @1 #1)
fun rev List -> List
match 0
case Nil = Nil
case Cons = append (rev @1) (Cons @0 Nil)
fun plus Nat Nat -> Nat
match 0
case Z = #1
case S = S (plus @0 #1)
fun len List -> Nat
match 0
case Nil = Z
case Cons = S (len @1)
explore append rev plus len
end
