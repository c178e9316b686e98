signature 1
vars 3
size 5
width 2
budget 1000
pairs 100
pools seed 7 height 5 count 10
sort Nat
con Z
con S Nat
sort List
con Nil
con Cons Nat List
fun plus Nat Nat -> Nat
match 0
case Z = #1
case S = S (plus @0 #1)
fun append List List -> List
match 0
case Nil = #1
case Cons = Cons @0 (append @1 #1)
fun rev List -> List
match 0
case Nil = Nil
case Cons = append (rev @1) (Cons @0 Nil)
fun len List -> Nat
match 0
case Nil = Z
case Cons = S (len @1)
explore Z S Nil Cons plus append rev len
end
