signature 1
vars 0
size 1
width 1
budget 1000000
pairs 0
pools given
sort Nat
con Z
con S Nat
sort List
con Nil
con Cons Nat List
fun plus Nat Nat -> Nat
match 0
case Z = #1
case S = S (plus @0 #1)
fun append List List -> List
match 0
case Nil = #1
case Cons = Cons @0 (append @1 #1)
fun double Nat -> Nat
body = plus #0 #0
fun twice List -> List
body = append #0 #0
explore
pool
values Nat Z
values List Nil
end
