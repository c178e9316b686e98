signature 1
vars 3
size 4
width 2
budget 1000
pairs 100
pools given
sort Nat
con Z
con S Nat
sort List
con Nil
con Cons Nat List
fun plus Nat Nat -> Nat
match 0
case Z = #1
case S = S (plus @0 #1)
fun append List List -> List
match 0
case Nil = #1
case Cons = Cons @0 (append @1 #1)
fun rev List -> List
match 0
case Nil = Nil
case Cons = append (rev @1) (Cons @0 Nil)
fun len List -> Nat
match 0
case Nil = Z
case Cons = S (len @1)
explore Z S Nil Cons plus append rev len
pool
values Nat Z (S (S Z))
values List Nil (Cons Z (Cons (S Z) Nil))
pool
values Nat (S Z) (S (S (S Z)))
values List (Cons (S Z) Nil) (Cons (S (S Z)) (Cons Z (Cons Z Nil)))
end
