signature 2
size 5
budget 2000
pairs 200
pools seed 7 height 5 count 8
sort Nat 3 3
con Z
con S Nat
fun plus Nat Nat -> Nat
match 0
case Z = #1
case S = S (plus @0 #1)
fun times Nat Nat -> Nat
match 0
case Z = Z
case S = plus #1 (times @0 #1)
fun double Nat -> Nat
match 0
case Z = Z
case S = S (S (double @0))
explore Z plus times double
end
