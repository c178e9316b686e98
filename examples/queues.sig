signature 2
size 5
budget 2000
pairs 200
pools seed 7 height 7 count 8
sort Elem 1 2
con A
con B
sort List 3 3
con Nil
con Cons Elem List
sort Queue 1 3
con Queue_of List List
fun append List List -> List
match 0
case Nil = #1
case Cons = Cons @0 (append @1 #1)
fun rev List -> List
match 0
case Nil = Nil
case Cons = append (rev @1) (Cons @0 Nil)
fun tail List -> List
match 0
case Nil = Nil
case Cons = @1
fun snoc List Elem -> List
match 0
case Nil = Cons #1 Nil
case Cons = Cons @0 (snoc @1 #1)
fun items Queue -> List
match 0
case Queue_of = append @0 (rev @1)
fun push Queue Elem -> Queue
match 0
case Queue_of = Queue_of @0 (Cons #1 @1)
fun pop_front List List -> Queue
match 0
case Nil = Queue_of (tail (rev #1)) Nil
case Cons = Queue_of @1 #1
fun pop Queue -> Queue
match 0
case Queue_of = pop_front @0 @1
explore append tail snoc items push pop
end
