signature 1
vars 2
size 3
width 2
budget 10
pairs 20
pools given
sort Bool
con False
con True
fun not Bool -> Bool
match 0
case False = True
case True = False
fun and Bool Bool -> Bool
match 0
case False = False
case True = #1
fun or Bool Bool -> Bool
match 0
case False = #1
case True = True
explore not and or
pool
values Bool False True
end
