signature 2
size 5
budget 10
pairs 200
pools given
sort Bool 3 2
con False
con True
fun not Bool -> Bool
match 0
case False = True
case True = False
fun and Bool Bool -> Bool
match 0
case False = False
case True = #1
fun or Bool Bool -> Bool
match 0
case False = #1
case True = True
explore False True not and or
pool
values Bool False True
end
