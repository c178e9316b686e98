signature 1
vars 1
size 3
width 3
budget 10
pairs 20
pools given
sort Answer
con No
con Yes
con Failed
fun and_then Answer Answer -> Answer
match 0
case No = No
case Yes = #1
case Failed = Failed
fun or_else Answer Answer -> Answer
match 0
case No = #1
case Yes = Yes
case Failed = Failed
explore No Yes and_then or_else
pool
values Answer No Yes Failed
end
