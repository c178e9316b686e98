signature 2
size 5
budget 2000
pairs 200
pools seed 7 height 6 count 8
sort Bit 0 2
con O
con I
sort Bits 3 3
con End
con Put Bit Bits
fun bit_not Bit -> Bit
match 0
case O = I
case I = O
fun bit_and Bit Bit -> Bit
match 0
case O = O
case I = #1
fun bit_or Bit Bit -> Bit
match 0
case O = #1
case I = I
fun first Bits -> Bit
match 0
case End = O
case Put = @0
fun rest Bits -> Bits
match 0
case End = End
case Put = @1
fun if_any Bits Bits -> Bits
match 0
case End = End
case Put = #1
fun flip Bits -> Bits
match 0
case End = End
case Put = Put (bit_not @0) (flip @1)
fun both Bits Bits -> Bits
match 0
case End = End
case Put = if_any #1 (Put (bit_and @0 (first #1)) (both @1 (rest #1)))
fun either Bits Bits -> Bits
match 0
case End = End
case Put = if_any #1 (Put (bit_or @0 (first #1)) (either @1 (rest #1)))
explore flip both either
end
