# A valid certificate over binary trees with so many variables (-v vars=N, up to 5) and no law: each term of at most nine
# nodes is live. Test 0 tells shapes apart, and two terms of one shape are told apart by where one variable stands, at the
# test at which it alone reads another value.

# a term of a shape: its leaves, from the left, as variables
function term(shape,   at, text) {
  text = shape
  for (at = 1; at <= leaves; at++) sub(/#/, "T." value[at], text)
  return text
}

# the tree of the terms in a list of rows "NUMBER VALUE VALUE ..", split by where each variable from this one on stands
function tell(rows, variable,   list, count, at, place, parts, key, keys, below, order) {
  count = split(rows, list, ";")
  if (count == 1) { split(list[1], parts, " "); print "leaf " parts[1]; return }
  keys = 0
  for (at = 1; at <= count; at++) {
    split(list[at], parts, " ")
    key = ""
    for (place = 2; place <= leaves + 1; place++) key = key (parts[place] == variable)
    if (!(key in below)) { order[++keys] = key; below[key] = list[at] } else below[key] = below[key] ";" list[at]
  }
  if (keys == 1) { tell(rows, variable + 1); return }
  print "split " 5 ^ variable " " keys
  for (at = 1; at <= keys; at++) tell(below[order[at]], variable + 1)
}

function signature() {
  print "signature 1\nvars " vars "\nsize 9\nwidth 5\nbudget 10\npairs 20\npools given\nsort T\ncon L\ncon N T T\nexplore N"
  pools()
  print "end"
}

function pools(   at) {
  for (at = 1; at <= 16; at++) print "pool\nvalues T L (N L L) L L L"
}

BEGIN {
  print "certificate 1"
  signature()
  pools()
  # shapes by their number of nodes, and in the order of their arguments
  shapes[1] = 1; shape[1, 1] = "#"; width[1, 1] = 1; made = 0
  for (size = 1; size <= 9; size += 2) {
    if (size > 1) for (first = 1; first < size; first += 2) for (x = 1; x <= shapes[first]; x++) for (y = 1; y <= shapes[size - 1 - first]; y++) {
      left = shape[first, x]; right = shape[size - 1 - first, y]
      shapes[size]++
      shape[size, shapes[size]] = "N " (first > 1 ? "(" left ")" : left) " " (size - 1 - first > 1 ? "(" right ")" : right)
      width[size, shapes[size]] = width[first, x] + width[size - 1 - first, y]
    }
    for (x = 1; x <= shapes[size]; x++) {
      schemas++
      leaves = width[size, x]
      for (at = 1; at <= leaves; at++) value[at] = 0
      print "spread " term(shape[size, x])
      rows = ""
      for (;;) {
        made++
        print "live " term(shape[size, x])
        row = made
        for (at = 1; at <= leaves; at++) row = row " " value[at]
        rows = rows (rows == "" ? "" : ";") row
        for (at = leaves; at >= 1 && value[at] == vars - 1; at--) value[at] = 0
        if (at == 0) break
        value[at]++
      }
      terms[schemas] = rows; holes[schemas] = leaves
    }
  }
  print "tree T\nsplit 0 " schemas
  for (x = 1; x <= schemas; x++) { print "class " x; leaves = holes[x]; tell(terms[x], 0) }
  print "end"
}
