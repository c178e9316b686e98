"""The definitions of crates/law_sig/specs as a plain program, to try them on examples.

There is a part for each file of that folder, in its order, and each function has the name of its definition in
Python's spelling: `is_well_formed` is `IsWellFormed`. A step and its fold are one function with the fold's name, and a
definition of one use may stand inside the one that uses it. Sorts, symbols, fields, places and tests are numbers from
0; an option is a value or None; a `Record` tells which of its fields fail. What lists things (`sorts_of`, `vals`,
`universe`, `law_list`) has no counterpart there. Nothing here is clever, and much is slow.
"""
import sys
from collections import namedtuple
from functools import cmp_to_key, lru_cache
from math import prod as product

sys.setrecursionlimit(100000)

# What a signature is made of, as in src/tree.rt and src/parts.rt.

Var, App = namedtuple("Var", "sort index"), namedtuple("App", "head args")
Field, Param = namedtuple("Field", "number"), namedtuple("Param", "number")
Make, Call = namedtuple("Make", "head args"), namedtuple("Call", "head args")
Con, Fun = namedtuple("Con", "sort args"), namedtuple("Fun", "args result place cases")
Equation = namedtuple("Equation", "left right")
Given, Seeded = namedtuple("Given", "pools"), namedtuple("Seeded", "seed height count")
Settings = namedtuple("Settings", "vars size width budget pairs weights explored background pools")

class SigParts(namedtuple("SigParts", "sort_names symbol_names symbols settings")):
    """What a signature states."""
    __hash__ = object.__hash__  # (so that what was found out about one is kept by the signature itself)

class Record:
    """Conditions with a name each. It holds where all of them do, and `missing` names those that don't."""
    def __init__(self, **fields):
        self.missing = []
        for name, held in fields.items():
            if isinstance(held, Record):
                self.missing += [f"{name}.{inner}" for inner in held.missing]
            elif not held:
                self.missing.append(name)

    def __bool__(self):
        return not self.missing

def slice_get(items, at, otherwise=None):
    """The item at a place; where there is none, the other one or None."""
    return items[at] if at < len(items) else otherwise

# Lists.antt: words on lists that the definitions share.

def each(conditions):
    """Every item has its property; an item is named by its place."""
    return Record(**{str(at): held for at, held in enumerate(conditions)})

def rising(relation, items):
    """Every item stands in the relation to all that follow it."""
    return all(relation(x, y) for at, x in enumerate(items) for y in items[at + 1:])

def are_distinct(items):
    """No item stands twice."""
    return rising(lambda x, y: x != y, items)

# Names.antt: how a sort or a symbol may be named.

def is_letter(byte):
    """An ASCII letter."""
    return "A" <= byte <= "Z" or "a" <= byte <= "z"

def is_name_byte(byte):
    """An ASCII letter, a digit or the low line."""
    return is_letter(byte) or "0" <= byte <= "9" or byte == "_"

def is_name(text):
    """A letter, and then letters, digits and low lines; 32 bytes at most."""
    return 1 <= len(text) <= 32 and is_letter(text[0]) and all(map(is_name_byte, text))

# Trees.antt: terms as plain trees. Bodies.antt: sizes of the bodies of functions, counted as those of terms are.

def node_count(t):
    """How many nodes a term or a body has."""
    return 1 + sum(map(node_count, t.args)) if isinstance(t, (App, Make, Call)) else 1

def depth(t):
    """An atom has depth 1, any other term or body 1 more than its deepest argument."""
    return 1 + max(map(depth, t.args), default=0) if isinstance(t, (App, Make, Call)) else 1

def schema_of(t):
    """The term with every variable's index set to 0."""
    return Var(t.sort, 0) if isinstance(t, Var) else App(t.head, tuple(map(schema_of, t.args)))

def holes(sort, t):
    """The indices of a sort's variables in a term, from left to right, each as often as it stands there."""
    return [t.index] * (t.sort == sort) if isinstance(t, Var) else [i for arg in t.args for i in holes(sort, arg)]

def substituted(subst, t):
    """The term with each variable replaced; a variable that the substitution doesn't name stands for itself."""
    return subst.get(t, t) if isinstance(t, Var) else App(t.head, tuple(substituted(subst, arg) for arg in t.args))

# Signature.antt: what a signature says of its sorts and symbols, and the sort of a term.

def is_declared_sort(parts, sort):
    """Whether a sort is declared."""
    return sort < len(parts.sort_names)

def sorts_of(parts):
    """All declared sorts."""
    return range(len(parts.sort_names))

def symbol_at(parts, f):
    """The declaration of a symbol."""
    return slice_get(parts.symbols, f)

def result_of(symbol):
    """The sort of what a symbol gives."""
    return symbol.sort if isinstance(symbol, Con) else symbol.result

def constructors(parts, sort):
    """The constructors of a sort, in order of number."""
    return [f for f, symbol in enumerate(parts.symbols) if isinstance(symbol, Con) and symbol.sort == sort]

def vars_at(parts, sort):
    """A sort's number of variables."""
    return slice_get(parts.settings.vars, sort, 0)

def width_at(parts, sort):
    """A sort's number of values in a pool."""
    return slice_get(parts.settings.width, sort, 1)

def weight_at(parts, f):
    """A symbol's weight."""
    return slice_get(parts.settings.weights, f, 1)

def sort_over(symbol, sorts):
    """The sort of a symbol over arguments of these sorts."""
    return result_of(symbol) if symbol is not None and tuple(sorts) == symbol.args else None

def sort_of(parts, t):
    """The sort of a term, and None where it isn't well-sorted."""
    if isinstance(t, Var):
        return t.sort if is_declared_sort(parts, t.sort) else None
    return sort_over(symbol_at(parts, t.head), [sort_of(parts, arg) for arg in t.args])

# WellFormed.antt: when a signature is well-formed.

Scope, Part = namedtuple("Scope", "owner place fields params"), namedtuple("Part", "sort is_field")

def is_made(parts, v):
    """Whether a term has constructors alone."""
    return isinstance(v, App) and isinstance(symbol_at(parts, v.head), Con) and all(is_made(parts, a) for a in v.args)

def is_value_of(parts, sort, v):
    """A value of a sort: a well-sorted tree of constructors."""
    return Record(made=is_made(parts, v), sorted=sort_of(parts, v) == sort)

def is_writable(t):
    """The bounds of what is written down."""
    return Record(nodes_bound=node_count(t) <= 4096, depth_bound=depth(t) <= 256)

def may_call(scope, f, args):
    """A function may be called where it is declared earlier, or is the function itself and the call falls: it has
    directly a field at the match place."""
    falls = scope.place is not None and scope.place < len(args) and args[scope.place].is_field
    return f < scope.owner or (f == scope.owner and falls)

def part(parts, scope, body):
    """A part of a body: its sort, None where it isn't well-formed, and whether it is directly a field."""
    if isinstance(body, Field):
        return Part(slice_get(scope.fields, body.number), True)
    if isinstance(body, Param):
        return Part(slice_get(scope.params, body.number), False)
    symbol, args = symbol_at(parts, body.head), [part(parts, scope, arg) for arg in body.args]
    if isinstance(body, Make):
        fits = isinstance(symbol, Con)
    else:
        fits = isinstance(symbol, Fun) and may_call(scope, body.head, args)
    return Part(sort_over(symbol, [arg.sort for arg in args]) if fits else None, False)

def is_body(parts, scope, result, body):
    """A body of a function: well-formed, of the function's result sort, and within the bounds of what is written."""
    return Record(sorted=part(parts, scope, body).sort == result, written=is_writable(body))

def fits_place(parts, f, fun):
    """Either one body, or one for each constructor of the sort at the match place, in order."""
    if fun.place is None:
        fields = [()]
    elif fun.place < len(fun.args):
        fields = [symbol_at(parts, c).args for c in constructors(parts, fun.args[fun.place])]
    else:
        return Record(place=False)
    scopes = [Scope(f, fun.place, sorts, fun.args) for sorts in fields]
    return Record(one_each=len(scopes) == len(fun.cases),
                  case=each(is_body(parts, scope, fun.result, body) for scope, body in zip(scopes, fun.cases)))

def is_symbol(parts, f, symbol):
    """A symbol speaks of declared sorts and has at most 8 arguments, and a function has its bodies."""
    return Record(args_declared=each(is_declared_sort(parts, sort) for sort in symbol.args),
                  args_bound=len(symbol.args) <= 8, result_declared=is_declared_sort(parts, result_of(symbol)),
                  bodies=isinstance(symbol, Con) or fits_place(parts, f, symbol))

def has_variables(parts, t):
    """Whether each variable of a term is below its sort's number."""
    return t.index < vars_at(parts, t.sort) if isinstance(t, Var) else all(has_variables(parts, a) for a in t.args)

def is_side(parts, sort, side):
    """A side: well-sorted, its variables below their sort's number, within the bounds of what is written."""
    return Record(sorted=sort is not None and sort_of(parts, side) == sort, variables=has_variables(parts, side),
                  written=is_writable(side))

def is_background(parts, e):
    """An equation whose sides have one sort."""
    return Record(left_side=is_side(parts, sort_of(parts, e.left), e.left),
                  right_side=is_side(parts, sort_of(parts, e.left), e.right))

def are_values(parts, sort, values):
    """As many values of a sort as its width."""
    return Record(count=len(values) == width_at(parts, sort), each=each(
        Record(value=is_value_of(parts, sort, v), written=is_writable(v)) for v in values))

def is_pool(parts, pool):
    """For each sort, in order, its values."""
    return Record(sorts=len(pool) == len(parts.sort_names),
                  values=each(are_values(parts, sort, values) for sort, values in enumerate(pool)))

@lru_cache(maxsize=None)
def is_within_height(parts, n, sort):
    """Whether the least height of a sort is at most this number."""
    return n > 0 and any(all(is_within_height(parts, n - 1, arg) for arg in symbol_at(parts, c).args)
                         for c in constructors(parts, sort))

def is_pool_rule(parts, rule):
    """Pools that are given; or a seed, and a height that is enough for every sort."""
    if isinstance(rule, Given):
        return Record(pools_range=1 <= len(rule.pools) <= 16,
                      each_pool=each(is_pool(parts, pool) for pool in rule.pools))
    return Record(seed_range=rule.seed < 2 ** 63, height_range=1 <= rule.height <= 16,
                  count_range=1 <= rule.count <= 16,
                  high_enough=each(is_within_height(parts, rule.height, sort) for sort in sorts_of(parts)))

def are_numbers(count, low, high, numbers):
    """One number for each sort or symbol, each in the range."""
    return Record(one_each=len(numbers) == count, in_range=each(low <= n <= high for n in numbers))

def are_names(names):
    """Names are spelled as names, and no two are the same."""
    return Record(spelled=each(map(is_name, names)), distinct=are_distinct(names))

def are_settings(parts, sorts, symbols, settings):
    """The settings of so many sorts and symbols are in their ranges, and what they speak of is there."""
    return Record(vars=are_numbers(sorts, 0, 8, settings.vars), size=1 <= settings.size <= 32,
                  width=are_numbers(sorts, 1, 16, settings.width), budget=1 <= settings.budget <= 1000000,
                  pairs=settings.pairs <= 4096, weights=are_numbers(symbols, 1, 4, settings.weights),
                  explored_declared=each(f < symbols for f in settings.explored),
                  explored_distinct=are_distinct(settings.explored),
                  background=each(is_background(parts, e) for e in settings.background),
                  pools=is_pool_rule(parts, settings.pools))

def is_well_formed(parts):
    """The whole signature. (A sort that has a value has one whose height is at most the number of symbols: a least one
    has no sort twice on a path from its root.)"""
    sorts, symbols = len(parts.sort_names), len(parts.symbols)
    return Record(sorts_range=1 <= sorts <= 64, sort_names=are_names(parts.sort_names),
                  every_sort_has_a_value=each(is_within_height(parts, symbols, sort) for sort in sorts_of(parts)),
                  symbols_range=symbols < 2 ** 32, one_name_each=len(parts.symbol_names) == symbols,
                  symbol_names=are_names(parts.symbol_names),
                  symbols=each(is_symbol(parts, f, symbol) for f, symbol in enumerate(parts.symbols)),
                  settings=are_settings(parts, sorts, symbols, parts.settings))

# Evaluate.antt: what applying a symbol to values gives, and what it costs.

Made, MadeAll = namedtuple("Made", "value cost"), namedtuple("MadeAll", "values cost")
Chosen, Frame = namedtuple("Chosen", "body fields"), namedtuple("Frame", "fields params called")

def chosen(parts, fun, args):
    """The one body, or the body of the matched value's constructor with the value's fields."""
    at, fields = 0, ()
    if fun.place is not None:
        sort, value = slice_get(fun.args, fun.place), slice_get(args, fun.place)
        if sort is None or not isinstance(value, App) or value.head not in constructors(parts, sort):
            return None
        at, fields = constructors(parts, sort).index(value.head), value.args
    return Chosen(fun.cases[at], fields) if at < len(fun.cases) else None

def all_made(made):
    """All of them, from left to right, and None where one is missing."""
    return None if None in made else MadeAll(tuple(m.value for m in made), sum(m.cost for m in made))

def costing(more, made):
    """A value that costs so much more."""
    return None if made is None else Made(made.value, more + made.cost)

def evaluate(frame, body):
    """A field or a parameter costs 0, making costs its arguments and 1, a call its arguments and the application."""
    if isinstance(body, (Field, Param)):
        value = slice_get(frame.fields if isinstance(body, Field) else frame.params, body.number)
        return None if value is None else Made(value, 0)
    args = all_made([evaluate(frame, arg) for arg in body.args])
    if args is None:
        return None
    if isinstance(body, Make):
        return Made(App(body.head, args.values), args.cost + 1)
    return costing(args.cost, frame.called(body.head, args.values))

def apply_within(parts, deep, f, args):
    """Applying a symbol, with calls nested at most so deep. A constructor costs 1; a function 1 and its chosen body."""
    symbol = symbol_at(parts, f)
    if deep == 0 or symbol is None:
        return None
    if isinstance(symbol, Con):
        return Made(App(f, args), 1)
    c, called = chosen(parts, symbol, args), lambda g, values: apply_within(parts, deep - 1, g, values)
    return c and costing(1, evaluate(Frame(c.fields, args, called), c.body))

@lru_cache(maxsize=None)
def ap(parts, f, args, budget):
    """The value and the cost of an application where the cost is within the budget; None, called over, in every other
    case. Each call costs at least 1, so the budget bounds the depth of calls too."""
    made = apply_within(parts, budget, f, args)
    return made if made is not None and made.cost <= budget else None

# Relation.antt: the same application by rules. Each function lists all values and costs that the rules lead to.

def gives(parts, named, body):
    """A body gives this value at this cost."""
    if isinstance(body, (Field, Param)):
        value = slice_get(named.fields if isinstance(body, Field) else named.params, body.number)
        return [] if value is None else [Made(value, 0)]
    args = give_all(parts, named, body.args)
    if isinstance(body, Make):
        return [Made(App(body.head, values), spent + 1) for values, spent in args]
    return [Made(v, spent + applied) for values, spent in args for v, applied in applies(parts, body.head, values)]

def give_all(parts, named, bodies):
    """The bodies of a list give these values, from left to right, at this cost in all."""
    if not bodies:
        return [MadeAll((), 0)]
    return [MadeAll((v, *values), cost + spent) for v, cost in gives(parts, named, bodies[0])
            for values, spent in give_all(parts, named, bodies[1:])]

def applies(parts, f, args):
    """Applying a symbol to values gives this value at this cost."""
    symbol = symbol_at(parts, f)
    if isinstance(symbol, Con):
        return [Made(App(f, args), 1)]
    c = symbol and chosen(parts, symbol, args)
    return [Made(v, 1 + spent) for v, spent in gives(parts, Frame(c.fields, args, None), c.body)] if c else []

# Draws.antt of law_gen: the pools of a seed, over the words of a PCG32 generator on stream 0.

def words_of(seed):
    """The words of the generator: 32 bits each, made from a state of 64 bits by a permutation (O'Neill's XSH-RR)."""
    multiplier, increment, mask = 6364136223846793005, 1, 2 ** 64 - 1
    state = ((seed + increment) * multiplier + increment) & mask
    while True:
        shifted, turn = (((state >> 18) ^ state) >> 27) & (2 ** 32 - 1), state >> 59
        yield ((shifted >> turn) | (shifted << (-turn & 31))) & (2 ** 32 - 1)
        state = (state * multiplier + increment) & mask

def drawn_value(parts, words, sort, height):
    """A value of a sort with a height left: a word chooses the constructor, and then its fields are drawn in turn."""
    choices = [c for c in constructors(parts, sort)
               if all(is_within_height(parts, height - 1, arg) for arg in symbol_at(parts, c).args)]
    chosen = choices[next(words) % len(choices)]
    return App(chosen, tuple(drawn_value(parts, words, arg, height - 1) for arg in symbol_at(parts, chosen).args))

def pools_by(parts):
    """The pools of a signature: those that it gives, or those of its seed."""
    rule = parts.settings.pools
    if isinstance(rule, Given):
        return rule.pools
    words = words_of(rule.seed)
    return tuple(tuple(tuple(drawn_value(parts, words, sort, rule.height) for _ in range(width_at(parts, sort)))
                       for sort in sorts_of(parts)) for _ in range(rule.count))

# Tests.antt: the universe of terms, the pools, the tests, and when two terms agree.

def weight(parts, t):
    """A variable weighs 1, a symbol its stated weight, a term the sum over its nodes."""
    return 1 if isinstance(t, Var) else weight_at(parts, t.head) + sum(weight(parts, arg) for arg in t.args)

def is_bounded(parts, t):
    """Whether a term has explored symbols alone, and variables below their sort's number."""
    if isinstance(t, Var):
        return t.index < vars_at(parts, t.sort)
    return t.head in parts.settings.explored and all(is_bounded(parts, arg) for arg in t.args)

def in_u(parts, sort, t):
    """The universe at a sort: bounded terms of it, of weight at most the setting `size`."""
    return sort_of(parts, t) == sort and is_bounded(parts, t) and weight(parts, t) <= parts.settings.size

@lru_cache(maxsize=None)
def radices(parts):
    """The width that each variable's place stays below, by sort and then by index."""
    return [width_at(parts, sort) for sort, count in enumerate(parts.settings.vars) for _ in range(count)]

def variable_number(parts, sort, index):
    """The variables of all sorts are numbered from 0, by sort and then by index."""
    return sum(parts.settings.vars[:sort]) + index

def assignments(parts):
    """How many ways there are to give each variable a place."""
    return product(radices(parts))

def digit_in(bases, k, n):
    """The digit at a place of a number whose digits stay below these radices, the least first."""
    return n // product(bases[:k]) % slice_get(bases, k, 1)

def digit(parts, test, sort, index):
    """The place in the pool that a variable reads at a test."""
    return digit_in(radices(parts), variable_number(parts, sort, index), test % assignments(parts))

def test_count(parts, pools):
    """Tests are numbered from 0, pool by pool."""
    return len(pools) * assignments(parts)

def is_flat(parts, test):
    """All variables of one sort read the same place."""
    return all(digit(parts, test, sort, i) == digit(parts, test, sort, j)
               for sort, count in enumerate(parts.settings.vars) for i in range(count) for j in range(count))

def pool_value(pools, pool, sort, place):
    """The value at a place of a pool."""
    return slice_get(slice_get(slice_get(pools, pool, ()), sort, ()), place)

def value_at(parts, pools, test, sort, index):
    """The value of a variable at a test."""
    return pool_value(pools, test // assignments(parts), sort, digit(parts, test, sort, index))

def val(parts, pools, test, t):
    """The value of a term at a test, node by node, each application with the full budget; None where one is over."""
    if isinstance(t, Var):
        return value_at(parts, pools, test, t.sort, t.index)
    values = tuple(val(parts, pools, test, arg) for arg in t.args)
    made = None if None in values else ap(parts, t.head, values, parts.settings.budget)
    return made and made.value

def vals(parts, pools, t):
    """The values of a term at all tests."""
    return tuple(val(parts, pools, test, t) for test in range(test_count(parts, pools)))

def same(parts, pools, s, t):
    """At every test both terms have the same value, or neither has one."""
    return vals(parts, pools, s) == vals(parts, pools, t)

def is_defined(parts, pools, t):
    """The term has a value at every test."""
    return None not in vals(parts, pools, t)

def agrees(parts, pools, s, t):
    """Both terms have a value at every test, and the same one."""
    return same(parts, pools, s, t) and is_defined(parts, pools, s)

def is_in_budget(parts, pools):
    """Every term of the universe and every background side has a value at every test."""
    terms = [t for sort in sorts_of(parts) for t in universe(parts, sort)]
    sides = [side for e in parts.settings.background for side in e]
    return all(is_defined(parts, pools, t) for t in terms + sides)

# Order.antt: the orders of terms. A rank spells out what is compared: it is a number, or a pair of ranks.

def rank_cmp(a, b):
    """Below 0 where a rank stands before another one, above 0 where it stands after it."""
    if isinstance(a, tuple) and isinstance(b, tuple):
        return rank_cmp(a[0], b[0]) or rank_cmp(a[1], b[1])
    if isinstance(a, tuple) or isinstance(b, tuple):
        return 1 if isinstance(a, tuple) else -1
    return a - b

def row(ranks):
    """One rank after another."""
    return (ranks[0], row(ranks[1:])) if ranks else 0

@lru_cache(maxsize=None)
def rank(parts, t):
    """A weight, a kind of head (variables are 0, symbols 1), the number of the sort or symbol, and the rest."""
    if isinstance(t, Var):
        return (1, (0, (t.sort, t.index)))
    return (weight(parts, t), (1, (t.head, row([rank(parts, arg) for arg in t.args]))))

def compare_k(parts, s, t):
    """The order K."""
    return rank_cmp(rank(parts, s), rank(parts, t))

def explore_cmp(parts, s, t):
    """The order of exploring: the schemas by K, and then the terms."""
    return rank_cmp((rank(parts, schema_of(s)), rank(parts, s)), (rank(parts, schema_of(t)), rank(parts, t)))

def is_before(parts, s, t):
    """s stands before t in the order of exploring."""
    return explore_cmp(parts, s, t) < 0

# Derive.antt: equational derivation. A derivation is the name of a rule with what it is used on.

def keeps_sorts(parts, subst):
    """Each variable of a declared sort goes to a term of that sort."""
    return all(sort_of(parts, t) == x.sort for x, t in subst.items() if is_declared_sort(parts, x.sort))

def derivable(parts, equations, derivation):
    """The equation that a derivation leads to, and None where it is none from these equations."""
    rule, *used = derivation
    if rule == "reflexive":
        return Equation(used[0], used[0])
    if rule == "instance":
        e, subst = used
        allowed = e in equations and keeps_sorts(parts, subst)
        return Equation(substituted(subst, e.left), substituted(subst, e.right)) if allowed else None
    first = derivable(parts, equations, used[-1])
    if rule == "symmetric":
        return first and Equation(first.right, first.left)
    if rule == "replaced":
        f, before, after, _ = used
        return first and Equation(App(f, (*before, first.left, *after)), App(f, (*before, first.right, *after)))
    if rule == "transitive":
        s = derivable(parts, equations, used[0])
        return Equation(s.left, first.right) if s and first and s.right == first.left else None

# Laws.antt: laws, the law list of a signature, and when laws cover the universe.

def is_law(parts, pools, e):
    """Both sides are in the universe, of one sort, and have the same value at every test."""
    in_universe = any(in_u(parts, sort, e.left) and in_u(parts, sort, e.right) for sort in sorts_of(parts))
    return in_universe and agrees(parts, pools, e.left, e.right)

def is_told_apart(parts, pools, s, t):
    """At some test both terms have a value, and not the same one."""
    both = zip(vals(parts, pools, s), vals(parts, pools, t))
    return any(v is not None and w is not None and v != w for v, w in both)

def is_covered(parts, pools, laws, derivation):
    """Any two terms of the universe of one sort are told apart by a test, or are derivable as equal from the background
    and the laws, by the derivation that is handed in for them; and every law is one."""
    equations = [*parts.settings.background, *laws]
    terms = all(is_told_apart(parts, pools, s, t) or derivable(parts, equations, derivation(s, t)) == (s, t)
                for sort in sorts_of(parts) for s in universe(parts, sort) for t in universe(parts, sort))
    return terms and all(is_law(parts, pools, e) for e in laws)

def is_least(parts, pools, sort, t, u):
    """u is the first term of the universe, in the order of exploring, that has the sort of t and agrees with it."""
    least = all(w == u or is_before(parts, u, w) for w in universe(parts, sort) if same(parts, pools, t, w))
    return sort_of(parts, t) == sort and in_u(parts, sort, u) and same(parts, pools, t, u) and least

def is_listed(parts, pools, sort, e):
    """A term of the universe, and another one that is its least."""
    return in_u(parts, sort, e.left) and is_least(parts, pools, sort, e.left, e.right) and e.left != e.right

def is_law_list(parts, pools, laws):
    """For each term of the universe that isn't its own least the equation with its least, in the order of exploring."""
    listed = [Equation(s, t) for sort in sorts_of(parts) for s in universe(parts, sort) for t in universe(parts, sort)
              if is_listed(parts, pools, sort, Equation(s, t))]
    return set(laws) == set(listed) and rising(lambda d, e: is_before(parts, d.left, e.left), laws)

# Two lists of what is defined above: the terms of the universe, and the law list.

@lru_cache(maxsize=None)
def weighing(parts, sort, w):
    """The terms of a sort that weigh so much."""
    variables = [Var(sort, index) for index in range(vars_at(parts, sort)) if w == 1]
    heads = [f for f in parts.settings.explored if result_of(symbol_at(parts, f)) == sort]
    return variables + [App(f, args) for f in heads
                        for args in weighing_together(parts, symbol_at(parts, f).args, w - weight_at(parts, f))]

def weighing_together(parts, sorts, w):
    """The lists of terms of these sorts that weigh so much in all."""
    if not sorts:
        return [()] if w == 0 else []
    return [(t, *others) for own in range(1, w + 1) for others in weighing_together(parts, sorts[1:], w - own)
            for t in weighing(parts, sorts[0], own)]

@lru_cache(maxsize=None)
def universe(parts, sort):
    """The terms of the universe at a sort, in the order of exploring."""
    terms = [t for w in range(1, parts.settings.size + 1) for t in weighing(parts, sort, w) if in_u(parts, sort, t)]
    return sorted(terms, key=cmp_to_key(lambda s, t: explore_cmp(parts, s, t)))

def law_list(parts, pools):
    """The law list: the least of a term is the first one that has its values at all tests."""
    laws = []
    for sort in sorts_of(parts):
        least = {}
        for t in universe(parts, sort):
            u = least.setdefault(vals(parts, pools, t), t)
            laws += [Equation(t, u)] if t != u else []
    return sorted(laws, key=cmp_to_key(lambda d, e: explore_cmp(parts, d.left, e.left)))
