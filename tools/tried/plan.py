"""The definitions of crates/law_plan/specs, and the placing rule of crates/law_splits/specs, as a plain program.

As in definitions.py there is a part for each file, and each function has the name of its definition. What is defined by
"exactly these" is listed here: `entries_of` and `sort_tree` have no counterpart there. The laws and lemmas between entries,
which completion gives, aren't computed.
"""
from collections import namedtuple

import definitions as d
import validity as v
from definitions import App, Record, Var, rising

# Kills.antt and Plan.antt: what becomes of each considered schema and of each instance of a spread one. An entry of the plan
# has no steps.

Spread, Killed = namedtuple("Spread", "schema"), namedtuple("Killed", "general target")
Live, Moved = namedtuple("Live", "term"), namedtuple("Moved", "term target")

def least_of(parts, pools, t):
    """The first term of the universe, in the order of exploring, that is like t."""
    sort = d.sort_of(parts, t)
    return next(u for u in d.universe(parts, sort) if d.is_least(parts, pools, sort, t, u))

def generals(parts, c):
    """The most general instances of a schema: there is one, or none where a sort has too few variables."""
    return [g for g in d.universe(parts, d.sort_of(parts, c)) if d.schema_of(g) == c and v.is_numbered(parts, g)]

def schema_entry(parts, pools, c):
    """A schema is killed where the least of its most general instance has a schema that stands before it."""
    for g in generals(parts, c):
        u = least_of(parts, pools, g)
        if d.is_before(parts, d.schema_of(u), c):
            return Killed(g, u)
    return Spread(c)

def term_entry(parts, pools, t):
    """A term is live where it is its own least, and else moved to its least."""
    u = least_of(parts, pools, t)
    return Live(t) if u == t else Moved(t, u)

def planned_terms(parts, pools, spreads):
    """The terms of spread schemas whose arguments are each their own least."""
    own = lambda a: least_of(parts, pools, a) == a
    return [t for sort in d.sorts_of(parts) for t in d.universe(parts, sort)
            if d.schema_of(t) in spreads and (isinstance(t, Var) or all(own(a) for a in t.args))]

def entries_of(parts, pools, spreads):
    """The entries of the plan, given its spread schemas."""
    return {*(schema_entry(parts, pools, c) for c in v.considered(parts, tuple(spreads))),
            *(term_entry(parts, pools, t) for t in planned_terms(parts, pools, spreads))}

def item_of(x):
    """What an entry is about: a schema, or a term with its schema."""
    if isinstance(x, (Spread, Killed)):
        return (x.schema if isinstance(x, Spread) else d.schema_of(x.general)), None
    return d.schema_of(x.term), x.term

def precedes(parts, x, y):
    """By schema; a schema before its terms; terms in the order of exploring."""
    (c, s), (e, t) = item_of(x), item_of(y)
    if c != e:
        return d.is_before(parts, c, e)
    return t is not None and (s is None or d.is_before(parts, s, t))

def is_plan(parts, pools, xs):
    """Exactly these entries, in order."""
    spreads = [x.schema for x in xs if isinstance(x, Spread)]
    return Record(rising=rising(lambda x, y: precedes(parts, x, y), xs), members=set(xs) == entries_of(parts, pools, spreads))

# Owed.antt: the plan's entries of a certificate's ones.

def planned(entries):
    """Laws, lemmas and steps are left out."""
    kept = []
    for x in entries:
        if isinstance(x, v.Spread):
            kept.append(Spread(x.schema))
        elif isinstance(x, v.Live):
            kept.append(Live(x.term))
        elif isinstance(x, (v.Killed, v.Moved)):
            kept.append((Killed if isinstance(x, v.Killed) else Moved)(*x.equation))
    return kept

# law_splits' Agree.antt and Rule.antt: the placing rule.

def first_difference(allowed, value, x, y):
    """The first allowed test at which both have a value and not the same one, where they agree at each one before."""
    for test in allowed:
        a, b = value(test, x), value(test, y)
        if a is None or b is None:
            return None
        if a != b:
            return test
    return None

def split_tree(allowed, value, xs):
    """The tree of a list of items, in the order in which they are placed; None where there is none."""
    if len(xs) == 1:
        return v.Leaf(xs[0])
    test = first_difference(allowed, value, xs[0], xs[1])
    values = [] if test is None else [value(test, x) for x in xs]
    if test is None or None in values:
        return None
    kids = [split_tree(allowed, value, [x for x, a in zip(xs, values) if a == b]) for b in dict.fromkeys(values)]
    return None if None in kids else v.Split(test, kids)

# Trees.antt: the trees of a certificate by the placing rule.

def agree(allowed, value, n, m):
    """At each allowed test both have one value."""
    return all(value(test, n) is not None and value(test, n) == value(test, m) for test in allowed)

def classes_of(allowed, value, numbers):
    """Each number is of the first class whose first number it agrees with, or begins one."""
    classes = []
    for n in numbers:
        home = next((one for one in classes if agree(allowed, value, one[0], n)), None)
        home.append(n) if home else classes.append([n])
    return classes

def branch(of, tree):
    """A tree with other things at its leaves."""
    return v.Leaf(of(tree.leaf)) if isinstance(tree, v.Leaf) else v.Split(tree.test, [branch(of, kid) for kid in tree.kids])

def sort_tree(parts, pools, all_, sort):
    """The tree of a sort: the first schemas of classes by flat tests, and below each class its live terms by all tests."""
    spreads, lives = v.spreads_at(all_), v.lives_at(all_)
    tests = range(d.test_count(parts, pools))
    flat = [test for test in tests if d.is_flat(parts, test)]
    of_schema, of_term = v.value_of(parts, pools, spreads), v.value_of(parts, pools, lives)
    classes = classes_of(flat, of_schema, [n for n, c in enumerate(spreads, 1) if d.sort_of(parts, c) == sort])
    below = {}
    for one in classes:
        schemas = [v.numbered(spreads, n) for n in one]
        terms = split_tree(tests, of_term, [n for n, t in enumerate(lives, 1) if d.schema_of(t) in schemas])
        below[one[0]] = v.Class(one, terms)
    tree = split_tree(flat, of_schema, [one[0] for one in classes])
    whole = tree and all(one.terms for one in below.values())
    return v.SortTree(sort, branch(lambda n: below[n], tree)) if whole else None

def are_placed(parts, pools, all_, trees):
    """A tree by the placing rule for each sort that has a spread schema, in the order of the sorts."""
    return trees == [sort_tree(parts, pools, all_, sort) for sort in sorted(v.spread_sorts(parts, all_))]
