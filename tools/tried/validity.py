"""The definitions of crates/law_valid/specs as a plain program.

As in definitions.py there is a part for each file, and each function has the name of its definition. What is defined by
"exactly these" is listed here: `considered` and `instances` have no counterpart there.
"""
from collections import namedtuple
from functools import lru_cache
from itertools import product

import definitions as d
from definitions import App, Record, Var, each, rising

# What a certificate is made of, as in src/certificate.rt.

Bind, Step = namedtuple("Bind", "sort index term"), namedtuple("Step", "place number dir binds")
Law, Lemma = namedtuple("Law", "number equation"), namedtuple("Lemma", "number equation steps")
Spread, Killed = namedtuple("Spread", "schema"), namedtuple("Killed", "equation steps")
Live, Moved = namedtuple("Live", "term"), namedtuple("Moved", "equation steps")
Leaf, Split = namedtuple("Leaf", "leaf"), namedtuple("Split", "test kids")
Class, SortTree = namedtuple("Class", "schemas terms"), namedtuple("SortTree", "sort tree")

# Stated.antt: what the entries of a certificate state, each in the order of the entries.

def stated(kinds, xs, of=lambda x: x):
    """What entries of these kinds state."""
    return [of(x) for x in xs if isinstance(x, kinds)]

def schemas_at(xs):
    """The schemas: those that are spread, and those of killed ones."""
    return stated((Spread, Killed), xs, lambda x: x.schema if isinstance(x, Spread) else d.schema_of(x.equation.left))

def spreads_at(xs):
    """The spread schemas alone."""
    return stated(Spread, xs, lambda x: x.schema)

def lives_at(xs):
    """The live terms."""
    return stated(Live, xs, lambda x: x.term)

def term_of(x):
    """The term of an entry that is live or moved."""
    return x.term if isinstance(x, Live) else x.equation.left

def terms_after(xs):
    """The terms, live or moved, up to the next schema."""
    end = next((at for at, x in enumerate(xs) if isinstance(x, (Spread, Killed))), len(xs))
    return stated((Live, Moved), xs[:end], term_of)

def known(parts, xs):
    """The equations that chains may name, in the order of their numbers."""
    return [*parts.settings.background, *stated((Law, Lemma), xs, lambda x: x.equation)]

def numbered(xs, n):
    """The item with a number, counted from 1."""
    return xs[n - 1] if 1 <= n <= len(xs) else None

# Chains.antt: chains of steps by equations.

def are_binds(parts, q, binds):
    """Exactly the variables of both sides, in order, each with a term of its sort."""
    variables = {(sort, i) for sort in d.sorts_of(parts) for side in q for i in d.holes(sort, side)}
    places = [(b.sort, b.index) for b in binds]
    return (all(d.sort_of(parts, b.term) == b.sort for b in binds) and rising(lambda p, q: p < q, places)
            and set(places) == variables)

def rewritten(before, after, place, t):
    """The term with `after` in the place of `before`; None where that doesn't stand there."""
    if not place:
        return after if t == before else None
    if isinstance(t, Var) or place[0] >= len(t.args):
        return None
    arg = rewritten(before, after, place[1:], t.args[place[0]])
    return arg and App(t.head, (*t.args[:place[0]], arg, *t.args[place[0] + 1:]))

def stepped(parts, equations, step, t):
    """The term that a step leads to, and None where it is none by these equations."""
    q = numbered(equations, step.number)
    if q is None or not are_binds(parts, q, step.binds):
        return None
    bound = {Var(b.sort, b.index): b.term for b in step.binds}
    left, right = d.substituted(bound, q.left), d.substituted(bound, q.right)
    return rewritten(*((left, right) if step.dir == "lr" else (right, left)), step.place, t)

def replays(parts, equations, steps, s, t):
    """The steps lead from the first term to the second."""
    for step in steps:
        s = s and stepped(parts, equations, step, s)
    return s == t

# Schemas.antt: which schemas are considered, and which terms are instances of a schema.

def rows(parts, choices, room):
    """One of each list of choices in turn, of at most so much weight in all."""
    if not choices:
        return [()]
    return [(t, *others) for t in choices[0] if d.weight(parts, t) <= room
            for others in rows(parts, choices[1:], room - d.weight(parts, t))]

@lru_cache(maxsize=None)
def considered(parts, spreads):
    """The schemas that are considered over these spread ones."""
    found = {Var(sort, 0) for sort in d.sorts_of(parts) if d.vars_at(parts, sort) >= 1}
    for f in parts.settings.explored:
        fitting = [[c for c in spreads if d.sort_of(parts, c) == arg] for arg in d.symbol_at(parts, f).args]
        found |= {App(f, cs) for cs in rows(parts, fitting, parts.settings.size - d.weight_at(parts, f))
                  if d.weight_at(parts, f) <= parts.settings.size}
    return found

@lru_cache(maxsize=None)
def instances(parts, lives, c):
    """The terms of the universe with this schema whose arguments are all live."""
    if isinstance(c, Var):
        terms = [Var(c.sort, index) for index in range(d.vars_at(parts, c.sort))] if c.index == 0 else []
    else:
        terms = [App(c.head, args) for args in product(*([t for t in lives if d.schema_of(t) == a] for a in c.args))]
    sort = d.sort_of(parts, c)
    return {t for t in terms if sort is not None and d.in_u(parts, sort, t)}

def are_exactly(parts, wanted, ts):
    """Exactly these terms, in the order of exploring."""
    return Record(rising=rising(lambda s, t: d.is_before(parts, s, t), ts), members=set(ts) == wanted)

# Splits.antt: trees of splits, read as lists.

def leaves_of(tree):
    """A tree's leaves from left to right."""
    return [tree.leaf] if isinstance(tree, Leaf) else [leaf for kid in tree.kids for leaf in leaves_of(kid)]

def cuts_of(tree):
    """Its splits in prefix order: the test, and the leaves below each child."""
    if isinstance(tree, Leaf):
        return []
    return [(tree.test, [leaves_of(kid) for kid in tree.kids]), *(cut for kid in tree.kids for cut in cuts_of(kid))]

def are_apart(value, cut):
    """Two items have the same value exactly where they are below the same child."""
    test, kids = cut
    below = [(i, n) for i, ns in enumerate(kids) for n in ns]
    return all((value(test, n) == value(test, m)) == (i == j) for i, n in below for j, m in below)

def tells(value, cut):
    """Every item below a split has a value there, and the values tell the children apart."""
    return all(value(cut[0], n) is not None for ns in cut[1] for n in ns) and are_apart(value, cut)

# Trees.antt: the trees of a certificate.

def are_numbers_of(xs, holds, ns):
    """Exactly the numbers of the items with the property, each once."""
    return sorted(ns) == [n for n, x in enumerate(xs, 1) if holds(x)]

def value_of(parts, pools, ts):
    """The value of the term with a number at a test."""
    return lambda test, n: d.val(parts, pools, test, numbered(ts, n)) if numbered(ts, n) else None

def is_test(parts, pools, test):
    return test < d.test_count(parts, pools)

def is_flat_test(parts, pools, test):
    return is_test(parts, pools, test) and d.is_flat(parts, test)

def schemas_in(classes):
    """The schemas of classes one after another."""
    return [n for one in classes for n in one.schemas]

def of_schemas(cut):
    """A split above classes, as one of schemas."""
    return cut[0], [schemas_in(classes) for classes in cut[1]]

def has_schemas(parts, pools, all_, tree):
    """Each spread schema of the sort is in one class, their numbers rise there, and the tests above are flat."""
    return Record(
        schemas=are_numbers_of(spreads_at(all_), lambda c: d.sort_of(parts, c) == tree.sort, schemas_in(leaves_of(tree.tree))),
        rising=all(rising(lambda n, m: n < m, one.schemas) for one in leaves_of(tree.tree)),
        flat=all(is_flat_test(parts, pools, test) for test, _ in cuts_of(tree.tree)))

def has_terms(parts, pools, all_, one):
    """Each live term of a class has a leaf of its own, and the splits there are at tests."""
    schemas = [numbered(spreads_at(all_), n) for n in one.schemas]
    return Record(terms=are_numbers_of(lives_at(all_), lambda t: d.schema_of(t) in schemas, leaves_of(one.terms)),
                  tests=all(is_test(parts, pools, test) for test, _ in cuts_of(one.terms)))

def is_tree(parts, pools, all_, tree):
    """The splits of a tree tell its spread schemas apart class by class, and the live terms of a class term by term."""
    schemas, terms = value_of(parts, pools, spreads_at(all_)), value_of(parts, pools, lives_at(all_))
    return Record(schemas=has_schemas(parts, pools, all_, tree),
                  terms=each(has_terms(parts, pools, all_, one) for one in leaves_of(tree.tree)),
                  schemas_told=each(tells(schemas, of_schemas(cut)) for cut in cuts_of(tree.tree)),
                  terms_told=each(tells(terms, cut) for one in leaves_of(tree.tree) for cut in cuts_of(one.terms)))

def spread_sorts(parts, all_):
    """The sorts that have a spread schema."""
    return {d.sort_of(parts, c) for c in spreads_at(all_)} - {None}

def are_trees(parts, pools, all_, trees):
    """A tree for each sort that has a spread schema, in the order of the sorts."""
    sorts = [tree.sort for tree in trees]
    return Record(rising=rising(lambda s, u: s < u, sorts), sorts=set(sorts) == spread_sorts(parts, all_),
                  each=each(is_tree(parts, pools, all_, tree) for tree in trees))

# Valid.antt: when a certificate is valid.

def is_within_limits(parts):
    """Well-formed, at most 4,096 assignments, and no value of the pools has more than 4,096 nodes."""
    return Record(well_formed=bool(d.is_well_formed(parts)) and Record(
        few_assignments=d.assignments(parts) <= 4096,
        small_values=all(d.node_count(v) <= 4096 for pool in d.pools_by(parts) for values in pool for v in values)))

def is_number(parts, before, number):
    """Equation numbers run on from the background."""
    return number == len(known(parts, before)) + 1

def has_sides(parts, q):
    """Both sides of a law are in the universe, of one sort."""
    sort = d.sort_of(parts, q.left)
    return sort is not None and d.in_u(parts, sort, q.left) and d.in_u(parts, sort, q.right)

def is_lemma(parts, before, q, steps):
    """Both sides are well-sorted, of one sort; the chain leads from left to right by equations before it."""
    return Record(sorts=d.sort_of(parts, q.left) is not None and d.sort_of(parts, q.left) == d.sort_of(parts, q.right),
                  chain=replays(parts, known(parts, before), steps, q.left, q.right))

def is_numbered(parts, g):
    """The variables of each sort are numbered from 0, from left to right."""
    return all(d.holes(sort, g) == list(range(len(d.holes(sort, g)))) for sort in d.sorts_of(parts))

def is_killed(parts, before, q, steps):
    """A schema is killed by its most general instance and a target of an earlier schema."""
    return Record(sides=has_sides(parts, q), general=is_numbered(parts, q.left),
                  falls=d.is_before(parts, d.schema_of(q.right), d.schema_of(q.left)),
                  chain=replays(parts, known(parts, before), steps, q.left, q.right))

def is_moved(parts, before, q, steps):
    """A term is moved to an earlier live term of its sort."""
    return Record(earlier=q.right in lives_at(before), sorts=d.sort_of(parts, q.left) == d.sort_of(parts, q.right),
                  chain=replays(parts, known(parts, before), steps, q.left, q.right))

def is_entry(parts, pools, all_, at):
    """What is asked of an entry, by the entries before it and after it."""
    before, x, after = all_[:at], all_[at], all_[at + 1:]
    if isinstance(x, Spread):
        return are_exactly(parts, instances(parts, tuple(lives_at(all_)), x.schema), terms_after(after))
    if isinstance(x, Live):
        return Record()
    agree = not isinstance(x, Lemma) and d.agrees(parts, pools, *x.equation)
    if isinstance(x, Law):
        return Record(number=is_number(parts, before, x.number), sides=has_sides(parts, x.equation), agree=agree)
    if isinstance(x, Lemma):
        return Record(number=is_number(parts, before, x.number), lemma=is_lemma(parts, before, x.equation, x.steps))
    if isinstance(x, Moved):
        return Record(moved=is_moved(parts, before, x.equation, x.steps), agree=agree)
    return Record(killed=is_killed(parts, before, x.equation, x.steps), agree=agree, bare=not terms_after(after))

def is_valid(parts, pools, entries, trees):
    """The whole certificate."""
    limits = is_within_limits(parts)
    if not limits:
        return Record(limits=limits)
    if pools != d.pools_by(parts):
        return Record(pools_are=False)
    return Record(
        background=all(d.agrees(parts, pools, *q) for q in parts.settings.background),
        schemas=are_exactly(parts, considered(parts, tuple(spreads_at(entries))), schemas_at(entries)),
        first=not terms_after(entries), each=each(is_entry(parts, pools, entries, at) for at in range(len(entries))),
        trees_are=are_trees(parts, pools, entries, trees))

# Expected.antt: what is expected next, of things that stand in an order.

def first_above(before, holding, done):
    """The first one with the property that stands after all that are done; None where there is none."""
    above = [x for x in holding if all(before(y, x) for y in done)]
    return next((x for x in above if all(y == x or before(x, y) for y in above)), None)

# Judged.antt: what a checker answers. Each fault ends the walk, so the first one in the order of checking is the answer.

class Fault(Exception):
    """A rule that fails, or an evaluation that is over."""

def demand(holds, rule, entry):
    if not holds:
        raise Fault("no", rule, entry)

def valued(parts, pools, t, test, entry):
    """The value of a term at a test."""
    value = d.val(parts, pools, test, t)
    if value is None:
        raise Fault("over", entry, test, t)
    return value

def at_tests(parts, pools, rule, entry, q):
    """Both sides have one value, by rising test, the left side before the right one."""
    for test in range(d.test_count(parts, pools)):
        left = valued(parts, pools, q.left, test, entry)
        demand(left == valued(parts, pools, q.right, test, entry), rule, entry)

def judge_entries(parts, pools, entries):
    """A schema may stand where no instance is expected, a term where one is."""
    order, block = lambda s, t: d.is_before(parts, s, t), None
    for at in range(len(entries) + 1):
        before, entry = entries[:at], at + 1
        next_term = block and first_above(order, instances(parts, tuple(lives_at(before)), block[0]), block[1])
        next_schema = lambda: first_above(order, considered(parts, tuple(spreads_at(before))), schemas_at(before))
        if at == len(entries):
            demand(next_term is None, "V7", entry)
            demand(next_schema() is None, "V5", entry)
            return
        x = entries[at]
        if isinstance(x, Law):
            demand(is_number(parts, before, x.number) and has_sides(parts, x.equation), "V3", entry)
            at_tests(parts, pools, "V3", entry, x.equation)
        elif isinstance(x, Lemma):
            demand(is_number(parts, before, x.number) and is_lemma(parts, before, x.equation, x.steps), "V4", entry)
        elif isinstance(x, (Spread, Killed)):
            demand(next_term is None, "V7", entry)
            demand(next_schema() == schemas_at([x])[0], "V5", entry)
            block = (x.schema, []) if isinstance(x, Spread) else None
            if isinstance(x, Killed):
                demand(is_killed(parts, before, x.equation, x.steps), "V6", entry)
                at_tests(parts, pools, "V6", entry, x.equation)
        else:
            demand(next_term is not None, "V5", entry)
            demand(next_term == term_of(x), "V7", entry)
            block[1].append(next_term)
            if isinstance(x, Moved):
                demand(is_moved(parts, before, x.equation, x.steps), "V7", entry)
                at_tests(parts, pools, "V7", entry, x.equation)

def all_cuts(spreads, lives, tree):
    """The splits of a whole tree in prefix order, each with its rule and its terms."""
    if isinstance(tree, Leaf):
        return [("V9", lives, cut) for cut in cuts_of(tree.leaf.terms)]
    own = "V8", spreads, of_schemas((tree.test, [leaves_of(kid) for kid in tree.kids]))
    return [own, *(cut for kid in tree.kids for cut in all_cuts(spreads, lives, kid))]

def judge_trees(parts, pools, all_, trees):
    """Trees go on counting after the entries. At each split the items below it are evaluated before they are compared."""
    entry, done = len(all_) + 1, []
    for tree in trees:
        sort = first_above(lambda s, u: s < u, spread_sorts(parts, all_), done)
        demand(tree.sort == sort, "V8", entry)
        demand(has_schemas(parts, pools, all_, tree), "V8", entry)
        demand(all(has_terms(parts, pools, all_, one) for one in leaves_of(tree.tree)), "V9", entry)
        for rule, ts, (test, kids) in all_cuts(spreads_at(all_), lives_at(all_), tree.tree):
            for n in (n for ns in kids for n in ns):
                valued(parts, pools, numbered(ts, n), test, entry)
            demand(are_apart(value_of(parts, pools, ts), (test, kids)), rule, entry)
        done.append(tree.sort)
        entry += 1
    demand(first_above(lambda s, u: s < u, spread_sorts(parts, all_), done) is None, "V8", entry)

def judged(parts, pools, entries, trees):
    """None where nothing is found wrong, else the fault that comes first."""
    try:
        demand(is_within_limits(parts), "V1", 0)
        demand(pools == d.pools_by(parts), "V2", 0)
        for q in parts.settings.background:
            at_tests(parts, pools, "V3", 0, q)
        judge_entries(parts, pools, entries)
        judge_trees(parts, pools, entries, trees)
    except Fault as fault:
        return fault.args
    return None

# Coverage.antt: the laws of a valid certificate cover. Each term is led to a live one by the entries, as a derivation from
# the background and the laws; lemmas are replaced by their chains.

def variables_of(t):
    """The variables of a term."""
    return {t} if isinstance(t, Var) else {x for arg in t.args for x in variables_of(arg)}

def instance(subst, derivation):
    """The derivation of the instance of what a derivation leads to."""
    rule, *used = derivation
    if rule == "reflexive":
        return rule, d.substituted(subst, used[0])
    if rule == "instance":
        e, first = used
        variables = variables_of(e.left) | variables_of(e.right)
        return rule, e, {x: d.substituted(subst, first.get(x, x)) for x in variables}
    if rule == "replaced":
        f, before, after, inner = used
        return rule, f, *(tuple(d.substituted(subst, t) for t in ts) for ts in (before, after)), instance(subst, inner)
    return rule, *(instance(subst, one) for one in used)

def replaced_at(place, t, inner):
    """A derivation at a place of a term."""
    if not place:
        return inner
    at = place[0]
    return "replaced", t.head, t.args[:at], t.args[at + 1:], replaced_at(place[1:], t.args[at], inner)

def chain(parts, given, steps, s):
    """The derivation of a chain from a term, by equations that are given with a derivation each."""
    way, equations = ("reflexive", s), [q for q, _ in given]
    for step in steps:
        one = instance({Var(b.sort, b.index): b.term for b in step.binds}, given[step.number - 1][1])
        one = one if step.dir == "lr" else ("symmetric", one)
        way, s = ("transitive", way, replaced_at(step.place, s, one)), stepped(parts, equations, step, s)
    return way

def ways(parts, entries):
    """For each live term itself, for each moved or killed term its target, each with a derivation."""
    given, found = [(q, ("instance", q, {})) for q in parts.settings.background], {}
    for x in entries:
        if isinstance(x, Law):
            given.append((x.equation, ("instance", x.equation, {})))
        elif isinstance(x, Live):
            found[x.term] = x.term, ("reflexive", x.term)
        elif not isinstance(x, Spread):
            way = chain(parts, given, x.steps, x.equation.left)
            if isinstance(x, Lemma):
                given.append((x.equation, way))
            else:
                found[x.equation.left] = x.equation.right, way
    return found

def reached(parts, found, t):
    """The live term that a term reaches, with a derivation."""
    way = "reflexive", t
    if isinstance(t, App):
        args = [reached(parts, found, arg) for arg in t.args]
        for at, (u, inner) in enumerate(args):
            way = "transitive", way, ("replaced", t.head, t.args[:at], t.args[at + 1:], inner)
            t = App(t.head, (*t.args[:at], u, *t.args[at + 1:]))
    if t in found:
        return found[t][0], ("transitive", way, found[t][1])
    general = next(g for g in found if d.schema_of(g) == d.schema_of(t) and is_numbered(parts, g))
    subst = {Var(sort, i): Var(sort, j) for sort in d.sorts_of(parts)
             for i, j in zip(d.holes(sort, general), d.holes(sort, t))}
    target, inner = found[general]
    u, rest = reached(parts, found, d.substituted(subst, target))
    return u, ("transitive", ("transitive", way, instance(subst, inner)), rest)

def covers(parts, pools, entries):
    """Any two terms of one sort are told apart, or are derivable as equal by way of one live term."""
    found, laws = ways(parts, entries), stated(Law, entries, lambda x: x.equation)
    to_live = lru_cache(maxsize=None)(lambda t: reached(parts, found, t))
    way = lambda s, t: ("transitive", to_live(s)[1], ("symmetric", to_live(t)[1]))
    return d.is_covered(parts, pools, laws, way)
