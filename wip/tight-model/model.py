# The second curve, transcribed from crates/tight_rules/specs and crates/rules/specs on lists of states, definition by definition. Nothing of bench/tight.c.
from collections import namedtuple
State = namedtuple('State', 'mask misses filled units')       # filled: 16 numbers
Work = namedtuple('Work', 'table aside')
Rows = namedtuple('Rows', 'kept lost')
PLACES = 16
WHOLE = 1 << 48
ALLOWANCE = 4096
NOFILL = (0,) * 16
UNTRACKED = None                                              # a place is a number or UNTRACKED

def more(a, n): return min(WHOLE, a + n)
# ---- Table: insertAll, with plus where the order says same
def add(S, T):
    d = {(t.mask, t.misses, t.filled): t.units for t in T}
    for s in S:
        if s.units == 0: continue
        k = (s.mask, s.misses, s.filled)
        d[k] = more(d[k], s.units) if k in d else s.units
    return [State(*k, u) for k, u in sorted(d.items())]
def total(T): return sum(s.units for s in T)
def move(h, T): return add([h(s) for s in T], [])
def changed(s, t): return 0 if (s.mask, s.misses, s.filled) == (t.mask, t.misses, t.filled) else s.units
def moved(h, w): return Work(move(h, w.table), more(w.aside, sum(changed(s, h(s)) for s in w.table)))
# ---- Contents
def find(ts, b):
    for i, t in enumerate(ts):
        if t == b: return i
    return UNTRACKED
def bit(C, i): return C // 2 ** i % 2 == 1
def with_(C, y): return C if y is UNTRACKED else C | 2 ** y
def held(C): return [i for i in range(PLACES) if bit(C, i)]
def size(C): return len(held(C))
def of_set(Z, ts, j): return sum(2 ** i for i, t in enumerate(ts) if t % Z == j)
Target = namedtuple('Target', 'place again set mates')
def target_of(Z, ts, l, b): return Target(find(ts, b), l is not None and l == b, b % Z, of_set(Z, ts, b % Z))
def hits(x, C): return x.again if x.place is UNTRACKED else bit(C, x.place)
# ---- Filling
def fullest(F, G): return tuple(max(a, b) for a, b in zip(F, G))
def fill_one(N, j, F): return F[:j] + (F[j] + 1,) + F[j + 1:] if F[j] < N else F
def evenly(Z, n): return (n,) * Z + (0,) * (16 - Z)
def at_start(a): return evenly(a['sets'], 0 if a['revision'] == 2 and a['start'] == 0 else a['ways'])
# ---- Step
def at_risk(N, x, F, C): return 0 if F[x.set] < N else C & x.mates
def missed(N, x, s, C, u): return State(with_(C, x.place), s.misses + 1, fill_one(N, x.set, s.filled), u)
def miss(N, x, s):
    C = s.mask; E = at_risk(N, x, s.filled, C); q = s.units // N
    return [missed(N, x, s, C ^ 2 ** e, q) for e in held(E)] + [missed(N, x, s, C, max(0, N - size(E)) * q), missed(N, x, s, C if E == 0 else 0, s.units % N)]
def successors(N, x, s): return [s] if hits(x, s.mask) else miss(N, x, s)
def left_over(N, x, s): return 0 if hits(x, s.mask) or at_risk(N, x, s.filled, s.mask) == 0 else s.units % N
def stepped(N, x, w):
    return Work(add([t for s in w.table for t in successors(N, x, s)], []), more(w.aside, sum(left_over(N, x, s) for s in w.table)))
# ---- Rows
def contents(T):
    out = []
    for s in reversed(T):
        if not out or out[0] != s.mask: out.insert(0, s.mask)
    return out
def units_in(C, T): return sum(s.units for s in T if s.mask == C)
def narrowed(L, w): return Work(move(lambda s: State(s.mask & L, s.misses, s.filled, s.units), w.table), w.aside)
def filled_for(m, T):
    F = NOFILL
    for s in T:
        if s.misses == m: F = fullest(s.filled, F)
    return F
def evened(w):
    G = {m: filled_for(m, w.table) for m in {s.misses for s in w.table}}
    return moved(lambda s: State(s.mask, s.misses, fullest(s.filled, G[s.misses]), s.units), w)
# ---- Reduction
def lowered(k, y, C):
    for i in reversed(range(k)):
        if bit(C, i) and not (y is not UNTRACKED and y == i): return C ^ 2 ** i
    return C
def lands(n, y, gone, C):
    while n > 0 and C in gone:
        C = lowered(PLACES, y, C); n -= 1
    return C
def emptied(y, C, w, gone):
    gone = gone | {C}
    D = lands(PLACES, y, gone, C)
    return moved(lambda s: State(D if s.mask == C else s.mask, s.misses, s.filled, s.units), w), gone
def crowded(K, w): return K < len(contents(w.table))
def light(j, y, C, T): u = units_in(C, T); return 0 < u < 2 ** j and lowered(PLACES, y, C) != C
def reduced(K, k, y, w, seen=None):
    gone = frozenset(); j = 1
    for _ in range(49):
        if not crowded(K, w): break
        for n in range(2 ** k - 1, 0, -1):
            if crowded(K, w) and light(j, y, n, w.table):
                w, gone = emptied(y, n, w, gone)
                if seen is not None: seen['emptied'] += 1
        j += 1
    return w
# ---- Ends
def above(B, T): return sum(s.units for s in T if s.misses > B)
def least(test, n):
    m = 0
    while m < n and not test(m): m += 1
    return m
def largest(T): return max([s.misses for s in T], default=0)
def below(B, T): return sum(s.units for s in T if s.misses < B)
def ends(W, r, seen=None):
    T = r.kept.table
    H = least(lambda B: above(B, T) <= ALLOWANCE, largest(T))
    gone = above(H, T)
    c = Rows(Work([s for s in T if s.misses <= H], more(r.kept.aside, gone)), r.lost + gone)
    T = c.kept.table
    B = min(H, max(least(lambda B: ALLOWANCE < below(B + 1, T), H), max(0, H + 2 - W)))
    if seen is not None:
        seen['lost'] += gone > 0; seen['raised'] += below(B, T) > 0
        seen['narrow'] += H + 2 - W > 0 and below(B, T) > ALLOWANCE
    return Rows(moved(lambda s: State(s.mask, max(s.misses, B), s.filled, s.units), c.kept), c.lost)
# ---- Run
def living(ts, L, bs):
    for b in reversed(bs): L = with_(L, find(ts, b))
    return L
def alive(L, y): return y if y is not UNTRACKED and bit(L, y) else UNTRACKED
def advance(N, K, W, k, x, L, r, seen=None):
    v = reduced(K, k, alive(L, x.place), narrowed(L, stepped(N, x, r.kept)), seen)
    e = ends(W, Rows(v, r.lost), seen)
    w = evened(e.kept)
    if seen is not None: seen['evened'] += w.aside != e.kept.aside
    return Rows(w, e.lost)
def run(N, Z, K, W, ts, L, p, bs, r, seen=None):
    for i, b in enumerate(bs):
        r = advance(N, K, W, len(ts), target_of(Z, ts, p, b), living(ts, L, bs[i + 1:]), r, seen)
        p = b
    return r
# ---- Join
def pairing(S, T):
    order = []
    cs, ct = contents(S), contents(T)
    row = lambda C, X: [i for i in reversed(range(len(X))) if X[i].mask == C]
    for n in range(PLACES, -1, -1):
        for C in cs:
            for D in ct:
                if size(C & D) == n: order += [(i, j) for i in row(C, S) for j in row(D, T)]
    ls, lt = [s.units for s in S], [t.units for t in T]
    P = []
    for i, j in order:
        u = min(ls[i], lt[j]); P.append((i, j, u)); ls[i] -= u; lt[j] -= u
    return P
def filled_to(m, T):
    F = NOFILL
    for s in T:
        if s.misses <= m: F = fullest(s.filled, F)
    return F
def join(K, k, a, q, r, seen=None):
    S, T = q.kept.table, r.kept.table
    P = pairing(S, T)
    made = add([State(S[i].mask & T[j].mask, max(S[i].misses, T[j].misses), fullest(S[i].filled, T[j].filled), u) for i, j, u in P], [])
    w = reduced(K, k, UNTRACKED, Work(made, a), seen)
    G = lambda m: fullest(filled_to(m, S), filled_to(m, T))
    up = Work(move(lambda s: State(s.mask, s.misses, fullest(s.filled, G(s.misses)), s.units), w.table), w.aside)
    if seen is not None:
        seen['joins'] += 1; seen['lost at a join'] += q.lost > 0 or r.lost > 0; seen['filled up'] += up.table != w.table
    return Rows(up, q.lost + (total(S) - sum(u for _, _, u in P)))
# ---- Live, Lasts, Longest, Graph
def edges_of(ns): return [(ns[i], ns[i + 1]) for i in range(0, len(ns) - 1, 2)]
def run_of(a, j): o = sum(a['lengths'][:j]); return a['accesses'][o:o + a['lengths'][j]]
def preds(es, j): return [f for f, t in es if t == j]
def lives(a):
    n = len(a['lengths']); es = edges_of(a['edges']); before = [0] * n; after = [0] * n
    for v in reversed(range(n)):
        for f, t in es:
            if f == v: after[v] |= before[t]
        before[v] = living(a['tracked'], after[v], run_of(a, v))
    return before, after
def longest(a):
    es = edges_of(a['edges']); e = []
    for j in range(len(a['lengths'])): e.append(max([e[p] for p in preds(es, j)], default=0) + a['lengths'][j])
    return e[-1]
def finished(a, seen=None):
    es = edges_of(a['edges']); before, after = lives(a); tables = []; aside = 0; lasts = []
    N, Z, K, W, ts = a['ways'], a['sets'], a['contents'], a['cells'], a['tracked']; k = len(ts)
    for j in range(len(a['lengths'])):
        ps = preds(es, j)
        brought = lambda p: Rows(narrowed(before[j], tables[p].kept), tables[p].lost)
        if not ps:
            r = Rows(Work([State(0, 0, at_start(a), WHOLE)], aside), 0); last = None
        else:
            b = brought(ps[0]); r = Rows(Work(b.kept.table, aside), b.lost); last = lasts[ps[0]]
            for p in ps[1:]:
                r = join(K, k, r.kept.aside, r, brought(p), seen)
                last = last if last is not None and lasts[p] == last else None
        bs = run_of(a, j)
        r = run(N, Z, K, W, ts, after[j], last, bs, r, seen)
        tables.append(r); aside = r.kept.aside; lasts.append(bs[-1] if bs else last)
    return tables[-1], aside
# ---- Rooms, Refusals
def room_needed(a):
    es = edges_of(a['edges']); n = len(a['lengths']); K = a['contents']; R = min(a['cells'], len(a['accesses']) + 2)
    passes = lambda u, v: any(f == u and v <= t for f, t in es)
    kept = max([sum(passes(u, v) for u in range(v)) for v in range(n)], default=0)
    return (kept + 3) * (4 + 2 * K + 2 * R + K * R) + 3 * 2 ** len(a['tracked']) + 10 * K + 10 + 8 * (R + 1)
def edges_kept(n, ns):
    es = edges_of(ns)
    return (len(ns) % 2 == 0 and all(f < t and t < n for f, t in es) and all((es[i][1], es[i][0]) < (es[i + 1][1], es[i + 1][0]) for i in range(len(es) - 1))
            and all(j == 0 or any(t == j for f, t in es) for j in range(n)) and all(j + 1 == n or any(f == j for f, t in es) for j in range(n)))
def before_rooms(a):
    if not 1 <= a['ways'] <= 16: return 1
    if a['sets'] not in (1, 2, 4, 8, 16): return 10
    if not 1 <= a['revision'] <= 2: return 11
    if not 1 <= a['contents'] <= 4096 or not 2 <= a['cells'] <= 4098: return 2
    if len(a['tracked']) > 16 or len(set(a['tracked'])) < len(a['tracked']): return 3
    if len(a['accesses']) > 4096: return 4
    n = len(a['lengths'])
    if not 1 <= n <= 64 or sum(a['lengths']) != len(a['accesses']) or not edges_kept(n, a['edges']): return 5
    return 0
def words(a): return 0 if before_rooms(a) else room_needed(a)
def refusal(a):
    r = before_rooms(a)
    if r: return r
    return 6 if a['resultRoom'] < len(a['accesses']) + 1 or a['workingRoom'] < room_needed(a) else 0
def answer(a, seen=None):
    r = finished(a, seen); rows, aside = r
    row = [0] * (len(a['accesses']) + 1)
    for s in rows.kept.table: row[s.misses] += s.units
    row[longest(a)] += rows.lost
    return len(contents(rows.kept.table)), aside, row
