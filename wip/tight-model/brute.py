# brute.py COUNT SEED [BITS]: every choice sequence of every path enumerated on the machine of document 01, section 1 (sets, revisions, starts), against bench/tight.c's row
import random, sys, itertools

count, seed = int(sys.argv[1]), int(sys.argv[2]); bits = int(sys.argv[3]) if len(sys.argv) > 3 else 48
wanted = count
exec(open('check.py').read().split('R = random.Random(seed)')[0])
W = 1 << bits; count = wanted
def misses(Z, N, rev, start, acc, draws):
    ways = [list(s) for s in start]; m = 0
    for b, d in zip(acc, draws):
        s = ways[b % Z]
        if b in s: continue
        m += 1
        s[s.index(None) if rev == 2 and None in s else d] = b
    return m
def paths(a):
    es = M.edges_of(a['edges']); n = len(a['lengths']); out = set()
    def go(v, acc):
        acc = acc + tuple(M.run_of(a, v))
        if v == n - 1: out.add(acc); return
        for f, t in es:
            if f == v: go(t, acc)
    go(0, ()); return out
R = random.Random(seed); safe = near = seqs = 0; ratio = 0.0; done = 0; exact = 0
while done < count:
    Z = R.choice([1, 1, 2, 4]); N = R.choice([1, 2, 2, 3, 3, 4]); D = R.randint(1, 5); step = R.choice([1, 1, Z]); pool = [step * i for i in range(D)]
    nodes = 1 if R.random() < .45 else R.randint(2, 5)
    tot = R.randint(0, {1: 10, 2: 10, 3: 7, 4: 6}[N] + (0 if nodes == 1 else 3)); lens = [0] * nodes
    for _ in range(tot): lens[R.randrange(nodes)] += 1
    acc = [R.choice(pool) for _ in range(tot)]; T = D if R.random() < .7 else R.randint(0, D)
    if bits < 48 and tot > W // 4096 - 3: continue
    a = dict(sets=Z, ways=N, revision=R.choice([1, 2]), start=R.choice([0, 0, 1]), contents=R.choice([1, 2, 3, 5, 64]), cells=R.choice([2, 3, 4, 1024]), tracked=R.sample(pool, T), lengths=lens, accesses=acc, edges=graph(R, nodes), resultRoom=tot + 1, workingRoom=-1)
    ps = paths(a)
    if any(N ** len(p) > 1100 for p in ps): continue
    done += 1
    n, c, aside, words, bad, row = ask(a); assert n == 0 and not bad
    above = [sum(row[b + 1:]) for b in range(tot + 1)]
    starts = [[[None] * N for _ in range(Z)]]
    if a['start'] == 1:
        starts += [[R.sample([z + Z * i for i in range(20)] if R.random() < .5 else [b for b in pool if b % Z == z] + [1000 * Z + z + Z * i for i in range(N)], N) for z in range(Z)] for _ in range(2)]
        starts += [[[x if R.random() < .6 else None for x in s] for s in starts[-1]]]
    for p in ps:
        for start in starts:
            cnt = [0] * (tot + 2)
            for d in itertools.product(range(N), repeat=len(p)): cnt[misses(Z, N, a['revision'], start, p, d)] += 1; seqs += 1
            for b in range(tot + 1):
                over = sum(cnt[b + 1:]); safe += 1
                assert over * W <= above[b] * N ** len(p), ('UNSAFE', a, p, b, start)
                if nodes == 1 and T == D and a['start'] == 0:
                    near += 1; exact += aside == 0
                    assert above[b] * N ** len(p) <= over * W + aside * N ** len(p), ('NOT NEAR', a, b)
                    if 0 < aside < W: ratio = max(ratio, (above[b] * N ** len(p) - over * W) / (aside * N ** len(p)))
print('bits', bits, 'inputs', done, 'choice sequences', seqs, 'budgets safe', safe, 'near', near, 'of them with nothing set aside', exact, 'largest excess / set aside %.3f' % ratio)
