# check.py COUNT SEED [BITS]: random small inputs through model.py and driver; no difference allowed
import random, subprocess, sys, collections
import model as M
count, seed = int(sys.argv[1]), int(sys.argv[2]); bits = int(sys.argv[3]) if len(sys.argv) > 3 else 48; kind = sys.argv[4] if len(sys.argv) > 4 else ''
M.WHOLE = 1 << bits
P = subprocess.Popen(['./driver%d' % bits], stdin=subprocess.PIPE, stdout=subprocess.PIPE, text=True)
def ask(a):
    ls = lambda x: '%d %s' % (len(x), ' '.join(map(str, x)))
    P.stdin.write('%d %d %d %d %d %d %s %s %s %s %d %d\n' % (a['sets'], a['ways'], a['revision'], a['start'], a['contents'], a['cells'], ls(a['tracked']), ls(a['lengths']), ls(a['accesses']), ls(a['edges']), a['resultRoom'], a['workingRoom']))
    P.stdin.flush()
    head, row = P.stdout.readline().split(':')
    n, c, aside, words, bad = map(int, head.split())
    return n, c, aside, words, bad, list(map(int, row.split()))
def graph(R, nodes):
    ed = set()
    for v in range(1, nodes): ed.add((R.randrange(v), v))
    for u in range(nodes - 1):
        if not any(f == u for f, t in ed): ed.add((u, R.randrange(u + 1, nodes)))
    if nodes > 1:
        for _ in range(R.randint(0, 4)): u = R.randrange(nodes - 1); ed.add((u, R.randrange(u + 1, nodes)))
    return [x for e in sorted(ed, key=lambda e: (e[1], e[0])) for x in e]
def filling(R):
    Z = R.choice([2, 2, 4, 8, 16]); N = R.choice([1, 2, 2, 3, 3, 3, 4]); one = R.randrange(Z); two = (one + R.randint(1, Z - 1)) % Z
    D = R.randint(4, 7); pool = [(two if i == 0 or R.random() < .35 else one) + Z * i for i in range(D)]
    T = R.randint(2, 6); nodes = 1 if R.random() < .5 and kind == '' else R.randint(2, 7); tot = R.randint(10, 30) if kind == '' else R.randint(16, 40)
    if bits < 48: tot = min(tot, (1 << bits) // 4096 - 3)
    lens = [0] * nodes
    for _ in range(tot): lens[R.randrange(nodes)] += 1
    a = dict(sets=Z, ways=N, revision=2, start=0 if R.random() < .9 else 1, contents=R.choice([1, 2, 2, 3, 3, 4, 6, 9]), cells=R.choice([2, 3, 4, 5, 6, 8, 1024]),
             tracked=pool[:min(T, D)], lengths=lens, accesses=[R.choice(pool) for _ in range(tot)], edges=graph(R, nodes))
    a['resultRoom'] = tot + 1; a['workingRoom'] = -1
    return a
def repeats(R):
    N = R.choice([2, 3, 3, 4, 5, 6]); D = R.randint(2, 4); U = R.randint(1, 3); pool = list(range(D + U)); tot = R.randint(8, 28); acc = []
    while len(acc) < tot: acc += R.choice([[R.randrange(D)], [D + R.randrange(U)] * R.randint(1, 4)])
    acc = acc[:tot]; nodes = R.choice([1, 1, 2, 3]); lens = [0] * nodes
    for _ in range(len(acc)): lens[R.randrange(nodes)] += 1
    return dict(sets=1, ways=N, revision=R.choice([1, 1, 2]), start=0, contents=R.choice([2, 4, 9, 64]), cells=R.choice([4, 6, 1024]), tracked=pool[:D], lengths=lens, accesses=acc, edges=graph(R, nodes), resultRoom=len(acc) + 1, workingRoom=-1)
def long(R):
    # as many blocks in turn as there are ways: the misses have a long flat tail, so that a repeated access ends rows further
    D = R.choice([3, 4, 4]); U = R.randint(1, 2); tot = R.randint(40, 90); acc = []; i = 0
    while len(acc) < tot:
        if len(acc) > 20 and R.random() < .06: acc += [D + R.randrange(U)] * R.randint(2, 4)
        else: acc.append(i % D); i += 1
    acc = acc[:tot]; nodes = R.choice([1, 1, 3]); lens = [0] * nodes
    for _ in range(len(acc)): lens[R.randrange(nodes)] += 1
    return dict(sets=1, ways=D, revision=R.choice([1, 1, 2]), start=R.choice([0, 1]), contents=R.choice([9, 64]), cells=R.choice([30, 1024]), tracked=list(range(D)), lengths=lens, accesses=acc, edges=graph(R, nodes), resultRoom=len(acc) + 1, workingRoom=-1)
def make(R):
    if kind == 'long': return long(R)
    if kind == 'filling': return filling(R)
    if kind == 'repeats' or (kind == '' and R.random() < .15): return repeats(R)
    if R.random() < .4: return filling(R)
    Z = R.choice([1, 1, 1, 2, 2, 4, 8, 16]); N = R.choice([1, 2, 2, 3, 3, 4, 5, 7, 16])
    D = R.randint(1, 7); step = R.choice([1, 1, 1, Z, 3]); first = R.choice([0, 0, R.randrange(1000)])
    pool = [first + step * i for i in range(D)]; R.shuffle(pool)
    nodes = 1 if R.random() < .35 else R.randint(2, 8)
    tot = R.randint(0, 14 if nodes == 1 else 22)
    if bits < 48: tot = min(tot, (1 << bits) // 4096 - 3)
    lens = [0] * nodes
    for _ in range(tot): lens[R.randrange(nodes)] += 1
    if R.random() < .4: p = [R.choice(pool) for _ in range(R.randint(1, 6))]; acc = [p[i % len(p)] for i in range(tot)]
    else:
        acc = []
        again = R.random() < .4
        for _ in range(tot): acc.append(acc[-1] if again and acc and R.random() < .35 else R.choice(pool))
    T = R.randint(0, D) if R.random() < .5 else D
    a = dict(sets=Z, ways=N, revision=R.choice([1, 2, 2]), start=R.choice([0, 0, 1]), contents=R.choice([1, 2, 3, 4, 5, 6, 9, 64]), cells=R.choice([2, 3, 4, 5, 6, 8, 1024, 4098]),
             tracked=pool[:T], lengths=lens, accesses=acc, edges=graph(R, nodes))
    a['resultRoom'] = len(acc) + 1 + R.choice([0, 0, 1, 5]); a['workingRoom'] = -1 if R.random() < .7 else M.room_needed(a) + R.randrange(3)
    return a
def damage(R, a):
    k = R.randrange(12)
    if k == 0: a['ways'] = R.choice([0, 17, 1 << 31])
    elif k == 1: a['sets'] = R.choice([0, 3, 6, 17, 32])
    elif k == 2: a['revision'] = R.choice([0, 3])
    elif k == 3: a['contents'] = R.choice([0, 4097, 1 << 20])
    elif k == 4: a['cells'] = R.choice([0, 1, 4099])
    elif k == 5 and a['tracked']: a['tracked'] = a['tracked'] + [R.choice(a['tracked'])]
    elif k == 6: a['tracked'] = list(range(17))
    elif k == 7: a['accesses'] = [7] * 4097; a['lengths'][-1] += R.choice([0, 4097 - sum(a['lengths'])])
    elif k == 8: a['lengths'][R.randrange(len(a['lengths']))] += 1
    elif k == 9: a['edges'] = a['edges'] + [0] if R.random() < .4 or not a['edges'] else a['edges'][2:] if R.random() < .5 else a['edges'][:2] + a['edges']
    elif k == 10: a['resultRoom'] = R.randrange(len(a['accesses']) + 1)
    else: a['workingRoom'] = R.choice([0, max(0, M.room_needed(a) - 1)])
    if R.random() < .2: damage(R, a)
R = random.Random(seed); seen = collections.Counter(); told = collections.Counter(); bad = 0
for it in range(count):
    a = make(R)
    if it % 5 == 4: damage(R, a)
    n, c, aside, words, wrote, row = ask(a)
    if a['workingRoom'] < 0: a['workingRoom'] = M.words(a)
    want = M.refusal(a); told[want] += 1
    ok = n == want and words == M.words(a) and not wrote
    if want == 0:
        ok = ok and (1, aside, row) == M.answer(a, seen) and sum(row) == M.WHOLE
        seen['aside all'] += aside == M.WHOLE; seen['aside none'] += aside == 0
    else: ok = ok and (c, aside) == (77, 77)
    if not ok:
        bad += 1; print('DIFFERENCE', a, (n, c, aside, words, wrote, row), want, M.words(a), M.answer(a) if want == 0 else '')
        if bad > 3: break
print('bits', bits, 'cases', it + 1, 'differences', bad, 'answers', dict(sorted(told.items())), dict(seen))
sys.exit(bad > 0)
