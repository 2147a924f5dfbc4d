# against2.py COUNT SEED: rows of bench/tight.c (program) against the study's tight2.c on larger inputs (one set, first revision, all tracked or no untracked block twice running), one table at a node
import random, subprocess, sys
count, seed = int(sys.argv[1]), int(sys.argv[2]); R = random.Random(seed); bad = 0; big = 0
ns = {'random': random}; src = open('check.py').read(); exec(src[src.index('def graph'):src.index('def filling')], ns)
for it in range(count):
    N = R.choice([2, 3, 4, 8, 8, 16, 16]); D = R.randint(3, 20); nodes = R.choice([1, 1, 2, 4, 6, 10]); tot = R.choice([30, 80, 150, 300]); lens = [0] * nodes
    for _ in range(tot): lens[R.randrange(nodes)] += 1
    base = [R.randrange(D) for _ in range(R.randint(3, 25))]; acc = []
    for i in range(tot): acc.append(base[i % len(base)] if R.random() < .9 else R.randrange(D))
    T = min(16, D); order = sorted(range(D), key=lambda b: -acc.count(b))[:T]
    # an untracked block never stands where one was accessed directly before on some path: untracked ones are all different
    fresh = 1000
    for i in range(tot):
        if acc[i] not in order: acc[i] = fresh; fresh += 1
    ed = ns['graph'](R, nodes); K = R.choice([4, 16, 64, 256, 1024])
    text = '%d %d %d %s %d %s %d %s %d %s\n' % (N, K, T, ' '.join(map(str, order)), nodes, ' '.join(map(str, lens)), tot, ' '.join(map(str, acc)), len(ed) // 2, ' '.join(map(str, ed)))
    a = subprocess.run(['/work/w8/target/bin/second'], input=text, capture_output=True, text=True).stdout.splitlines()
    b = subprocess.run(['/tmp/w8tight2', '-k', str(K)], input=text, capture_output=True, text=True).stdout.splitlines()
    big += K >= 256
    if a[1:] != b[1:]: bad += 1; print('DIFFER', text[:200], a[:2], b[:2], next((x for x in zip(a[1:], b[1:]) if x[0] != x[1]), (len(a), len(b))))
    if bad > 2: break
print('inputs', it + 1, 'differences', bad, 'with 256 contents or more', big)
