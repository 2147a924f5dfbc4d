# tight_rules/proofs/WorkedNumbers.antt
import model as M, subprocess
a, b, c = 10, 11, 12; w = M.WHOLE
def asks(N, K, W, ns, bs, es): return dict(sets=1, ways=N, revision=1, start=0, contents=K, cells=W, tracked=[a, b, c], lengths=ns, accesses=bs, edges=es, resultRoom=100, workingRoom=1000000)
cases = [
 (asks(2, 64, 1024, [0], [], []), [w], 1, 0),
 (asks(2, 64, 1024, [5], [a,b,c,b,a], []), [0,0,0,0,175921860444160,105553116266496], 1, 0),
 (asks(2, 2, 1024, [5], [a,b,c,b,a], []), [0,0,0,0,2**47,2**47], 1, 2**46),
 (asks(2, 1, 1024, [4], [a,b,b,a], []), [0,0,0,w,0], 1, 2**47),
 (asks(3, 64, 1024, [5], [a,b,c,a,b], []), [0,0,0,62549994824590,145949987924042,72974993962024], 1, 4),
 (asks(2, 64, 2, [5], [a,b,c,b,a], []), [0,0,0,0,0,w], 1, 175921860444160),
 (asks(16, 64, 1024, [18], [a,b]*9, []), [0,0,263882790666240,16492674416640,1030792151040,64424509440,4026531840,251658240,15728640,983040,61440,0,0,0,0,0,0,0,4096], 1, 4096),
 (asks(2, 64, 1024, [1,1,1,2], [a,b,a,a,b], [0,1,0,2,1,3,2,3]), [0,0,0,2**47,2**47], 1, 0),
 (asks(4, 2, 1024, [2,2,1,3], [a,b,c,a,b,a,b,c], [0,1,0,2,1,3,2,3]), [0,0,0,0,0,0,211106232532992,70368744177664], 1, 237494511599616),
 (asks(2, 1, 1024, [1,1,1,2], [a,b,a,a,b], [0,1,0,2,1,3,2,3]), [0,0,0,0,w], 1, 2**47),
]
for q, row, n, aside in cases:
    want = (n, aside, row + [0] * (len(q['accesses']) + 1 - len(row)))
    assert M.answer(q) == want, (q, M.answer(q), want)
    ls = lambda x: '%d %s' % (len(x), ' '.join(map(str, x)))
    t = '%d %d %d %d %d %d %s %s %s %s 100 1000000\n' % (1, q['ways'], 1, 0, q['contents'], q['cells'], ls(q['tracked']), ls(q['lengths']), ls(q['accesses']), ls(q['edges']))
    h, r = subprocess.run(['./driver48'], input=t, capture_output=True, text=True).stdout.split(':')
    h = list(map(int, h.split())); got = (1, h[2], list(map(int, r.split())))
    assert h[0] == 0 and h[4] == 0 and got == want, (q, got, want)
print(len(cases), 'worked numbers, both')
