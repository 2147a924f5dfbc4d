# each changed line of bench/tight.c has to be noticed by check.py
import subprocess, os
src = open('/work/w8/bench/tight.c').read()
muts = [
 ('no filled up at a join', 'work->hits[misses - joined->base] == 0 ? none : filled;', 'work->hits[misses - joined->base] == 0 ? none : fullest(filled_with(a, misses), filled_with(b, misses));'),
 ('evened sets nothing aside', 'if (units != 0 && !same_filled(all,', 'if (0 && !same_filled(all,'),
 ('filled of empty groups', "if ((i % 2 == 1 ? work->misses : work->hits)[i / 2] != 0)\n            all", "if (i / 2 >= (size_t)(i % 2) && i / 2 < before->width + (i % 2))\n            all"),
 ('lost of a join from one side', 'a->lost + (WHOLE - a->lost - paired)', 'b->lost'),
 ('raised not aside', 'set_aside(work, units);\n    return bottom;', 'return bottom;'),
 ('allowance one less', 'at_cell(work, top - 1) <= TIGHT_ALLOWANCE', 'at_cell(work, top - 1) < TIGHT_ALLOWANCE'),
 ('one cell more', 'top - bottom > work->in->cells - 1', 'top - bottom > work->in->cells'),
 ('held not kept', 'reduce(work, access->bit & access->live);', 'reduce(work, 0);'),
 ('light to 2^j', 'units >> level != 0', 'units > (uint64_t)1 << level'),
 ('lowest first at a join', '__builtin_popcount((unsigned)mask);', '__builtin_popcount((unsigned)mask);'),
 ('repeated untracked does nothing', '        step(work, table, other, &access);', '        if (access.again && !access.bit) continue;\n        step(work, table, other, &access);'),
 ('rest not narrowed', 'work->sums[after(access, 0)] += units;', 'work->sums[after(access, 0)] += units; work->aside += units != 0;'),
 ('shared least first', 'for (unsigned blocks = MOST_TRACKED + 1; blocks-- > 0;)', 'for (unsigned blocks = 0; blocks <= MOST_TRACKED; blocks++)'),
 ('from the back', 'for (size_t j = 0; j < b->count && work->left[0][i] != 0; j++) {', 'for (size_t j = b->count; j-- > 0 && work->left[0][i] != 0;) {'),
 ('live of the first edge', 'live |= work->in->edges[i] == node ?', 'live |= live == 0 && work->in->edges[i] == node ?'),
 ('warm as cold', 'in->revision == 2 && in->start == TIGHT_COLD ? 0', 'in->revision == 2 ? 0'),
 ('kept one less', 'kept += passes(in, before, node);', 'kept += passes(in, before, node + 1);'),
 ('last not agreed', 'last->known = last->known && other->known && last->block == other->block;', 'last->known = last->known && other->known;'),
]
real = subprocess.run(['cat', 'build.sh'], capture_output=True)
os.makedirs('mut', exist_ok=True)
subprocess.run('cp check.py model.py driver.c mut/', shell=True)
for name, a, b in muts:
    if a == b: continue
    assert a in src, name
    open('mut/tight.c', 'w').write(src.replace(a, b, 1))
    hit = None
    if os.environ.get('ONLY') and name not in os.environ['ONLY']: continue
    for bits, extra in ((48, []), (17, []), (20, ['repeats']), (48, ['filling'])):
        subprocess.run(['gcc', '-O1', '-g', '-fsanitize=address,undefined', '-w', '-DTIGHT_WHOLE=((uint64_t)1 << %d)' % bits, '-I/work/w8/bench', 'mut/driver.c', 'mut/tight.c', '-o', 'mut/driver%d' % bits], check=True)
        o = subprocess.run(['python3', 'check.py', '6000' if extra else '2000', '21', str(bits)] + extra, cwd='mut', capture_output=True, text=True)
        if o.returncode: hit = (bits, extra); break
    print('noticed ' + str(hit) if hit else 'NOT NOTICED', name, flush=True)
