# each damaged stand-in has to be noticed by bench/compare_tight.c
import subprocess, os, re
src = open('/work/w8/bench/tight.c').read()
exec(re.search(r'muts = \[.*?\n\]', open('mutants.py').read(), re.S).group(0))
muts += [('room one word less', 'plan + joins + rows;', 'plan + joins + rows - 1;'), ('work not cleared', 'memset(work, 0, work_words * sizeof *work);', 'memset(work, 0, (work_words - 1) * sizeof *work);'),
         ('row not cleared', 'memset(row, 0, cells * sizeof *row);', 'memset(row, 0, (work->in->access_count + 1) * sizeof *row);'), ('refusals in another order', 'if (!tracked_accepted(in))\n        return 3;\n    if (in->access_count > MOST_ACCESSES)\n        return 4;', 'if (in->access_count > MOST_ACCESSES)\n        return 4;\n    if (!tracked_accepted(in))\n        return 3;')]
import sys
if len(sys.argv) > 1: muts = [m for m in muts if any(a in m[0] for a in sys.argv[1:])]
os.makedirs('hm', exist_ok=True); os.chdir('hm')
G = ['gcc', '-O2', '-std=c11', '-w', '-I/work/w8/include', '-I/work/w8/bench']
subprocess.run(G + ['-c', '/work/w8/bench/tight.c', '-o', 'tight.o'], check=True)
subprocess.run(G + ['-c', '/work/w8/bench/tight_stand_in.c', '-o', 'adapter.o'], check=True)
for name, a, b in muts:
    if a == b: continue
    assert a in src, name
    open('bad.c', 'w').write(src.replace(a, b, 1))
    subprocess.run(G + ['-Dtight_curve=stand_in_curve', '-Dtight_words=stand_in_words', '-Dtight_longest=stand_in_longest', '-c', 'bad.c', '-o', 'bad.o'], check=True)
    subprocess.run(G + ['/work/w8/bench/compare_tight.c', '/work/w8/bench/inputs.c', 'tight.o', 'bad.o', 'adapter.o', '-o', 'compare'], check=True)
    o = subprocess.run(['./compare', '4000'], capture_output=True, text=True)
    d = [l for l in o.stdout.splitlines() if l.startswith('difference')]
    print('noticed' if o.returncode else 'NOT NOTICED', name, '-', len(d), 'differences, status', o.returncode, flush=True)
