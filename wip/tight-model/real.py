# the first 309 accesses of yadif_line, an untracked block twice, 12 more, 1,024 contents: a run on which the ends of rows at a repeated access show; model against program
import subprocess, time, sys
import model as M
t=open('/work/w8/examples/yadif_line.in').read().split(); n=int(t[2]); tr=t[3:3+n]; acc=t[6+n:6+n+413]; p=309
out=acc[:p]+['7','7']+acc[p:p+12]
text='16 1024 %d %s 1 %d %d %s 0' % (n, ' '.join(tr), len(out), len(out), ' '.join(out))
o=subprocess.run(['/work/w8/target/bin/second'],input=text,capture_output=True,text=True).stdout.splitlines()
a=dict(sets=1,ways=16,revision=1,start=0,contents=1024,cells=1024,tracked=list(map(int,tr)),lengths=[len(out)],accesses=list(map(int,out)),edges=[])
start=time.process_time(); real=M.advance; k=[0]
def adv(*x):
    k[0]+=1
    r=real(*x)
    if k[0]%40==0: print(k[0], len(r.kept.table), int(time.process_time()-start), flush=True)
    return r
M.advance=adv
c,aside,row=M.answer(a)
got=[0]*len(row)
for l in o[1:]: got[int(l.split()[0])]=int(l.split()[1])
print('contents',c,'aside',aside,o[0],'same' if got==row and o[0].split()[3]==str(aside) else 'DIFFERENT', int(time.process_time()-start),'s')
