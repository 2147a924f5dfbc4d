import re,sys
cpu={'basics':2,'front':3,'rules':8,'machine':1.5,'reading':6,'trace_blocks':8,'orders':6,'core_list':5,'promises':4,'words':7,'curve_numbers':6,'quick':3,'writing':7,'tight_rules':4,'night_rows':8,'graph_check':10,'listing':31,'calls':2,'table_check':7,'row_questions':11,'best_questions':13,'recorder':14,'lines':12,'refusals':7,'pairings':9,'tables':10,'tight_slots':9,'cycle_check':4,'traces':12,'graphs':20,'printed':7,'given':7,'longest':7,'states':12,'nodes':6,'plan':20,'tight_refusals':10,'live':11,'questions':12,'expand':12,'trace':14,'folding':6,'tight':110,'rows':15,'estimate':88,'best':49,'parts':28,'enumerate':93,'nightly':20,'text':38,'floor':16,'estimate_c':42,'curve':25,'cycles':18,'chosen':24,'worked':120}
def load(p):
    d={};order=[]
    for l in open(p):
        if l.startswith('#') or ':' not in l: continue
        n,r=l.split(':'); d[n]=r.split(); order.append(n)
    return d,order
def levels(d,order):
    lev={}
    def L(n):
        if n not in d: return -1
        if n not in lev: lev[n]=1+max([L(x) for x in d[n]]+[-1])
        return lev[n]
    for n in order: L(n)
    return lev
def ps(b):
    b=sorted(b); tt=0; done=0; n=len(b)
    for i,x in enumerate(b):
        tt+=(x-done)*max(1,(n-i)/2); done=x
    return tt
def sim(d,order,j,show=False):
    lev=levels(d,order); tot=0
    for k in range(max(lev.values())+1):
        ns=[n for n in order if lev[n]==k]
        s=sum(ps([cpu[n] for n in ns[i:i+j]]) for i in range(0,len(ns),j))
        if show: print(k,round(s),sum(cpu[n] for n in ns)/2,ns)
        tot+=s
    return tot
d,o=load('/work/main/crates.txt')
print('cpu/2',sum(cpu[n] for n in o)/2)
for j in (6,8,10,12): print(j,round(sim(d,o,j)))
sim(d,o,8,True)
# variants
import copy
def var(f):
    e=copy.deepcopy(d); f(e); return round(sim(e,o,10)), round(sim(e,o,8))
def v1(e): e['graph_check']=['basics','rules']   # precedes moved
def v2(e): v1(e); e['enumerate']+=['text']
def v3(e): e['folding']=['basics','rules','tables']
def v4(e): v3(e); e['enumerate']+=['text']
def v5(e): e['enumerate']+=['text']
def v6(e): e['tight']+=['folding']
def v7(e): e['tight']+=['folding']; e['enumerate']+=['text']
for f in (v1,v2,v3,v4,v5,v6,v7): print(f.__name__,var(f))
