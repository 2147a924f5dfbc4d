#!/usr/bin/env python3
# sampler.py PATHPREFIX OUT: CPU seconds and peak memory of each `rattle build/check --crate-name X` under PATHPREFIX, by sampling /proc
import os,sys,time,json
pref,out=sys.argv[1:3]
H=os.sysconf('SC_CLK_TCK'); seen={}
peak=0
while True:
    tot=0
    for p in os.listdir('/proc'):
        if not p.isdigit(): continue
        try:
            a=open('/proc/%s/cmdline'%p,'rb').read().split(b'\0')
            if len(a)<4 or not a[0].endswith(b'/rattle'): continue
            path=[x for x in a if x.startswith(pref.encode())]
            if not path: continue
            st=open('/proc/%s/stat'%p).read().rsplit(')',1)[1].split()
            cpu=(int(st[11])+int(st[12]))/H
            rss=int(st[21])*4096/1e9
            tot+=rss
            n=a[a.index(b'--crate-name')+1].decode()
            src=path[0].decode()
            key=(p,n,src)
            o=seen.get(key,(0,0)); seen[key]=(cpu,max(o[1],rss))
        except Exception: pass
    peak=max(peak,tot)
    with open(out,'w') as f:
        f.write('peak %.1f GB\n'%peak)
        for (p,n,src),(c,r) in sorted(seen.items(),key=lambda x:-x[1][0]): f.write('%s %.1f %.2f %s\n'%(n,c,r,src))
    time.sleep(0.7)
