import subprocess
t=open('/work/w8/examples/yadif_line.in').read().split(); n=int(t[2]); tr=t[3:3+n]; acc=t[6+n:6+n+413]; found=[]
for p in range(120,413,1):
    out=acc[:p]+['7','7']+acc[p:p+12]
    text='16 64 %d %s 1 %d %d %s 0' % (n, ' '.join(tr), len(out), len(out), ' '.join(out))
    a=subprocess.run(['/tmp/w8mut','1024'],input=text,capture_output=True,text=True).stdout; b=subprocess.run(['/work/w8/target/bin/second','1024'],input=text,capture_output=True,text=True).stdout
    if a!=b: found.append(p)
print(found)
