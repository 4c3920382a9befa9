#!/usr/bin/env python3
# fntimes.py CRATE: time of each module when checked from nothing, by the order in which antt saves it
import subprocess, sys, os, re, time, shutil
crate=sys.argv[1]
inc=f'/tmp/inc/{crate}'
shutil.rmtree(inc, ignore_errors=True)
root='.' if len(sys.argv)<3 else sys.argv[2]
deps=None
for l in open(root+'/crates.txt'):
    l=l.split('#')[0]
    if ':' in l and l.split(':')[0].strip()==crate: deps=l.split(':')[1].split()
own='/opt/rattle/on/x86_64'
kit=os.listdir(own+'/rlib')
f=f'{root}/crates/{crate}/src/lib.rt'
if not os.path.exists(f): f=f'{root}/crates/{crate}/src/main.rt'
cmd=[own+'/bin/rattle','check','--crate-name',crate,f,'--extern',f'std={own}/rlib/std.rlib']
for d in deps:
    cmd+=['--extern', f'{d}={root}/target/rlib/{d}.rlib' if os.path.isdir(f'{root}/crates/{d}') else f'{d}={own}/rlib/{d}.rlib']
cmd+=['-L',f'dependency={root}/target/rlib','-L',f'dependency={own}/rlib','--antt-project','/opt/rattle/logic/antt-project.json','--logic-built',own+'/logic-built','--incremental',inc,'--stage-times','/tmp/stages.'+crate]
t0=time.time()
p=subprocess.run(cmd,capture_output=True,text=True)
t1=time.time()
print(open('/tmp/stages.'+crate).read())
print('status',p.returncode,'took',round(t1-t0,1))
fs=[]
for d,_,ff in os.walk(inc):
    for x in ff:
        st=os.stat(os.path.join(d,x)); fs.append((st.st_mtime,os.path.join(d,x)[len(inc):],st.st_size))
fs.sort()
print(len(fs)); 
prev=fs[0][0]; agg={}
rows=[]
for m,n,s in fs:
    rows.append((m-prev,n,s)); prev=m

agg={}
for d,n,sz in rows:
    b=os.path.basename(n).replace('.decls.oantt','').replace('.oantt','')
    b=re.sub(r'Rattle·\w+(·specs|·proofs)?\.?','',b)
    parts=b.split('.')
    fn='.'.join(parts[:2]); kind='.'.join(parts[2:3])
    agg.setdefault(fn,{}); agg[fn][kind]=agg[fn].get(kind,0)+d
for fn,k in sorted(agg.items(),key=lambda x:-sum(x[1].values()))[:24]:
    print('%6.2f %-34s %s'%(sum(k.values()),fn,' '.join('%s %.2f'%(a,b) for a,b in sorted(k.items(),key=lambda x:-x[1])[:4])))
