import subprocess,os,sys,time,shutil
from concurrent.futures import ThreadPoolExecutor
root='.'
own='/opt/rattle/on/x86_64'
deps={};order=[]
for l in open(root+'/crates.txt'):
    l=l.split('#')[0]
    if ':' in l:
        n,d=l.split(':');deps[n.strip()]=d.split()
seen=[]
def visit(n):
    if n in seen or n not in deps: return
    for d in deps[n]: visit(d)
    seen.append(n)
for n in ('sheet','draw'): visit(n)
env=dict(os.environ,TMPDIR='/dev/shm')
def one(crate):
    f=f'{root}/crates/{crate}/src/lib.rt'
    if not os.path.exists(f): f=f'{root}/crates/{crate}/src/main.rt'
    cmd=[own+'/bin/rattle','check','--crate-name',crate,f,'--extern',f'std={own}/rlib/std.rlib']
    for d in deps[crate]:
        cmd+=['--extern', f'{d}={root}/target/rlib/{d}.rlib' if os.path.isdir(f'{root}/crates/{d}') else f'{d}={own}/rlib/{d}.rlib']
    cmd+=['-L',f'dependency={root}/target/rlib','-L',f'dependency={own}/rlib','--antt-project','/opt/rattle/logic/antt-project.json','--logic-built',own+'/logic-built']
    t=time.time(); p=subprocess.run(cmd,capture_output=True,env=env); return crate,round(time.time()-t,1),p.returncode
with ThreadPoolExecutor(2) as ex:
    r=list(ex.map(one,seen))
open('/tmp/tool/times.txt','w').write(''.join(f'{c} {t}\n' for c,t,_ in r))
print([x for x in r if x[2]], sum(x[1] for x in r))
