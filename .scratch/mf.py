import subprocess,os,sys,shutil,re
root=sys.argv[1]
own='/opt/rattle/on/x86_64'
deps={}
for l in open(root+'/crates.txt'):
    l=l.split('#')[0]
    if ':' in l:
        n,d=l.split(':');deps[n.strip()]=d.split()
def one(spec):
    crate,label=spec.split('/')
    w=f'/dev/shm/mf/{crate}/{label}'; shutil.rmtree(w,ignore_errors=True); os.makedirs(w)
    for p in('src','specs','proofs'):
        if os.path.isdir(f'{root}/crates/{crate}/{p}'): shutil.copytree(f'{root}/crates/{crate}/{p}',f'{w}/{p}')
    f=old=None
    for l in open(f'{root}/crates/{crate}/must-fail/{label}.edit').read().split('\n'):
        if l.startswith('file: '): f=l[6:]
        elif l.startswith('old: '): old=l[5:]
        elif l.startswith('new:'):
            new=l[5:]; t=open(f'{w}/{f}').read(); assert t.count(old)==1,(spec,t.count(old)); open(f'{w}/{f}','w').write(t.replace(old,new))
    src=f'{w}/src/lib.rt'
    cmd=[own+'/bin/rattle','check','--crate-name',crate,src,'--extern',f'std={own}/rlib/std.rlib']
    for d in deps[crate]: cmd+=['--extern', f'{d}={root}/target/rlib/{d}.rlib' if os.path.isdir(f'{root}/crates/{d}') else f'{d}={own}/rlib/{d}.rlib']
    cmd+=['-L',f'dependency={root}/target/rlib','-L',f'dependency={own}/rlib','--antt-project','/opt/rattle/logic/antt-project.json','--logic-built',own+'/logic-built']
    p=subprocess.run(cmd,capture_output=True,text=True,env=dict(os.environ,TMPDIR='/dev/shm'))
    out=p.stdout+p.stderr
    errs=[l[:230] for l in out.split('\n') if ': error' in l or l.startswith('logic=')]
    return spec+' '+str(p.returncode)+'\n  '+'\n  '.join(errs[:3]+errs[-1:])
from concurrent.futures import ThreadPoolExecutor
with ThreadPoolExecutor(2) as ex:
    for r in ex.map(one,sys.argv[2:]): print(r.replace('/dev/shm/mf/',''))
