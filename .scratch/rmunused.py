import re,subprocess,sys
out=subprocess.run(['python3','/tmp/unused.py'],capture_output=True,text=True).stdout
skip=sys.argv[1:] 
d={}
for l in out.strip().split('\n'):
    if not l: continue
    f,n=l.rsplit(' ',1)
    if any(x in f for x in skip): continue
    d.setdefault(f,[]).append(n)
for f,ns in d.items():
    p='./'+f
    t=open(p).read()
    def fix(m):
        names=[x.strip() for x in m.group(3).split(',') if x.strip()]
        keep=[x for x in names if x.split(' as ')[-1].strip() not in ns]
        if len(keep)==len(names): return m.group(0)
        if not keep: return ''
        return f"{m.group(1) or ''}use {m.group(2)}{{{', '.join(keep)}}}{m.group(4)}\n"
    t=re.sub(r'^(ghost )?use ([^\n{;]*)\{([^}]*)\}(;?)\n',fix,t,flags=re.M)
    open(p,'w').write(t); print(f,ns)
