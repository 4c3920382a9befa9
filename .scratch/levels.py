import sys,itertools,functools
times={l.split()[0]:float(l.split()[1]) for l in open('/tmp/tool/times.txt')}
deps={};order=[]
for l in open(sys.argv[1]):
    l=l.split('#')[0]
    if ':' in l:
        n,d=l.split(':');deps[n.strip()]=d.split()
level={};seq=[]
def visit(n):
    if n in level: return
    l=0
    for d in deps[n]:
        if d in deps: visit(d); l=max(l,level[d]+1)
    level[n]=l; seq.append(n)
for n in ('sheet','draw'): visit(n)
seq.sort(key=lambda n:level[n])
tot=0
for l,g in itertools.groupby(seq,key=lambda n:level[n]):
    g=list(g); s=sum(times[n] for n in g); m=max(times[n] for n in g); e=max(m,s/2); tot+=e
    print(l,'elapsed %.0f idle %.0f :'%(e,2*e-s),' '.join(f'{n}:{times[n]:g}' for n in sorted(g,key=lambda n:-times[n])))
print(tot)
@functools.lru_cache(None)
def cp(n):
    b=(0,())
    for d in deps.get(n,[]):
        if d in deps: b=max(b,cp(d))
    return (b[0]+times.get(n,0), b[1]+(n,))
for n in('draw','sheet'): print(cp(n))
