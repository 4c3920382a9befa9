#!/usr/bin/env python3
# sim.py TIMES [names..]: elapsed time of rt check with J jobs on 2 cores, from crates.txt and the seconds of each crate
import sys,re
times={}
for l in open('/tmp/tool/times.txt'):
    a=l.split()
    if len(a)==2: times[a[0]]=float(a[1])
deps={};order=[]
for l in open(sys.argv[1]):
    l=l.split('#')[0]
    if ':' in l:
        n,d=l.split(':');n=n.strip();deps[n]=d.split();order.append(n)
want=sys.argv[2:] or order
level={}
seq=[]
def visit(n):
    if n in level: return
    l=0
    for d in deps[n]:
        if d in deps: visit(d); l=max(l,level[d]+1)
    level[n]=l; seq.append(n)
for n in want: visit(n)
seq.sort(key=lambda n:level[n])
def run(batch):
    # processor sharing on 2 cores
    left=sorted(times.get(n,10) for n in batch); t=0; k=len(left); prev=0
    for i,x in enumerate(left):
        act=k-i
        rate=min(1,2/act)
        t+=(x-prev)/rate; prev=x
    return t
for J in (2,3,4,6,8,16):
    t=0;batch=[];at=None
    for n in seq:
        if level[n]!=at or len(batch)>=J:
            if batch: t+=run(batch)
            batch=[]
        at=level[n]; batch.append(n)
    if batch: t+=run(batch)
    print('jobs',J,'elapsed',round(t),'of ideal',round(sum(times.get(n,10) for n in seq)/2))
if len(sys.argv)<=2:
    import itertools
    for l,g in itertools.groupby(seq,key=lambda n:level[n]): print(l,' '.join(f'{n}:{times.get(n,10):g}' for n in g))
