#!/usr/bin/env python3
# references that lead nowhere
import sys; sys.path.insert(0,'/tmp/tool'); from split import *
root=sys.argv[1]
for c,p in antts(root):
    for l in open(p):
        m=re.match(r'(?:ghost )?use Rattle·(\w+)(·specs|·proofs)?\.([\w.]+?)(?:\.\{([^}]*)\})?(?: as \S+)?;?\s*$',l)
        if not m: continue
        x,own,path,names=m.groups()
        if own and x!=c: print('own of another:',p,l.strip()); continue
        parts=path.split('.')
        kind=parts[0]; mod=parts[1:]
        if not mod: continue
        f=f'{root}/crates/{x}/{kind}/{"/".join(mod)}.antt'
        if os.path.exists(f):
            if names:
                t=open(f).read()
                for n in names.split(','):
                    n=n.strip().split(' as ')[0]
                    if n not in t: print('no name',n,p,l.strip())
            continue
        src=open(f'{root}/crates/{x}/src/'+('lib.rt' if os.path.exists(f'{root}/crates/{x}/src/lib.rt') else 'main.rt')).read()
        name=mod[1] if mod[0]=='declared' and len(mod)>1 else mod[0]
        if not re.search(r'(fn|struct|enum) '+name+r'\b',src): print('nowhere:',p,l.strip())
