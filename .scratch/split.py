#!/usr/bin/env python3
"""split(root, old, new, title, fns, specs, proofs, items): moves functions of crate `old` with their proofs, and modules or parts of modules,
into crate `new`, which stands below it."""
import os, re, sys, glob, subprocess, shutil
OPS = '|'
def toks(text):
    return text
def uses_name(name, text):
    # an operator is there if each of its parts is
    if '_' in name and not re.fullmatch(r'[\w·\'₀-₉-]+', name.replace('_','')) or name.startswith('_') or name.endswith('_'):
        parts=[p for p in name.split('_') if p]
        if name in text: return True
        return all(re.search(r'(?<![^\s(){}\[\],;])'+re.escape(p)+r'(?![^\s(){}\[\],;])',text) for p in parts)
    for m in re.finditer(r'(?<![\w\-\'₀-₉·.])'+re.escape(name)+r'(?![\w\-\'₀-₉·])', text):
        # a field that is set is no use of the name
        before=text[:m.start()].rstrip(' \n')[-1:]; after=text[m.end():m.end()+3]
        if re.match(r'\s=(?!=)',after) and before in '{;': continue
        return True
    return False
USE=re.compile(r'^(ghost )?use ([^\s{;]+?)(?:\.\{([^}]*)\})?( as \S+?)?(;?)$')
def filter_uses(lines, text):
    out=[]
    text=re.sub(r'(?m)(^|\s)(--|//) .*$','',text)
    for l in lines:
        m=USE.match(l)
        if not m: out.append(l); continue
        g,mod,names,alias,semi=m.groups()
        if names is not None:
            ns=[n.strip() for n in names.split(',')]
            keep=[]
            for n in ns:
                shown=n.split(' as ')[-1]
                if uses_name(shown,text): keep.append(n)
            if keep: out.append(f"{g or ''}use {mod}.{{{', '.join(keep)}}}{semi or ''}")
        elif alias:
            a=alias[4:]
            if re.search(r'(?<![\w])'+re.escape(a)+r'\b',text): out.append(l)
        elif g is None and semi==';' and '::' in mod:
            if re.search(r'\b'+mod.split('::')[-1]+r'\b',text): out.append(l)
        else: out.append(l)
    return out
def parse(path):
    """head comment, use lines, blocks"""
    s=open(path).read().rstrip('\n').split('\n')
    blocks=[];cur=[]
    for i,l in enumerate(s):
        if l=='' :
            nxt=next((x for x in s[i+1:] if x!=''),None)
            if nxt is not None and not nxt[0].isspace() and not nxt.startswith('}'):
                if cur: blocks.append(cur)
                cur=[]; continue
        cur.append(l)
    if cur: blocks.append(cur)
    head=[];us=[]
    rest=[]
    joined=[]; carry=[]
    for i,b in enumerate(blocks):
        if i>0 and all(l.startswith(('--','//')) for l in b): carry+=b+['']; continue
        joined.append(carry+b); carry=[]
    blocks=joined
    for b in blocks:
        if all(USE.match(l) or l.startswith(('//','--')) for l in b) and not rest and (any(USE.match(l) for l in b) or not us):
            for l in b:
                (us if USE.match(l) else head).append(l)
        else: rest.append(b)
    return head,us,rest
def names_antt(b):
    t=[l for l in b if not l.startswith('--')]
    ns=set()
    inner=any(l.startswith('module') for l in t)
    if any(re.match(r'(pub )?data ',l) for l in t):
        for l in t:
            m=re.match(r'\s+([^\s:({]+) :',l)
            if m: ns.add(m.group(1))
    for l in t:
        if inner:
            m=re.match(r'\s+(?:abbrev )?(?:pub )?([^\s:({]+) :',l)
            if m: ns.add(m.group(1))
            continue
        if l[:1].isspace() or l.startswith('unfolding'): continue
        m=re.match(r'(?:(?:abbrev|opaque|pub|rec|unfold|instance|record|data|postulate) )*([^\s:({]+)',l)
        if m: ns.add(m.group(1))
    return ns
def name_rt(b):
    for l in b:
        m=re.match(r'(?:pub )?(?:extern "C" )?(fn|struct|enum|const|impl|type) (\w+)',l)
        if m: return m.group(1),m.group(2)
    return None,None
def write(path,head,us,blocks,ghost_sep=True):
    os.makedirs(os.path.dirname(path),exist_ok=True)
    s=''
    rt=path.endswith('.rt')
    if head: s+='\n'.join(head)+'\n'
    if rt and head: s+='\n'
    if us: s+='\n'.join(us)+'\n'
    for b in blocks: s+=('\n' if s else '')+'\n'.join(b)+'\n'
    open(path,'w').write(s)
def text_of(blocks): return '\n'.join('\n'.join(b) for b in blocks)
def antts(root):
    for c in sorted(os.listdir(root+'/crates')):
        for d,_,ff in os.walk(f'{root}/crates/{c}'):
            if '/must-fail' in d: continue
            for f in ff:
                if f.endswith(('.antt','.rt')): yield c,os.path.join(d,f)
def add_node(path,mod):
    s=open(path).read() if os.path.exists(path) else ''
    if f'mod {mod}\n' not in s: open(path,'w').write(s+f'pub mod {mod}\n')
def del_node(path,mod):
    s=open(path).read(); s=re.sub(rf'(?m)^(pub )?mod {mod}\n','',s)
    if s.strip(): open(path,'w').write(s)
    else: os.remove(path)
def split(root,old,new,title,fns=(),specs={},proofs={},items=(),above=False):
    R=root+'/crates/'; O=R+old; N=R+new
    for d in ('src',): os.makedirs(f'{N}/{d}',exist_ok=True)
    moved={}   # (kind, Module) -> {'*' or name: NewModule}
    # modules
    for kind,table in (('specs',specs),('proofs',proofs)):
        for mod,v in table.items():
            src=f'{O}/{kind}/{mod}.antt'
            if v is None or isinstance(v,str):
                to=v or mod
                os.makedirs(f'{N}/{kind}',exist_ok=True)
                shutil.move(src,f'{N}/{kind}/{to}.antt')
                del_node(f'{O}/{kind}/Lib.antt',mod); add_node(f'{N}/{kind}/Lib.antt',to)
                moved[kind,mod]={'*':to}
            else:
                to,names=v[0],set(v[1]); comment=v[2] if len(v)>2 else None
                head,us,blocks=parse(src)
                mv=[b for b in blocks if names_antt(b)&names]; st=[b for b in blocks if not names_antt(b)&names]
                got=set().union(*[names_antt(b) for b in mv]) if mv else set()
                miss=names-got
                if miss: print('?? not in',mod,miss)
                mt=text_of(mv); stt=text_of(st)
                write(f'{N}/{kind}/{to}.antt',[comment] if comment else head,filter_uses(us,mt),mv)
                kept=filter_uses(us,stt)
                need=[n for n in sorted(got) if uses_name(n,stt)]
                if need: kept.append(f'use Rattle·{new}.{kind}.{to}.{{{", ".join(need)}}}')
                write(src,head,kept,st)
                add_node(f'{N}/{kind}/Lib.antt',to)
                moved[kind,mod]={n:to for n in got}
    for f in fns:
        if os.path.isdir(f'{O}/proofs/{f}'):
            os.makedirs(f'{N}/proofs',exist_ok=True); shutil.move(f'{O}/proofs/{f}',f'{N}/proofs/{f}')
    # source
    head,us,blocks=parse(f'{O}/src/lib.rt')
    want=set(fns)|set(items)
    mv=[b for b in blocks if name_rt(b)[1] in want]; st=[b for b in blocks if name_rt(b)[1] not in want]
    found={name_rt(b)[1]:name_rt(b)[0] for b in mv}
    if want-set(found): print('?? no item',want-set(found))
    mt=text_of(mv); stt=text_of(st)
    nhead=['// '+title] if not title.startswith('//') else title.split('\n')
    if os.path.exists(f'{N}/src/lib.rt'):
        h2,u2,b2=parse(f'{N}/src/lib.rt'); nhead=h2; us_new=u2+[u for u in us if u not in u2]; mv=b2+mv; mt=text_of(mv)
    else: us_new=us
    pubs=[n for n,k in found.items() if re.search(r'(?<![\w:])'+n+r'\b',stt)]
    mv2=[]
    for b in mv:
        k,n=name_rt(b)
        if n in pubs and not any(l.startswith('pub ') for l in b):
            b=[('pub '+l if re.match(r'(extern "C" )?(fn|struct|enum|const) '+n+r'\b',l) else l) for l in b]
        mv2.append(b)
    write(f'{N}/src/lib.rt',nhead,filter_uses(us_new,mt),mv2)
    newuse=[]
    for n,k in found.items():
        if k in('fn','const'):
            st=[[re.sub(r'(?<![\w:])'+n+(r'(?=\()' if k=='fn' else r'\b'),f'{new}::{n}',l) if not l.startswith('//') else l for l in b] for b in st]
        elif k in('struct','enum') and re.search(r'\b'+n+r'\b',stt): newuse.append(f'use {new}::{n};')
    kept=filter_uses(us,text_of(st))
    write(f'{O}/src/lib.rt',head,kept+[u for u in newuse if u not in kept],st)
    types=[n for n,k in found.items() if k in('struct','enum')]
    # references
    for c,p in antts(root):
        s=s0=open(p).read()
        def own(kind,c=c): return f'Rattle·{c}·{kind}.{kind}' 
        for kind in('specs','proofs'):
            for pre in ([f'Rattle·{old}·{kind}.{kind}.'] if c in(old,new) else [])+[f'Rattle·{old}.{kind}.']:
                pe=re.escape(pre)
                to=(f'Rattle·{new}·{kind}.{kind}.' if c==new else f'Rattle·{new}.{kind}.')
                for (k,mod),v in moved.items():
                    if k!=kind: continue
                    if '*' in v: s=re.sub(pe+mod+r'(?=[.\s;]|$)',to+v['*'],s,flags=re.M)
                    else:
                        def rep(m):
                            ns=[n.strip() for n in m.group(2).split(',')]
                            a=[n for n in ns if n.split(' as ')[0] in v]; b=[n for n in ns if n.split(' as ')[0] not in v]
                            g=m.group(1); semi=m.group(3); out=[]
                            if a: out.append(f"{g}{to}{list(v.values())[0]}.{{{', '.join(a)}}}{semi}")
                            if b: out.append(f"{g}{pre}{mod}.{{{', '.join(b)}}}{semi}")
                            return '\n'.join(out)
                        s=re.sub(r'(?m)^((?:ghost )?use )'+pe+mod+r'\.\{([^}]*)\}(;?)$',rep,s)
                if kind=='proofs':
                    for f in list(fns)+types: s=re.sub(pe+f+r'\.',to+f+'.',s)
                else:
                    for f in types: s=re.sub(pe+'declared\\.'+f+r'(?=[.\s])',to+'declared.'+f,s)
        if c not in(old,new) and p.endswith('.rt'):
            for n in found: s=re.sub(r'\b'+old+'::'+n+r'\b',new+'::'+n,s)
        if s!=s0: open(p,'w').write(s)
    # edits
    ns=open(f'{N}/src/lib.rt').read(); os_=open(f'{O}/src/lib.rt').read()
    for e in sorted(glob.glob(f'{O}/must-fail/*.edit')):
        t=open(e).read()
        files=re.findall(r'(?m)^file: (.*)$',t); olds=re.findall(r'(?m)^old: (.*)$',t)
        if all(f=='src/lib.rt' for f in files):
            if all(o in ns and o not in os_ for o in olds):
                os.makedirs(N+'/must-fail',exist_ok=True); shutil.move(e,N+'/must-fail/'+os.path.basename(e)); print('edit moved',os.path.basename(e))
            elif not all(os_.count(o)==1 for o in olds): print('?? edit',e,[ (os_.count(o),ns.count(o)) for o in olds])
        else:
            for f in files:
                if not os.path.exists(f'{O}/{f}'): print('?? edit names',f,e)
    if os.path.isdir(O+'/must-fail') and not os.listdir(O+'/must-fail'): os.rmdir(O+'/must-fail')
    crates_txt(root,old,new)
def deps_found(root,c,known):
    used=set()
    for d,_,ff in os.walk(f'{root}/crates/{c}'):
        if '/must-fail' in d: continue
        for f in ff:
            t=open(os.path.join(d,f)).read() if f.endswith(('.antt','.rt')) else ''
            used|={x for x in re.findall(r'Rattle·(\w+)\.',t) if x!=c}
            if f.endswith('.rt'):
                tt=re.sub(r'//.*','',t)
                used|={x for x in re.findall(r'\b(\w+)::',tt) if x in known and x!=c}
    return used
def crates_txt(root,old,new):
    p=root+'/crates.txt'; lines=open(p).read().split('\n')
    order=[l.split(':')[0].strip() for l in lines if ':' in l and not l.startswith('#')]
    if new not in order:
        i=next(i for i,l in enumerate(lines) if l.startswith(old+':')); lines.insert(i,new+':'); order.insert(order.index(old),new)
    known=set(order)
    out=[]
    for l in lines:
        if ':' in l and not l.startswith('#'):
            c,ds=l.split(':'); ds=ds.split()
            used=deps_found(root,c,known)
            kit=[d for d in ds if d not in known]
            mine=[d for d in order if d in used]
            new_ds=mine+kit
            if set(new_ds)!=set(ds):
                miss=set(ds)-set(new_ds)
                if c not in(old,new) and miss: print('deps of',c,'lose',miss,'gain',set(new_ds)-set(ds))
                ds=new_ds
            l=c+':'+(' '+' '.join(ds) if ds else '')
        out.append(l)
    open(p,'w').write('\n'.join(out))

def tidy(root,c):
    for cc,p in antts(root):
        if cc!=c or p.endswith('Lib.antt'): continue
        s=open(p).read().split('\n')
        us=[(i,l) for i,l in enumerate(s) if USE.match(l)]
        if not us: continue
        rest='\n'.join(l for l in s if not USE.match(l))
        out=[]
        for i,l in enumerate(s):
            if USE.match(l):
                k=filter_uses([l],rest)
                if k!=[l]: print(p,'|',l,'->',k)
                out+=k
            else: out.append(l)
        open(p,'w').write('\n'.join(out))
def rename(root,old,new):
    os.rename(f'{root}/crates/{old}',f'{root}/crates/{new}')
    for c,p in antts(root):
        s=s0=open(p).read()
        s=re.sub(r'Rattle·'+old+r'(?=[·.])','Rattle·'+new,s)
        if p.endswith('.rt'): s=re.sub(r'(?<![\w:])'+old+r'::',new+'::',s)
        if s!=s0: open(p,'w').write(s)
    for e in glob.glob(f'{root}/crates/*/must-fail/*.edit'):
        s=s0=open(e).read(); s=re.sub(r'(?<![\w:])'+old+r'::',new+'::',s)
        if s!=s0: open(e,'w').write(s); print('edit',e)
    p=root+'/crates.txt'; s=open(p).read().split('\n')
    s=[l if l.startswith('#') else re.sub(r'\b'+old+r'\b',new,l) for l in s]
    open(p,'w').write('\n'.join(s))
