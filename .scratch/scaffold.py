# Paths to facts in a function's proof, and Proof.antt files from them.
#   rt dev CRATE --generated /tmp/gen      (once; the functions may be unproved, their callees must have contracts)
#   q = load('CRATE', 'FUNCTION')          q.at: needs in order; q('NEED', 'FIELD') is 'c .before … .FIELD'
#   write('CRATE', 'FUNCTION', 'What the proof says.', 'use lines\n', lambda need, q: 'answer' or None)   None is `search needs`
# Of a cycle: load('CRATE', '+FUNCTION', 'Lts-FUNCTION').
import re,os
def load(crate, fn, file='Lts', gen='/tmp/gen'):
    t=open(f'{gen}/Rattle·{crate}·proofs/proofs/{fn}/{file}.antt').read()
    prev={};fields={};at={}
    for m in re.finditer(r'pub record (\S+) : Type 0 where\n((?: +pub [^\n]*\n(?: {10,}[^\n]*\n)*)+)', t):
        n=m.group(1)
        if n.endswith('·own'): continue
        fs=re.findall(r'pub (\S+) : (\S+)', m.group(2))
        fields[n]=[a for a,b in fs if a!='before']
        for a,b in fs:
            if a=='before': prev[n]=b
    for m in re.finditer(r'(Need-\S+) =\s*\(c : (\S+?)\)', t): at[m.group(1)[5:]]=m.group(2)
    def path(need, field):
        n=at[need]; k=0
        while n is not None:
            if field in fields.get(n,[]): return 'c'+' .before'*k+' .'+field
            n=prev.get(n); k+=1
        raise KeyError((need,field))
    path.at=at; path.fields=fields; path.prev=prev
    return path
def write(crate, fn, title, uses, answer, root='.'):
    q=load(crate,fn); d=fn.replace('_','-'); base=f'{root}/crates/{crate}/proofs/'; U=f'use Rattle·{crate}·proofs.proofs.'
    os.makedirs(base+fn,exist_ok=True)
    s=f'-- {title} Assumes nothing.\n{uses}use borrow.Author.Needs.{{needs}}\n{U}{fn}.Statement.{{statement}}\n{U}{fn}.Tie as tie\n\n'
    for n in q.at:
        k=' κs' if re.search(r'requires(-\d+)?$',n) else ''
        s+=f'{n} : tie.Need-{n}\n{n} c{k} = {answer(n,q) or "search needs"}\n\n'
    s+=f'pub {d}-spec : {{M : Type 1}} → statement M\n{d}-spec =\n    tie.close\n    (tie.spec\n    '+'\n    '.join(q.at)+')\n'
    open(base+fn+'/Proof.antt','w').write(s)
