import re
b=lambda n: 'c'+' .before'*n
def fillp(path, title, uses, A, rest=True):
    t=open(path).read()
    t=re.sub(r"-- src/lib.rt.*\n","",t); t=re.sub(r"use .*(Reads|Lts) as .*\n","",t)
    if not t.startswith('--'):
        t=f"-- {title} Assumes nothing.\n"+uses+("use borrow.Author.Needs.{needs}\n" if 'borrow.Author.Needs' not in t and 'borrow.Author.Needs' not in uses else '')+t
    for k,v in A.items():
        t=re.sub(rf"^({re.escape(k)}) = \?$",lambda m: m.group(1)+" = "+v,t,flags=re.M)
    if rest: t=t.replace(" = ?"," = search needs")
    open(path,'w').write(t)
