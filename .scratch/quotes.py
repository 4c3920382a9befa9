import re,sys,glob
doc=open('../shared/01-scope.md').read()+' '+open('../shared/02-change-requests.md').read()
norm=lambda s: re.sub(r'[^a-z0-9]+',' ',s.lower()).strip()
D=' '+norm(doc)+' '
for f in sys.argv[1:]:
    t=open(f).read()
    if f.endswith('.antt') or f.endswith('.rt'):
        # join comment lines
        pre='--' if f.endswith('.antt') else '//'
        com=[];cur=''
        for l in t.split('\n'):
            s=l.strip()
            if s.startswith(pre): cur+=' '+s[2:].strip()
            else:
                if cur: com.append(cur)
                cur=''
        t='\n'.join(com)
    for m in re.finditer(r'"([^"\n]{3,}?)"',t):
        q=m.group(1)
        parts=[p for p in re.split(r'…|\.\.\.|\[[^\]]*\]',q) if norm(p)]
        bad=[p for p in parts if ' '+norm(p)+' ' not in D]
        if bad: print(f.replace('crates/',''),'|',q[:150])
