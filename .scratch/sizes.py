import os,re,sys
c=dict.fromkeys(['mean','comp','prom','code','spec','law','fn'],0)
for d,_,fs in os.walk('crates'):
    for f in fs:
        p=d+'/'+f
        if '/must-fail/' in p or not f.endswith(('.rt','.antt')): continue
        n=sum(1 for l in open(p) if l.strip())
        q=p[7:]
        if '/src/' in q: k='code'
        elif '/specs/' in q:
            if re.match(r'(defs|pathdefs)/specs/(Meaning|Answer)',q) or q=='strokes/specs/Stroke.antt': k='mean'
            elif re.match(r'(defs|pathdefs)/specs/Computing',q): k='comp'
            elif re.match(r'(claims|knife|control|promises|pathclaims)/specs/',q): k='prom'
            else: k='spec'
        elif f=='Proof.antt': k='fn'
        else: k='law'
        c[k]+=n
print(c)
