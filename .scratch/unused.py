import re,sys,subprocess
files=subprocess.run("git diff --name-only HEAD -- crates; git ls-files -o --exclude-standard crates",shell=True,capture_output=True,text=True,cwd='.').stdout.split()
for f in sorted(set(files)):
    if not f.endswith(('.antt','.rt')): continue
    try: t=open('./'+f).read()
    except: continue
    body=re.sub(r'^(ghost )?use .*$','',t,flags=re.M)
    body=re.sub(r'--.*$','',body,flags=re.M) if f.endswith('.antt') else re.sub(r'//.*$','',body,flags=re.M)
    toks=set(re.findall(r"[^\s(){}\[\];,.λ⌜⌝|]+",body))|set(re.findall(r"[A-Za-z0-9_·'’\-≡≤<]+",body))
    for m in re.finditer(r'^(?:ghost )?use ([^\n{;]*)\{([^}]*)\}',t,flags=re.M):
        for n in m.group(2).split(','):
            n=n.strip()
            nm=n.split(' as ')[-1].strip()
            if not nm: continue
            if '_' in nm and not nm.replace('_','').isalnum():
                op=nm.strip('_').split('_')[0]
                if op in body: continue
            elif nm in toks or re.search(r'(?<![\w\-])'+re.escape(nm)+r'(?![\w\-])',body): continue
            if nm in('arith','needs','refl') and nm in body: continue
            print(f,nm)
