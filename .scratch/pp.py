import subprocess,re
class Paths:
    def __init__(self,crate,fn):
        out=subprocess.run(['../shared/tools/paths',crate,fn],capture_output=True,text=True,cwd='.').stdout
        self.states={};self.needs={}
        for l in out.splitlines():
            m=re.match(r'\s+Need-(\S+) at (\S+)',l)
            if m: self.needs[m.group(1)]=m.group(2); continue
            p=l.split(' | ')
            if len(p)<2: continue
            name=p[0]; fields=p[1].split()
            b=None; fs=[]
            for f in fields:
                if f.startswith('before:'): b=f[7:]
                else: fs.append(f)
            self.states[name]=(b,fs)
    def at(self,need,fact):
        s=self.needs[need]; path='c'
        while s:
            b,fs=self.states[s]
            if fact in fs: return path+' .'+fact
            path+=' .before'; s=b
        raise Exception('no '+fact+' at '+need)
    def fill(self,file,answers,title,uses):
        t=open(file).read()
        for need,a in answers.items():
            a=re.sub(r'@([\w-]+)',lambda m:self.at(need,m.group(1)),a)
            n=re.escape(need)
            t,k=re.subn(r'(?m)^('+n+r' c(?: κs)?) = .*$',lambda m:m.group(1)+' = '+a,t)
            assert k==1,need
        t=re.sub(r'(?m)^-- src/lib.rt:.*\n','',t)
        t=re.sub(r'(?m)^use .*(Reads as|Lts as).*\n','',t)
        t=title+''.join('use '+u+'\n' for u in uses)+t
        open(file,'w').write(t)
