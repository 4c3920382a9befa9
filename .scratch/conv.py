import re,sys
sys.path.insert(0,'/tmp/tool')
def answers(old):
    t=open(old).read()
    out={}
    # split by declarations
    for m in re.finditer(r'(?ms)^([\w-]+) : tie\.Need-\1[^\n]*\n\1 c(?: κs)? =(.*?)(?=^\S|\Z)',t):
        a=m.group(2).strip()
        a=re.sub(r'c((?: \.before)*) \.([\w-]+)',lambda k:k.group(0) if k.group(2)=='before' else '@'+k.group(2),a)
        out[m.group(1)]=re.sub(r'\s+',' ',a)
    return out
