import sys,struct
def units(s,mm):
    return round(float(s)*8) if mm else int(s)
def convert(text):
    mm=False; fig=None; pieces=[]
    for line in text.split('\n'):
        line=line.split('#')[0].split()
        if not line: continue
        if line[0]=='mm': mm=True
        elif line[0]=='strip': fig=(units(line[1],mm),units(line[2],mm),int(line[3]))
        else: pieces.append((int(line[1]),[tuple(units(c,mm) for c in v.split(',')) for v in line[2:]]))
    vs=[];ps=[]
    for k,(mask,v) in enumerate(pieces):
        first=len(vs)+1
        for i,(x,y) in enumerate(v): vs.append((x,y,first+i+1 if i+1<len(v) else 0))
        ps.append((first,mask,k+2 if k+1<len(pieces) else 0))
    b=bytes([0x4e,0x4a,1,0])+struct.pack('<6H',*fig,1 if pieces else 0,len(vs),len(ps))
    for r in vs+ps: b+=struct.pack('<3H',*r)
    return b
if __name__=='__main__':
    sys.stdout.buffer.write(convert(sys.stdin.read()))
