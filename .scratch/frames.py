import subprocess,re,sys
out=subprocess.run(['objdump','-d','--no-show-raw-insn',sys.argv[1]],capture_output=True,text=True).stdout
f=None
for l in out.split('\n'):
    m=re.match(r'^[0-9a-f]+ <(.*)>:',l)
    if m: f=m.group(1); n=0; tot=0; continue
    if not f: continue
    n+=1
    if n<60:
        m=re.search(r'sub\s+\$0x([0-9a-f]+),%r11',l)
        if m: print(f,'probed',int(m.group(1),16)); 
        m=re.search(r'sub\s+\$0x([0-9a-f]+),%rsp',l)
        if m and int(m.group(1),16)!=4096 and int(m.group(1),16)>300: print(f,'sub',int(m.group(1),16))
