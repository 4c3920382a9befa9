import glob,sys
bad=0;n=0
for e in sorted(glob.glob('crates/*/must-fail/*.edit')):
    n+=1
    c=e.split('/')[1]; f=old=None; texts={}
    for l in open(e).read().split('\n'):
        if l.startswith('file: '): f='crates/'+c+'/'+l[6:]; texts.setdefault(f,open(f).read())
        elif l.startswith('old: '): old=l[5:]
        elif l.startswith('new:'):
            k=texts[f].count(old)
            if k!=1: print(e,k,old); bad+=1
            texts[f]=texts[f].replace(old,l[5:])
print(n,'edits',bad,'bad')
