# rewrap.py FILE 'start of paragraph' [indent] [width]: rewraps the paragraph or bullet that begins so
import sys,textwrap
f,start=sys.argv[1:3]; ind=sys.argv[3] if len(sys.argv)>3 else ''; w=int(sys.argv[4]) if len(sys.argv)>4 else 140
L=open(f).read().split('\n')
i=next(k for k,l in enumerate(L) if l.startswith(start))
j=i+1
while j<len(L) and L[j].strip() and not L[j].startswith(('- ','|','#','**','```')): j+=1
t=' '.join(x.strip() for x in L[i:j])
L[i:j]=textwrap.wrap(t,w,subsequent_indent=ind,break_long_words=False,break_on_hyphens=False)
open(f,'w').write('\n'.join(L))
