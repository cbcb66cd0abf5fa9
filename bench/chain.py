#!/usr/bin/env python3
"""The longest chain of crates, in lines of src, specs and proofs without tests (trial crates are tests) and edits."""
import os,re,sys
top=next((a for a in sys.argv[1:] if not a.startswith("--")),".")
deps={}
for l in open(f'{top}/crates.txt'):
    l=l.split('#')[0].strip()
    if not l: continue
    h,t=l.split(':',1); deps[h.split()[0]]=t.split()
deps={c:t for c,t in deps.items() if not c.endswith(('_trials','_bench'))}
def lines(c):
    n=0
    for d,_,fs in os.walk(f'{top}/crates/{c}'):
        r=os.path.relpath(d,f'{top}/crates/{c}')
        p=r.split('/')
        if p[0] not in('src','specs','proofs'): continue
        if any(x in('tests','Tests') or x=='Tested' for x in p): continue
        for f in fs:
            if not f.endswith(('.rt','.antt')): continue
            if f.split('.')[0] in('tests','Tested'): continue
            n+=sum(1 for _ in open(os.path.join(d,f)))
    return n
L={c:lines(c) for c in deps}
memo={}
def best(c):
    if c not in memo:
        b=(0,[])
        for d in deps[c]:
            if d in deps: b=max(b,best(d),key=lambda x:x[0])
        memo[c]=(b[0]+L[c],b[1]+[c])
    return memo[c]
m=max((best(c) for c in deps),key=lambda x:x[0])
print(m[0],' '.join(f'{c}({L[c]})' for c in m[1]))
if "--all" in sys.argv:
    for c in deps: print(f"{c:16} {L[c]:6} {best(c)[0]:6}")
