#!/usr/bin/env python3
# Point 5: the conjuncts of requires (with `both`: of requires and ensures) of all functions of crates/*/src, with each parameter's name
# replaced by _ and .now/.old by .v; those that stand in the contracts of three or more functions. Run from the top of the repository.
import re,sys,collections
import os; sys.path.insert(0,os.path.dirname(os.path.abspath(__file__)))
from sigs import fns
both=len(sys.argv)>1 and sys.argv[1]=='both'
g=collections.defaultdict(dict)
for f in fns:
    names={p[0].replace('mut ','').lstrip('&') for p in f['params']}|{'result'} if False else {p[0].replace('mut ','') for p in f['params']}
    for x in f['req']+(f['ens'] if both else []):
        y=re.sub(r"[A-Za-z_]\w*",lambda m:'_' if m.group() in names and (m.start()==0 or x[m.start()-1]!='.') else m.group(),x)
        y=re.sub(r'\.(now|old|new)\b','.v',y)
        if 'result' in y and not re.search(r'^result [<≤] ',y): continue
        g[y][(f['file'],f['line'],f['name'])]=1
rows=sorted(((len(v),k,v) for k,v in g.items() if len(v)>=3),key=lambda r:(-r[0],r[1]))
fs=set()
for n,k,v in rows: fs|=set(v)
print(len(rows),'facts,',sum(r[0] for r in rows),'places,',len(fs),'functions')
for n,k,v in rows:
    print(n,'|',k)
    if len(sys.argv)>2 or (len(sys.argv)>1 and sys.argv[1]=='list'):
        print('    ',' '.join(f"{a.replace('crates/','').replace('/src','')}:{b}:{c}" for a,b,c in v))
