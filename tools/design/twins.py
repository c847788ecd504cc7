#!/usr/bin/env python3
# Point 2: functions of crates/*/src whose bodies are the same once each name and each number is replaced by the order in which it first
# appears. Run from the top of the repository. `twins.py K` asks for bodies of at least K tokens (default 1).
import re,sys,collections
import os; sys.path.insert(0,os.path.dirname(os.path.abspath(__file__)))
from sigs import fns
K=int(sys.argv[1]) if len(sys.argv)>1 else 1
KEY={'if','else','let','mut','return','while','match','for','in','loop','break','continue','as','fn','true','false'}
def norm(f):
    t=re.findall(r"b?'[^']*'|b?\"(?:[^\"\\]|\\.)*\"|[A-Za-z_][\w]*|\d[\w]*|[^\s\w]",f['body'])
    m={};out=[]
    for x in t:
        if x in KEY: out.append(x)
        elif re.match(r"[A-Za-z_]",x) and not x.startswith(('b"',"b'")): out.append('i%d'%m.setdefault(x,len(m)))
        elif re.match(r"\d|b?'|b?\"",x): out.append('#')
        else: out.append(x)
    return tuple(out)
g=collections.defaultdict(list)
for f in fns: g[norm(f)].append(f)
gs=[(k,v) for k,v in g.items() if len(v)>1 and len(k)>=K]
gs.sort(key=lambda kv:(kv[1][0]['file'],kv[1][0]['line']))
print(len(gs),'groups,',sum(len(v) for k,v in gs),'functions')
for k,v in gs:
    print(len(k),' '.join(f"{f['file'].replace('crates/','').replace('/src','')}:{f['line']}:{f['name']}" for f in v))
