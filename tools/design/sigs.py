#!/usr/bin/env python3
# Each function of crates/*/src with its parameters and the conjuncts of its clauses. Run from the top of the repository.
import re,glob,sys,collections
def split_top(s,seps):
    out=[];d=0;cur='';i=0
    while i<len(s):
        c=s[i]
        if c in '([{<' and not (c=='<' ): d+=1
        if c in ')]}' : d-=1
        if d==0 and any(s.startswith(x,i) for x in seps):
            out.append(cur);cur='';i+=1;continue
        cur+=c;i+=1
    out.append(cur)
    return [x.strip() for x in out if x.strip()]
def strip_par(s):
    s=s.strip()
    while s.startswith('(') and s.endswith(')'):
        d=0;ok=True
        for i,c in enumerate(s):
            if c=='(':d+=1
            if c==')':
                d-=1
                if d==0 and i<len(s)-1: ok=False;break
        if ok:s=s[1:-1].strip()
        else:break
    return s
def flat(s):
    s=strip_par(s)
    parts=split_top(s,['×'])
    if len(parts)==1: return [s]
    r=[]
    for p in parts: r+=flat(p)
    return r
fns=[]
for f in sorted(glob.glob('crates/*/src/**/*.rt',recursive=True)):
    t=open(f).read()
    # blank comments, keep lines
    t2=re.sub(r'//[^\n]*',lambda m:' '*len(m.group()),t)
    for m in re.finditer(r'(?m)^[ \t]*(#\[unsafe\(no_mangle\)\]\s*)?((?:pub(?:\(crate\))? )?(?:extern "C" )?)fn (\w+)(?:<[^>]*>)?\(',t2):
        name=m.group(3);i=m.end();d=1;j=i
        while d:
            c=t2[j]
            if c=='(':d+=1
            if c==')':d-=1
            j+=1
        params=t2[i:j-1]
        k=j;d=0
        # body: first '{' not within requires/ensures
        clauses={}
        ret=''
        rest=t2[j:]
        p=0
        mm=re.match(r'\s*(->\s*([^\n{]+))?',rest)
        if mm.group(1): ret=mm.group(2).strip()
        p=mm.end()
        while True:
            m2=re.match(r'\s*(requires|ensures)\s*\{',rest[p:])
            if not m2:break
            q=p+m2.end();d=1;s=q
            while d:
                c=rest[q]
                if c=='{':d+=1
                if c=='}':d-=1
                q+=1
            clauses[m2.group(1)]=' '.join(rest[s:q-1].split())
            p=q
        m3=re.match(r'\s*\{',rest[p:])
        q=p+m3.end();d=1;s=q
        while d:
            c=rest[q]
            if c=='{':d+=1
            if c=='}':d-=1
            q+=1
        body=rest[s:q-1]
        line=t2.count('\n',0,m.start(3))+1
        ps=[]
        for x in split_top(' '.join(params.split()),[',']):
            ps.append(tuple(y.strip() for y in x.split(':',1)) if ':' in x else (x,''))
        fns.append(dict(file=f,line=line,name=name,vis=m.group(2).strip(),params=ps,ret=ret,
            req=flat(clauses['requires']) if 'requires' in clauses else [],
            ens=flat(clauses['ensures']) if 'ensures' in clauses else [],body=body,bl=t2.count('\n',0,j+s)+1))
if __name__=='__main__':
    mode=sys.argv[1]
    if mode=='count':
        print(len(fns))
    if mode=='facts':
        c=collections.Counter();w=collections.defaultdict(list)
        for f in fns:
            for x in set(f['req']):
                c[x]+=1
        for x,n in c.most_common():
            if n>=2: print(n,x)
    if mode=='all':
        for f in fns:
            print(f"{f['file']}:{f['line']} {f['vis']} {f['name']}({', '.join(':'.join(p) for p in f['params'])}) -> {f['ret']}\n   R {f['req']}\n   E {f['ens']}")
