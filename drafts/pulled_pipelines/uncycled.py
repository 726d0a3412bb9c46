# Makes of lq_pipe in the present folder a crate in which no function of the cycle calls another: stubs have the names.
import re,os,shutil
A='proofs/running/Running/+running/'
ans=open(A+'Answers.antt').read(); inv=open(A+'Invariants.antt').read()
head=ans[:ans.index('\npub ')]; body=ans[ans.index('\npub '):]
blocks=re.split(r'\n(?=pub )',body)
i0=min(x for x in [inv.find('\nabbrev pub '),inv.find('\n-- ')] if x>0)
ihead=inv[:inv.index('\nabbrev pub ')]
iblocks=re.split(r'\n(?=(?:-- [^\n]*\n)*abbrev pub )',inv)
files=sorted(f[:-3] for f in os.listdir('src') if f.endswith('.rt') and '#[cycle(running)]' in open('src/'+f).read())
src={f:open(f'src/{f}.rt').read() for f in files}
fns={}
for f in files:
    s=src[f]
    for m in re.finditer(r'    #\[cycle\(running\)\]\n((?:    #\[[^\n]*\]\n)*)    ((?:pub\(crate\) )?)fn (\w+)',s):
        fns[m.group(3)]=(f,m)
HEADER=re.search(r"(?m)^impl<.*> Running<.*> \{$",src['running']).group(0)
print(len(fns),'functions')
by={f:[] for f in fns}
for b in blocks:
    m=re.match(r'pub ([\w]+)-',b)
    if m:
        if m.group(1) in by: by[m.group(1)].append(b)
        else: print('block?',b[:60])
iby={f:[] for f in fns}
for b in iblocks:
    m=re.search(r'abbrev pub (?:invariant|decreases)-(\w+?)-loop',b)
    if m and m.group(1) in iby: iby[m.group(1)].append(b)
def used(head,text):
    out=[]
    for l in head.split('\n'):
        if not l.startswith('use') or l.endswith(' as goal'): continue
        if '{' in l:
            ns=[n.strip() for n in l[l.index('{')+1:l.rindex('}')].split(',')]
            keep=[n for n in ns if all(c in text for c in n.split(' as ')[-1].split('◌') if c)]
            if keep: out.append(l[:l.index('{')+1]+', '.join(keep)+'}')
        else: out.append(l)
    return '\n'.join(out)
keepdirs={}
shutil.rmtree('proofs/running/Running/+running')
for f in fns:
    d=f'proofs/running/Running/{f}_real'
    if by[f]:
        t='\n'.join(by[f]).replace(f'pub {f}-','pub ').replace(f'goal.{f}-','goal.')
        t=re.sub(rf'(?m)^{f}-([^\n]*?) g t c\b',r'\1 g c',t)
        os.makedirs(d,exist_ok=True)
        open(d+'/Answers.antt','w').write(used(head,t)+f'\nuse Rattle.lq_pipe.proofs.running.Running.{f}_real.Goals as goal\n\n'+t)
    if iby[f]:
        t='\n'.join(iby[f]).replace(f'invariant-{f}-loop','invariant-loop').replace(f'decreases-{f}-loop','decreases-loop')
        os.makedirs(d,exist_ok=True)
        open(d+'/Invariants.antt','w').write(used(ihead,t)+f'\nuse Rattle.lq_pipe.proofs.running.Running.{f}_real.Given as goal\n\n'+t)
# sources: rename definitions
stubs=[]; ghosts=[]
for name,(f,m) in fns.items():
    s=src[f]
    i=m.start(); j=s.index('\n    {\n',i)
    sig=s[i:j]
    sig=re.sub(r'    #\[[^\n]*\]\n','',sig); sig=re.sub(rf'(?:pub\(crate\) )?fn {name}\b',f'pub(crate) fn {name}',sig)
    ret=re.search(r'\) -> ([^\n]*)',sig).group(1)
    err='RunError::Memory' if 'RunError' in ret else 'AllocError'
    stubs.append((name,'    /// Stub.\n'+sig,err))
for f in files:
    s=src[f].replace('    #[cycle(running)]\n','')
    for name,(ff,m) in fns.items():
        if ff==f: s=re.sub(rf'\bfn {name}(?=[(<])',f'fn {name}_real',s)
    s=re.sub(r'(?m)^    fn (\w+_real)',r'    pub(crate) fn \1',s)
    for l in re.findall(r'\n    (ghost use [^\n]*;)',s): ghosts.append(l)
    open(f'src/{f}.rt','w').write(s)
import collections
mods=collections.OrderedDict(); als=[]
for l in ghosts:
    if '{' in l:
        k=l[10:l.index('.{')]; ns=[n.strip() for n in l[l.index('{')+1:l.rindex('}')].split(',')]
        mods.setdefault(k,[]); [mods[k].append(n) for n in ns if n not in mods[k]]
    elif l not in als: als.append(l)
gl='\n'.join('    ghost use '+k+'.{'+', '.join(v)+'};' for k,v in mods.items())+'\n'+'\n'.join('    '+a for a in als)
uses=set()
body=[]
for name,sig,err in stubs:
    drops=[]
    for p,t in re.findall(r'\n        (\w+): ([^\n]*),',sig):
        if not t.startswith('&') and ('Value' in t or 'Outcome' in t or 'List' in t or 'Pulled' in t or 'Vec' in t or 'Result<' in t or 'Base' in t or 'Step' in t): drops.append(p)
    m=re.search(r'\((&self[^\n]*)\) ->',sig)
    if m:
        for p,t in re.findall(r'(\w+): ([^,)]*)',m.group(1)):
            if not t.startswith('&') and ('Value' in t or 'Outcome' in t or 'List' in t or 'Pulled' in t or 'Result<' in t): drops.append(p)
    d=''.join(f'        drop({p});\n' for p in drops)
    body.append(sig+'\n    {\n'+d+f'        Err({err})\n    }}\n')
heads=[]
for f in files:
    for l in re.findall(r'(?ms)^use [^;]*;',src[f]): heads.append(l)
names=collections.OrderedDict()
for l in heads:
    l=re.sub(r'\s+',' ',l)
    m=re.match(r'use ([\w:]+)::\{(.*)\};',l)
    if m: 
        for n in [x.strip() for x in m.group(2).split(',') if x.strip()]: names.setdefault((m.group(1),n),1)
    else:
        m=re.match(r'use ([\w:]+)::(\w+);',l); names.setdefault((m.group(1),m.group(2)),1)
text='\n'.join(body)+HEADER
use=[]
for (mod,n) in names:
    if mod.startswith('crate') and (n=='Running' or not n[0].isupper()): continue
    if re.search(rf'\b{n}\b',text): use.append(f'use {mod}::{n};')
open('src/stubs.rt','w').write('//! Stubs.\nuse crate::running::Running;\n'+'\n'.join(use)+'\n\n'+HEADER+'\n'+gl+'\n\n'+'\n'.join(body)+'}\n')
t=open('src/lib.rt').read().replace('mod running;','mod running;\nmod stubs;')
open('src/lib.rt','w').write(t)
