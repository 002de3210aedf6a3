# Prints the public signatures and clauses, the definitions and theorems of specs/, and the lemmas of proofs/ that differ
# from those of the commit at which the design pass began, old and new; an argument names the newer commit.
import re,subprocess,collections,sys
OLD='f96bd5c'; NEW=sys.argv[1] if len(sys.argv)>1 else 'HEAD'
def ls(rev,pat):
    return sorted(f for f in subprocess.check_output(['git','ls-tree','-r','--name-only',rev],text=True).split('\n') if re.search(pat,f))
def show(rev,f): return subprocess.check_output(['git','show','%s:%s'%(rev,f)],text=True)
ws=lambda s: re.sub(r'\s+',' ',s).strip()
def fns(rev):
    d=collections.OrderedDict()
    for f in ls(rev,r'crates/[^/]+/src/.*\.rt$'):
        if f.endswith('tests.rt') or '/season/' in f: continue
        crate=f.split('/')[1]
        t=show(rev,f)
        ctx=''
        lines=t.split('\n')
        i=0
        while i<len(lines):
            l=lines[i]
            m=re.match(r'(impl|pub trait|pub\(crate\) trait|trait)\b(.*)$',l)
            if m:
                ctx=ws(l.rstrip(' {'))
            if l.startswith('}'): ctx=''
            m=re.match(r'\s*pub fn (\w+)',l)
            mt=re.match(r'\s+fn (\w+)',l) if ctx.startswith('pub trait') else None
            if m or mt:
                name=(m or mt).group(1)
                buf=[]
                while True:
                    buf.append(lines[i])
                    s=lines[i].rstrip()
                    if re.match(r'\s*\{$',s) or (s.endswith(' {') and not re.search(r'(ensures|requires)\b.*\{$',s)) or s.endswith(';'): break
                    i+=1
                txt=[b for b in buf]
                sig=[];cl=[]
                for b in txt:
                    if re.match(r'\s*(requires|ensures)\b',b) or cl: cl.append(ws(b))
                    else: sig.append(ws(b))
                cl=[c for c in cl if c!='{']
                sigs=ws(' '.join(sig)).rstrip('{').strip().replace('( ','(').replace(', )',')').replace(',)',')')
                who=re.sub(r'^impl(<[^>]*>)? ','',ctx); who=re.sub(r"<.*>$",'',who); who=who.replace('pub trait ','')
                d[(crate,who+'::'+name if who else name)]=(sigs,[re.sub(r';$','',c) for c in cl])
            i+=1
    return d
o,n=fns(OLD),fns(NEW)
def key(k): return k[0]+' '+k[1]
out=[]
out.append('### Public functions: signatures and clauses\n')
okeys={ (k[0],k[1].split('::')[-1],k[1]):k for k in o}
for k in n:
    if k in o and o[k]!=n[k]:
        out.append('`%s`, %s\n'%(k[1],k[0])); out.append('```text')
        a,b=o[k],n[k]
        if a[0]!=b[0]: out+=['- '+a[0],'+ '+b[0]]
        else: out.append('  '+a[0])
        for c in a[1]:
            out.append(('  ' if c in b[1] else '- ')+'  '+c)
        for c in b[1]:
            if c not in a[1]: out.append('+   '+c)
        out.append('```\n')
new=[k for k in n if k not in o]; gone=[k for k in o if k not in n]
out.append('New public functions: '+', '.join('`%s` (%s)'%(k[1],k[0]) for k in new)+'.\n')
out.append('Public functions that are gone: '+(', '.join('`%s` (%s)'%(k[1],k[0]) for k in gone) or 'none')+'.\n')
rx=re.compile(r"^(?:abbrev |unfoldable )?(?:pub )?(?:abbrev |unfoldable )?(?:record |data )?([A-Za-z_◌][\w'\-◌]*)((?: \(| \{| :).*)$")
def defs(rev,pat=r'crates/[^/]+/specs/.*\.antt$'):
    d=collections.OrderedDict()
    for f in ls(rev,pat):
        if f.endswith('Answers.antt') or f.endswith('Invariants.antt') or f.endswith('Lib.antt'): continue
        crate=f.split('/')[1]
        for b in re.split(r'\n\n',show(rev,f)):
            lines=[l for l in b.split('\n') if not l.strip().startswith('--') and not l.startswith('use ')]
            if not lines: continue
            # several declarations may share a block
            cur=None
            for l in lines:
                m=rx.match(l.strip()) if not l.startswith('      ') else None
                if m and re.match(r"(?:abbrev |unfoldable )?(?:pub )?(?:abbrev |unfoldable )?(?:record |data )?[A-Za-z_][\w'\-]*( \(| \{| :)",l.strip()) and (' : ' in l) and '=' not in l.split(' : ')[0]:
                    if not (cur and re.match(r'\s+pub ',l)):   # record fields stay with their record
                        cur=(crate,m.group(1))
                        d[cur]=[f,l.strip()]
                        continue
                if cur: d[cur].append(l.rstrip())
    return d
od,nd=defs(OLD),defs(NEW)
allnew=defs(NEW,r'crates/[^/]+/(specs|proofs)/.*\.antt$')
is_def=lambda v: v[1].startswith(('abbrev','unfoldable')) or 'record ' in v[1][:12] or 'data ' in v[1][:12]
out.append('\n### Definitions of specs/\n')
chg=[]
for k,v in od.items():
    if k in nd:
        a,b=ws(' '.join(v[1:])),ws(' '.join(nd[k][1:]))
        if is_def(v) and is_def(nd[k]) and a!=b:
            chg.append((k,a,b))
for k,a,b in chg:
    out+=['`%s`, %s\n'%(k[1],k[0]),'```text','- '+a,'+ '+b,'```\n']
g=[k for k,v in od.items() if k not in nd and k not in allnew and is_def(v)]
out.append('Definitions that are gone: '+', '.join('`%s` (%s)'%(k[1],k[0]) for k in g)+'.\n')
nw=[k for k,v in nd.items() if k not in od and is_def(v)]
out.append('New definitions: '+', '.join('`%s` (%s)'%(k[1],k[0]) for k in nw)+'.\n')
out.append('\n### Theorems of specs/\n')
for k,v in od.items():
    if not is_def(v):
        if k in nd and v[1]!=nd[k][1] and not is_def(nd[k]):
            out+=['`%s`, %s\n'%(k[1],k[0]),'```text','- '+v[1],'+ '+nd[k][1],'```\n']
mv=[k for k,v in od.items() if not is_def(v) and k not in nd and k in allnew]
gt=[k for k,v in od.items() if not is_def(v) and k not in nd and k not in allnew and k[1]!='omega']
out.append('Theorems that lie in proofs/ now: '+(', '.join('`%s` (%s)'%(k[1],k[0]) for k in mv) or 'none')+'.\n')
out.append('Private steps of proofs in specs/ that are gone: '+(', '.join('`%s` (%s)'%(k[1],k[0]) for k in gt) or 'none')+'.\n')
print('\n'.join(out))


# Lemmas of proofs/: each name with its statement. Answers and invariants of loops are no lemmas.
def lemmas(rev, pat=r'crates/[^/]+/proofs/.*\.antt$'):
    d=collections.OrderedDict()
    for f in ls(rev,pat):
        if re.search(r'(Answers|Invariants|Lib)\.antt$',f): continue
        lines=show(rev,f).split('\n'); i=0
        while i<len(lines):
            m=re.match(r"(\s*)((?:abbrev |unfoldable )?(?:pub )?(?:abbrev |unfoldable )?)(record |data )?([^\W\d][\w'\-]*) (:|.*\bwhere$)",lines[i])
            if not m or m.group(4) in ('use','module') or (m.group(5)!=':' and not m.group(3)):
                i+=1; continue
            indent=m.group(1); buf=[lines[i]]; i+=1
            deeper=lambda l: l.startswith(indent+' ') and l[len(indent):].startswith('  ')
            while i<len(lines) and deeper(lines[i]):
                buf.append(lines[i]); i+=1
            d.setdefault((f.split('/')[1],m.group(4)),[]).append(ws(' '.join(buf)))
    return d
od,nd=lemmas(OLD),lemmas(NEW)
everywhere=lemmas(NEW,r'crates/[^/]+/(specs|proofs)/.*\.antt$')
bare=lambda v: sorted(set(re.sub(r'^pub ','',re.sub(r'^abbrev pub ','abbrev ',x)) for x in v))
out=['\n### Lemmas of proofs/\n']
for k,v in od.items():
    if k in nd and bare(v)!=bare(nd[k]):
        out+=['`%s`, %s\n'%(k[1],k[0]),'```text']+['- '+x for x in v]+['+ '+x for x in nd[k]]+['```\n']
named=lambda ks: ', '.join('`%s` (%s)'%(k[1],k[0]) for k in ks) or 'none'
out.append('Lemmas that are gone: '+named([k for k in od if k not in everywhere])+'.\n')
out.append('New lemmas: '+named([k for k in nd if k not in od])+'.')
print('\n'.join(out))
