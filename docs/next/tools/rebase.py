"""rebase.py REPO OUT TARGET: carries the changes of REPO's work tree since its first commit (or BASE) over to a copy of TARGET, writes the difference to OUT"""
import subprocess,os,shutil,sys
P,OUT,T=sys.argv[1:4]; base=sys.argv[4] if len(sys.argv)>4 else subprocess.run(['git','-C',P,'rev-list','--max-parents=0','HEAD'],capture_output=True,text=True).stdout.split()[0]
N='/work/tmp/reb'; shutil.rmtree(N,ignore_errors=True); os.makedirs(N)
subprocess.run(f'cd {T} && tar cf - --exclude=out --exclude=.git --exclude=java/out . | tar xf - -C {N} && cd {N} && git init -q . && git add -A >/dev/null 2>&1 && git -c user.name=x -c user.email=x@x commit -qm base',shell=True,check=True)
subprocess.run(['git','-C',P,'add','-A'],check=True)
out=subprocess.run(['git','-C',P,'diff','--cached','--name-status','--no-renames',base],capture_output=True,text=True).stdout
for l in out.splitlines():
    s,f=l.split('\t')
    if f.startswith('docs/next') or '/out/' in f or f.endswith('command_cases/stdout'): continue
    n=f'{N}/{f}'
    b=subprocess.run(['git','-C',P,'show',f'{base}:{f}'],capture_output=True).stdout if s!='A' else b''
    if s=='D':
        if os.path.exists(n): os.remove(n)
        continue
    p=open(f'{P}/{f}','rb').read()
    if s=='A' and not os.path.exists(n):
        os.makedirs(os.path.dirname(n),exist_ok=True); open(n,'wb').write(p); shutil.copymode(f'{P}/{f}',n); continue
    cur=open(n,'rb').read() if os.path.exists(n) else b''
    if cur==p: continue
    if cur==b: open(n,'wb').write(p); continue
    open('/tmp/b','wb').write(b); open('/tmp/t','wb').write(p)
    r=subprocess.run(['git','merge-file','--ours',n,'/tmp/b','/tmp/t'],capture_output=True)
    print('merged',f,r.returncode)
subprocess.run(f'cd {N} && git add -A && git diff --cached --binary HEAD -- . ":!docs/next" > {OUT}; wc -l {OUT}; grep -c "^+<<<<<<<" {OUT}',shell=True)
