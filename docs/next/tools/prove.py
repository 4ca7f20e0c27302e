#!/usr/bin/env python3
"""prove.py ROOT [--tests] [--only a,b] : proves crates as rt ci does, over what this script kept. Logs in /work/logs."""
import importlib.machinery, importlib.util, sys, time, os, hashlib, threading, copy, shutil, tempfile, subprocess, json, resource
from concurrent.futures import ThreadPoolExecutor, wait, FIRST_COMPLETED
sys.path.insert(0,"/opt/rattle/bin")
l=importlib.machinery.SourceFileLoader("rt_main","/opt/rattle/bin/rt")
rt=importlib.util.module_from_spec(importlib.util.spec_from_loader("rt_main",l)); l.exec_module(rt)
R=rt.rtlib
root=os.path.realpath(sys.argv[1]); os.chdir(root)
with_tests="--tests" in sys.argv
only=None
if "--only" in sys.argv: only=set(sys.argv[sys.argv.index("--only")+1].split(","))
skip=set()
if "--skip" in sys.argv: skip=set(sys.argv[sys.argv.index("--skip")+1].split(","))
LANES=int(os.environ.get("LANES","4"))
orig=R.Crate.below
def below(self):
    if "fb" not in vars(self): self.fb=orig(self)
    return list(self.fb)
R.Crate.below=below
orig_stamp=R.Crate.stamp
own={}
def stamp(self):
    if self.name not in own:
        sum = hashlib.sha256(repr((self.said, self.has_c)).encode())
        with open(f"{R.KIT}/WHAT","rb") as it: sum.update(it.read())
        for file in R.files_of(self.folder):
            with open(file,"rb") as it: sum.update(repr((file.replace(self.folder,""), it.read())).encode())
        sum.update(repr([d.stamp() for d in self.deps]).encode())
        own[self.name]=sum.hexdigest()
    return own[self.name]
R.Crate.stamp=stamp
R.Crate=rt.Crate
rt.Crate.cuts_libraries=True
R.guarded()
for it in (R.ALLOW_C,R.BACKEND,"RT_SECONDS"): os.environ.pop(it,None)
rt.Crate.allowed=rt.handles_of(root)
crates=sorted(R.crates_below(root), key=lambda c:len(c.below()))
os.makedirs("/work/logs",exist_ok=True)
done={}
def keyfile(c,tests): return f"{c.folder}/out/{'tests' if tests else 'proof'}.key"
def is_kept(c,tests):
    k=keyfile(c,tests)
    return os.path.isfile(k) and open(k).read()==c.stamp() and (tests or c.is_program or os.path.isdir(c.rlib))
try: times=json.load(open("/work/tools/times.json"))
except Exception: times={}
def weight(c,tests):
    return times.get(f"{c.name}{'.tests' if tests else ''}") or c.count(rb"\n")*0.35+15
def work(c,tests,jobs):
    if any(not done.get((d.name,False)) for d in c.below()): return None
    if is_kept(c,tests): return True
    c=copy.copy(c)
    log=f"/work/logs/{c.name}.{'tests' if tests else 'proof'}.log"
    t=time.time()
    with open(log,"w+",errors="replace") as c.out:
        status=1
        try:
            os.makedirs(f"{c.folder}/out",exist_ok=True)
            if not tests and R.fmt(c.folder,"--check",c.out): c.out.write("NOT FORMATTED\n")
            status=c.ci(["--jobs",str(jobs)],tests)
        except SystemExit: pass
    if not status:
        with open(keyfile(c,tests),"w") as it: it.write(c.stamp())
        if not tests and not c.is_program:
            with open(f"{c.folder}/out/rlib/stamp","w") as it: it.write(c.stamp())
    s=time.time()-t
    ru=resource.getrusage(resource.RUSAGE_CHILDREN)
    print(f"{time.strftime('%H:%M:%S')} {c.name}{' tests' if tests else ''} {'ok' if not status else 'FAILED'} {s:.0f}s jobs {jobs}; cpu so far {ru.ru_utime+ru.ru_stime:.0f}",flush=True)
    with lock:
        times[f"{c.name}{'.tests' if tests else ''}"]=s if jobs==1 else s*1.5
        json.dump(times,open("/work/tools/times.json","w"))
    return not status
lock=threading.Lock()
tasks={}
for c in crates:
    if c.name in skip: continue
    tasks[c.name,False]=(c,[(b.name,False) for b in c.below()])
    if with_tests and c.has_tests(): tasks[c.name,True]=(c,[(b.name,False) for b in c.below()])
if only:
    need=set()
    for c in crates:
        if c.name in only: need|={c.name,*[b.name for b in c.below()]}
    tasks={k:v for k,v in tasks.items() if k[0] in need and (not k[1] or k[0] in only)}
behind={k:0 for k in tasks}
for k in reversed([*tasks]):
    behind[k]+=weight(tasks[k][0],k[1])
    for b in tasks[k][1]:
        if b in behind: behind[b]=max(behind[b],behind[k])
left=sorted(tasks,key=lambda k:-behind[k]); running={}
total=0.9*rt.free()
with ThreadPoolExecutor(8) as pool:
    while left or running:
        ready=[k for k in left if all(b in done for b in tasks[k][1])]
        for at,k in enumerate(ready):
            c=tasks[k][0]
            if any(not done[b] for b in tasks[k][1]):
                left.remove(k); done[k]=None; print("skipped",k,flush=True); continue
            n=0.7*rt.need(c); room=total-sum(x[1] for x in running.values()); idle=LANES-sum(x[2] for x in running.values())
            if idle>0 and (not running or n<=room):
                left.remove(k)
                jobs=max(1,min(3,idle//max(1,len(ready)-at), 1+int((room/n-1)/0.6)))
                running[pool.submit(work,c,k[1],jobs)]=(k,n*(1+0.6*(jobs-1)),jobs)
        if not running: 
            if not ready: break
            continue
        for f in wait(running,return_when=FIRST_COMPLETED).done: done[running.pop(f)[0]]=f.result()
bad=[k for k in tasks if not done.get(k)]
print("FAILED" if bad else "ALL OK",bad)
