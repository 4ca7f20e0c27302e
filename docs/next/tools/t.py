import importlib.machinery, importlib.util, sys, time, os
sys.path.insert(0,"/opt/rattle/bin")
l=importlib.machinery.SourceFileLoader("rt_main","/opt/rattle/bin/rt")
rt=importlib.util.module_from_spec(importlib.util.spec_from_loader("rt_main",l)); l.exec_module(rt)
R=rt.rtlib
os.chdir(sys.argv[1])
import functools
t=time.time()
orig=R.Crate.below
def below(self):
    if "fb" not in vars(self): self.fb=orig(self)
    return list(self.fb)
R.Crate.below=below
R.Crate=rt.Crate
rt.Crate.allowed=rt.handles_of(os.getcwd())
cs=R.crates_below(os.getcwd())
print("load",time.time()-t, len(cs))
paths={}
def p(c):
    if c.name not in paths: paths[c.name]=1+sum(p(d) for d in c.deps)
    return paths[c.name]
for c in cs: p(c)
for n,v in sorted(paths.items(),key=lambda x:-x[1])[:25]: print(n,v)
print("sum", sum(paths.values()))
