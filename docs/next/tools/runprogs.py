import sys
names=set(sys.argv[2:]); root=sys.argv[1]
sys.argv=['x',root]
src=open('/work/tools/t.py').read().split('t=time.time()\norig')[0]
exec(src)
orig=R.Crate.below
def below(self):
    if "fb" not in vars(self): self.fb=orig(self)
    return list(self.fb)
R.Crate.below=below
R.Crate=rt.Crate
rt.Crate.allowed=rt.handles_of(os.getcwd())
made=rt.Crate.__init__
crates=R.crates_below(os.getcwd())
R.guarded()
bad=[]
for crate in crates:
    if names and crate.name not in names: continue
    for tests in (False,True):
        m=f"{crate.folder}/out/{crate.name}{'_tests' if tests else ''}"
        ends=[it for it in rt.BACKENDS.values() if (tests or crate.is_program) and os.path.isfile(m+it)]
        for e in ends:
            t=time.time(); ok=rt.run(crate,tests,e); print(crate.name,tests,e,ok,round(time.time()-t,1),flush=True)
            if not ok: bad.append((crate.name,tests,e))
print("BAD",bad)
