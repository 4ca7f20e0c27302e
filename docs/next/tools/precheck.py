import sys
root=sys.argv[1]; names=set(sys.argv[2:])
sys.argv=['x',root]
src=open('/work/tools/t.py').read().split('t=time.time()\norig')[0]
exec(src)
orig=R.Crate.below
def below(self):
    if "fb" not in vars(self): self.fb=orig(self)
    return list(self.fb)
R.Crate.below=below
R.Crate=rt.Crate
rt.Crate.allowed=rt.handles_of(os.getcwd())
R.stop=rt.stop if hasattr(rt,'stop') else R.stop
crates=R.crates_below(os.getcwd())
bad=0
for it in crates:
    if names and it.name not in names: continue
    try:
        R.stop_on_links(it.folder); R.stop_on_unread(it.folder,crates); R.stop_on_text(it,"verdict"); rt.stop_on_words(it)
        if R.fmt(it.folder,"--check",sys.stdout): print(it.name,"FMT"); bad+=1
    except SystemExit as e:
        print(it.name,"STOPPED",e); bad+=1
for name in sorted(x for x in os.listdir(root) if x!='.git'):
    try:
        if os.path.isdir(f"{root}/{name}"): R.stop_on_unread(f"{root}/{name}",crates)
    except SystemExit as e: print(name,"UNREAD",e); bad+=1
print("bad",bad)
