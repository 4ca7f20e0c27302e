"""edits.py ROOT CRATE..: tries must-fail edits with remembered stamps, over built libraries"""
import sys
root,*names=sys.argv[1:]
sys.argv=['x',root]
exec(open('/work/tools/prove.py').read().split('done={}')[0])
for c in crates:
    if c.name in names:
        good,bad_=rt.edits_of(c); t=time.time()
        for well,text in rt.must_fail_all(c,good,["--jobs","1"]): print(well,text[:300],flush=True)
        print(c.name,len(good),bad_,round(time.time()-t),flush=True)
