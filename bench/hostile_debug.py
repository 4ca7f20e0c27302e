"""Shapes of scripts of the debugger, for bench/hostile.py."""
from hostile_runs import main_of, run_of
from hostile_shapes import flipped, shape, trial
from hostile_texts import BODY, method

PLACE = "M.main.([Ljava/lang/String;)V"
LOOP = "iconst_0\nistore 1\nLOOP:\niinc 1 1\nnop\ngoto LOOP\n"


def session(lines, files=None, *words):
    """Returns a session on a loop that counts, with a script."""
    return run_of(files or {"M.j": main_of(LOOP)}, *words, command="debug", script=lines)


@shape("0")
def steps(size, _):
    """lines of step 1"""
    return session("step 1\n" * (size // 7 // 4), None, "--max", "10000")


@shape("0")
def steps_back(size, _):
    """lines of back 1 from the end of a run"""
    return session("goto 1000000\n" + "back 1\n" * (size // 7 // 64))


@shape("0")
def picks(size, _):
    """lines of pick 0"""
    return session("pick 0\n" * (size // 7 // 16), None, "--max", "1")


@shape("0")
def faulty_lines(size, _):
    """lines that are no commands"""
    return session("x\n" * (size // 2))


@shape("0")
def empty_commands(size, _):
    """empty lines"""
    return session("\n" * size)


@shape("0")
def long_command(size, _):
    """one line that doesn't end"""
    return session("goto " + "1" * size)


@shape("0")
def long_zeros(size, _):
    """a number of many zeros"""
    return session("goto " + "0" * size + "7\n")


@shape("0")
def breakpoints(size, _):
    """breakpoints of one place"""
    return session(f"break {PLACE} 3\n" * (size // 4 // 38) + "continue\n")


@shape("0")
def breakpoints_passed(size, _):
    """breakpoints at a place that isn't met, and a run past them"""
    count = size // 4 // 32
    text = main_of(LOOP, method("f", BODY))
    return session("break M.f.()I 0\n" * count + "continue\n", {"M.j": text}, "--max", "2000")


@shape("0")
def breakpoints_deleted(size, _):
    """breakpoints that are added and then deleted from the first on"""
    count = size // 4 // 50
    return session(f"break {PLACE} 3\n" * count + "".join(f"delete {n + 1}\n" for n in range(count)))


@shape("0")
def many_frames_shown(size, _):
    """a thousand frames, shown again and again"""
    after = ".method static r()V\ninvokestatic M/r()V\nreturn\n.end method\n"
    files = {"M.j": main_of("invokestatic M/r()V\nreturn\n", after)}
    return session("goto 1000\n" + "frames 0\n" * (size // 9 // 1000), files)


@shape("0")
def steps_beside_heap(size, _):
    """lines of step 1 after a run that made a thousand objects"""
    body = "LOOP:\nnew M\npop\niinc 1 1\niload 1\nsipush 1000\nif_icmplt LOOP\nL:\nnop\ngoto L\n"
    return session("goto 7000\n" + "step 1\n" * (size // 7 // 64), {"M.j": main_of("iconst_0\nistore 1\n" + body)})


@trial
def flipped_script(random):
    """a script of the debugger with bytes changed"""
    commands = f"step 8,threads,back 1,frames 0,class M,object 1,break {PLACE} 1,continue,pick 0,trace,".replace(",", "\n")
    made = session("")
    made.script = flipped(commands.encode() * 3, random, 4, 128)
    return made
