; main writes a flag, and a thread that doesn't find it set comes to an instruction that doesn't run: with one departure the
; run is stalled.
.class public Outside
.super java/lang/Thread
.field static flag I

.method public <init>()V
  aload_0
  invokenonvirtual java/lang/Thread/<init>()V
  return
.end method

.method public run()V
  getstatic Outside/flag I
  ifne Set
  fconst_0
  pop
Set:
  return
.end method

.method public static main([Ljava/lang/String;)V
  .limit stack 2
  new Outside
  dup
  invokespecial Outside/<init>()V
  invokevirtual Outside/start()V
  iconst_1
  putstatic Outside/flag I
  return
.end method
