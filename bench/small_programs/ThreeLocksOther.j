; The third thread of ThreeLocks.
.class public ThreeLocksOther
.super java/lang/Thread

.method public <init>()V
  aload_0
  invokenonvirtual java/lang/Thread/<init>()V
  return
.end method

.method public run()V
  .limit stack 2
  ldc "three"
  ldc "one"
  invokestatic ThreeLocks/both(Ljava/lang/Object;Ljava/lang/Object;)V
  return
.end method
