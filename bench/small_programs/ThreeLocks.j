; main and two threads take two of three monitors each, in a circle: with two departures each of them waits for the next.
.class public ThreeLocks
.super java/lang/Thread

.method public <init>()V
  aload_0
  invokenonvirtual java/lang/Thread/<init>()V
  return
.end method

.method static both(Ljava/lang/Object;Ljava/lang/Object;)V
  .limit locals 2
  aload_0
  monitorenter
  aload_1
  monitorenter
  aload_1
  monitorexit
  aload_0
  monitorexit
  return
.end method

.method public run()V
  .limit stack 2
  ldc "two"
  ldc "three"
  invokestatic ThreeLocks/both(Ljava/lang/Object;Ljava/lang/Object;)V
  return
.end method

.method public static main([Ljava/lang/String;)V
  .limit stack 2
  new ThreeLocks
  dup
  invokespecial ThreeLocks/<init>()V
  invokevirtual ThreeLocks/start()V
  new ThreeLocksOther
  dup
  invokespecial ThreeLocksOther/<init>()V
  invokevirtual ThreeLocksOther/start()V
  ldc "one"
  ldc "two"
  invokestatic ThreeLocks/both(Ljava/lang/Object;Ljava/lang/Object;)V
  return
.end method
