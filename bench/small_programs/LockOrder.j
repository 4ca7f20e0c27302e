; main takes the left monitor and then the right one, and a thread the right one first: with one departure each waits for
; the other's.
.class public LockOrder
.super java/lang/Thread

.method public <init>()V
  aload_0
  invokenonvirtual java/lang/Thread/<init>()V
  return
.end method

.method static both(Ljava/lang/Object;Ljava/lang/Object;)V
  .limit locals 2
  aload_0
  monitorenter
  aload_1
  monitorenter
  aload_1
  monitorexit
  aload_0
  monitorexit
  return
.end method

.method public run()V
  .limit stack 2
  ldc "right"
  ldc "left"
  invokestatic LockOrder/both(Ljava/lang/Object;Ljava/lang/Object;)V
  return
.end method

.method public static main([Ljava/lang/String;)V
  .limit stack 2
  new LockOrder
  dup
  invokespecial LockOrder/<init>()V
  invokevirtual LockOrder/start()V
  ldc "left"
  ldc "right"
  invokestatic LockOrder/both(Ljava/lang/Object;Ljava/lang/Object;)V
  return
.end method
