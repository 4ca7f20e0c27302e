; A lazy initialisation with a lock that is taken only where there is no object yet. It gives both threads one object by
; any schedule, since each turn sees all turns before. But a thread that finds none and then waits for the lock does its
; part of `get` on both sides of the other's: jvmx run --entry DoubleChecked --spec examples/threads/DoubleChecked.spec
; examples/threads/DoubleChecked.j prints 1, and that `get` wasn't atomic.
.class public DoubleChecked
.super java/lang/Thread
.field static instance Ljava/lang/Object;
.field given Ljava/lang/Object;

.method public <init>()V
  aload_0
  invokenonvirtual java/lang/Thread/<init>()V
  return
.end method

.method static get()Ljava/lang/Object;
  .limit stack 2
  getstatic DoubleChecked/instance Ljava/lang/Object;
  ifnonnull Made
  ldc DoubleChecked
  monitorenter
  getstatic DoubleChecked/instance Ljava/lang/Object;
  ifnonnull Free
  new java/lang/Object
  dup
  invokespecial java/lang/Object/<init>()V
  putstatic DoubleChecked/instance Ljava/lang/Object;
Free:
  ldc DoubleChecked
  monitorexit
Made:
  getstatic DoubleChecked/instance Ljava/lang/Object;
  areturn
.end method

.method public run()V
  .limit stack 2
  aload_0
  invokestatic DoubleChecked/get()Ljava/lang/Object;
  putfield DoubleChecked/given Ljava/lang/Object;
  return
.end method

.method public static main([Ljava/lang/String;)V
  .limit stack 3
  .limit locals 3
  new DoubleChecked
  dup
  invokespecial DoubleChecked/<init>()V
  astore_1
  new DoubleChecked
  dup
  invokespecial DoubleChecked/<init>()V
  astore_2
  aload_1
  invokevirtual DoubleChecked/start()V
  aload_2
  invokevirtual DoubleChecked/start()V
  aload_1
  invokevirtual DoubleChecked/join()V
  aload_2
  invokevirtual DoubleChecked/join()V
  getstatic java/lang/System/out Ljava/io/PrintStream;
  aload_1
  getfield DoubleChecked/given Ljava/lang/Object;
  aload_2
  getfield DoubleChecked/given Ljava/lang/Object;
  if_acmpeq Same
  iconst_2
  goto Print
Same:
  iconst_1
Print:
  invokevirtual java/io/PrintStream/println(I)V
  return
.end method
