; A lazy initialisation that races: `get` makes the object where there is none, and two threads may both find none.
; jvmx run --entry Lazy --spec examples/threads/Lazy.spec examples/threads/Lazy.j prints how many objects it gave,
; 2, and that `get` wasn't atomic; with --sched rr:99 it prints 1.
.class public Lazy
.super java/lang/Thread
.field static instance Ljava/lang/Object;
.field given Ljava/lang/Object;

.method public <init>()V
  aload_0
  invokenonvirtual java/lang/Thread/<init>()V
  return
.end method

.method static get()Ljava/lang/Object;
  .limit stack 2
  getstatic Lazy/instance Ljava/lang/Object;
  ifnonnull Made
  new java/lang/Object
  dup
  invokespecial java/lang/Object/<init>()V
  putstatic Lazy/instance Ljava/lang/Object;
Made:
  getstatic Lazy/instance Ljava/lang/Object;
  areturn
.end method

.method public run()V
  .limit stack 2
  aload_0
  invokestatic Lazy/get()Ljava/lang/Object;
  putfield Lazy/given Ljava/lang/Object;
  return
.end method

.method public static main([Ljava/lang/String;)V
  .limit stack 3
  .limit locals 3
  new Lazy
  dup
  invokespecial Lazy/<init>()V
  astore_1
  new Lazy
  dup
  invokespecial Lazy/<init>()V
  astore_2
  aload_1
  invokevirtual Lazy/start()V
  aload_2
  invokevirtual Lazy/start()V
  aload_1
  invokevirtual Lazy/join()V
  aload_2
  invokevirtual Lazy/join()V
  getstatic java/lang/System/out Ljava/io/PrintStream;
  aload_1
  getfield Lazy/given Ljava/lang/Object;
  aload_2
  getfield Lazy/given Ljava/lang/Object;
  if_acmpeq Same
  iconst_2
  goto Print
Same:
  iconst_1
Print:
  invokevirtual java/io/PrintStream/println(I)V
  return
.end method
