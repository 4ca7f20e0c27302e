; Three philosophers at a table with three forks. Each takes the left fork, and then the right one, and so each may
; hold one and wait for ever for the next. jvmx run --entry Philosophers examples/threads/Philosophers.j tells
; `status Deadlocked`; with --sched rr:99 all of them eat, and it prints 3.
.class public Philosophers
.super java/lang/Thread
.field static meals I
.field left Ljava/lang/Object;
.field right Ljava/lang/Object;

.method public <init>(Ljava/lang/Object;Ljava/lang/Object;)V
  .limit stack 2
  .limit locals 3
  aload_0
  invokenonvirtual java/lang/Thread/<init>()V
  aload_0
  aload_1
  putfield Philosophers/left Ljava/lang/Object;
  aload_0
  aload_2
  putfield Philosophers/right Ljava/lang/Object;
  return
.end method

.method public run()V
  .limit stack 2
  aload_0
  getfield Philosophers/left Ljava/lang/Object;
  monitorenter
  aload_0
  getfield Philosophers/right Ljava/lang/Object;
  monitorenter
  getstatic Philosophers/meals I
  iconst_1
  iadd
  putstatic Philosophers/meals I
  aload_0
  getfield Philosophers/right Ljava/lang/Object;
  monitorexit
  aload_0
  getfield Philosophers/left Ljava/lang/Object;
  monitorexit
  return
.end method

.method static fork()Ljava/lang/Object;
  .limit stack 2
  new java/lang/Object
  dup
  invokespecial java/lang/Object/<init>()V
  areturn
.end method

.method static seated(Ljava/lang/Object;Ljava/lang/Object;)LPhilosophers;
  .limit stack 4
  .limit locals 2
  new Philosophers
  dup
  aload_0
  aload_1
  invokespecial Philosophers/<init>(Ljava/lang/Object;Ljava/lang/Object;)V
  areturn
.end method

.method public static main([Ljava/lang/String;)V
  .limit stack 2
  .limit locals 7
  invokestatic Philosophers/fork()Ljava/lang/Object;
  astore_1
  invokestatic Philosophers/fork()Ljava/lang/Object;
  astore_2
  invokestatic Philosophers/fork()Ljava/lang/Object;
  astore_3
  aload_1
  aload_2
  invokestatic Philosophers/seated(Ljava/lang/Object;Ljava/lang/Object;)LPhilosophers;
  astore 4
  aload_2
  aload_3
  invokestatic Philosophers/seated(Ljava/lang/Object;Ljava/lang/Object;)LPhilosophers;
  astore 5
  aload_3
  aload_1
  invokestatic Philosophers/seated(Ljava/lang/Object;Ljava/lang/Object;)LPhilosophers;
  astore 6
  aload 4
  invokevirtual Philosophers/start()V
  aload 5
  invokevirtual Philosophers/start()V
  aload 6
  invokevirtual Philosophers/start()V
  aload 4
  invokevirtual Philosophers/join()V
  aload 5
  invokevirtual Philosophers/join()V
  aload 6
  invokevirtual Philosophers/join()V
  getstatic java/lang/System/out Ljava/io/PrintStream;
  getstatic Philosophers/meals I
  invokevirtual java/io/PrintStream/println(I)V
  return
.end method
