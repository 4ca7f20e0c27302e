; Count with a monitor: `inc` is synchronized, so it is atomic and no update is lost, by any schedule.
.class public Guarded
.super java/lang/Thread
.field static count I

.method public <init>()V
  aload_0
  invokenonvirtual java/lang/Thread/<init>()V
  return
.end method

.method static synchronized inc()V
  .limit stack 2
  getstatic Guarded/count I
  iconst_1
  iadd
  putstatic Guarded/count I
  return
.end method

.method public run()V
  invokestatic Guarded/inc()V
  return
.end method

.method public static main([Ljava/lang/String;)V
  .limit stack 2
  .limit locals 2
  new Guarded
  dup
  invokespecial Guarded/<init>()V
  astore_1
  aload_1
  invokevirtual Guarded/start()V
  invokestatic Guarded/inc()V
  aload_1
  invokevirtual Guarded/join()V
  getstatic java/lang/System/out Ljava/io/PrintStream;
  getstatic Guarded/count I
  invokevirtual java/io/PrintStream/println(I)V
  return
.end method
