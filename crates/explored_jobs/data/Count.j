; main and a thread count one each. `inc` reads the count and writes it, and the other may write between: with one departure
; an update is lost, and `inc` isn't atomic.
.class public Count
.super java/lang/Thread
.field static count I

.method public <init>()V
  aload_0
  invokenonvirtual java/lang/Thread/<init>()V
  return
.end method

.method static inc()V
  .limit stack 2
  getstatic Count/count I
  iconst_1
  iadd
  putstatic Count/count I
  return
.end method

.method public run()V
  invokestatic Count/inc()V
  return
.end method

.method public static main([Ljava/lang/String;)V
  .limit stack 2
  .limit locals 2
  new Count
  dup
  invokespecial Count/<init>()V
  astore_1
  aload_1
  invokevirtual Count/start()V
  invokestatic Count/inc()V
  aload_1
  invokevirtual Count/join()V
  getstatic java/lang/System/out Ljava/io/PrintStream;
  getstatic Count/count I
  invokevirtual java/io/PrintStream/println(I)V
  return
.end method
