; Two threads count one each, and may lose one of the two: `inc` reads the count and writes it, and the other thread may
; write between. jvmx run --entry LostUpdate examples/threads/LostUpdate.j prints the count.
.class public LostUpdate
.super java/lang/Thread
.field static count I

.method public <init>()V
  aload_0
  invokenonvirtual java/lang/Thread/<init>()V
  return
.end method

.method public run()V
  invokestatic LostUpdate/inc()V
  return
.end method

.method static inc()V
  .limit stack 2
  getstatic LostUpdate/count I
  iconst_1
  iadd
  putstatic LostUpdate/count I
  return
.end method

.method public static main([Ljava/lang/String;)V
  .limit stack 2
  .limit locals 3
  new LostUpdate
  dup
  invokespecial LostUpdate/<init>()V
  astore_1
  new LostUpdate
  dup
  invokespecial LostUpdate/<init>()V
  astore_2
  aload_1
  invokevirtual LostUpdate/start()V
  aload_2
  invokevirtual LostUpdate/start()V
  aload_1
  invokevirtual LostUpdate/join()V
  aload_2
  invokevirtual LostUpdate/join()V
  getstatic java/lang/System/out Ljava/io/PrintStream;
  getstatic LostUpdate/count I
  invokevirtual java/io/PrintStream/println(I)V
  return
.end method
