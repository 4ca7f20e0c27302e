; LostUpdate, mended: `inc` is synchronized, so a thread owns the monitor of the class while it reads and writes the
; count, and the other thread can do neither. All schedules with at most two departures print 2, and `inc` is atomic:
; jvmx explore --entry LostUpdateMended --spec examples/threads/classes/LostUpdateMended.spec --departures 2
; examples/threads/LostUpdateMended.j ends with `covered 2`.
.class public LostUpdateMended
.super java/lang/Thread
.field static count I

.method public <init>()V
  aload_0
  invokenonvirtual java/lang/Thread/<init>()V
  return
.end method

.method public run()V
  invokestatic LostUpdateMended/inc()V
  return
.end method

.method static synchronized inc()V
  .limit stack 2
  getstatic LostUpdateMended/count I
  iconst_1
  iadd
  putstatic LostUpdateMended/count I
  return
.end method

.method public static main([Ljava/lang/String;)V
  .limit stack 2
  .limit locals 3
  new LostUpdateMended
  dup
  invokespecial LostUpdateMended/<init>()V
  astore_1
  new LostUpdateMended
  dup
  invokespecial LostUpdateMended/<init>()V
  astore_2
  aload_1
  invokevirtual LostUpdateMended/start()V
  aload_2
  invokevirtual LostUpdateMended/start()V
  aload_1
  invokevirtual LostUpdateMended/join()V
  aload_2
  invokevirtual LostUpdateMended/join()V
  getstatic java/lang/System/out Ljava/io/PrintStream;
  getstatic LostUpdateMended/count I
  invokevirtual java/io/PrintStream/println(I)V
  return
.end method
