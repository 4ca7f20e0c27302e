; Lazy, mended: `get` is synchronized, so the second thread tests after the first has written. All schedules with at most
; two departures give one object, and `get` is atomic: jvmx explore --entry LazyMended
; --spec examples/threads/classes/LazyMended.spec --departures 2 examples/threads/LazyMended.j ends with `covered 2`.
.class public LazyMended
.super java/lang/Thread
.field static instance Ljava/lang/Object;
.field given Ljava/lang/Object;

.method public <init>()V
  aload_0
  invokenonvirtual java/lang/Thread/<init>()V
  return
.end method

.method static synchronized get()Ljava/lang/Object;
  .limit stack 2
  getstatic LazyMended/instance Ljava/lang/Object;
  ifnonnull Made
  new java/lang/Object
  dup
  invokespecial java/lang/Object/<init>()V
  putstatic LazyMended/instance Ljava/lang/Object;
Made:
  getstatic LazyMended/instance Ljava/lang/Object;
  areturn
.end method

.method public run()V
  .limit stack 2
  aload_0
  invokestatic LazyMended/get()Ljava/lang/Object;
  putfield LazyMended/given Ljava/lang/Object;
  return
.end method

.method public static main([Ljava/lang/String;)V
  .limit stack 3
  .limit locals 3
  new LazyMended
  dup
  invokespecial LazyMended/<init>()V
  astore_1
  new LazyMended
  dup
  invokespecial LazyMended/<init>()V
  astore_2
  aload_1
  invokevirtual LazyMended/start()V
  aload_2
  invokevirtual LazyMended/start()V
  aload_1
  invokevirtual LazyMended/join()V
  aload_2
  invokevirtual LazyMended/join()V
  getstatic java/lang/System/out Ljava/io/PrintStream;
  aload_1
  getfield LazyMended/given Ljava/lang/Object;
  aload_2
  getfield LazyMended/given Ljava/lang/Object;
  if_acmpeq Same
  iconst_2
  goto Print
Same:
  iconst_1
Print:
  invokevirtual java/io/PrintStream/println(I)V
  return
.end method
