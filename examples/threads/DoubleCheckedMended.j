; DoubleChecked, mended: the first use of the class DoubleCheckedMended$Holder initialises it, and the virtual machine has
; one thread do so while the others wait (JVMS 5.5). Later calls take no lock. All schedules with at most two departures
; give one object, and `get` is atomic: jvmx explore --entry DoubleCheckedMended
; --spec examples/threads/classes/DoubleCheckedMended.spec --departures 2 examples/threads/DoubleCheckedMended*.j ends with
; `covered 2`.
.class public DoubleCheckedMended
.super java/lang/Thread
.field given Ljava/lang/Object;

.method public <init>()V
  aload_0
  invokenonvirtual java/lang/Thread/<init>()V
  return
.end method

.method static get()Ljava/lang/Object;
  getstatic DoubleCheckedMended$Holder/instance Ljava/lang/Object;
  areturn
.end method

.method public run()V
  .limit stack 2
  aload_0
  invokestatic DoubleCheckedMended/get()Ljava/lang/Object;
  putfield DoubleCheckedMended/given Ljava/lang/Object;
  return
.end method

.method public static main([Ljava/lang/String;)V
  .limit stack 3
  .limit locals 3
  new DoubleCheckedMended
  dup
  invokespecial DoubleCheckedMended/<init>()V
  astore_1
  new DoubleCheckedMended
  dup
  invokespecial DoubleCheckedMended/<init>()V
  astore_2
  aload_1
  invokevirtual DoubleCheckedMended/start()V
  aload_2
  invokevirtual DoubleCheckedMended/start()V
  aload_1
  invokevirtual DoubleCheckedMended/join()V
  aload_2
  invokevirtual DoubleCheckedMended/join()V
  getstatic java/lang/System/out Ljava/io/PrintStream;
  aload_1
  getfield DoubleCheckedMended/given Ljava/lang/Object;
  aload_2
  getfield DoubleCheckedMended/given Ljava/lang/Object;
  if_acmpeq Same
  iconst_2
  goto Print
Same:
  iconst_1
Print:
  invokevirtual java/io/PrintStream/println(I)V
  return
.end method
