; main waits until a thread has opened a gate. It looks at the gate and waits for it in two steps: with one departure the
; notification comes between them, and main waits for ever.
.class public Notification
.super java/lang/Thread
.field static open I

.method public <init>()V
  aload_0
  invokenonvirtual java/lang/Thread/<init>()V
  return
.end method

.method static synchronized open()V
  iconst_1
  putstatic Notification/open I
  ldc Notification
  invokevirtual java/lang/Object/notify()V
  return
.end method

.method static synchronized park()V
  ldc Notification
  invokevirtual java/lang/Object/wait()V
  return
.end method

.method public run()V
  invokestatic Notification/open()V
  return
.end method

.method public static main([Ljava/lang/String;)V
  .limit stack 2
  new Notification
  dup
  invokespecial Notification/<init>()V
  invokevirtual Notification/start()V
  getstatic Notification/open I
  ifne Open
  invokestatic Notification/park()V
Open:
  getstatic java/lang/System/out Ljava/io/PrintStream;
  getstatic Notification/open I
  invokevirtual java/io/PrintStream/println(I)V
  return
.end method
