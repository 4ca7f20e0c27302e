; main writes a divisor by which a thread divides: with one departure the thread divides by 0, and ends by an exception that
; nothing catches.
.class public Divided
.super java/lang/Thread
.field static divisor I
.field static quotient I

.method public <init>()V
  aload_0
  invokenonvirtual java/lang/Thread/<init>()V
  return
.end method

.method public run()V
  .limit stack 2
  bipush 6
  getstatic Divided/divisor I
  idiv
  putstatic Divided/quotient I
  return
.end method

.method public static main([Ljava/lang/String;)V
  .limit stack 2
  .limit locals 2
  new Divided
  dup
  invokespecial Divided/<init>()V
  astore_1
  aload_1
  invokevirtual Divided/start()V
  iconst_2
  putstatic Divided/divisor I
  aload_1
  invokevirtual Divided/join()V
  getstatic java/lang/System/out Ljava/io/PrintStream;
  getstatic Divided/quotient I
  invokevirtual java/io/PrintStream/println(I)V
  return
.end method
