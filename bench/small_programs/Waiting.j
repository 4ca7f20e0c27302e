; A thread waits, and nobody notifies it: it waits for ever, by any schedule. What main prints shows whether it came before.
.class public Waiting
.super java/lang/Thread
.field static count I

.method public <init>()V
  aload_0
  invokenonvirtual java/lang/Thread/<init>()V
  return
.end method

.method static synchronized park()V
  iconst_1
  putstatic Waiting/count I
  ldc Waiting
  invokevirtual java/lang/Object/wait()V
  return
.end method

.method public run()V
  invokestatic Waiting/park()V
  return
.end method

.method public static main([Ljava/lang/String;)V
  .limit stack 2
  new Waiting
  dup
  invokespecial Waiting/<init>()V
  invokevirtual Waiting/start()V
  getstatic java/lang/System/out Ljava/io/PrintStream;
  getstatic Waiting/count I
  invokevirtual java/io/PrintStream/println(I)V
  return
.end method
