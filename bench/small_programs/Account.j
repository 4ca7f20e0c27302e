; main and a thread withdraw 1 each from an account that holds 1. Reading and writing the balance are synchronized, and
; `withdraw` as a whole isn't: with one departure both are paid.
.class public Account
.super java/lang/Thread
.field static balance I = 1
.field static paid I

.method public <init>()V
  aload_0
  invokenonvirtual java/lang/Thread/<init>()V
  return
.end method

.method static synchronized read()I
  getstatic Account/balance I
  ireturn
.end method

.method static synchronized write(I)V
  iload_0
  putstatic Account/balance I
  return
.end method

.method static withdraw()I
  invokestatic Account/read()I
  ifeq Refused
  iconst_0
  invokestatic Account/write(I)V
  iconst_1
  ireturn
Refused:
  iconst_0
  ireturn
.end method

.method public run()V
  invokestatic Account/withdraw()I
  putstatic Account/paid I
  return
.end method

.method public static main([Ljava/lang/String;)V
  .limit stack 3
  .limit locals 3
  new Account
  dup
  invokespecial Account/<init>()V
  astore_1
  aload_1
  invokevirtual Account/start()V
  invokestatic Account/withdraw()I
  istore_2
  aload_1
  invokevirtual Account/join()V
  getstatic java/lang/System/out Ljava/io/PrintStream;
  iload_2
  getstatic Account/paid I
  iadd
  invokevirtual java/io/PrintStream/println(I)V
  return
.end method
