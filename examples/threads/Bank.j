; A bank that pays twice: two threads withdraw 100 each from an account that holds 100. Reading and writing the balance
; are synchronized, and yet `withdraw` as a whole isn't atomic: between its reading and its writing the other reads.
; jvmx run --entry Bank --spec examples/threads/Bank.spec examples/threads/Bank.j prints what was paid, 200, and that
; `withdraw` wasn't atomic; with --sched rr:99 it prints 100.
.class public Bank
.super java/lang/Thread
.field static balance I = 100
.field paid I

.method public <init>()V
  aload_0
  invokenonvirtual java/lang/Thread/<init>()V
  return
.end method

.method static synchronized read()I
  getstatic Bank/balance I
  ireturn
.end method

.method static synchronized write(I)V
  iload_0
  putstatic Bank/balance I
  return
.end method

.method static withdraw()I
  .limit stack 2
  invokestatic Bank/read()I
  bipush 100
  if_icmplt Refused
  invokestatic Bank/read()I
  bipush 100
  isub
  invokestatic Bank/write(I)V
  bipush 100
  ireturn
Refused:
  iconst_0
  ireturn
.end method

.method public run()V
  .limit stack 2
  aload_0
  invokestatic Bank/withdraw()I
  putfield Bank/paid I
  return
.end method

.method public static main([Ljava/lang/String;)V
  .limit stack 3
  .limit locals 3
  new Bank
  dup
  invokespecial Bank/<init>()V
  astore_1
  new Bank
  dup
  invokespecial Bank/<init>()V
  astore_2
  aload_1
  invokevirtual Bank/start()V
  aload_2
  invokevirtual Bank/start()V
  aload_1
  invokevirtual Bank/join()V
  aload_2
  invokevirtual Bank/join()V
  getstatic java/lang/System/out Ljava/io/PrintStream;
  aload_1
  getfield Bank/paid I
  aload_2
  getfield Bank/paid I
  iadd
  invokevirtual java/io/PrintStream/println(I)V
  return
.end method
