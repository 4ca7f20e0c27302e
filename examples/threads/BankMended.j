; Bank, mended: `withdraw` is synchronized too, so it owns the monitor from the test to the write. A thread may take a
; monitor again that it owns, so `withdraw` still calls `read` and `write`. All schedules with at most two departures pay
; 100, and `withdraw` is atomic: jvmx explore --entry BankMended --spec examples/threads/classes/BankMended.spec
; --departures 2 examples/threads/BankMended.j ends with `covered 2`.
.class public BankMended
.super java/lang/Thread
.field static balance I = 100
.field paid I

.method public <init>()V
  aload_0
  invokenonvirtual java/lang/Thread/<init>()V
  return
.end method

.method static synchronized read()I
  getstatic BankMended/balance I
  ireturn
.end method

.method static synchronized write(I)V
  iload_0
  putstatic BankMended/balance I
  return
.end method

.method static synchronized withdraw()I
  .limit stack 2
  invokestatic BankMended/read()I
  bipush 100
  if_icmplt Refused
  invokestatic BankMended/read()I
  bipush 100
  isub
  invokestatic BankMended/write(I)V
  bipush 100
  ireturn
Refused:
  iconst_0
  ireturn
.end method

.method public run()V
  .limit stack 2
  aload_0
  invokestatic BankMended/withdraw()I
  putfield BankMended/paid I
  return
.end method

.method public static main([Ljava/lang/String;)V
  .limit stack 3
  .limit locals 3
  new BankMended
  dup
  invokespecial BankMended/<init>()V
  astore_1
  new BankMended
  dup
  invokespecial BankMended/<init>()V
  astore_2
  aload_1
  invokevirtual BankMended/start()V
  aload_2
  invokevirtual BankMended/start()V
  aload_1
  invokevirtual BankMended/join()V
  aload_2
  invokevirtual BankMended/join()V
  getstatic java/lang/System/out Ljava/io/PrintStream;
  aload_1
  getfield BankMended/paid I
  aload_2
  getfield BankMended/paid I
  iadd
  invokevirtual java/io/PrintStream/println(I)V
  return
.end method
