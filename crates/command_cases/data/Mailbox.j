; A mailbox of one place, by which a thread hands 1, 2 and 3 to main. Each of them waits for the other by `wait`, where
; Buffer.j spins. jvmx run --entry Mailbox --spec examples/threads/Mailbox.spec examples/threads/Mailbox.j prints the
; three numbers in order, and that `fill` and `empty` were atomic, by any schedule in which both threads take turns for
; long enough. A call of `put` or `take` that waits isn't atomic: the other thread runs in the middle of it.
.class public Mailbox
.super java/lang/Thread
.field static full I
.field static item I

.method public <init>()V
  aload_0
  invokenonvirtual java/lang/Thread/<init>()V
  return
.end method

.method static fill(I)V
  iload_0
  putstatic Mailbox/item I
  iconst_1
  putstatic Mailbox/full I
  return
.end method

.method static empty()I
  .limit stack 2
  getstatic Mailbox/item I
  iconst_0
  putstatic Mailbox/full I
  ireturn
.end method

.method static synchronized put(I)V
Test:
  getstatic Mailbox/full I
  ifeq Free
  ldc Mailbox
  invokevirtual java/lang/Object/wait()V
  goto Test
Free:
  iload_0
  invokestatic Mailbox/fill(I)V
  ldc Mailbox
  invokevirtual java/lang/Object/notify()V
  return
.end method

.method static synchronized take()I
  .limit stack 2
Test:
  getstatic Mailbox/full I
  ifne Full
  ldc Mailbox
  invokevirtual java/lang/Object/wait()V
  goto Test
Full:
  invokestatic Mailbox/empty()I
  ldc Mailbox
  invokevirtual java/lang/Object/notify()V
  ireturn
.end method

.method public run()V
  .limit stack 2
  .limit locals 2
  iconst_1
  istore_1
Next:
  iload_1
  invokestatic Mailbox/put(I)V
  iinc 1 1
  iload_1
  iconst_4
  if_icmplt Next
  return
.end method

.method public static main([Ljava/lang/String;)V
  .limit stack 2
  .limit locals 3
  new Mailbox
  dup
  invokespecial Mailbox/<init>()V
  astore_1
  aload_1
  invokevirtual Mailbox/start()V
  iconst_3
  istore_2
Next:
  getstatic java/lang/System/out Ljava/io/PrintStream;
  invokestatic Mailbox/take()I
  invokevirtual java/io/PrintStream/println(I)V
  iinc 2 -1
  iload_2
  ifgt Next
  aload_1
  invokevirtual Mailbox/join()V
  return
.end method
