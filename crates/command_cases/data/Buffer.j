; A buffer of one place, by which a thread hands 1, 2 and 3 to main. Neither has a lock: each waits in a loop until the
; other is done. jvmx run --entry Buffer examples/threads/Buffer.j prints the three numbers, in order, by any schedule
; in which both threads take turns for long enough.
.class public Buffer
.super java/lang/Thread
.field static full I
.field static item I

.method public <init>()V
  aload_0
  invokenonvirtual java/lang/Thread/<init>()V
  return
.end method

.method public run()V
  .limit stack 2
  .limit locals 2
  iconst_1
  istore_1
Next:
  iload_1
  iconst_3
  if_icmpgt Done
Wait:
  getstatic Buffer/full I
  ifne Wait
  iload_1
  putstatic Buffer/item I
  iconst_1
  putstatic Buffer/full I
  iinc 1 1
  goto Next
Done:
  return
.end method

.method public static main([Ljava/lang/String;)V
  .limit stack 2
  .limit locals 3
  new Buffer
  dup
  invokespecial Buffer/<init>()V
  astore_1
  aload_1
  invokevirtual Buffer/start()V
  iconst_3
  istore_2
Wait:
  getstatic Buffer/full I
  ifeq Wait
  getstatic java/lang/System/out Ljava/io/PrintStream;
  getstatic Buffer/item I
  invokevirtual java/io/PrintStream/println(I)V
  iconst_0
  putstatic Buffer/full I
  iinc 2 -1
  iload_2
  ifgt Wait
  aload_1
  invokevirtual Buffer/join()V
  return
.end method
