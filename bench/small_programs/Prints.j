; main and a thread print two numbers each, and nothing orders them: six outputs are possible.
.class public Prints
.super java/lang/Thread

.method public <init>()V
  aload_0
  invokenonvirtual java/lang/Thread/<init>()V
  return
.end method

.method static two(II)V
  .limit stack 2
  .limit locals 2
  getstatic java/lang/System/out Ljava/io/PrintStream;
  iload_0
  invokevirtual java/io/PrintStream/print(I)V
  getstatic java/lang/System/out Ljava/io/PrintStream;
  iload_1
  invokevirtual java/io/PrintStream/print(I)V
  return
.end method

.method public run()V
  .limit stack 2
  iconst_3
  iconst_4
  invokestatic Prints/two(II)V
  return
.end method

.method public static main([Ljava/lang/String;)V
  .limit stack 2
  new Prints
  dup
  invokespecial Prints/<init>()V
  invokevirtual Prints/start()V
  iconst_1
  iconst_2
  invokestatic Prints/two(II)V
  return
.end method
