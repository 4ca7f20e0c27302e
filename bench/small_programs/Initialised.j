; main initialises InitialisedLeft, and a thread InitialisedRight. Each initialiser needs the other class: one thread alone
; initialises both, and with one departure each waits for the other. What is printed shows which of them came first.
.class public Initialised
.super java/lang/Thread

.method public <init>()V
  aload_0
  invokenonvirtual java/lang/Thread/<init>()V
  return
.end method

.method public run()V
  getstatic InitialisedRight/value I
  pop
  return
.end method

.method public static main([Ljava/lang/String;)V
  .limit stack 2
  new Initialised
  dup
  invokespecial Initialised/<init>()V
  invokevirtual Initialised/start()V
  getstatic java/lang/System/out Ljava/io/PrintStream;
  getstatic InitialisedLeft/value I
  invokevirtual java/io/PrintStream/println(I)V
  return
.end method
