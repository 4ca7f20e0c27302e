; A thread loops until main has set a flag: with one departure it loops for as long as turns are taken, since the default
; never leaves it.
.class public Spinning
.super java/lang/Thread
.field static flag I

.method public <init>()V
  aload_0
  invokenonvirtual java/lang/Thread/<init>()V
  return
.end method

.method public run()V
Test:
  getstatic Spinning/flag I
  ifeq Test
  return
.end method

.method public static main([Ljava/lang/String;)V
  .limit stack 2
  new Spinning
  dup
  invokespecial Spinning/<init>()V
  invokevirtual Spinning/start()V
  iconst_1
  putstatic Spinning/flag I
  return
.end method
