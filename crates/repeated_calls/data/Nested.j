; main calls a of an object. It is synchronized, and calls b of the same object, which is synchronized too and throws.
.class public Nested
.super java/lang/Object
.method public <init>()V
  aload_0
  invokenonvirtual java/lang/Object/<init>()V
  return
.end method
.method public synchronized a()V
  aload_0
  invokevirtual Nested/b()V
  return
.end method
.method public synchronized b()V
  .limit stack 2
  new java/lang/IllegalStateException
  dup
  invokespecial java/lang/IllegalStateException/<init>()V
  athrow
.end method
.method public static main([Ljava/lang/String;)V
  .limit stack 2
  new Nested
  dup
  invokespecial Nested/<init>()V
  invokevirtual Nested/a()V
  return
.end method
