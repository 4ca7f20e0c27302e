; A class whose initialiser reads a field of InitialisedRight, whose own initialiser reads one of this class.
.class public InitialisedLeft
.super java/lang/Object
.field static value I

.method static <clinit>()V
  .limit stack 2
  getstatic InitialisedRight/value I
  iconst_1
  iadd
  putstatic InitialisedLeft/value I
  return
.end method
