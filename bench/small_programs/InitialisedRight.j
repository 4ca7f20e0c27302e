; A class whose initialiser reads a field of InitialisedLeft, whose own initialiser reads one of this class.
.class public InitialisedRight
.super java/lang/Object
.field static value I

.method static <clinit>()V
  .limit stack 2
  getstatic InitialisedLeft/value I
  iconst_1
  iadd
  putstatic InitialisedRight/value I
  return
.end method
