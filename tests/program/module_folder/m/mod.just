b:
  @cat f
