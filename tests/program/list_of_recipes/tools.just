t:
  @true
