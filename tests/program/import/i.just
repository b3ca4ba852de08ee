b:
  @echo b
