inner:
    @echo inner
