more:
    @echo more
