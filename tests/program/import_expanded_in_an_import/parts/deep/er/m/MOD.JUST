wrong:
    @echo wrong
