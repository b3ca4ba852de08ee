third:
    @echo third
