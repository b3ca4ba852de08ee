other:
    @echo other
