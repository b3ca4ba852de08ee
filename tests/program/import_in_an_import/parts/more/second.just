second:
    @echo second
