import 'more/second.just'

first:
    @echo first
