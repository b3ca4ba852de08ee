mod b '.'
