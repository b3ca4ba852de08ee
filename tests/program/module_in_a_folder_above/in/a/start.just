mod b 'x/../..'
