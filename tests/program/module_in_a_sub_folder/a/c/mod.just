mod d 'more'
