mod b
mod c
