import 'third.just'
mod m
