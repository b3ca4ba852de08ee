import '../others/deep/second.just'
